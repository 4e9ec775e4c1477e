"""The readers that may read a line differently, in the form of the JSON of `explain`: the first condition under which all read
alike that the location doesn't meet, by the conditions of `unambiguous`, and the hosts that groups of readers find, by `groups`.
"""
import re
from collections import namedtuple

from second_reading import grammar, hidden, octets, unambiguous, writing
from second_reading.explain import lossy
from second_reading.git_class import agrees_with_git
from second_reading.git_reads import git_reads
from second_reading.groups import host_name, other_hosts
from web_reads import curl_reads

# The conditions of the library after the first two, in its order, and the conditions of a text that are parts of each.
PARTS = {
    "Host": r"Host\w+|Label\w+|LastLabel|TwoNumbers", "User": r"User\w+", "Password": r"Password\w+", "Port": r"Port\w+",
    "PathBytes": r"Path(Space|Letter|Escape|Query|Fragment|Semicolon|Quote|Bracket|Byte)|Scp(Again|At|Colon|Mark|Bracket|Byte)"
                 r"|Local(Colon|Backslash|Control|Utf8)",
    "PathStart": r"Path(Slashes|Drive|Tilde|Dash)|FileTilde|Scp(Digits|Front)|Local(At|Slashes|Front)",
    "DotSegment": r"PathDots", "ScpHost": r"Scp(Letter|Scheme)", "ScpPath": r"ScpSlash",
}
# The host that Git connects to: None if it opens a local path.
GitHost = namedtuple("GitHost", "host")


def condition(v):
    """The first condition that a location doesn't meet; None if all read its text alike."""
    if not agrees_with_git(v):
        return "Git"
    broken = unambiguous.broken(writing.text(v))
    if writing.matching(v) is not None:
        return "Escapes"
    found = [name for name, parts in PARTS.items() if any(re.fullmatch(parts, it) for it in broken)]
    assert bool(found) == bool(broken), (v, broken)
    return found[0] if found else None


def git_host(line):
    """The host that Git connects to for a line, by curl over HTTP, if it is text; None if it connects to none, or if that isn't known."""
    if line.startswith((b"http://", b"https://")):
        found = None if b"\0" in line else curl_reads(line)
        return found and (None if "\ufffd" in lossy(found.host) else GitHost(found.host))
    for it in git_reads(line):
        return GitHost(None) if it.protocol == "file" else it.host and GitHost(it.host)
    return None


def shown(host, line):
    """The host, or a word if it isn't in a part of the line that is shown."""
    return lossy(host) if any(host in it for it in hidden.shown_parts(line)) else "redacted"


def others(line, own):
    """Each other host that groups find, with their names, in the order of the groups."""
    found = {}
    for group, host in other_hosts(line, own).items():
        found.setdefault(host_name(host), (host, []))[1].append(group)
    return [{"host": shown(host, line), "groups": groups} for host, groups in found.values()]


def as_url(v):
    """The location as a URL, without an escape, and with brackets around a host with a colon."""
    host = b"" if v.host is None else b"[%b]" % v.host if b":" in v.host else v.host
    return b"%b://%b%b%b%b" % (grammar.as_str(v.scheme), b"" if v.user is None else v.user + b"@", host, b"" if v.port is None else b":%d" % v.port, v.path)


def instead(line, v):
    """A URL of the same place that all read alike, or in which no group finds another host, though one does in the line; None
    if there is none, a part of one may be a secret, or the line begins as a URL that lacks a slash."""
    is_slip = re.match(rb"(?:ssh|https?|file|ftps?|git\+ssh|ssh\+git):/(?!/)", line)
    if is_slip or v.scheme[0] not in ("Ssh", "Git", "File") or v.password is not None or not v.path.startswith(b"/") or not octets.is_utf8(v.path):
        return None
    text = as_url(v)
    w = None if hidden.places(line) or hidden.places(text) else grammar.spells(text)
    if not agrees_with_git(v) or condition(v) is None or w is None or w._replace(flag=v.flag, spelling=v.spelling) != v or not agrees_with_git(w):
        return None
    is_better = condition(w) is None or other_hosts(line, v.host)
    return text if is_better and not other_hosts(text, w.host) else None


def readers(line, v):
    """The readers that may read a line differently; None if all read it alike, as far as is known."""
    if v is None:
        git = git_host(line)
        found = git and others(line, git.host)
        return {"condition": None, "others": found, "instead": None} if found else None
    unmet, found = condition(v), others(line, v.host)
    return {"condition": unmet, "others": found, "instead": lossy(instead(line, v))} if unmet or found else None
