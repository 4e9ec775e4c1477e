"""A second reading of `GitReads`, the definition of Git's reading of a text (`crates/git_reads/specs/Git.antt`).

Each function is a relation of the definition, and returns everything that it relates to its arguments: it tries every split of
the text, and checks the condition of each case. It doesn't call Git: `tests/witnesses` compares it with Git. `unread`
returns the reason why a text has no reading, by its name in `explain`.
"""
import re
from collections import namedtuple

from second_reading.octets import cuts

# The reading of a side: the protocol, `helper NAME` if Git passes it to another program, and the parts that are present.
Reading = namedtuple("Reading", "protocol user password host port path")
PROTOCOLS = {b"ssh": "ssh", b"git+ssh": "ssh", b"ssh+git": "ssh", b"git": "git", b"file": "file"}
HELPER_FORM = re.compile(rb"[0-9A-Za-z][0-9A-Za-z+.-]*::")
HELPER_URL = re.compile(rb"([0-9A-Za-z][0-9A-Za-z+.-]*)://")
ON_THIS_MACHINE = Reading("file", None, None, None, None, b"")


def decoded(text):
    """A text with its escapes decoded, except that of byte 0, which neither Git nor libcurl decodes."""
    return re.sub(rb"%(?!00)([0-9A-Fa-f]{2})", lambda it: bytes([int(it[1], 16)]), text)


def first_cuts(text, mark):
    return [(front, rest) for front, rest in cuts(text, mark) if mark not in front]


def opens_host(text):
    """The front before a bracket that opens a host, and the text after the bracket."""
    at_front = [(b"", text[1:])] if text[:1] == b"[" and b"@[" not in text else []
    return at_front + [(user + b"@", rest) for user, rest in first_cuts(text, b"@[")]


def in_brackets(text):
    """The front, the content of the brackets of a host, and the text after them: nothing if there are none."""
    return [(front, inside, suffix) for front, rest in opens_host(text) for inside, suffix in first_cuts(rest, b"]")]


def host_ends(text):
    """The skipped bytes, and the rest."""
    return [(front + b"[" + inside, b"]" + suffix) for front, inside, suffix in in_brackets(text)] or [(b"", text)]


def places(mark, text):
    """The place before a mark that isn't skipped, and the text after the mark."""
    return [(passed + between, rest) for passed, end in host_ends(text) for between, rest in first_cuts(end, mark)]


def git_port(text):
    """The port that a text spells for C's `strtol`, None if it spells none."""
    is_number = re.fullmatch(rb"[\t-\r ]*[+-]?[0-9]+", text)
    return int(text) if is_number and 0 <= int(text) < 65536 else None


def before_ports(text):
    found = [] if b":" in text else [(text, None)]
    for front, digits in first_cuts(text, b":"):
        port = git_port(digits)
        # A port, or a lone colon, or no mark of a port.
        found.append((text, None) if digits and port is None else (front, port))
    return found


def hosts_and_ports(place):
    brackets = [(front + inside, port) for front, inside, suffix in in_brackets(place) for _, port in before_ports(suffix)]
    return brackets or before_ports(place)


def secure_ports(named, found):
    """The word for Secure Shell, and the port."""
    if found is not None:
        return [(named, found)]
    inside = [(front, git_port(digits)) for front, digits in first_cuts(named, b":")]
    return [(named if port is None else word, port) for word, port in inside] or [(named, None)]


def user_cuts(word):
    """User and host of a word: it is split at its last `@`. OpenSSH reads a word that begins with `ssh://` as a URL."""
    if word.startswith(b"ssh://"):
        return []
    alone = [] if b"@" in word else [(None, word)]
    return alone + [(name, host) for name, host in cuts(word, b"@") if name and b"@" not in host]


def secure_words(place, path):
    """The words for user and host, and for a port, that Secure Shell gets."""
    words = [it for named, found in hosts_and_ports(place) for it in secure_ports(named, found)]
    return [(word, port) for word, port in words if word[:1] != b"-" and path[:1] != b"-"]


def reaches_secure(place, path):
    words = secure_words(place, path)
    return [Reading("ssh", user, None, host or None, port, path) for word, port in words for user, host in user_cuts(word)]


def reaches_git(place, path):
    found = [] if b"\n" in place or b"\n" in path else hosts_and_ports(place)
    return [Reading("git", None, None, host or None, port, path) for host, port in found]


def from_tilde(path):
    return path[1:] if path[1:2] == b"~" else path


def reads_url(protocol, place, path):
    """The readings of a URL of a transport with this place and this path, which begins with its `/`."""
    if protocol == "file":
        return [ON_THIS_MACHINE._replace(path=path)]
    return (reaches_secure if protocol == "ssh" else reaches_git)(place, from_tilde(path))


def is_remote(text):
    """Whether the text has a colon before any `/`."""
    return any(b"/" not in front for front, _ in cuts(text, b":"))


def is_other(text):
    """Whether the text isn't a URL, and not for a remote helper or `rsync`."""
    return not (b"://" in text or HELPER_FORM.match(text) or text.startswith((b"::", b"rsync:")))


def reads_other(text):
    """The readings of a text that isn't a URL: the scp form and local paths."""
    if not is_other(text):
        return []
    is_local = b":" not in text or any(b":" not in front for front, _ in cuts(text, b"/"))
    remote = [it for place, path in places(b":", text) for it in reaches_secure(place, from_tilde(path))] if is_remote(text) else []
    # `-` begins an option, and `~` a home folder or a name.
    paths = [path for _, path in host_ends(text) if is_local and path and path[:1] not in (b"-", b"~")]
    return remote + [ON_THIS_MACHINE._replace(path=path) for path in paths]


def own_urls(text):
    """The protocol of a URL of a transport, and the text after the `://`, decoded."""
    return [(PROTOCOLS[scheme], decoded(rest)) for scheme, rest in cuts(text, b"://") if scheme in PROTOCOLS]


def git_reads(text):
    if b"\0" in text or text[:1] == b"-":
        return set()
    urls = own_urls(text)
    own = [it for protocol, rest in urls for place, path in places(b"/", rest) for it in reads_url(protocol, place, b"/" + path)]
    return {*own, *reads_other(text)}


# ---- texts without a reading

def is_for_helper(text):
    """Whether Git passes the text to a remote helper: `name::address`, or a URL of a scheme that isn't Git's own."""
    scheme = HELPER_URL.match(text)
    return HELPER_FORM.match(text) or text.startswith(b"::") or (scheme and scheme[1] not in (*PROTOCOLS, b"rsync"))


def secure_places(text):
    urls = [(place, b"/" + path) for protocol, rest in own_urls(text) if protocol == "ssh" for place, path in places(b"/", rest)]
    return [*urls, *(places(b":", text) if is_other(text) and is_remote(text) else [])]


def unread(text):
    words = [it for place, path in secure_places(text) for it, _ in secure_words(place, from_tilde(path))]
    reasons = {
        "ByteZero": b"\0" in text,
        "Option": text.startswith(b"-"),
        "RemoteHelper": is_for_helper(text),
        "HomeOrHere": is_other(text) and not is_remote(text) and text.startswith(b"~"),
        "SecureShellUrl": any(it.startswith(b"ssh://") for it in words),
        "Refused": True,
    }
    return next(name for name, is_so in reasons.items() if is_so)
