"""The dangers in a line and in the location that is read in it: a second reading of the definitions of `Danger`."""
import re

from second_reading import grammar
from second_reading.git_reads import git_reads
from second_reading.groups import is_own, other_hosts
from second_reading.web_defined import credential_readings

FRONTS = rb"ghp_|gho_|ghu_|ghs_|ghr_|github_pat_|glpat-|gldt-|glrt-|glcbt-|glptt-|glft-|glimt-|glagent-|gloas-|glsoat-|ATBB|ATCTT3"
# A user of HTTP without a password that is at least this long may be a token.
LONG_USER = 20
# A word of a path that is a token: it has at least 24 bytes.
WORD = re.compile(rb"(?<![0-9A-Za-z_-])(?=[0-9A-Za-z_-]{24})(?:" + FRONTS + rb")")
# The words for each danger.
WORDS = {
    "command": "it runs a command", "option_like_user": "the user begins with -", "option_like_host": "the host begins with -",
    "option_like_path": "the path begins with - or /-", "password": "it holds a password", "token": "it may hold a token",
    "host_character": "the host holds a control character or a space", "line_end": "a part holds the end of a line",
    "other_host": "Git takes another host from it", "misread_host": "other programs take another host or port from it",
}


def is_token(v):
    """Whether the user or a word of the path may be a token."""
    user = v.user or b""
    is_long = v.scheme in grammar.HTTP_SCHEMES and v.password is None and len(user) >= LONG_USER
    return bool(re.match(FRONTS, user)) or is_long or bool(WORD.search(v.path))


def is_other_host(line, v):
    """Whether Git reads another host in the line than that of the location."""
    if v.scheme not in grammar.HTTP_SCHEMES:
        return any(it.host is not None and not is_own(v.host, it.host) for it in git_reads(line))
    return any(not is_own(v.host, it.host) and not is_own(v.host, re.sub(rb":\d*\Z", b"", it.host)) for it in credential_readings(line))


def dangers(line, v):
    """The names of the dangers, in their order."""
    parts = [it for it in (v.user, v.password, v.host, v.path) if it is not None]
    found = {
        "command": v.scheme == ("Ext",),
        "option_like_user": (v.user or b"").startswith(b"-"),
        "option_like_host": (v.host or b"").startswith(b"-"),
        "option_like_path": v.path.startswith((b"-", b"/-")),
        "password": v.password is not None,
        "token": is_token(v),
        "host_character": any(it <= 32 or it == 127 for it in v.host or b""),
        "line_end": v.host is not None and any(it in b"\n\r\0" for part in parts for it in part),
        "other_host": is_other_host(line, v),
        "misread_host": bool(other_hosts(line, v.host)),
    }
    return [name for name, is_there in found.items() if is_there]
