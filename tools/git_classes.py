"""The classes of texts in which Git and this library read different things.

The classes that mean another machine or another user come first, then those of another path, of the same place spelled
differently, and of texts that only one side refuses. A case is a text and its readings. A class returns, for a case, the parts that
differ because of it. A difference belongs to the classes that together return all of its parts, and is counted in the first of them.
"""
import re
from functools import cached_property

from row_text import text_of
from second_reading.git_reads import Reading

# The values that replace the protocol if Git's reading isn't one place: a local path that begins with `~`, for which `git
# fetch`, `git push` and `git ls-remote` look below a home folder and `git clone` takes the path literally; and a word that
# OpenSSH reads as a URL.
HOME, SECURE_URL = "home", "url of ssh"
ESCAPE = re.compile(rb"%([0-9A-Fa-f]{2})")
# The form of a URL for Git.
URL = re.compile(rb"[0-9A-Za-z][0-9A-Za-z+.-]*://(.*)", re.S)
WHERE, ALL = "user host port", "user host port path"


def of(parts, is_there=lambda case: True):
    """The class of such cases, in which these parts differ. Only a case that differs in one of them is tested."""
    names = frozenset(parts.split())
    return lambda case: names if case.differing & names and is_there(case) else frozenset()


def class_of(case, classes):
    """The name of the class in which a difference is counted; None if the classes don't return all of its parts."""
    named = {name: case.differing & parts(case) for name, parts in classes.items()}
    if frozenset().union(*named.values()) < case.differing:
        return None
    return next(name for name, found in named.items() if found)


def reported(reading):
    """A reading in one line, in the form of the examples."""
    if not isinstance(reading, tuple):
        return f"refused {reading or ''}".strip()
    first, *parts = (text_of(it) if isinstance(it, bytes) else it for it in reading)
    return " ".join([first, *(f"{name}={it}" for name, it in zip(reading._fields[1:], parts) if it is not None)])


class Case:
    """A text, and the readings of Git and of this library in it: readings, or words for the reason of a refusal; whether this
    library's reading is settled, the text that is written for it, and whether `agrees_with_git` is true for it."""

    def __init__(self, text, git, ours, is_settled=False, written=None, agrees=False):
        self.text, self.git, self.ours = text, git, ours
        self.is_settled, self.agrees, self.written = is_settled, agrees, written
        self.is_same = is_settled and written == text
        self.readings, self.said = {"Git": git, "here": ours}, (reported(git), ours)
        # The protocols that Git and this library read, None if there is no reading.
        self.git_protocol, self.protocol = (it.protocol if isinstance(it, Reading) else None for it in (git, ours))
        url = URL.fullmatch(text)
        # The text after the scheme of a URL, and the part before its path, with their escapes.
        self.rest, self.authority = url and url[1], url and url[1].partition(b"/")[0]
        # The bytes that Git splits: the rest of a URL with its escapes decoded, or any other text unchanged.
        self.cut = ESCAPE.sub(lambda it: bytes([int(it[1], 16)]), url[1]) if url else text

    @cached_property
    def differing(self):
        """The parts in which the readings differ; for a text that only one side refuses, the word for that."""
        refused = [it.replace(" ", "-") for it in (self.git, self.ours) if not isinstance(it, Reading)]
        if refused:
            return frozenset(refused if len(refused) == 1 else ())
        if self.git_protocol != self.protocol:
            return frozenset(["protocol"])
        return frozenset(it for it in ALL.split() if getattr(self.git, it) != getattr(self.ours, it))


def spelled(reading):
    """User, password, host and port concatenated: ignoring case, brackets, colons at an end, zeros of a port."""
    user = b"" if reading.user is None else reading.user + b"@"
    if reading.password is not None:
        user = user[:-1] + b":" + reading.password + b"@"
    port = b"" if reading.port is None else b":%d" % reading.port
    joined = (user + (reading.host or b"") + port).lower().replace(b"\0", b"%00")
    text = re.sub(rb"[\[\]]", b"", joined).replace(b":@", b"@")
    return re.sub(rb":[ \t+-]*0*(\d+)$", rb":\1", text.lstrip(b"@").rstrip(b":"))


def has(pattern, protocols, text="cut"):
    """Whether a case of these protocols has a pattern in one of its texts."""
    find = re.compile(pattern, re.S).search
    return lambda case: case.protocol in protocols.split() and find(getattr(case, text) or b"")


def bracket_after_at(case):
    is_local = case.protocol == "file" and case.rest is None and case.git_protocol in (None, "file", HOME)
    return not is_local and b"@[" in case.cut


def slash_after_bracket(case):
    if "protocol" in case.differing:
        return case.git.protocol == "ssh" and re.match(rb"\[.*/", case.text, re.S)
    return case.rest is not None and has(rb"(\A|@)\[[^\]]*/", "ssh git file")(case)


def escape_of_zero(case):
    """The parts of a URL in which Git leaves an escape of byte 0."""
    parts = case.differing & {"user", "host", "path"} if b"%00" in (case.rest or b"") else ()
    return frozenset(it for it in parts if b"%00" in (getattr(case.git, it) or b""))


def is_same_place(case):
    """Whether both sides read the same place: a host of `git://` is compared without the brackets around it."""
    is_bracketed = case.differing == {"host"} and case.protocol == "git" and case.ours.host == b"[" + (case.git.host or b"") + b"]"
    return not case.differing or is_bracketed


def is_cut(is_there):
    """Whether both sides read the same user, password, host and port concatenated, split at other places, for such a case."""
    return lambda case: is_there(case) and spelled(case.git) == spelled(case.ours)


CLASSES = {
    # Another machine or another user. `no-path`: Git finds no path because of brackets.
    "escaped-delimiter": of(ALL, has(rb"%(2[fF]|3[aA]|40|5[bBdD])", "ssh git", "authority")),
    "user-in-brackets": of(ALL, has(rb"\[[^\]/]*@[^\]/]*\]", "ssh git")),
    "bracket-after-at": of(ALL + " protocol no-path", bracket_after_at),
    "slash-after-bracket": of(ALL + " protocol no-path", slash_after_bracket),
    "user-after-bracket": of(ALL, has(rb"(\A|@)\[[^\]]*\][^/]*@", "ssh git")),
    "port-in-brackets": of(WHERE, is_cut(lambda it: "port" in it.differing and re.search(rb"\[[^\]]*:[ \t]*[+-]?[0-9]+\]", it.cut))),
    "port-without-host": of(WHERE, is_cut(lambda it: it.git.host is None and it.git.port is not None)),
    "password": of(WHERE, is_cut(has(rb"\A[^/]*:[^/]*@", "ssh", "rest"))),
    "user-of-git": of(WHERE, is_cut(has(rb"@", "git", "authority"))),
    "host-of-file": of("host", lambda it: it.protocol == "file"),
    # Another path.
    "byte-before-tilde": of("path", lambda it: it.protocol == "ssh" and it.rest is None
                            and it.git.path.startswith(b"~") and it.ours.path[1:] == it.git.path),
    "escape-in-file": of("path", lambda it: it.text.startswith(b"file://") and ESCAPE.search(it.text)),
    "brackets-in-local": of("path no-path", lambda it: not it.text.startswith(b"file://") and has(rb"(\A|@)\[.*\]", "file", "text")(it)),
    "home-of-local": of("protocol", lambda it: it.git_protocol == HOME),
    "escape-of-zero": escape_of_zero,
    # The same place, spelled differently.
    "brackets-of-git": of("host", is_cut(lambda it: it.protocol == "git" and (it.ours.host or b"").startswith(b"["))),
    "colon-of-host": of("host", is_cut(lambda it: (it.ours.host or b"").endswith(b":"))),
    "case-of-host": of("host", lambda it: (it.ours.host or b"").lower() == (it.git.host or b"").lower() != it.git.host),
    # Refused by Git alone, and by this library alone.
    "option": of("option"), "dash-path": of("strange-pathname"), "dash-host": of("strange-hostname"),
    "empty-user": of("empty-user"), "rsync": of("rsync"),
    "character": of("BadCharacter"), "port": of("BadPort"), "no-host": of("HostRequired"), "no-path": of("MissingPath"),
    "no-utf8": of("NotUtf8"), "no-scheme": of("NoScheme"),
}
