"""The classes of HTTP texts in which this library, Git's credential code and libcurl read different things.

A part that differs is named with its reader: Git's credential code, libcurl or the server, as in `git:host`; `refusal`
represents all parts. Classes that mean another host, user or password come first, then those of another path, of the same place
spelled differently, and of texts that one reader refuses.
"""
import re
from functools import cached_property

from git_classes import of, reported
from second_reading import settled_class, writing
from second_reading.web_defined import trimmed_path
from second_reading.web_plain import broken
from web_reads import (
    CONTROL, NO_HOST, Web, address, credential_reads, curl_reads, cut, decoded, for_credential, for_curl, literal, located, spelled_path)


class WebCase:
    """A text with the location that this library reads in it, and the readings of the two others: a `Web`, or the reason of a refusal."""

    def __init__(self, text, location):
        self.text, self.location, self.host = text, location, location.host
        self.credential, self.curl = credential_reads(text), curl_reads(text)
        self.readings = {"credential code": self.credential, "libcurl": self.curl}
        self.said = reported(self.credential), reported(self.curl)
        # The location in the form of Git's credential code.
        self.own = for_credential(location)
        # The text before the last `@`, None if there is none.
        information, at, _ = cut(text)[1].rpartition(b"@")
        self.information = information if at else None
        # The host without the colon that may end it, and the escaped path, without query and fragment.
        self.name, self.is_literal = self.host.removesuffix(b":"), self.host.startswith(b"[")
        self.spelled = spelled_path(location)
        self.path = re.match(rb"[^?#]*", self.spelled)[0]

    @cached_property
    def differing(self):
        """The parts that a reader reads differently from this library."""
        found = different("git", self.credential, self.own) | different("curl", self.curl, for_curl(self.location))
        # The server gets user and password in one piece, and splits it at the first colon (RFC 7617).
        return found | {"server:user"} if b":" in (self.location.user or b"") else found

    @cached_property
    def is_settled(self):
        return settled_class.settled(self.location)

    @cached_property
    def broken(self):
        """The conditions of `agrees_with_git` that the location misses."""
        return broken(self.location)

    @cached_property
    def is_alike(self):
        """Whether all readers read the location's own parts, except for trailing slashes of a path and the spelling of an address."""
        is_trimmed = isinstance(self.credential, Web) and (self.credential.path or None) == trimmed_path(self.location.path[1:])
        return self.differing <= CLASSES["long-address"](self) | ({"git:path"} if is_trimmed else set())

    @cached_property
    def is_written_so(self):
        """Whether the location is settled and the text is the one written for it."""
        return self.is_settled and writing.text(self.location) == self.text


def cases_of(texts):
    return [WebCase(text, it) for text, it in ((it, located(it)) for it in texts) if it is not None]


def different(name, reading, wanted):
    if not isinstance(reading, Web):
        return {f"{name}:refusal"}
    return {f"{name}:{it}" for it in Web._fields if getattr(reading, it) != getattr(wanted, it)}


def is_left(read, wanted, edge=b""):
    """Whether escapes before a colon are left that this library decodes, whatever is at the edges."""
    return re.search(rb"%.*:", read or b"", re.S) and decoded(read).strip(edge) == (wanted or b"").strip(edge)


def escape_of_zero(case):
    """Byte 0, which stays an escape."""
    parts = {it for it in ("user", "password", "path") if b"\0" in (getattr(case.location, it) or b"")}
    by_curl = {it for it in parts if it != "path"}
    return {f"git:{it}" for it in parts} | {f"curl:{it}" for it in by_curl | ({"refusal"} if by_curl else set())}


def case_of_host(case):
    hosts = {name: it.host for name, it in (("git", case.credential), ("curl", case.curl)) if isinstance(it, Web)}
    is_there = any(it != it.lower() for it in hosts.values())
    return {f"{name}:host" for name, it in hosts.items() if is_there and it.lower() in (case.host, case.name)}


CLASSES = {
    # Another host, user or password.
    "second-at": of("git:user git:password git:host git:port curl:refusal", lambda it: b"@" in (it.information or b"")),
    "escape-in-host": of("git:host git:port curl:host curl:refusal", lambda it: b"%" in it.host and not it.is_literal),
    "number-as-host": of("curl:host", lambda it: address(it.name) not in (None, it.name)),
    "zone": of("git:host curl:host curl:refusal", lambda it: it.is_literal and b"%25" in it.host),
    "colon-in-user": of("server:user"),
    "colon-in-password": of("git:password", lambda it: is_left(it.credential.password, it.own.password)),
    # An empty user or an empty password, which this library reads as none.
    "empty-information": of("git:user git:password curl:user curl:password", lambda it: (it.information or b":").endswith(b":")
                            and it.information is not None),
    # Another path.
    "dot-segments": of("curl:path", lambda it: re.search(rb"/\.\.?(/|$)", it.path)),
    "fragment": of("curl:path", lambda it: b"#" in it.spelled),
    "colon-in-path": of("git:path", lambda it: is_left(it.credential.path, it.own.path, b"/")),
    "escape-of-zero": escape_of_zero,
    # The same place, spelled differently.
    "slashes-of-path": of("git:path", lambda it: it.credential.path.strip(b"/") == it.own.path.strip(b"/")),
    "path-without-slash": of("curl:path", lambda it: it.path == b""),
    "empty-query": of("curl:path", lambda it: re.fullmatch(rb"[^?#]*\?(#.*)?", it.spelled, re.S)),
    "case-of-host": case_of_host,
    "zeros-of-port": of("git:port", lambda it: int(it.credential.port or -1) == int(it.own.port or -2)),
    "colon-of-host": of("curl:host", lambda it: it.host.endswith(b":") and it.curl.host.lower() == it.name.lower()),
    "long-address": of("curl:host", lambda it: it.is_literal and b"%" not in it.name and literal(it.name) not in (None, it.name)),
    # Refused by another reader.
    "mark-in-host": of("curl:refusal", lambda it: not it.is_literal and NO_HOST.search(it.name)),
    "control": of("curl:refusal", lambda it: CONTROL.search(it.text)),
    "line-end": of("git:refusal", lambda it: it.credential == "line end"),
    "carriage-return": of("git:refusal", lambda it: it.credential == "carriage return"),
}
