"""The place and the reason of the error in a refused text, by a second reading of docs/GRAMMAR.md.

Its purpose: the reason, `at` and `len` of a refusal are computed here, and not by the library. Each function returns the first
flaw of a piece in the order of checks, or None: `a or b` is the result of the check `a`, or else of `b`.
"""
import re
from collections import namedtuple

from second_reading import grammar, hosts, octets

# The offset of the flaw in bytes; the number of faulty bytes, 0 if something is missing; and the reason.
Place = namedtuple("Place", "at len reason")

SENTENCES = {
    "Empty": "the text is empty",
    "SchemeTooLong": "the scheme is longer than 1024 bytes",
    "AuthorityTooLong": "more than 1024 bytes follow `://` before the path; slashes directly after `://` do not start one",
    "NotUtf8": "these bytes are not UTF-8",
    "WhiteSpace": "white space is not allowed in a URL: remove it, or write a space as `%20`",
    "BrokenEscape": "a `%` must be followed by two hexadecimal digits",
    "SchemeMissing": "the scheme before `://` is missing",
    "SchemeStart": "a scheme must begin with a letter from a to z",
    "SchemeCharacter": "only letters, digits, `+`, `-` and `.` are allowed in a scheme",
    "WhiteSpaceInHost": "white space is not allowed in a host",
    "Backslash": "a backslash is not allowed in the authority",
    "BackslashInHost": "a backslash is not allowed in a host",
    "EscapesNotUtf8": "these escapes decode to bytes that are not UTF-8",
    "UnclosedBracket": "the host has a `[` and no `]`",
    "BehindBracket": "only a `:` may follow the `]` of a host",
    "NotAnAddress": "the brackets must contain an IPv6 address, which may be followed by `%25` and a zone",
    "AddressWithoutBrackets": "an IPv6 address must be in brackets",
    "SecondColon": "a host can't contain a `:`: only the one before the port is allowed",
    "HostBeforePort": "the host before the `:` is missing",
    "PortNotANumber": "a port must be a decimal number",
    "HostCharacter": "this character is not allowed in the host of HTTP",
    "PortTooLarge": "a port must be at most 65535",
    "PortZero": "the port of HTTP must not be 0",
    "HostBehindUser": "the host after the `@` is missing",
    "HostMissing": "a host is required and there is none",
    "PathMissing": "a path is required: write `/` and the path after the host",
    "FilePathMissing": "a file URL needs a path: write `file:///path`",
    "ScpPathMissing": "the path after the `:` is missing",
}


# ---------------------------------------------------------------------------------------------------------------
# Characters

def first(t, at, reason, is_wrong):
    """The first faulty character of a text in UTF-8."""
    for c in map(str.encode, t.decode("utf-8")):
        if is_wrong(c):
            return Place(at, len(c), reason)
        at += len(c)
    return None


def not_text(t, at, reason, units):
    """The first units of a text that aren't UTF-8; `t` is the decoded text, and `at` its offset."""
    try:
        t.decode("utf-8")
    except UnicodeDecodeError as error:
        sizes = [len(it) for it in units]
        return Place(at + sum(sizes[:error.start]), sum(sizes[error.start:error.end]), reason)
    return None


def not_utf8(b):
    return not_text(b, 0, "NotUtf8", [b"."] * len(b))


def undecodable(t, at):
    """The first bytes or escapes that don't decode to text."""
    return not_text(octets.dec(t), at, "EscapesNotUtf8", re.findall(rb"(?s)%[0-9A-Fa-f]{2}|.", t))


def white_space(t, at, reason):
    return first(t, at, reason, lambda c: c in octets.WHITE_SPACE)


def backslash(t, at, reason):
    return first(t, at, reason, lambda c: c == b"\\")


def broken_escape(b):
    return next((Place(at, 1, "BrokenEscape") for at in range(len(b)) if b[at] == 37 and not octets.is_escape(b[at:at + 3])), None)


# ---------------------------------------------------------------------------------------------------------------
# Hosts and ports

def digits_fault(digits, at):
    return Place(at, len(digits), "PortNotANumber") if any(b not in octets.DIGITS for b in digits) else None


def range_fault(mode, digits, at):
    if digits == b"" or hosts.num(mode, digits) is not None:
        return None
    return Place(at, len(digits), "PortTooLarge" if int(digits) > 65535 else "PortZero")


def inner_fault(mode, x, at):
    """The fault of the text between brackets."""
    if hosts.inner(mode, x) is not None:
        return None
    return Place(at, len(x), "NotAnAddress") if mode == hosts.STRICT else undecodable(x, at)


def bracket_fault(mode, piece, at):
    """The fault of a piece that begins with a bracket."""
    x, closing, back = piece[1:].partition(b"]")
    if not closing:
        return Place(at, 1, "UnclosedBracket")
    suffix, colon, digits = back.partition(b":")
    begins = at + len(x) + 2
    if suffix:
        return Place(begins, len(suffix), "BehindBracket")
    begins += len(colon)
    return inner_fault(mode, x, at + 1) or digits_fault(digits, begins) or range_fault(mode, digits, begins)


def colon_fault(mode, piece, at):
    """The fault of a piece whose colons end no host."""
    if mode != hosts.STRICT:
        return undecodable(piece, at)
    for address in [piece] + [piece[:-1]] * piece.endswith(b":"):
        if hosts.ip6(address):
            return Place(at, len(address), "AddressWithoutBrackets")
    colons = [len(front) for front, _ in octets.cuts(piece, b":")]
    return Place(at, 0, "HostBeforePort") if len(colons) == 1 else Place(at + colons[1], 1, "SecondColon")


def text_fault(mode, host, at):
    """The fault of the text of a host."""
    if mode != hosts.STRICT:
        return undecodable(host, at)
    return first(host, at, "HostCharacter", lambda c: not set(c) <= octets.HTTP_HOST)


def host_fault(mode, piece, at):
    """The fault of the piece that names host and port."""
    if mode == hosts.BARE and hosts.is_bare_address(piece):
        return None
    if piece.startswith(b"["):
        return bracket_fault(mode, piece, at)
    if hosts.has_odd_colons(piece):
        return colon_fault(mode, piece, at)
    host, colon, digits = piece.partition(b":")
    begins = at + len(host + colon)
    return digits_fault(digits, begins) or text_fault(mode, host, at) or range_fault(mode, digits, begins)


# ---------------------------------------------------------------------------------------------------------------
# URLs

def length_fault(s, rest):
    if len(s) > 1024:
        return Place(0, len(s), "SchemeTooLong")
    return None if grammar.fits(s, rest) else Place(len(s) + 3, 1024, "AuthorityTooLong")


def scheme_fault(s):
    if s == b"":
        return Place(0, 0, "SchemeMissing")
    found = first(s, 0, "SchemeCharacter", lambda c: not set(c) <= octets.ALNUM | set(b"+-."))
    return found if s[0] in octets.LETTERS else Place(0, len(s.decode("utf-8")[0].encode()), "SchemeStart")


def authority_fault(s, a, at):
    information, sign, piece = a.rpartition(b"@")
    user, colon, password = information.partition(b":")
    begins = at + len(information + sign)
    found = (
        backslash(a, at, "Backslash") or undecodable(password, at + len(user + colon)) or undecodable(user, at)
        or host_fault(hosts.mode_of(s), piece, begins))
    if found or piece:
        return found
    if sign:
        return Place(begins, 0, "HostBehindUser")
    return Place(at, 0, "HostMissing") if s in grammar.NEED_HOST else None


def rest_fault(b, s, rest):
    """The fault after `://`."""
    (a, p), = grammar.path_cuts(s, rest)
    begins = len(s) + 3
    found = undecodable(p, begins + len(a)) or authority_fault(s, a, begins)
    needs_path = grammar.scheme_of(s) in (("Ssh",), ("Git",))
    return found or (Place(len(b), 0, "PathMissing") if needs_path and p == b"" else None)


def url_fault(b, s, rest):
    return (
        length_fault(s, rest) or not_utf8(b) or white_space(b, 0, "WhiteSpace") or broken_escape(b) or scheme_fault(s)
        or rest_fault(b, s, rest))


def file_fault(b, rest):
    return not_utf8(b) or (None if b"/" in rest else Place(len(b), 0, "FilePathMissing"))


# ---------------------------------------------------------------------------------------------------------------
# All texts

def front_fault(front):
    """The fault of the text before the colon of the scp form, in which a `%` begins no escape."""
    user, sign, host = front.rpartition(b"@")
    at = len(user + sign)
    return (
        white_space(host, at, "WhiteSpaceInHost") or backslash(host, at, "BackslashInHost")
        or (Place(at, 0, "HostMissing") if host == b"" else host_fault(hosts.BARE, host.replace(b"%", b"-"), at)))


def scp_fault(b, path, front=None):
    """The fault of the scp form; with a user and an address in brackets the front is valid."""
    found = not_utf8(b) or (Place(len(b), 0, "ScpPathMissing") if path == b"" else None)
    return found or (None if front is None else front_fault(front))


def place(b):
    """The first flaw of a text in the order of checks; None if it is read."""
    if grammar.has_helper_form(b):
        return None
    if b == b"":
        return Place(0, 0, "Empty")
    s, mark, rest = b.partition(b"://")
    if mark:
        return file_fault(b, rest) if s == b"file" else url_fault(b, s, rest)
    for _, _, path in grammar.address_scp_shapes(b):
        return scp_fault(b, path)
    for front, path in grammar.plain_scp_shapes(b):
        return scp_fault(b, path, front)
    return None
