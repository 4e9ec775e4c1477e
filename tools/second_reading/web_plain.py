"""The conditions on an HTTP location for which `agrees_with_git` is true, one by one: under all of them this library, Git's
credential code and libcurl read the same place in the location's text.

Each condition is on the fields of the location. Most are needed: some location that meets all the others is read differently.
Those of `STRICTER` aren't: the compared programs read such texts alike. They are required since other readers differ there, or
so that the text is a URI of RFC 3986 which is also in its normal form if it is decoded first.
"""
import functools
import re

from second_reading import git_class, hosts, octets, settled_class, writing

# The bytes that libcurl refuses in each part of a URL.
CONTROL = re.compile(rb"[\x01-\x20\x7f]")
NAME_BYTES = re.compile(rb"[a-z0-9._-]+")
DOT_SEGMENT = re.compile(rb"/\.\.?(/|$)")
LINE_ENDS = re.compile(rb"[\0\n\r]")
OTHER_CONTROL = re.compile(rb"[\x01-\x09\x0b\x0c\x0e-\x1f\x7f]")
# The bytes that RFC 3986 allows in a path and a query, except `#` and controls, which are conditions of their own.
NO_URI_BYTE = re.compile(rb"[^\x00-\x1f\x7f#A-Za-z0-9._~!$&'()*+,;=:@/?%-]")


@functools.cache
def path_of(location):
    """Path, query and fragment as they are written."""
    return writing.canonical_path(location)


def named(is_met):
    """The condition on a host that isn't in brackets, without a colon after it."""
    return lambda it: it.host.startswith(b"[") or is_met(it.host.removesuffix(b":"))


def first_of_last_label(name):
    return name.rpartition(b".")[2][:1]


def lacks(part, refused):
    return lambda location: not refused.search(getattr(location, part) or b"")


def is_whole_password(location):
    password = location.password or b""
    return b":" not in password or octets.enc(octets.PASSWORD_SET, password) == password


def has_written_dots(location):
    return DOT_SEGMENT.search(re.match(rb"[^?#]*", path_of(location))[0]) is not None


def is_empty_query(location):
    return path_of(location).endswith(b"?") and b"?" not in path_of(location)[:-1]


CONDITIONS = {
    "the location is settled": settled_class.settled,
    "host: lower case, digits, `-`, `.`, `_`, or in brackets": named(NAME_BYTES.fullmatch),
    "host: a number only as four decimal numbers": named(lambda it: not first_of_last_label(it).isdigit() or hosts.is_ip4(it)),
    "host: no last label that is empty or begins with `-` or `_`": named(lambda it: first_of_last_label(it).isalnum()),
    "host: no zone": lambda it: not it.host.startswith(b"[") or b"%" not in it.host,
    "host: no `:` after it": lambda it: not it.host.endswith(b":"),
    "user: no byte 0, line feed, carriage return": lacks("user", LINE_ENDS),
    "user: no other control character": lacks("user", OTHER_CONTROL),
    "user: no `:`": lacks("user", re.compile(b":")),
    "password: no byte 0, line feed, carriage return": lacks("password", LINE_ENDS),
    "password: no other control character": lacks("password", OTHER_CONTROL),
    "password: no `:` beside what is written as an escape": is_whole_password,
    "path: begins with `/`": lambda it: it.path.startswith(b"/"),
    "path: no second `/` at its front": lambda it: not path_of(it).startswith(b"//"),
    "path: no second `/` at its front as an escape": lambda it: path_of(it).startswith(b"//") or not it.path.startswith(b"//"),
    "path: no byte 0, line feed, carriage return": lacks("path", LINE_ENDS),
    "path: no control character that is written as it is": lambda it: not CONTROL.search(path_of(it)),
    "path: no other control character": lambda it: CONTROL.search(path_of(it)) or not OTHER_CONTROL.search(it.path),
    "path: no segment `.` or `..`": lambda it: not has_written_dots(it),
    "path: no such segment as an escape, or in a query": lambda it: has_written_dots(it) or not git_class.has_dot_segment(it.path),
    "path: no `:` beside an escape": lambda it: b":" not in path_of(it) or b"%" not in path_of(it),
    "path: no `#`": lambda it: b"#" not in path_of(it),
    "path: no `#` as an escape": lambda it: b"#" in path_of(it) or b"#" not in it.path,
    "path: something after a `?`": lambda it: not is_empty_query(it),
    "path: no other `?` at its end, and no escape of one": lambda it: is_empty_query(it) or not it.path.endswith(b"?"),
    "path: the bytes of a URI": lambda it: not NO_URI_BYTE.search(path_of(it)),
}
STRICTER = {
    "host: no last label that is empty or begins with `-` or `_`", "user: no other control character",
    "password: no other control character", "path: no second `/` at its front as an escape", "path: no other control character",
    "path: no such segment as an escape, or in a query", "path: no `#` as an escape",
    "path: no other `?` at its end, and no escape of one", "path: the bytes of a URI",
}


def broken(location):
    return [name for name, is_met in CONDITIONS.items() if not is_met(location)]
