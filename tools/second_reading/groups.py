"""Groups of readers that split remotes differently from Git, and the host that each finds in a text: a second reading of `Group`.

The scp form is here each text with a `:`, if neither another `:` nor `//` follows the first one. A host is as it is written, without
brackets. It isn't empty, but that of `digits_are_port` has its port, and may be only that.
"""
import re

URL = re.compile(rb"(?:[A-Za-z][0-9A-Za-z+.-]*:)?//([^/?#]*)")
WEB_URL = re.compile(rb"https?:[/\\]*([^/\\?#]*)")
SCP = re.compile(rb"([^:]*):(?!:|//)")
USER_FIRST = re.compile(rb"[^@]*@([^:]*):")
PORT_AFTER = re.compile(rb"([^:]*:[0-9]+)[/:]")
FOUR_NUMBERS = re.compile(rb"((?:[0-9]{1,3}\.){3}[0-9]{1,3})\.")


def front(pattern: re.Pattern[bytes], text: bytes) -> bytes:
    """The text that the pattern matches at the front, empty if it doesn't match."""
    found = pattern.match(text)
    return found[1] if found else b""


def after_user(authority: bytes) -> bytes:
    return authority.rpartition(b"@")[2]


def host_in(authority: bytes) -> bytes:
    """The host of an authority, without user information, port and brackets."""
    named = after_user(authority)
    if named.startswith(b"["):
        return named[1:].partition(b"]")[0]
    return named.rpartition(b":")[0] if b":" in named else named


# ---- the groups: for each the host in a text, empty if it finds none

def urls(text: bytes) -> bytes:
    """RFC 3986: an authority follows `//`, at the front or after a scheme, and ends at `/`, `?` or `#`. Its last `@` ends user
    information, and its last `:` begins a port."""
    return host_in(front(URL, text))


def url_standard(text: bytes) -> bytes:
    r"""The URL Standard, over HTTP: a `\` is a `/`, and any number of them follows the scheme and its colon."""
    return host_in(front(WEB_URL, text))


def made_urls(text: bytes) -> bytes:
    """A URL of Secure Shell is made of the scp form, so the text before the first `:` is read as an authority."""
    return host_in(re.split(rb"[/?#]", front(SCP, text))[0])


def first_colon(text: bytes) -> bytes:
    """The first `:` ends the host of the scp form, with a `/` before it or not, and the last `@` before it ends a user."""
    return after_user(front(SCP, text))


def first_at(text: bytes) -> bytes:
    """In the scp form the first `@` of the whole text ends a user, and the next `:` the host."""
    return front(USER_FIRST, text) if SCP.match(text) else b""


def digits_are_port(text: bytes) -> bytes:
    """In the scp form digits after the first `:` are a port, if a `/` or `:` follows them."""
    return after_user(front(PORT_AFTER, text))


def four_numbers(text: bytes) -> bytes:
    """RFC 3986, and a host ends after four numbers with a `.` after them."""
    return front(FOUR_NUMBERS, urls(text))


GROUPS = {it.__name__: it for it in (urls, url_standard, made_urls, first_colon, first_at, digits_are_port, four_numbers)}


def host_by(group: str, text: bytes) -> bytes | None:
    """The host that the readers of a group find in a text, None if they find none."""
    return GROUPS[group](text) or None


# ---- other hosts than that of a location

def host_name(host: bytes) -> bytes:
    """The host in lower case, without brackets around it or a lone colon at its end."""
    found = re.fullmatch(rb"\[(.*)\]:?|([^\[:][^:]*|):", host, re.S)
    return (host if found is None else found[1] if found[2] is None else found[2]).lower()


def is_own(host: bytes | None, named: bytes) -> bool:
    """Whether a host has this name."""
    return host is not None and host_name(host) == host_name(named)


def other_hosts(text: bytes, host: bytes | None) -> dict[str, bytes]:
    """By groups, the hosts that they find in the text of a location, and that aren't the host of the location."""
    found = {group: host_by(group, text) for group in GROUPS}
    return {group: it for group, it in found.items() if it is not None and not is_own(host, it)}
