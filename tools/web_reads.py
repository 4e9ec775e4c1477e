"""The readings of the three readers of an HTTP remote in its text: rules written here for Git's credential
code and for libcurl, and the second reading (`tools/second_reading`) for this library.

A caller picks credentials by the host that this library reads. Git's credential code (`credential_from_url` of Git 2.39.5)
splits the same text for the helpers that it asks, and libcurl 7.88.1 splits it to connect. `web_asked.py` runs the programs
themselves, and each rule must agree with them for each text.
"""
import ipaddress
import re
import socket
from collections import namedtuple

from second_reading import grammar, octets, writing
from second_reading.git_reads import decoded
from second_reading.web_defined import CredentialReading, with_query
from second_reading.web_plain import CONTROL

# The reading of a reader. A port is its digits, and the path includes the query; for libcurl it is that of the request.
Web = namedtuple("Web", "scheme user password host port path")
HTTP = (("Http",), ("Https",))
HOST_AND_PORT = re.compile(rb"(.*?)(?::([0-9]+))?", re.S)
# The bytes that libcurl refuses in a decoded host.
NO_HOST = re.compile(rb"[\x01-\x1f \"/:#?!@{}\[\]\\$'^`*<>=;,+&()]")
LONGEST_ZONE = 15


def escaped(text):
    """Escapes instead of the bytes above 127, as libcurl writes them."""
    return re.sub(rb"[\x80-\xff]", lambda it: b"%%%02x" % it[0][0], text)


def cut(text):
    """The scheme, the authority between `://` and the first of `/?#`, and the rest."""
    scheme, _, rest = text.partition(b"://")
    return scheme, *re.fullmatch(rb"([^/?#]*)(.*)", rest, re.S).groups()


def cut_at_first(authority):
    """User, password and host of an authority that is split at the first `@`; the first colon before it ends the user."""
    return re.fullmatch(rb"(?:([^:@]*)(?::([^@]*))?@)?(.*)", authority, re.S).groups()


# ---- this library

def located(text):
    """The HTTP location that this library reads, None if it reads none."""
    found = grammar.spells(text)
    return found if found is not None and found.scheme in HTTP else None


def host_and_port(named):
    """A host that Git asks for in one word, and the port at its end."""
    return HOST_AND_PORT.fullmatch(named).groups() if named else (named, None)


def spelled_path(location):
    """Path, query and fragment, with the escapes of the text."""
    return location.path if writing.matching(location) is None else writing.matching(location)


def for_credential(location):
    """A location in the form of Git's credential code: a decoded path without its first `/`."""
    port = None if location.port is None else b"%d" % location.port
    scheme, path = grammar.as_str(location.scheme), location.path.removeprefix(b"/")
    return Web(scheme, location.user, location.password, location.host, port, path)


def for_curl(location):
    """A location in the form of libcurl: the path of the text."""
    return for_credential(location)._replace(path=escaped(spelled_path(location)))


# ---- Git's credential code

def decoded_by_git(piece):
    """A piece with its escapes decoded, except before the first colon: Git takes that part for a scheme."""
    colon = max(piece.find(b":"), 0)
    return piece[:colon] + decoded(piece[colon:])


def credential_cut(text):
    scheme, authority, rest = cut(text)
    user, password, named = (it if it is None else decoded_by_git(it) for it in cut_at_first(authority))
    path = decoded_by_git(rest.lstrip(b"/"))
    # A single slash is left if there is nothing else.
    path = path.rstrip(b"/") or path[:1]
    return Web(scheme, user, password, *host_and_port(named), path)


def credential_reads(text):
    """The request of Git's credential code to helpers, or the reason why there is none."""
    found, refused = credential_cut(text), {"line end": b"\n", "carriage return": b"\r"}
    return next((name for name, byte in refused.items() if any(byte in it for it in found if it)), found)


# ---- libcurl

def address(host):
    """The address that libcurl takes a host of numbers for, None if it takes it for a name."""
    try:
        return socket.inet_ntoa(socket.inet_aton(host.decode("ascii"))).encode() if re.fullmatch(rb"[0-9A-Fa-fxX.]+", host) else None
    except OSError:
        return None


def is_number(host):
    """Whether the resolver takes a host for an address; no name is looked up."""
    try:
        return bool(socket.getaddrinfo(host, None, flags=socket.AI_NUMERICHOST))
    except (OSError, UnicodeError):
        return False


def literal(host):
    """A bracketed address in the form of libcurl: a shorter form if there is one; None if it isn't an address."""
    inside, mark, zone = host[1:-1].partition(b"%")
    if not re.fullmatch(rb"[0-9A-Fa-f:.]+", inside) or (mark and not zone):
        return None
    zone = re.sub(rb"\A25(?=.)", b"", zone, flags=re.S)
    try:
        shorter = socket.inet_ntop(socket.AF_INET6, ipaddress.IPv6Address(inside.decode()).packed).encode()
    except ValueError:
        return None
    kept = min(inside, shorter, key=len)
    return None if len(zone) > LONGEST_ZONE else b"[" + kept + (b"%" + zone if zone else b"") + b"]"


def curl_host(host):
    if CONTROL.search(host):
        return None
    if host.startswith(b"[") or address(host):
        return address(host) or literal(host)
    name = decoded(host)
    if not name or b"%00" in host or NO_HOST.search(name):
        return None
    # A transfer reads the whole URL first, which replaces each `%` that is left by its escape.
    return name.replace(b"%", b"%25")


def parted(named):
    """A host and the text after its colon; None if other text follows its brackets."""
    found = re.fullmatch(rb"(\[[^\]]*\]|[^\[:][^:]*|)(?::(.*))?", named, re.S)
    return found and found.groups()


def without_dots(path):
    """A path without its segments `.` and `..`, as RFC 3986 removes them."""
    given, out = path, b""
    while given:
        if given.startswith(b"/./") or given == b"/.":
            given = b"/" + given[3:]
        elif given.startswith(b"/../") or given == b"/..":
            given, out = b"/" + given[4:], out.rpartition(b"/")[0]
        else:
            segment = re.match(rb"/?[^/]*", given)[0]
            given, out = given[len(segment) :], out + segment
    return out


def target(rest):
    """The path and the query that libcurl requests; None if it refuses them."""
    front, _, fragment = rest.partition(b"#")
    path, _, query = front.partition(b"?")
    if any(CONTROL.search(it) for it in (path, query, fragment)):
        return None
    return (escaped(without_dots(path)) or b"/") + (b"?" + escaped(query) if query else b"")


def curl_reads(text):
    """libcurl's reading for a transfer; None if it refuses."""
    scheme, mark, rest = text.partition(b"://")
    # A third slash is skipped.
    scheme, authority, rest = cut(scheme + mark + rest.removeprefix(b"/"))
    user, password, named = cut_at_first(authority)
    host, digits = parted(named) or (b"", None)
    is_port = not digits or (re.fullmatch(rb"[0-9]+", digits) and int(digits) <= 65535)
    # Git passes a user and a password to libcurl itself; a lone user libcurl decodes, and refuses byte 0 in it.
    is_user = not CONTROL.search((user or b"") + (password or b"")) and (password is not None or b"%00" not in (user or b""))
    if not is_port or not is_user or None in (curl_host(host), target(rest)):
        return None
    user, password = (it if it is None else decoded(it) for it in (user, password))
    return Web(scheme.lower(), user, password, curl_host(host), b"%d" % int(digits) if digits else None, target(rest))


# ---- comparison with the definitions

def as_defined(credential):
    """The reading of Git's credential code in the form of the definition: None if it refuses."""
    if not isinstance(credential, Web):
        return set()
    scheme, user, password, host, port, path = credential
    return {CredentialReading(scheme, user, password, host if port is None else host + b":" + port, path or None)}


def for_transfer(uri):
    """A URI as libcurl reads it for a transfer."""
    user, colon, password = (uri.information or b"").partition(b":")
    user, password = (octets.dec(it) if is_there else None for it, is_there in ((user, uri.information is not None), (password, colon)))
    return Web(uri.scheme, user, password, uri.host, uri.port, escaped(with_query(uri)))
