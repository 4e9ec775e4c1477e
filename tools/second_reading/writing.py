"""The text that is written for a location, and its display."""
from collections import namedtuple

from second_reading.grammar import HTTP_SCHEMES, as_str, is_helper_name
from second_reading.hosts import ip6
from second_reading.octets import PASSWORD_SET, PATH_SET, USER_SET, dec, enc

Fault = namedtuple("Fault", "name")


def matching(v):
    """The retained escaped path if it decodes to the path."""
    return v.spelling if v.spelling is not None and dec(v.spelling) == v.path else None


def in_brackets(host):
    return b":" in host and not host.startswith(b"[")


def raw_text(v):
    """The form of paths and of scp."""
    front = b""
    if v.host is not None:
        front = b"" if v.user is None else v.user + b"@"
        front += b"[" + v.host + b"]" if in_brackets(v.host) else v.host
    return front + (b":" if v.scheme == ("Ssh",) else b"") + v.path


def canonical_host(v):
    if v.host is None:
        return b""
    if in_brackets(v.host) and (v.port is not None or b"%" in v.host):
        return b"[" + v.host.replace(b"%", b"%25") + b"]"
    if v.scheme in (("File",), *HTTP_SCHEMES):
        return v.host
    return enc(PASSWORD_SET if ip6(v.host) else USER_SET, v.host)


def canonical_path(v):
    slash = b"/" if v.scheme in (("Ssh",), ("Git",)) and not v.path.startswith(b"/") else b""
    if matching(v) is not None:
        return slash + matching(v)
    return slash + (enc(PATH_SET, v.path) if v.scheme in HTTP_SCHEMES else v.path)


def canonical_text(v):
    user = b""
    if v.user is not None:
        password = b"" if v.password is None else b":" + enc(PASSWORD_SET, v.password)
        user = enc(USER_SET, v.user) + password + b"@"
    port = b"" if v.port is None else b":%d" % v.port
    return as_str(v.scheme) + b"://" + user + canonical_host(v) + port + canonical_path(v)


def text(v):
    """The written text: bytes, or a fault."""
    if v.scheme[0] in ("Ext", "Helper"):
        if not is_helper_name(as_str(v.scheme)):
            return Fault("HelperName")
        if (v.user, v.password, v.host, v.port) != (None, None, None, None):
            return Fault("HelperParts")
        return as_str(v.scheme) + b"::" + v.path
    secure = v.scheme == ("Ssh",)
    plain = v.password is None and v.port is None
    if secure and v.path != b"" and v.path[0] not in b"/~":
        if not (v.host is not None and plain):
            return Fault("RelativeSsh")
        return raw_text(v)
    if v.user is not None and v.host is None:
        return Fault("UserWithoutHost")
    if v.flag and plain and (secure or v.scheme == ("File",)):
        return raw_text(v)
    return canonical_text(v)


def display(v):
    """The text that `Display` shows: a word instead of the password; None if there is no text."""
    shown = text(v if v.password is None else v._replace(password=b"redacted"))
    return None if isinstance(shown, Fault) else shown.decode("utf-8", "replace")
