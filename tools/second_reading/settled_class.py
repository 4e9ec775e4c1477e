"""The settled locations: those whose text is read as the same location."""
from second_reading.grammar import KNOWN, is_helper_name, is_scheme_text, spells_local, text_fits
from second_reading.hosts import ip6, norm, zone
from second_reading.octets import HTTP_HOST, cuts, has_white_space, is_utf8, sound
from second_reading.writing import Fault, matching, text


def is_lower(t):
    return t == t.lower()


def settled_http_host(host, port):
    """A literal in brackets or a host of HTTP's bytes; without a port one colon may follow."""
    def is_literal(h):
        if not (h.startswith(b"[") and h.endswith(b"]") and len(h) >= 2):
            return False
        x = h[1:-1]
        return (ip6(x) and is_lower(x)) or any(ip6(a) and is_lower(a) and zone(z) for a, z in cuts(x, b"%25"))

    def is_name(h):
        return h != b"" and all(b in HTTP_HOST for b in h) and sound(h) and h == norm(h)

    if is_literal(host) or is_name(host):
        return True
    if port is None and host.endswith(b":"):
        front = host[:-1]
        return is_literal(front) or (is_name(front) and b"%" not in front)
    return False


def settled_plain_host(v):
    """The host of a URL of any other scheme, if there is one."""
    host = v.host
    if host != b"" and not any(b in b":[]" for b in host) and host == norm(host):
        return True
    if v.scheme == ("Ssh",):
        return ip6(host) and is_lower(host)
    return host[:1] == b"[" and host[-1:] == b"]" and ip6(host[1:-1]) and is_lower(host[1:-1])


def settled_url_common(v):
    if v.flag:
        return False
    if v.password is not None and (v.password == b"" or v.user is None):
        return False
    if v.user == b"" and v.password is None:
        return False
    if v.host is None and (v.user is not None or v.port is not None):
        return False
    t = text(v)
    if isinstance(t, Fault) or not text_fits(t) or not is_utf8(v.path):
        return False
    s = matching(v)
    if s is None:
        return True
    return is_utf8(s) and sound(s) and b"%" in s and not has_white_space(s) and s[:1] == v.path[:1]


def settled_http(v):
    return (settled_url_common(v) and v.host is not None and settled_http_host(v.host, v.port)
            and v.port != 0 and v.path[:1] in (b"/", b"?", b"#"))


def settled_url(v):
    if not settled_url_common(v):
        return False
    helper = v.scheme[0] == "HelperUrl"
    if v.host is None:
        if not helper or v.scheme[1] in (b"ftp", b"ftps"):
            return False
    elif not settled_plain_host(v):
        return False
    if helper:
        if not is_scheme_text(v.scheme[1]) or v.scheme[1] in KNOWN:
            return False
        if v.path != b"" and not v.path.startswith(b"/"):
            return False
    elif v.path.startswith(b"~"):
        if matching(v) is not None:
            return False
    elif not v.path.startswith(b"/") or v.path.startswith(b"/~"):
        return False
    return matching(v) is not None or (b"%" not in v.path and not has_white_space(v.path))


def settled_file_url(v):
    if (v.user, v.password, v.port) != (None, None, None) or matching(v) is not None:
        return False
    if v.host is not None:
        if v.host == b"" or b"/" in v.host:
            return False
        if not v.host.startswith(b"[") and b":" in v.host and b"%" in v.host:
            return False
    return is_utf8(v.path) and v.path.startswith(b"/")


def settled_local(v):
    if (v.user, v.password, v.host, v.port) != (None, None, None, None):
        return False
    return spells_local(v.path) != set()


def settled_scp(v):
    if v.password is not None or v.port is not None:
        return False
    p = v.path
    if not is_utf8(p) or p == b"" or p[:2] in (b"/~", b"//") or b"://" in p:
        return False
    if v.user is not None and (b":" in v.user or b"/" in v.user or v.user.startswith(b"[")):
        return False
    h = v.host
    if h is None or h == b"":
        return False
    if ip6(h) and is_lower(h):
        return True
    if any(b in b":[]@/\\" for b in h) or has_white_space(h) or h != norm(h):
        return False
    return not (v.user is None and is_helper_name(h) and p.startswith(b":"))


def settled(v):
    kind = v.scheme[0]
    if kind in ("Http", "Https"):
        return settled_http(v)
    if kind == "Ssh":
        return settled_scp(v) if v.flag else settled_url(v)
    if kind in ("Git", "HelperUrl"):
        return settled_url(v)
    if kind == "File":
        return settled_local(v) if v.flag else settled_file_url(v)
    if (v.user, v.password, v.host, v.port) != (None, None, None, None) or not v.flag:
        return False
    return kind == "Ext" or (is_helper_name(v.scheme[1]) and v.scheme[1] != b"ext")
