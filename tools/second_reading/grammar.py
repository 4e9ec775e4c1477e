"""The grammar: the location that a text spells, by trying every split of its bytes."""
from collections import namedtuple

from second_reading.hosts import BARE, authorities, ip6, mode_of, names
from second_reading.octets import (
    ALNUM, ASCII_WHITE_SPACE, LETTERS, cuts, dec, halves, has_white_space, is_utf8, sound)

Location = namedtuple("Location", "scheme user password host flag port path spelling")


def location(scheme, path, flag, user=None, password=None, host=None, port=None, spelling=None):
    return Location(scheme, user, password, host, flag, port, path, spelling)


KNOWN = {b"ssh": ("Ssh",), b"ssh+git": ("Ssh",), b"git+ssh": ("Ssh",), b"file": ("File",), b"git": ("Git",),
         b"http": ("Http",), b"https": ("Https",), b"ext": ("Ext",)}
AS_STR = {"File": b"file", "Git": b"git", "Ssh": b"ssh", "Http": b"http", "Https": b"https", "Ext": b"ext"}
HTTP_SCHEMES = (("Http",), ("Https",))
NEED_HOST = (b"http", b"https", b"git", b"ssh", b"ftp", b"ftps")


def scheme_of(text):
    return KNOWN.get(text, ("HelperUrl", text))


def as_str(scheme):
    return AS_STR[scheme[0]] if scheme[0] in AS_STR else scheme[1]


def is_scheme_text(s):
    return s != b"" and s[0] in LETTERS and all(b in ALNUM or b in b"+-." for b in s)


def is_helper_name(n):
    return n != b"" and n[0] in ALNUM and all(b in ALNUM or b in b"+-." for b in n)


def path_starts(scheme):
    return b"/?#" if scheme in (b"http", b"https") else b"/"


def path_cuts(scheme, rest):
    """All (authority, path) of the bytes after `://`."""
    starts = path_starts(scheme)
    return [(a, p) for a, p in halves(rest)
            if (p == b"" or p[0] in starts) and not any(b in starts for b in a)]


def fits(scheme, rest):
    """The check of the length."""
    if len(scheme) > 1024:
        return False
    dense = bytes(b for b in rest if b not in ASCII_WHITE_SPACE)
    for slashes, suffix in halves(dense):
        if any(b not in b"/\\" for b in slashes) or suffix[:1] in (b"/", b"\\"):
            continue
        for x, y in path_cuts(scheme, suffix):
            if (len(rest) if y == b"" else len(x)) <= 1024:
                return True
    return False


def text_fits(t):
    return any(fits(s, r) for s, r in cuts(t, b"://") if b":" not in s)


def peel(host):
    """The host that Secure Shell uses: without brackets."""
    if host is None:
        return None
    if host.startswith(b"["):
        for ending in (b"]:", b"]"):
            if host.endswith(ending) and len(host) > len(ending):
                return host[1:len(host) - len(ending)]
        return host
    if host.endswith(b":") and b":" not in host[:-1]:
        return host[:-1]
    return host


def without_slash_of_home(path):
    return path[1:] if path.startswith(b"/~") else path


def spells_url(b):
    found = set()
    if not (is_utf8(b) and sound(b) and not has_white_space(b)):
        return found
    for s, rest in cuts(b, b"://"):
        if not is_scheme_text(s) or s == b"file" or not fits(s, rest):
            continue
        for a, p in path_cuts(s, rest):
            if b"\\" in a or not is_utf8(dec(p)):
                continue
            for user, password, host, port in authorities(mode_of(s), a):
                if host is None and s in NEED_HOST:
                    continue
                if s == b"ext":
                    found.add(location(("Ext",), b, True))
                    continue
                scheme, path = scheme_of(s), dec(p)
                if scheme in (("Ssh",), ("Git",)):
                    if p == b"":
                        continue
                    path = without_slash_of_home(path)
                if scheme in HTTP_SCHEMES and p == b"":
                    path = b"/"
                if scheme == ("Ssh",):
                    host = peel(host)
                found.add(location(scheme, path, False, user, password, host, port, p if b"%" in p else None))
    return found


def spells_file(b):
    found = set()
    if b.startswith(b"file://") and is_utf8(b):
        for h, p in halves(b[len(b"file://"):]):
            if b"/" not in h and p.startswith(b"/"):
                found.add(location(("File",), p, False, host=h or None))
    return found


def spells_helper(b):
    return {location(("Ext",) if n == b"ext" else ("Helper", n), x, True)
            for n, x in cuts(b, b"::") if is_helper_name(n)}


def has_helper_form(b):
    return bool(spells_helper(b))


def plain_scp_shapes(b):
    """All (front, path) of the scp form without the shape of a user and a bracketed address."""
    if has_helper_form(b) or b"://" in b:
        return []
    found = []
    for f, p in cuts(b, b":"):
        if b"/" in f:
            continue
        first = b":" not in f and (not f.startswith(b"[") or b"]" not in b)
        second = f.startswith(b"[") and any(
            b"]" not in m and b":" not in n for m, n in cuts(f[1:], b"]"))
        if first or second:
            found.append((f, p))
    return found


def address_scp_shapes(b):
    """All (user, address, path) of the scp form with a user and a bracketed address."""
    if has_helper_form(b) or b"://" in b:
        return []
    return [(u, f[:-1], p) for u, back in cuts(b, b"@[") for f, p in cuts(back, b":")
            if f.endswith(b"]") and ip6(f[:-1]) and b":" not in u and b"/" not in u]


def scp_hosts(f):
    """All (user, text of the host) of the front of a plain scp form."""
    return ([(None, f)] if b"@" not in f else []) + [(u, h) for u, h in cuts(f, b"@") if b"@" not in h]


def spells_scp(b, before=False):
    found = set()
    if not is_utf8(b):
        return found
    for f, p in plain_scp_shapes(b):
        for u, h in scp_hosts(f):
            if p == b"" or b"\\" in h or has_white_space(h):
                continue
            for host, port in names(BARE, h.replace(b"%", b"%25")):
                if host is None or port is not None:
                    continue
                if host.startswith(b"[") and host.endswith(b"]"):
                    host = host[1:-1]
                found.add(location(("Ssh",), without_slash_of_home(p), True, u, host=host))
    if not before:
        for u, address, p in address_scp_shapes(b):
            if p != b"":
                found.add(location(("Ssh",), without_slash_of_home(p), True, u, host=address.lower()))
    return found


def spells_local(b):
    if b == b"" or has_helper_form(b) or b"://" in b or plain_scp_shapes(b) or address_scp_shapes(b):
        return set()
    return {location(("File",), b, True)}


def all_spelled(b):
    return spells_url(b) | spells_file(b) | spells_helper(b) | spells_scp(b) | spells_local(b)


def spells(b):
    """The only location that the bytes spell, None if they spell none."""
    found = all_spelled(b)
    assert len(found) <= 1, ("two readings", b, found)
    return found.pop() if found else None
