"""The locations for which `agrees_with_git` is true."""
from second_reading.grammar import HTTP_SCHEMES
from second_reading.hosts import ip6, is_ip4
from second_reading.octets import PASSWORD_SET, PLAIN_HOST, URI_PATH, cuts, enc
from second_reading.settled_class import is_lower, settled
from second_reading.writing import canonical_path, text


def agrees_with_git(v):
    """The readers of the location's text read the same place in it: for HTTP all that read it, otherwise Git."""
    return agrees_over_web(v) if v.scheme in HTTP_SCHEMES else agrees_by_transport(v)


def without_brackets(host):
    """A host as Git reads it: without the brackets around an address, which are written as escapes for `git://`."""
    return host[1:-1] if host is not None and is_bracketed_address(host) else host


def agrees_by_transport(v):
    kind = v.scheme[0]
    if kind not in ("Ssh", "Git", "File") or not settled(v) or v.password is not None:
        return False
    if any(it is not None and it.startswith(b"-") for it in (v.user, v.host, v.path)):
        return False
    host = without_brackets(v.host)
    t = text(v._replace(host=host))
    if t.startswith(b"rsync:") or any(it in part for it in (b"\0", b"[", b"]") for part in (v.user or b"", host or b"", v.path)):
        return False
    if not v.flag and b"%" in (t if kind == "File" else t.split(b"/")[2]):
        return False
    if kind == "Ssh":
        return v.path[1:2] != b"~" and v.user != b""
    if kind == "Git":
        return v.user is None and b"\n" not in v.path
    return v.host is None and not v.path.startswith(b"~")


def has_control(t):
    return any(b < 32 or b == 127 for b in t)


def is_decoded_whole(piece):
    return b":" not in piece or b"%" not in piece


def is_plain_name(host):
    """A name of such bytes whose last label begins with a letter."""
    labels = [host] if b"." not in host else [label for _, label in cuts(host, b".") if b"." not in label]
    return all(b in PLAIN_HOST for b in host) and all(label[:1].islower() for label in labels)


def is_bracketed_address(host):
    return host[:1] == b"[" and host[-1:] == b"]" and ip6(host[1:-1]) and is_lower(host[1:-1])


def is_unambiguous_host(host):
    return is_plain_name(host) or is_ip4(host) or is_bracketed_address(host)


def has_dot_segment(path):
    """A segment `.` or `..` after a `/`, which ends at a `/`, at a `?` or at the end."""
    return any(suffix[:len(dots)] == dots and (suffix[len(dots):] == b"" or suffix[len(dots)] in b"/?")
               for _, suffix in cuts(path, b"/") for dots in (b".", b".."))


def has_unambiguous_path(v):
    written = canonical_path(v)
    return (v.path[:1] == b"/" and v.path[:2] != b"//" and not has_control(v.path) and b"#" not in v.path
            and not has_dot_segment(v.path) and v.path[-1:] != b"?"
            and all(b in URI_PATH for b in written) and is_decoded_whole(written))


def agrees_over_web(v):
    """The class of HTTP in `WebClass.antt`."""
    return (settled(v) and v.host is not None and is_unambiguous_host(v.host)
            and (v.user is None or not (has_control(v.user) or b":" in v.user))
            and (v.password is None or not has_control(v.password) and is_decoded_whole(enc(PASSWORD_SET, v.password)))
            and has_unambiguous_path(v))
