"""The laws that the second reading has to meet itself: over all short texts, and over small values."""
import itertools

from second_reading.errors import flaws, refusal
from second_reading.grammar import (
    HTTP_SCHEMES, Location, address_scp_shapes, all_spelled, plain_scp_shapes, spells, spells_helper,
    spells_local, spells_scp, text_fits)
from second_reading.records import parts
from second_reading.settled_class import settled
from second_reading.writing import Fault, text


def same_fields(v, w):
    return v._replace(spelling=None) == w._replace(spelling=None)


def comes_back(v):
    """The location that v's text spells, if it has v's fields and v's text; otherwise None."""
    t = text(v)
    if isinstance(t, Fault):
        return None
    w = spells(t)
    return w if w is not None and same_fields(v, w) and text(w) == t else None


FIVE = ("Http", "Https", "File", "Ext", "Helper")


def is_exception(v):
    """The texts that are read but not settled, for the five schemes with readings."""
    host = v.host or b""
    if v.scheme == ("File",) and not v.flag:
        return not host.startswith(b"[") and b":" in host and b"%" in host
    if v.scheme in HTTP_SCHEMES:
        return (not host.startswith(b"[") and b"%" in host and host.endswith(b":")) or not text_fits(text(v))
    return False


def value_faults(v):
    """The laws of values that fail at v."""
    w = comes_back(v)
    if settled(v):
        if w is None:
            yield "settled, but its text doesn't come back"
        elif not settled(w):
            yield "settled, but what comes back isn't"
        elif v.scheme in HTTP_SCHEMES and parts(v) != parts(w):
            yield "settled, but other components come back"
    elif w is not None and v.scheme[0] in FIVE and v.spelling != v.path:
        yield "not settled, but its text comes back"


def text_faults(b):
    """The laws of texts that fail at b."""
    found = all_spelled(b)
    named, stand = refusal(b), flaws(b)
    if len(found) > 1:
        yield f"two readings {found}"
    if bool(found) == (named is not None):
        yield f"refused {named}, though {found} is spelled" if found else "read, though nothing is spelled"
    if named is not None and named not in stand:
        yield f"refused {named}, which isn't among the flaws {stand}"
    if found and stand:
        yield f"spelled, and yet it has the flaws {stand}"
    before = spells_scp(b, before=True)
    if address_scp_shapes(b):
        if not plain_scp_shapes(b):
            yield "an address in brackets after a user, and no other scp shape"
        if before and before != spells_scp(b):
            yield "the shape with user and address changes a value"
    elif before != spells_scp(b):
        yield "without the shape with user and address a value changes"
    for v in found:
        t = text(v)
        if isinstance(t, Fault):
            yield f"read, but has no text: {t}"
            continue
        if v.spelling is not None and v.spelling == v.path:
            yield "its record would be taken for the old form"
        if (spells_helper(b) or spells_local(b)) and (t != b or not settled(v)):
            yield "a helper or local path that isn't written unchanged or isn't settled"
        if v.scheme[0] in FIVE and settled(v) == is_exception(v):
            yield "settled and an exception, or neither"
        yield from value_faults(v)


DELIMITERS = b":/@[]%.a?#\\1"


def check_texts(length, prefix):
    bad = count = 0
    for size in range(length + 1):
        for tail in itertools.product(DELIMITERS, repeat=size):
            count += 1
            for fault in text_faults(prefix + bytes(tail)):
                bad += 1
                print(prefix + bytes(tail), fault)
    print(f"{count} texts after {prefix!r}, {bad} faults")
    return bad == 0


def small_values():
    schemes = [("Http",), ("Https",), ("Ssh",), ("Git",), ("File",), ("Ext",), ("Helper", b"a"), ("Helper", b"ext"),
               ("HelperUrl", b"x"), ("HelperUrl", b"ftp"), ("HelperUrl", b"ssh"), ("HelperUrl", b"1x")]
    users = [None, b"", b"u", b"a@b", b"a:b", b"[", b"/"]
    passwords = [None, b"", b"p:@/"]
    hosts = [None, b"", b"h", b"H", b"::1", b"[::1]", b"[::1]:", b"::1:", b"[h]", b"h:", b"h%41", b"h%41:", b"a:b:c", b":1",
             b"FE80::1", b"[fe80::1%25e]", b"fe80::1%e", b"[x", b"x]", b"a@b", b"a/b", b"h?", b"\xc3\xb6", b" "]
    ports = [None, 0, 22]
    paths = [(b"", None), (b"/", None), (b"p", None), (b":p", None), (b"/p", None), (b"~a", None), (b"/~a", None), (b"//p", None),
             (b"/a%2", None), (b"/a%20", None), (b"/ ", None), (b"/\xff", None), (b"?x", None), (b"#x", None),
             (b"/a b", b"/a%20b"), (b"~a", b"%7Ea"), (b"/p", b"/p"), (b"/a%2?b", b"/a%2%3Fb"), (b"/x", b"/%41"),
             (b"a::b", None), (b"a:b", None), (b"/\xff", b"/%FF"), (b"/<", b"/<"), (b"/ %41", b"/%20%2541")]
    for scheme, user, password, host, flag, port, (path, spelling) in itertools.product(
            schemes, users, passwords, hosts, [False, True], ports, paths):
        yield Location(scheme, user, password, host, flag, port, path, spelling)


def check_values():
    bad = count = 0
    for v in small_values():
        count += 1
        for fault in value_faults(v):
            bad += 1
            print(v, fault)
    print(f"{count} values, {bad} faults")
    return bad == 0
