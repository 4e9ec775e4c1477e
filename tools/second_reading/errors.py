"""The error of a refused text: each flaw as (name, form, fault), and the one that is reported, which is that of the first place
in the order of checks.
"""
from second_reading.fault_places import place
from second_reading.grammar import (
    NEED_HOST, address_scp_shapes, fits, has_helper_form, is_scheme_text, path_cuts, plain_scp_shapes, scheme_of, scp_hosts)
from second_reading.hosts import (
    BARE, STRICT, has_odd_colons, hosttext, inner, is_bare_address, is_plain_front, mode_of, num, user_informations)
from second_reading.octets import cuts, dec, has_white_space, is_utf8, sound


def refused(name, kind=None, fault=None):
    return (name, kind, fault)


def url_shapes(b):
    """All (scheme, rest) around the first `://` of a text that isn't a helper form."""
    return [] if has_helper_form(b) else [(s, r) for s, r in cuts(b, b"://") if b"://" not in s]


def host_flaws(mode, piece):
    """The flaws of the piece that names host and port."""
    found = set()
    for front, digits in cuts(piece, b":"):
        boxed = front.startswith(b"[") and front.endswith(b"]") and len(front) > 1 and b"]" not in front[1:-1]
        plain = is_plain_front(front) and b":" not in digits
        if digits != b"" and (plain or boxed) and num(mode, digits) is None:
            found.add("BadPort")
    if piece.startswith(b"["):
        shaped = [(x, back) for x, back in cuts(piece[1:], b"]") if b"]" not in x and back[:1] in (b"", b":")]
        if not shaped or any(inner(mode, x) is None for x, _ in shaped):
            found.add("BadCharacter")
    elif has_odd_colons(piece):
        if mode == STRICT or (not (mode == BARE and is_bare_address(piece)) and hosttext(mode, piece) is None):
            found.add("BadCharacter")
    elif piece != b"":
        host = piece if b":" not in piece else cuts(piece, b":")[0][0]
        if hosttext(mode, host) is None:
            found.add("BadCharacter")
    return found


def authority_flaws(scheme, a):
    found = set()
    mode = mode_of(scheme)
    if b"\\" in a:
        found.add("BadCharacter")
    if a == b"" and scheme in NEED_HOST:
        found.add("HostRequired")
    if b"@" not in a:
        found |= host_flaws(mode, a)
    for i, g in cuts(a, b"@"):
        if b"@" in g:
            continue
        found |= host_flaws(mode, g)
        if g == b"" or any(not is_utf8(dec(u)) or not is_utf8(dec(w or b"")) for u, w in user_informations(i)):
            found.add("BadCharacter")
    return found


def url_flaws(b):
    found = set()
    if b.startswith(b"file://") and b"/" not in b[len(b"file://"):]:
        found.add(refused("MissingPath", "Url"))
    for s, a in cuts(b, b"://"):
        if scheme_of(s) in (("Ssh",), ("Git",)) and b"/" not in a:
            found.add(refused("MissingPath", "Url"))
    for s, rest in url_shapes(b):
        if not is_utf8(b):
            found.add(refused("NotUtf8", "Url"))
        if s == b"file":
            continue
        if not fits(s, rest):
            found.add(refused("TooLong"))
        if has_white_space(b) or not sound(b):
            found.add(refused("BadUrl", "Url", "BadCharacter"))
        if not is_scheme_text(s):
            found.add(refused("BadUrl", "Url", "NoScheme"))
            continue
        for a, p in path_cuts(s, rest):
            faults = authority_flaws(s, a) | (set() if is_utf8(dec(p)) else {"BadCharacter"})
            found |= {refused("BadUrl", "Url", fault) for fault in faults}
    return found


def scp_flaws(b):
    """The flaws of the scp form. Bytes with a user and a bracketed address only have those of that shape."""
    found = set()
    shaped = address_scp_shapes(b)
    if (shaped or plain_scp_shapes(b)) and not is_utf8(b):
        found.add(refused("NotUtf8", "Scp"))
    for _, _, p in shaped:
        if p == b"":
            found.add(refused("MissingPath", "Scp"))
    for f, p in [] if shaped else plain_scp_shapes(b):
        if p == b"":
            found.add(refused("MissingPath", "Scp"))
        for _, h in scp_hosts(f):
            faults = host_flaws(BARE, h.replace(b"%", b"%25"))
            if has_white_space(h) or b"\\" in h:
                faults.add("BadCharacter")
            if h == b"":
                faults.add("HostRequired")
            found |= {refused("BadUrl", "Scp", fault) for fault in faults}
    return found


def flaws(b):
    return ({refused("EmptyLocal")} if b == b"" else set()) | url_flaws(b) | scp_flaws(b)


# The errors of reading, and the reasons of each; every other reason is of `BadUrl BadCharacter`.
REASONS = {
    ("EmptyLocal", None): {"Empty"},
    ("TooLong", None): {"SchemeTooLong", "AuthorityTooLong"},
    ("NotUtf8", None): {"NotUtf8"},
    ("MissingPath", None): {"PathMissing", "FilePathMissing", "ScpPathMissing"},
    ("BadUrl", "NoScheme"): {"SchemeMissing", "SchemeStart", "SchemeCharacter"},
    ("BadUrl", "BadPort"): {"PortNotANumber", "PortTooLarge", "PortZero"},
    ("BadUrl", "HostRequired"): {"HostMissing"},
}


def refusal(b):
    """The error that is reported for the bytes, None if they are read."""
    found = place(b)
    if found is None:
        return None
    name, fault = next((error for error, reasons in REASONS.items() if found.reason in reasons), ("BadUrl", "BadCharacter"))
    form = "Url" if b"://" in b else "Scp"
    return refused(name, None if name in ("EmptyLocal", "TooLong") else form, fault)


def shown(b):
    """The front that `TooLong` shows."""
    return b[:len(b.partition(b"://")[0]) + 3 + 1024]


def refusal_name(r):
    return (r[0] if r[2] is None else r[0] + " " + r[2]).encode()
