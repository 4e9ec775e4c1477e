"""IPv6 addresses, hosts and ports, and the authority of a URL."""
from second_reading.octets import DIGITS, DNS_LIKE, HEX, HTTP_HOST, ZONE, cuts, dec, is_utf8, sound


def is_group(t):
    return 1 <= len(t) <= 4 and all(b in HEX for b in t)


def is_ip4(t):
    numbers = t.split(b".")
    return len(numbers) == 4 and all(
        n != b"" and all(b in DIGITS for b in n) and int(n) <= 255 and (n == b"0" or n[0] != 48) for n in numbers)


def group_list(t, ip4_allowed):
    """The number of groups in a list of groups (an address of four numbers at its end counts as two); None if it isn't a list."""
    if t == b"":
        return 0
    items = t.split(b":")
    if all(is_group(x) for x in items):
        return len(items)
    if ip4_allowed and all(is_group(x) for x in items[:-1]) and is_ip4(items[-1]):
        return len(items) + 1
    return None


def ip6(t):
    if group_list(t, True) == 8:
        return True
    for front, back in cuts(t, b"::"):
        m, n = group_list(front, False), group_list(back, True)
        if m is not None and n is not None and m + n <= 7:
            return True
    return False


def zone(z):
    """Letters, digits, some marks and escapes, at least one, that decode to UTF-8."""
    if z == b"" or not sound(z) or not is_utf8(dec(z)):
        return False
    return all(b in ZONE or b == 37 for b in z)


def lit6(t):
    """The reading of the literal; None if it isn't one."""
    found = set()
    if ip6(t):
        found.add(t.lower())
    for address, z in cuts(t, b"%25"):
        if ip6(address) and zone(z):
            found.add(address.lower() + b"%25" + z)
    assert len(found) <= 1, (t, found)
    return found.pop() if found else None


def norm(h):
    return h.lower() if all(b in DNS_LIKE for b in h) else h


STRICT, BARE, LOOSE = "strict", "bare", "loose"


def mode_of(scheme):
    if scheme in (b"http", b"https"):
        return STRICT
    if scheme in (b"git", b"ssh", b"git+ssh", b"ssh+git"):
        return BARE
    return LOOSE


def hosttext(mode, text):
    """The host that a host's text spells, None if it spells none."""
    if mode == STRICT:
        return norm(text) if all(b in HTTP_HOST for b in text) else None
    return norm(dec(text)) if is_utf8(dec(text)) else None


def inner(mode, x):
    """The host that the text between brackets spells, None if it spells none."""
    literal = lit6(x)
    if mode == STRICT:
        return literal
    decoded = dec(x if literal is None else literal)
    return decoded if is_utf8(decoded) else None


def num(mode, digits):
    """The port, None if it isn't one."""
    if digits == b"" or any(b not in DIGITS for b in digits):
        return None
    value = int(digits)
    return None if value > 65535 or (mode == STRICT and value == 0) else value


def is_plain_front(h):
    """A text that may precede a port without brackets."""
    return h != b"" and b":" not in h and not h.startswith(b"[")


def is_bare_address(piece):
    return ip6(piece) or (piece.endswith(b":") and ip6(piece[:-1]))


def has_odd_colons(piece):
    """No bracket in front, and colons that end no host: the first byte, or two of them."""
    return not piece.startswith(b"[") and (piece.startswith(b":") or piece.count(b":") >= 2)


def names(mode, piece):
    """All (host, port) that the piece names."""
    found = set()
    if piece == b"":
        found.add((None, None))
    if piece.startswith(b"["):
        for x, back in cuts(piece[1:], b"]"):
            if b"]" in x or inner(mode, x) is None:
                continue
            host = b"[" + inner(mode, x) + b"]"
            if back == b"":
                found.add((host, None))
            if back == b":":
                found.add((host + b":", None))
            if back.startswith(b":") and num(mode, back[1:]) is not None:
                found.add((host, num(mode, back[1:])))
    if mode == BARE and is_bare_address(piece):
        found.add((piece.lower(), None))
    if is_plain_front(piece) and hosttext(mode, piece) is not None:
        found.add((hosttext(mode, piece), None))
    for h, digits in cuts(piece, b":"):
        if not is_plain_front(h) or hosttext(mode, h) is None:
            continue
        if digits == b"":
            found.add((hosttext(mode, h) + b":", None))
        elif num(mode, digits) is not None:
            found.add((hosttext(mode, h), num(mode, digits)))
    if mode != STRICT and not (mode == BARE and is_bare_address(piece)):
        if has_odd_colons(piece) and hosttext(mode, piece) is not None:
            found.add((hosttext(mode, piece), None))
    return found


def user_informations(i):
    """All (text of the user, text of the password or None) of the bytes before the `@`."""
    found = [(u, w) for u, w in cuts(i, b":") if b":" not in u]
    return found + [(i, None)] if b":" not in i else found


def authorities(mode, a):
    """All (user, password, host, port) of an authority."""
    found = set()
    if b"@" not in a:
        found |= {(None, None, host, port) for host, port in names(mode, a)}
    for i, g in cuts(a, b"@"):
        if b"@" in g:
            continue
        for u, w in user_informations(i):
            if not is_utf8(dec(u)) or (w is not None and not is_utf8(dec(w))):
                continue
            password = dec(w) if w else None
            user = None if u == b"" and password is None else dec(u)
            found |= {(user, password, host, port) for host, port in names(mode, g) if host is not None}
    return found
