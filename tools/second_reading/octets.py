"""Bytes, sets of bytes, escapes and cuts of a text."""
import re

LETTERS = frozenset(b"abcdefghijklmnopqrstuvwxyzABCDEFGHIJKLMNOPQRSTUVWXYZ")
DIGITS = frozenset(b"0123456789")
HEX = frozenset(b"0123456789abcdefABCDEF")
ALNUM = LETTERS | DIGITS
DNS_LIKE = ALNUM | frozenset(b"-._*")
HTTP_HOST = ALNUM | frozenset(b"-._~!$&'()*+,;=%")
ZONE = ALNUM | frozenset(b"-._~")
PLAIN_HOST = DIGITS | frozenset(b"abcdefghijklmnopqrstuvwxyz-._")
URI_PATH = ALNUM | frozenset(b"-._~!$&'()*+,;=:@/?%")

PATH_SET = frozenset(range(32)) | frozenset([127]) | frozenset(b" \"%<>`{}")
USER_SET = PATH_SET | frozenset(b"#/?@[\\]^|:")
PASSWORD_SET = USER_SET - frozenset(b":")

WHITE_SPACE = tuple(chr(c).encode() for c in [
    *range(0x09, 0x0E), 0x20, 0x85, 0xA0, 0x1680, *range(0x2000, 0x200B), 0x2028, 0x2029, 0x202F, 0x205F, 0x3000])
ASCII_WHITE_SPACE = frozenset(b"\t\n\x0c\r ")


def is_utf8(t):
    try:
        t.decode("utf-8")
        return True
    except UnicodeDecodeError:
        return False


def has_white_space(t):
    """Whether the bytes contain a character of White_Space (UTF-8 never hides one inside another character)."""
    return any(space in t for space in WHITE_SPACE)


def is_escape(t):
    return len(t) == 3 and t[0] == 37 and t[1] in HEX and t[2] in HEX


def dec(t):
    """Each escape is one byte, every other byte is literal."""
    return re.sub(rb"%([0-9A-Fa-f]{2})", lambda it: bytes([int(it[1], 16)]), t)


def enc(escaped, t):
    """Each byte of the set or above 127 is an escape, every other byte is literal."""
    return b"".join(b"%%%02X" % b if b in escaped or b > 127 else bytes([b]) for b in t)


def sound(t):
    """Every percent sign is followed by two hexadecimal digits."""
    return all(is_escape(t[i:i + 3]) for i in range(len(t)) if t[i] == 37)


def cuts(t, mark):
    """All (front, back) with front + mark + back == t."""
    return [(t[:i], t[i + len(mark):]) for i in range(len(t) - len(mark) + 1) if t[i:i + len(mark)] == mark]


def halves(t):
    """All (front, back) with front + back == t."""
    return [(t[:i], t[i:]) for i in range(len(t) + 1)]
