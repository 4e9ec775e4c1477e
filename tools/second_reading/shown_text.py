"""How `explain` shows bytes: on a terminal, in quotes, for a shell, and with a word for a possible secret.

It is written from the words of docs/EXPLAIN.md, not from the code.
"""
import unicodedata

from second_reading import hidden

# Control characters, characters that are invisible or change the direction of writing, and line ends. So are all spaces but one.
INVISIBLE = ("Cc", "Cf", "Zl", "Zp", "Zs")
SHORT = {"\0": r"\0", "\t": r"\t", "\n": r"\n", "\r": r"\r"}


def characters(text):
    """The characters of a text, each with its bytes, and None in place of one for a byte that isn't UTF-8."""
    at = 0
    while at < len(text):
        size = next((n for n in range(1, 5) if is_character(text[at:at + n])), None)
        yield (text[at:at + size].decode(), text[at:at + size]) if size else (None, text[at:at + 1])
        at += size or 1


def is_character(piece):
    try:
        return len(piece.decode()) == 1
    except UnicodeDecodeError:
        return False


def is_visible(it):
    return it is not None and (it == " " or unicodedata.category(it) not in INVISIBLE)


def escaped(it, octets):
    """A character as it is shown: as an escape if it could control a terminal or is invisible."""
    if it is None:
        return f"\\x{octets[0]:02x}"
    if it == "\\":
        return "\\\\"
    if is_visible(it):
        return it
    return SHORT.get(it) or (f"\\x{ord(it):02x}" if ord(it) < 128 else f"\\u{{{ord(it):x}}}")


def shown(text):
    return "".join(escaped(*it) for it in characters(text))


def quoted(text):
    """A text between quotation marks."""
    return '"{}"'.format(shown(text).replace('"', r'\"'))


def for_shell(text):
    """A text quoted for a POSIX shell: with escapes if a character isn't shown as it is."""
    if all(is_visible(it) for it, _ in characters(text)):
        return "'{}'".format(text.decode().replace("'", r"'\''"))
    return "$'{}'".format("".join(escaped_for_shell(*it) for it in characters(text)))


def escaped_for_shell(it, octets):
    if it == "'":
        return r"\'"
    if it == "\\" or is_visible(it) or it in SHORT:
        return escaped(it, octets)
    return "".join(f"\\x{octet:02x}" for octet in octets)


def width(text):
    """How many columns a text takes."""
    return sum(2 if unicodedata.east_asian_width(it) in "WF" else 1 for it in text)


def cells(line):
    """The pieces of a line as it is shown: the start and the end of each in bytes, and its shown text."""
    at, found = 0, []
    for begin, end in [*hidden.places(line), (len(line), len(line))]:
        for it, octets in characters(line[at:begin]):
            found.append((at, at + len(octets), escaped(it, octets)))
            at += len(octets)
        found += [(begin, end, hidden.WORD.decode())] * (begin < end)
        at = end
    return found


def columns(line, begin, end):
    """The columns in which these bytes of a line are shown, with all of each piece that they touch."""
    front = sum(width(it) for _, last, it in cells(line) if last <= begin)
    inside = sum(width(it) for first, last, it in cells(line) if first < end and last > begin)
    return front, front + inside
