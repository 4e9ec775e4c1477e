"""Bytes as the texts of rows, and texts and lists that a row spells in pieces."""

# The characters of rows for bytes that aren't part of UTF-8, by Python's characters for them.
CHARACTERS = {0xDC00 + byte: 0xEF00 + byte for byte in range(0x80, 0x100)}
ESCAPED = {character: code for code, character in CHARACTERS.items()}


def text_of(given):
    """Bytes as a text of a row: one that isn't part of UTF-8 is the character U+EF00 with that byte added."""
    return given.decode("utf-8", "surrogateescape").translate(CHARACTERS)


def bytes_of(text):
    """The bytes that a text of a row represents."""
    return text.translate(ESCAPED).encode("utf-8", "surrogateescape")


def in_bytes(value):
    """A value with its texts as bytes; the names of its members stay."""
    if isinstance(value, dict):
        return {name: in_bytes(it) for name, it in value.items()}
    return [*map(in_bytes, value)] if isinstance(value, list) else bytes_of(value) if isinstance(value, str) else value


def placed(value, place):
    """A value with its index among many: as five digits for each `#` of its texts, and times the step for `{"step": step}`."""
    if isinstance(value, dict) and set(value) == {"step"}:
        return value["step"] * place
    if isinstance(value, dict):
        return {name: placed(it, place) for name, it in value.items()}
    return value.replace("#", f"{place:05}") if isinstance(value, str) else value


def piece(it):
    """A piece of a text: a text, a text and its number of repetitions, or texts that are numbered."""
    return "".join(joined(it)) if isinstance(it, dict) else it if isinstance(it, str) else it[0] * it[1]


# What the value of a member alone in a record spells, by the member's name.
SPELLED = {
    "entries": lambda given: "".join("\n".join(it) + "\0" for it in given),
    "joined": lambda given: "".join(map(piece, given)),
    "repeated": lambda given: [joined(given[0])] * given[1],
    "numbered": lambda given: [placed(given[0], place) for place in range(given[1])],
}


def joined(value):
    """A value with its texts and its lists assembled.

    `{"joined": [..]}` is the text of these pieces (`piece`); `{"repeated": [value, count]}` is the list of this many copies of
    the value; `{"numbered": [value, count]}` is the same with its index put into each (`placed`); and `{"entries": [[key,
    value], [key]]}` is the text that `git config --list -z` writes for the entries.
    """
    if isinstance(value, list):
        return [joined(it) for it in value]
    if not isinstance(value, dict):
        return value
    if len(value) == 1 and value.keys() <= SPELLED.keys():
        return next(SPELLED[name](it) for name, it in value.items())
    return {name: joined(it) for name, it in value.items()}
