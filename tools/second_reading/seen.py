"""How `explain` shows a line that is read as a location: the line with the word for its password, or the text that is shown for it.

It is written from the words of docs/EXPLAIN.md, not from the code.
"""
from second_reading import grammar, hidden, settled_class
from second_reading.explain import form
from second_reading.git_class import agrees_with_git


def verdicts(v):
    return form(v), settled_class.settled(v), agrees_with_git(v)


def seen(line):
    """The line whose reading is reported, or None if nothing is reported; a refused line is itself."""
    v, other = grammar.spells(line), hidden.redacted(line)
    if v is None:
        return line
    own = hidden.parts(line, v)
    at, end = own.get("password", (0, 0))
    if other == line[:at] + (hidden.WORD if at < end else b"") + line[end:]:
        return line
    w = grammar.spells(other)
    if w is None or verdicts(w) != verdicts(v):
        return None
    wanted = {name: tuple(hidden.moved(line, it) for it in place) for name, place in own.items()}
    return other if hidden.parts(other, w) == wanted else None
