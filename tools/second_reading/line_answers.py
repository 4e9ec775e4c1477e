"""The lines of a text, and the answer of the program `locations` to a line."""
from second_reading.errors import refusal, refusal_name
from second_reading.grammar import as_str, spells
from second_reading.settled_class import settled
from second_reading.writing import Fault, text


def answer_line(b):
    """The program's answer to a line."""
    v = spells(b)
    if v is None:
        return b"refused\t" + refusal_name(refusal(b))
    t = text(v)
    if isinstance(t, Fault):
        return b"unwritable\t" + as_str(v.scheme)
    return b"settled\t" + t if settled(v) else b"unsettled\t" + as_str(v.scheme)


def lines_of(b):
    pieces = b.split(b"\n")
    return pieces[:-1] if pieces[-1] == b"" else pieces
