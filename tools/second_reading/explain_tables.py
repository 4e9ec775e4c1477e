"""The table of texts that surprise, in docs/GRAMMAR.md, and the examples of reasons and hints, compared with the second reading.

The sentences of hints (`hint_sentences.py`) are compared with the code.
"""
import itertools
import os
import re

from rt_api import ROOT
from second_reading import errors, fault_places, grammar, hidden, reason_examples
from second_reading.explain import reported
from second_reading.hint_sentences import EXAMPLES, SENTENCES
from second_reading.hints import HINTS, hints

HEAD = "| Text | Read as | Written | Why |"
CODE = f"{ROOT}/crates/explain_report/src/advice/hint/words.rt"
NAMES = {"remote_helper": "remote helper", "url": "URL", "scp": "scp form", "local": "local path"}


def table():
    """The rows of the texts that surprise: text, two computed cells, and a reason."""
    with open(f"{ROOT}/docs/GRAMMAR.md", encoding="utf-8") as file:
        lines = file.read().split(HEAD + "\n", 1)[1].splitlines()[1:]
    rows = itertools.takewhile(lambda line: line.startswith("|"), lines)
    return [[cell.strip() for cell in line[1:-1].split(" | ")] for line in rows]


def reason_faults():
    """The examples of the reasons that differ from the second reading."""
    if [*reason_examples.EXAMPLES] != [*fault_places.SENTENCES]:
        yield "the examples of reasons are for others than those of the second reading, or in another order"
    for text, wanted in reason_examples.TEXTS.items():
        found = fault_places.place(text)
        if (found.reason, found.at, found.len) != wanted:
            yield f"{text}: the example has {wanted}, and not {found}"


def sentences():
    """The sentences of the hints by their names, as the code has them."""
    with open(CODE, encoding="utf-8") as file:
        of_names, of_sentences = file.read().split("fn sentence")
    names = dict(re.findall(r'Hint::(\w+) => "(\w+)"', of_names))
    return {names[it]: text for it, text in re.findall(r'Hint::(\w+) => (?:\{\s*)?"(.*?)"', of_sentences)}


def hint_faults():
    """The hints that differ from the code, or have an example to which the second reading applies no such hint."""
    if [*HINTS] != [*SENTENCES]:
        yield "the hints have other names than those of the second reading, or another order"
    if SENTENCES != sentences():
        yield f"the sentences of the hints in the second reading and in {os.path.relpath(CODE, ROOT)} differ"
    for name, line in EXAMPLES.items():
        if name not in hints(line, grammar.spells(line), bool(hidden.places(line))):
            yield f"{line} has not the hint {name}"


def cells(line):
    """The cells of the table for a text: its reading, and the text that is written for it if that is another one, or not settled."""
    v = grammar.spells(line)
    if v is None:
        name, _, fault = errors.refusal(line)
        return ["refused: `" + (name if fault is None else f"{name} {fault}") + "`", ""]
    it = reported(v)
    parts = ["user", "password", "host", "port", "path"] if it["form"] in ("scp", "local") else ["scheme", "user", "password", "host", "port", "path"]
    there = [f"{name} `{it[name]}`" for name in parts if it[name] is not None]
    written = [] if it["text"].encode() == line else [f"`{it['text']}`"]
    return [", ".join([NAMES[it["form"]], *there]), ", ".join(written if it["settled"] else [*written, "not settled"])]


def table_faults():
    """The rows of the table that differ from the second reading."""
    rows = table()
    if len(rows) < 20:
        yield f"the table has {len(rows)} rows"
    for row in rows:
        wanted = cells(row[0].strip("`").encode())
        if row[1:3] != wanted:
            yield f"{row[0]}: the table has {row[1:3]}, and not {wanted}"
