"""The stored run of the crate `explain`: its lines and its answers. The texts of the table in docs/GRAMMAR.md and the
examples of reasons are among the lines, and the last line lacks its end.
"""
import json

from second_reading import grammar, hidden
from second_reading.dangers import dangers
from second_reading.explain import WITHHELD, refusal_of_line, shown_line, reported
from second_reading.explain_lines import (
    CURL, FILES, GIT, HELPERS, IN_REFUSED, LOCALS, MISREAD, PLACED, READ, REFUSED, REWRITTEN, SCPS, SECRETS, SLIPS, URLS, WEB)
from second_reading.explain_tables import table
from second_reading.hints import hints
from second_reading.readers import readers
from second_reading.reason_examples import TEXTS
from second_reading.seen import seen


def found(line, v):
    """The names of the findings in a line, for which a run may fail."""
    if v is None:
        return ["refused"]
    is_found = {"danger": dangers(line, v), "unsettled": not reported(v)["settled"], "git-differs": not reported(v)["agrees_with_git"]}
    return [name for name, it in is_found.items() if it]


def object_of(number, line):
    """The object of a line. For a location the reading of the line as it is shown is reported."""
    v, other = grammar.spells(line), seen(line)
    location = None if v is None or other is None else reported(grammar.spells(other))
    refusal = refusal_of_line(line) if v is None else WITHHELD if other is None else None
    return {"line": number, "input": shown_line(line), "location": location, "refusal": refusal,
          "readers": None if other is None else readers(line, v), "dangers": [] if v is None else dangers(line, v), "findings": found(line, v),
          "hints": [] if other is None else hints_of(line, other), "rules": None}


def answer(number, line):
    """The line of JSON of a line."""
    return json.dumps(object_of(number, line), separators=(",", ":"), ensure_ascii=False)


def hints_of(line, other):
    """The hints about the line as it is shown; another line has no URL of the same place."""
    return [it for it in hints(other, grammar.spells(other), bool(hidden.places(line))) if it != "write_instead" or other == line]


def stored_run():
    """The files of the stored run. The texts of the tables are among its lines."""
    texts = [*(row[0].strip("`").encode() for row in table()), *TEXTS, *PLACED]
    lines = list(dict.fromkeys([*HELPERS, *URLS, *FILES, *SCPS, *LOCALS, *REFUSED, *GIT, *READ, *WEB, *CURL, *SLIPS, *IN_REFUSED, *MISREAD, *REWRITTEN, *SECRETS, *texts]))
    lines.append(b"/the/last")
    answers = "".join(answer(number, line) + "\n" for number, line in enumerate(lines, 1))
    return {"stdin": b"\n".join(lines), "stdout": answers.encode(), "args": b"--json\n", "status": b"1\n"}
