"""The rows of the tables in `vectors/`: docs/VECTORS.md describes them, and `row_text.py` how a line spells long texts. A
line is a row, or many rows by a member that is a name in WAYS.

For refused JSON a row may expect less than the whole: `{"refused": true}`, whatever the words are; words that end in `…`, which
are the front of the returned ones; and a `column` of two numbers, between which that column lies. The rows of
`vectors/git.jsonl` that read a text have `class` and `git`, or for HTTP `class`, `credential` and `curl` (`examples.py`).
"""
import contextlib
import functools
import glob
import itertools
import json
import os

from row_text import bytes_of, joined, text_of
from rt_api import ROOT
from second_reading import plain_paths, settled_class
from second_reading.row_outcomes import location, outcome, recomputed_fault

FOLDER = f"{ROOT}/vectors"
# The possible sources of an expectation: never this library.
SOURCES = {"crate", "oracle", "reading", "git", "hand", "rfc"}
# The members of a row that aren't part of the order.
OWN = {"is", "from", "requests", "bytes", "note", "class", "git", "credential", "curl"}
# Errors that keep the text that they are about.
KEEPING = ("MissingPath", "NotUtf8", "BadUrl")
# Calls that read into a buffer, whose errors keep nothing.
INTO_BUFFERS = ("UrlRef::parse_in", "host::texts_name_same_host")
MEMORY = {"error": "Memory"}


def keeps(outcome, text):
    """The outcome with the text that an error keeps, if the row leaves it out: the text of the call."""
    if not isinstance(outcome, dict) or not isinstance(text, str) or "kept" in outcome:
        return outcome
    is_kept = str(outcome.get("error", "")).split(" ")[0] in KEEPING
    return {**outcome, "kept": text} if is_kept else outcome


def is_refusal(reported):
    """Whether an outcome is an error other than refused memory."""
    return isinstance(reported, dict) and "error" in reported and reported != MEMORY


def fits(expected, reported):
    """Whether an outcome is the expected one; for refused JSON, whether it contains everything that is expected of it."""
    if expected == {"refused": True}:
        return is_refusal(reported)
    if isinstance(expected, dict) and str(expected.get("error", "")).endswith("…"):
        first, last = expected.get("column", (0, float("inf")))
        begins = is_refusal(reported) and reported["error"].startswith(expected["error"][:-1])
        return begins and first <= reported.get("column", 0) <= last
    # Compared as JSON, since Python takes 1 for true.
    return json.dumps(reported, sort_keys=True) == json.dumps(expected, sort_keys=True)


class Row:
    """A call, and its expected outcome."""

    def __init__(self, place, members):
        self.place, self.source = place, members.get("from")
        self.requests, self.bytes = members.get("requests"), members.get("bytes")
        self.class_name, self.git = members.get("class"), members.get("git")
        self.credential, self.curl = members.get("credential"), members.get("curl")
        self.members = {name: joined(it) for name, it in members.items() if name not in OWN}
        expected = joined(members.get("is"))
        self.expected = expected if members.get("call") in INTO_BUFFERS else keeps(expected, self.members.get("text"))

    def order(self, **more):
        return json.dumps({**self.members, **more})

    def fault(self, line, seen=lambda outcome: outcome):
        """The fault of an outcome, if there is one, in its compared part."""
        with contextlib.suppress(ValueError):
            if fits(seen(self.expected), seen(json.loads(line))):
                return None
        return f"{self.place}: {self.order()}\n  expected {json.dumps(self.expected)}\n  returned {line}"


# The member of the first of two values that a call compares.
COMPARED = {"Url:Ord": "url", "Scheme:Ord": "scheme", "ForUser:Ord": "user"}


def pairs(members, values):
    """All pairs of a list of values. Each is less than those after it, equal only to itself, and has its own hash."""
    name = COMPARED[members["call"]]
    for one, other in itertools.product(range(len(values)), repeat=2):
        word = "Less" if one < other else "Greater" if one > other else "Equal"
        outcome = [[word, word], [one == other, one == other]]
        yield {**members, name: values[one], "other": values[other], "is": outcome}


def put(members, name, value):
    """Sets a value under this name in members; `url.password` is a member of a member."""
    first, _, rest = name.partition(".")
    return {**members, first: put(members.get(first, {}), rest, value) if rest else value}


def changed(value, kind, change):
    """A value in which each value of this kind is changed."""
    if isinstance(value, dict):
        return {name: changed(it, kind, change) for name, it in value.items()}
    if isinstance(value, list):
        return [changed(it, kind, change) for it in value]
    return change(value) if isinstance(value, kind) else value


def choices(members, over):
    """All choices of a value for each member that is named, as in `{"style": ["{:#}", null], "url.password": ["x"]}`;
    null means that it is absent."""
    for values in itertools.product(*over.values()):
        yield functools.reduce(lambda row, it: put(row, *it), zip(over, values), members)


def fronts(members, name):
    """The text with this name, truncated at each length but its own."""
    whole = joined(members[name])
    return ({**members, name: whole[:size]} for size in range(len(whole)))


def characters(ends):
    """The characters from the first to the last of two, or for `"bytes"` those for all bytes."""
    if ends == "bytes":
        return [text_of(bytes([it])) for it in range(256)]
    first, last = ends
    return [chr(it) for it in range(ord(first), ord(last) + 1)]


def each(members, ends):
    """Every `*` in the texts of the line is each of these characters in turn. The outcomes are those of the second
    reading, and `settled` is the number of rows in which `url` is settled."""
    wanted, own = members["settled"], {name: it for name, it in members.items() if name != "settled"}
    found = [changed(own, str, lambda it, one=one: it.replace("*", one)) for one in characters(ends)]
    settled = sum(settled_class.settled(location(it["url"])) for it in found)
    if wanted != settled:
        raise ValueError(f"the locations of {settled} of the {len(found)} rows are settled")
    if "is" in members or members.get("from") != "oracle":
        raise ValueError("a line with each has its outcomes from the oracle, and no `is`")
    return [{**it, "is": outcome(it)} for it in found]


def texts_of(members, table):
    """The call over each text that a table reads by `parse::parse`, with the outcome of the second reading."""
    found = [{**members, "text": joined(it["text"])} for _, it in lines(table) if it["call"] == "parse::parse" and "text" in it]
    return [{**it, "is": outcome(it)} for it in found]


def random_rows(members, number):
    """The call over this many random paths, the same each time, with the outcomes that `plain_paths.py` computes."""
    for given, found in plain_paths.cases(members["call"], number):
        yield changed({**members, **given, "is": found}, bytes, text_of)


WAYS = {"in_order": pairs, "over": choices, "fronts": fronts, "each": each, "texts_of": texts_of, "random": random_rows}


def expanded(members):
    """The rows that a line represents: itself, unless a member marks it as several."""
    for name, way in WAYS.items():
        if name in members:
            return way({it: value for it, value in members.items() if it != name}, members[name])
    return [members]


# ---- tables

def lines(topic):
    """The lines of a table that are rows: the place of each, and its members."""
    with open(f"{FOLDER}/{topic}.jsonl", encoding="utf-8") as it:
        return [(f"{topic}.jsonl:{number}", json.loads(line)) for number, line in enumerate(it, 1) if line.strip() and not line.startswith("#")]


def topics(folders=(".", "rules")):
    """The tables in these folders: those of the library, and those of Git's behaviour by its configuration."""
    found = [it for folder in folders for it in glob.glob(f"{FOLDER}/{folder}/*.jsonl")]
    return sorted(os.path.relpath(it, FOLDER).removesuffix(".jsonl") for it in found)


@functools.cache
def rows(*named):
    return [Row(place, it) for topic in named or topics() for place, members in lines(topic) for it in expanded(members)]


def texts_of_rows(longest):
    """The texts and URLs of the tables of the library, as bytes, that are not longer than this."""
    given = [joined(row[name]) for topic in topics(["."]) for _, row in lines(topic) for name in ("text", "url") if name in row]
    return [it for it in (bytes_of(it) for it in given if isinstance(it, str)) if len(it) <= longest]


def source_faults(table):
    """The rows whose expectation has no known source, or is from the second reading, which has another."""
    unknown = [f"{it.place}: its expectation is from {it.source!r}" for it in table if it.source not in SOURCES]
    faults = (recomputed_fault(it) for it in table if it.source == "oracle")
    return unknown + [it for it in faults if it]
