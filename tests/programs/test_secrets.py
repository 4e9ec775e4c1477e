"""The program `explain` over lines with a marked secret, in each layout: the parts that it shows.

The lines are short inputs, realistic remotes, and random changes of lines with a secret. No layout shows the secret of a line
that hides it by the second reading. The member `input` is that of the second reading; in the text layout each piece is the
field of the second reading for the line as it is shown (`pieces.py`). No answer contains a control character. No layout shows the
secret of lines in forty shapes, or that of a configuration.
"""
import json
import re

import pytest
from pieces import is_of_fields, named
from row_text import bytes_of, joined
from rt_api import rows_of
from runs import ended, explain, run, shown
from second_reading import explain as second
from second_reading import grammar, hidden, short_inputs
from second_reading.seen import seen
from texts import SECRET, SHAPES, Secrets, compare, examples, made, realistic

# The number of changed lines.
COUNT = 3_000
ROWS = rows_of("tests/programs/configurations.jsonl")
ENTRIES = next(bytes_of(joined(it["secrets"])) for it in ROWS if "secrets" in it)
LAYOUTS: tuple[list[str], ...] = (
    [], ["--json"], ["--html=t", "--"], ["--sarif"], ["--summary"], ["--ssh"], ["--color=always"],
    *([f"--only={it}"] for it in ("scheme", "user", "host", "port", "path", "query", "fragment")))
CONTROL = re.compile(r"[^\n\x20-\x7e\xa1-\U0010ffff]")


def is_secret(line):
    """Whether the secret is hidden in all its places."""
    return not any(SECRET in it for it in hidden.shown_parts(line))


def faults_of(line, reported, answer):
    v, other = grammar.spells(line), seen(line)
    if CONTROL.search(answer):
        yield "a control character is shown"
    if is_secret(line) and SECRET.decode() in reported + answer:
        yield "the secret is shown"
    if json.loads(reported)["input"] != second.shown_line(line):
        yield f"`input` isn't {second.shown_line(line)!r}"
    if (json.loads(reported)["location"] is None) != (v is None or other is None):
        yield "what it is read as is withheld, or isn't"
    if v is not None and other is not None and len(answer.split("\n")[1]) <= 204:
        if not is_of_fields(grammar.spells(other), named(answer), other):
            yield f"the pieces {named(answer)} aren't those of {grammar.spells(other)}"


def faults_of_lines(lines):
    reported = explain(["--json"], ended(lines)).decode().split("\n")[:-1]
    for line, answer, it in zip(lines, reported, shown(lines), strict=True):
        yield from ((line, f"{fault}: {line!r}") for fault in faults_of(line, answer, it.decode()))


@pytest.mark.sample
def test_lines():
    compare(made(Secrets), COUNT, faults_of_lines, [*short_inputs.short_inputs(), *realistic()])


@pytest.mark.whole
def test_many_lines():
    compare(made(Secrets), 10 * COUNT, faults_of_lines)


def shows_the_secret(words, given):
    ran = run("explain", words, given, timeout=900)
    return [it for it in (ran.stdout + ran.stderr).splitlines() if SECRET in it][:2]


@pytest.mark.parametrize("words", LAYOUTS, ids=lambda it: it[0] if it else "text")
def test_layouts(words):
    lines = [*SHAPES, *filter(is_secret, examples(made(Secrets), COUNT))]
    texts = [it.decode() for it in (*SHAPES, b"https://h/x", b"gh:x") if it.isascii()]
    assert not shows_the_secret(words, ended(lines))
    assert not shows_the_secret([*words, "--config=-", *texts], ENTRIES)


def test_remotes():
    assert not shows_the_secret(["--remotes"], ENTRIES)
