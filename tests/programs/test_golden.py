"""The text output of `explain` over the lines of `crates/explain/golden`, whose answers aren't its own output.

By the second reading (`second_reading.text_answers`) are the answers to the lines 70, 77, 86, 95 to 101 and from 111 on; those after
117 were derived before the program had read them. All others are by hand: the second reading has its layout and words from them, and
derives them too. Two sentences are in none of them, and were only read: the row of Git in line 98, and the heading of line 101. The
answers in colours and by a configuration are by hand alone. Over the lines of both stored runs the program prints what the second
reading derives, except for those that need words that are in no line here; a few details of their layout are the program's.
"""
import re

import pictures
import pytest
from rt_api import stored
from runs import explained, run, shown
from second_reading import short_inputs, stored_run, text_answers
from texts import plain, realistic

STDIN, STDOUT, COLORED, ALARMS = (stored(f"crates/explain/golden/{it}") for it in ("stdin", "stdout", "colored", "alarms"))
# A longer line has no names below it.
LONGEST = 200
# A remote of HTTP, of Secure Shell or in the scp form, of which nothing has to be said.
PLAIN = re.compile(rb"(https|ssh)://([\w.-]+@)?[\w.-]+(:\d+)?/[\w./-]+|([\w.-]+@)?[\w.-]+:[\w.][\w./-]*")
# Of Secure Shell and Git, the path of which begins in a home folder.
BELOW_HOME = re.compile(rb"(?:(?:ssh|git)://[^/]+/|[^/:]+:)~")
OPTION = re.compile(rb"(^|//|@|/|:)-")
# Segments that curl takes out.
DOTS = re.compile(rb"https://.*/\.\.?(/|\Z)")
# In the row of Git all but that the same is read, and that it was not compared; rows of what others read.
READ_ALIKE = rb"reads the same in its text|passes its text to a remote helper"
ALARM = re.compile(rb"; danger: |: refused: |, not settled|^ +git +(?! |" + READ_ALIKE + rb")|^ +(helpers|curl|readers|hint) ", re.M)


@pytest.mark.quick
def test_stored_answers_are_derived():
    wanted = STDOUT
    for number, line in enumerate(STDIN.split(b"\n")[:-1], 1):
        answer = text_answers.answer(number, line).encode()
        assert wanted.startswith(answer), f"line {number}, {line!r}: the second reading has {answer.decode()}"
        wanted = wanted[len(answer):]
    assert not wanted, "an answer to no line"


def test_answers():
    ran = run("explain", given=STDIN)
    assert not {*ran.stdout.split(b"\n")} - {*STDOUT.split(b"\n")}
    assert not re.search(r"[^\n\x20-\x7e\xa0-\U0010ffff]", ran.stdout.decode("utf-8", "replace"))
    assert (ran.returncode, ran.stdout) == (1, STDOUT)


def test_answers_to_stored_runs():
    given = [*short_inputs.short_inputs(), *stored_run.stored_run()["stdin"].split(b"\n"), *ALARMS.splitlines()]
    given = [it for it in dict.fromkeys(given) if len(it) <= LONGEST]
    faults, count = [], 0
    for number, (line, answer) in enumerate(zip(given, shown(given), strict=True), 1):
        try:
            wanted = text_answers.answer(number, line)
        except KeyError:
            continue
        count += 1
        if answer != wanted.encode():
            faults.append(f"the answer to {line!r} is {answer.decode('utf-8', 'replace')}, and by the second reading {wanted}")
    assert count > len(given) / 2 and not faults


def test_colours():
    """The first coloured lines are as they were written by hand, and without colours all are the same."""
    found = run("explain", ["--color=always"], STDIN).stdout
    assert re.sub(rb"\x1b\[[0-9;]*m", b"", found) == STDOUT
    assert all(got == want for got, want in zip((it for it in found.splitlines() if b"\x1b" in it), COLORED.splitlines()))


def test_the_picture_of_a_terminal():
    """`scripts/pictures.py --terminal` draws docs/explain.svg again."""
    assert pictures.printed() == stored(pictures.STORED)


def test_alarms():
    """Each line of the file `alarms` raises one, and no realistic remote does: a hint is one."""
    lines = [it for it in realistic() if PLAIN.fullmatch(it) and not OPTION.search(it) and not DOTS.match(it)]
    assert len(lines) >= 400
    assert not [line for line, answer in zip(lines, shown(lines), strict=True) if ALARM.search(answer)]
    bad = ALARMS.splitlines()
    assert not [line for line, answer in zip(bad, shown(bad), strict=True) if not ALARM.search(answer)]


def test_nothing_is_found_in_plain_remotes():
    """Of a path that begins in a home folder only that is said."""
    for line, it in zip(plain(), explained(plain()), strict=True):
        hints = ["home_there"] if BELOW_HOME.match(line) else []
        assert not (it["dangers"] or it["findings"] or it["readers"] and it["readers"]["others"] or it["hints"] != hints), line
