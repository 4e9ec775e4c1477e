"""The calls of the tables in `vectors/`, by the program `answers`: each has the outcome that its row expects.

`docs/VECTORS.md` describes rows. `pytest tests/rows -k homes` runs those of a table.
"""
import json
import re

import pytest
from contracts import OF_LAYERS, contracts, passed_calls
from examples import example_faults
from public_items import files_of
from rt_api import program
from runs import outcomes
from tables import rows, source_faults, topics

# A large order or outcome has more bytes.
LARGE = 1 << 21


@pytest.mark.parametrize("topic", topics())
def test_outcomes(topic):
    table = rows(topic)
    faults = [it for it in map(lambda row, line: row.fault(line), table, outcomes(program("answers"), [it.order() for it in table])) if it]
    assert not faults, f"{len(table) - len(faults)} passed, {len(faults)} failed\n" + "\n".join(faults[:20])


@pytest.mark.quick
@pytest.mark.parametrize("topic", topics())
def test_expectations_are_from_elsewhere(topic):
    """Those of the second reading are computed again."""
    assert not source_faults(rows(topic))


@pytest.mark.quick
def test_examples_of_git_are_let_by_if_they_are_alike():
    assert not [*example_faults(rows("git"))]


@pytest.mark.quick
def test_each_call_has_a_row():
    """Each call of the libraries and of the program, and one with a large text if it requests memory; and no other call has one."""
    table, made = rows(), set()
    for file in files_of("answers"):
        with open(file, encoding="utf-8") as it:
            made |= {*re.findall(r'"(\w+::?\w+)"', it.read())}
    named = {it.members.get("call") for it in table}
    assert (contracts().keys() | made) <= named <= made
    assert OF_LAYERS <= passed_calls().keys()
    listed = [it for it in table if it.place.partition(".")[0].endswith("large")]
    large = {it.members.get("call") for it in listed if max(len(it.order()), len(json.dumps(it.expected))) > LARGE}
    assert {it.members.get("call") for it in table if it.requests} <= large
