"""The reports of `./explain --config` on lines, compared with the results of the library by the program `answers`; and command lines.

For each case all JSON is compared (`rules_expected.py`), and the reports on standard error. Configurations are written by hand, and
taken from those that are compared with Git. The text output was written by hand (`crates/explain/golden/by_config`).
"""
import json
import os
import re

import pytest
import runs
from git_runs import entry_of as entry
from git_runs import listed
from row_text import in_bytes, joined
from rt_api import rows_of, stored
from rules_expected import Case, fault, names_of_remotes, placed, remote, rules
from runs import ended, together
from texts import Places, Remotes, Rules, examples, lacks_value, made

STORED = "crates/explain/golden/by_config"
# The number of configurations of each kind that are taken from those compared with Git.
TAKEN = 40


def case_of(row):
    return Case([entry(*it) for it in row["config"]], row.get("lines", []), row.get("allow_list"), row.get("from_user"))


ROWS = in_bytes([*map(joined, rows_of("tests/programs/configurations.jsonl"))])
BY_HAND = [case_of(it) for it in ROWS if "lines" in it and "transport" not in it]
BY_VARIABLE = [(case_of(it), it["transport"]) for it in ROWS if "transport" in it]
REMOTES = [case_of(it) for it in ROWS if "config" in it and "lines" not in it]
COMMAND_LINES = [it for it in ROWS if "words" in it]


def remotes_of_git():
    """Configurations with remotes that are compared with Git, except those with a rule that has no value."""
    some = [entries for entries, _ in examples(made(Remotes, "configuration"), TAKEN)]
    return [*REMOTES, *(Case(it, []) for it in some if not any(map(lacks_value, it)))]


def cases_of_git():
    """Cases of the configurations that are compared with Git."""
    for entries, asked in examples(made(Rules, "configuration"), TAKEN):
        yield Case(entries, [line for line, _ in asked if not {10, 0} & {*line}])
    for sets, urls in examples(made(Places, "configuration"), TAKEN):
        every = [it for entries in sets for it in entries]
        some = [it._replace(section=b"credential") if at % 3 == 0 else it for at, it in enumerate(every)]
        yield Case(some, [it for it in urls if not {10, 0} & {*it}])


def run(case, *words):
    variables = {**os.environb, b"GIT_ALLOW_PROTOCOL": case.allow_list, b"GIT_PROTOCOL_FROM_USER": case.from_user}
    environment = {name: it for name, it in variables.items() if it is not None}
    return runs.run("explain", words, ended(case.lines), env=environment)


@pytest.fixture
def given(tmp_path):
    def write(case):
        (tmp_path / "config").write_bytes(listed(case.entries))
        return "--config", str(tmp_path / "config")
    return write


def test_lines(given):
    cases = [*BY_HAND, *cases_of_git()]
    words = iter(together([fault(it) for case in cases for it in case.entries]))
    wanted = iter(together([rules(case, line) for case in cases for line in case.lines]))
    for case in cases:
        reported = "".join(f"explain: the entry at byte {at} of the configuration {it}\n" for at, _ in placed(case.entries) if (it := next(words)))
        ran, text = run(case, "--json", *given(case)), run(case, *given(case))
        assert ran.stderr.decode() == reported and b"s3cret" not in ran.stdout + ran.stderr + text.stdout, case
        for line, it in zip(case.lines, map(json.loads, ran.stdout.splitlines()), strict=True):
            rules_of = next(wanted)
            assert json.loads(json.dumps(rules_of)) == it["rules"] and list(rules_of) == list(it["rules"]), f"of {line!r} by {case}"


def test_remotes(given):
    cases = remotes_of_git()
    wanted = iter(together([remote(case, name) for case in cases for name in names_of_remotes(case.entries)]))
    for case in cases:
        ran, text = run(case, "--json", "--remotes", *given(case)), run(case, "--remotes", *given(case))
        found = [json.loads(it) for it in ran.stdout.splitlines()]
        for it in found:
            it.update({member: [{**way, "rewritten": None} for way in it[member]] for member in ("fetch", "push")})
        assert found == json.loads(json.dumps([next(wanted) for _ in names_of_remotes(case.entries)])), case.entries
        assert b"s3cret" not in ran.stdout + ran.stderr + text.stdout, case


@pytest.mark.parametrize("row", COMMAND_LINES, ids=lambda it: ascii(b" ".join(it["words"]))[2:-1])
def test_command_line(row, tmp_path):
    (tmp_path / "given").write_bytes(b"url.https://h/.insteadof\ngh:\0")
    words = [it.replace(b"FILE", b"FOLDER/given").replace(b"FOLDER", bytes(tmp_path)) for it in row["words"]]
    ran = run(Case([], row["given"].splitlines()), *words)
    fetches = re.search(rb'(?m)^    fetches     "([^"]*)"', ran.stdout)
    assert ran.returncode == row.get("status", 0) and (fetches[1] if fetches else ran.stdout) == row.get("fetched", b"")
    assert ran.stderr.startswith(row["reported"]) if ran.returncode else ran.stderr == row.get("reported", b"")


def test_without_a_configuration():
    assert b'"rules":null}' in run(Case([], [b"gh:p"]), "--json").stdout


@pytest.mark.parametrize("case, wanted", BY_VARIABLE)
def test_text_by_a_variable(case, wanted, given):
    assert b"\n    transport   %b\n" % wanted in run(case, *given(case)).stdout


def test_text():
    """The text output is as it was written by hand."""
    shown = run(Case([], stored(f"{STORED}/stdin").splitlines()), "--config", f"{STORED}/config").stdout
    rows = [it for it in shown.splitlines() if re.match(rb"line |    (fetches|pushes|danger|credential|http|transport) ", it)]
    assert rows == stored(f"{STORED}/stdout").splitlines()
