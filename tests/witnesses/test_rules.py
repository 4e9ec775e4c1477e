"""Git's behaviour with URLs by its configuration, and the results of the proved library, which must be the same in each case.

An intended difference is in a class, which docs/RULES.md or docs/GIT.md describes. Each row of `vectors/rules/git.jsonl` has Git's
outcome: `pytest tests/witnesses/test_rules.py -k rows --record` asks Git again and writes it. Git runs in repositories and a home of the
test's own (`git_runs.py`), and connects only to a proxy for headers on 127.0.0.1.
"""
import json
import re
from collections import Counter
from itertools import accumulate

import pytest
import rules_files
import rules_remotes
import rules_ssh
import rules_transports
import rules_urls
from differences import library_faults
from git_runs import Entry, entry_of, in_parallel, in_repositories, listing_faults
from row_text import bytes_of
from rt_api import ROOT, read
from rules_ssh import RUNS, USUAL
from texts import (
    Booleans, Contexts, Files, Headers, LocationMaker, Modules, Pairs, Places, Policies, Programs, Remotes, Rules, SecureMaker, compare, examples,
    made, remotes, table)

pytestmark = pytest.mark.needs("git")
CONFIGURATION = "configuration"
# The number of configurations that each topic makes: of all, and of a sample.
TOPICS = {
    "remotes": (made(Remotes, CONFIGURATION), 1_200, 150, rules_remotes.remotes),
    "matches": (made(Places, CONFIGURATION), 240, 80, rules_urls.matches),
    "headers": (made(Headers, CONFIGURATION), 300, 40, rules_urls.headers),
    "credentials": (made(Contexts, CONFIGURATION), 600, 100, rules_urls.credentials),
    "booleans": (made(Booleans), 6_000, 600, lambda texts: in_repositories(rules_transports.boolean, [([], texts)])),
    "permissions": (made(Policies, "case"), 4_000, 600, rules_transports.permissions),
    "programs": (made(Programs, CONFIGURATION), 1_500, 150, rules_ssh.programs),
    "files": (made(Files), 24_000, 1_500, lambda texts: in_repositories(rules_files.file, [([], texts)])),
    "modules": (made(Modules, "file"), 24_000, 2_000, rules_files.checks),
    "used modules": (made(Modules, "used"), 1_500, 125, lambda some: in_parallel(rules_files.used_of, some)),
}
OTHERS = {"files": [*rules_files.CUT]}
SCALES = [pytest.param(it == "whole", marks=getattr(pytest.mark, it), id=it) for it in ("sample", "whole")]


@pytest.mark.parametrize("is_whole", SCALES)
@pytest.mark.parametrize("topic", TOPICS)
def test_topic(topic, is_whole):
    source, whole, sample, ask = TOPICS[topic]
    compare(source, whole if is_whole else sample, lambda some: library_faults(ask(some)), OTHERS.get(topic, ()))


@pytest.mark.parametrize("is_whole", SCALES)
def test_rewriting(is_whole):
    """If Git ends, it does for an entry without a value, and both ways."""
    def faults(some):
        cases = rules_remotes.rewritten(some)
        ended = [it for it in cases if None in (it.fetch, it.push)]
        yield from ((None, f"{it} is in no class") for it in ended if not rules_remotes.is_ended(it))
        yield from library_faults(rules_remotes.rewritten_orders(cases))

    configurations = compare(made(Rules, CONFIGURATION), 1_200 if is_whole else 150, faults)
    assert not is_whole or any(map(rules_remotes.is_ended, rules_remotes.rewritten(configurations)))


@pytest.mark.parametrize("maker", [Rules, Remotes], ids=lambda it: it.__name__)
def test_lists_of_entries(maker):
    """`git config --list -z` writes the entries as the calls of the library get them."""
    assert not [*listing_faults([entries for entries, _ in examples(made(maker, CONFIGURATION), 150)])]


@pytest.mark.parametrize("is_whole", SCALES)
def test_values_at_which_git_stops(is_whole):
    entries = [*rules_transports.entries()][:: 1 if is_whole else 9]
    assert not [*library_faults(rules_transports.stops(entries))]


@pytest.mark.parametrize("is_whole", SCALES)
def test_names_of_transports(is_whole):
    count, others = (4_400, remotes()) if is_whole else (1_100, ())
    compare(made(LocationMaker, "or_addressed"), count, lambda some: library_faults(rules_transports.names(some)), others)


@pytest.mark.parametrize("is_whole", SCALES)
def test_urls_of_submodules(is_whole):
    """The parents that are written out come first."""
    parents = [*Pairs.PARENTS, *examples(made(Pairs, "parent"), 150 - len(Pairs.PARENTS))]
    pairs = [*zip(parents, examples(made(Pairs, "urls"), 150))]
    assert not [*library_faults(rules_files.resolved(pairs[:: 1 if is_whole else 12]))]


@pytest.mark.parametrize("is_whole", SCALES)
def test_words_for_secure_shell(is_whole):
    """Git has the library's words, or the difference is in a class, each of which is needed. For an address family Git
    has no words either."""
    def judge(texts):
        cases = rules_ssh.commands([*rules_ssh.runs_of(texts)])
        found.update(name for name, _ in rules_ssh.judged(cases))
        yield from ((None, fault) for name, fault in rules_ssh.judged(cases) if name is None)
        yield from ((None, fault) for fault in rules_ssh.misread(cases))

    found = Counter()
    others = filter(SecureMaker.FOR_SECURE_SHELL.match, remotes() if is_whole else [])
    source, count = made(SecureMaker, "or_location"), 10_000 if is_whole else 1_500
    compare(source, count, judge, [*table("Given", "SSH"), *others])
    assert not is_whole or {*rules_ssh.CLASSES} <= found.keys()


# ---- the documents

# A class, and the cells after it; a class may have more rows, only the first of which names it.
ROW, PAGE = re.compile(r"^\| (?:`([a-z0-9-]+)` )?\| (.*) \|$", re.M), read("docs/RULES.md")
CLASSES = {"entry-without-value", *rules_ssh.CLASSES}


@pytest.mark.quick
def test_each_class_has_a_row():
    assert CLASSES == {*re.findall(r"^\| `([a-z0-9-]+)` \|", PAGE, re.M)} - {*rules_ssh.VARIANTS}


def test_examples_of_words_for_secure_shell():
    """Each example of a class is in that class."""
    found = [*ROW.finditer(PAGE)]
    names = accumulate((it[1] for it in found), lambda last, it: it or last)
    shown = [(name, re.findall(r"`([^`]*)`", it[2])[0].encode()) for name, it in zip(names, found) if name in rules_ssh.CLASSES]
    cases = rules_ssh.commands([(text, RUNS.get(name, USUAL)) for name, text in shown])
    assert not [(name, case.text) for (name, _), case in zip(shown, cases) if [it for it, _ in rules_ssh.judged([case])] != [name]]


# ---- the rows

def entries_of(row):
    return [entry_of(*map(bytes_of, it)) for it in row["config"]["entries"]]


def given(row, *names):
    return [bytes_of(row[it]) if it in row else None for it in names]


def pushed(row):
    """A text and its remote's push URL: a text that is one is that of a remote with another URL."""
    return (b"none", *given(row, "text")) if row["has_push_url"] else (*given(row, "text"), None)


def reporting(entries):
    """The entries, with each helper replaced by one that reports its number."""
    return [it._replace(value=Contexts.REPORT % at) if it.name == b"helper" and it.value else it for at, it in enumerate(entries)]


def rewritten(some):
    return rules_remotes.rewritten_orders(rules_remotes.rewritten(some))


# For each call the orders with Git's outcomes, one of which has the row's, and the case for a row.
CALLS = {
    "Rewrites::rewrite_fetch": (rewritten, lambda it: (entries_of(it), [(*given(it, "text"), None)])),
    "Rewrites::rewrite_push": (rewritten, lambda it: (entries_of(it), [pushed(it)])),
    "Remote::of": (rules_remotes.remotes, lambda it: (entries_of(it), given(it, "name"))),
    "UrlPattern::matches": (rules_urls.matches, lambda it: ([[Entry(b"http", given(it, "pattern")[0], b"k", b"x")]], given(it, "text"))),
    "entries::best_entry": (rules_urls.matches, lambda it: ([entries_of(it)], given(it, "text"))),
    "protocols::transport": (rules_transports.names, lambda it: given(it, "url")[0]),
    "text::transport_of": (rules_transports.names, lambda it: given(it, "text")[0]),
    "credentials::credentials_for": (rules_urls.credentials, lambda it: (reporting(entries_of(it)), given(it, "text"))),
    "stops::stop_at": (rules_transports.stops, lambda it: entries_of(it)[0]),
    "Protocols::permission": (rules_transports.permissions, lambda it: (entries_of(it), *given(it, "allow_list", "from_user", "name"))),
    "ssh::ssh_command": (rules_ssh.orders, lambda it: (*given(it, "url"), rules_ssh.Run(it["variant"], it["version"], it["service"]))),
}
FILE = f"{ROOT}/vectors/rules/git.jsonl"


def line_of(row, outcome):
    """A row with its outcome; a character for a byte that isn't part of UTF-8 is an escape."""
    own, note = ({name: it for name, it in row.items() if (name == "note") == is_note and name not in ("is", "from")} for is_note in (False, True))
    whole = {**own, "is": outcome, "from": "git", **note}
    return re.sub("[\ue000-\uf8ff]", lambda it: f"\\u{ord(it[0]):04x}", json.dumps(whole, ensure_ascii=False))


def test_rows(request):
    lines = [json.loads(it) if it.startswith("{") else it for it in read("vectors/rules/git.jsonl").removesuffix("\n").split("\n")]
    rows, found = [it for it in lines if isinstance(it, dict)], {}
    for call, (orders, case) in CALLS.items():
        own = [it for it in rows if it["call"] == call]
        outcomes = (outcome for order, outcome in filter(None, orders([*map(case, own)])) if order["call"] == call)
        found.update((id(row), outcome) for row, outcome in zip(own, outcomes, strict=True))
    if request.config.getoption("record"):
        with open(FILE, "w", encoding="utf-8") as it:
            it.writelines((line_of(line, found[id(line)]) if isinstance(line, dict) else line) + "\n" for line in lines)
    assert not [row for row in rows if found.get(id(row)) != row.get("is", ...)] or request.config.getoption("record")
