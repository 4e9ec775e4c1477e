"""How three programs read HTTP remotes: each difference is in a class of `web_classes.py`, which docs/GIT.md describes.

This library returns the host by which a caller picks credentials, Git's credential code asks helpers for a host, and libcurl
connects. The texts are the HTTP remotes of `crates/url_bench/remotes.txt`, those of the tables in `vectors/`, and made ones. The library's
reading comes from the second reading (`tools/second_reading`), those of the others from rules by hand (`web_reads.py`), which must agree
for each text with `git credential fill` and the libcurl of `git-remote-http` (`web_asked.py`). The requests of `git ls-remote` for some
texts must be those of the rules.

`Url::agrees_with_git` must be true for exactly those locations that meet the conditions of `web_plain.py`. In the text of each of them all must read the same place, by the rules and by the
definitions that `laws::law_git` uses (`web_defined.py`); each condition must be needed, or be listed as a stricter one. In any
text the reading of Git's credential code must be that of its definition. For each text that is written for a location the
program `explain` must report the readings of that definition and of the rule for libcurl.
"""
import functools
import random
import re

import pytest
from differences import changed, lost, needless, unlike
from examples import web_examples
from git_classes import class_of
from git_runs import order_of
from rt_api import read
from runs import answers, explained
from second_reading import explain, hosts, writing
from second_reading.seen import seen
from second_reading.web_defined import credential_readings, own_faults, uri_readings
from second_reading.web_plain import CONDITIONS, STRICTER
from tables import rows, texts_of_rows
from texts import WebMaker, can_be_a_line, compare, examples, made, remotes, table
from web_asked import ask_credential, curl_of_git, wire_faults
from web_classes import CLASSES, cases_of
from web_reads import as_defined, credential_reads, curl_reads, for_transfer, is_number, literal

pytestmark = pytest.mark.needs("git", curl_of_git)
COUNT, TEXTS = 26_000, made(WebMaker)
# The number of texts for Git's credential code, and for `git ls-remote`; None for all.
SCALES = [pytest.param(3_000, 120, marks=pytest.mark.sample, id="sample"), pytest.param(None, 500, marks=pytest.mark.whole, id="whole")]
HTTP = re.compile(rb"https?://", re.I)
# Longer texts of rows are left out.
LONGEST = 4096
# A class in a table of the document, and the first text in its line, in which `\x01` is byte 1. And each text of the document.
EXAMPLE, SHOWN = re.compile(r"^\| `([a-z-]+)` \|.*?`(https?://[^`]+)`", re.M), re.compile(r"`(https?://[^`]+)`")
DOCUMENT = read("docs/GIT.md").replace(r"\x01", "\x01")


def some(texts, count):
    """This many of the texts, the same ones each time."""
    return texts if count is None or count >= len(texts) else random.Random(COUNT).sample(texts, count)


@functools.cache
def given():
    """A text with byte 0 can't be an argument of a command."""
    return [it for it in dict.fromkeys([*remotes(), *texts_of_rows(LONGEST), *table("Given", "WEB")]) if HTTP.match(it) and 0 not in it]


@functools.lru_cache(2)
def with_written(texts):
    """The cases of texts, and of those that are written for what is read in them; and the texts of the latter, by those."""
    cases = cases_of(texts)
    known = {*texts}
    source = {writing.text(it.location): it.text for it in cases if it.is_settled}
    source = {written: text for written, text in source.items() if written not in known}
    return [*cases, *cases_of(source)], source


@functools.cache
def all_cases():
    return with_written((*dict.fromkeys([*given(), *examples(TEXTS, COUNT)]),))[0]


@functools.cache
def unmet():
    """The conditions that each text misses which is written for a location."""
    return [(it, it.broken) for it in all_cases() if it.is_written_so]


# ---- faults, each with its text

def rule_faults(texts, count):
    """A rule has another reading than the program; some texts are always compared."""
    yield from unlike("libcurl reads", texts, curl_of_git().reads, curl_reads)
    always = {it.text for it in web_examples(rows("git"))} & {*texts}
    asked = [*dict.fromkeys([*always, *some([*filter(can_be_a_line, texts)], count)])]
    yield from unlike("Git's credential code reads", asked, dict(zip(asked, ask_credential(asked))).get, credential_reads)
    yield from unlike("by its definition Git's credential code reads", texts, credential_readings, lambda it: as_defined(credential_reads(it)))


def agreement_faults(case):
    """One reader reads a text of the class differently, by the rules or by the definitions; or the resolver takes its host
    for a number though it hasn't the usual form of an address, or the other way round."""
    if not case.is_alike or is_number(case.host.strip(b"[]").decode()) != (case.is_literal or hosts.is_ip4(case.host)):
        yield f"{case.text!r} meets all conditions, and is read differently: {sorted(case.differing)}"
    yield from own_faults(case.text, case.location)
    own = for_transfer(*uri_readings(case.text))
    own = own._replace(host=literal(own.host)) if case.is_literal else own
    if own != case.curl:
        yield f"libcurl reads {case.curl} in {case.text!r}, and by the definition its components are {own}"


def answer_faults(cases):
    """The call differs from the conditions."""
    wanted = {case.text: not case.broken for case in cases}
    said = dict(zip(wanted, answers([order_of("Url::agrees_with_git", url=it) for it in wanted])))
    yield from unlike("agrees_with_git is", wanted, said.get, wanted.get)


def explain_faults(cases):
    """`explain` reports another place of a written text than the rules. It reports on the text as it is shown, so texts are left
    out in which it hides anything but a password."""
    written = {it.text: it.location for it in cases if it.is_written_so and seen(it.text) == it.text}
    said = dict(zip(written, explained(written, "--null", end=b"\0"), strict=True))
    for name, rule in (("credential", explain.credential), ("curl", explain.curl)):
        yield from unlike(f"explain has the {name}", written, lambda it: said[it]["location"][name], lambda it: rule(written[it]))


def faults(texts, count):
    cases, source = with_written(tuple(texts))
    found = [*rule_faults([*texts, *source], count), *((case.text, fault) for case, fault in lost(cases, CLASSES)), *answer_faults(cases)]
    found += [(it.text, fault) for it in cases if it.is_written_so and not it.broken for fault in agreement_faults(it)]
    found += explain_faults(cases)
    return [(source.get(text, text), fault) for text, fault in found]


@pytest.mark.parametrize("count, sent", SCALES)
def test_readings(count, sent):
    compare(TEXTS, COUNT, lambda texts: faults(texts, count), given())


@pytest.mark.parametrize("count, sent", SCALES)
def test_requests(count, sent):
    """Of texts of the document, some of each class, some that are read alike, and some of all; and of those of the class."""
    by_class, alike = {}, [it for it in all_cases() if not it.differing]
    for it in all_cases():
        by_class.setdefault(class_of(it, CLASSES) if it.differing else None, []).append(it)
    groups = [*by_class.values(), alike, alike]
    shown = [it.encode() for it in SHOWN.findall(DOCUMENT)]
    chosen = dict.fromkeys([*shown, *(it.text for cases in groups for it in some(cases, sent // len(groups)))])
    more = some([it for it in (*given(), *examples(TEXTS, COUNT)) if it not in chosen], max(0, sent - len(chosen)))
    careful = some([it.text for it, names in unmet() if not names], sent)
    assert not [*wire_faults([*chosen, *more, *careful])]


def test_each_class_is_needed():
    assert not needless(all_cases(), CLASSES)


@pytest.mark.parametrize("name", [*CONDITIONS][1:])
def test_each_condition_is_needed(name):
    """A text that misses it alone is read differently, or it is listed as a stricter one. The text of an unsettled location spells another one,
    so no text breaks only that condition."""
    alone = [it for it, names in unmet() if names == [name]]
    assert alone and any(not it.is_alike for it in alone) == (name not in STRICTER)


@pytest.mark.quick
def test_examples_of_the_document():
    """Each class has one, and each is in its class."""
    found = [(name, text.encode()) for name, text in EXAMPLE.findall(DOCUMENT) if name in CLASSES]
    assert {*CLASSES} == {name for name, _ in found}
    assert not [(name, text) for name, text in found if [class_of(it, CLASSES) for it in cases_of([text])] != [name]]


@pytest.mark.quick
def test_examples():
    assert not [*changed(web_examples(rows("git")), lambda text: cases_of([text])[0], CLASSES)]
