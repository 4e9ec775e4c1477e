"""What programs that read Git locations read, beside the place that Git connects to.

The texts are the remotes of `crates/url_bench/remotes.txt`, or of the file that `--remotes` names, the texts of the tables in `vectors/`, and
made ones, most of them near the class; a whole run also changes some texts of the class at each place by each byte.
`tools/second_reading/unambiguous.py` defines the class, by conditions on the bytes. In a text of the class every reader must read
the location's own scheme, user, password, host, port and path, and the location must be settled, be written as the text, and agree with
Git; and `Url::is_unambiguous` must say so of each text that is written for a location.

Outside of the class a reader that reads another place, or refuses, must be listed for one of the conditions that the text breaks
(`reader_facts.py`). A reader whose version isn't that of `vectors/readers/readers.jsonl` is run, but only its differences inside the class
fail. `--record` writes the tables, and those of docs/READERS.md. A program that represents a group of readers must find the group's host in
each text in which it or the group finds another host than Git, except in texts of its shapes (`reader_groups.py`). A whole run over the
repository's remotes also fails if no text needs a condition or a shape, or if other texts are counted.

Places are compared in one form (`reader_places.py`). A program that converts the scp form to a URL may refuse one, and its path is compared
without its first slash. For texts other than URLs, a reader of URLs is only asked whether it finds a host in them.
"""
import functools
from collections import defaultdict, namedtuple
from concurrent.futures import ThreadPoolExecutor

import pytest
import reader_facts as facts
import reader_groups as groups
from git_runs import order_of
from reader_places import git_place, is_same, own_readers, said_place, with_decoded_path
from reader_programs import READERS, ask, build, version
from rt_api import outdated
from runs import answers
from second_reading import git_class, grammar, writing
from second_reading.unambiguous import CONDITIONS, broken, pieces
from tables import texts_of_rows
from texts import NearMaker, can_be_an_argument, changed_texts, compare, made, remotes, table

pytestmark = pytest.mark.needs("git")
# The number of made texts, and of texts for a reader that is started for each of them.
SCALES = {"sample": (30_000, 1_500), "whole": (50_000, 12_000)}
# Of shapes and conditions for which texts are rarely made.
GIVEN = table("Given", "READERS")
# Longer texts of rows are left out.
LONGEST = 4096


class Case:
    """A text, its form, the conditions that it breaks, the place that Git connects to, and the hosts that groups of readers
    find, each with whether the group misreads the text."""

    def __init__(self, text):
        self.text, self.form, self.broken = text, pieces(text).form, broken(text)
        self.wanted = git_place(text, self.form)
        self.hosts = groups.hosts_of(self)
        self.misread = {it for it in self.hosts if groups.is_misread(self, it)}


# A reader, and by texts the cases in which it reads another place, each with its reading. `seen` is its behaviour in cases of its groups.
Asked = namedtuple("Asked", "name version seen differing")


def asked_of(name, found, cases, places, same):
    return Asked(name, found, [*groups.seen(name, cases, places)], {case.text: (case, it) for case, it in zip(cases, places) if not same(case, it)})


def ask_program(reader, cases):
    found = version(reader)
    if found is None or not build(reader):
        return None
    places = [said_place(reader, case.form, it) for case, it in zip(cases, ask(reader, [it.text for it in cases]))]
    return asked_of(reader.name, found, cases, places, lambda case, it: is_same(reader, case.form, case.wanted, it))


def ask_own(own, cases, count):
    """Runs a reader that is started for each text: on this many texts of the class, on this many others, and on those that are shown."""
    name, found, takes, places = own
    fitting, shown = [it for it in cases if takes(it.text, it.form)], {*(text for *_, text, _ in facts.shown_lines()), *GIVEN}
    if name != "libcurl":
        inside = [it for it in fitting if not it.broken]
        outside = [it for it in fitting if it.broken and it.wanted is not None and not it.text.startswith(b"-")]
        chosen = [it for some in (inside, outside) for it in some[:: max(1, len(some) // count)][:count]]
        fitting = [*dict.fromkeys([*(it for it in fitting if it.text in shown), *chosen])]
    seen = with_decoded_path if name == "Git credential" else lambda it: it
    return asked_of(name, found, fitting, places([it.text for it in fitting]), lambda case, it: case.wanted and seen(case.wanted) == it)


@functools.lru_cache(2)
def asked(texts, started):
    """The cases of texts, and the readers that are installed, two of which run at a time."""
    cases = [*map(Case, texts)]
    with ThreadPoolExecutor(2) as lanes:
        found = [*lanes.map(lambda it: ask_program(it, cases), READERS)]
    missing = [reader for reader, it in zip(READERS, found) if it is None]
    if missing:
        print(f"left out: {', '.join(it.name for it in missing)}: apt-get install {' '.join(it.packages for it in missing)}")
    return cases, [*[ask_own(it, cases, started) for it in own_readers()], *filter(None, found)]


def faults(texts, started):
    """The faults of texts of the class, each with its text."""
    cases, readers = asked(tuple(texts), started)
    read = {it: found for it in cases if (found := grammar.spells(it.text)) is not None and writing.text(found) == it.text}
    for case in cases:
        if not (case.broken or case in read and git_class.agrees_with_git(read[case]) and case.wanted):
            yield case.text, f"{case.text!r} is in the class, and is no location of which agrees_with_git is true, written so"
    for case, found in zip(read, answers([order_of("Url::is_unambiguous", url=it.text) for it in read])):
        if found is not (not case.broken):
            yield case.text, f"Url::is_unambiguous is {found} of {case.text!r}, which breaks {case.broken}"
    for reader in readers:
        yield from ((case.text, f"{reader.name} {reader.version} reads {it} in {case.text!r} of the class, and Git {case.wanted}")
                    for case, it in reader.differing.values() if not case.broken)


def differences(readers):
    """The readings of other places than Git's, each with its reader and its case; where Git connects to none there is no other."""
    return [(reader, *it) for reader in readers for it in reader.differing.values() if it[0].wanted is not None]


class Run:
    """All texts of a scale, and what the readers read in them."""

    def __init__(self, name, files):
        count, started = SCALES[name]
        self.is_whole, self.is_own = name == "whole", not files
        lines = [it for file in files for it in open(file, "rb").read().splitlines()] or remotes()
        more = changed_texts() if self.is_whole else []
        shown = [text for *_, text, _ in facts.shown_lines()]
        others = [*filter(can_be_an_argument, [*shown, *GIVEN, *lines, *texts_of_rows(LONGEST), *more])]
        texts = compare(made(NearMaker, "argument"), count, lambda texts: faults(texts, started), others)
        self.cases, self.readers = asked(tuple(texts), started)
        self.known = [it for it in self.readers if facts.versions().get(it.name) == it.version]

    def alone(self):
        """By conditions and readers, the differences in texts that break only this condition."""
        found = defaultdict(lambda: defaultdict(list))
        for reader, case, it in differences(self.readers):
            if len(case.broken) == 1:
                found[case.broken[0]][reader.name].append((case, it))
        return found

    def beside(self, found):
        """The readers that differ in a text that breaks several conditions, and in none that breaks only one of them: by the first
        of them."""
        more = defaultdict(list)
        for reader, case, _ in differences(self.readers):
            if case.broken and not any(reader.name in [*found[name], *more[name]] for name in case.broken):
                more[case.broken[0]].append(reader.name)
        return more


@pytest.fixture(scope="module", params=[pytest.param(it, marks=getattr(pytest.mark, it)) for it in SCALES])
def run(request):
    made_run = Run(request.param, request.config.getoption("remotes"))
    if request.config.getoption("record"):
        facts.record(made_run.cases, made_run.readers, made_run.alone(), made_run.beside(made_run.alone()))
    return made_run


def test_the_class(run):
    """All readers read its texts alike."""
    assert any(not it.broken for it in run.cases) and run.readers


def test_outside_of_the_class(run):
    listed = {name: {it for kind in (*facts.KINDS, "beside") for it in line[kind]} for name, line in facts.conditions().items()}
    assert not [f"{reader.name} {reader.version} reads {it} in {case.text!r}, and Git {case.wanted}; it breaks {case.broken}"
                for reader, case, it in differences(run.known) if not any(reader.name in listed[name] for name in case.broken)]


def test_confusions(run):
    assert not [*facts.confusion_faults(run.cases, run.known)]


def test_groups(run):
    assert not [*groups.group_faults(run.known)]


def test_each_condition_and_shape_is_needed(run):
    """In a whole run over the repository's remotes."""
    if run.is_whole:
        found, listed = run.alone(), facts.conditions()
        needed = [name for name in CONDITIONS if any(listed[name].get(kind) for kind in facts.KINDS)]
        assert not [name for name in needed if not found[name]]
    if run.is_whole and run.is_own:
        assert not [*groups.shape_faults(run.known)]
        assert not [it for it in facts.group_lines(run.known) if it not in groups.LISTED]


@pytest.mark.quick
def test_document():
    """The pages have the tables of `vectors/readers/`."""
    assert not outdated(facts.pages(), "vectors/readers/*.md")
