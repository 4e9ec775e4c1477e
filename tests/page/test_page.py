"""The page of `explain --html` in Chromium, without a window and without a network: its data, its tables and the details of each line are
what `explain --json` answers, and no line or title, of whatever bytes, runs anything or breaks the layout.

`pytest tests/page -k stored --record` writes docs/surprises.html and the pictures docs/page.png and docs/page_dark.png.
"""
import json
import os
import re
import shutil
import time
from unittest.mock import patch

import pytest
from git_runs import put
from row_text import in_bytes, joined
from rt_api import ROOT, read, rows_of, stored
from runs import ended, explained, run
from second_reading import explain_lines, explain_tables, short_inputs, stored_run
from texts import realistic

pytest.importorskip("selenium")
pytest.importorskip("PIL")
import page_answers
import page_filter
import page_look
from page_browser import Browser, written
from PIL import Image
from selenium.common.exceptions import WebDriverException

pytestmark = pytest.mark.needs("chromium", "chromedriver")
SURPRISES, TITLE = "docs/surprises.html", "Texts that surprise"
# In a sample so many bytes of most long lines are looked at, and of the remotes each this many.
MOST_LONG, STEP = 20_000, 20
# Lines that would run, break or hide something in a page that is written carelessly: `markup`, which is put into each
# of the `parts` of a location, other `texts`, `bytes`, and `long` lines of up to a megabyte each; titles; and faults,
# each of which the test has to find: the pattern that is replaced at its first place in a page of these lines, and the
# new bytes.
HOSTILE = joined(json.loads(read("tests/page/hostile.json")))
LONG, FAULTS = in_bytes(HOSTILE["long"]), in_bytes(HOSTILE["faults"])
# The first long lines are seen whole in a sample too: letters, and words of Hebrew and Chinese in turn, which take a
# browser longest. A query has a row for each of the fields, however many.
WHOLE, FIELD = 2, b"a=b&"
# Configurations, the variables of the environment, and lines.
CONFIGURATIONS = rows_of("tests/page/configurations.jsonl")
VARIABLES = ("GIT_ALLOW_PROTOCOL", "GIT_PROTOCOL_FROM_USER")
# How soon a page with a line of a megabyte has to be seen, on a slow machine that does other work as well, and how many points
# high its row may be: other lines are beside it.
MOST_SECONDS, MOST_HEIGHT = 60, 400
# How many boxes are laid out of the page of 10,000 remotes, of which all lines have 110,000; and a text that few lines of each group have.
MOST_LAID_OUT, RARE = 10_000, "999"
# Of that page and of ten times as many lines: its bytes, in how many milliseconds it has to be loaded, its first text seen and its lines
# counted, at best of a few tries. In how many seconds it has to be filtered by a dozen keys, and then to show no line and all of them again.
SIZES, TRIES, MOST_FILTERED = {1: (10_000_000, (2_000, 1_000, 4_000)), 10: (100_000_000, (5_000, 1_000, 10_000))}, 3, 10


def texts_that_surprise():
    """The texts of the table in docs/GRAMMAR.md."""
    return [row[0].strip("`").encode() for row in explain_tables.table()]


def hostile_lines():
    """The lines, each once. Some have a line feed, so all end with byte 0 in the input; lines with byte 0 are cut."""
    marked = [part.replace("{}", it) for it in HOSTILE["markup"] for part in HOSTILE["parts"]]
    texts = in_bytes([*marked, *HOSTILE["texts"]])
    cut = [*in_bytes(HOSTILE["bytes"]), bytes(range(1, 256)), b"/" + bytes(range(256))]
    return list(dict.fromkeys([*texts, *(piece for it in cut for piece in it.split(b"\0"))]))


def second_reading(lines):
    return [json.loads(stored_run.answer(number, line)) for number, line in enumerate(lines, 1)]


def shown_faults(page, file, lines, wanted, title=None, widths=page_look.WIDTHS, most=None):
    """What is wrong with a page as it is made, which is opened, also with the details of each line."""
    try:
        page.open(file)
        faults = [*page_answers.faults_of(page, lines, wanted, title)]
        if widths:
            page.ask("openAll")
        return [*faults, *page_look.layout_faults(page, widths, most), *page.found()]
    except (WebDriverException, ValueError, KeyError, TypeError, IndexError) as fault:
        return [f"the page can't be read: {fault!r}"]


# ---- tests

@pytest.fixture(scope="module")
def browser(tmp_path_factory):
    with Browser(str(tmp_path_factory.mktemp("page"))) as found:
        yield found


@pytest.fixture
def page(browser):
    """Pages that do nothing that is a fault."""
    yield browser
    assert not browser.found()


SCALES = [pytest.param(False, marks=pytest.mark.sample, id="sample"), pytest.param(True, marks=pytest.mark.whole, id="whole")]


def test_stored(page, request):
    """The stored page is the program's, and says what the second reading does; and the pictures, whose points differ by fonts and versions,
    have the digest of the page that the program writes of the lines which they show."""
    if request.config.getoption("record"):
        shutil.copyfile(written(page, texts_that_surprise(), TITLE), f"{ROOT}/{SURPRISES}")
        page_look.draw(page)
    lines = texts_that_surprise()
    assert not shown_faults(page, f"{ROOT}/{SURPRISES}", lines, second_reading(lines), TITLE)
    assert stored(written(page, lines, TITLE)) == stored(SURPRISES)
    assert {Image.open(f"{ROOT}/{it}").text[page_look.DIGEST] for it in page_look.PICTURES} == {page_look.digest(page)}


@pytest.mark.parametrize("is_whole", SCALES)
def test_answers(page, is_whole):
    for lines in (short_inputs.short_inputs(), realistic()[::1 if is_whole else STEP]):
        assert not shown_faults(page, written(page, lines), lines, explained(lines), widths=())


def test_hostile_lines(page):
    lines = hostile_lines()
    assert not shown_faults(page, written(page, lines, end=b"\0"), lines, second_reading(lines))


@pytest.mark.parametrize("is_whole", SCALES)
@pytest.mark.parametrize("number", range(len(LONG)))
def test_long_line(page, number, is_whole):
    """A long line among others, of which in a sample only the first are whole."""
    line = LONG[number][: None if is_whole or number < WHOLE else MOST_LONG]
    lines = [b"h:p", line, b"h:q"]
    file, started = written(page, lines), time.monotonic()
    page.open(file)
    page.ask("drawn")
    assert time.monotonic() - started <= MOST_SECONDS
    assert not shown_faults(page, file, lines, explained(lines), most=None if FIELD in line else MOST_HEIGHT)


@pytest.mark.parametrize("title", HOSTILE["titles"], ids=lambda it: ascii(it[:12]))
def test_title(page, title):
    assert not shown_faults(page, written(page, [b"h:p"], title), [b"h:p"], second_reading([b"h:p"]), title)


@pytest.mark.parametrize("number, case", enumerate(CONFIGURATIONS))
def test_rules(page, number, case):
    """The status and the reports are those without a page too, and no secret is shown."""
    lines, words = in_bytes(case["lines"]), ["--config", put(f"{page.folder}/config", in_bytes(joined(case["config"])))]
    variables = {name: it for name, it in os.environ.items() if name not in VARIABLES} | case["variables"]
    with patch.dict(os.environ, variables, clear=True):
        file, wanted = written(page, lines, more=words), explained(lines, *words)
        assert not shown_faults(page, file, lines, wanted)
        ran = [run("explain", [*layout, *words], ended(lines)) for layout in ([], ["--json"], ["--html"])]
    assert len({(it.returncode, it.stderr) for it in ran}) == 1
    assert not any(b"S3cr3t" in it.stdout + it.stderr for it in ran)
    assert number or not [*page_look.contrast_faults(page)]


@pytest.mark.parametrize("is_whole", SCALES)
def test_use(page, is_whole):
    """The page as it is used: by the keyboard, without scripts, by a screen reader, in each colour, on paper."""
    lines = [*texts_that_surprise(), *explain_lines.HELPERS, *explain_lines.URLS, *explain_lines.SLIPS, *explain_lines.REFUSED, *explain_lines.SECRETS]
    lines += realistic()[:None if is_whole else 300:40]
    wanted, file = explained(lines), written(page, lines)
    page.open(file)
    assert not [*page_filter.skip_faults(page), *page_filter.faults_of(page, wanted), *page_filter.detail_faults(page), *page_look.layout_faults(page)]
    page.ask("openAll")
    assert not [*page_look.contrast_faults(page), *page_look.name_faults(page, len(lines)), *page_look.print_faults(page), *page.found()]
    page.open(file, script=False)
    assert not [*page_filter.plain_faults(page, len(lines)), *page_answers.faults_of(page, lines, wanted, script=False)]


def test_many_lines(page):
    """The filter doesn't wait until many lines are read, and all are counted. A few groups of them are laid out: after the first Tab, and
    where all are shown again after a filter that left few of each group."""
    file = written(page, realistic())
    assert not [*page_filter.early_faults(page, file, realistic(), RARE)]
    page.open(file)
    assert not [*page_filter.skip_faults(page)]
    assert page.laid_out() <= MOST_LAID_OUT
    page_filter.use(page, {"f-text": RARE})
    page_filter.show_all(page)
    assert page.laid_out() <= MOST_LAID_OUT


@pytest.mark.whole
@pytest.mark.parametrize("times", SIZES)
def test_large(page, times):
    """The size of the page, how soon it is shown, and whether it can be used."""
    file, taken = written(page, realistic() * times), []
    for _ in range(TRIES):
        page.open(file)
        page.ask("drawn")
        taken.append(page.ask("times"))
    started = time.monotonic()
    assert not [*page_filter.skip_faults(page)]
    page_filter.use(page, {"f-verdict": "settled", "f-host": "github"})
    assert time.monotonic() - started <= MOST_FILTERED
    started = time.monotonic()
    page_filter.use(page, {"f-text": "no line"})
    page_filter.show_all(page)
    assert time.monotonic() - started <= MOST_FILTERED
    assert not [*page_filter.border_faults(page)]
    most_bytes, most = SIZES[times]
    assert os.path.getsize(file) < most_bytes and all(min(it) < limit for it, limit in zip(zip(*taken), most))


@pytest.mark.whole
@pytest.mark.parametrize("fault", [None, *FAULTS], ids=str)
def test_finds(page, fault):
    """A fault that is put into a page, and none without one."""
    lines = hostile_lines()
    file = written(page, lines, end=b"\0")
    if fault:
        pattern, new = FAULTS[fault]
        put(file, re.sub(pattern, new, stored(file), count=1))
    found = shown_faults(page, file, lines, second_reading(lines), widths=())
    page.found()
    assert bool(found) == bool(fault)
