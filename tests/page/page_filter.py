"""The filter of a page, used by the keyboard alone: the lines that are shown are those of the answers."""
import json

from page_answers import form, verdict
from second_reading.dangers import WORDS
from selenium.webdriver import Keys


# Types into the filter as soon as all lines are there.
EARLY = """addEventListener('DOMContentLoaded', () => {
  const text = document.querySelector('#f-text');
  text.value = %s;
  text.dispatchEvent(new Event('input', { bubbles: true }));
})"""


def reach(page, name):
    """Presses Tab until the control has the focus."""
    for _ in range(40):
        if page.ask("focused") == name:
            return
        page.press(Keys.TAB)
    raise ValueError(f"the control {name} is not reached by the keyboard")


def part_of(answer, part):
    """A part of the location as the page has it; a port is there where the line has one."""
    value = (answer["location"] or {}).get(part)
    return "" if value is None else str(value).lower()


def cases(wanted):
    """What is typed into the controls, in their order, and which lines are shown then: a choice by its first word."""
    hosts = [part_of(it, "host") for it in wanted]
    host = max({it for it in hosts if len(it) > 5}, key=lambda it: (hosts.count(it), it))
    yield {"f-text": host[1:-1].upper()}, [host[1:-1] in it["input"].lower() for it in wanted]
    yield {"f-host": host.upper()}, [host in it for it in hosts]
    for part, text in (("host", host[1:-1]), ("path", "p"), ("scheme", "ssh"), ("port", "2"), ("user", "git")):
        yield {"f-text": text, "f-part": part}, [text in part_of(it, part) for it in wanted]
    for word in ("URL", "scp form", "local path", "remote helper", "none"):
        yield {"f-form": word}, [form(it) == word for it in wanted]
    for word in ("settled", "not settled", "refused", "withheld"):
        yield {"f-verdict": word}, [verdict(it) == word for it in wanted]
    yield {"f-danger": "any d"}, ["danger" in it["findings"] for it in wanted]
    yield {"f-danger": WORDS["password"]}, ["password" in it["dangers"] for it in wanted]
    yield {"f-form": "URL", "f-verdict": "settled", "f-danger": "any d"}, [
        form(it) == "URL" and verdict(it) == "settled" and "danger" in it["findings"] for it in wanted]
    yield {"f-text": "no line has this text"}, [False] * len(wanted)


def use(page, controls):
    """Types into the controls, each reached by Tab from the top of the page."""
    page.ask("toTop")
    for name, keys in controls.items():
        reach(page, name)
        page.press(keys)
    page.ask("drawn")


def show_all(page):
    """Presses the button that shows all lines again, reached by Tab from the control that has the focus."""
    reach(page, "reset")
    page.press(Keys.ENTER)
    page.ask("drawn")


def faults_of(page, wanted):
    """What the filter shows otherwise, and that it shows all again when it is reset."""
    for controls, are_shown in cases(wanted):
        use(page, controls)
        numbers, said = page.ask("shown")
        if numbers != [n for n, it in enumerate(are_shown, 1) if it]:
            yield f"by {controls} {len(numbers)} lines are shown: {numbers[:5]}"
        if said != f"{len(numbers)} of {len(wanted)} lines shown":
            yield f"by {controls} {len(numbers)} lines are shown, and it says {said!r}"
        show_all(page)
        if page.ask("shown") != [[*range(1, len(wanted) + 1)], f"{len(wanted)} of {len(wanted)} lines shown"]:
            yield f"after {controls} {page.ask('shown')} is shown"


def early_faults(page, file, lines, text):
    """What a page doesn't show whose filter is used before its script has read all lines, or doesn't count then."""
    page.open(file, first=EARLY % json.dumps(text))
    if page.ask("shown")[0] != [n for n, it in enumerate(lines, 1) if text in it.decode()]:
        yield f"by {text!r}, typed at once, {page.ask('shown')} is shown"
    if sum(count for _, count in page.ask("counts")[1]) != len(lines):
        yield f"counted are {page.ask('counts')}"


def border_faults(page):
    """Whether Tab leads from the last line of a group to the first line of the next one."""
    wanted = page.ask("toBorder")
    page.press(Keys.TAB)
    if page.ask("line") != wanted:
        yield f"from the last line of a group Tab leads to {page.ask('line')}, and not to {wanted}"


def detail_faults(page):
    """Whether the details of the first line are opened and closed by the keyboard."""
    page.ask("toTop")
    page.press(Keys.ENTER + Keys.TAB)
    for is_open in (False, True, False, True):
        if page.ask("opened") != is_open:
            yield f"the details are {'closed' if is_open else 'open'}"
        page.press(Keys.ENTER)


def plain_faults(page, lines):
    """What of a page without scripts can't be read, or can't be used and is there."""
    if page.ask("shown")[0] != [*range(1, lines + 1)]:
        yield "without scripts a line isn't shown"
    if page.ask("controls"):
        yield "without scripts there is a filter that does nothing"


def skip_faults(page):
    """Whether in a page that was just opened the first Tab reaches the link to the lines, which Enter follows."""
    page.press(Keys.TAB + Keys.ENTER)
    page.ask("drawn")
    if page.ask("focused") != "lines":
        yield "the first Tab and Enter do not lead to the lines"
