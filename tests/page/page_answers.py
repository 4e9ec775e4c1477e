"""Whether a page shows the answers of `explain --json`, as a browser has read it: the objects in its data, a
row for each line in the table, the details of each line, the counts, and nothing that the template lacks."""
import base64
import collections
import hashlib
import json
import re

from pieces import is_of_fields, unescaped
from rt_api import stored
from second_reading import dangers, grammar, hidden
from second_reading.seen import seen

FORMS = {"url": "URL", "scp": "scp form", "local": "local path", "remote_helper": "remote helper", None: "none"}
MOST_HOSTS = 20
REWRITTEN = "once the configuration has rewritten it"
# The second reading takes much memory for longer lines.
MOST_READ = 10_000
TAGS = set("html head meta title style body a header h1 h2 h3 p b code main form label input select option button table caption thead tbody tr "
           "th td span mark section div footer template script ul li dl dt dd i".split())
ATTRIBUTES = set("lang charset http-equiv content name class id href role hidden type value autocomplete spellcheck scope colspan tabindex style "
                 "aria-label aria-labelledby aria-expanded data-m data-p".split())
WHOLE = ["A HEADER MAIN FOOTER TEMPLATE SCRIPT SCRIPT", 2, 1, "CSS1Compat"]
POLICY = """<meta http-equiv="Content-Security-Policy" content="default-src 'none'; style-src 'sha256-%s'; \
script-src 'sha256-%s'; base-uri 'none'; form-action 'none'">"""


def form(answer):
    return FORMS[answer["location"] and answer["location"]["form"]]


def verdict(answer):
    if answer["location"]:
        return "settled" if answer["location"]["settled"] else "not settled"
    return "withheld" if answer["refusal"]["error"] == "Withheld" else "refused"


def host(answer):
    return (answer["location"] or {"host": None})["host"]


def words_of_verdict(answer):
    """The cell of the verdict: that, why it isn't better, findings of the rewritten line, and Git's."""
    reason = (answer["refusal"] or (answer["location"]["reread"] or {"words": None}))["words"]
    own = {"settled": [], "not settled": ["unsettled"]}.get(verdict(answer), ["refused", "unsettled"])
    also = {"refused": f"refused {REWRITTEN}", "unsettled": f"not settled {REWRITTEN}",
            "git-differs": "Git isn't known to read the same", "policy": "Git has no transport that it uses"}
    said = [f"; {words}" for name, words in also.items() if name in answer["findings"] and name not in own]
    return verdict(answer) + (f": {reason}" if reason else "") + "".join(said)


def text_of(shown):
    """The text that is shown so, with U+FFFD as JSON has it."""
    return unescaped(shown).decode("utf-8", "replace")


def row_faults(row, answer):
    number, text, *cells, at_host = row
    words = ", ".join(dangers.WORDS[it] for it in answer["dangers"]) or REWRITTEN * ("danger" in answer["findings"])
    wanted = [str(answer["line"]), words_of_verdict(answer), words]
    if cells != wanted or text_of(text.replace("\0", "")) != answer["input"] or text_of(at_host) != (host(answer) or ""):
        yield f"the row {row} isn't {[number, answer['input'], *wanted, host(answer)]}"


def leaves(name, value):
    """The texts below a member: names in a list are one."""
    if isinstance(value, list) and all(isinstance(it, str) for it in value):
        return {name: ", ".join(value) or "none"}
    if isinstance(value, (dict, list)):
        below = value.items() if isinstance(value, dict) else enumerate(value)
        return {whole: text for member, it in below for whole, text in leaves(f"{name}.{member}", it).items()}
    return {} if value is None else {name: value if isinstance(value, str) else json.dumps(value)}


def details(answer):
    """The named texts of the details of a line. A table says whether Git reads the same; hints are named, and in words."""
    members = ("location", "refusal", "readers", "rules")
    found = {name: it for member in members for name, it in leaves(member, answer[member]).items() if name != "location.git_reads.same"}
    return {**found, **({"findings": ", ".join(answer["findings"])} if answer["findings"] else {})}


def piece_faults(pieces, text, answer, line):
    """What is wrong with the pieces of the line, by the second reading, or with the mark of its fault."""
    if len(line) > MOST_READ:
        return
    if grammar.spells(line) is None:
        before, *marked = [len(unescaped(it)) for it in text.split("\0")]
        if not hidden.places(line) and [before, *marked[:1]] != [answer["refusal"]["at"], answer["refusal"]["len"]]:
            yield f"{before, marked} is marked"
    elif seen(line) is not None and not is_of_fields(grammar.spells(seen(line)), names := {name: unescaped(it) for name, it in pieces}, seen(line)):
        yield f"the pieces are {names}"


def detail_faults(found, row, answer, line):
    _, opens, values, pieces = found
    hints = [name.removeprefix("hints.") for name, _ in values if name.startswith("hints.")]
    shown = {name: text_of(it) for name, it in values if not name.startswith("hints.")}
    if not opens:
        yield "it isn't opened and closed"
    if hints != answer["hints"] or len(shown) + len(hints) != len(values):
        yield f"the hints are {hints}, or a name is there twice"
    wanted = details(answer)
    yield from (f"{name} is {shown.get(name)!r}, and not {wanted.get(name)!r}"
                for name in sorted({*shown, *wanted}) if shown.get(name) != wanted.get(name))
    yield from piece_faults(pieces, row[1], answer, line)


def host_rows(wanted):
    """The rows of the hosts: the most frequent ones, the others together, and the lines without one."""
    counts = sorted_counts(host(it) for it in wanted if host(it) is not None)
    others, none = counts[MOST_HOSTS:], sum(host(it) is None for it in wanted)
    summed = [[f"{len(others)} other hosts", sum(it for _, it in others)]] if others else []
    return [*counts[:MOST_HOSTS], *summed, *([["no host", none]] if none else [])]


def sorted_counts(names):
    """Names with their numbers, the largest first; JavaScript compares names by units of 16 bits."""
    return [[*it] for it in sorted(collections.Counter(names).items(), key=lambda it: (-it[1], it[0].encode("utf-16-be")))]


def count_faults(page, wanted):
    named = [[[dangers.WORDS[name], count] for name, count in sorted_counts(name for it in wanted for name in it["dangers"])],
             sorted_counts(map(verdict, wanted)), sorted_counts(map(form, wanted)), host_rows(wanted)]
    found = [[[text_of(name), count] for name, count in it] for it in page.ask("counts")]
    yield from (f"counted are {it}, and not {other}" for it, other in zip(found, named) if it != other)


def made_faults(page, title):
    """What is in a page that the template lacks, and whether its title is this one."""
    markup = stored(page.file).decode("utf-8", "strict")
    inside = [re.search(f"(?s)<{it}>(.*?)</{it}>", markup)[1].encode() for it in ("style", "script")]
    policy = POLICY % tuple(base64.b64encode(hashlib.sha256(it).digest()).decode() for it in inside)
    if not 0 <= markup.find(policy) < markup.find("<title>") or markup.count("Content-Security-Policy") != 1:
        yield "the policy isn't there, or allows something else"
    if re.search(r"[^\n\x20-\U0010ffff]", markup) or "<" in markup.partition('id="data">')[2].partition("</script>")[0]:
        yield "the page has a control character, or its data a tag"
    made = page.ask("made")
    yield from (f"there is {it!r}" for it in [
        *{*made["tags"]} - TAGS, *{*made["attributes"]} - ATTRIBUTES, *{*made["links"]} - {"#lines", "#counts", "#l"}, *made["strays"]])
    if made["whole"] != WHOLE:
        yield f"the page has {made['whole']}"
    # White space in the title of a document is collapsed.
    if title is not None and (unescaped(made["heading"]).decode() != title or made["title"] != " ".join(made["heading"].split())):
        yield f"the title {title!r} is shown as {made['heading']!r} and {made['title']!r}"


def faults_of(page, lines, wanted, title=None, script=True):
    data, rows = json.loads(page.ask("rows"))
    if json.loads(data) != wanted:
        yield from (f"line {it['line']}: the object is {found}" for found, it in zip(json.loads(data), wanted) if found != it)
        yield "the objects are others"
    # Lines with a danger, with something else that was found, and with neither.
    ranks = [0 if "danger" in it["findings"] else 1 if it["findings"] else 2 for it in wanted]
    if [it[0] for it in rows] != sorted(range(1, len(lines) + 1), key=lambda it: (ranks[it - 1], it)):
        yield f"the rows are in another order, or some are missing: {[it[0] for it in rows][:20]}"
        return
    yield from (f"line {it[0]}: {fault}" for it in rows for fault in row_faults(it, wanted[it[0] - 1]))
    yield from made_faults(page, title)
    if script:
        yield from count_faults(page, wanted)
        for found, row in zip(json.loads(page.ask("details")), rows):
            yield from (f"line {row[0]} {lines[row[0] - 1][:80]!r}: {fault}"
                        for fault in detail_faults(found, row, wanted[row[0] - 1], lines[row[0] - 1]))
