"""The tables of `vectors/readers/`: the findings of `test_readers.py`, and the pages that show them: `docs/READERS.md`, and
`conditions.md` and `confusions.md` beside them.

`conditions.jsonl` has a line for each condition of the class: its name and words, an example, the host that Git connects to in it, and the readers
that find another host or read another part; and the readers that read another host, or another part, or refuse, in texts that break only this
condition, or differ in those that also break others. `confusions.jsonl` has the same for single texts, and the conditions that each breaks.
`readers.jsonl` has each reader with its version, null if it wasn't there, Debian's packages, and its short name in the table of conditions.
`groups.jsonl` has the programs of each group of readers, with the counts of `reader_groups.py` and the shapes of `shapes.jsonl` in which a program
finds another host than its group. A text is spelled as in rows (`row_text.py`). A local path has no host.
"""
import json
import re
from collections import defaultdict

from git_runs import put
from reader_groups import counted
from reader_places import REFUSED, SILENT
from reader_programs import lines
from row_text import bytes_of, text_of
from rt_api import ROOT, read
from second_reading.groups import GROUPS
from second_reading.unambiguous import CONDITIONS, broken

# The pages that have a table between marks.
PAGES = ("docs/READERS.md", "vectors/readers/conditions.md", "vectors/readers/confusions.md")
TABLE = re.compile(r"(<!-- (\w+) -->\n).*?(<!-- end -->)", re.S)
# The host of a stranger in the texts that docs/READERS.md shows, and the word for no host.
STRANGER, LOCAL = "evil.com", "a local path"
# The letters of the table, by the behaviour of a reader in some text that breaks only this condition: the strongest is shown.
KINDS = {"host": "**h**", "other": "o", "refused": "r"}
# More readers than this are counted, and not named, in a table of the document.
MANY = 3


def write(topic, table):
    put(f"{ROOT}/vectors/readers/{topic}.jsonl", "".join(json.dumps(line, ensure_ascii=False) + "\n" for line in table), 0o644)


def conditions():
    return {it["name"]: it for it in lines("conditions")}


def versions():
    return {it["reader"]: it["version"] for it in lines("readers")}


def shown_lines():
    """The lines of single texts: the table of each, its text and its conditions."""
    return [*(("conditions", it, bytes_of(it["example"]), [it["name"]]) for it in lines("conditions")),
            *(("confusions", it, bytes_of(it["text"]), it["conditions"]) for it in lines("confusions"))]


# ---- findings

def others(text, readers):
    """The hosts that readers find in a text instead of Git's, and their other differences; each with these readers."""
    found = {"hosts": defaultdict(list), "parts": defaultdict(list)}
    for reader in readers:
        case, it = reader.differing.get(text, (None, REFUSED))
        if it not in (REFUSED, SILENT):
            is_host = case.wanted is None or it.host != case.wanted.host
            kind, word = ("hosts", text_of(it.host or b"")) if is_host else ("parts", unlike(case.wanted, it))
            found[kind][word].append(reader.name)
    return {kind: dict(sorted(of.items(), key=lambda it: (-len(it[1]), it[0]))) for kind, of in found.items()}


def unlike(wanted, it):
    """The parts that are read differently, as `port 22, path a/b`."""
    both = ((name, getattr(wanted, name), getattr(it, name)) for name in ("scheme", "user", "password", "port", "path"))
    return ", ".join(f"{name} {text_of(part) if isinstance(part, bytes) else part}" for name, first, part in both if first != part)


def place_of(text, cases, readers):
    """The part of a line about its text: whether Git connects, the host, and the hosts of readers."""
    wanted = next((it.wanted for it in cases if it.text == text), None)
    return {"git": None if wanted is None else text_of(wanted.host or b"") or LOCAL, **others(text, readers)}


def words_of(function):
    return " ".join((function.__doc__ or "").split())


def condition_line(line, same, cases, readers, found, beside):
    """A line with what is found, and with what it had of readers of the same versions."""
    name, by_kind = line["name"], {it: [] for it in KINDS}
    for reader in readers:
        kinds = {it for it in KINDS if reader.name in same and reader.name in line[it]} | {
            "refused" if it == REFUSED else "other" if it.host == case.wanted.host else "host" for case, it in found[name][reader.name]}
        if kinds:
            by_kind[next(it for it in KINDS if it in kinds)].append(reader.name)
    more = dict.fromkeys([*(it for it in line["beside"] if it in same), *beside[name]])
    place = place_of(bytes_of(line["example"]), cases, readers)
    return {"name": name, "words": words_of(CONDITIONS[name]), "example": line["example"], **place, **by_kind,
            "beside": [it for it in more if not any(it in of_kind for of_kind in by_kind.values())]}


def group_lines(readers):
    return [{**it, "words": words_of(GROUPS[it["group"]])} for it in counted(readers)]


def record(cases, readers, found, beside):
    """Writes the tables and their pages. The examples and the texts stay."""
    now, before = {it.name: it.version for it in readers}, conditions()
    same = {name for name, it in versions().items() if now.get(name) == it}
    write("readers", [{**it, "version": now.get(it["reader"])} for it in lines("readers")])
    write("conditions", [condition_line(before[name], same, cases, readers, found, beside) for name in CONDITIONS])
    singles = [it["text"] for it in lines("confusions")]
    write("confusions", [{"text": it, "conditions": broken(bytes_of(it)), **place_of(bytes_of(it), cases, readers)} for it in singles])
    write("groups", group_lines(readers))
    for page, text in pages().items():
        put(f"{ROOT}/{page}", text, 0o644)


def confusion_faults(cases, readers):
    """The texts for which readers read other places than the tables have, or which break other conditions."""
    names, known = {it.name for it in readers}, {case.text for case in cases}
    for topic, line, text, of in shown_lines():
        for name, found in others(text, readers).items() if text in known else ():
            listed = {place: left for place, them in line[name].items() if (left := [it for it in them if it in names])}
            if found != listed:
                yield f"in {text!r} readers take {found}, and {topic}.jsonl has {listed}"
        if broken(text) != of:
            yield f"{text!r} of {topic}.jsonl breaks {broken(text)}"


# ---- the pages

def cell(text):
    """A text in a table, as code: a tab and bytes that aren't UTF-8 are escaped."""
    return "`" + re.sub("[\t\uef80-\uefff]", lambda it: f"\\x{ord(it[0]) & 255:02x}", text).replace("|", "\\|") + "`"


def page_table(heads, found):
    head = f"| {' | '.join(heads)} |\n" + "|---" * len(heads) + "|\n"
    return head + "".join(f"| {' | '.join(it)} |\n" for it in found)


def condition_table():
    short = {it["reader"]: it["short"] for it in lines("readers") if "short" in it}
    out = ["| Condition | Broken by | Example |" + "|".join(short.values()) + "|\n", "|---" * (len(short) + 3) + "|\n"]
    for it in lines("conditions"):
        marks = "|".join(next((letter for kind, letter in KINDS.items() if name in it[kind]), "") for name in short)
        words, example = it["words"].rstrip(".").replace("|", "\\|"), cell(it["example"]) if len(it["example"]) < 60 else ""
        out.append(f"| `{it['name']}` | {words} | {example} |{marks}|\n")
    return "".join(out)


def named(places):
    counts = {place: ", ".join(of) if len(of) <= MANY else f"{len(of)} readers" for place, of in places.items()}
    return [f"{cell(place) if place else 'no host'}: {readers}" for place, readers in counts.items()]


def confusion_tables():
    """The texts that name the host of a stranger, to which either Git or others connect; and all of them."""
    heads, attacks, every = ("Text", "Git connects to", "Others read"), [], []
    for it in lines("confusions"):
        text, hosts, conditions = cell(it["text"]), named(it["hosts"]), ", ".join(f"`{name}`" for name in it["conditions"])
        git = "nothing" if it["git"] is None else LOCAL if it["git"] == LOCAL else cell(it["git"])
        attacks += [(text, git, "; ".join(hosts))] if STRANGER in it["text"] and hosts else []
        every.append((text, conditions, git, "; ".join([*hosts, *named(it["parts"])])))
    return {"attacks": page_table(heads, attacks), "confusions": page_table((heads[0], "Condition", *heads[1:]), every)}


def group_table():
    """Each group with the programs that represent it, and how often each takes the group's host."""
    found = defaultdict(list)
    for it in lines("groups"):
        found[f"`{it['group']}`", it["words"].rstrip(".")].append(f"{it['program']}: {it['takes']:,} of {it['differs']:,}")
    return page_table(("Group", "The host that it finds", "Programs"), [(*group, "; ".join(programs)) for group, programs in found.items()])


def reader_table():
    found = (it for it in lines("readers") if it["version"])
    return ", ".join(f"{it['reader']} {it['version']}" + (f" ({it['short']})" if "short" in it else "") for it in found) + ".\n"


def tables():
    return {"readers": reader_table(), **confusion_tables(), "conditions": condition_table(), "groups": group_table()}


def pages():
    """The pages with the tables between their marks, each of which is in one of them."""
    given, made = {page: read(page) for page in PAGES}, tables()
    assert sorted(name for text in given.values() for _, name, _ in TABLE.findall(text)) == sorted(made)
    return {page: TABLE.sub(lambda it: it[1] + made[it[2]] + it[3], text) for page, text in given.items()}
