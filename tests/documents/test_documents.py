"""The documents say what the gate proves and runs.

Each block of code in README.md, in docs/ and in the doc comments of the library's layers is in a crate of examples, letter by letter,
except for white space and commas that end a list; these crates are proved. Of a block `diff` the lines that stay or come are looked
for. A block `json` is a record in a row of vectors/records.jsonl. What a block `sh` pipes into a program is among the lines of that
program's stored run. Programs for the bindings are compiled and run by tests/bindings.
"""
import collections
import functools
import glob
import os
import re

import page_template
import pictures
import pytest
import reference
from attacks import attacks, misled
from reference_names import CLAUSE
from contracts import contracts
from rt_api import LAYERS, LIBRARY, ROOT, lines_of_crates, outdated, read, stands_on, stored
from second_reading import explain_tables, stored_run

pytestmark = pytest.mark.quick
# Words for which there are better ones, outside of code: `docs/GLOSSARY.md` has the terms, Git and RFC 3986 the rest.
OLD = r"tells?|told|stands?(?! for| on\b)|stood|hand(?:s|ed)? out|handed|anew|but for|dear(?:er)?|wants|wanting"
OLD_WORDS = re.compile(rf"\b({OLD})\b", re.I)
# More of them, which comments lack, but not yet all documents.
OLD_IN_COMMENTS = re.compile(
    rf"\b({OLD}|hands? (?:back|in|on|over)|nothing but|(?<!there )(?:is|are) no(?! (?:less|longer|shorter)\b))\b", re.I)
# The files whose comments are read, and what a comment is in each language; a script is in Python or for bash.
COMMENTED = ("scripts/*", "tools/**/*", "tests/**/*", "bindings/c/**/*.[ch]", "bindings/tests/*.*", "bindings/python/**/*.py",
             *(f"bindings/rust/*/{it}/**/*.rs" for it in ("src", "tests", "examples")), "crates/*/proofs/**/*.antt")
IN_SCRIPT, IN_C = r'(?m)(?:^|\s)# (.*)|"""((?s:.*?))"""', r"/\*((?s:.*?))\*/|// (.*)"
REMARKS = {".antt": r"(?m)^ *-- (.*)", ".rs": r"(?m)(?:^|\s)//[/!]? (.*)", **dict.fromkeys([".c", ".h", ".cc", ".js"], IN_C)}
GLOSSARY, PROOFS = "docs/GLOSSARY.md", "docs/PROOFS.md"
# A file that a document names. The changes name files that were, and FIRST_HOUR a crate that its reader makes.
FILE = re.compile(r"`((?:crates|scripts|tools|tests/\w+|docs|bindings|vectors|examples)/[\w./-]+)`")
NAMED_ELSEWHERE = {"CHANGELOG.md": r"", "docs/FIRST_HOUR.md": r"crates/(NAME|my_crate)"}
EXAMPLES = ["crates/examples/src/*.rt", "crates/first_example/src/*.rt", "crates/user_proofs/src/*.rt", "vectors/records.jsonl"]
# A link of Markdown or HTML; and an item of the reference: its name, and the place that the link leads to.
LINK = re.compile(r"\]\(<?([^)\s>]+)>?\)|(?:href|src)=\"([^\"]+)\"")
ITEM = re.compile(r"\[(`([^`]+)`)\]\((reference/[^)\s]+)\)")


def names(*patterns):
    return sorted(it for pattern in patterns for it in glob.glob(pattern, root_dir=ROOT, recursive=True) if os.path.isfile(f"{ROOT}/{it}"))


DOCUMENTS = names("*.md", "docs/*.md", "docs/reference/[A-Z]*.md")
SOURCES = names(*(f"crates/{layer}/src/**/*.rt" for layer in LAYERS))


# ---- blocks of code

def plain(code):
    """The code without white space, without commas that end a list, and without lifetimes of references, for which the prover may ask."""
    return re.sub(r",(?=[)\]}])", "", re.sub(r"<'\w+>(?=\()|(?<=&)'\w+ |\s+", "", code))


@functools.cache
def examples():
    return "".join(plain(read(it)) for it in names(*EXAMPLES))


def blocks(name):
    """The blocks of a document, or of the doc comments of a source: the line where each begins, its language and its text."""
    text = read(name)
    if name.endswith(".rt"):
        marked = (re.match(r"\s*//[/!] ?(.*)", line) for line in text.splitlines())
        text = "".join((it[1] if it else "") + "\n" for it in marked)
    return [(text.count("\n", 0, it.start()) + 1, it[1], it[2]) for it in re.finditer(r"(?ms)^```(\w*)\n(.*?)^```$", text)]


def is_proved(language, text):
    if language in ("text", "c", "python", "yaml") or "gix_url_proved" in text:
        return True
    if language == "sh":
        piped = re.findall(r"printf '(.*?)' \| \./(\w+)", text)
        return all({*given.encode().split(rb"\n")} <= {*stored(f"crates/{program}/stdin").split(b"\n"), b""} for given, program in piped)
    if language == "json":
        return plain(text).replace('"', '\\"') in examples()
    kept = "".join(line[1:] + "\n" for line in text.splitlines() if not line.startswith("-")) if language == "diff" else text
    return plain(kept) in examples()


def test_each_block_of_code_is_proved():
    found = [(name, *it) for name in (*DOCUMENTS, *SOURCES) for it in blocks(name)]
    assert len(found) > 200
    assert not [f"{name}:{line}" for name, line, *it in found if not is_proved(*it)]


def test_no_example_is_misled():
    """The stored runs of the first example and of the programs of BINDINGS end with the attacks of READERS: none is answered with a host to
    which Git doesn't connect."""
    texts = [text for text, _ in attacks()]
    assert len(texts) > 15 and read("crates/first_example/stdin").splitlines()[-len(texts):] == texts
    for name in ("crates/first_example/stdout", "bindings/tests/example.wanted"):
        assert not misled(read(name).splitlines()[-len(texts):])


# ---- words, terms and tables

def remarks(name):
    """The comments of a file of code, in a line each, with those in one that no code is between."""
    text, end, found = read(name), 0, ""
    for it in re.finditer(REMARKS.get(os.path.splitext(name)[1], IN_SCRIPT), text):
        found += ("\0" if text[end : it.start()].strip() else "\n") + it[it.lastindex or 0]
        end = it.end()
    return re.sub(r"\s*\n[\s*]*", " ", re.sub(r"(?s)```.*?```", "", found)).replace("\0", "\n")


def old_words(text, words):
    """The old words of a text outside of its code and of the addresses of its links."""
    return [it[0] for it in words.finditer(re.sub(r"(?ms)^```.*?^```$|`[^`\n]*`|\]\([^)\s]*\)", "", text))]


def test_no_word_has_a_better_one():
    commented = [it for it in names(*COMMENTED) if "__pycache__" not in it]
    found = {**{it: old_words(read(it), OLD_WORDS) for it in DOCUMENTS}, **{it: old_words(remarks(it), OLD_IN_COMMENTS) for it in commented}}
    assert not {name: it for name, it in found.items() if it}


def test_each_term_is_used():
    terms, others = re.findall(r"(?m)^\| ([a-z][\w ]*) \|", read(GLOSSARY)), " ".join(read(it) for it in DOCUMENTS if it != GLOSSARY)
    assert len(terms) <= 15 and not [it for it in terms if it not in others]


def test_a_users_crates_have_the_lines_of_this_repository():
    """The lines of FIRST_HOUR for a file `crates.txt` are those of the library and its layers."""
    wanted = [line for name, (line, _) in lines_of_crates().items() if name in stands_on(LIBRARY)]
    assert "\n".join(["```text", *wanted, "my_crate: gix_url"]) in read("docs/FIRST_HOUR.md")


def test_each_crate_is_in_the_table_of_layers():
    text = read("docs/ARCHITECTURE.md").partition("\n\nEach layer")[0]
    assert {it for row in re.findall(r"(?m)^\| (`\w+`(?:, `\w+`)*) \| .* \|", text) for it in re.findall(r"`(\w+)`", row)} == {*lines_of_crates()}


@pytest.mark.parametrize("faults", [explain_tables.table_faults, explain_tables.reason_faults, explain_tables.hint_faults], ids=lambda it: it.__name__)
def test_table(faults):
    assert not [*faults()]


@pytest.mark.parametrize("script", [reference, page_template, pictures], ids=lambda it: it.__name__)
def test_is_what_the_script_writes(script):
    files = outdated(script.wanted(), script.PAGES)
    assert not files


@pytest.mark.parametrize("name", stored_run.stored_run())
def test_stored_run(name):
    """`scripts/grammar explain crates/explain` writes it."""
    assert stored(f"crates/explain/{name}") == stored_run.stored_run()[name]


# ---- files and links

@functools.cache
def anchors(name):
    """The anchors of a document: those that it sets, and those that forges give to its headings."""
    text, same = re.sub(r"(?ms)^```.*?^```$", "", read(name)), collections.Counter()
    for heading in re.findall(r"(?m)^#+ (.*)", text):
        words = re.sub(r"\[([^\]]*)\]\([^)]*\)", r"\1", heading).strip().lower()
        same[re.sub(r"[^\w\- ]", "", words).replace(" ", "-")] += 1
    return {*re.findall(r'<a id="([^"]+)"', text), *(f"{it}-{at}" if at else it for it, count in same.items() for at in range(count))}


def broken_links(name):
    prose = re.sub(r"(?ms)^```.*?^```$|`[^`\n]*`", "", read(name))
    for link in sorted({found[1] or found[2] for found in LINK.finditer(prose)}):
        address, _, anchor = link.partition("#")
        there = os.path.normpath(os.path.join(os.path.dirname(name), address)) if address else name
        if not re.match(r"\w+:", address):
            if not os.path.exists(f"{ROOT}/{there}") or anchor and there.endswith(".md") and anchor not in anchors(there):
                yield link


@pytest.mark.parametrize("name", names("*.md", *(f"{it}/**/*.md" for it in ("docs", "bindings", "vectors"))))
def test_each_link_and_file_is_there(name):
    elsewhere = NAMED_ELSEWHERE.get(name, r"(?!)")
    named = FILE.findall(read(name)) if name in DOCUMENTS else []
    assert not [*broken_links(name), *(it for it in named if not re.match(elsewhere, it) and not os.path.exists(f"{ROOT}/{it}"))]


# ---- the promises of docs/PROOFS.md

def promises():
    """What the promises name in their parentheses: of each group of calls the clauses after its colon."""
    rows = re.findall(r"(?m)^- .* \((`.*)\)$", ITEM.sub(r"\1", read(PROOFS)))
    for group in (part for row in rows for part in row.split("; ")):
        calls, _, clauses = group.partition("`: ")
        yield re.findall(r"`?(\w+::\w+)`?", calls), re.findall(r"`([a-z]\w*)`", clauses)


def test_each_promise_is_a_clause():
    """The calls of the promises are public, and one of those of a group has each clause, or a definition has it as a field."""
    fields = {it for file in names(*(f"crates/{layer}/specs/**/*.antt" for layer in LAYERS)) for it in re.findall(r"(?m)^  pub (\w+) :", read(file))}
    known = contracts()
    assert not [it for calls, _ in promises() for it in calls if it not in known]
    assert not [(calls, it) for calls, clauses in promises() for it in clauses
                if it not in {clause for call in calls for clause in CLAUSE.findall(known[call])} | fields]


def test_each_promise_links_to_its_item():
    assert not [name for _, name, place in ITEM.findall(read(PROOFS))
                if not re.search(rf"[#/-]{name.rpartition('::')[2].lower()}(\.md)?$", place)]
