"""A source repeats no decision for which a lower crate has a proof, and shows bytes in no way of its own, unless a list says why.

A line of a list is a place, a tab, and the reason; a place in which nothing is found is refused too. The lists:

  searches   sources outside of `git_syntax`, `git_refusals` and `git_parts` that search a text for `://`, `@`, `:` or `[`
  entries    sources of `explain` that use the key or the value of an entry of a configuration: `git_rules` decides the effect
  shown      functions of `explain` by which bytes become text, and structures with bytes that are written as JSON, each with the way:
             `explain_report::text` makes text for eyes. A function that changes nothing and returns whether something holds shows no byte
  deciders   functions of `explain` that return a `bool`, an `Option` or an enumeration and have no contract. `layout`: it decides how
             an answer is laid out, which no definition has
"""
import glob
import re
from collections import namedtuple

import pytest
from rt_api import ROOT, read, stands_on

CALLS = "cut|last_cut|cut_at_mark|cut_place|before|after|suffix|find|rfind|find_byte|rfind_byte|r?split_once_str|strip_prefix|halves|last_halves|holds"
SEARCH = re.compile(rf"\b(?:{CALLS})\((?:[^()]|\([^()]*\))*b?['\"](?:://|[@:\[])['\"]|\bcut_at_mark\(")
ENTRY = re.compile(r"\.(?:sets|is_section|is_name)\(|\b(?:entry|it)\.(?:section|subsection|name|value)\b")
# Words of the program where a text is expected, and a text that a report has.
WORDS = r"b?\"|match self\b|if [^{]*\{ \"|[A-Z_]+[,)]|[\w.]+\.(?:words|name|own_words|heading|sentence)\(\)"
OF_REPORT = r"[\w.]+\.as_str\(\)\.as_bytes\(\)\)"
WAYS = {
    "makes a text of bytes": r"\.to_str_lossy\(|\.to_str\(\)|\bfrom_utf8\w*\(|\blossy(?:_part|_cow)?\(|\bwrite_char\(|\bescape_\w+\("
                             r"|\.to_string\(",
    "formats bytes": r"\bBStr::new\(\w+\);.*\w!\(|\.push\(char::from\("
                     r"|\b(?:e?print|e?println|write|writeln|format|format_args)!\((?:[\w ]+;)?[^;]*(?:BStr::new\(|\.as_bstr\(\))",
    "copies bytes": r"\b(?:BString|Vec)::from_slice\(|\bappend_\w+\(|\.to_(?:bstring|words|vec)\(|\.replace\("
                    r"|extend_from_slice\((?!b\")",
    "spells bytes": rf"\b(?:Quoted|Shown|ShellWord)\((?!{OF_REPORT})[^)]|\bmap\((?:Quoted|Shown)\)"
                    rf"|\bpush_shown\((?!{OF_REPORT})|\bpush_row\((?:\"[^\"]*\"|\w+), (?!{OF_REPORT})",
    "takes a part of a location": r"\.(?:user|password|host)\(\)(?!\.is_(?:some|none)\(|\.map\(\|_\|)|\bscheme\.as_str\("
                                  r"|\.(?:original_path|path_query_fragment)\(|\w_as_argument\(",
    "reports a location": r"\b(?:Report|Meaning|Credential)::(?:of|in_text)\(|\b(?:Curl::in_text|Readers::of_location|Cut::of_parts)\(",
    "copies a text": rf"\bfrom_str\(\w+, (?!{WORDS})|\b(?:push|write)_str\((?!{WORDS})|\bwrite_all\((?!{OF_REPORT})"
                     r"|\b(\w+): (?:&(?:'\w+ )?str|[A-Z])\b.*\"[^\"]*\{\1\b",
}
SHOWS_NO_BYTE = re.compile(r"-> (?:bool|usize|&'static str|Option<&'static str>)$")
# A structure that is written as JSON, and its fields.
JSON = re.compile(r"\bSerialize\)\](?:\n#.*)*\n(?:pub )?struct (\w+).*\{\n((?:    .*\n)*)\}")
BYTES = re.compile(r"(?m)(?<!#\[serde\(skip\)\]\n)^    pub \w+: .*(?:\[u8\]|<u8>|BStr)")
TYPE = re.compile(r"(?m)^(?:pub(?:\(\w+\))? )?(enum|struct) (\w+)")
FUNCTION = re.compile(r"(?m)^( *)(?:pub(?:\(\w+\))? )?(?:const )?fn (\w+)(?:.*\{\}|(?:.*\n)*?\1\})$")
IMPL = re.compile(r"(?m)^impl(?:<.*?>)? (?:.* for )?(?:\w+::)*(\w+)")
# A function: its name after that of its type, its head, its clauses, and all of it but those, each on one line.
Function = namedtuple("Function", "name head clauses text")


def on_one_line(text):
    return re.sub(r"([(\[]) | (?=[)\].?])|,(?= [)\]])", r"\1", re.sub(r"\s+", " ", text)).strip()


def sources(*crates):
    """The sources of crates, each with its code without the lines of comments."""
    for path in sorted(it for crate in crates for it in glob.glob(f"crates/{crate}/src/**/*.rt", root_dir=ROOT, recursive=True)):
        yield path, re.sub(r"(?m)^\s*//.*\n", "", read(path))


def functions(code):
    """The functions of a source as `rt fmt` lays it out: a function ends with the first line that closes a brace at its margin."""
    for found in FUNCTION.finditer(code):
        margin, text = found[1], found[0]
        # Clauses are indented further than the function, to the brace of its body.
        clause = re.compile(rf"(?m)^{margin}    (?:ensures|requires)\b(?:.*\n)*?(?={margin}\{{)")
        owner = [it[1] + "::" for it in IMPL.finditer(code, 0, found.start())][-1:] if margin else []
        whole = on_one_line(clause.sub("", text))
        yield Function("".join([*owner, found[2]]), whole.partition("{")[0].strip(), on_one_line("".join(clause.findall(text))), whole)


def searches():
    return {path for path, code in sources("*") if SEARCH.search(code) and not path.startswith(("crates/git_syntax/", "crates/git_refusals/", "crates/git_parts/"))}


def entries():
    return {path for path, code in sources("explain*") if ENTRY.search(code)}


def shown():
    for path, code in sources("explain*"):
        if not path.startswith("crates/explain_report/src/text"):
            yield from (f"{path} {it.name}\t{how}" for it in functions(code) if "&mut" in it.head or not SHOWS_NO_BYTE.search(it.head)
                        for how, way in WAYS.items() if re.search(way, it.text))
            yield from (f"{path} {name}\tis written as JSON, and has bytes" for name, fields in JSON.findall(code) if BYTES.search(fields))


def enumerations(crate):
    """The names of the enumerations that a crate can return. A name of its own isn't one of another crate."""
    types = {it: [found for _, code in sources(it) for found in TYPE.findall(code)] for it in stands_on(crate)}
    own = {name for _, name in types[crate]}
    below = {name for it in types if it != crate for kind, name in types[it] if kind == "enum"}
    return sorted(below - own | {name for kind, name in types[crate] if kind == "enum"})


def deciders():
    for crate in sorted(glob.glob("explain*", root_dir=f"{ROOT}/crates")):
        decides = re.compile(rf"-> (?:Result<)?(?:bool|Option<|(?:\w+::)*(?:{'|'.join(enumerations(crate))})\b)")
        yield from (f"{path} {it.name}" for path, code in sources(crate) for it in functions(code)
                    if decides.search(it.head) and "ensures" not in it.clauses)


@pytest.mark.quick
@pytest.mark.parametrize("found", [searches, entries, shown, deciders], ids=lambda it: it.__name__)
def test_each_has_a_reason(found):
    listed = {line.rpartition("\t")[0] for line in read(f"tests/documents/{found.__name__}.txt").splitlines() if line.strip()}
    assert {*found()} == listed
