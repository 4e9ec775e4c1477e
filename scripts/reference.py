#!/usr/bin/env python3
"""Writes docs/reference: a page for each crate that has a contract for its callers, with each public item, its doc comment,
its signature, its clauses and the definitions that they name; and the index by name at the end of its README.md. A change of
what is promised is seen there.

usage: scripts/reference.py --write

`tests/documents` compares the pages, which are all files but CLAUSES.md.
"""
import re
import sys

sys.dont_write_bytecode = True
sys.path.append(f"{sys.path[0]}/../tools")
from definitions import named_in
from public_items import DOC, documented_items, passed, sources_of
from reference_names import (
    anchors, by_last_name, crates, documented, link, module_of, modules, name_for_programs, of_module, own_words, parted, sentence, target)
from rt_api import LAYERS, LIBRARIES, read, write

FOLDER = "docs/reference"
PAGES, INDEX, HEAD = f"{FOLDER}/[a-z]*", f"{FOLDER}/README.md", "<!-- Written by `scripts/reference.py --write`. -->\n"
# The start of a clause, or of a statement in an implementation of a trait; a documented member.
STATED = re.compile(r"(?m)^ *(?:(ensures|requires)(?: (\w+))?|ghost (\w+) =) (?=\{)")
MEMBER = re.compile(r"(?m)((?:^( +)///.*\n)+)(?: +#\[.*\n)* *(?:pub )?(?:fn |type |const )?(\w+)")


def stated(text):
    """The text without doc comments and statements, and the statements: each clause with its kind, its
    function if there are several, its name and its formal text."""
    text, found = DOC.sub("", text), []
    functions = len(re.findall(r"\bfn \w", text))
    while start := STATED.search(text):
        end = depth = 0
        for end, letter in enumerate(text[start.end():], start.end() + 1):
            depth += {"{": 1, "}": -1}.get(letter, 0)
            if not depth:
                break
        function = re.findall(r"\bfn (\w+)", text[: start.start()])[-1:] if start[1] and functions > 1 else []
        found.append((start[1] or start[3], [*function, *filter(None, [start[2]])], re.sub(r"\s+", " ", text[start.end() + 1 : end - 1]).strip()))
        text = text[: start.start()] + re.sub(r"\A;?\n", "", text[end:])
    return text, found


def clauses(crate, module, found):
    """The list of the statements, and below each clause the definitions that no clause before it names."""
    named = set()
    for kind, names, formal in found:
        label = " ".join(f"`{it}`" for it in names or [kind] if it not in ("ensures", "requires"))
        yield f"- {'requires ' if kind == 'requires' else ''}{label}{': ' if label else ''}`{formal}`"
        for word, (file, meaning, inside) in named_in(formal, sources_of(crate)[module]).items():
            if word not in named:
                named.add(word)
                parts = "; ".join(f"`{it}`: {of}" for it, of in inside if of)
                yield f"  - [`{word}`](../../{file}): " + (". ".join(filter(None, (meaning, parts))))


def members(crate, module, text):
    """The list of the fields, variants or calls that a type or a trait documents, except of an `impl`."""
    if re.match("(unsafe )?impl", text):
        return ""
    found = ""
    for doc, margin, name in MEMBER.findall(re.sub(r"(?m)^///.*\n", "", text)):
        inner = " " * (len(margin) // 2 - 2)
        found += f"{inner}- `{name}`: " + documented(crate, module, doc).replace("\n", f"\n{inner}  ") + "\n"
    return re.sub(r"(?m)^ +$", "", found)


def item(crate, path):
    module, text = documented_items(crate)[path]
    public, file = module_of(crate, path), f"crates/{crate}/src/{'/'.join(module) or 'lib'}.rt"
    head = f'<a id="{anchors(crate)[path]}"></a>\n\n{"#" * (2 + bool(public) + order(crate, path)[2])} `{path}`\n'
    below = passed(crate).get(path)
    it = target(crate, module, "::".join(below)) if below and below[0] in crates() else None
    if it:
        return f"{head}\n{sentence(crate, path, crate)} It is {link(it[0], crate, f'`{below[0]}::{below[1]}`', it[1])}.\n"
    signature, found = stated(text)
    known = name_for_programs(crate, path)
    whose = "" if crate in LIBRARIES or " as " in path else f"In programs `{known}`. " if known else "For the crates above. "
    words, examples = parted(documented(crate, module, own_words(text)))
    return "\n".join(filter(None, [
        head, words + "\n" if words else "", f"```rust\n{signature}```\n", members(crate, module, text),
        "[Promised](CLAUSES.md):\n\n" + "\n".join(clauses(crate, module, found)) + "\n" if found else "",
        "\n".join(f"Example, proved:\n\n{it}\n" for it in examples),
        f"{whose if crate in LAYERS else ''}Source: [{file}](../../{file}).\n"]))


def order(crate, path):
    """Items of a module after those of the root; after a type its members, then implementations of traits."""
    module = module_of(crate, path)
    owner, _, rest = path.removeprefix(module + "::" if module else "").partition(" as " if " as " in path else "::")
    return module, owner, bool(rest), " as " in path, rest


def contents(crate):
    """The list of items except members, each with its first sentence: those for programs, and those for the crates above."""
    listed = {True: "", False: ""}
    for path in sorted(documented_items(crate), key=lambda it: order(crate, it)):
        if not order(crate, path)[2]:
            said, known = sentence(crate, path, crate), crate not in LAYERS or bool(name_for_programs(crate, path))
            listed[known] += f"- {link(crate, crate, f'`{path}`', path)}{f': {said}' if said else ''}\n"
    yield listed[True]
    if listed[False]:
        yield f"For the crates above:\n\n{listed[False]}"


def page(crate):
    yield f"{HEAD}\n# {crate}\n\n{of_module(crate, ())}\n"
    yield from contents(crate)
    items = sorted(documented_items(crate), key=lambda it: order(crate, it))
    for module, place in sorted(modules(crate).items()):
        if module:
            yield f'<a id="{anchors(crate)[f"mod {module}"]}"></a>\n\n## Module `{module}`\n\n{of_module(crate, place)}\n'
        yield from (item(crate, path) for path in items if module_of(crate, path) == module)


def index():
    """The index by name: after each last name of a path the items that have it."""
    for name in sorted(by_last_name(), key=lambda it: (it.lower(), it)):
        there = [link(crate, None, f"`{crate}::{path}`", path) for crate, path in by_last_name()[name] if not path.startswith("mod ")]
        if there:
            yield f"- `{name}`: {', '.join(there)}\n"


def wanted():
    """The files of the sources, by their names; the README is unchanged above the index."""
    found = {f"{FOLDER}/{crate}.md": "\n".join(page(crate)) for crate in crates()}
    return {**found, INDEX: read(INDEX).partition(HEAD)[0] + HEAD + "\n" + "".join(index())}


if __name__ == "__main__":
    if sys.argv[1:] != ["--write"]:
        sys.exit(__doc__)
    write(wanted(), PAGES)
