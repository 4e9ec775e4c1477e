"""No lemma of the library's layers is cited by nothing or stated twice, and no topic cites a later one.

A declaration cites the names in its text that its file declares or imports, except fields, labels of records, and variables that it
binds. Definitions, answers to goals, sources and other crates are the starting points: a lemma is cited if they cite it, directly or
through other lemmas. Two lemmas are equal if their statements differ only in the names of variables and in implicit arguments, two
definitions of `proofs/` if their bodies are also equal; in two layers as well, since an upper layer can cite a lower one.

In each layer `proofs/Lib.antt` lists the topics, and the file of a topic its files, in the required order.
"""
import collections
import functools
import glob
import os
import re

import pytest
from rt_api import LAYERS, ROOT, read

OF_LAYERS = tuple(f"Rattle.{it}." for it in LAYERS)
WORD = re.compile(r'[^\s(){}.;,@"]+')
HEAD = re.compile(r"((?:(?:pattern|unfoldable|abbrev|axiom|pub|data|record) )*)([^\s(){}.;,]+)")
USE = re.compile(r"(pub )?use ([^\s{]+?)(?:\.\{(.*)\}| as (\S+))?$")
GROUP = re.compile(r"[({]([^(){}:]+) : ((?:[^(){}]|\((?:[^()]|\([^()]*\))*\))*)[)}](?: →)?")
BINDERS = re.compile(r"[({]([^(){}:]+) : |λ ([^.]+)\. |let \(?([^=:]+?)\)? [:=] |\| (.*?) ↦")


class Declaration:
    """A lemma, a definition, a type or an answer."""

    def __init__(self, marks, name, file, line):
        self.marks, self.name, self.file, self.place, self.lines = {*marks.split()}, name, file, f"{file.layer}/{file.path}:{line}", []

    def is_answer(self):
        """Whether it answers a goal of a function, or states a loop invariant."""
        return " : goal." in re.sub(r"\s+", " ", " ".join(self.lines[:2]))

    @functools.cached_property
    def variables(self):
        """The names that the text binds: in heads of clauses, in types, by `λ`, `let` and `elim`."""
        text = "\n".join(self.lines)
        bound = re.findall(rf"(?m)^{re.escape(self.name)} (.*?) =(?: |$)", text)
        bound += [it for found in BINDERS.findall(text) for it in found if it]
        return {it[0] for part in bound for it in WORD.finditer(part) if part[it.end() : it.end() + 1] != "."}

    def cited(self, known):
        text = "\n".join(self.lines)
        words = {it[0] for it in WORD.finditer(text) if text[it.start() - 1] != "." and text[it.end() : it.end() + 3] != " = "}
        return [known[found] for found in map(self.file.names.get, words - self.variables) if found in known]

    def normal(self):
        """The statement, for a definition with its body, with numbers for variables, whole names for others, and each argument
        separate."""
        at = next((n for n, it in enumerate(self.lines) if n and it.startswith((f"{self.name} ", "unfolding "))), len(self.lines))
        # A negation is an implication of falsity.
        text = re.sub(r"→ ¬ \((.*)\)$|→ ¬ ([^→]*)$", r"→ \1\2 → ⊥", "→ " + " ".join(self.lines[:at]).partition(" : ")[2])
        if self.marks & {"abbrev", "unfoldable"}:
            text += " = " + " ".join(self.lines[at:])
        text, numbers = GROUP.sub(lambda it: "".join(f"({name} : {it[2]}) → " for name in it[1].split()), text), {}

        def spelled(found):
            word, whole = found[0], self.file.names.get(found[0], found[0])
            if word == self.name or text[found.start() - 1] == ".":
                return "$own" if word == self.name else word
            if word in self.variables:
                return f"${numbers.setdefault(word, len(numbers))}"
            # The kit has its words under several paths.
            return whole if whole.startswith(OF_LAYERS) else whole.rpartition(".")[2]

        return re.sub(r"\s+", " ", WORD.sub(spelled, text)).strip()


class File:
    """A file of proofs or of definitions: its declarations, and its names for them and for its imports."""

    def __init__(self, layer, path):
        self.layer, self.path = layer, os.path.relpath(path, f"crates/{layer}")
        self.names, self.passed_on, self.declared = {}, {}, []
        self.module = f"Rattle.{layer}." + self.path.removesuffix(".antt").replace("/", ".")
        self.is_library = re.match(r"proofs/[A-Z]", self.path)
        text, last = read(path), None
        # The content of a section is read as if it were outside.
        if "\nmodule _ " in text:
            text = re.sub(r"(?m)^module _ .*$", "", text).replace("\n  ", "\n")
        for number, line in enumerate(text.split("\n"), 1):
            if line.startswith(("use ", "pub use ")):
                self.take(*USE.match(line).groups())
            elif line.startswith(("  ", ")", "]", "}", "unfolding ")):
                last.lines.append(line)
            elif line and not line.startswith(("--", " ", "mod ", "pub mod ")):
                marks, name = HEAD.match(line).groups()
                if not last or name != last.name:
                    last = Declaration(marks, name, self, number)
                    self.declared.append(last)
                last.lines.append(line)
        self.names.update({it.name: f"{self.module}.{it.name}" for it in self.declared})

    def take(self, is_passed_on, module, names, other):
        self.names.update({} if names else {other or module.rpartition(".")[2]: module})
        taken = dict((it.split(" as ") * 2)[1::-1] for it in names.split(", ")) if names else {}
        self.names.update({here: f"{module}.{there}" for here, there in taken.items()})
        self.passed_on.update({f"{self.module}.{here}": f"{module}.{there}" for here, there in taken.items() if is_passed_on})


def known_names(files):
    """The declarations by their whole names, and by those of their constructors and of modules that re-export them."""
    known = {f"{file.module}.{it.name}": it for file in files for it in file.declared}
    known.update({it: known[it.rpartition(".")[0]] for file in files for it in file.names.values() if it.rpartition(".")[0] in known})
    for file in files:
        known.update({new: known[old] for new, old in file.passed_on.items() if old in known})
    return known


def elsewhere():
    """The lemmas that sources and other crates name."""
    named = re.compile(rf"\b({'|'.join(LAYERS)}|crate)\.proofs\.([\w.]+)\.(\{{.*?\}}|[^\s,(){{}}.]+)")
    for path in glob.glob("crates/*/[sp]*/**/*.*t", root_dir=ROOT, recursive=True):
        own = path.split("/")[1]
        if not path.endswith(".antt") or own not in LAYERS:
            for crate, module, names in named.findall(read(path).replace("::", ".")):
                prefix = f"Rattle.{own if crate == 'crate' else crate}.proofs.{module}"
                yield from (f"{prefix}.{it}" for it in re.findall(r"[^\s,{}]+", names))


def uncited(files):
    known, found = known_names(files), set()
    todo = [known[it] for it in elsewhere() if it in known]
    todo += [it for file in files for it in file.declared if file.path.startswith("specs/") or it.is_answer()]
    while todo:
        it = todo.pop()
        if it not in found:
            found.add(it)
            todo += it.cited(known)
    yield from (f"{it.place}: nothing cites {it.name}" for file in files for it in file.declared if it not in found)


def doubled(files):
    """Lemmas with equal statements, and definitions with equal bodies."""
    same = collections.defaultdict(list)
    for it in (it for file in files if file.path.startswith("proofs/") for it in file.declared):
        if not it.marks & {"data", "record"} and not it.is_answer():
            same[it.normal()].append(it)
    for first, *others in same.values():
        yield from (f"{it.place}: {it.name} says what {first.name} of {first.place} says" for it in others)


def listed(layer, path="Lib"):
    """The files of lemmas of a layer, in their order."""
    inside = re.findall(r"(?m)^pub mod (\w+)$", read(f"crates/{layer}/proofs/{path}.antt"))
    return [found for it in inside for found in listed(layer, it if path == "Lib" else f"{path}/{it}")] or [path]


def upward(files, layer):
    proofs = f"Rattle.{layer}.proofs."
    order = [proofs + it.replace("/", ".") for it in listed(layer)]
    for file in (it for it in files if it.module in order):
        before = tuple(f"{it}." for it in order[: order.index(file.module) + 1])
        for name in sorted({it for it in file.names.values() if it.startswith(proofs)}):
            if not name.startswith(before):
                yield f"{layer}/{file.path} cites {name.removeprefix(proofs)}, whose turn comes later"


@functools.cache
def files():
    found = {it: glob.glob(f"crates/{it}/[ps][rp]*/**/*.antt", root_dir=ROOT, recursive=True) for it in LAYERS}
    return [File(it, path) for it, paths in found.items() for path in sorted(paths)]


def test_each_lemma_is_cited():
    assert not [*uncited(files())]
    assert sum(len(it.declared) for it in files() if it.is_library) > 3000


def test_no_lemma_is_stated_twice():
    assert not [*doubled(files())]


@pytest.mark.parametrize("layer", LAYERS)
def test_no_lemma_cites_a_later_one(layer):
    assert not [*upward(files(), layer)]
