"""The definitions in the folders specs/ of the crates: the file and the comment for the names of a source."""
import functools
import os
import re

from rt_api import ROOT, read

# A definition at the margin with the comment above it, and a member of a record or of a `data` with its own.
DEFINITION = re.compile(r"(?m)^((?:-- (?!----).*\n)*)(?:abbrev |pub )*(?:(record|data) )?(?<=[a-z] )(\w+) [:(].*\n((?:  .*\n)*)")
MEMBER = re.compile(r"(?m)^((?:  -- .*\n)*)  (?:pub )?(\w+) :")
# The names that a source or a file of definitions takes from others: of a module the names in braces, or the module by another name.
TAKEN = re.compile(r"(?m)^ *(?:ghost |pub )?use Rattle\.(\w+)\.specs\.([\w.]+?)(?:\.\{([^}]*)\}| as (\w+)|);?$")


def plain(comment):
    return " ".join(line.strip().removeprefix("--").strip() for line in comment.splitlines())


@functools.cache
def text_of(crate, module):
    """The file of a module and its text; if a crate has no such module, none of either."""
    file = f"crates/{crate}/specs/{module.replace('.', '/')}.antt"
    return (file, read(file)) if os.path.exists(f"{ROOT}/{file}") else ("", "")


@functools.cache
def defined(crate, module):
    """The definitions of a module and the members of its `data`, by their names: the meaning of each, and the members of a record. One
    without a comment has that of its module."""
    found, text = {}, text_of(crate, module)[1]
    about = re.match(r"(?:--.*\n)*", text)[0]
    for comment, kind, name, inside in DEFINITION.findall(text):
        members = [(member, plain(above)) for above, member in MEMBER.findall(inside)]
        found[name] = plain(comment or about), members if kind == "record" else []
        if kind == "data":
            found.update({member: (above or f"a case of `{name}`", []) for member, above in members if member not in found})
    return found


def taken(text):
    """What a text takes of other modules: by its name here the crate, the module and the name there (none of a module by another name)."""
    found = {}
    for crate, module, names, other in TAKEN.findall(text):
        if other:
            found[other] = crate, module, None
        for name in filter(None, re.split(r"[,\s]+", re.sub(r"(\S+) as ", r"\1=", names))):
            there, _, here = name.partition("=")
            found[here or there] = crate, module, there
    return found


def home(crate, module):
    """The crate and the module that define a module that a crate exports; for a member its type's module."""
    if text_of(crate, module)[1]:
        return crate, module
    for other, there, *_ in TAKEN.findall(text_of(crate, "Lib")[1]):
        if there == module:
            return home(other, there)
    return home(crate, module.rpartition(".")[0]) if "." in module else (crate, module)


@functools.cache
def definition(crate, module, name):
    """Of a name in a module: its file, its meaning, and the members of a record; None if no crate here defines it."""
    crate, module = home(crate, module)
    file, text = text_of(crate, module)
    if name in defined(crate, module):
        return file, *defined(crate, module)[name]
    there = taken("".join(re.findall(r"(?m)^pub use .*\n", text))).get(name)
    return definition(*there) if there else None


def named_in(clause, source):
    """The definitions that a clause of a source names, each once, by its name in the clause."""
    here, found = taken(source), {}
    for word in re.findall(r"[A-Za-z_][\w.]*", clause):
        first, _, rest = word.partition(".")
        crate, module, there = here.get(first, ("", "", None))
        it = definition(crate, module, there or rest.partition(".")[0]) if crate else None
        if it:
            found.setdefault(first if there else word, it)
    return found
