"""The public items of a crate with their contracts, read from its sources in the layout of `rt fmt`: an item begins a line of
its indentation, and its other lines are indented further, except brackets and `where`."""
import functools
import glob
import os
import re

from rt_api import ROOT, read

# Comments that aren't documentation, and attributes without a contract; doc comments; the doc comment of a module.
SILENT = re.compile(r"(?m)^\s*(?://(?!/)|#!|#\[(?:allow|inline|tactic)\b).*\n|^\n")
DOC = re.compile(r"(?m)^ *///.*\n")
HEAD_COMMENT = re.compile(r"(?m)^//! ?(.*\n)")
# The kind of an item and its name, and the kinds that have no path.
ITEM = re.compile(r' *(?:pub(?:\(\w+\))? )?(?:const (?=fn)|unsafe |extern "C" )*(\w+)(?: (\w+))?')
OTHER = ("ghost", "impl", "mod", "use")
IMPL = re.compile(r"impl(?:<.*?>)? (?:(.*) for )?((\w+).*) \{")


def files_of(crate):
    return sorted(glob.glob(f"{ROOT}/crates/{crate}/src/**/*.rt", recursive=True))


def items(text, depth=4):
    """The items of an indentation: the doc comment, the attributes and the text of each."""
    more = rf"(?: {{{depth + 1},}}\S.*\n| {{{depth}}}(?:[)\]}}{{]|where\b).*\n)*"
    return re.findall(rf"(?m)^((?: {{{depth}}}(?:#\[|///).*\n{more})*)( {{{depth}}}(?!where\b)[a-z].*\n{more})", text)


@functools.cache
def sources_of(crate):
    """The text of each module, by its path."""
    front = f"crates/{crate}/src/"
    paths = [os.path.relpath(it, f"{ROOT}/{front}").removesuffix(".rt") for it in files_of(crate)]
    return {() if it == "lib" else tuple(it.split("/")): read(f"{front}{it}.rt") for it in paths}


@functools.cache
def modules_of(crate):
    return {path: items(SILENT.sub("", text), 0) for path, text in sources_of(crate).items()}


def opened(modules):
    """The modules that other crates may name."""
    declared = {at: {text for _, text in inside} for at, inside in modules.items()}
    return [it for it in modules if all(f"pub mod {it[at]};\n" in declared.get(it[:at], ()) for at in range(len(it)))]


def names(inside, front=""):
    return {it[2] for it in (ITEM.match(text) for _, text in inside if text.startswith(front)) if it[1] not in OTHER}


def uses(inside, front):
    """The paths of each `use`, one for each name in its braces."""
    for words in re.findall(rf"(?m)^{front}use ([^;]+);", "".join(text for _, text in inside)):
        base, _, last = re.sub(r"\s", "", words).partition("{")
        yield from ((base + name).split("::") for name in last.rstrip(",}").split(","))


def definition(modules, module, name):
    """The module that defines a name used in a module, and its name there; None if it is of another crate."""
    inside = modules.get(module, [])
    if name in names(inside):
        return module, name
    for path in uses(inside, "(?:pub )?"):
        if path[-1] == name:
            base = {"crate": (), "super": module[:-1]}.get(path[0], (*module, path[0]))
            return definition(modules, (*base, *path[1:-1]), name)
    return None


@functools.cache
def public_paths(crate):
    """The path of each public item, by its module and its name there; and the re-exports of other crates' items: by the path of each the
    crate and the path there."""
    modules = modules_of(crate)
    found = {(module, name): "::".join((*module, name)) for module in opened(modules) for name in names(modules[module], "pub ")}
    passed = {}
    for module in opened(modules):
        for path in uses(modules[module], "pub "):
            at, here = definition(modules, module, path[-1]), "::".join((*module, path[-1]))
            if at and at not in found:
                found[at] = here
            else:
                passed[here] = path[0], "::".join(path[1:])
    return found, passed


def head(text):
    """The text before a body, which opens on a line of its own or on one of the item's indentation."""
    margin = re.match(" *", text)[0]
    return re.sub(rf"(?ms)^({margin}(?:\S[^\n]*?(?= \{{))?)[ ]?\{{.*", r"\1", text).rstrip() + "\n"


def promised(attributes, text):
    """The text of an item without bodies and private fields: for a call its clauses, for a trait or an `impl` its members."""
    kind = ITEM.match(text)[1]
    if kind in ("impl", "trait"):
        text = head(text) + "".join(promised(*it) for it in items(text) if not it[1].startswith("    ghost use "))
    elif kind == "struct" and text.endswith("}\n"):
        public = ["".join(it) for it in items(text) if it[1].startswith("    pub ")]
        text = text.partition("\n")[0] + "\n" + "".join(public) + ("    ..\n" if len(public) < len(items(text)) else "") + "}\n"
    elif kind == "fn":
        text = head(text)
    return attributes + text


def of_block(modules, paths, module, text):
    """The additions of an `impl`, by its path: itself if it is of a trait, otherwise its public members."""
    trait, of, name = IMPL.match(text).groups()
    owner = paths.get(definition(modules, module, name))
    local = {definition(modules, module, it) for it in re.findall(r"\w+", f"{trait} {of}")} - {None}
    if trait and local and local <= paths.keys():
        yield f"{owner or of} as {trait}", promised("", text)
    elif owner and not trait:
        for attributes, member in items(text):
            if member.startswith("    pub "):
                yield f"{owner}::{ITEM.match(member)[2]}", head(text) + promised(attributes, member)


@functools.cache
def documented_items(crate):
    """The module of each public item, and its text with doc comments, by its path and in the order of paths."""
    modules, (paths, below) = modules_of(crate), public_paths(crate)
    found = {path: ((), f"pub use {'::'.join(it)};\n") for path, it in below.items()}
    for module, inside in modules.items():
        for attributes, text in inside:
            kind, name = ITEM.match(text).groups()
            if kind == "impl":
                found.update((path, (module, it)) for path, it in of_block(modules, paths, module, text))
            elif kind not in OTHER and (module, name) in paths:
                found[paths[module, name]] = module, promised(attributes, text)
    return {path: found[path] for path in sorted(found)}


@functools.cache
def public_items(crate):
    """The text of each public item, by its path and in the order of paths."""
    return {path: DOC.sub("", text) for path, (_, text) in documented_items(crate).items()}


def passed(crate):
    return public_paths(crate)[1]
