"""The names of the reference: the crates that have a page, the place of each public item on it, and the items to which names in doc
comments link; and doc comments as Markdown with these links."""
import functools
import re

from contracts import OF_LAYERS
from public_items import DOC, HEAD_COMMENT, documented_items, modules_of, opened, passed, public_items, sources_of
from rt_api import LIBRARIES, lines_of_crates

# Crates that prove or measure calls of others, and offer none.
FOR_NONE = ("user_proofs", "url_bench", "call_bench")
CLAUSE = re.compile(r"(?m)^ *ensures(?: (\w+))? \{")
# A link to an item, a link with words, and code that is neither.
LINK = re.compile(r"\[(`[^`]+`)\](?:\(([^)\s]+)\))?|\[([^\]`]+)\]\(([^)\s]+)\)|`[^`]*`")
DOCUMENT = re.compile(r"`docs/([\w/.-]+)`")
# The doc comment of an item: that at its margin, or, of a member of an `impl`, that below the first line.
OWN = re.compile(r"(?:///.*\n)+|impl.*\n(?: {4}///.*\n)+")


@functools.cache
def crates():
    """The crates that have a contract for their callers, in the order of crates.txt."""
    return [it for it in lines_of_crates() if it not in FOR_NONE and CLAUSE.search("".join(public_items(it).values()))]


@functools.cache
def modules(crate):
    """The public modules of a crate, by their paths, with their places in the sources."""
    return {"::".join(it): it for it in opened(modules_of(crate))}


def module_of(crate, path):
    """The public module that an item's path names."""
    words = path.partition(" as ")[0].split("::")
    return max((it for it in modules(crate) if it.split("::") == words[: it.count("::") + 1] and it.count("::") + 1 < len(words)),
               key=len, default="")


@functools.cache
def anchors(crate):
    """The anchors of a page: of each public module but the root, and of each public item."""
    found, used = {}, set()
    for path in [*(f"mod {it}" for it in sorted(modules(crate)) if it), *documented_items(crate)]:
        anchor = re.sub(r"\W+", ".", path.lower()).strip(".")
        while anchor in used:
            anchor += "."
        used.add(anchor)
        found[path] = anchor.replace(".", "-")
    return found


@functools.cache
def passed_on():
    """The names by which programs use the items that a library exports of a layer below: by the crate and the
    path there."""
    return {below: f"{library}::{path}" for library in LIBRARIES for path, below in passed(library).items() if below[0] in crates()}


def name_for_programs(crate, path):
    """The path by which a program names an item, if any."""
    if crate in LIBRARIES:
        return f"{crate}::{path}"
    if "::".join(path.split("::")[-2:]) in OF_LAYERS:
        return None
    fitting = ((there, name) for (of, there), name in passed_on().items() if of == crate and f"{path}::".startswith(f"{there}::"))
    return next((name + path.removeprefix(there) for there, name in fitting), None)


@functools.cache
def by_last_name():
    """The crates and paths of items and of public modules, by the last name in the path."""
    found = {}
    for crate in crates():
        for path in anchors(crate):
            if " as " not in path and path not in passed(crate):
                found.setdefault(re.split(r"::| ", path)[-1], []).append((crate, path))
    return found


def target(crate, module, name):
    """The crate and the path of the item that a name in a doc comment denotes: an item of the module, of the
    crate, or one that the source uses."""
    words = re.sub(r"\(.*|!$", "", name).split("::")
    of = words[0] if words[0] in crates() else None
    words = [it for it in words if it not in ("crate", "super", "self", "Self") and it not in crates()]
    below = passed(of or crate).get(words[0]) if words else None
    if below and below[0] in crates():
        return target(below[0], (), "::".join((*below, *words[1:])))
    source = sources_of(crate).get(module, "")
    for ending in (words, words[:-1]):
        same = by_last_name().get(ending[-1], ()) if ending else ()
        fitting = [it for it in same if it[1].removeprefix("mod ").split("::")[-len(ending):] == ending]
        if fitting:
            return min(fitting, key=lambda it: (
                it[0] != (of or crate), documented_items(it[0]).get(it[1], ((), ""))[0] != module,
                not re.search(rf"(?m)^use {it[0]}::.*\b{ending[0]}\b", source), it[1].startswith("mod "),
                (*LIBRARIES, *crates()).index(it[0]), len(set(it[1].split("::"))), it[1]))
    return None


def link(crate, page, words, path):
    """A link from a page to an item of a crate."""
    return f"[{words}]({'' if crate == page else f'{crate}.md'}#{anchors(crate)[path]})"


def prose(crate, module, text, page=None):
    """The words of a doc comment with links from a page to the items that they name."""
    def linked(found):
        words, name, plain, address = found.groups()
        if not words and not plain:
            return DOCUMENT.sub(r"[docs/\1](../\1)", found[0])
        if (address or "").startswith("http"):
            return found[0]
        it = target(crate, module, name or address or words.strip("`"))
        shown = re.sub(r"^`(?:(?:crate|super|self)::)+", "`", words or plain)
        return link(it[0], page or crate, shown, it[1]) if it else shown

    return LINK.sub(linked, text)


def documented(crate, module, text, page=None):
    """The Markdown of doc comments without their marks: examples as code of Rust, and outside of them links, and headings in bold."""
    parts = re.split(r"(?ms)(^```.*?^```$)", "\n".join(re.findall(r"(?m)^ *//[/!] ?(.*)$", text)))
    return "".join(re.sub(r"\A```\n", "```rust\n", it) if at % 2 else prose(crate, module, re.sub(r"(?m)^#+ (.*)", r"**\1**", it), page)
                   for at, it in enumerate(parts)).strip()


def parted(words):
    """The words of an item without its examples, except those that a sentence leads to; and these examples."""
    kept, examples = "", []
    for at, it in enumerate(re.split(r"(?ms)(^```rust\n.*?^```$)", words)):
        if at % 2 and not kept.rstrip().endswith(":"):
            examples.append(it)
        else:
            kept += it
    return re.sub(r"\n{3,}", "\n\n", kept).strip(), examples


def of_module(crate, module, page=None):
    return documented(crate, module, "".join(f"//! {it}" for it in HEAD_COMMENT.findall(sources_of(crate).get(module, ""))), page)


def own_words(text):
    return "".join(DOC.findall((OWN.match(text) or [""])[0]))


def sentence(crate, path, page):
    """The first sentence of an item's doc comment, in one line."""
    module, text = documented_items(crate)[path]
    it = target(crate, module, "::".join(passed(crate)[path])) if path in passed(crate) else None
    if it and not it[1].startswith("mod "):
        return sentence(*it, page)
    if it:
        words = of_module(it[0], modules(it[0])[it[1].removeprefix("mod ")], page)
    else:
        words = documented(crate, module, own_words(text), page)
    first = words.partition("\n\n")[0]
    return re.sub(r"\s+", " ", re.match(r"(?s).*?(?:\.(?=\s)|$)", first)[0])
