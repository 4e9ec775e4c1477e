#!/usr/bin/env python3
"""Writes the manual pages: gix_url(3) and gix_url_rules(3) from the comments of the headers in bindings/c/include, explain(1)
from the output of the program for --help, and locations(1) from docs/locations.txt, which has the same layout.

usage: tools/manuals.py FOLDER     below FOLDER, man1 and man3 get the pages; each call has one that leads to its header's
"""
import pathlib
import re
import sys

sys.dont_write_bytecode = True
from rt_api import read

PROGRAMS = {"locations": "docs/locations.txt", "explain": "crates/explain/help"}
# The pages that each page names.
PAGES = ("locations(1)", "explain(1)", "gix_url(3)", "gix_url_rules(3)")
# The headers, each with its purpose.
LIBRARIES = {
    "gix_url": "parses, writes and compares Git remote locations, by proved code",
    "gix_url_rules": "what Git does with a remote by its configuration, by proved code",
}


def plain(line):
    """A line of text escaped for roff."""
    line = line.replace("\\", "\\e").replace("-", "\\-")
    return f"\\&{line}" if line.startswith((".", "'")) else line


def verbatim(lines):
    """Lines that stay unchanged."""
    return [".PP", ".in +2n", ".nf", *map(plain, lines), ".fi", ".in"]


def prose(text):
    """Paragraphs, separated by empty lines; a paragraph whose lines are all indented stays unchanged."""
    for paragraph in re.split(r"\n[ ]*\n", text):
        rows = [it for it in paragraph.split("\n") if it.strip()]
        if rows:
            yield from verbatim(rows) if all(it.startswith("  ") for it in rows) else [".PP", *(plain(it.strip()) for it in rows)]


def page(name, number, version, summary, synopsis, rest):
    """The lines of a page, which ends with the other programs, and the libraries."""
    others = (re.sub(r"(\w+)\((\d)\)", r"\\fB\1\\fR(\2)", it) for it in PAGES if it != f"{name}(1)")
    return [f'.TH {name} {number} "" "gix_url {version}" "gix_url"', ".SH NAME", f"{name} \\- {plain(summary)}", ".SH SYNOPSIS", *synopsis,
            ".SH DESCRIPTION", *rest, ".SH SEE ALSO", ", ".join(others)]


def comment(text):
    return re.sub(r"(?m)^ \* ?", "", text.strip().removeprefix("/* ").removesuffix("*/"))


def declarations(header):
    """The declarations of a header, each of which ends at an empty line: whether it is of a call, the comment before it, and itself."""
    body = header.partition('extern "C" {\n#endif\n')[2].rpartition("#ifdef __cplusplus")[0]
    for said, _, declared in (it.partition("*/\n") for it in re.split(r"\n\n+", body.strip())):
        yield not declared.startswith(("typedef", "#define")), said, declared


def library_page(name, header):
    rest = [*prose(comment(header.partition("*/")[0]))]
    for heading, calls in (("CALLS", True), ("TYPES", False)):
        rest.append(f".SH {heading}")
        for is_call, said, code in declarations(header):
            if is_call == calls:
                names = map("".join, re.findall(r"\b(gix_url_\w+)\(|^#define (\w+)|^} (\w+);", code, re.M))
                rest += [f".SS {', '.join(names)}", *verbatim(code.split("\n")), *prose(comment(said))]
    synopsis = [".nf", f".B #include <{name}.h>", ".PP", "cc program.c $(pkg\\-config \\-\\-cflags \\-\\-libs gix_url)", ".fi"]
    return page(name, 3, re.search(r'GIX_URL_VERSION "(.*)"', read("bindings/c/include/gix_url.h"))[1], LIBRARIES[name], synopsis, rest)


def section(text):
    """A part of a program's help: a list or a section by its first line, or prose with its indented parts unchanged."""
    head, *lines = text.split("\n")
    if text.startswith("Exit status: "):
        return [".SH EXIT STATUS", *prose(text.removeprefix("Exit status: "))]
    if head in ("Arguments:", "Options:"):
        rows = (it.strip().partition("  ") for it in lines)
        return [f".SH {head[:-1].upper()}", *(row for option, _, does in rows for row in (".TP", f".B {plain(option)}", plain(does.strip())))]
    return [".SH EXAMPLES", *verbatim(lines)] if head == "Examples:" else [".PP", plain(head), *(verbatim(lines) if lines else [])]


def program_page(name):
    """The page of a program: its help, with the prose first."""
    summary, usage, *rest = read(PROGRAMS[name]).rstrip("\n").split("\n\n")
    rest.sort(key=lambda it: it.startswith(("Arguments:", "Options:", "Examples:", "Exit status:")))
    synopsis, version = [f".B {plain(usage.removeprefix('Usage: '))}"], read("crates/explain/version").split()[1]
    return page(name, 1, version, summary, synopsis, [row for it in rest for row in section(it)])


def pages():
    """Each page by its name below the folder."""
    for name in LIBRARIES:
        header = read(f"bindings/c/include/{name}.h")
        yield f"man3/{name}.3", library_page(name, header)
        calls = (call for is_call, _, code in declarations(header) if is_call for call in re.findall(r"\b(gix_url_\w+)\(", code))
        yield from ((f"man3/{call}.3", [f".so man3/{name}.3"]) for call in calls)
    for name in PROGRAMS:
        yield f"man1/{name}.1", program_page(name)


if __name__ == "__main__":
    if len(sys.argv) != 2:
        sys.exit(__doc__)
    for name, lines in pages():
        to = pathlib.Path(sys.argv[1], name)
        to.parent.mkdir(parents=True, exist_ok=True)
        to.write_text("\n".join(lines) + "\n", encoding="utf-8")
