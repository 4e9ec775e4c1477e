#!/usr/bin/env python3
"""Writes the parts in crates/explain_page/src/template.rt: the template of the page that `explain --html` makes, as code, since the program
can't read a file when it is built.

The template is crates/explain_page/page/page.html. A slot is `<!-- name -->`, outside of style and script. The slot `policy` becomes
the content security policy, which allows the style and the script of the template by their hashes and nothing else; the others
are filled in by the program. `tests/documents` compares the file.
"""
import base64
import hashlib
import re
import sys

sys.dont_write_bytecode = True
sys.path.append(f"{sys.path[0]}/../tools")
from rt_api import read, write

SOURCE, PAGES = "crates/explain_page/page/page.html", "crates/explain_page/src/template.rt"
SLOT = re.compile(r"<!-- (\w+) -->")
INLINE = re.compile(r"<(style|script)>(.*?)</\1>", re.S)
# The line above the parts.
HEAD = "/// The parts of the page, in order.\n"


def policy(html):
    """The content security policy of a page with this style and this script."""
    hashes = {kind: base64.b64encode(hashlib.sha256(text.encode()).digest()).decode() for kind, text in INLINE.findall(html)}
    return "; ".join(("default-src 'none'", *(f"{kind}-src 'sha256-{hashes[kind]}'" for kind in ("style", "script")),
                      "base-uri 'none'", "form-action 'none'"))


def text_code(text):
    """A text of the template as code, laid out as `rt fmt` does."""
    line = f'    Part::Text(r##"{text}"##),\n'
    return line if "\n" not in text and len(line) <= 100 else f'    Part::Text(\n        r##"{text}"##,\n    ),\n'


def wanted():
    """The parts of the template, its texts and its slots, in order; what is above them stays."""
    html = read(SOURCE)
    parts = SLOT.split(html.replace("<!-- policy -->", policy(html)))
    listed = "".join(f"    Part::Slot(Slot::{it.capitalize()}),\n" if at % 2 else text_code(it) for at, it in enumerate(parts))
    return {PAGES: f"{read(PAGES).partition(HEAD)[0]}{HEAD}pub const PAGE: [Part; {len(parts)}] = [\n{listed}];\n"}


if __name__ == "__main__":
    write(wanted(), PAGES)
