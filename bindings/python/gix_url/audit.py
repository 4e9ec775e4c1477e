"""An audit of a .gitmodules file: `python3 -m gix_url audit FILE [--parent URL]`.

For each entry it reports what git fsck refuses, and for each URL of a submodule its dangers, or why it isn't
a location; also for a URL that a later entry replaces. A relative URL is resolved against the parent, the URL
of the remote of the repository around the file, as it is configured: the dangers are those of the result, and
it is reported if it leaves the path of the parent. The calls of `gix_url.rules` decide all of that. The
program `explain` finds more: docs/EXPLAIN.md has its findings.

>>> text = b'[submodule "a"]\\n\\turl = ext::sh -c id\\n[submodule "b"]\\n\\turl = ../../x\\n'
>>> for finding in audit(text, "https://h/a"):
...     print(finding)
line 2: "submodule.a.url": command: it runs a command: "ext::sh -c id"
line 4: "submodule.b.url": climbs: it leaves the path of the parent: "https://x"

Texts are printed only as `gix_url.rules.redacted` returns them, in quotes, with an escape for each character
that isn't printable.
"""
import argparse
import dataclasses
import sys
from collections.abc import Iterator

import gix_url

from . import rules
from ._secrets import Redacted
from .rules import Configuration, SubmoduleRefusal, Unresolved

__all__ = ["Finding", "audit"]

_REFUSED = {
    SubmoduleRefusal.NAME: "the name leads out of its folder",
    SubmoduleRefusal.URL: "the URL is dangerous",
    SubmoduleRefusal.PATH: "the path looks like an option",
    SubmoduleRefusal.UPDATE: "the submodule is updated by a command",
}
_UNRESOLVED = {
    Unresolved.EMPTY_PARENT: "the URL of the parent is empty",
    Unresolved.NOTHING_LEFT: "the URL of the parent has too few elements",
}


@dataclasses.dataclass(frozen=True, repr=False)
class Finding(Redacted):
    """A finding in an entry: a name, such as option_like_host, words for it, and the text that it is about:
    the entry's value, the URL that a relative URL is resolved to, or None. As a `str` it is a line without a
    secret that the library knows."""

    entry: rules.Entry
    name: str
    words: str
    text: bytes | None

    def __str__(self) -> str:
        text = "" if self.text is None else f": {_quoted(self.text)}"
        return f"line {self.entry.line}: {_quoted(self.entry.key)}: {self.name}: {self.words}{text}"


def audit(gitmodules: bytes, parent: str | bytes | None = None) -> tuple[Finding, ...]:
    """The findings in the text of a .gitmodules file, in the order of its entries. Without a parent a
    relative URL is a finding. Raises NoConfiguration if the text isn't a configuration, and Error if the
    parent isn't a location."""
    if parent is not None:
        gix_url.parse(parent)
    return tuple(it for entry in Configuration.from_file(gitmodules).entries for it in _found(entry, parent))


def _found(entry: rules.Entry, parent: str | bytes | None) -> Iterator[Finding]:
    """The findings in an entry. An entry has the URL of a submodule if it sets one by itself."""
    for refusal in rules.check_submodule(entry):
        yield Finding(entry, str(refusal), _REFUSED[refusal], entry.value)
    for alone in Configuration((entry,)).submodules():
        if alone.url is not None and entry.value is not None:
            yield from _found_in_url(entry, entry.value, parent)


def _found_in_url(entry: rules.Entry, url: bytes, parent: str | bytes | None) -> Iterator[Finding]:
    """The findings in the URL of a submodule."""
    resolved = rules.resolve_submodule(b"" if parent is None else parent, url)
    if isinstance(resolved, Unresolved):
        if parent is None:
            yield Finding(entry, "no_parent", "a relative URL needs --parent", url)
        else:
            yield Finding(entry, "unresolved", _UNRESOLVED[resolved], url)
        return
    if resolved.climbs:
        yield Finding(entry, "climbs", "it leaves the path of the parent", resolved.url)
    try:
        for danger in rules.dangers(resolved.url):
            yield Finding(entry, str(danger), danger.words, resolved.url)
    except gix_url.Error as error:
        yield Finding(entry, "refused", str(error), resolved.url)


def _quoted(text: bytes) -> str:
    """A text in the form in which it is printed."""
    return f'"{"".join(map(_escaped, rules.redacted(text)))}"'


def _escaped(character: str) -> str:
    if character in '"\\':
        return f"\\{character}"
    return character if character.isprintable() else character.encode("unicode_escape").decode()


def main(words: list[str]) -> int:
    """Prints the findings, and returns the exit status: 0 if there is no finding, 1 if there is one, and 2 if
    the file can't be read or isn't a configuration, the parent isn't a location, or the output can't be
    written. Raises SystemExit with 2 for wrong arguments."""
    parser = argparse.ArgumentParser("python3 -m gix_url audit", description="Audits a .gitmodules file.")
    parser.add_argument("file", metavar="FILE", help="the file; - is the standard input")
    parser.add_argument("--parent", metavar="URL", help="the URL of the remote of the repository around it")
    given = parser.parse_args(words)
    try:
        found = audit(_read(given.file), given.parent)
        # A stream of its own: bytes that it fails to write aren't written once more at the end of the
        # program.
        with open(1, "wb", closefd=False) as out:
            out.write("".join(f"{it}\n" for it in found).encode())
    except (OSError, MemoryError, gix_url.Error) as error:
        print(f"gix_url audit: {ascii(str(error))[1:-1]}", file=sys.stderr)
        return 2
    return 1 if found else 0


def _read(file: str) -> bytes:
    if file == "-":
        return sys.stdin.buffer.read()
    with open(file, "rb") as it:
        return it.read()
