"""The rows of the tables, by the binding for C, for Python or for Rust: a small program in that language makes the calls,
`bindings/tests/vectors.c`, `bindings/tests/vectors.py` or the example `vectors` of the crate.

A binding gets an order as one line of members `name=value`, separated by tabs, so that its program needs no reader of JSON. A
location built from fields is flat, as `url.host=h`. `\\x` with two digits is a control character, a backslash or a byte that
isn't part of UTF-8. The outcome is JSON as from `answers`, except that each byte outside ASCII is U+EF00 plus the byte; so
outcomes are compared by the bytes that their texts represent. `calls.jsonl` has the calls of bindings, and the members that an order
for them may have.

No binding reports whether a name or a value of a query is owned: `{"owned": text}` is compared as the text. An error of C keeps
no bytes, so `kept` is left out, except for a text that is too long, for which it reports how much of it to show; the same holds
for Python, which uses C.
"""
import json
import re

from rt_api import read
from runs import outcomes
from tables import rows

TABLE = [json.loads(it) for it in read("tests/bindings/calls.jsonl").splitlines()]
# The bytes outside ASCII, by their characters in outcomes, and as Python represents them.
LONE = {0xEF00 + byte: 0xDC00 + byte for byte in range(0x80, 0x100)}


def flat(members, front=""):
    for name, value in members.items():
        if isinstance(value, dict):
            yield from flat(value, f"{front}{name}.")
        elif value is not None:
            text = str(value).lower() if isinstance(value, bool) else str(value)
            yield f"{front}{name}=" + re.sub(r"[\0-\x1f\x7f\\\uef80-\uefff]", lambda it: f"\\x{ord(it[0]) & 0xFF:02x}", text)


def is_listing(row):
    """Whether each line of a configuration is an entry."""
    text = row.members.get("config") or ""
    keys = [it.split("\n")[0] for it in text.split("\0")[:-1]]
    return text[-1:] in ("", "\0") and all("." in it.strip(".") and it[0] != "." and it[-1] != "." for it in keys)


class Binding:
    def __init__(self):
        own = [it for it in TABLE if self.name in it["of"].split()]
        self.calls, self.members = ({name for it in own for name in it[member]} for member in ("calls", "members"))

    def makes(self, row):
        """Whether the inputs of a row can be built. Only C gets large texts: the others call its library, by programs that are slow for them.
        None has entries of another section than `http`."""
        is_small = self.name == "c" or not row.place.startswith("large.")
        return is_small and self.members.issuperset(row.members) and row.members.get("section", "http") == "http"

    def seen(self, outcome):
        """The part of an outcome that is compared."""
        if isinstance(outcome, str):
            return outcome.translate(LONE).encode("utf-8", "surrogateescape").hex()
        if isinstance(outcome, list):
            return [self.seen(it) for it in outcome]
        if not isinstance(outcome, dict):
            return outcome
        if set(outcome) == {"owned"}:
            return self.seen(outcome["owned"])
        is_kept = self.name == "rust" or "total" in outcome
        return {name: self.seen(it) for name, it in outcome.items() if name != "kept" or is_kept}

    def faults(self, command, *topics):
        """The rows of these tables, or of all, that the program of the binding answers otherwise; and over all the calls without a row."""
        asked = [it for it in rows(*topics) if it.members["call"] in self.calls and self.makes(it)]
        said = outcomes(command, ["\t".join(flat(it.members)) for it in asked])
        faults = [fault for it, line in zip(asked, said) if (fault := it.fault(line, self.seen))]
        missing = set() if topics else self.calls - {it.members["call"] for it in asked}
        print(f"{self.name}: {len(asked)} rows")
        return faults + [f"no row makes the call {it}" for it in sorted(missing)]


class C(Binding):
    name = "c"

    def makes(self, row):
        """All except other styles than the plain one, unless for permissions, fields that are a record of the older form, as C
        restores fields, an error that C doesn't have, and a configuration that C refuses."""
        url, error = row.members.get("url"), row.members.get("error", {}).get("error")
        is_older = isinstance(url, dict) and "spelling" in url and url["spelling"] == url.get("path", "")
        is_plain = row.members.get("style") is None or row.members["call"] == "Protocols::permission"
        return super().makes(row) and is_plain and not is_older and is_listing(row) and error not in ("NoHome", "PathNotUtf8", "Unresolved")


class Python(C):
    """The package, over the shared library."""

    name = "python"

    def makes(self, row):
        """All that C makes, except an error that no call returned. A refused listing only has its flaw, and a URL only the
        reason why it has no normal form."""
        call, expected = row.members["call"], row.expected
        if call == "Reader::new":
            return len(expected) == 1 or not any("error" in it for it in expected)
        if call == "NormalUrl::parse_in" and "error" not in expected:
            return False
        return call == "Refused::as_str" or super().makes(row) and "error" not in row.members


class Rust(Binding):
    name = "rust"

    def makes(self, row):
        """All except a location with an escaped path or in a style with an alignment and a width, to which the crate pads a location as
        `gix-url` does, an error that the crate doesn't have, a path that it takes literally, as it may have any bytes there, and a
        configuration with an error and entries: its reading ends at the first error, which the library skips."""
        of, is_read = row.members.get, is_listing(row) or row.members["call"] == "Reader::new" and len(row.expected) == 1
        parts = [it for it in map(of, ("url", "other", "error")) if isinstance(it, dict)]
        is_foreign = any(it.get("spelling") is not None or it.get("error") == "PathNotUtf8" for it in parts)
        is_refused = of("error") == "NoRoom" or row.expected == [{"error": "PathNotUtf8"}, 0]
        is_padded = of("call") == "Url:fmt" and of("style") in ("{:>40}", "{:*^#60.7}")
        return super().makes(row) and is_read and not (is_foreign or is_refused or is_padded)
