"""The answers of a binding to lines, member by member, compared with those of `explain --json`.

A binding's are those of `bindings/tests/members.c` or of the example `members` of the Rust crate. Bytes that aren't UTF-8 are U+FFFD in
JSON, and are compared so. Whether Git reads the same is compared with the rule by hand of docs/GIT.md, applied to the second reading of the
line; whether all readers do, with the class by the bytes of the text that is written for it (docs/READERS.md). Lines are left out in which
`explain` hides anything but a password: it reports its reading of the line as it is shown.
"""
import functools

from build import check, inputs, run
from runs import ended, explained
from second_reading import grammar, settled_class, unambiguous, writing
from second_reading.git_class import agrees_with_git
from second_reading.seen import seen


def text(word):
    return None if word == "-" else bytes.fromhex(word[1:]).decode(errors="replace")


def components(parts):
    """The path, the names and values of the query and the fragment, in one text."""
    query = "".join(f" <{it['name']}>=<{it['value']}>" for it in parts["query"] or [])
    return parts["path"] + (" ?" * (parts["query"] is not None)) + query + ("" if parts["fragment"] is None else f" #{parts['fragment']}")


def agreement(line):
    """The results of the Python rules for the text that is written for the line's reading."""
    v = grammar.spells(line)
    is_same = v is not None and settled_class.settled(v) and unambiguous.is_unambiguous(writing.text(v))
    return ["alike" if v is not None and agrees_with_git(v) else "unsure", "unambiguous" if is_same else "doubtful"]


def of_explain(said, line):
    """The results of explain and of the Python rule for a line, in the bindings' words."""
    it, refusal = said["location"], said["refusal"]
    if refusal:
        return ["refused", *(refusal[it] for it in ("error", "fault", "kind", "at", "len", "reason"))]
    judged = it["arguments"]
    texts = [it["scheme"], it["user"], "hidden" if it["password"] else None, it["host"], it["port"], it["port_or_default"]]
    paths = [it["path"], it["original_path"], judged["user"], judged["host"], judged["path"]]
    settled = "settled" if it["settled"] else "unsettled"
    return ["read", *texts, *paths, settled, *agreement(line), it["text"], components(it["components"])]


def of_binding(line):
    outcome, *words = line.split(" ")
    if outcome == "refused":
        error, fault, kind, *place, reason = (None if it == "-" else it for it in words)
        # explain leaves a form out if the error can only have that one.
        return [outcome, error, fault, kind and kind.lower(), *(it and int(it) for it in place), reason]
    scheme, user, password, host, port, default, path, original, *judged, settled, agrees, unambiguous_too, shown, parts = words
    numbers = [None if it == "-" else int(it) for it in (port, default)]
    front = [text(scheme), text(user), None if password == "-" else password, text(host), *numbers]
    return [outcome, *front, text(path), text(original), *judged, settled, agrees, unambiguous_too, text(shown), text(parts)]


@functools.cache
def lines():
    """The lines that both are asked, each with the object of `explain --json`."""
    given = [it for text, _ in inputs().values() for it in text.split(b"\n")[:-1]]
    return [*zip(given, explained(given), strict=True)]


def check_members(program):
    said = run(program, given=ended(it for it, _ in lines())).decode().split("\n")[:-1]
    pairs = {line: (of_binding(it), of_explain(wanted, line)) for (line, wanted), it in zip(lines(), said, strict=True) if seen(line) == line}
    assert len(pairs) > 1_000
    check([f"{line!r}\n  binding: {binding}\n  wanted:  {wanted}" for line, (binding, wanted) in pairs.items() if binding != wanted])
