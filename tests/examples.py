"""The examples of `vectors/git.jsonl`: texts that are written out with the readings of Git and libcurl.

An example is a row there that reads a text. Its member `class` is the class in which the others and this library read different
things, or `alike`. For an HTTP text, whose classes are in `web_classes.py`, `credential` is the reading of Git's credential
code and `curl` that of libcurl, or `refused`. For any other text, whose classes are in `git_classes.py`, `git` is Git's
reading, or the word for the reason of its refusal. Other rows record for a text that this library reads whether it is settled,
the text that is written, and whether the library reports that Git agrees.
"""
from collections import namedtuple

from git_classes import Reading, reported
from row_text import bytes_of, text_of

# The calls over a text that is read.
CALLS = ("Url::is_settled", "Url::to_bstring", "Url::agrees_with_git")
# The classes of HTTP texts for which the call may still be true: another spelling of the same address, and trailing slashes of
# a path.
LET_BY = ("alike", "slashes-of-path", "long-address")
# The place of an example, its class, its text, and its readings: by Git and here, or by the credential code and libcurl.
Example = namedtuple("Example", "place class_name text said")


def read_here(outcome):
    """The reading of this library, by the outcome of the call: a reading, or the name of the error."""
    if "error" in outcome:
        name, *more = outcome["error"].split()
        return more[0] if name == "BadUrl" else name
    scheme, _, name = outcome["scheme"].partition(" ")
    if name or scheme in ("Http", "Https", "Ext"):
        return Reading(f"helper {name or scheme.lower()}", None, None, None, None, None)
    user, password, host = (bytes_of(outcome[it]) if it in outcome else None for it in ("user", "password", "host"))
    return Reading(scheme.lower(), user, password, host or None, outcome.get("port"), bytes_of(outcome["path"]))


def git_examples(table):
    return [Example(it.place, it.class_name, bytes_of(it.members["text"]), (it.git, read_here(it.expected))) for it in table if it.git is not None]


def web_examples(table):
    return [Example(it.place, it.class_name, bytes_of(it.members["text"]), (it.credential, it.curl)) for it in table if it.curl is not None]


def example_faults(table):
    """The faults of the examples among rows.

    Exactly if the rows expect the same reading as Git's, they expect that the library reports that Git agrees and writes the
    same text. Such an example is only in the class `alike`. An HTTP text with this result is in one of few.
    """
    expected = {(it.members.get("call"), str(it.members.get("url"))): it.expected for it in table}
    said = {it: [expected.get((call, text_of(it.text))) for call in CALLS] for it in (*git_examples(table), *web_examples(table))}
    for it in git_examples(table):
        git, ours = it.said
        if isinstance(ours, Reading) and None in said[it]:
            yield f"{it.place}: over the text that it reads there is no row for one of {', '.join(CALLS)}"
        is_let_by = said[it][1:] == [text_of(it.text), True]
        if len({is_let_by, reported(ours) == git, it.class_name == "alike"}) > 1:
            words = "let by" if is_let_by else "not let by"
            yield f"{it.place}: {it.class_name}, {words}: Git reads {git!r}, and here is read {reported(ours)!r}"
    for it in web_examples(table):
        _, written, agrees = said[it]
        if agrees is None:
            yield f"{it.place}: over the text that it reads there is no row for Url::agrees_with_git"
        if agrees and written in (None, text_of(it.text)) and it.class_name not in LET_BY:
            yield f"{it.place}: a text of {it.class_name} is let by"
