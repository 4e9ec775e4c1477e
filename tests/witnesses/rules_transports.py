"""Transports: which is that of a text, whether it may be used by `protocol.*` and two variables, boolean values, and values at which Git stops.

`git ls-remote` runs with a list that allows nothing, and names the transport that it refuses; and with a configuration, and shows
whether it uses a transport. If one is allowed, nothing is connected to: Secure Shell, the proxy of `git://` and the program for local
repositories are commands that fail, and remote helpers aren't found. `git config --type=bool` returns Git's boolean values. What stops Git
is asked of a command that reads the entry: `ls-remote` over HTTP, and for a text of the transport, `credential fill`, and `remote`.
"""
import itertools
import re

from second_reading.git_reads import git_reads
from git_runs import Entry, in_repositories, named, order_of
from row_text import text_of
from rt_api import rows_of
from second_reading import grammar
from texts import Policies

NAMED = re.compile(rb"^fatal: transport '(.*)' not allowed$", re.M | re.S)
# The reasons why Git ends before it decides, by the library's names: a value that isn't a policy, none, and a variable without
# a truth value.
ENDS = {b"unknown value for config": "UnknownAllowance", b"bad config variable": "UnknownAllowance",
        b"bad boolean config value": "UnknownFromUser"}
# Git's refusals before it looks at the transport: of a text that has none, by the library's names, or of a text whose form has one.
REASONS = {b"git-over-rsync": "Rsync", b"is not supported": "UnknownScheme"}
REFUSALS = (b"no path specified", b"strange pathname", b"newline is forbidden")
# Programs that fail replace those of the transports.
FAILING = {"GIT_SSH_COMMAND": "false", "GIT_SSH_VARIANT": "simple", "GIT_PROXY_COMMAND": "false"}


def used(ask, text, allow_list, from_user=None):
    """What Git says of a text with the values of the two variables."""
    variables = {"GIT_ALLOW_PROTOCOL": allow_list, "GIT_PROTOCOL_FROM_USER": from_user}
    return ask("git", "ls-remote", "--upload-pack=false", "--", text, **variables)


def permission(ask, entries, policy):
    allow_list, from_user, name, text = policy
    said = used(ask, text, allow_list, from_user)
    refused = NAMED.search(said)
    decision = named(said, ENDS) or ("Refused" if refused else "Allowed")
    order = order_of("Protocols::permission", entries, name=name, allow_list=allow_list, from_user=from_user)
    return order, decision if not refused or refused[1] == name else f"the transport {refused[1]!r} is refused"


def permissions(policies):
    """The calls of the library for policies, each with Git's outcome for a text that uses the transport: each of its texts in turn."""
    texts = [Policies.texts_of(name) for *_, name in policies]
    asked = [(it[0], [(*it[1:], some[at % len(some)])]) for at, (it, some) in enumerate(zip(policies, texts))]
    return in_repositories(permission, asked, **FAILING)


# ---- names

def name_of(ask, _, text):
    """The transport that Git names, or the reason why the text has none; None if Git refuses the text for another
    reason."""
    said = used(ask, text, "none-of-these")
    if refused := NAMED.search(said):
        return text_of(refused[1])
    if reason := named(said, REASONS):
        return {"error": reason}
    if not any(it in said for it in REFUSALS):
        raise ValueError(f"Git says {said!r} of a transport")
    return None


def is_of_its_scheme(text):
    """Whether the library reads a location in the text, whose scheme is the protocol in which Git reads the text by its definition, if Git
    reads a place. `test_git.py` has the other texts, as `[:/]:p`."""
    location = grammar.spells(text)
    return location is not None and all(it.protocol == grammar.as_str(location.scheme).decode("latin-1") for it in git_reads(text))


def names(texts):
    """The calls of the library for the texts, and for those that it reads as locations, each with the transport that Git names. After `--` a
    text that begins with `-` isn't an option."""
    for text, found in zip(texts, in_repositories(name_of, [([], texts)], **FAILING)):
        if found is not None and not text.startswith(b"-"):
            yield order_of("text::transport_of", text=text), found
        if isinstance(found, str) and is_of_its_scheme(text):
            yield order_of("protocols::transport", url=text), found


# ---- values

def boolean(ask, _, text):
    """The call of the library for a text, with its value by Git, None if Git refuses it."""
    said, values = ask("git", "-c", b"a.b=" + text, "config", "--type=bool", "a.b"), {b"true\n": True, b"false\n": False}
    return order_of("boolean::read_boolean", text=text), None if said.startswith(b"fatal: bad boolean config value") else values[said]


# Git's messages when it stops, and the library's reasons.
SAID = {b"missing value for": "NoValue", b"bad boolean config value": "NoBoolean", b"bad numeric config value": "NoNumber",
        b"unknown value for config": "NoAllowance"}


def entries():
    """Those of `vectors/texts/stops.jsonl`, which has names, places and values."""
    for line in rows_of("vectors/texts/stops.jsonl"):
        for some in itertools.product([line["section"]], line["names"], line["values"], line["places"]):
            section, name, value, place = (it if it is None else it.encode() for it in some)
            yield Entry(section, place, name, value)


def stop(ask, entries, section):
    if section == b"credential":
        said = ask("git", "credential", "fill", given=b"url=http://h/p\n")
    elif section in (b"remote", b"url"):
        said = ask("git", "remote", "-v")
    else:
        # No server listens at the port.
        said = ask("git", "ls-remote", {b"http": "http://127.0.0.1:1/", b"protocol": "/none"}.get(section, section))
    return order_of("stops::stop_at", entries), named(said, SAID)


def stops(some):
    """The calls of the library for entries, each with the reason for which Git stops, None if it doesn't stop for it."""
    return in_repositories(stop, [([it], [it.section]) for it in some], GIT_EXEC_PATH=None)
