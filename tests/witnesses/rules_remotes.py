"""Rewriting by `url.<base>.insteadOf` and `url.<base>.pushInsteadOf`, and the URLs of remotes, `remote.<name>.*`.

`git ls-remote --get-url` returns Git's result for fetching, and `git remote get-url --push` for pushing; `git remote get-url --all`, and
with `--push`, the URLs of a remote. It answers for a remote that its repository has, so each one has an entry that doesn't affect URLs.
"""
from collections import namedtuple
from functools import partial

from git_runs import Entry, in_repositories, is_named, listed, order_of
from row_text import text_of
from texts import lacks_value

NO_VALUE, NO_URL = b"bad config variable", b"fatal: no URLs configured for remote"
# Entries, a text, the push URL of its remote or None, and Git's rewritten texts: None if it ends.
Rewritten = namedtuple("Rewritten", "entries text push_url fetch push")
READ = (b"url", b"pushurl", b"vcs", b"proxy", b"uploadpack", b"receivepack")


def of_texts(asked):
    """The entries of the remotes, by which Git rewrites texts for pushing."""
    for at, (text, push_url) in enumerate(asked):
        yield Entry(b"remote", b"r%d" % at, b"url", text)
        if push_url is not None:
            yield Entry(b"remote", b"r%d" % at, b"pushurl", push_url)


def both_ways(ask, _, case):
    entries, at, text, push_url = case
    said = ask("git", "ls-remote", "--get-url", "--", text), ask("git", "remote", "get-url", "--push", f"r{at}")
    return Rewritten(entries, text, push_url, *(None if NO_VALUE in it else it.removesuffix(b"\n") for it in said))


def rewritten(configurations):
    return in_repositories(both_ways, [
        ([*entries, *of_texts(asked)], [(entries, at, *it) for at, it in enumerate(asked)])
        for entries, asked in configurations])


def is_ended(case):
    """Whether Git ends for an entry without a value: the class `entry-without-value` of docs/RULES.md."""
    return case.fetch is case.push is None and any(map(lacks_value, case.entries))


def outcome(text):
    return {"refused": True} if text is None else text_of(text)


def rewritten_orders(cases):
    """The calls of the library for the cases, each with Git's outcome. If Git ends, no rules are made from all entries; those
    at which it doesn't end are added one by one."""
    for it in cases:
        is_own = it.push_url is not None
        yield order_of("Rewrites::rewrite_fetch", it.entries, text=it.text), outcome(it.fetch)
        yield order_of("Rewrites::rewrite_push", it.entries, text=it.push_url if is_own else it.text, has_push_url=is_own), outcome(it.push)
    ended = [it for it in cases if it.fetch is None and it.push_url is None]
    for it, found in zip(ended, rewritten([([one for one in it.entries if not lacks_value(one)], [(it.text, None)]) for it in ended])):
        yield order_of("Rewrites::add_entry", it.entries, text=it.text), [outcome(found.fetch), outcome(found.push)]


def urls(said):
    """The URLs that Git prints, None if it ends for an entry without a value. For an entry that it ignores it writes a line."""
    said = b"".join(it for it in said.splitlines(True) if not it.startswith(b"warning: config remote shorthand"))
    return None if NO_VALUE in said else [] if NO_URL in said else [*map(text_of, said.split(b"\n")[:-1])]


def ends_git(entry):
    """Whether Git ends at an entry, whichever remote is named."""
    return is_named(entry, b"remote", *READ) and entry.place is not None and not entry.place.startswith(b"/") and entry.value is None


def outcome_of(entries, name, fetched, pushed):
    """Git's outcome for a remote. It reports that it ends; the byte offset follows from the entries before it. Of the names that don't affect
    URLs the cases have only `vcs`."""
    if None in (fetched, pushed):
        return {"error": "NoValue", "at": len(listed(entries[: next(at for at, it in enumerate(entries) if ends_git(it))]))}
    helpers = [it.value for it in entries if is_named(it, b"remote", b"vcs") and it.place == name]
    return {"urls": fetched, "push_urls": pushed, **({"vcs": text_of(helpers[-1])} if helpers else {})}


def remote(ask, entries, name):
    fetched, pushed = (urls(ask("git", "remote", "get-url", "--all", *way, "--", name)) for way in ([], ["--push"]))
    return order_of("Remote::of", entries, name=name), outcome_of(entries, name, fetched, pushed)


# The calls of the library for remotes, each with Git's outcome.
remotes = partial(in_repositories, remote)
