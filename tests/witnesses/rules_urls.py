"""Settings of a URL: `http.<url>.*`, `credential.<url>.*`, and the headers that Git sends.

`git config --get-urlmatch SECTION URL` returns the entry that Git uses for each name, so one run covers as many sets
of entries as a configuration has names. `git credential fill` shows what Git does by `credential.*`: each entry is a
helper that reports its number, a name for the user, or whether helpers get the path of HTTP. The values of
`http.extraHeader` accumulate: `git ls-remote` runs with a proxy on 127.0.0.1, which records the headers of a request
and refuses it. Each entry names a header of its own.
"""
import itertools
import re
from functools import partial

from git_runs import Entry, in_repositories, order_of
from row_text import text_of
from texts import pieces_of
from web_asked import recording

# A last helper shows the user and the path that it gets.
SHOW = b"!sed -n -e 's/^username=/\x03/p' -e 's/^path=/\x04/p' >&2; :"
# Git's messages for URLs that it refuses.
REFUSALS = (b"invalid URL scheme name", b"invalid %XX escape sequence", b"missing host", b"invalid characters in host name",
            b"may not have a port", b"invalid port number", b"port number not in range", b"invalid '..' path segment")
REFUSED = {"refused": True}


# ---- the entry that is used

def used(ask, _, url):
    """The value that Git uses for each name, None if the URL is refused."""
    said = ask("git", "config", "--get-urlmatch", "http", url)
    if not said.startswith(b"fatal: "):
        return {name: text_of(value) for name, value in re.findall(rb"^http\.(\S+) (.*)$", said, re.M)}
    if not any(it in said for it in REFUSALS):
        raise ValueError(f"Git says {said!r} of a URL")
    return None


def matches(configurations):
    """The calls of the library for sets of entries and URLs, each with Git's outcome."""
    asked = [(sets, url) for sets, urls in configurations for url in urls]
    found = in_repositories(used, [([*itertools.chain(*sets)], urls) for sets, urls in configurations])
    for (sets, url), values in zip(asked, found):
        for every in sets:
            # The entries of a name, and the value that Git uses as a text: None without one.
            entries = [it for it in every if it.section.lower() == b"http"]
            outcome = REFUSED if values is None else values.get(every[0].name)
            if entries:
                yield order_of("entries::best_entry", entries, section="http", name=entries[0].name, text=url), outcome
            if len(entries) == 1 and entries[0].place is not None:
                is_used, pattern = outcome is not None, {"pattern": entries[0].place, "text": url}
                yield order_of("UrlPattern::matches", **pattern), REFUSED if outcome == REFUSED else is_used
                yield order_of("pattern::best", **pattern), REFUSED if outcome == REFUSED else 0 if is_used else None


# ---- headers

def header(ask, entries, url):
    """The call of the library for a URL, with the headers that arrive; None if no request does. Git compares a URL with
    a `/` at its end (`remote-curl.c`)."""
    with recording() as proxy:
        ask("git", "ls-remote", url, http_proxy=f"http://127.0.0.1:{proxy.server_address[1]}", GIT_EXEC_PATH=None)
    if not proxy.heads:
        return None
    text = url.removesuffix(b"/") + b"/"
    # Git refuses to compare a URL without a normal form.
    has_place = used(ask, entries, text) is not None
    call, text = ("settings::settings_for", text) if has_place else ("settings::settings_without_place", None)
    return order_of(call, entries, name="extraHeader", text=text), [
        int(it[1]) for it in map(re.compile(rb"X-([0-9]+):").match, proxy.heads[0]) if it]


headers = partial(in_repositories, header)


# ---- credentials

def filled(said):
    """The numbers of the helpers, the user and the path that Git has at the end; None if it refuses the URL."""
    if b"contains carriage return" in said or b"credential url cannot be parsed" in said:
        return None
    user, path = (re.search(mark + rb"(.*)", said) for mark in (b"\x03", b"\x04"))
    return [int(it) for it in re.findall(rb"\x01([0-9]+)\x02", said)], user and user[1], path and path[1]


def credential(ask, entries, url):
    """The call of the library for a URL, with Git's outcome. Helpers only get the path of HTTP by a setting, and always
    that of another protocol; so a case is left out that has such a setting, and a URL without a path or of another
    protocol. Only Git accepts a carriage return in a path that helpers don't get."""
    found, pieces = filled(ask("git", "credential", "fill", given=b"url=%s\n" % url)), pieces_of(url)
    is_shown = url.startswith((b"http://", b"https://")) and pieces[3]
    is_set = any(it.name.lower() == b"usehttppath" for it in entries)
    if found is None or b"\r" in b"".join(it or b"" for it in pieces) or is_set and not is_shown:
        return None
    helpers, user, path = found
    outcome = {"helpers": helpers, "use_http_path": bool(is_shown) and path is not None, **({} if user is None else {"user": text_of(user)})}
    # The last entry is the helper that shows what it gets.
    return order_of("credentials::credentials_for", entries[:-1], text=url), outcome


def credentials(configurations):
    last = Entry(b"credential", None, b"helper", SHOW)
    return in_repositories(credential, [([*entries, last], urls) for entries, urls in configurations])
