"""The expected reports of `explain --config`: generators that yield orders, and are sent the library's results (`runs.together`).

The library's calls, which `tests/witnesses` compares with Git, return the rewritten text of a line, the entries that apply to it
and whether its transport may be used; `second_reading` returns the reading of a text.
"""
import re
from collections import namedtuple
from itertools import accumulate

from git_runs import is_named, listed
from row_text import bytes_of, text_of
from second_reading import grammar, hidden
from second_reading.dangers import dangers
from second_reading.explain import lossy, reported, shown_line
from second_reading.hidden import redacted

# The names of the findings for which a run may fail, in their order.
FOUND = ("danger", "unsettled", "refused", "git-differs", "policy")
# The values that a remote may have in addition to its URLs.
VALUES = ("vcs", "proxy", "uploadpack", "receivepack")
STOPS = {"NoValue": "has no value: Git stops at it", "NoBoolean": "is no boolean value: Git stops at it",
         "NoNumber": "is no number that Git takes: it stops at it", "NoAllowance": "is none of always, user and never: Git stops where it decides"}
LACKS = {"ByteZero": "byte 0 ends the argument of a command", "OptionLike": "a text that begins with `-` may be taken for an option",
         "Rsync": "Git has no transport for `rsync:` any more",
         "UnknownScheme": "the text before `://` is neither a transport nor a remote helper"}
# A configuration, both variables (None if they aren't set), and the lines.
Case = namedtuple("Case", "entries lines allow_list from_user", defaults=(None, None))


def snake(name):
    return re.sub(r"(?<=[a-z])(?=[A-Z])", "_", name).lower()


def shown_value(entry):
    if entry.value and is_named(entry, b"http", b"extraheader"):
        return "redacted"
    if is_named(entry, b"credential", b"helper") and (entry.value or b"").startswith(b"!"):
        return "!redacted"
    return None if entry.value is None else lossy(redacted(entry.value))


def placed(entries):
    """The entries, each after the byte offset at which it begins."""
    return [*zip(accumulate((len(listed([it])) for it in entries), initial=0), entries)]


def setting(at, it):
    place = b"" if it.place is None else redacted(it.place) + b"."
    return {"at": at, "key": lossy(it.section.lower() + b"." + place + it.name.lower()), "value": shown_value(it)}


def host_name(v):
    """The host in the form that is compared: without brackets, or a lone colon after it, in lower case."""
    return None if v.host is None else grammar.peel(v.host).lower()


def transport(case, name):
    """A transport: whether it is allowed, and the variable and the entry that decide."""
    variables = {"allow_list": case.allow_list, "from_user": case.from_user}
    order = {"call": "Protocols::permission", "config": text_of(listed(case.entries)), "name": name, "style": "{:?}"}
    said = yield [{**order, **{key: text_of(it) for key, it in variables.items() if it is not None}}, order]
    shown, by_entries = (it["shown"] for it in said)
    variable = "GIT_ALLOW_PROTOCOL" if case.allow_list is not None else "GIT_PROTOCOL_FROM_USER" if shown != by_entries else None
    decides = next((setting(*it) for it in placed(case.entries) if f"at: {it[0]} " in shown), None)
    return {"name": name, "permission": snake(re.findall(r"\w+", shown)[0]), "variable": variable, "entry": decides}


def route(case, line, text, *names):
    """The destination of a line, by the rules with these names."""
    own, goal = grammar.spells(line), grammar.spells(text)
    fronts = [it.value for it in case.entries if is_named(it, b"url", *names) and it.place is not None and it.value is not None]
    same_host = None if own is None or goal is None else host_name(own) == host_name(goal)
    said = (yield [{"call": "text::transport_of", "text": text_of(text)}])[0]
    found = (yield from transport(case, said)) if isinstance(said, str) else None
    lack = None if found else {"reason": snake(said["error"]), "words": LACKS[said["error"]]}
    return {"text": shown_line(text), "rewritten": line.startswith(tuple(fronts)), "same_host": same_host, "transport": found, "no_transport": lack,
            "dangers": [] if goal is None else dangers(text, goal)}


def credentials(case, text):
    """The settings of Git's credential code: its helpers, the user that it asks for, and whether they get the path."""
    request = (yield [{"call": "credential::reading", "text": text_of(text)}])[0]
    used = request and (yield [{"call": "credentials::credentials_for", "config": text_of(listed(case.entries)), "text": text_of(text)}])[0]
    if not used or "error" in used:
        return None
    entries, user = [*placed(case.entries)], used.get("user")
    return {"helpers": [setting(*entries[at]) for at in used["helpers"]], "user": user and shown_user(text, request, bytes_of(user)),
            "use_http_path": used["use_http_path"]}


def shown_user(text, request, user):
    """The user: if it is read in a text that may have a secret, only if the text shows it."""
    is_shown = request.get("user") is None or not hidden.places(text) or any(user in it for it in hidden.shown_parts(text))
    return lossy(redacted(user)) if is_shown else "redacted"


def of_http(case, text):
    """The entries of each name that Git uses, in the order in which the names first occur."""
    place = (yield [{"call": "NormalUrl::parse_in", "text": text_of(text)}])[0]
    has_form = not isinstance(place, dict) or "error" not in place
    some = [it for it in placed(case.entries) if it[1].section.lower() == b"http"]
    names = dict.fromkeys(it.name.lower() for _, it in some)
    about = {"call": "settings::settings_for", "text": text_of(text)} if has_form else {"call": "settings::settings_without_place"}
    config = text_of(listed([it for _, it in some]))
    said = yield [{**about, "config": config, "name": text_of(name)} for name in names]
    return [setting(*some[at]) for used in said if isinstance(used, list) for at in used]


def rules(case, line):
    texts = yield [{"call": "Rewrites::add_entry", "config": text_of(listed(case.entries)), "text": text_of(line)}]
    fetched, pushed = map(bytes_of, texts[0])
    fetch = yield from route(case, line, fetched, b"insteadof")
    push = yield from route(case, line, pushed, b"insteadof", b"pushinsteadof")
    goal, credential, http = grammar.spells(fetched), None, []
    if goal is not None and goal.scheme in grammar.HTTP_SCHEMES:
        credential = yield from credentials(case, fetched)
        http = yield from of_http(case, fetched)
    return {"fetch": fetch, "push": push, "credential": credential, "http": http}


def remote(case, name):
    """The report on a remote. Whether a text is rewritten is left out."""
    said = (yield [{"call": "Remote::of", "config": text_of(listed(case.entries)), "name": text_of(name)}])[0]
    report = {"remote": lossy(redacted(name)), "fetch": [], "push": [], **dict.fromkeys(VALUES), "stops_at": said.get("at")}
    found = {"refused"} if "at" in said else set()
    for member, key in (("fetch", "urls"), ("push", "push_urls")):
        for text in said.get(key, []):
            way = yield from route(case, bytes_of(text), bytes_of(text))
            report[member].append({**way, "rewritten": None, "same_host": None})
            found |= {*found_in(bytes_of(text), way)}
    return {**report, **{it: lossy(redacted(bytes_of(said[it]))) for it in VALUES if it in said}, "findings": [it for it in FOUND if it in found]}


def found_in(text, way):
    """The names of the findings in a text that Git connects with, for which a run may fail."""
    v = grammar.spells(text)
    report = {"settled": True, "agrees_with_git": True} if v is None else reported(v)
    is_used = way["transport"] is not None and way["transport"]["permission"] == "allowed"
    found = (way["dangers"], not report["settled"], v is None, not report["agrees_with_git"], not is_used)
    return [name for name, it in zip(FOUND, found) if it]


def names_of_remotes(entries):
    """The names of the remotes, in the order in which they first occur."""
    places = (it.place for it in entries if it.section.lower() == b"remote" and it.place)
    return [*dict.fromkeys(it for it in places if not it.startswith(b"/"))]


def fault(it):
    """The fault of an entry, in words."""
    if it.section.lower() == b"http" and it.place is not None:
        said = yield [{"call": "UrlPattern::parse_in", "text": text_of(it.place)}]
        if said != [True]:
            return "has no URL that Git takes: it is for no location"
    said = yield [{"call": "stops::stop_at", "config": text_of(listed([it]))}]
    return STOPS.get(said[0])
