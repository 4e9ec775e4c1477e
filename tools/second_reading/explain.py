"""The report of the program `explain` on a location or a refused line, in the form of its JSON.

The conditions on HTTP of docs/GIT.md are in `web_plain.py`. The readings are those of `git_reads.py` for Git, of `web_defined.py` for
Git's credential code, and of `web_reads.py` for libcurl.
"""
from second_reading import (
    errors, fault_places, grammar, hidden, laws, octets, plain_paths, records, settled_class, writing)
from second_reading.git_class import agrees_with_git
from second_reading.git_reads import Reading, git_reads, unread
from second_reading.shown_text import quoted
from second_reading.web_defined import credential_readings
from second_reading.web_plain import broken
from web_reads import curl_reads

# The reasons why not all readers of HTTP are known to read the same, in this order, and the conditions that a location then
# misses.
DOUBTS = {
    "NotSettled": {"the location is settled"},
    "Zone": {"host: no zone"},
    "HostColon": {"host: no `:` after it"},
    "HostByte": {"host: lower case, digits, `-`, `.`, `_`, or in brackets"},
    "LastLabel": {"host: a number only as four decimal numbers", "host: no last label that is empty or begins with `-` or `_`"},
    "UserControl": {"user: no byte 0, line feed, carriage return", "user: no other control character"},
    "UserColon": {"user: no `:`"},
    "PasswordControl": {"password: no byte 0, line feed, carriage return", "password: no other control character"},
    "PasswordColon": {"password: no `:` beside what is written as an escape"},
    "PathStart": {"path: begins with `/`"},
    "PathSlashes": {"path: no second `/` at its front", "path: no second `/` at its front as an escape"},
    "PathControl": {"path: no byte 0, line feed, carriage return", "path: no control character that is written as it is",
                    "path: no other control character"},
    "Fragment": {"path: no `#`", "path: no `#` as an escape"},
    "DotSegment": {"path: no segment `.` or `..`", "path: no such segment as an escape, or in a query"},
    "EmptyQuery": {"path: something after a `?`", "path: no other `?` at its end, and no escape of one"},
    "PathByte": {"path: the bytes of a URI"},
    "PathColon": {"path: no `:` beside an escape"},
}

FORMS = {"Ext": "remote_helper", "Helper": "remote_helper"}
PORTS = {"Http": 80, "Https": 443, "Ssh": 22, "Git": 9418}
KINDS = {"Url": "URL", "Scp": "scp form"}
FAULTS = {"NoScheme": "no valid scheme", "BadPort": "an invalid port", "HostRequired": "no host where one is required",
          "BadCharacter": "a character or an escape that is not allowed"}
FIELDS = ("scheme", "user", "password", "host", "serialize_alternative_form", "port", "path")


def lossy(t):
    return None if t is None else t.decode("utf-8", "replace")


def form(v):
    if v.scheme[0] in FORMS:
        return FORMS[v.scheme[0]]
    return {"File": "local", "Ssh": "scp"}.get(v.scheme[0], "url") if v.flag else "url"


def home_split(path):
    """The user, empty for the current one, and the path below the home folder; None if the path has no user."""
    found = plain_paths.home_split(path)
    return found and (lossy(found[0]), lossy(found[1]))


def is_of_files(v):
    return v.scheme[0] in ("File", "Ssh", "Git")


def home(v):
    """Paths of Secure Shell and Git are kept without the `/` before `~`. Git looks for no home folder for `/~` on this machine."""
    if v.scheme[0] not in ("Ssh", "Git"):
        return None
    found = home_split(b"/" + v.path if v.path.startswith(b"~") else v.path)
    return found and {"user": found[0] or None, "below": found[1]}


def shell_path(v):
    if not is_of_files(v):
        return None
    return lossy(plain_paths.shell_path(v.path))


def judged(t):
    return "absent" if t is None else "dangerous" if t.startswith(b"-") else "usable"


def path_judged(path):
    return "usable" if path.startswith(b"/") and not path.startswith(b"/-") else "withheld"


def components(v):
    path, query, fragment = records.parts(v)
    fields = None if query is None else [{"name": lossy(name), "value": lossy(value)} for name, value in query]
    return {"path": lossy(path), "query": fields, "fragment": lossy(fragment)}


def refusal(t):
    """The error of a text that isn't a line: it has no place."""
    name, kind, fault = errors.refusal(t)
    words = {"EmptyLocal": "the location is empty",
             "TooLong": f"the scheme or the authority of the URL is longer than 1024 bytes, in a text of {len(t)} bytes",
             "MissingPath": f"the {KINDS.get(kind)} has no path", "NotUtf8": f"the {KINDS.get(kind)} is not UTF-8",
             "BadUrl": f"the {KINDS.get(kind)} has {FAULTS.get(fault)}"}[name]
    return {"error": name, "kind": kind and kind.lower(), "fault": fault, "at": None, "len": None, "reason": None, "words": words,
            "git_reads": None}


def refusal_of_line(t):
    """The error of a line, with the place and the words of its fault."""
    place = fault_places.place(t)
    return {**refusal(t), **place._asdict(), "words": fault_places.SENTENCES[place.reason], "git_reads": read_in_refused(t)}


def may_hold_secret(t, user, host, path):
    """Whether a part of a refused line, or of Git's decoded reading of it, may be a secret."""
    return bool(b":" in (user or b"") or b"@" in (host or b"") or any(hidden.places(it or b"") for it in (t, user, host, path)))


def read_in_refused(t):
    """Git's reading of a refused line, unless a remote helper gets it: none of it if a part may be a secret."""
    found = [*git_reads(t)]
    nothing: tuple = (None,) * 6
    protocol, user, _, host, port, path = found[0] if found else nothing
    why = None if found else unread(t)
    if why == "RemoteHelper":
        return None
    if found and may_hold_secret(t, user, host, path):
        protocol = user = host = port = path = None
        why = "Password"
    return {"protocol": protocol, "user": lossy(user), "host": lossy(host), "port": port, "path": lossy(path), "same": False, "why": why}


def field_texts(v):
    scheme = ("helper " if v.scheme[0] in FORMS else "") + lossy(grammar.as_str(v.scheme))
    password = None if v.password is None else "redacted"
    return scheme, lossy(v.user), password, lossy(v.host), str(v.flag).lower(), None if v.port is None else str(v.port), lossy(v.path)


def reread(v):
    if settled_class.settled(v):
        return None
    w = grammar.spells(writing.text(v))
    if w is None:
        found = refusal(writing.text(v))
        return {"difference": None, "refusal": found, "words": f"its own text is refused: {found['words']}"}
    assert v.password == w.password
    pairs = [it for it in zip(FIELDS, field_texts(v), field_texts(w)) if it[1] != it[2]]
    if not pairs:
        assert laws.same_fields(v, w)
        marked = [f": the {name} has a colon or a bracket" for name in ("host", "user") if {*b":[]"} & {*(getattr(v, name) or b"")}]
        words = "its own text is read with the same fields, which isn't promised" + "".join(marked[:1])
        return {"difference": None, "refusal": None, "words": words}
    field, here, instead = pairs[0]
    read = f"no {field}" if instead is None else f"the {field} {quoted(instead.encode())}"
    words = f"its own text is read with {read} in place of {'none' if here is None else quoted(here.encode())}"
    return {"difference": {"field": field, "here": here, "instead": instead}, "refusal": None, "words": words}


def read_by_git(v):
    """Git's reading of the text of the location by the second reading of its definition, unless that is known to be the same.

    A reading with a password isn't reported. For HTTP the possible differences are reported.
    """
    text, is_web = writing.text(v), v.scheme in grammar.HTTP_SCHEMES
    assert not is_web or agrees_with_git(v) == (not broken(v)), v
    if not (is_web or is_of_files(v)) or agrees_with_git(v) or isinstance(text, writing.Fault):
        return None
    if is_web:
        missed = {*broken(v)}
        why = next(name for name, conditions in DOUBTS.items() if conditions & missed)
        return {**dict.fromkeys(["protocol", "user", "host", "port", "path"]), "same": False, "why": why}
    found = [*git_reads(text)]
    own = Reading(v.scheme[0].lower(), v.user, v.password, v.host or None, v.port, v.path)
    same, why = found == [own], None if found else unread(text)
    if found and v.password is not None:
        found, why = [], "Password"
    nothing: tuple = (None,) * 6
    protocol, user, _, host, port, path = found[0] if found else nothing
    return {"protocol": protocol, "user": lossy(user), "host": lossy(host), "port": port, "path": lossy(path), "same": same, "why": why}


def credential(v):
    """The request of Git's credential code for the text of an HTTP location, None if Git refuses it."""
    text = writing.text(v)
    if v.scheme not in grammar.HTTP_SCHEMES or isinstance(text, writing.Fault):
        return None
    names = ("protocol", "user", "host", "path")
    found = [{name: lossy(getattr(it, name)) for name in names} for it in credential_readings(text)]
    return found[0] if found else None


def curl(v):
    """The connection and the request of curl for the text of an HTTP location; None if it refuses it, and for byte 0."""
    text = writing.text(v)
    if v.scheme not in grammar.HTTP_SCHEMES or isinstance(text, writing.Fault) or b"\0" in text:
        return None
    found = curl_reads(text)
    return found and {"host": lossy(found.host), "port": found.port and int(found.port), "path": lossy(found.path)}


# The reason why nothing is reported for a line that is read, but whose parts may be secrets.
WITHHELD = {"error": "Withheld", "kind": None, "fault": None, "at": None, "len": None, "reason": None,
            "words": "what it is read as may show a secret", "git_reads": None}


def shown_line(line):
    """The line with the word instead of each possible secret."""
    return lossy(hidden.redacted(line))


def reported(v):
    spelled = v.path if writing.matching(v) is None else v.spelling
    return {
        "form": form(v), "scheme": lossy(grammar.as_str(v.scheme)), "user": lossy(v.user),
        "password": None if v.password is None else "redacted", "host": lossy(v.host), "port": v.port,
        "port_or_default": PORTS.get(v.scheme[0]) if v.port is None else v.port, "path": lossy(v.path),
        "path_is_utf8": octets.is_utf8(v.path), "original_path": lossy(spelled), "components": components(v), "home": home(v),
        "shell_path": shell_path(v), "arguments": {"user": judged(v.user), "host": judged(v.host), "path": path_judged(v.path)},
        "text": writing.display(v), "settled": settled_class.settled(v), "agrees_with_git": agrees_with_git(v),
        "git_reads": read_by_git(v), "credential": credential(v), "curl": curl(v), "reread": reread(v)}
