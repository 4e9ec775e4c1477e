"""The results of the second reading of this package, and of `fault_places` for places, for rows of the tables in
`vectors/`.

A row whose expectation is from `oracle` is computed again here, so that each such expectation is checked. The table of calls
names those that the second reading knows, each with the function that computes the outcome of a row.
"""
import json

from row_text import bytes_of, text_of
from second_reading import errors, fault_places, git_class, grammar, hosts, laws, line_answers, records, settled_class, writing


def scheme(reported):
    """The scheme that a row names, as in `Http` or `Helper a`."""
    variant, mark, name = reported.partition(" ")
    return (variant, bytes_of(name)) if mark else (variant,)


def reported_scheme(of):
    return text_of(b" ".join([of[0].encode(), *of[1:]]))


def location(reported):
    """The location of a row: the reading of a text, or the given fields."""
    if isinstance(reported, str):
        found = grammar.spells(bytes_of(reported))
        if found is None:
            raise ValueError(f"{reported!r} is refused by the second reading")
        return found
    text = {name: bytes_of(it) for name, it in reported.items() if isinstance(it, str)}
    return grammar.location(
        scheme(reported["scheme"]), text.get("path", b""), reported.get("alternative", False), text.get("user"),
        text.get("password"), text.get("host"), reported.get("port"), text.get("spelling"))


def reported_location(of):
    """A location in the form of rows: the fields that are present, and the escaped path if it differs from the path."""
    return reported_parts(of, None if writing.matching(of) == of.path else writing.matching(of))


def reported_parts(of, spelling):
    """The fields that are present, with this escaped path."""
    parts = {"scheme": reported_scheme(of.scheme), "user": of.user, "password": of.password, "host": of.host,
             "port": of.port, "alternative": of.flag or None, "path": of.path, "spelling": spelling}
    return {name: text_of(it) if isinstance(it, bytes) else it for name, it in parts.items() if it is not None}


def refused(given):
    """The error for bytes, the text that it keeps, and the place and the reason."""
    name, kind, fault = errors.refusal(given)
    place = fault_places.place(given)._asdict()
    if name == "TooLong":
        return {"error": name, "kept": text_of(errors.shown(given)), "total": len(given), **place}
    error = {"error": " ".join(it for it in (name, fault, kind) if it)}
    return {**error, **place} if kind is None else {**error, "kept": text_of(given), **place}


def read(given):
    found = grammar.spells(given)
    return refused(given) if found is None else reported_location(found)


def read_in(row):
    """The result of reading a text into a buffer; an error keeps nothing of the text."""
    given = bytes_of(row["text"])
    found = grammar.spells(given)
    if found is None:
        return {name: it for name, it in refused(given).items() if name not in ("kept", "total")}
    return {"error": "NoRoom"} if row.get("buffer", len(given)) < len(given) else record(found)


def refusal(given):
    """The refusal of bytes, by its members."""
    at, size, reason = fault_places.place(given)
    form = errors.refusal(given)[1] or ("Url" if given else "Local")
    return {"form": form, "reason": reason, "at": at, "len": size}


def words(given):
    return {"shown": fault_places.SENTENCES[fault_places.place(given).reason]}


def debug_of_refusal(given):
    members = ", ".join(f"{name}: {it}" for name, it in refusal(given).items())
    return {"shown": f"Refusal {{ {members} }}"}


def written(of, call=text_of):
    """The result of a call for the text of a location, or the reason why that has none."""
    text = writing.text(of)
    return {"error": f"Unwritable {text.name}"} if isinstance(text, writing.Fault) else call(text)


def write_to(of):
    text = written(of)
    return {"written": text} if isinstance(text, str) else {"written": "", "fault": text}


def original_path(of):
    spelling = writing.matching(of)
    return text_of(of.path if spelling is None else spelling)


def reread(of):
    """The reading of the text of a location; a settled one has to come back."""
    if settled_class.settled(of) and laws.comes_back(of) is None:
        raise ValueError(f"{reported_location(of)} is settled, and its text isn't read as the same")
    return written(of, read)


def from_parts(parts):
    """The reading of the text of fields; HTTP keeps the given path, unless that is empty, and no escaped path."""
    given = location({name: it for name, it in parts.items() if name != "spelling"})
    if given.scheme[0] == "Helper" and not grammar.is_helper_name(given.scheme[1]):
        return {"error": "HelperName", "kept": text_of(given.scheme[1])}
    made = reread(given)
    if given.scheme not in grammar.HTTP_SCHEMES or "error" in made:
        return made
    path = text_of(given.path) or made["path"]
    return {name: path if name == "path" else it for name, it in made.items() if name != "spelling"}


def record(of):
    """A location in the form of its record: with its retained escaped path, whether or not that still decodes to its path."""
    return reported_parts(of, of.spelling)


def json_again(text):
    """The record of the location that is restored from the JSON of a record, as JSON in the order of the record's members."""
    names = ["scheme", "user", "password", "host", "serialize_alternative_form", "port", "path", "path_with_percent_escapes"]
    reported = {name: json.loads(text).get(name) for name in names}
    path, spelling = (None if reported[it] is None else bytes(reported[it]) for it in names[-2:])
    back = records.migrated(grammar.location(None, path, False, spelling=spelling))
    path, spelling = list(back.path), None if back.spelling is None else list(back.spelling)
    return json.dumps({**reported, "path": path, "path_with_percent_escapes": spelling}, separators=(",", ":"), ensure_ascii=False)


def display(of):
    shown = writing.display(of)
    return {"shown": "", "failed": True} if shown is None else {"shown": shown}


def run(given):
    """The output of the program of lines, and its exit status."""
    answers = [line_answers.answer_line(it) for it in line_answers.lines_of(given)]
    outcome = all(it.startswith(b"settled\t") for it in answers)
    out = b"".join(it + b"\n" for it in answers)
    return {"outcome": outcome, "status": 0 if outcome else 1, "out": text_of(out)}


def over_text(call):
    return lambda row: call(bytes_of(row["text"]))


def over_url(call):
    return lambda row: call(location(row["url"]))


def over_scheme(call):
    return lambda row: call(scheme(row["scheme"]))


# The outcome of a row, by the name of its call and its style.
CALLS = {
    "parse::parse": over_text(read),
    "Url::from_text": over_text(read),
    "Url::from_bytes": over_text(read),
    "UrlRef::parse_in": read_in,
    "Url::to_bstring": over_url(written),
    "Url::text_of": over_url(written),
    "Url::write_to": over_url(write_to),
    "UrlRef::write_to": over_url(write_to),
    "Url::text_len": over_url(lambda url: written(url, len)),
    "UrlRef::text_len": over_url(lambda url: written(url, len)),
    "Url::original_path": over_url(original_path),
    "UrlRef::original_path": over_url(original_path),
    "Url::as_ref": over_url(record),
    "Url::clone": over_url(reported_location),
    "Url::with_request_alternate_form": lambda row: reported_location(location(row["url"])._replace(flag=row["alternative"])),
    "Url::path_is_root": over_url(lambda url: url.path == b"/"),
    "UrlRef::path_is_root": over_url(lambda url: url.path == b"/"),
    "Url::to_stored": over_url(record),
    "Url::from_stored": lambda row: reported_location(records.migrated(location(row["record"]))),
    "StoredUrl:again": lambda row: json_again(row["json"]),
    "Url::is_settled": over_url(settled_class.settled),
    "UrlRef::is_settled": over_url(settled_class.settled),
    "Url::agrees_with_git": over_url(git_class.agrees_with_git),
    "crate::agrees_with_git": over_url(git_class.agrees_with_git),
    "Url::reread": over_url(reread),
    "Url::from_parts": lambda row: from_parts(row["record"]),
    "Url:fmt": over_url(display),
    "UrlRef:fmt": over_url(display),
    "Scheme::from_text": over_text(lambda text: reported_scheme(grammar.scheme_of(text))),
    "Scheme::as_str": over_scheme(lambda it: text_of(grammar.as_str(it))),
    "SchemeRef::as_str": over_scheme(lambda it: text_of(grammar.as_str(it))),
    "Scheme::as_ref": over_scheme(reported_scheme),
    "Scheme:fmt": over_scheme(lambda it: {"shown": text_of(grammar.as_str(it))}),
    "ipv6::is_ipv6": over_text(hosts.ip6),
    "Error::refusal": over_text(refusal),
    "Refusal::fault": over_text(lambda text: errors.refusal(text)[2]),
    "Refusal:fmt": over_text(words),
    "Refusal:fmt{:?}": over_text(debug_of_refusal),
    "ParseError:fmt": over_text(words),
    "ParseError:fmt{:?}": over_text(lambda text: {"shown": f"Refused({debug_of_refusal(text)['shown']})"}),
    "Reason::kind": over_text(lambda text: " ".join(it for it in errors.refusal(text)[::2] if it)),
    "Reason::name": over_text(lambda text: fault_places.place(text).reason),
    "Reason::words": over_text(lambda text: words(text)["shown"]),
    "Reason:fmt": over_text(words),
    "Reason:fmt{:?}": over_text(lambda text: {"shown": fault_places.place(text).reason}),
    "lines::run": over_text(run),
}


def outcome(members):
    """The result of the second reading for a row of these members."""
    name = members["call"] + members.get("style", "")
    if name not in CALLS:
        raise ValueError(f"the second reading knows nothing of {name}")
    return CALLS[name](members)


def recomputed_fault(row):
    """The fault of a row by the second reading, if there is one."""
    try:
        given = outcome(row.members)
    except ValueError as error:
        return f"{row.place}: {error}"
    if json.dumps(given, sort_keys=True) == json.dumps(row.expected, sort_keys=True):
        return None
    return f"{row.place}: {row.order()}\n  expected {json.dumps(row.expected)}\n  oracle   {json.dumps(given)}"
