"""What `explain` prints of a line as text: a heading, the line with its pieces named below it, and rows.

The layout is written from docs/EXPLAIN.md and from lines of `crates/explain/golden` that were written by hand; so are the words.
A line that would need words which no such line has raises `KeyError`. What is in neither was decided as the program does: which
brackets and colons are part of a host's piece, when a path's piece lacks its slash, that a tilde alone has nothing below it, that
curl's port follows its host, and that slashes at the end of a path make no row of helpers.
"""
import re

from second_reading import grammar, hidden
from second_reading.dangers import WORDS, dangers
from second_reading.explain import form, reported
from second_reading.explain_tables import NAMES
from second_reading.git_class import agrees_with_git
from second_reading.git_reads import git_reads
from second_reading.groups import host_name, is_own, other_hosts
from second_reading.hint_sentences import SENTENCES
from second_reading.plain_paths import shell_path
from second_reading.readers import git_host
from second_reading.seen import seen
from second_reading.shown_text import cells, columns, for_shell, quoted, shown
from second_reading.stored_run import object_of
from second_reading.web_plain import broken
from second_reading.writing import canonical_path, text

GROUPS = {
    "urls": "readers of URLs (RFC 3986), as Go and Python", "url_standard": "readers of the URL Standard (WHATWG), as Node and Rust",
    "made_urls": "readers that make a URL of the scp form, as gh and pip", "first_colon": "readers that cut at the first colon, as dulwich",
    "first_at": "readers that cut at the first @, as go-git",
    "digits_are_port": "readers that take digits after the colon for a port, as go-git",
    "four_numbers": "readers that end a host after four numbers, as Boost.URL"}
# The words of each doubt about a location of HTTP: the reader that may differ, and why.
PATH, HOST, NONE = "may read another path than curl: ", "may read another host than curl: ", "may refuse its text, or curl may: "
DOUBTS = {
    "PathControl": NONE + "the path has a control character", "PasswordControl": NONE + "the password has a control character",
    "UserControl": NONE + "the user has a control character", "Fragment": PATH + "the path has a #",
    "DotSegment": PATH + "the path has a segment . or ..", "HostByte": HOST + "the host has an escape or an unusual character",
    "HostColon": "reads another host than curl: the host ends in a colon",
    # RFC 7617: a user has no colon, and the first one ends it.
    "UserColon": "sends a user that has a colon, and the server takes the rest of it for the password"}
# Why Git's reading isn't reported.
UNREAD = {
    "Refused": "refuses its text", "Option": "takes its text for an option", "ByteZero": "gets only the bytes of its text before byte 0",
    "Password": "reads other parts in its text, which has a password"}
HELPER = "passes its text to a remote helper, whose reading was not compared"
LABEL = 12


# ---- the pieces of a line

def pieces(line, v):
    """The named pieces of a line: of each the name, and where it begins and ends. What is empty isn't named."""
    found = hidden.parts(line, v)
    names = {"scheme": "helper", "path": "address"} if form(v) == "remote_helper" else {}
    of_path = path_pieces(line, v, *found.pop("path"))
    of_host = host_pieces(line, v, *found.pop("host", (0, 0)))
    every = [*((name, *place) for name, place in found.items()), *of_host, *of_path]
    every = sorted(((names.get(name, name), begin, end) for name, begin, end in every if begin < end), key=lambda it: it[1])
    return [apart(line, it, {end for _, _, end in every}) for it in every]


def apart(line, piece, ends):
    """The piece; a path directly after another piece has no slash, unless the slash is the whole path."""
    name, begin, end = piece
    return name, begin + (name == "path" and begin in ends and line[begin:begin + 1] == b"/" and end - begin > 1), end


def host_pieces(line, v, begin, end):
    """Host and port. For Secure Shell the piece excludes brackets around the host and a colon after it,
    unless they are escapes."""
    named = line[begin:end]
    port = len(named) - named.rindex(b":") - 1 if v.port is not None else 0
    front = end - port - (v.port is not None)
    if v.port is None and v.scheme == ("Ssh",) and named.endswith(b":") and (named.startswith((b"[", b"%5B")) or not v.host.endswith(b":")):
        front -= 1
    if v.scheme == ("Ssh",) and named.startswith(b"[") and line[front - 1:front] == b"]":
        begin, front = begin + 1, front - 1
    return [("host", begin, front), ("port", end - port, end)]


def path_pieces(line, v, begin, end):
    """The path, and of HTTP query and fragment."""
    if v.flag:
        return [("path", begin, end)]
    shape = rb"([^?#]*)(?:\?([^#]*))?(?:#(.*))?" if v.scheme in grammar.HTTP_SCHEMES else rb"(.*)"
    cut = re.compile(shape, re.S).fullmatch(line, begin, end)
    return [(name, *cut.span(n)) for n, name in enumerate(("path", "query", "fragment")[:cut.re.groups], 1)]


def named_below(line, v):
    """The rows below a line: one under each piece, and the names, each in the first row in which it ends
    before the next name or bar."""
    found = [(name, *columns(line, begin, end)) for name, begin, end in pieces(line, v)]
    yield placed((begin, "-" * (end - begin)) for _, begin, end in found)
    while found:
        row, left, following = [], [], None
        for name, begin, end in reversed(found):
            fits = following is None or begin + len(name) < following
            row, following = [(begin, name if fits else "|"), *row], begin
            left = left if fits else [(name, begin, end), *left]
        yield placed(row)
        found = left


def placed(texts):
    """A row with each text in its column."""
    row = ""
    for begin, it in texts:
        row = row.ljust(begin) + it
    return row


def marked(line, place):
    """The row that marks a fault: all of a hidden piece, if a part of it is wrong."""
    begin, end = columns(line, place["at"], place["at"] + place["len"])
    return " " * begin + "^" + "~" * (end - begin - 1)


# ---- rows of Git and of other readers

def value(it):
    """The value of a field among words."""
    return "none" if it is None else str(it) if isinstance(it, int) else quoted(it)


def instead_of(name, here, there):
    return (f"no {name}" if there is None else f"the {name} {value(there)}") + f" in place of {value(here)}"


def read_by_git(v):
    """The row of Git's reading of the text of a location."""
    it, is_web = reported(v), v.scheme in grammar.HTTP_SCHEMES
    if it["agrees_with_git"]:
        return "reads the same in its text" + (", as curl does" if is_web else "")
    if it["git_reads"] is None or it["git_reads"]["why"] == "RemoteHelper":
        return HELPER
    if it["git_reads"]["same"]:
        return "reads the same in its text, which isn't promised"
    why = it["git_reads"]["why"]
    if why == "LastLabel":
        return HOST + last_label(v)
    if why == "HomeOrHere":
        return home_or_here(v)
    if why is not None:
        return DOUBTS[why] if is_web else UNREAD[why]
    [found] = git_reads(text(v))
    here = (grammar.as_str(v.scheme), v.user, v.host or None, v.port, v.path)
    pairs = zip(("protocol", "user", "host", "port", "path"), here, (found.protocol.encode(), found.user, found.host, found.port, found.path))
    return "reads " + ", ".join(instead_of(name, own, other) for name, own, other in pairs if own != other) + " in its text"


def last_label(v):
    if v.host.endswith(b"."):
        return "the host ends in a dot"
    may_be_number = "host: a number only as four decimal numbers" in broken(v)
    return "the host may be a number" if may_be_number else "the last label of the host begins with - or _"


def home_or_here(v):
    user, below = re.fullmatch(rb"(?s)~([^/]*)(.*)", v.path).groups()
    whose = f"the home of {quoted(user)}" if user else "$HOME"
    return f"clone reads {quoted(v.path)} in the current folder, fetch and push {quoted(below)} below {whose}"


def read_over_web(v):
    """The rows of the readings of Git's credential code and curl, if these may differ."""
    if v.scheme not in grammar.HTTP_SCHEMES or agrees_with_git(v):
        return
    it = reported(v)
    asked, reads = it["credential"], it["curl"]
    if asked is None:
        raise KeyError("no line has words for helpers that are asked for nothing")
    named = v.host if v.port is None else b"%b:%d" % (v.host, v.port)
    if asked["host"].encode() != named:
        yield "helpers", f"are asked for the host {quoted(asked['host'].encode())}"
    path = (asked["path"] or "").encode()
    if path != v.path.removeprefix(b"/").rstrip(b"/"):
        yield "helpers", f"are asked for the path {quoted(path)}"
    if reads is None:
        yield "curl", "refuses its text"
        return
    if v.host.endswith(b"]:"):
        raise KeyError("no line has words for brackets with a colon after them")
    if reads["host"].encode() != v.host:
        port = "" if v.port is None else f", port {reads['port']}"
        yield "curl", f"connects to the host {quoted(reads['host'].encode())}{port}"
    if reads["path"].encode() != canonical_path(v):
        yield "curl", f"asks for the path {quoted(reads['path'].encode())}"


def read_by_others(line, w):
    """The rows of the hosts that groups of readers take, beside that to which Git connects, if that is the location's."""
    v, git, found = grammar.spells(line), git_host(line), {}
    for group, host in other_hosts(line, git.host if v is None and git else v and v.host).items() if v or git else []:
        found.setdefault(host_name(host), (host, []))[1].append(GROUPS[group])
    for host, groups in found.values():
        yield "readers", f"{read_here(line, w)}; {', and '.join(groups)}, take {quoted(host_shown(host, line))}"


def host_shown(host, line):
    """The host, or a word where it isn't in a part of the line that is shown."""
    return host if any(host in it for it in hidden.shown_parts(line)) else hidden.WORD


def read_here(line, w):
    git = git_host(line)
    if w is None:
        return "Git opens a local path" if git.host is None else f"Git connects to {quoted(host_shown(git.host, line))}"
    if not w.host:
        return "it has no host here" if git is None or git.host is not None else "Git opens a local path"
    front = "Git connects to" if git is not None and git.host is not None and is_own(w.host, git.host) else "the host here is"
    return f"{front} {quoted(w.host)}"


# ---- rows of a location, of a refused line and of hints

def rows_of_parts(v):
    it, is_web = reported(v), v.scheme in grammar.HTTP_SCHEMES
    yield "scheme", shown(grammar.as_str(v.scheme))
    if v.user is not None:
        yield "user", quoted(v.user)
    if v.password is not None:
        yield "password", "redacted"
    if v.host is not None:
        yield "host", quoted(v.host)
    if it["port_or_default"] is not None:
        yield "port", f"{it['port_or_default']}" + (" by default" if v.port is None else "")
    yield "path", quoted(v.path)
    if it["original_path"].encode() != v.path and it["path_is_utf8"]:
        yield "spelled", quoted(it["original_path"].encode())
    yield from rows_of_components(it["components"]) if is_web else ()
    if it["home"]:
        user = it["home"]["user"]
        whose = "the current user" if user is None else quoted(user.encode())
        yield "home", f"of {whose}, below it {quoted(it['home']['below'].encode())}"
    if it["shell_path"] is not None:
        yield "to a shell", for_shell(shell_path(v.path))


def rows_of_components(it):
    if it["query"] is not None or it["fragment"] is not None:
        yield "path alone", quoted(it["path"].encode())
    for field in it["query"] or []:
        yield "query", f"{quoted(field['name'].encode())} is {quoted(field['value'].encode())}"
    if it["fragment"] is not None:
        yield "fragment", quoted(it["fragment"].encode())


def read_in_refused(line, it):
    """The row of Git's reading of a refused line."""
    found = it["git_reads"]
    if found is None:
        return
    if found["why"] is not None:
        yield "git", {"Refused": "refuses it too"}[found["why"]]
    elif found["host"] is None:
        raise KeyError("no line has words for a place without a host")
    else:
        port = "" if found["port"] is None else f", port {found['port']}"
        yield "git", f"connects to {quoted([*git_reads(line)][0].host)}{port}, all the same"


def rows_of_hints(it):
    for name in it["hints"]:
        url = f" {quoted(it['readers']['instead'].encode())}" if name == "write_instead" else ""
        yield "hint", SENTENCES[name].replace("`", "") + url


def heading(it, v):
    """The first words of an answer, about the reading of the line itself."""
    front = f"refused: {it['refusal']['words']}" if v is None else f"{NAMES[form(v)]}, {verdict(it)}"
    found = [WORDS[name] for name in it["dangers"]]
    return front + (f"; danger: {', '.join(found)}" if found else "")


def verdict(it):
    if it["location"] is None:
        return f"withheld: {it['refusal']['words']}"
    return "settled" if it["location"]["settled"] else f"not settled: {it['location']['reread']['words']}"


def below(line, other, it):
    """The rows below a line, and those with names: the reading of the line as it is shown, or a fault; none
    if that is withheld."""
    w = None if other is None else grammar.spells(other)
    if w is not None:
        own = text(w if w.password is None else w._replace(password=hidden.WORD))
        front = [] if own == hidden.redacted(other) else [("text", quoted(own))]
        rows = [*front, ("git", read_by_git(w)), *read_over_web(w), *read_by_others(line, w), *rows_of_parts(w)]
        return [*named_below(other, w)], rows
    if it["refusal"]["error"] == "Withheld":
        return [], []
    return [marked(line, it["refusal"])] if line else [], [*read_in_refused(line, it["refusal"]), *read_by_others(line, None)]


def answer(number, line):
    """The printed answer to a line. For a location it has the reading of the line as it is shown."""
    v, other, it = grammar.spells(line), seen(line), object_of(number, line)
    marks, rows = below(line, other, it)
    shape = [] if line == b"" else ["".join(piece for _, _, piece in cells(line)), *marks]
    shape += [f"{name:{LABEL}}{words}" for name, words in [*rows, *rows_of_hints(it)]]
    return "".join(f"{it}\n" for it in [f"line {number}: {heading(it, v)}", *(f"    {row}" for row in shape)])
