"""The named pieces of a line in the text layout of `explain`, and whether they are those of a reading."""
import re
import unicodedata

from second_reading import explain, grammar, octets, records

ROW = re.compile(r"    (text|git) {8,9}\S")
ESCAPE = re.compile(rb"\\(\\|0|t|n|r|x[0-9a-f]{2}|u\{[0-9a-f]+\})")
PLAIN = {"\\": b"\\", "0": b"\0", "t": b"\t", "n": b"\n", "r": b"\r"}


def unescaped(text):
    """The bytes that are displayed so."""
    def byte(found):
        it = found[1].decode()
        return PLAIN.get(it) or (bytes([int(it[1:], 16)]) if it[0] == "x" else chr(int(it[2:-1], 16)).encode())

    return ESCAPE.sub(byte, text.encode())


def columns(text):
    """The characters by their columns: after a wide one a control character, with which no line is shown."""
    return "".join(it + "\x00" if unicodedata.east_asian_width(it) in "WF" else it for it in text)


def runs(row, places):
    """The starts and ends of the lines under pieces: two that touch, the second of one column, differ by their names."""
    for run in re.finditer("-+", row):
        cuts = [run.start(), *(it for it in sorted(places) if run.start() < it < run.end()), run.end()]
        yield from zip(cuts, cuts[1:])


def named(answer):
    """The named pieces of a line in the text layout: the bytes of each."""
    rows = [it[4:] for it in answer.split("\n")[1:]]
    shown, below = columns(rows[0]), rows[1:]
    if not re.fullmatch(r"[ -]*-", below[0]):
        return {}
    end = next(n for n, it in enumerate(below) if ROW.match("    " + it))
    places = {found.start(): found[0] for row in below[1:end] for found in re.finditer(r"[a-z]+", row)}
    found, after = {}, 0
    for begin, end in runs(below[0], places):
        front = begin - (places[begin] == "path" and begin == after + 1 and shown[after] == "/")
        found[places[begin]], after = unescaped(shown[front:end].replace("\x00", "")), end
    return found


def is_host(piece, decoded, host):
    """Whether the piece is the host, ignoring case, unchanged or decoded: escaped brackets and an escaped colon are removed
    too.

    The colon after an escaped bracket stays, but is not in the piece.
    """
    colonless = decoded.removesuffix(b":")
    inner = colonless[1:-1] if colonless.startswith(b"[") and colonless.endswith(b"]") else colonless
    with_colon = decoded + b":" * decoded.startswith(b"[")
    return (host or b"").lower() in (it.lower() for it in (piece, decoded, colonless, inner, with_colon))


def is_of_fields(v, found, line):
    """Whether the pieces match the reading. After an HTTP path they are the library's components."""
    form = explain.form(v)
    if form == "remote_helper":
        return found.get("address", b"") == v.path and found.get("helper", grammar.as_str(v.scheme)) == grammar.as_str(v.scheme)
    if form == "local":
        return found == {"path": line}
    is_web, decoded = v.scheme in grammar.HTTP_SCHEMES, octets.dec if form == "url" and v.scheme[0] != "File" else bytes
    host, path = found.get("host", b""), decoded(found.get("path", b""))
    wanted, _, fragment = records.parts(v) if is_web else (v.path, None, None)
    return (decoded(found.get("user", b"")) == (v.user or b"") and found.get("password") == (v.password and b"redacted")
            and is_host(host, host if is_web else decoded(host), v.host) and found.get("port", b"").lstrip(b"0") == (b"%d" % v.port if v.port else b"")
            and (path == wanted or path == b"/" + wanted or (is_web and not path and wanted == b"/"))
            and decoded(found.get("fragment", b"")) == (fragment or b""))
