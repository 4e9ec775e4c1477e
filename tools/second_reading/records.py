"""The components of a path of HTTP, and locations restored from records of the older form."""
from second_reading.grammar import HTTP_SCHEMES
from second_reading.octets import PATH_SET, dec, enc, is_escape
from second_reading.writing import matching


def parts(v):
    """The path, the pairs or None, and the fragment or None."""
    if v.scheme not in HTTP_SCHEMES:
        return v.path, None, None
    whole = v.path if matching(v) is None else matching(v)
    decoded = (lambda t: t) if matching(v) is None else dec
    body, mark, fragment = whole.partition(b"#")
    fragment = decoded(fragment) if mark else None
    path, mark, query = body.partition(b"?")
    pairs = None
    if mark:
        fields = [f.partition(b"=") for f in query.split(b"&") if f != b""]
        pairs = [(decoded(n.replace(b"+", b" ")), decoded(x.replace(b"+", b" "))) for n, _, x in fields]
    return decoded(path) or b"/", pairs, fragment


def migrated(v):
    """A stored record brought to this form: if path and escaped path are alike, it is of the old form."""
    if v.spelling is None or v.spelling != v.path:
        return v
    out, i = b"", 0
    while i < len(v.path):
        step = 3 if is_escape(v.path[i:i + 3]) else 1
        piece = v.path[i:i + step]
        out += piece if step == 3 else enc(PATH_SET, piece)
        i += step
    return v._replace(path=dec(v.path), spelling=out)
