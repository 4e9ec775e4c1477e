"""Plain second readings of paths: the components of the path of a URL, and the location of a path of a home folder.

The library splits texts at their marks. Here a path of a URL is read byte by byte, each byte in its role, and a path of files
by its segments with their starts and ends. Both are tried on random paths, the same each time, from which `cases` makes the
inputs of a call and its outcome. All texts are bytes here; `tests/tables.py` makes rows of them.
"""
import re

from second_reading import grammar, octets

# ---------------------------------------------------------------------------------------------------------------
# The components of the path of a URL

# The role of the bytes after a mark, by the role of the mark. In any other role it is an ordinary byte.
AFTER = {
    ("path", b"?"): "name", ("name", b"="): "value", ("name", b"&"): "name", ("value", b"&"): "name",
    ("path", b"#"): "fragment", ("name", b"#"): "fragment", ("value", b"#"): "fragment"}


def pieces(path):
    """The pieces of a path as they are spelled, each with its role: a mark ends one and begins the next."""
    found = [("path", b"")]
    for number in path:
        place, piece = found[-1]
        byte = bytes([number])
        if (place, byte) in AFTER:
            found.append((AFTER[place, byte], b""))
        else:
            found[-1] = (place, piece + byte)
    return found


def fields(found):
    """The names of a query, each with its value, as they are spelled. A field without a byte is left out."""
    names = []
    for (place, piece), (next_place, next_piece) in zip(found, [*found[1:], ("end", b"")]):
        if place == "name" and next_place == "value":
            names.append((piece, next_piece))
        elif place == "name" and piece:
            names.append((piece, b""))
    return names


def decoded(piece):
    """The piece with each escape replaced by its byte."""
    return re.sub(rb"%([0-9A-Fa-f]{2})", lambda escape: bytes([int(escape[1], 16)]), piece)


def components(path, is_spelled):
    """The components of a path; in an escaped path escapes represent bytes."""
    denoted = decoded if is_spelled else bytes

    def term(piece):
        text = denoted(piece.replace(b"+", b" "))
        return {"owned": text} if b"+" in piece else text

    found = pieces(path)
    outcome = {"path": denoted(found[0][1]) or b"/"}
    if any(place == "name" for place, _ in found):
        outcome["query"] = [[term(name), term(value)] for name, value in fields(found)]
    if found[-1][0] == "fragment":
        outcome["fragment"] = denoted(found[-1][1])
    return outcome


# ---------------------------------------------------------------------------------------------------------------
# Home folders and paths of files

def lossy(text):
    """The text, with U+FFFD for bytes that aren't UTF-8."""
    return text.decode("utf-8", "replace").encode()


def home_split(path):
    """The name of the user in whose home folder a path begins, empty for the current one, and the rest of the path, which
    begins with the root; None if it begins in none."""
    found = re.fullmatch(rb"/~([^/]*)/?(.*)", path, re.DOTALL)
    return found and (found[1], b"/" + lossy(found[2]))


def shell_path(path):
    """The path as a shell reads it."""
    found = home_split(path)
    return path if found is None else b"~" + found[0] + found[1]


def places(path):
    """The starts and ends of the components of a path. The root isn't one, and `.` only at the front."""
    found = [it.span() for it in re.finditer(rb"[^/]+", path)]
    return [(start, end) for start, end in found if start == 0 or path[start:end] != b"."]


def parent(path):
    """The front of a path above its last component; None if it has no component."""
    ends = [end for _, end in places(path)]
    if len(ends) < 2:
        return path[:path.startswith(b"/")] if ends else None
    return path[:ends[-2]]


def joined(folder, path):
    """A path joined to a folder."""
    if path.startswith(b"/"):
        return path
    return folder + path if folder[-1:] in (b"", b"/") else folder + b"/" + path


def below(path):
    """The components of a path below a folder: the root is left out, and a component that begins the path."""
    return b"/".join(path[start:end] for start, end in places(path) if start)


def expanded(name, path, home):
    """The location of a path below the home folder of the user of this name, if one is named: the current one has an empty name
    and this home folder, and others have theirs next to it."""
    if name is None:
        return path if octets.is_utf8(path) else {"error": "PathNotUtf8"}
    above = parent(home)
    if name and above is None:
        return {"error": "NoHome", "user": b"~" + name}
    folder = joined(above, lossy(name)) if name else home
    return joined(folder, below(path))


# ---------------------------------------------------------------------------------------------------------------
# Random paths

SEED = 0x9E37_79B9_7F4A_7C15
# The pieces of random paths of URLs: broken escapes and a byte outside ASCII follow the first 21.
PARTS = (b"/", b"?", b"#", b"&", b"=", b"+", b"a", b"4", b"%41", b"%2b", b"%2B", b"%26", b"%3d", b"%3F", b"%23", b"%20",
         b"%C3%B6", b"&&", b"=&", b"?&", b"b", b"%", b"%2", b"\xff")
WHOLE_PARTS = PARTS[:21]
# The bytes of random paths of files, including the two of `ö`, which aren't text separately.
BYTES = b"////..~~abc\xc3\xb6\xb6\xffd"


class Numbers:
    """Random numbers, the same ones each time: the high bits of a linear congruence over 64 bits."""

    def __init__(self, state):
        self.state = state % 2**64

    def below(self, bound):
        self.state = (self.state * 6_364_136_223_846_793_005 + 1_442_695_040_888_963_407) % 2**64
        return (self.state >> 33) % bound


def url_path(number):
    """The path of this number, of up to 16 pieces, and only of the whole ones if the number is even."""
    numbers = Numbers(number * SEED + 1)
    parts = PARTS if number % 2 else WHOLE_PARTS
    return b"".join(parts[numbers.below(len(parts))] for _ in range(number % 17))


def file_path(numbers):
    """A path of up to eleven bytes; half of them begin with `/~`."""
    front = b"/~" if numbers.below(2) == 0 else b""
    return front + bytes(BYTES[numbers.below(16)] for _ in range(numbers.below(10)))


def file_paths(number):
    """This many paths, each with a home folder, which is a text without the bytes outside ASCII."""
    numbers = Numbers(SEED)
    for _ in range(number):
        path = file_path(numbers)
        yield path, bytes(it for it in file_path(numbers) if it < 128)


# ---------------------------------------------------------------------------------------------------------------
# Calls over random paths

def web_location(path):
    """An HTTP location with this path, the text that it is read from, and whether the path is escaped: the reading of a URL
    with the path, or if that isn't a URL a location with the path and no escaped path."""
    url = b"http://h/" + path
    read = grammar.spells(url)
    if read is None:
        return {"scheme": "Http", "host": "h", "path": path}, path, False
    spelled = read.path if read.spelling is None else read.spelling
    return url, spelled, spelled != read.path


def component_cases(number):
    """HTTP locations and the components of their paths; enough of them have an escaped path, and enough have none."""
    found = [web_location(url_path(it)) for it in range(number)]
    spelled = sum(is_spelled for _, _, is_spelled in found)
    if not number < 5 * spelled < 4 * number:
        raise ValueError(f"{spelled} of {number} random paths have a spelling: too few or too many")
    return [({"url": url}, components(path, is_spelled)) for url, path, is_spelled in found]


def split_cases(number):
    for path, _ in file_paths(number):
        found = home_split(path)
        yield {"text": path}, [None, path] if found is None else [b"~" + found[0], found[1]]


def shell_cases(number):
    for path, _ in file_paths(number):
        yield {"path": path}, shell_path(path)


def expansion_cases(number):
    """The rests of paths, for the user in whose home folder they begin."""
    for path, home in file_paths(number):
        name, rest = home_split(path) or (None, path)
        user = {} if name is None else {"user": b"~" + name}
        yield {"path": rest, **user, "home": home}, expanded(name, rest, home)


CASES = {
    "Url::path_query_fragment": component_cases, "expand_path::parse": split_cases,
    "expand_path::for_shell": shell_cases, "expand_path::expand_path": expansion_cases}


def cases(call, number):
    """The inputs of a call and its outcome, for this many random paths."""
    if call not in CASES:
        raise ValueError(f"{call} has no plain reading")
    return CASES[call](number)
