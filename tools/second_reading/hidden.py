"""The parts of a text that `explain` hides, and the places of the parts of a line that is read as a location.

It is written from the words of `secrets` in docs/reference/git_audit.md, not from the code.
"""
import re

from second_reading import grammar

WORD = b"redacted"
FRONTS = (b"ghp_", b"gho_", b"ghu_", b"ghs_", b"ghr_", b"github_pat_", b"glpat-", b"gldt-", b"glrt-", b"glcbt-", b"glptt-", b"glft-", b"glimt-", b"glagent-",
          b"gloas-", b"glsoat-", b"ATBB", b"ATCTT3")
COLON, AT, RUN = re.compile(rb":|%3[Aa]"), re.compile(rb"@|%40"), re.compile(rb"[0-9A-Za-z_-]+")


def tokens(text, begin=0):
    """The places of words that are tokens."""
    return [(begin + it.start(), begin + it.end()) for it in RUN.finditer(text) if len(it[0]) >= 24 and it[0].startswith(FRONTS)]


def last_at(text, begin):
    return max((it.start() for it in AT.finditer(text, begin)), default=None)


def password(text, begin):
    """The place of a possible password in a text that begins there and in which no path starts."""
    colon = COLON.search(text)
    at = colon and last_at(text, colon.end())
    return [] if at is None or at == colon.end() else [(begin + colon.end(), begin + at)]


def runs(starts, text, begin):
    """The texts between bytes at which a path may start, with their offsets."""
    return [(it[0], begin + it.start()) for it in re.finditer(b"[^%s]+" % starts, text, re.S)]


def wide(starts, text):
    """The start and the end of a password that may have a `/` in it."""
    begin = text.find(b"://") + 3
    authority = re.split(b"[%s]" % starts, text[begin:])[0]
    colon = COLON.search(authority)
    if begin < 3 or colon is None or re.match(rb"\[.*\]", authority, re.S) or re.fullmatch(b"[0-9]*", authority[colon.end():]):
        return None
    if AT.search(authority, colon.end()):
        return None
    at = last_at(text, begin + colon.end())
    return at and (begin + colon.end(), at)


def places(text):
    """The places of all hidden parts, in their order."""
    front = text.partition(b"::")[0]
    skipped = len(front) + 2 if b"::" in text and grammar.is_helper_name(front) else 0
    url = text[skipped:]
    starts = b"/?#" if url.startswith((b"http://", b"https://")) else b"/"
    found = wide(starts, url) or (len(url), len(url))
    secrets = [it for run, begin in runs(starts, url[:found[0]], skipped) for it in password(run, begin)]
    secrets += [(begin, begin + len(run)) for run, begin in runs(starts, url[found[0]:found[1]], skipped + found[0])]
    # Tokens are looked for in the rest.
    ends = [0, skipped, *(end for place in secrets for end in place), len(text)]
    rest = [(0, skipped), *zip([skipped, *(end for _, end in secrets)], [*(begin for begin, _ in secrets), len(text)])]
    assert ends == sorted(ends)
    return sorted({*secrets, *(it for begin, end in rest for it in tokens(text[begin:end], begin))})


def redacted(text):
    """The text with the word instead of each secret."""
    shown, end = b"", 0
    for begin, after in places(text):
        shown, end = shown + text[end:begin] + WORD, after
    return shown + text[end:]


def shown_parts(text):
    """The parts of a text between its secrets."""
    ends = [0, *(end for place in places(text) for end in place), len(text)]
    return [text[begin:end] for begin, end in zip(ends[::2], ends[1::2])]


def moved(text, place):
    """The shown position of a place of the text; None inside a secret."""
    if any(begin < place < end for begin, end in places(text)):
        return None
    return len(redacted(text[:place])) if place == len(text) else place + sum(len(WORD) - (end - begin) for begin, end in places(text) if end <= place)


def parts(line, v):
    """The places of the parts of a location, the port with the host."""
    if grammar.spells_helper(line):
        name = line.index(b"::")
        return {"scheme": (0, name), "path": (name + 2, len(line))}
    if v.scheme[0] == "Ext" or (v.flag and v.scheme[0] == "File"):
        return {"path": (0, len(line))}
    if v.flag:
        shapes = [(f, p) for f, p in grammar.plain_scp_shapes(line)] + [(u + b"@[" + address + b"]", p) for u, address, p in grammar.address_scp_shapes(line)]
        front, path = next((f, p) for f, p in shapes if grammar.without_slash_of_home(p) == v.path)
        found = {"path": (len(line) - len(path), len(line))}
        return {**found, **user_and_host(line, 0, len(front), False)}
    begin = line.index(b"://") + 3
    starts = b"".join(bytes([it]) for it in grammar.path_starts(line[:begin - 3]))
    authority = re.split(b"[%s]" % re.escape(starts), line[begin:])[0]
    end = begin + len(authority)
    found = {"scheme": (0, begin - 3), "path": (end, len(line))}
    return {**found, "host": (begin, end)} if v.scheme[0] == "File" else {**found, **user_and_host(line, begin, end, True)}


def user_and_host(line, begin, end, has_password):
    """The places of user, password and host."""
    at = line.rfind(b"@", begin, end)
    if at < 0:
        return {"host": (begin, end)}
    colon = line.find(b":", begin, at) if has_password else -1
    found = {"user": (begin, at if colon < 0 else colon), "host": (at + 1, end)}
    return found if colon < 0 else {**found, "password": (colon + 1, at)}
