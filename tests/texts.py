"""The makers of texts, configurations and files, and the remotes that are the same for all tests. Their pieces are in
`vectors/texts/pieces.jsonl`: texts between `¦`, each number with the pieces that are repeated so often, and null for none. A piece may name
other tables (`filled`).

A maker chooses by numbers, 0 for the first piece. `examples` makes different texts, the same each time; `compare` asks about all of them
at once, and hypothesis makes the numbers of one for which a fault is found smaller.
"""
import functools
import itertools
import json
import re
from collections import defaultdict, namedtuple
from random import Random

import pytest
from git_runs import Entry, entry_of, is_named
from hypothesis import HealthCheck, Phase, Verbosity, given, settings, strategies
from hypothesis.database import InMemoryExampleDatabase
from row_text import bytes_of
from rt_api import read, stored
from web_reads import cut, cut_at_first, decoded_by_git

# The number of faults that are shown, and the strategy of a number by which a maker chooses.
SHOWN, NUMBER = 20, strategies.binary(min_size=2, max_size=2)
TABLES: dict[str, dict] = defaultdict(dict)
for row in map(json.loads, read("vectors/texts/pieces.jsonl").splitlines()):
    TABLES[row["maker"]][row["table"]] = row["pieces"]


def pieces(given, spelled):
    if isinstance(given, dict):
        return tuple(it for times, some in given.items() for it in pieces(some, spelled) * int(times))
    if isinstance(given, list):
        return tuple(it for some in given for it in pieces(some, spelled))
    return (None,) if given is None else tuple(map(spelled, given.split("¦")))


def table(maker, name):
    return pieces(TABLES[maker][name], bytes_of)


# A reference in a piece.
REFERENCE = re.compile(r"<(\w+)(?::(\d+))?(?:([*+?])(\d)([^>]*))?>")


class Maker:
    """Makes texts by a function that returns numbers of so many bits. Its tables are bytes, or texts."""

    TEXTS: dict[str, tuple] = {}

    def __init_subclass__(cls, spelled=bytes_of, of=None):
        own = {**TABLES[of or cls.__name__], **TABLES[cls.__name__]}
        cls.kind = staticmethod(spelled)
        cls.TEXTS = {**cls.TEXTS, **{name: pieces(it, str) for name, it in own.items()}}
        for name, given in own.items():
            setattr(cls, name, pieces(given, spelled))

    def __init__(self, bits):
        self.bits = bits

    def below(self, count):
        return self.bits(16) * count >> 16

    def one_of(self, some):
        return some[self.below(len(some))]

    def put(self, piece):
        """A piece with its references filled in: `<NAME>` is one of a table, `<NAME:6>` one of its first six, `<NAME*3>`
        are none to three of them, `<NAME+3>` one to three, `<NAME?3@>` is in one of three cases one with `@` after it,
        and `<name>` is the result of a method."""
        def referred(it):
            name, first, sign, most, end = it.groups("")
            if name.islower():
                return getattr(self, name)()
            chosen = self.below(int(most) + (sign == "*")) if sign else 0
            times = {"": 1, "*": chosen, "+": 1 + chosen, "?": chosen == 0}[sign]
            some = self.TEXTS[name][: int(first) if first else None]
            return "".join(self.put(self.one_of(some)) + end for _ in range(times))

        return REFERENCE.sub(referred, piece)

    def filled(self, name):
        return self.kind(self.put(self.one_of(self.TEXTS[name])))

    def text(self):
        return self.filled("TEXT")

    def in_some_order(self, some):
        return sorted(some, key=lambda _: self.below(1 << 16))


class Made(namedtuple("Made", "maker what", defaults=["text"])):
    """What a method of a maker makes."""

    def by(self, bits):
        return getattr(self.maker(bits), self.what)()

    @functools.cache
    def examples(self, count):
        """This many different ones, by their representations, each with the number by which it is made."""
        found = {}
        for number in range(10 * count):
            it = self.by(Random(number).getrandbits)
            found.setdefault(repr(it), (it, number))
            if len(found) == count:
                return found
        raise ValueError(f"only {len(found)} different examples can be made")


made = Made


def examples(source, count):
    return [it for it, _ in source.examples(count).values()]


def shrink(source, number, faults):
    """Fails with the smallest example by the numbers of this one, or by smaller ones, that has a fault alone."""
    used, bits = [], Random(number).getrandbits
    source.by(lambda size: used.append(bits(size)) or used[-1])

    @settings(database=InMemoryExampleDatabase(), deadline=None, phases=(Phase.reuse, Phase.shrink), suppress_health_check=[*HealthCheck],
              verbosity=Verbosity.quiet, report_multiple_bugs=False)
    @given(strategies.data())
    def smallest(data):
        it = source.by(lambda _: int.from_bytes(data.draw(NUMBER), "big"))
        found = [*faults([it])]
        assert not found, f"{found[0][1]}\n  for {it!r}"

    try:
        smallest.hypothesis.fuzz_one_input(b"".join(it.to_bytes(2, "big") for it in used))
    except AssertionError:
        smallest()


def culprit(every, faults):
    """One example that has a fault alone, or one of the smallest group that has one."""
    while len(every) > 1:
        halves = every[: len(every) // 2], every[len(every) // 2 :]
        bad = next((it for it in halves if [*faults(it)]), None)
        if bad is None:
            break
        every = bad
    return every[0]


def compare(source, count, faults, others=()):
    """Fails if `faults` finds any among this many examples and the others: pairs of an example, or None if it isn't known, and words.
    Returns all examples."""
    origins = source.examples(count)
    every = [*{repr(it): it for it in (*others, *(it for it, _ in origins.values()))}.values()]
    found = [*faults(every)]
    if found:
        bad = next((it for it, _ in found if repr(it) in origins), None) or culprit(every, faults)
        print(words := "\n".join([f"{len(found)} faults", *(fault for _, fault in found[:SHOWN])]))
        if repr(bad) in origins:
            shrink(source, origins[repr(bad)][1], faults)
        pytest.fail(words)
    return every


# ---- remotes

def remotes():
    return stored("crates/url_bench/remotes.txt").splitlines()


def realistic():
    """10,000 realistic remotes: hosts, users, ports and paths in all forms, combined by one rule."""
    it = {name: pieces(given, str) for name, given in TABLES["Realistic"].items()}
    return [(it["FORMS"][n % 13].format(u=it["USERS"][n % 8], h=it["HOSTS"][n % 11], o=it["PORTS"][n // 3 % 8], p=it["PATHS"][n // 5 % 12])
             + str(n)).encode() for n in range(10_000)]


def plain():
    """10,000 remotes without findings."""
    it = {name: pieces(given, str) for name, given in TABLES["Plain"].items()}
    return [f"{it['FORMS'][n % 7].format(h=it['HOSTS'][n // 7 % 7], p=it['PATHS'][n // 49 % 5])}{n}".encode() for n in range(10_000)]


# ---- texts

def can_be_a_line(text):
    """Whether the text can be a line of Git's protocol, which ends at a line end."""
    return b"\n" not in text and not text.endswith(b"\r")


def can_be_an_argument(text):
    """Whether the text can be a line of UTF-8 and an argument of a command."""
    is_utf8 = text.decode(errors="ignore").encode() == text
    return is_utf8 and text != b"" and b"\n" not in text and b"\0" not in text


class LocationMaker(Maker, spelled=str):
    """Makes forms of locations, of the pieces that matter. One text in so many is broken."""

    BROKEN = 3

    def broken(self, text):
        """The text with a piece inserted or a character removed, at a place or two."""
        for _ in range(1 + self.below(2)):
            at = self.below(len(text) + 1)
            text = text[:at] + (self.one_of(self.PIECES) if self.below(4) else "") + text[at + self.below(2) :]
        return text

    def text(self):
        form, is_broken = self.one_of(self.FORMS), self.below(self.BROKEN) == 0
        text = self.put(form)
        return (self.broken(text) if is_broken else text).encode()

    def or_addressed(self):
        """A text, of which one in eleven has a host in brackets."""
        return self.text() if self.below(11) else Addresses(self.bits).text()


class Addresses(Maker, of="LocationMaker"):
    """Makes locations with a host in brackets."""


class WebMaker(LocationMaker, spelled=str):
    """Makes HTTP texts, of the pieces by which the readings of three readers differ."""

    BROKEN = 4

    def near(self):
        """A text that all readers read alike, or nearly so."""
        user = self.one_of(self.NEAR_USERS) + "@" if self.below(3) == 0 else ""
        path = "".join(self.one_of(("/", "/", "/", "?", "")) + self.one_of(self.NEAR_PIECES) for _ in range(1 + self.below(4)))
        return f"{self.one_of(self.SCHEMES[:2])}://{user}{self.one_of(self.NEAR_HOSTS)}{self.one_of(self.PORTS[:8])}/{path.removeprefix('/')}"

    def number_host(self):
        forms = ("{}", "0x{:x}", "0X{:X}", "0{:o}", "00{}")
        limits = (0, 1, 8, 9, 127, 255, 256, 65535, 65536, 16777216, 4294967295, 4294967296)
        numbers = [self.one_of(limits) for _ in range(1 + self.below(5))]
        host = ".".join(self.one_of(forms).format(it) for it in numbers)
        return f"http://{host}{self.one_of(('', '', '.', 'h'))}{self.one_of(self.PORTS[:8])}/p"

    def loose(self):
        return f"{self.one_of(self.SCHEMES[:2])}://" + "".join(self.one_of((*self.PIECES, "h")) for _ in range(1 + self.below(8)))

    def broken(self, text):
        """The text with pieces inserted or characters removed after its scheme."""
        scheme, mark, rest = text.partition("://")
        return scheme + mark + super().broken(rest)


class NearMaker(LocationMaker, spelled=str):
    """Makes texts of the class, most of them with one piece outside of it."""

    BROKEN = 6

    def part(self, name, given):
        """A piece of a table: one outside of the class if its part is the given one."""
        name = name.upper() + "S"
        return self.one_of(getattr(self, "BAD_" + name if given else name))

    def named(self, form, bad):
        """User, password, host and port of a form."""
        is_web = form in ("http", "https")
        has_user = form in ("http", "https", "ssh", "scp") and self.below(5 if is_web else 2) == 0
        user = self.part("user", bad == "user") if has_user or bad in ("user", "password") else None
        bad_hosts = self.BAD_HOSTS if form != "scp" or self.below(2) else self.SCP_BAD_HOSTS
        host = self.one_of(bad_hosts if bad == "host" else self.HOSTS)
        passwords = (*self.BAD_PASSWORDS, *self.PASSWORDS) if bad == "password" else self.PASSWORDS
        password = ":" + self.one_of(passwords) if bad == "password" or user and is_web and self.below(3) == 0 else ""
        port = ":" + self.part("port", bad == "port") if bad == "port" or form != "scp" and self.below(4) == 0 else ""
        return ("" if user is None else f"{user}{password}@") + host + port

    def near(self):
        form, bad = self.one_of(self.KINDS), self.one_of(self.BAD)
        if form == "local":
            return self.part("local", bad) + self.one_of(("", "", "/a", "/b.git", "/-", "/x y"))
        if form == "scp":
            return f"{self.named(form, bad)}:{self.one_of(self.BAD_SCP_PATHS if bad == 'path' else self.SCP_PATHS)}{self.one_of(('', '', '/c', '.git'))}"
        path = self.one_of(self.BAD_PATHS if bad == "path" else self.URL_PATHS) + self.one_of(("", "", "/c", "/d.git", ".git"))
        if form == "file":
            return f"file://{self.named(form, bad) if bad in ('host', 'user', 'port') else ''}{path}"
        return f"{form}://{self.named(form, bad)}{path}"

    def some(self, alphabet, most):
        return "".join(self.one_of(alphabet) for _ in range(1 + self.below(most)))

    def free(self):
        """A text of the bytes of the class, mostly inside it; those that matter to readers occur more often."""
        form = self.one_of(self.KINDS)
        if form == "local":
            return self.one_of(("/", "./", "../", "")) + self.some(self.LOCAL, 9)
        user = self.some(self.WORD, 5) + "@" if form in ("http", "https", "ssh", "scp") and self.below(3) == 0 else ""
        host = ".".join(self.some(self.LABEL, 6) for _ in range(1 + self.below(3))) if form != "file" else ""
        if form == "scp":
            return f"{user}{host}:{self.some(self.SCP_PATH, 5)}/{self.some(self.SCP_PATH, 5)}"
        if user and form in ("http", "https") and self.below(3) == 0:
            user = f"{user[:-1]}:{self.some(self.WORD, 5)}@"
        port = f":{1 + self.below(65535)}" if host and self.below(4) == 0 else ""
        return f"{form}://{user}{host}{port}/{self.some(self.PATH, 9)}"

    def other(self):
        scheme = self.one_of(self.SCHEMES)
        return f"{scheme}://{self.named('ssh', None)}{self.one_of(self.URL_PATHS)}" if self.below(4) else self.one_of(self.HELPERS)

    def argument(self):
        """A text that can be an argument of a command, one in three of which another maker makes."""
        texts = (self.one_of((NearMaker,) * 4 + (WebMaker, LocationMaker))(self.bits).text() for _ in itertools.count())
        return next(filter(can_be_an_argument, texts))


def changed_texts():
    """Some texts of the class with something inserted, with a byte replaced, and with a byte removed, at each place."""
    own = [bytes([it]) for it in (9, 11, 127, *range(32, 127))] + [it.encode() for it in ("é", "\u3002", "\ufeff")]
    for text in table("Changed", "TEXTS"):
        for at in range(len(text) + 1):
            yield from (text[:at] + it + text[at:] for it in (*own, *table("Changed", "PUT")))
            yield from (text[:at] + it + text[at + 1 :] for it in (*own, b""))


class SecureMaker(Maker, of="LocationMaker"):
    """Makes texts of Secure Shell, whose paths have bytes that are special to a shell."""

    # Texts that Git takes for Secure Shell, or for a remote helper of that name.
    FOR_SECURE_SHELL = re.compile(rb"(?!::|[0-9A-Za-z][0-9A-Za-z+.-]*:(:|//))[^/:]*:|(ssh|git\+ssh|ssh\+git)://|ssh::")

    def or_location(self):
        """A text, or a form of a location that Git takes for Secure Shell."""
        locations = (LocationMaker(self.bits).or_addressed() for _ in range(9))
        return self.text() if self.below(2) else next(filter(self.FOR_SECURE_SHELL.match, locations), None) or self.text()


# ---- secrets

SECRET = b"S3cr3tZ"
SHAPES = table("Secrets", "SHAPES")


class Secrets(Maker):
    """Makes lines with the secret, some of whose bytes are others; the secret is unchanged."""

    def text(self):
        secret = self.one_of((SECRET, SECRET, SECRET + b"%40x", b"%41" + SECRET, b"\xc3\xbc" + SECRET))
        line = self.one_of(SHAPES) if self.below(2) else self.one_of(self.SEEDS) % secret
        for _ in range(self.one_of((0, 1, 1, 2, 3))):
            at, size = self.below(len(line) + 1), self.one_of((0, 0, 1))
            new = line[:at] + self.one_of((*self.PUT, b"" if size else b"a")) + line[at + size:]
            line = new if SECRET in new else line
        return line


# ---- configurations

class Booleans(Maker):
    """Makes texts that are boolean values, or nearly so."""


class Rules(Maker):
    """Makes entries, and texts that start like their values."""

    # The number of texts for each configuration.
    EACH = 20

    def value(self, texts):
        """A front of a text, all of it, one that continues after it or differs at its end, or nothing."""
        text = self.one_of(texts)
        front = text[: self.below(len(text) + 1)]
        return self.one_of([front] * 8 + [text, text + b"a", front + b"\xc3", front.swapcase(), b""])

    def entry(self, texts, names):
        place = None if self.below(25) == 0 else self.one_of(names)
        value = None if self.below(1500) == 0 else self.value(texts)
        return Entry(self.one_of(self.SECTIONS), place, self.one_of(self.NAMES), value)

    def configuration(self):
        """Entries, and texts with a push URL or none. There are few bases, so that they are interleaved, and few fronts, so
        that they are equal."""
        texts = [self.text() for _ in range(self.EACH)]
        names = [self.one_of([b"", b"https://h/", b"\xff", *texts])] + [b"%d>" % it for it in range(1 + self.below(4))]
        values = [self.one_of(texts) for _ in range(1 + self.below(4))]
        entries = [self.entry(self.one_of([texts, values]), names) for _ in range(1 + self.below(12))]
        return entries, [(it, self.one_of(texts) if self.below(4) == 0 else None) for it in texts]


def lacks_value(entry):
    """Whether Git ends at an entry, whatever the text is; the library can leave it out."""
    return is_named(entry, b"url", b"insteadof", b"pushinsteadof") and entry.place is not None and entry.value is None


class Remotes(Rules):
    """Makes entries of remotes among rules, and the names of remotes."""

    EACH = 4

    def setting(self, texts, names):
        """An entry of a remote. Few lack a value; a refspec never does, and is a good one."""
        place, name = self.one_of([*names * 6, b"", b"/r", None]), self.one_of(self.KEYS)
        value = None if self.below(300) == 0 else self.one_of([*texts, b""])
        return Entry(self.one_of(self.OF_REMOTES), place, name, b"main" if name == b"fetch" else value)

    def configuration(self):
        """Entries, and the names of remotes. Few texts and names, so that rules apply and remotes have many entries."""
        names = [self.one_of(self.REMOTES) for _ in range(self.EACH)]
        texts, bases = [*(self.text() for _ in range(3)), *names], [b"%d>" % it for it in range(3)]
        rules = [it for it in (self.entry(texts, bases) for _ in range(self.below(7))) if not lacks_value(it)]
        mixed = self.in_some_order(rules + [self.setting(texts, names) for _ in range(self.below(9))])
        return [*mixed, *(Entry(b"remote", it, b"skipfetchall", b"true") for it in names)], names


# A URL in pieces: `segments` are those after the authority, each with a `/` before it.
Pieces = namedtuple("Pieces", "scheme user host port segments query")


def joined(it):
    user = b"" if it.user is None else it.user + b"@"
    return it.scheme + b"://" + user + it.host + it.port + b"".join(b"/" + one for one in it.segments) + it.query


def pieces_of(text):
    """The protocol, the user, the host and the path in a URL, decoded."""
    protocol, authority, rest = cut(text if b"://" in text else b"://" + text)
    user, _, host = (it if it is None else decoded_by_git(it) for it in cut_at_first(authority))
    return protocol, user, host, decoded_by_git(rest.lstrip(b"/")).rstrip(b"/")


def without(text, *refused):
    return text and bytes(it for it in text if it not in refused)


class Places(Maker):
    """Makes URLs, and entries for the same or other places, spelled differently."""

    # The number of names in a configuration, and the number of URLs for it.
    NAMES, EACH = 25, 20

    def host(self):
        if self.below(9) == 0:
            return self.one_of(Places.OTHER_HOSTS)
        return b".".join(self.one_of(Places.HOST_LABELS[: self.one_of((3, 3, 9))]) for _ in range(1 + self.below(3)))

    def place(self):
        segments = [self.one_of(self.SEGMENTS) for _ in range(self.below(4))]
        return Pieces(self.one_of(self.SCHEMES), self.one_of(self.USERS), self.host(), self.one_of(self.PORTS), segments, self.one_of(self.QUERIES))

    def spelled(self, text):
        """A piece with an escape for a byte, or with another case of letters."""
        if not text or self.below(3):
            return text
        at = self.below(len(text))
        escape = (b"%%%02x" if self.below(2) else b"%%%02X") % text[at]
        return self.one_of((text[:at] + escape + text[at + 1 :], text.swapcase(), text.lower(), text.upper()))

    def other_host(self, host):
        """Another host: with a `*`, with one more `.` or label, or without its first label."""
        some = host.split(b".")
        some[self.below(len(some))] = self.one_of((b"*", b"*", b"*", b"a", b""))
        return self.one_of((b".".join(some), b".".join(some), host + b".", b"*." + host, host.partition(b".")[2], host.swapcase(), self.host()))

    def other_path(self, segments):
        """A front of the path, one that is longer, or one with another segment."""
        front, more = segments[: self.below(len(segments) + 1)], self.one_of(self.SEGMENTS)
        rest = segments[len(front) :]
        return self.one_of((front, front, [*front, b""], [*segments, more], [*front, more], [*front, b".", *rest], [*front, more, b"..", *rest]))

    def other(self, it):
        """The place in other pieces, one or two of which may be others."""
        for _ in range(self.below(4)):
            change = self.below(8)
            if change < 2:
                it = it._replace(host=self.other_host(it.host))
            elif change < 5:
                it = it._replace(segments=self.other_path(it.segments), query=self.one_of((it.query, b"")))
            elif change == 5:
                it = it._replace(user=self.one_of((None, None, it.user, self.one_of(self.USERS))))
            elif change == 6:
                it = it._replace(port=self.one_of((b"", it.port, it.port.replace(b":", b":00"), self.one_of(self.PORTS))))
            else:
                it = it._replace(scheme=self.one_of((it.scheme.swapcase(), self.one_of(self.SCHEMES))))
        return it._replace(segments=[self.spelled(one) for one in it.segments])

    def of_other(self, bases):
        return joined(self.other(self.one_of(bases)))

    def entry(self, name, value, bases):
        base = self.one_of(bases)
        odd = (None, None, b"", b"a", joined(base).partition(b"://")[2])
        place = without(self.of_other([base]), 10) if self.below(15) else self.one_of(odd)
        return Entry(self.one_of((b"http",) * 30 + (b"HTTP", b"https")), place, name, value)

    def usual(self):
        """A usual place: a path of plain segments, one of which may be odd; one of `file` may have no host."""
        segments = [it if self.below(5) else self.one_of(self.SEGMENTS) for it in (b"a", b"b", b"a.git")[: self.below(4)]]
        it = Pieces(self.one_of((b"https",) * 5 + (b"http", b"file")), self.one_of((None, b"u")), self.host(), b"", segments, b"")
        return it._replace(host=b"", user=None, port=self.one_of((b"", b"", b":", b":1", b":0"))) if it.scheme == b"file" and self.below(2) else it

    def bases(self):
        usual = self.usual()
        return [usual, self.other(usual), self.place()][: 1 + self.below(3)]

    def configuration(self):
        """For each name some entries, and URLs: all of them other spellings of a place or two, and places near it."""
        bases = self.bases()
        sets = [[self.entry(b"k%d" % at, b"%d" % one, bases) for one in range(1 + self.below(6))] for at in range(self.NAMES)]
        return sets, [self.of_other(bases) for _ in range(self.EACH)]


class Headers(Places):
    """Makes entries for headers, for places of a few URLs, and sometimes an entry that removes those before it."""

    def header(self, at, bases):
        place = None if self.below(4) == 0 else without(self.of_other(bases), 0, 10)
        return Entry(b"http", place, self.one_of((b"extraheader", b"extraHeader")), b"X-%d: v" % at if self.below(9) else b"")

    def configuration(self):
        bases = self.bases()
        entries = [self.header(at, bases) for at in range(2 + self.below(8))]
        urls = [joined(self.other(self.one_of(bases))._replace(scheme=b"http")) for _ in range(10)]
        return entries, [it for it in urls if not {0, 10, 13} & {*it}]


class Contexts(Places):
    """Makes entries of credentials, full and partial ones, for places of a few URLs."""

    # A helper reports its number between byte 1 and byte 2, and returns nothing.
    REPORT = b"!printf '\\001%d\\002' >&2; cat >/dev/null; :"

    def partial(self, bases):
        protocol, user, host, path = ((one or b"") if self.below(3) else b"" for one in pieces_of(self.of_other(bases)))
        mark = b"://" if protocol or self.below(4) == 0 else b""
        slash = b"/" if path or self.below(6) == 0 else b""
        return protocol + mark + (user + b"@" if user or self.below(12) == 0 else b"") + host + slash + path

    def credential(self, at, bases):
        chance = self.below(20)
        place = without(None if chance == 0 else self.partial(bases) if chance < 7 else self.of_other(bases), 0, 10)
        kind = self.below(15)
        others = {1: (b"username", self.one_of((b"u", b"v"))), 2: (b"useHTTPPath", self.one_of((b"yes", b"0")))}
        return Entry(b"credential", place, *others.get(kind, (b"helper", b"" if kind == 0 else self.REPORT % at)))

    def url(self, bases):
        """A URL without a password, since no helper is called with one, and with a scheme."""
        it = self.other(self.one_of(bases))
        return joined(it._replace(user=without(it.user, ord(":")), scheme=it.scheme or b"https"))

    def configuration(self):
        bases = self.bases()
        entries = [self.credential(at, bases) for at in range(4 + self.below(9))]
        return entries, [it for it in (self.url(bases) for _ in range(10)) if can_be_a_line(it) and not it.startswith(b"://")]


class Policies(Maker):
    """Makes entries of protocols and values of the two variables."""

    OF = {b"ssh": (b"ssh://h/p", b"u@h:p", b"git+ssh://h/p", b"ssh+git://h/p"), b"git": (b"git://h/p",),
          b"file": (b"/none/such", b"file:///none/such", b"./none"), b"ext": (b"ext::false",)}

    def entry(self, name):
        place = self.one_of((None, name, name, self.one_of(self.PROTOCOLS), name.upper()))
        value = None if self.below(40) == 0 else self.one_of(self.POLICIES)
        section, key = self.one_of((b"protocol",) * 9 + (b"PROTOCOL", b"protocols")), self.one_of((b"allow",) * 9 + (b"Allow", b"allowed"))
        return Entry(section, place, key, value)

    def case(self):
        name = self.one_of(self.PROTOCOLS)
        entries = [self.entry(name) for _ in range(self.below(5))]
        allowed = [self.one_of((name, self.one_of(self.PROTOCOLS), b"", name.swapcase(), name + b" ")) for _ in range(self.below(4))]
        return entries, b":".join(allowed) if self.below(4) == 0 else None, self.one_of(self.FROM_USER), name

    @classmethod
    def texts_of(cls, name):
        """Texts that use a transport. No URL has the scheme `git+ssh` as a helper's name, and none an empty one. If a helper
        is installed all the same, it has no target."""
        of_helper = (name + b"::/x",) if name in (b"", b"git+ssh") else (name + b"://127.0.0.1:1/p", name + b"::/x")
        return cls.OF.get(name, of_helper)


class Programs(Maker):
    """Makes programs and command lines."""

    def path(self):
        return self.filled("PATH")

    def quoted(self, text):
        """A text as a part of a word, in one of the ways of a shell."""
        way = self.below(5)
        if way < 2:
            return b"'%s'" % text.replace(b"'", b"'\\''") if way == 0 else b'"%s"' % re.sub(rb'(["\\])', rb"\\\1", text)
        return re.sub(rb"(?s).", lambda it: b"\\" * (it[0] in b" \t'\"\\" or way == 2 and self.below(2)) + it[0], text)

    def line(self):
        """A command line whose first word is mostly a program, in one or two parts."""
        path = self.path()
        at = self.below(len(path) + 1) if self.below(3) == 0 else len(path)
        return self.one_of(self.BEFORE) + b"".join(map(self.quoted, filter(None, (path[:at], path[at:])))) + self.one_of(self.MORE)

    def entry(self):
        """One of the two keys, or another with these names or in these sections."""
        way, value = self.below(10), self.one_of((self.line(), self.path(), self.one_of(self.VARIANTS)))
        key = b"core.sshCommand" if way < 4 else b"ssh.variant" if way < 8 else self.one_of(self.OTHERS)
        own = self.one_of(self.VARIANTS) if key.endswith(b".variant") else value
        return entry_of(key, None if self.below(14) == 0 else re.sub(b"[\r\n]", b"\t", own))

    def setting(self):
        """The three variables, None if they aren't set, and a status that a program has for `-G`."""
        lines = (make() if self.below(chance) == 0 else None for chance, make in (
            (3, self.line), (2, self.path), (3, lambda: self.one_of(self.VARIANTS))))
        return *lines, str(self.below(2))

    def configuration(self):
        """Entries, and four settings with them: so each kind of setting both overrides others and is overridden."""
        return [self.entry() for _ in range(self.below(4))], [self.setting() for _ in range(4)]


class Pairs(Maker):
    """Makes parents and URLs of pieces."""

    # The number of URLs for each parent.
    EACH = 160

    def urls(self):
        """URLs, most of which begin with steps; none with `-`, for which Git has no URL."""
        return [self.filled("URL") for _ in range(self.EACH)]

    def parent(self):
        return self.filled("PARENT")


# ---- files

class Files(Maker):
    """Makes configuration files, sound ones and broken ones."""


class Modules(Maker):
    """Makes entries of `.gitmodules` files."""

    def entry(self):
        key, section = self.one_of(self.KEYS), self.one_of([b"submodule"] * 20 + [b"SubModule", b"submodules", b"core"])
        place = self.filled("NAME") if self.below(100) else None
        value = self.filled({b"path": "PATHS", b"update": "UPDATES"}.get(key.lower(), "URL"))
        return Entry(section, place, key, value if self.below(50) else None)

    def file(self):
        return [self.entry() for _ in range(self.one_of((1, 1, 1, 1, 2, 3, 5)))]

    def setting(self, places):
        """An entry at which Git doesn't stop. Each submodule has paths of its own."""
        at = self.below(len(places))
        key = self.one_of((b"path", b"path", b"url", b"url", b"update", b"branch", b"PATH", b"Url", b"none"))
        values = {b"path": (b"p%d" % at, b"q%d/x" % at, b"-p%d" % at), b"url": (b"/r", b"https://h/r", b"-u", b"", b"ssh://h/s"),
                  b"update": (b"checkout", b"rebase", b"merge", b"none")}
        return Entry(b"submodule", places[at], key, self.one_of(values.get(key.lower(), (b"main", b"-b", b""))))

    def used(self):
        """A file of few submodules with many entries."""
        places = self.in_some_order((b"a", b"A", b"a b", b"..", b"x/../y", b"c.d", b"\xff", b"-n", b"a\\..", b"."))[:3]
        return [self.setting(places) for _ in range(1 + self.below(14))]
