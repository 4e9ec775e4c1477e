"""The results of the calls of `gix_url.rules`, and the numbers that the calls take: those of gix_url_rules.h
by their names."""
import dataclasses
from typing import Any

from ._calls import make
from ._secrets import Redacted
from ._values import Named, check_type


# The ends of the names of variables whose values are secrets, such as extraHeader, which holds the token of a CI.
_SECRETS = (b"header", b"token", b"password", b"pass", b"cookie")


class Flaw(Named):
    """A flaw in the text of a configuration. NO_KEY and NO_END occur in a listing, the others in a file."""

    PARTIAL_MARK, NO_START, NO_SECTION, BAD_SECTION, NO_QUOTE, OPEN_SUBSECTION, OPEN_HEADER = range(1, 8)
    NO_EQUALS, BAD_ESCAPE, OPEN_QUOTE, ZERO_BYTE, NO_KEY, NO_END = range(8, 14)


class NoTransport(Named):
    """Why Git has no transport for a text: byte 0, a text that begins with -, `rsync:`, or a scheme that
    names neither a transport nor a remote helper."""

    BYTE_ZERO, OPTION_LIKE, RSYNC, UNKNOWN_SCHEME = range(1, 5)


class Decision(Named):
    """Whether Git uses a transport: it does only if it is ALLOWED. Git stops if the entry that decides has an
    unknown value, or if it needs GIT_PROTOCOL_FROM_USER and that isn't a boolean value."""

    ALLOWED, REFUSED, UNKNOWN_ALLOWANCE, UNKNOWN_FROM_USER = range(1, 5)


class Decider(Named):
    """The setting that decides about a transport: GIT_ALLOW_PROTOCOL, an entry of protocol.*, or neither, so
    that the default applies."""

    BY_LIST, BY_ENTRY, BY_DEFAULT = range(1, 4)


class Danger(Named):
    """A danger in a text, or in the location that the text is parsed as."""

    COMMAND, OPTION_LIKE_USER, OPTION_LIKE_HOST, OPTION_LIKE_PATH, PASSWORD, TOKEN = range(1, 7)
    HOST_CHARACTER, LINE_END, OTHER_HOST, MISREAD_HOST = range(7, 11)

    @property
    def words(self) -> str:
        """The danger in a few words, such as `the host begins with -`."""
        return bytes(make("danger_words", self).items).decode()


class Unread(Named):
    """Why Git finds no place in a text: byte 0, an option, the address of a remote helper, a local path that
    begins with ~, a word that OpenSSH reads as a URL, or a text that Git or Secure Shell refuses."""

    BYTE_ZERO, OPTION, REMOTE_HELPER, HOME_OR_HERE, SECURE_SHELL_URL, REFUSED = range(1, 7)


class Protocol(Named):
    """Git's own transports."""

    SSH, GIT, FILE = range(1, 4)


class Service(Named):
    """The service that Git runs on the server: to fetch, to push, or for git archive --remote."""

    UPLOAD_PACK, RECEIVE_PACK, UPLOAD_ARCHIVE = range(3)


class Variant(Named):
    """The kind of program that is run for Secure Shell, by its options: ssh.variant. Git runs the program to
    find the kind of ASKED."""

    OPENSSH, SIMPLE, PLINK, PUTTY, TORTOISEPLINK, ASKED = range(6)


class Family(Named):
    """The family of the addresses: git fetch -4 and -6."""

    ANY, IPV4, IPV6 = 0, 4, 6


class SshRefusal(Named):
    """Why there is no command of Secure Shell. If there are several reasons, it is the first in this
    order."""

    NOT_SECURE_SHELL, PASSWORD, EMPTY_USER, BYTE_ZERO, OPTION_LIKE_USER, NO_HOST = range(1, 7)
    OPTION_LIKE_HOST, AT_SIGN_IN_HOST, URL_LIKE_DESTINATION, NO_PATH = range(7, 11)
    OPTION_LIKE_PATH, EMPTY_PROGRAM = range(11, 13)
    BYTE_ZERO_IN_PROGRAM, OPTION_LIKE_PROGRAM, FAMILY_OF_SIMPLE, PORT_OF_SIMPLE = range(13, 17)


class Abnormal(Named):
    """Why a URL has no normal form. No entry with a URL applies to it then."""

    NO_URL, BROKEN_ESCAPE, NO_HOST, BAD_HOST, BAD_PORT, ABOVE_ROOT = range(1, 7)


class Unresolved(Named):
    """Why Git doesn't resolve a relative URL of a submodule: the URL of the remote is empty, or has too few
    elements."""

    EMPTY_PARENT, NOTHING_LEFT = 1, 2


class SubmoduleRefusal(Named):
    """Why git fsck refuses an entry of .gitmodules, shown as Git names it: gitmodulesName, gitmodulesUrl,
    gitmodulesPath or gitmodulesUpdate. The name leads out of its folder, the URL is dangerous, the path looks
    like an option, or the submodule is updated by a command."""

    NAME, URL, PATH, UPDATE = range(1, 5)

    def __str__(self) -> str:
        return f"gitmodules{self.name.title()}"


@dataclasses.dataclass(frozen=True, repr=False)
class Entry(Redacted):
    """An entry of a configuration: section.subsection.name and its value, bytes or None if it has none; a key
    without = has no value. Section and name are compared without letter case. The representation hides the value if
    the name ends in header, token, password, pass or cookie. `at` is how many bytes of the
    parsed text come before the entry, and `line` the line of a file on which the name begins, from 1; it is 0
    in a listing.

    Raises TypeError for a value of another type, and ValueError for a position that is negative or has more
    than 64 bits."""

    section: bytes
    subsection: bytes | None
    name: bytes
    value: bytes | None
    at: int = 0
    line: int = 0

    def __post_init__(self) -> None:
        for name in ("section", "name"):
            check_type(name, getattr(self, name), bytes)
        for name in ("subsection", "value"):
            check_type(name, getattr(self, name), bytes, type(None))
        for name in ("at", "line"):
            check_type(name, getattr(self, name), int)
            if not 0 <= getattr(self, name) < 1 << 64:
                raise ValueError(f"gix_url: {name} is out of range")

    def _seen(self, name: str) -> Any:
        is_secret = name == "value" and self.name.lower().endswith(_SECRETS)
        return b"redacted" if is_secret and self.value else super()._seen(name)

    @property
    def key(self) -> bytes:
        """The key as git config prints it: its parts, with dots between them."""
        return b".".join(it for it in (self.section or None, self.subsection, self.name) if it is not None)


@dataclasses.dataclass(frozen=True, repr=False)
class Rewritten(Redacted):
    """A URL after rewriting. `is_rewritten` is true if a value of insteadOf or pushInsteadOf matched. The
    text then begins with the base, which has `base_len` bytes; otherwise that is 0."""

    text: bytes
    is_rewritten: bool
    base_len: int


@dataclasses.dataclass(frozen=True, repr=False)
class Remote(Redacted):
    """A remote. git fetch uses the first of `urls`, git push all `push_urls`. vcs and proxy are the last
    values, uploadpack and receivepack the first ones, or None."""

    urls: tuple[bytes, ...]
    push_urls: tuple[bytes, ...]
    vcs: bytes | None
    proxy: bytes | None
    uploadpack: bytes | None
    receivepack: bytes | None


@dataclasses.dataclass(frozen=True)
class Permission:
    """Whether Git uses a transport, and which setting decides: None for UNKNOWN_FROM_USER. `at` is that of
    the entry that decides, or None."""

    decision: Decision
    by: Decider | None
    at: int | None


@dataclasses.dataclass(frozen=True, repr=False)
class GitPlace(Redacted):
    """The place that Git's own transports find in a text. A host has no brackets, and is None if it is empty;
    the path is decoded if the text is a URL."""

    protocol: Protocol
    user: bytes | None
    host: bytes | None
    port: int | None
    path: bytes


@dataclasses.dataclass(frozen=True, repr=False)
class Request(Redacted):
    """The request that Git's credential code makes to helpers: the parts decoded, the host with its port. The
    representation leaves the password out."""

    protocol: bytes
    user: bytes | None
    password: bytes | None = dataclasses.field(repr=False)
    host: bytes
    path: bytes | None


@dataclasses.dataclass(frozen=True, repr=False)
class SshCommand(Redacted):
    """A command of Secure Shell: the words after the name of the program, each of which is one argument,
    without a shell. The last one is the command that a shell on the server reads. `git_protocol` is the
    version to set GIT_PROTOCOL to, such as version=2, or None if it isn't to be set."""

    words: tuple[bytes, ...]
    git_protocol: int | None


@dataclasses.dataclass(frozen=True, repr=False)
class SshProgram(Redacted):
    """The program that Git runs for Secure Shell: a path or a name, or a command line, which a shell
    reads."""

    text: bytes
    is_command_line: bool
    variant: Variant


@dataclasses.dataclass(frozen=True)
class Settings:
    """The entries whose values Git uses for a URL. `why` is the reason if the URL has no normal form, so that
    only entries without a URL apply; otherwise None."""

    entries: tuple[Entry, ...]
    why: Abnormal | None


@dataclasses.dataclass(frozen=True, repr=False)
class Credentials(Redacted):
    """The settings that Git's credential code uses for a URL: the entries whose values are the helpers, in
    the order in which Git asks them; the user that they are asked about, decoded, or None; and whether they
    get the path of a URL of HTTP."""

    helpers: tuple[Entry, ...]
    user: bytes | None
    use_http_path: bool


@dataclasses.dataclass(frozen=True, repr=False)
class Resolved(Redacted):
    """The URL of a submodule after it is resolved. A URL that isn't relative is unchanged. `climbs` is true
    if it leaves the path of the URL of the remote, and so may lead to another host."""

    url: bytes
    is_relative: bool
    climbs: bool


@dataclasses.dataclass(frozen=True, repr=False)
class Submodule(Redacted):
    """A submodule: its name, and the entries whose values Git uses, each of which may be None."""

    name: bytes
    path: Entry | None
    url: Entry | None
    update: Entry | None
    branch: Entry | None
