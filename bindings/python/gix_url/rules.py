"""Applies Git's configuration as Git does before it connects, with the shared library: rewriting of URLs,
remotes, transports and permissions, words of Secure Shell, settings of http.*, credentials and submodules.
Also reads texts as Git does, and finds dangers in them.

>>> config = Configuration.from_file(b'[url "https://github.com/"]\\n\\tinsteadOf = gh:\\n')
>>> config.rewrite_fetch("gh:a/b").text
b'https://github.com/a/b'
>>> transport_of("gh:a/b"), transport_of("-x")
('ssh', NoTransport.OPTION_LIKE)
>>> config.permission("ext").decision
Decision.REFUSED
>>> ssh_words(gix_url.parse("git@h:a/b")).words
(b'-o', b'SendEnv=GIT_PROTOCOL', b'git@h', b"git-upload-pack 'a/b'")
>>> [str(it) for it in dangers("ext::sh -c id")], redacted("https://u:secret@h/p")
(['command'], 'https://u:redacted@h/p')

The rules are those of Git 2.39.5 on Linux; docs/RULES.md describes them, and docs/AUDIT.md those of dangers.
No call reads a file or the environment, or runs a program: the caller passes texts. A text is bytes, or a
str, which is encoded in UTF-8 with `surrogateescape`; a value of another type is a TypeError. Results are
bytes. They may have secrets: the representation (`%r`) of a result shows each one that `secrets` finds as
`redacted`, what follows a colon in a user, and the value of a variable whose name ends in header, token,
password, pass or cookie. Calls may run in several threads; all values can be hashed and pickled. Each call raises
MemoryError if memory is refused.
"""
import dataclasses
import functools
from typing import Any

import gix_url

from . import _calls, _results
from ._calls import borrowed, make
from ._library import Problem
from ._results import (
    Abnormal, Credentials, Danger, Decider, Decision, Entry, Family, Flaw, GitPlace, NoTransport, Permission,
    Protocol, Remote, Request, Resolved, Rewritten, Service, Settings, SshCommand, SshProgram, SshRefusal,
    Submodule, SubmoduleRefusal, Unread, Unresolved, Variant)
from ._secrets import Piece, redacted, secrets
from ._values import check_text, check_type

__all__ = [
    "Abnormal", "Configuration", "ConfigurationError", "Credentials", "Danger", "Decider", "Decision",
    "Entry", "Family", "Flaw", "GitPlace", "NoBoolean", "NoConfiguration", "NoTransport", "NoValue",
    "Permission", "Piece", "Protocol", "Remote", "Request", "Resolved", "Rewritten", "Service", "Settings",
    "SshCommand", "SshProgram", "SshRefusal", "Submodule", "SubmoduleRefusal", "Unread", "Unresolved",
    "Variant", "check_submodule", "credential_reading", "dangers", "git_reading", "redacted",
    "resolve_submodule", "secrets", "ssh_words", "transport_of"]

Text = str | bytes
# Names from other modules are shown, and pickled, by the names that they have here.
for _it in (*vars(_results).values(), Piece, redacted, secrets):
    if getattr(_it, "__name__", None) in __all__:
        _it.__module__ = __name__


class ConfigurationError(gix_url.Error):
    """Git stops at an entry, or a text isn't a configuration. `at` is the `at` of the entry, or how many
    bytes of the text come before the flaw; `line` is the line of the flaw in a file, from 1, or 0; `flaw` is
    the flaw of a text, or None."""

    line: int = 0
    flaw: Flaw | None = None

    def __str__(self) -> str:
        line = f", line {self.line}" if self.line else ""
        return f"{self.args[0]}{'' if self.flaw is None else f' ({self.flaw})'}, at byte {self.at}{line}"


class NoValue(ConfigurationError):
    """Git stops at an entry without a value."""


class NoBoolean(ConfigurationError):
    """Git stops at an entry whose value isn't a boolean value."""


class NoConfiguration(ConfigurationError):
    """The text isn't a configuration."""


_STOPS = {_calls.NO_VALUE: NoValue, _calls.NO_BOOLEAN: NoBoolean, _calls.NO_CONFIGURATION: NoConfiguration}


def _made(name: str, *given: Any) -> _calls.Made:
    """The outcome of a call, or its error, which is raised."""
    made = make(name, *given)
    if made.error:
        error = gix_url._refusal(made.error, Problem(), _STOPS[made.error])
        error.at, error.line = made.stop.at, made.stop.line
        error.flaw = Flaw(made.stop.flaw) if made.stop.flaw else None
        raise error
    return made


def _measured(name: str, text: Text) -> tuple[bytes, int]:
    """The bytes of a text, and their number."""
    given = check_text(name, text)
    return given, len(given)


def _optional(**texts: Text | None) -> dict[str, bytes | None]:
    """The bytes of texts, each of which may be None."""
    return {name: None if it is None else check_text(name, it) for name, it in texts.items()}


@dataclasses.dataclass(frozen=True)
class Configuration:
    """A configuration: entries in the order in which Git reads them. A program may join, omit and create
    entries. Raises TypeError for an item that isn't an entry."""

    entries: tuple[Entry, ...] = ()

    def __post_init__(self) -> None:
        check_type("entries", self.entries, tuple)
        for entry in self.entries:
            check_type("an entry", entry, Entry)

    @classmethod
    def from_listing(cls, text: bytes) -> "Configuration":
        """Parses the output of `git config --list -z`. Raises NoConfiguration if a part of the text isn't an
        entry, or its last entry has no end, a byte 0."""
        return cls._read("read_listing", text)

    @classmethod
    def from_file(cls, text: bytes) -> "Configuration":
        """Parses the text of a configuration file or a .gitmodules file. The entries are those that
        `git config --file FILE --list -z` lists; no other file is included. An entry before any header has an
        empty section. Raises NoConfiguration if the text isn't a configuration."""
        return cls._read("read_file", text)

    def rewrite_fetch(self, url: Text) -> Rewritten:
        """Rewrites a URL as Git does before it fetches from it: git-config(1), url.<base>.insteadOf. Raises
        NoValue at an entry of insteadOf or pushInsteadOf without a value."""
        return Rewritten(**self._made("rewrite_fetch", *_measured("url", url)).fields)

    def rewrite_push(self, url: Text, has_push_url: bool = False) -> Rewritten:
        """Rewrites a URL as Git does before it pushes to it: by pushInsteadOf, or if no value of that matches
        by insteadOf. A URL that is a pushurl of a remote, for which `has_push_url` is true, is rewritten by
        insteadOf alone. Raises NoValue as `rewrite_fetch` does."""
        check_type("has_push_url", has_push_url, bool)
        return Rewritten(**self._made("rewrite_push", *_measured("url", url), has_push_url).fields)

    def remote(self, name: Text) -> Remote:
        """The remote with this name, its URLs rewritten: git-config(1), remote.<name>.*. If it has no entries
        of its own, the name is the only URL. Raises NoValue at an entry of insteadOf or pushInsteadOf without
        a value, or else at an entry of any remote that is a url, pushurl, vcs, proxy, uploadpack or
        receivepack without a value."""
        made = self._made("remote_of", *_measured("name", name))
        count, pushed = made.fields.pop("url_count"), made.fields.pop("push_url_count")
        return Remote(tuple(made.items[:count]), tuple(made.items[count : count + pushed]), **made.fields)

    def permission(self, transport: Text, *, allow_list: Text | None = None,
                   from_user: Text | None = None) -> Permission:
        """Whether Git may use the transport with this name, which `transport_of` returns: git-config(1),
        protocol.allow. The variables GIT_ALLOW_PROTOCOL, `allow_list`, and GIT_PROTOCOL_FROM_USER,
        `from_user`, are None if they aren't set. Raises Error, whose name is NoLocation, for a transport that
        is not UTF-8."""
        policy = borrowed(_calls.Policy, **_optional(allow_list=allow_list, from_user=from_user))
        found = self._made("permission_of", policy, *_measured("transport", transport)).fields
        by = Decider(found["by"]) if found["by"] else None
        return Permission(Decision(found["decision"]), by, found["at"] if by == Decider.BY_ENTRY else None)

    def settings(self, name: Text, url: Text) -> Settings:
        """The entries of http.<name> and http.<url>.<name> whose values Git uses for a URL, for names such as
        proxy or extraHeader: git-config(1), http.<url>.*. Most names have one such entry at most; extraHeader
        and curloptResolve are lists. Raises NoValue at an entry of a list that applies and has no value, and
        Error, whose name is NoLocation, for a name that is not UTF-8."""
        made = self._made("settings_of", *_measured("name", name), *_measured("url", url))
        why = made.fields["why"]
        return Settings(tuple(self.entries[it] for it in made.items), Abnormal(why) if why else None)

    def credentials(self, url: Text) -> Credentials | None:
        """The settings that Git's credential code uses for a URL, or None if it finds nothing in it:
        gitcredentials(7). Raises NoValue at an entry that applies and has no value, and NoBoolean at a
        useHttpPath that applies and has no boolean value."""
        made = self._made("credentials_of", *_measured("url", url))
        helpers = tuple(self.entries[it] for it in made.items)
        if not made.fields["is_read"]:
            return None
        return Credentials(helpers, made.fields["user"], made.fields["use_http_path"])

    def ssh_program(self, *, git_ssh_command: Text | None = None, git_ssh: Text | None = None,
                    git_ssh_variant: Text | None = None) -> SshProgram:
        """The program that Git runs for Secure Shell: git-config(1), core.sshCommand and ssh.variant. The
        variables GIT_SSH_COMMAND, GIT_SSH and GIT_SSH_VARIANT are None if they aren't set. Raises NoValue at
        the last core.sshCommand or ssh.variant if that counts and has no value."""
        texts = _optional(git_ssh_command=git_ssh_command, git_ssh=git_ssh, git_ssh_variant=git_ssh_variant)
        found = self._made("ssh_program_of", borrowed(_calls.SshVariables, **texts)).fields
        return SshProgram(found["text"] or b"", found["is_command_line"], Variant(found["variant"]))

    def submodules(self) -> tuple[Submodule, ...]:
        """The submodules of a .gitmodules file, in the order in which their names first occur:
        gitmodules(5)."""
        return tuple(self._submodule(**it) for it in self._made("submodules_of").items)

    @classmethod
    def _read(cls, call: str, text: bytes) -> "Configuration":
        check_type("text", text, bytes)
        return cls(tuple(_entry(**it) for it in _made(call, text, len(text)).items))

    @functools.cached_property
    def _lent(self) -> Any:
        """The entries in the form that the library takes, which point to the bytes of this configuration."""
        entries = _calls.array(_calls.Entry, len(self.entries))
        for at, entry in enumerate(self.entries):
            entries[at] = _lent_entry(entry)
        return entries

    def __reduce__(self) -> Any:
        return Configuration, (self.entries,)

    def _made(self, name: str, *given: Any) -> _calls.Made:
        """The outcome of a call over these entries."""
        return _made(name, self._lent, len(self.entries), *given)

    def _submodule(self, name: bytes, **places: int) -> Submodule:
        """A submodule by the indices of its entries. An index past all entries gives None."""
        there = {it: self.entries[at] for it, at in places.items() if at < len(self.entries)}
        return Submodule(name, **{it: there.get(it) for it in places})


def _entry(has_subsection: bool, has_value: bool, **fields: Any) -> Entry:
    """An entry that the library parsed."""
    is_there = {"subsection": has_subsection, "value": has_value}
    return Entry(**{name: it if is_there.get(name, True) else None for name, it in fields.items()})


def _lent_entry(entry: Entry) -> Any:
    """An entry in the form that the library takes: none of its pointers is null."""
    fields = {it.name: getattr(entry, it.name) for it in dataclasses.fields(entry)}
    there = {f"has_{name}": fields[name] is not None for name in ("subsection", "value")}
    return borrowed(_calls.Entry, **{name: b"" if it is None else it for name, it in fields.items()}, **there)


def transport_of(text: Text) -> str | NoTransport:
    """The transport that Git uses for a text after rewriting, by the form of the text alone: ssh, git, file,
    http, https, ext or the name of another remote helper, which may be empty; or why there is none. The rule
    is in `transport.c` of Git."""
    found = _made("transport_of", *_measured("text", text)).fields
    return NoTransport(found["why"]) if found["why"] else str(found["name"] or b"", "utf-8")


def git_reading(text: Text) -> GitPlace | Unread:
    """The place that Git's own transports find in a text, or why they find none: `connect.c` of Git."""
    found = _made("git_reading", *_measured("text", text)).fields
    if found["why"]:
        return Unread(found["why"])
    port = found["port"] if found["has_port"] else None
    return GitPlace(Protocol(found["protocol"]), found["user"], found["host"], port, found["path"] or b"")


def credential_reading(text: Text) -> Request | None:
    """The request that Git's credential code makes for a URL, or None if it finds nothing in it:
    `credential.c` of Git."""
    found = _made("credential_reading", *_measured("text", text)).fields
    is_read = found.pop("is_read")
    return Request(**found) if is_read else None


def ssh_words(
    url: gix_url.Url, service: Service = Service.UPLOAD_PACK, *, program: Text | None = None,
    variant: Variant = Variant.OPENSSH, version: int = 2, family: Family = Family.ANY
) -> SshCommand | SshRefusal:
    """The words with which Git runs Secure Shell for a location, or why there are none: git-config(1),
    ssh.variant, and `connect.c` of Git. `program` is the program that the server runs in place of the
    service, as with remote.<name>.uploadpack. `version` is protocol.version: 0, 1 or 2, otherwise a
    ValueError. Raises Error, whose name is NoLocation, for the variant ASKED."""
    check_type("url", url, gix_url.Url)
    check_type("service", service, Service)
    check_type("variant", variant, Variant)
    check_type("version", version, int)
    check_type("family", family, Family)
    if not 0 <= version <= 2:
        raise ValueError("gix_url: the version is out of range")
    numbers = {"service": service, "variant": variant, "version": version, "family": family}
    made = _made("ssh_words", url._ref(), borrowed(_calls.SshRequest, **numbers, **_optional(program=program)))
    if made.fields["refusal"]:
        return SshRefusal(made.fields["refusal"])
    return SshCommand(tuple(made.items), made.fields["git_protocol"] or None)


def dangers(text: Text, url: gix_url.Url | None = None) -> tuple[Danger, ...]:
    """The dangers of a text that a program uses as a remote, and of the location that the text is parsed as,
    each once and in order. If there is no `url`, `gix_url.parse` parses it from the text, and raises Error if
    the text isn't a location."""
    check_type("url", url, gix_url.Url, type(None))
    given = _measured("text", text)
    location = gix_url.parse(given[0]) if url is None else url
    return tuple(map(Danger, _made("dangers_of", *given, location._ref()).items))


def resolve_submodule(parent: Text, url: Text) -> Resolved | Unresolved:
    """The URL of a submodule, resolved against the URL of the remote of the repository around it, `parent`,
    as git submodule init does; or why Git doesn't resolve it: gitmodules(5), and `submodule--helper.c` of
    Git."""
    found = _made("resolve_submodule", *_measured("parent", parent), *_measured("url", url)).fields
    if found["why"]:
        return Unresolved(found["why"])
    return Resolved(found["url"] or b"", found["is_relative"], found["climbs"])


def check_submodule(entry: Entry) -> tuple[SubmoduleRefusal, ...]:
    """The reasons why git fsck refuses an entry of .gitmodules: its name, its value, both or nothing. The
    rules are in `fsck.c` and `submodule-config.c` of Git."""
    check_type("entry", entry, Entry)
    found = _made("check_submodule", _lent_entry(entry)).fields
    return tuple(SubmoduleRefusal(it) for it in (found["name"], found["value"]) if it)
