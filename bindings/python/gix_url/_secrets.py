"""Splits texts into pieces that may be secrets and others, and redacts the former."""
import dataclasses
from typing import Any

from ._calls import make
from ._values import check_text


@dataclasses.dataclass(frozen=True)
class Piece:
    """A piece of a text. `is_hidden` is true if it may be a secret."""

    text: bytes = dataclasses.field(repr=False)
    is_hidden: bool


def secrets(text: str | bytes) -> tuple[Piece, ...]:
    """The pieces of a text, of which some may be secrets: passwords, and tokens of GitHub, GitLab and
    Bitbucket by how they begin. Joined, the pieces are the text. The text may be a location or not, or a key
    or a value of a configuration."""
    given = check_text("text", text)
    pieces, at = [], 0
    for it in make("secrets_of", given, len(given)).items:
        pieces.append(Piece(given[at : at + it["len"]], bool(it["is_hidden"])))
        at += it["len"]
    return tuple(pieces)


def redacted(text: str | bytes) -> str:
    """The text for display, with `redacted` for each piece that may be a secret and U+FFFD for bytes that
    aren't UTF-8. A secret of another form is shown, and so are control characters."""
    return b"".join(b"redacted" if it.is_hidden else it.text for it in secrets(text)).decode(errors="replace")


class Redacted:
    """A value that is represented with `redacted` in place of pieces of its texts that may be secrets, and of what
    follows a colon in a user: Git's transports take a password there for a part of the user."""

    def __repr__(self) -> str:
        fields = dataclasses.fields(self)
        shown = (f"{it.name}={_shown(self._seen(it.name))}" for it in fields if it.repr)
        return f"{type(self).__name__}({', '.join(shown)})"

    def _seen(self, name: str) -> Any:
        """The value of a field as it is represented, before its texts are redacted."""
        value = getattr(self, name)
        if name != "user" or value is None:
            return value
        user, colon, _ = value.partition(b":")
        return user + colon + (b"redacted" if colon else b"")


def _shown(value: Any) -> str:
    if isinstance(value, tuple):
        return f"({', '.join(map(_shown, value))}{',' if len(value) == 1 else ''})"
    return repr(redacted(value).encode()) if isinstance(value, bytes) else repr(value)
