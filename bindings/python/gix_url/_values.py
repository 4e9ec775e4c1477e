"""Common code of the package's values: numbers that are shown by their names, and exact types."""
import enum
from typing import Any


class Named(enum.IntEnum):
    """A number of a header, shown by its name."""

    def __str__(self) -> str:
        return self.name.lower()

    def __repr__(self) -> str:
        return f"{type(self).__name__}.{self.name}"


def check_type(name: str, value: Any, *types: type) -> None:
    """Raises TypeError unless the value is of one of the types; the message doesn't have the value."""
    # A bool is an int to Python.
    if not isinstance(value, types) or (isinstance(value, bool) and bool not in types):
        shown, *wanted = ("None" if it is type(None) else it.__name__ for it in (type(value), *types))
        raise TypeError(f"gix_url: {name} is {shown}, and has to be {' or '.join(wanted)}")


def check_text(name: str, value: str | bytes) -> bytes:
    """The bytes of a text: a str in UTF-8, with `surrogateescape`. Raises TypeError for another type."""
    check_type(name, value, str, bytes)
    return value.encode(errors="surrogateescape") if isinstance(value, str) else value
