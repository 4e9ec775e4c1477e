"""Finds the shared library gix_url, and declares the structs of its header."""
import ctypes
import os
import pathlib
from typing import Any

_NAME = "libgix_url.so.2"


def _candidates(named: str | None) -> list[pathlib.Path]:
    """The files of which the first that exists is the library: named by the caller, or by this package's path."""
    if named:
        return [pathlib.Path(named), pathlib.Path(named, _NAME), pathlib.Path(named, "lib", _NAME)]
    folder = pathlib.Path(__file__).resolve().parent
    is_installed = folder.parts[-4:] == ("share", "gix_url", "python", "gix_url")
    return [folder / _NAME, *([folder.parents[3] / "lib" / _NAME] if is_installed else [])]


def _loaded() -> ctypes.CDLL:
    """The library. If none of the files exists, the system searches for one."""
    named = os.environ.get("GIX_URL_LIB")
    found = next((str(it.absolute()) for it in _candidates(named) if it.is_file()), None)
    if named and not found:
        raise ImportError(f"gix_url: GIX_URL_LIB is {named}, which is neither the library nor a folder with {_NAME}")
    try:
        return ctypes.CDLL(found or _NAME)
    except OSError as error:
        raise ImportError(f"gix_url: the library can't be loaded: {error}; GIX_URL_LIB names another file") from error


def struct(**fields: Any) -> Any:
    """The type of a struct with these members, in their order."""
    return type("_Struct", (ctypes.Structure,), {"_fields_": list(fields.items())})


lib = _loaded()
for _name in ("error_name", "fault_name", "kind_name", "write_fault_name", "error_words", "version"):
    getattr(lib, f"gix_url_{_name}").restype = ctypes.c_char_p

# The types and the structs of gix_url.h.
Number, Size, Truth, ref = ctypes.c_int, ctypes.c_size_t, ctypes.c_bool, ctypes.byref
Text = struct(at=ctypes.c_void_p, len=Size)
_port = {"has_port": Truth, "port": ctypes.c_uint16}
_texts = dict.fromkeys(("name", "user", "password", "host"), Text)
_numbers = dict.fromkeys(("kind", "fault", "reason", "write_fault"), Number)
Problem = struct(**_numbers, shown=Size, total=Size, at=Size, len=Size)
Location = struct(scheme=Number, **_texts, alternative=Truth, **_port, path=Text, spelling=Text)
Look = struct(user=Number, host=Number, path_is_usable=Truth, path_is_root=Truth, original_path=Text, **_port)
Parts = struct(path=Text, fragment=Text, query=Text, pair_count=Size)


def text_of(part: Any) -> Any:
    """The struct of bytes. The caller keeps the bytes while it uses the struct."""
    return Text(ctypes.cast(part, ctypes.c_void_p), len(part))


def bytes_of(text: Any) -> bytes | None:
    """A copy of the bytes; None for a null pointer."""
    return None if text.at is None else ctypes.string_at(text.at, text.len)


def buffer(length: int) -> Any:
    """A buffer of this many bytes."""
    return (ctypes.c_char * length)()
