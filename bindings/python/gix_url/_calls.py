"""The structs and the calls of gix_url_rules.h, and how a call is made. One table lists the arguments and
results of each call."""
import ctypes
from typing import Any, NamedTuple

import gix_url

from ._library import Location, Number, Problem, Size, Text, Truth, bytes_of, lib, ref, struct, text_of

_NO_ROOM = 102
# The errors that come with a stop.
STOPS = NO_VALUE, NO_BOOLEAN, NO_CONFIGURATION = 104, 105, 106
# The initial number of elements of a buffer.
_START = 64
_Byte, _Letters = ctypes.c_uint8, ctypes.c_char_p

_key_and_value = dict.fromkeys(("section", "subsection", "name", "value"), Text)
Entry = struct(**_key_and_value, at=Size, line=Size, has_subsection=Truth, has_value=Truth)
Stop = struct(at=Size, line=Size, flaw=Number)
Rewritten = struct(text=Text, is_rewritten=Truth, base_len=Size)
Remote = struct(url_count=Size, push_url_count=Size, vcs=Text, proxy=Text, uploadpack=Text, receivepack=Text)
Transport = struct(why=Number, name=Text)
Policy = struct(allow_list=Text, from_user=Text)
Permission = struct(decision=Number, by=Number, at=Size)
Piece = struct(len=Size, is_hidden=Size)
_parts = {"user": Text, "host": Text, "path": Text}
GitPlace = struct(why=Number, protocol=Number, **_parts, has_port=Truth, port=ctypes.c_uint16)
Request = struct(is_read=Truth, protocol=Text, user=Text, password=Text, host=Text, path=Text)
SshRequest = struct(service=Number, program=Text, variant=Number, version=_Byte, family=Number)
SshCommand = struct(refusal=Number, word_count=Size, git_protocol=_Byte)
SshVariables = struct(git_ssh_command=Text, git_ssh=Text, git_ssh_variant=Text)
SshProgram = struct(text=Text, is_command_line=Truth, variant=Number)
Settings = struct(why=Number, setting_count=Size)
Credentials = struct(is_read=Truth, helper_count=Size, user=Text, use_http_path=Truth)
Resolved = struct(why=Number, is_relative=Truth, climbs=Truth, url=Text)
SubmoduleCheck = struct(name=Number, value=Number)
Submodule = struct(name=Text, path=Size, url=Size, update=Size, branch=Size)


class Call(NamedTuple):
    """The parameters of a call, in order: its inputs; the elements of each buffer, with its length; the
    result; for each buffer, where to store the number of elements that are needed, for the last buffer first
    if `is_turned`; and a stop."""

    given: tuple[Any, ...]
    buffers: tuple[Any, ...] = ()
    result: Any = None
    stops: bool = False
    is_turned: bool = False

    def types(self) -> list[Any]:
        """The types of all arguments."""
        buffers = [it for kind in self.buffers for it in (ctypes.POINTER(kind), Size)]
        stored = self.in_order(self.result, [Size for _ in self.buffers], Stop)
        return [*self.given, *buffers, *map(ctypes.POINTER, stored)]

    def in_order(self, result: Any, sizes: list[Any], stop: Any) -> list[Any]:
        """The last arguments, as far as the call has them: pointers to these values."""
        turned = sizes[::-1] if self.is_turned else sizes
        return [*([result] if self.result else []), *turned, *([stop] if self.stops else [])]


_char = ctypes.c_char
_text = (_Letters, Size)
_config = (ctypes.POINTER(Entry), Size)
_url = ctypes.POINTER(Location)

CALLS = {
    "read_listing": Call(_text, (_char, Entry), stops=True, is_turned=True),
    "read_file": Call(_text, (_char, Entry), stops=True, is_turned=True),
    "rewrite_fetch": Call((*_config, *_text), (_char,), Rewritten, stops=True),
    "rewrite_push": Call((*_config, *_text, Truth), (_char,), Rewritten, stops=True),
    "remote_of": Call((*_config, *_text), (_char, Text), Remote, stops=True),
    "transport_of": Call(_text, (_char,), Transport),
    "permission_of": Call((*_config, ctypes.POINTER(Policy), *_text), (), Permission),
    "dangers_of": Call((*_text, _url), (_Byte,)),
    "danger_words": Call((Number,), (_char,)),
    "secrets_of": Call(_text, (Piece,)),
    "git_reading": Call(_text, (_char,), GitPlace),
    "credential_reading": Call(_text, (_char,), Request),
    "ssh_words": Call((_url, ctypes.POINTER(SshRequest)), (_char, Text), SshCommand),
    "ssh_program_of": Call((*_config, ctypes.POINTER(SshVariables)), (_char,), SshProgram, stops=True),
    "settings_of": Call((*_config, *_text, *_text), (Size,), Settings, stops=True),
    "credentials_of": Call((*_config, *_text), (_char, Size), Credentials, stops=True),
    "resolve_submodule": Call((*_text, *_text), (_char,), Resolved),
    "check_submodule": Call((ctypes.POINTER(Entry),), (), SubmoduleCheck),
    "submodules_of": Call(_config, (_char, Submodule), is_turned=True),
}
for _name, _call in CALLS.items():
    try:
        getattr(lib, f"gix_url_{_name}").argtypes = _call.types()
    except AttributeError as _error:
        raise ImportError(f"gix_url: the library lacks a call: {_error}") from _error


class Made(NamedTuple):
    """The outcome of a call: 0 or an error with a stop, the stop, the fields of its result, and the contents
    of its last buffer."""

    error: int
    stop: Any
    fields: dict[str, Any]
    items: Any


def make(name: str, *given: Any) -> Made:
    """Makes a call, and again with buffers that are long enough if its buffers are too short. Raises
    MemoryError, and Error for any other error without a stop."""
    call, function = CALLS[name], getattr(lib, f"gix_url_{name}")
    result, stop = call.result and call.result(), Stop()
    sizes = [Size() for _ in call.buffers]
    buffers = [array(it, _START) for it in call.buffers]
    stored = call.in_order(result, sizes, stop)
    error = _NO_ROOM
    for _ in range(2):
        if error == _NO_ROOM:
            error = function(*given, *(it for items in buffers for it in (items, len(items))), *map(ref, stored))
            buffers = [_grown(items, size.value) for items, size in zip(buffers, sizes)]
    if error not in (0, *STOPS):
        gix_url._check(error)
        raise gix_url._refusal(error, Problem(), gix_url.Error)
    items = buffers[-1][: sizes[-1].value] if buffers and not error else []
    items = items if isinstance(items, bytes) else [fields_of(it) for it in items]
    return Made(error, stop, fields_of(result), items)


def _grown(items: Any, length: int) -> Any:
    """The buffer itself if it has this many elements, or else a longer one."""
    return array(type(items)._type_, length) if length > len(items) else items


def array(kind: Any, length: int) -> Any:
    """An array of at least this many elements: a power of two, since ctypes keeps a type for each length."""
    return (kind * (1 << max(length - 1, 0).bit_length()))()


def fields_of(of: Any) -> Any:
    """The fields of a struct by their names; for a text, a copy of its bytes, or None."""
    if isinstance(of, Text):
        return bytes_of(of)
    if isinstance(of, ctypes.Structure):
        return {it[0]: fields_of(getattr(of, it[0])) for it in of._fields_}
    return of


def borrowed(kind: Any, **fields: Any) -> Any:
    """A struct with these fields. Bytes become pointers to them, and the struct keeps the bytes. None leaves
    a field 0."""
    there = {name: it for name, it in fields.items() if it is not None}
    made = kind(**{name: text_of(it) if isinstance(it, bytes) else it for name, it in there.items()})
    made.kept = fields
    return made
