#!/usr/bin/env python3
"""Executes orders as vectors.py does, with a pattern in each buffer and in each result before a call. After an error all of
them have to be unchanged, apart from lengths if a buffer is too short, and after a result what follows it. The buffers of
calls over a configuration begin with one element, so that most are too short at first."""
import ctypes
import os
import sys
import types

sys.dont_write_bytecode = True
sys.path.append(f"{os.path.dirname(os.path.realpath(__file__))}/../python")
import gix_url
import vectors
from gix_url import _calls, _library

PATTERN = 0xA5


def fill(items):
    """The array or the struct, filled with the pattern."""
    ctypes.memset(ctypes.byref(items), PATTERN, ctypes.sizeof(items))
    return items


def is_blank(items, used=0):
    """Whether all after this many bytes holds the pattern."""
    return set(bytes(memoryview(items).cast("B"))[used:]) <= {PATTERN}


def checked(name):
    """An export over a configuration or a text, whose buffers and results are checked around each call."""
    call, export = _calls.CALLS[name], getattr(_library.lib, f"gix_url_{name}")

    def made(*given):
        count, first = len(call.buffers), len(call.given)
        buffers = [fill(it) for it in given[first : first + 2 * count : 2]]
        stored = [it._obj for it in given[first + 2 * count :]]
        results, sizes = stored[: bool(call.result)], stored[bool(call.result) :][:count]
        for it in (*results, *sizes):
            fill(it)
        error = export(*given)
        used = [it.value for it in (sizes[::-1] if call.is_turned else sizes)]
        is_kept = all(map(is_blank, (*buffers, *results)))
        assert error == 0 or is_kept, f"{name} changes a buffer or a result with error {error}"
        is_kept = all(map(is_blank, sizes))
        assert error in (0, _calls._NO_ROOM) or is_kept, f"{name} stores a length with error {error}"
        after = (is_blank(it, number * ctypes.sizeof(it._type_)) for it, number in zip(buffers, used))
        assert error or all(after), f"{name} writes after its result"
        # The package made what isn't stored 0.
        for it in () if error == 0 else results if error == _calls._NO_ROOM else (*results, *sizes):
            ctypes.memset(ctypes.byref(it), 0, ctypes.sizeof(it))
        return error

    return made


def located(export):
    """An export over locations: the buffer that it takes holds the pattern until it succeeds."""
    def made(*given):
        buffers = [fill(it) for it in given if isinstance(it, ctypes.Array)]
        error = export(*given)
        assert error == 0 or all(map(is_blank, buffers)), f"a buffer is changed with error {error}"
        return error

    return made


def main():
    _calls.lib, _calls._START = types.SimpleNamespace(**{f"gix_url_{it}": checked(it) for it in _calls.CALLS}), 1
    for name in ("parse", "from_parts", "write", "display", "path_query_fragment", "reason_name", "reason_words"):
        setattr(gix_url.lib, f"gix_url_{name}", located(getattr(gix_url.lib, f"gix_url_{name}")))
    vectors.main()


if __name__ == "__main__":
    main()
