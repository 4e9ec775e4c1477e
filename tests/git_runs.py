"""Runs of Git in folders of the test's own, each with its home folder and its settings, and entries of configurations.

A list of entries is a repository without commits, so that they are the repository's own. Git gets no other settings. It looks for
its helper programs in an empty folder, so that only those of the configuration are started.
"""
import functools
import os
import pathlib
import re
import subprocess
import tempfile
from collections import namedtuple
from concurrent.futures import ThreadPoolExecutor

from row_text import text_of

# The subsection is `place`, None if there is none; the value is None if the key has none.
Entry = namedtuple("Entry", "section place name value")


def alone(scratch, **more):
    """An environment with a home folder of its own, which has only these settings."""
    return {"HOME": f"{scratch}/home", "PATH": os.environ["PATH"], "LC_ALL": "C", "GIT_CONFIG_NOSYSTEM": "1",
            "GIT_CONFIG_GLOBAL": os.devnull, **more}


def run(folder, environment, *words, given=b""):
    """A run of a command, whose output has its reports in it."""
    streams = {"stdout": subprocess.PIPE, "stderr": subprocess.STDOUT, "input": given}
    return subprocess.run(words, cwd=folder, env=environment, check=False, timeout=600, **streams)


def output(folder, environment, *words, given=b"", **more):
    """The output of a command with more variables, of which None is one that isn't set."""
    variables = {name: it for name, it in {**environment, **more}.items() if it is not None}
    return run(folder, variables, *words, given=given).stdout


def put(path, text, mode=0o600):
    pathlib.Path(path).write_bytes(text if isinstance(text, bytes) else text.encode())
    os.chmod(path, mode)
    return path


def in_parallel(ask, some):
    with ThreadPoolExecutor(os.cpu_count()) as lanes:
        return [*lanes.map(ask, some)]


def named(said, names):
    """The name of the first of these words that is in what Git says."""
    return next((name for words, name in names.items() if words in said), None)


def in_repositories(answer, configurations, files=(), **more):
    """The results of `answer` for lists of entries, each with questions, in parallel.

    It gets a function that returns the output of a command in a repository with the entries (`output`), the entries,
    and a question. Variables name files with these texts, which may be scripts; there may be more variables.
    """
    with tempfile.TemporaryDirectory(prefix="rules-") as scratch:
        asked = []
        environment = alone(scratch, XDG_CONFIG_HOME=f"{scratch}/home", GIT_EXEC_PATH=f"{scratch}/empty", GIT_TERMINAL_PROMPT="0")
        environment.update({name: put(f"{scratch}/{name}", text, 0o700) for name, text in dict(files).items()})
        for at, (entries, questions) in enumerate(configurations):
            for it in ("home", "empty", f"{at}/objects", f"{at}/refs"):
                os.makedirs(f"{scratch}/{it}", exist_ok=True)
            put(f"{scratch}/{at}/HEAD", "ref: refs/heads/main\n")
            put(f"{scratch}/{at}/config", file_of(entries))
            ask = functools.partial(output, scratch, {**environment, "GIT_DIR": f"{scratch}/{at}", **more})
            asked += [(ask, entries, it) for it in questions]
        return in_parallel(lambda it: answer(*it), asked)


# ---- entries

def entry_of(key, value=None):
    """An entry by its key: the section ends at the first `.`, and the name begins after the last."""
    section, _, rest = key.partition(b".")
    place, dot, name = rest.rpartition(b".")
    return Entry(section, place if dot else None, name, value)


def quoted(text):
    """A value, or a subsection, which has no line feed, as a configuration file has it."""
    return b'"' + re.sub(rb'["\\\n]', lambda it: {b"\n": b"\\n"}.get(it[0], b"\\" + it[0]), text) + b'"'


def file_of(entries):
    """The entries as a configuration file, each under a header of its own."""
    return b"".join(b"[%s%s]\n\t%s%s\n" % (it.section, b"" if it.place is None else b" " + quoted(it.place), it.name,
                                         b"" if it.value is None else b" = " + quoted(it.value)) for it in entries)


def listed(entries):
    """The entries as `git config --list -z` writes them: section and name in lower case, the subsection unchanged."""
    return b"".join(b"%s.%s%s%s\0" % (it.section.lower(), b"" if it.place is None else it.place + b".", it.name.lower(),
                                      b"" if it.value is None else b"\n" + it.value) for it in entries)


def entries_in(said):
    """The entries that `git config --list -z` writes."""
    return [entry_of(*it.split(b"\n", 1)) for it in said.split(b"\0")[:-1]]


def order_of(call, entries=None, **members):
    """The order for a call of the library by entries, with the members that aren't None; bytes are texts of a row."""
    given = {"call": call, "config": None if entries is None else listed(entries), **members}
    return {name: text_of(it) if isinstance(it, bytes) else it for name, it in given.items() if it is not None}


def is_named(entry, section, *names):
    """Whether an entry is of a section and has one of the names, ignoring letter case."""
    return entry.section.lower() == section and entry.name.lower() in names


def listing_faults(configurations):
    """The lists of entries that Git writes differently from `listed`."""
    said = in_repositories(lambda ask, *_: ask("git", "config", "--local", "--list", "-z"), [(it, [None]) for it in configurations])
    for entries, found in zip(configurations, said):
        if found != listed(entries):
            yield f"git config --list -z writes {found!r}, and not {listed(entries)!r}"
