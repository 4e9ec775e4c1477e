"""The common code of scripts, tools and tests: files and crates of the repository, and the programs that are proved and built from them.

`scripts/` has the commands that people and CI call, without an ending unless `tests/documents` imports them too; `tools/` has the modules
that they import and the programs that they start. A command adds `tools/` to its path in the line that follows `sys.dont_write_bytecode`.
"""
import functools
import glob
import json
import os
import pathlib
import re
import shutil
import subprocess
import sys

ROOT = os.path.dirname(os.path.dirname(os.path.realpath(__file__)))
# The folder of the toolchain, which has the command `rt` in bin/.
KIT = os.path.dirname(os.path.dirname(os.path.realpath(shutil.which("rt") or "/no/toolchain/rt")))


def read(name):
    return pathlib.Path(ROOT, name).read_text(encoding="utf-8")


def stored(name):
    return pathlib.Path(ROOT, name).read_bytes()


def lines_of(name):
    """The lines of a file of data, without its headings."""
    return [line for line in read(name).splitlines() if line.strip() and not line.startswith("#")]


def rows_of(name):
    """The lines of a file of JSON lines."""
    return [*map(json.loads, lines_of(name))]


def outdated(wanted, pattern):
    """The files with another text than the wanted one, and those of a pattern for which none is wanted."""
    there = {it for it in (*glob.glob(pattern, root_dir=ROOT), *wanted) if os.path.exists(f"{ROOT}/{it}")}
    return sorted(it for it in there | wanted.keys() if it not in there & wanted.keys() or read(it) != wanted[it])


def write(wanted, pattern):
    for name in outdated(wanted, pattern):
        if name not in wanted:
            os.remove(f"{ROOT}/{name}")
        else:
            pathlib.Path(ROOT, name).write_text(wanted[name], encoding="utf-8")


@functools.cache
def lines_of_crates():
    """The crates of crates.txt, each with its line and the crates that it uses."""
    return {re.match(r"\w+", line)[0]: (line, line.partition(":")[2].split()) for line in lines_of("crates.txt")}


@functools.cache
def stands_on(name):
    """The crates that a crate uses, lowest first, and the crate itself."""
    found = [it for below in lines_of_crates()[name][1] if below in lines_of_crates() for it in stands_on(below)]
    return [*dict.fromkeys([*found, name])]


# The library, and Git's rules for a location by its configuration; and their layers: the crates that they use, lowest first,
# and themselves.
LIBRARY = "gix_url"
LIBRARIES = (LIBRARY, "git_rules", "git_audit", "git_modules")
LAYERS = list(dict.fromkeys(it for name in LIBRARIES for it in stands_on(name)))


@functools.cache
def built(name):
    """The program or the static library of a crate, which is proved and built now if it is missing or old."""
    ran = subprocess.run([f"{ROOT}/scripts/built", name], stdout=subprocess.PIPE, text=True)
    return ran.stdout.rstrip("\n") if ran.returncode == 0 else sys.exit(f"{name} is not built")


def program(name):
    """The program of a crate: the one that an environment variable names, as ANSWERS for `answers`, or the result of `built`."""
    return os.environ.get(name.upper()) or built(name)
