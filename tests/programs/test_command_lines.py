"""The command lines of `locations` and `explain`: the output and the status of each, whose expectations in `calls.jsonl` are by hand; which
pairs of the options of `explain` exclude each other, as its help lists them; and their completions in shells, by `completions/`.

Bash itself completes. The files for zsh and fish are read by these shells. Each file has exactly the long options that the help names,
and the file for zsh those pairs of them that the help lists as exclusive.
"""
import collections
import itertools
import json
import os
import re
import shutil
import subprocess

import pytest
from row_text import in_bytes
from rt_api import ROOT, program, read, rows_of, stored
from runs import run

# Each option and TEXT with a value, so that a run ends at once and succeeds.
GIVEN = {"TEXT": "h:p", **{it.partition("=")[0]: it for it in (
    "--file=/dev/null --null --crlf --config=/dev/null --remotes --gitmodules=/dev/null --parent=https://h/p --json "
    "--sarif --html=x --only=host --ssh --summary --quiet --fail-on=policy --color=never").split()}}
HELP = read("crates/explain/help")
# The long options that the help names.
LISTED = {*re.findall(r"(?m)^ +(?:-\w, )?(--[\w-]+)", HELP)}
# The option that an option requires.
NEEDED = {"--parent": "--gitmodules"}
# The options by which `explain` prints a text about itself, and the files of its crate with the same text.
OF_ITSELF = {"--help": "help", "-h": "help", "--version": "version", "-V": "version"}
FOLDER = f"{ROOT}/completions"
# The words of a command line, the last one to be completed, and the completions.
COMPLETED = [
    (("explain", "--o"), "--only"),
    (("explain", "--only", "=", "qu"), "query"),
    (("explain", "--color", "a"), "auto always"),
    (("explain", "--fail-on", "r"), "refused"),
    (("explain", "-f", f"{FOLDER}/_e"), f"{FOLDER}/_explain"),
    (("explain", "--", "--o"), ""),
]
# Prints the results of the function that bash keeps for the first word, for all of them.
ASK = """source "$1"; shift; COMP_WORDS=("$@"); COMP_CWORD=$(($# - 1))
kept=$(complete -p "$1"); call=${kept##*-F }; call=${call%% *}
"${call:?}" && echo "${COMPREPLY[*]}" """
CALLS = [*in_bytes(rows_of("tests/programs/calls.jsonl")),
         *({"words": [b"explain", option.encode()], "shown": stored(f"crates/explain/{file}")} for option, file in OF_ITSELF.items())]


def excluded():
    """The pairs that can't be combined, as the help lists them."""
    for line in HELP.partition("These can't be given together:\n")[2].partition("\n\n")[0].splitlines():
        first, rest = (re.findall(r"TEXT|--[\w-]+", it) for it in line.partition(" with ")[::2])
        yield from map(frozenset, itertools.product(first, rest) if rest else itertools.combinations(first, 2))


@pytest.mark.parametrize("call", CALLS, ids=lambda it: ascii(b" ".join(it["words"]))[2:60])
def test_call(call):
    program_name, *words = call["words"]
    ran = run(program_name.decode(), words, call.get("given", b""))
    assert (ran.returncode, ran.stdout) == (call.get("status", 0), call.get("shown", b""))
    assert call["reported"] in ran.stderr if "reported" in call else not ran.stderr


@pytest.mark.needs("script")
@pytest.mark.parametrize("variables, wanted", [
    ("TERM=xterm", True), ("TERM=xterm NO_COLOR=", True), ("", False), ("TERM=dumb", False), ("TERM=xterm NO_COLOR=1", False)])
def test_colours_on_a_terminal(variables, wanted):
    """Answers are coloured on a terminal that can show colours, unless NO_COLOR says otherwise."""
    words = ["script", "-qec", f"env -u NO_COLOR -u TERM {variables} {program('explain')} h:p", os.devnull]
    ran = subprocess.run(words, stdin=subprocess.DEVNULL, stdout=subprocess.PIPE, timeout=600)
    assert (b"\x1b[" in ran.stdout) == wanted


def test_version():
    """The version is that of the last changes, with that of the Rust crate; a log in SARIF also has it."""
    version = re.search(r"(?m)^## ([\d.]+\+\d+), ", read("CHANGELOG.md"))[1]
    assert read("crates/explain/version").splitlines()[0] == f"explain {version} (gix-url {version.partition('+')[0]})"
    assert json.loads(run("explain", ["--sarif", "h:p"]).stdout)["runs"][0]["tool"]["driver"]["version"] == version


@pytest.mark.quick
def test_each_option_is_tried_in_pairs():
    assert LISTED <= {*GIVEN, *OF_ITSELF}
    assert not [it for it, count in collections.Counter(excluded()).items() if count > 1]


@pytest.mark.parametrize("pair", itertools.combinations(GIVEN, 2), ids="".join)
def test_pair(pair):
    """Two options are refused together exactly if the help says so."""
    is_excluded = frozenset(pair) in {*excluded()}
    needed = set() if is_excluded else {NEEDED[it] for it in pair if it in NEEDED}
    ran = run("explain", [GIVEN[it] for it in sorted({*pair, *needed})])
    assert ran.returncode == 2 * is_excluded
    assert b" cannot be used with " in ran.stderr if is_excluded else not ran.stderr


# ---- completions

def said(*words):
    return subprocess.run(words, stdout=subprocess.PIPE, stderr=subprocess.STDOUT, text=True, timeout=600, check=False)


@pytest.mark.quick
@pytest.mark.parametrize("words, wanted", COMPLETED)
def test_bash_completes(words, wanted):
    assert said("bash", "-uc", ASK, "bash", f"{FOLDER}/gix_url.bash", *words).stdout.rstrip("\n") == wanted


@pytest.mark.quick
@pytest.mark.parametrize("words", ["bash -n gix_url.bash", "zsh -n _explain", "fish --no-execute gix_url.fish"], ids=lambda it: it.split()[0])
def test_the_shell_reads_its_file(words):
    shell, how, file = words.split()
    if not shutil.which(shell):
        pytest.skip(f"{shell} is not installed")
    ran = said(shell, how, f"{FOLDER}/{file}")
    assert ran.returncode == 0, ran.stdout


@pytest.mark.quick
@pytest.mark.parametrize("file, pattern", [
    ("gix_url.bash", r"--([\w-]+)"), ("_explain", r"--([a-z][\w-]*)=?(?:\[|\})"), ("gix_url.fish", r"(?m)^complete -c explain .*-l ([\w-]+)")])
def test_options(file, pattern):
    """A file has exactly the long options that the help names."""
    text = read(f"completions/{file}")
    if file.endswith(".bash"):
        text = " ".join(re.findall(r'_gix_url_words "(--[^"]*)"', text))
    assert {f"--{it}" for it in re.findall(pattern, text)} == LISTED


@pytest.mark.quick
def test_pairs_that_exclude_each_other_in_zsh():
    rows = re.findall(r"(?m)^ +'\(([^)]*)\)\*?(?:'\{-\w,)?(--[a-z][\w-]*)", read("completions/_explain"))
    found = {(option, it) for others, option in rows for it in re.findall(r"--[\w-]+", others) if it != option}
    assert found == {(first, other) for pair in excluded() for first in pair for other in pair - {first} if "TEXT" not in pair}
