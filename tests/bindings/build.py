"""The libraries for C, Python and Rust as `scripts/bindings` builds them, programs over them, and planted faults."""
import fcntl
import functools
import glob
import json
import os
import re
import shutil
import subprocess

from attacks import attacks
from git_runs import put
from rt_api import ROOT, program, read, stored
from runs import ended
from texts import realistic

OUT = f"{ROOT}/out/bindings"
os.environ.update(ASAN_OPTIONS="detect_leaks=1:halt_on_error=1", UBSAN_OPTIONS="halt_on_error=1:print_stacktrace=1")
CRATE = "bindings/rust/gix-url-proved"
# The arguments of the programs of docs/BINDINGS.md.
TEXTS = ("ssh://git@example.com/gitoxide", "http://h:0/", "::address", *(text for text, _ in attacks()))
# The tables of calls over a configuration, and over Git's readings.
RULE_TABLES = ("git_readings", "rules/calls", "rules/dangers", "rules/git", "rules/secrets")


def run(*words, given=b"", statuses=(0,), **environment):
    """What a command writes; it must end with one of these statuses. A variable that is None isn't set."""
    variables = {name: it for name, it in {**os.environ, **environment}.items() if it is not None}
    ran = subprocess.run(words, cwd=ROOT, env=variables, input=given, capture_output=True, check=False)
    assert ran.returncode in statuses, f"{words}: {ran.returncode}\n{(ran.stdout + ran.stderr)[-4000:].decode(errors='replace')}"
    return ran.stdout


def sh(words, **environment):
    """What a command for bash writes, which has the functions of tools/build_library."""
    return run("bash", "-euo", "pipefail", "-c", f". tools/build_library; {words}", **environment)


@functools.cache
def built():
    """Builds the libraries, unless they are younger than their sources."""
    os.makedirs(OUT, exist_ok=True)
    with open(f"{ROOT}/out/bindings.lock", "wb") as lock:
        fcntl.flock(lock, fcntl.LOCK_EX)
        made = f"{OUT}/lib/libgix_url.so"
        sources = [*glob.glob(f"{ROOT}/bindings/c/**/*.[ch]", recursive=True), run("scripts/built", "gix_url_c").decode().strip()]
        if not os.path.exists(made) or os.path.getmtime(made) < max(map(os.path.getmtime, sources)):
            run("scripts/bindings")
    return OUT


@functools.cache
def inputs():
    """The short inputs and 10,000 remotes, each with the answers of `locations`."""
    remotes = ended(realistic())
    wanted = subprocess.run([program("locations")], input=remotes, stdout=subprocess.PIPE, check=False).stdout
    return {"short inputs": (stored("crates/locations/stdin"), stored("crates/locations/stdout")), "remotes": (remotes, wanted)}


def of_page(language, word):
    """The first block of docs/BINDINGS.md in this language that has the word."""
    return next(it for it in re.findall(rf"(?ms)^```{language}\n(.*?)^```$", read("docs/BINDINGS.md")) if word in it)


def copied(source, folder):
    shutil.rmtree(folder, ignore_errors=True)
    return shutil.copytree(source, folder, symlinks=True)


def faults_of(*kinds):
    """The faults of `plants.jsonl` for the unproved code of bindings, each with its kind and the texts that it replaces."""
    found = map(json.loads, read("tests/bindings/plants.jsonl").splitlines())
    return {it["fault"]: (it["in"], it["old"], it["new"]) for it in found if it["in"] in kinds}


def plant(folder, old, new):
    """Replaces a text, which must occur once in the files below a folder, by a fault."""
    texts = {it: stored(os.path.relpath(it, ROOT)) for it in glob.glob(f"{folder}/**", recursive=True) if os.path.isfile(it)}
    assert sum(it.count(old.encode()) for it in texts.values()) == 1, old
    for file, text in texts.items():
        if old.encode() in text:
            put(file, text.replace(old.encode(), new.encode()), 0o644)


def is_caught(*tests):
    """Whether one of the tests fails, which are tried in order."""
    for test in tests:
        try:
            test()
        except (AssertionError, subprocess.CalledProcessError):
            return True
    return False


def check(faults):
    assert not faults, f"{len(faults)} faults\n" + "\n".join(faults[:10])
