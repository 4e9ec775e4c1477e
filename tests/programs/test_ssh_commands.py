"""The commands that `explain --ssh` prints, run by a shell, compared with Git's: a program that replaces Secure Shell shows
the variable GIT_PROTOCOL and its words.

`git ls-remote` shows Git's command. By `ssh_commands.json` each line is tried with each configuration, and some with each of the
variables. If Git runs no such program, `explain` prints an empty line, reports the reason and ends with a status other than 0. So it
does for lines `without` a command: Git doesn't run Secure Shell, or it passes on an option, a password or a text that isn't a location.
"""
import itertools
import json
import os
import subprocess

import pytest
from git_runs import put
from row_text import in_bytes
from rt_api import program, read, stored

pytestmark = pytest.mark.needs("git")
# Names of programs in a folder of the test's own, which is the first in which programs are looked for.
NAMES = ("ssh", "plink", "tortoiseplink", "other", "my ssh")
# Shows its arguments; with -G, by which Git detects its variant, only that.
SHOW = r"""#!/bin/sh
case " $* " in *" -G "*) printf '\003' >>"$SHOWN"; exit 1 ;; esac
{ printf '%s\001' "${0##*/}" "$GIT_PROTOCOL" "$@"; printf '\002'; } >>"$SHOWN"
exit 1
"""
DATA = json.loads(read("tests/programs/ssh_commands.json"))
LINES, WITHOUT, CONFIGURATIONS, VARIABLES = in_bytes(DATA["lines"]), in_bytes(DATA["without"]), DATA["configurations"], DATA["variables"]


def shown_by(words, scratch, variables=None, given=b""):
    shown = put(f"{scratch}/shown", "")
    environment = {"PATH": f"{scratch}/bin:/usr/bin:/bin", "HOME": scratch, "SHOWN": shown, "GIT_CONFIG_NOSYSTEM": "1", **(variables or {})}
    ran = subprocess.run(words, env=environment, cwd=scratch, capture_output=True, timeout=600, input=given)
    return ran, stored(shown)


def of_git(line, entries, variables, scratch):
    """The start of Git for a line; nothing if it has to detect the variant."""
    shown = shown_by(["git", *(word for key, value in entries for word in ("-c", f"{key}={value}")), "ls-remote", "--", line], scratch, variables)[1]
    return b"" if b"\3" in shown else shown


def of_explain(line, entries, variables, scratch):
    """The start of the command for a line, and the run that printed it. If there is none, the run reports the reason and has a status."""
    put(f"{scratch}/config", "".join(f"{key}\n{value}\0" for key, value in entries))
    given = ["--config", f"{scratch}/config"] if entries or variables else []
    ran, nothing = shown_by([program("explain"), "--ssh", *given], scratch, variables, line + b"\n")
    is_line = ran.stdout not in (b"", b"\n") and ran.stdout.count(b"\n") == 1
    if nothing or is_line == bool(ran.stderr):
        return None, ran
    if not is_line:
        return b"" if ran.returncode else None, ran
    # `$'..'` is in POSIX since 2024, and bash has it.
    return shown_by(["bash", "-c", ran.stdout], scratch)[1], ran


@pytest.fixture(scope="module")
def scratch(tmp_path_factory):
    folder = tmp_path_factory.mktemp("ssh")
    os.makedirs(folder / "bin")
    for name in NAMES:
        put(f"{folder}/bin/{name}", SHOW, 0o755)
    return str(folder)


@pytest.mark.parametrize("line, entries, variables", [
    *itertools.product(LINES, CONFIGURATIONS, [{}]), *itertools.product(LINES[:3], CONFIGURATIONS, VARIABLES), *((it, (), {}) for it in WITHOUT)])
def test_command(line, entries, variables, scratch):
    wanted = of_git(line, entries, variables, scratch)
    found, ran = of_explain(line, entries, variables, scratch)
    assert found == (b"" if line in WITHOUT else wanted), ran
