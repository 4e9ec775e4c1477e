"""The recipes of docs/AUDIT.md, taken from the page and run: a hook in real pushes, a step of a CI file, and all clones below a
folder.
"""
import os
import re
import subprocess

import pytest
from git_runs import alone, put
from rt_api import program, read

pytestmark = pytest.mark.needs("git")

GOOD = '[submodule "a"]\n\tpath = a\n\turl = https://github.com/a/b.git\n'
BAD = '[submodule "a"]\n\tpath = a\n\turl = -u./payload\n'
CLIMBS = '[submodule "a"]\n\tpath = a\n\turl = ../../../evil.com/x\n'
REMOTE = '[core]\n\tbare = false\n[remote "origin"]\n\turl = {}\n\tfetch = +refs/heads/*:refs/remotes/origin/*\n'
# The blocks of the page: a hook, a step of a CI file, of which the lines that it runs are taken, and a script.
HOOK, STEP, CLONES = re.findall(r"^```(?:sh|yaml)\n(.*?)^```$", read("docs/AUDIT.md"), re.M | re.S)
STEP = re.sub(r"(?m)^    ", "", STEP.partition("run: |\n")[2])


class Place:
    """A folder with the program on the PATH, in which commands run without a user's configuration."""

    def __init__(self, scratch):
        self.scratch = scratch
        os.makedirs(f"{scratch}/bin")
        os.symlink(program("explain"), f"{scratch}/bin/explain")
        self.around = alone(scratch, GIT_AUTHOR_NAME="a", GIT_AUTHOR_EMAIL="a@h", GIT_COMMITTER_NAME="a", GIT_COMMITTER_EMAIL="a@h",
                            PATH=f"{scratch}/bin:{os.environ['PATH']}")

    def run(self, *words, folder="."):
        return subprocess.run(words, cwd=f"{self.scratch}/{folder}", env=self.around, stdout=subprocess.PIPE, stderr=subprocess.STDOUT, text=True, timeout=600)

    def git(self, *words, folder="work"):
        ran = self.run("git", *words, folder=folder)
        assert ran.returncode == 0, f"git {words}: {ran.stdout}"
        return ran.stdout

    def write(self, name, text, mode=0o644):
        os.makedirs(os.path.dirname(f"{self.scratch}/{name}"), exist_ok=True)
        put(f"{self.scratch}/{name}", text, mode)

    def commit(self, text):
        """A commit with this .gitmodules, or without one."""
        if text is None:
            self.git("rm", "-q", ".gitmodules")
        else:
            self.write("work/.gitmodules", text)
            self.git("add", ".gitmodules")
        self.git("commit", "-q", "-m", "a")


@pytest.fixture
def place(tmp_path):
    return Place(tmp_path)


def test_the_hook(place):
    """Consecutive commits, and whether a push with all that are new is accepted."""
    place.git("init", "-q", "--bare", "-b", "main", "server.git", folder=".")
    place.write("server.git/hooks/pre-receive", HOOK, 0o755)
    place.git("init", "-q", "-b", "main", "work", folder=".")
    for texts, accepted in (((GOOD,), True), ((BAD,), False), ((BAD, GOOD), False), ((BAD, None), False),
                            (("no configuration",), False), ((None,), True), ((GOOD, GOOD + "# a"), True)):
        before = place.run("git", "rev-parse", "-q", "--verify", "HEAD", folder="work").stdout.strip()
        for text in texts:
            place.commit(text)
        ran = place.run("git", "push", "-q", f"{place.scratch}/server.git", "HEAD:main", folder="work")
        assert (ran.returncode == 0) == accepted, f"{texts}: {ran.stdout}"
        if not accepted:
            place.git("reset", "-q", "--hard", before)


@pytest.mark.parametrize("text, status", [(None, 0), (GOOD, 0), (BAD, 1), (CLIMBS, 1), ("[x", 2)])
def test_the_step(text, status, place):
    """Whether the step ends as it should, with a log."""
    place.git("init", "-q", "step", folder=".")
    place.git("remote", "add", "origin", "https://example.com/group/super.git", folder="step")
    if text is not None:
        place.write("step/.gitmodules", text)
    ran = place.run("sh", "-c", STEP, folder="step")
    assert ran.returncode == status, ran.stdout
    assert text is None or status == 2 or os.path.getsize(f"{place.scratch}/step/audit.sarif")


def test_all_clones(place):
    """Exactly the files with a finding are named."""
    files = {
        "clones/a/.git/config": (REMOTE.format("https://github.com/a/b.git"), False), "clones/a/.gitmodules": (GOOD, False),
        "clones/b c/.git/config": (REMOTE.format("ext::sh -c x"), True), "clones/b c/.gitmodules": (BAD, True),
        "clones/d.git/config": (REMOTE.format("-u./payload"), True), "clones/e/.git/config": ("[x", True),
        "clones/f/.git/modules/g/config": (REMOTE.format("git@github.com:a/b.git"), False), "clones/config": ("[x", False)}
    for name, (text, _) in files.items():
        place.write(name, text)
    place.write("clones.sh", CLONES, 0o755)
    ran = place.run("./clones.sh", "clones")
    assert {it for it in ran.stdout.splitlines() if it in files} == {name for name, (_, found) in files.items() if found}
    assert ran.returncode != 0
