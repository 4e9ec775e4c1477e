"""How `./locations` and `./explain` begin, over small trees: with a toolchain's command that only records its calls, and with the real one."""
import glob
import os
import pty
import re
import select
import shutil
import signal
import subprocess
import tempfile
import time
import uuid

import pytest
from git_runs import put
from rt_api import ROOT

# A command `rt` that records its calls, says that crates are proved, and makes programs that print their arguments. Where GATE names a
# pipe, it proves the first crate and waits until somebody writes there.
RT = """#!/bin/sh
echo "$*" >>"$CALLS"
[ "$1" = version ] && exit ${BROKEN:-0}
for it in $(sed 's/[: ].*//' crates.txt); do
  mkdir -p "crates/$it/out"
  printf '#!/bin/sh\\necho "$0" "$@"\\n' >"crates/$it/out/$it" && chmod +x "crates/$it/out/$it"
  echo "rt: $it proved"
  [ -z "${GATE:-}" ] || read -r _ <"$GATE"
  unset GATE
done
"""
# `locations` uses two of these crates, and not the library.
LINES = "git_syntax: bstr\ngit_location: git_syntax\ngix_url: bstr git_syntax\nlocations: git_location\nexplain: gix_url\n"
CRATES = [it.partition(":")[0] for it in LINES.splitlines()]
# For what comes at once on an idle machine, and may take long on a busy one.
SECONDS = 300


class Tree:
    """A tree with the launchers, crates of a file each, and the command, whose calls the user `nobody` records too."""

    def __init__(self, root):
        self.root, self.environment = root, {"PATH": f"{root}/bin:{os.environ['PATH']}", "CALLS": f"{root}/calls"}
        for folder in ("bin", "scripts", *(f"crates/{it}/src" for it in CRATES)):
            os.makedirs(f"{root}/{folder}")
        launchers(root)
        for file in ("calls", *(f"crates/{it}/src/lib.rt" for it in CRATES)):
            put(f"{root}/{file}", "", 0o666)
        put(f"{root}/crates.txt", LINES, 0o644)
        put(f"{root}/bin/rt", RT, 0o755)

    def run(self, *words, **more):
        """Runs a launcher. Returns its status and its output on both streams."""
        ran = subprocess.run(words, env={**self.environment, **more}, stdout=subprocess.PIPE, stderr=subprocess.STDOUT, text=True, timeout=SECONDS)
        return ran.returncode, ran.stdout

    def start(self, program, **how):
        """Starts a launcher, whose command waits for a writer. Returns it and the pipe."""
        gate = f"{self.root}/gate"
        os.mkfifo(gate)
        # A run in the background may ignore SIGINT, and a shell can't trap what it ignores from its start.
        words = ["env", "--default-signal=INT", f"{self.root}/{program}"]
        return subprocess.Popen(words, env={**self.environment, "GATE": gate}, **how), gate

    def proofs(self):
        """The number of calls of the command to prove and build."""
        with open(f"{self.root}/calls", encoding="utf-8") as it:
            return sum(line.split()[0] != "version" for line in it)

    def younger(self, crate):
        os.utime(f"{self.root}/crates/{crate}/src/lib.rt", (time.time() + 5,) * 2)

    def refused(self, words, *how, **more):
        """Whether a launcher ends with 2 and one sentence that has the words, and proves nothing."""
        before = self.proofs()
        status, said = self.run(*how, f"{self.root}/explain", **more)
        return (status, said.count("\n") == 1 and words in said or said, self.proofs() - before) == (2, True, 0)


def launchers(root):
    for file in ("locations", "explain", "scripts/built"):
        shutil.copy2(f"{ROOT}/{file}", f"{root}/{file}")


@pytest.fixture
def folder():
    """The user `nobody` has to reach it."""
    made = tempfile.mkdtemp(prefix="launches-")
    os.chmod(made, 0o755)
    yield made
    shutil.rmtree(made)


@pytest.fixture
def tree(folder):
    return Tree(f"{folder}/tree")


@pytest.mark.quick
def test_what_is_built(tree):
    """Nothing is proved again, unless a crate that the program uses is younger."""
    status, said = tree.run(f"{tree.root}/locations", "a", "b c")
    assert (status, said.endswith("locations a b c\n"), tree.proofs()) == (0, True, 1)
    os.symlink(f"{tree.root}/locations", f"{tree.root}/link")
    assert tree.run(f"{tree.root}/link", "a") == (0, f"{tree.root}/crates/locations/out/locations a\n")
    tree.younger("gix_url")
    assert (tree.run(f"{tree.root}/locations")[0], tree.proofs()) == (0, 1)
    tree.younger("git_syntax")
    assert (tree.run(f"{tree.root}/locations")[0], tree.proofs()) == (0, 2)


@pytest.mark.quick
def test_several_are_built_at_once(tree):
    places = [f"{tree.root}/crates/{it}/out/{it}" for it in ("locations", "explain")]
    assert (tree.run(f"{tree.root}/scripts/built", "locations", "explain"), tree.proofs()) == ((0, "".join(f"{it}\n" for it in places)), 1)


@pytest.mark.quick
@pytest.mark.needs("pgrep")
@pytest.mark.parametrize("sent", [signal.SIGTERM, signal.SIGINT])
def test_interrupted(tree, sent):
    """No process runs on after a launcher that is ended while it proves: the last one closes a pipe that all of them inherit. Nothing
    is built, and nothing is left among the temporary files."""
    end, held = os.pipe()
    os.mkdir(f"{tree.root}/tmp")
    tree.environment["TMPDIR"] = f"{tree.root}/tmp"
    started, _ = tree.start("explain", stderr=subprocess.DEVNULL, start_new_session=True, pass_fds=[held])
    os.close(held)
    while not tree.proofs():
        time.sleep(0.05)
    os.killpg(started.pid, sent) if sent == signal.SIGINT else started.send_signal(sent)
    assert started.wait(SECONDS) == 2
    assert select.select([end], [], [], SECONDS)[0] and os.read(end, 1) == b""
    os.close(end)
    assert (os.listdir(f"{tree.root}/tmp"), os.path.exists(f"{tree.root}/crates/explain/out/explain")) == ([], False)


@pytest.mark.quick
def test_the_command_fails(tree):
    bare = ":".join(it for it in os.environ["PATH"].split(":") if not os.path.exists(f"{it}/rt"))
    assert tree.refused("rt is not on the PATH", PATH=bare)
    assert tree.refused("or fails", BROKEN="1")


@pytest.mark.quick
def test_little_disk(tree):
    put(f"{tree.root}/bin/df", "#!/bin/sh\necho Avail\necho 5000MB\necho 5MB\n", 0o755)
    assert tree.refused("MB of disk")


@pytest.mark.quick
@pytest.mark.needs("setpriv")
def test_read_only(tree):
    """Root, which can write to any folder, runs it as `nobody`."""
    how = ["setpriv", "--reuid=65534", "--regid=65534", "--clear-groups"] if not os.geteuid() else []
    for name in CRATES:
        os.chmod(f"{tree.root}/crates/{name}", 0o555)
    assert tree.refused("can't be written to", *how)


@pytest.mark.quick
def test_on_a_terminal(tree):
    """The count of proved crates is shown in one line, which is removed at the end."""
    terminal, streams = pty.openpty()
    started, gate = tree.start("locations", stdout=subprocess.DEVNULL, stderr=streams)
    os.close(streams)
    said, is_open = b"", True
    while is_open:
        try:
            more = os.read(terminal, 4096)
        except OSError:
            # This is how the end of a terminal is reported.
            more = b""
        said, is_open = said + more, bool(more)
        if b"1 of 3 crates are proved" in said and os.path.exists(gate):
            put(gate, "go on\n", 0o600)
            os.remove(gate)
    os.close(terminal)
    text = said.decode()
    assert re.search(r"\rlocations: 1 of 3 crates are proved, after \d+ minutes", text.replace("\x1b[K", ""))
    assert (started.wait(SECONDS), "\n" in text, text.endswith("\r\x1b[K")) == (0, False, True)


# ---- the real toolchain, whose commands are called in any order

# By crate, the line of crates.txt and the source. The number makes each new, so that nothing of an earlier run is kept.
SOURCES = {
    "low": ("low:", """//! A library, {number}.
#![tactic(auto)]

/// Whether a number is even.
pub fn is_even(number: u8) -> bool {{
    number % 2 == 0
}}
"""),
    "exports": ("exports staticlib: low", """//! A static library, {number}.
#![tactic(auto)]

/// Whether a number is even.
#[unsafe(no_mangle)]
pub extern "C" fn exports_is_even(number: u8) -> bool {{
    low::is_even(number)
}}
"""),
    **dict.fromkeys(["locations", "explain"], ("{name}: low", """//! A program, {number}.
#![tactic(auto)]

use std::io;

fn main(rt: HostRuntime) -> io::Result<()> {{
    println!(rt; "{{}}", low::is_even(4))
}}
""")),
}
DRIVER = "#include <stdbool.h>\nbool exports_is_even(unsigned char);\nint main(void) { return !exports_is_even(4); }\n"


class RealTree:
    """A repository of four small crates that nothing was proved of, with the launchers."""

    def __init__(self, root):
        self.root, lines = root, []
        self.environment = {**os.environ, "TMPDIR": f"{root}.tmp"}
        os.makedirs(f"{root}/scripts")
        os.makedirs(f"{root}.tmp")
        launchers(root)
        for name, (line, source) in SOURCES.items():
            is_program = name in ("locations", "explain")
            os.makedirs(f"{root}/crates/{name}/src")
            put(f"{root}/crates/{name}/src/{'main' if is_program else 'lib'}.rt", source.format(number=uuid.uuid4()), 0o644)
            lines.append(line.format(name=name) + "\n")
            if is_program:
                put(f"{root}/crates/{name}/stdout", "true\n", 0o644)
        put(f"{root}/crates.txt", "".join(lines), 0o644)
        put(f"{root}/HANDLES", "Handles allowed: none.\n", 0o644)
        subprocess.run(["git", "init", "--quiet", root], check=True)

    def says(self, *words, within=".", status=0):
        """What a command writes to standard output, called in a folder of the tree; it has to end with this status."""
        ran = subprocess.run(words, cwd=f"{self.root}/{within}", env=self.environment, stdin=subprocess.DEVNULL, capture_output=True, text=True, timeout=1800)
        assert ran.returncode == status, f"{words}: {ran.returncode}\n{ran.stdout}{ran.stderr}"
        return ran.stdout

    def interrupt(self):
        """Ends `./locations` while the first crate is proved."""
        silent = {it: subprocess.DEVNULL for it in ("stdin", "stdout", "stderr")}
        started = subprocess.Popen([f"{self.root}/locations"], env=self.environment, **silent)
        while not glob.glob(f"{self.root}.tmp/*/crates/low/out") and started.poll() is None:
            time.sleep(0.05)
        started.terminate()
        assert started.wait(SECONDS) == 2

    def gate(self):
        """What `rt ci` proved in this run, by its words about each crate."""
        said = self.says("rt", "ci")
        assert said.endswith("\n4 passed, 0 failed\n"), said
        return {*re.findall(r"^rt: (\w+) proved$", said, re.M)}

    def links(self):
        """Whether a program in C over the static library runs well."""
        library = self.says("scripts/built", "exports").strip()
        put(f"{self.root}/driver.c", DRIVER, 0o644)
        self.says("cc", "driver.c", library, "-o", "driver")
        self.says("./driver")
        return True


def test_commands_in_any_order(folder):
    """Each command of the documents works after each other one in the same checkout, and the gate takes what the launchers proved."""
    tree = RealTree(f"{folder}/real")
    # After an interrupt a static library, then a program; after these, `rt try` and `rt check`, the gate, which proves the rest alone.
    tree.interrupt()
    assert tree.links() and tree.says("./locations") == "true\n"
    assert tree.says("rt", "try", within="crates/locations") == "true\n"
    assert "logic=proved" in tree.says("rt", "check", within="crates/low")
    assert tree.gate() == {"explain"}
    # After the gate, beside what `rt check` left: static library and programs. After `./explain`, the gate.
    assert tree.links() and tree.says("./explain") == tree.says("./locations") == "true\n"
    # After `rt run`, which proves libraries of its own, a launcher and the gate.
    assert tree.says("rt", "run", within="crates/explain").endswith("true\n")
    assert tree.says("./explain") == "true\n" and tree.gate() == set()
