"""The effects of Git's transports: the words that Git passes to their programs, the way OpenSSH reads them, and the repositories
that Git's commands open on this machine.

Scripts that show their arguments and exit replace Secure Shell, the connection of `git://` and `git-upload-pack`, so Git runs
to its end and connects to nothing. `ssh -G` reports how OpenSSH reads a word; it doesn't connect either. The repositories are
made each time in a folder of their own, which also has the home folder.
"""
import os
import re
import shutil
import subprocess
import tempfile

from git_classes import HOME, SECURE_URL, Reading
from second_reading.git_reads import git_port
from git_runs import alone, in_repositories
from rt_api import rows_of

OWN = ("ssh", "git", "file")
# It shows its words, each followed by byte 1, between byte 1 and byte 2.
SHOW = r"""#!/bin/sh
{ printf '\001'; printf '%s\001' "$@"; printf '\002'; } >&2
exit 1
"""
# It shows the request that Git sends after them, whose first four digits are its length, with byte 3 for each byte 0.
SHOW_REQUEST = r"""#!/bin/sh
length=$(dd bs=1 count=4 2>/dev/null)
{ printf '\001'; printf '%s\001' "$@"; dd bs=1 count=$((0x$length - 4)) 2>/dev/null | tr '\000' '\003'; printf '\001\002'; } >&2
exit 1
"""
# OpenSSH uses this user if the word names none.
NO_USER = b"not-named"
PLAIN_WORD = re.compile(rb"([A-Za-z0-9_-]+@)?[A-Za-z0-9.-]+")
GIT_PORT, SECURE_PORT = 9418, 22


def shown(answer):
    """The words that a program has shown in an answer; None if no program was started."""
    found = re.search(rb"\x01(.*)\x01\x02", answer, re.S)
    return found and found[1].split(b"\x01")


def in_loops(command, texts, files=(), **more):
    """The output of a command for each `$text`. A shell runs it for many of them, which takes a fourth of the time, and once for equal ones."""
    loop = f"for text; do {command} 2>&1; printf '\\0'; done"
    every = [*dict.fromkeys(texts)]
    parts = [every[at : at + 200] for at in range(0, len(every), 200)]
    said = in_repositories(lambda ask, _, some: ask("sh", "-c", loop, "sh", *some).split(b"\0")[:-1], [([], parts)], files, **more)
    assert [*map(len, said)] == [*map(len, parts)]
    found = dict(zip(every, (it for some in said for it in some)))
    return [found[it] for it in texts]


def ask_git(command, texts):
    """Git's answers to texts, if only Secure Shell is allowed: `ls-remote --` shows the transport with the words for its program, and
    `fetch-pack --diag-url` the reading."""
    return in_loops(f'git {command} "$text"', texts, {"GIT_SSH": SHOW}, GIT_ALLOW_PROTOCOL="ssh", GIT_SSH_VARIANT="ssh")


def host_and_port(text):
    """Host and port of `git://`, split as Git's `get_host_and_port` does: around brackets, then at the first colon."""
    start = text.find(b"@[") + 1
    close = text.find(b"]", start) if text[start : start + 1] == b"[" else -1
    name, colon, digits = text[close + 1 :].partition(b":")
    port = git_port(digits)
    if close >= 0:
        return text[:start] + text[start + 1 : close], port
    return text if port is None and (digits or not colon) else name, port


def diagnosed(said):
    """The reading that `git fetch-pack --diag-url` shows; None if it shows none."""
    if found := re.search(rb"\nDiag: userandhost=(.*)\nDiag: port=(.*)\nDiag: path=(.*)\n\Z", said, re.S):
        user, at, host = found[1].rpartition(b"@")
        protocol = SECURE_URL if (user or host).startswith(b"ssh://") else "ssh"
        port = None if found[2] == b"NONE" else int(found[2])
        return Reading(protocol, user if at else None, None, host or None, port, found[3])
    found = re.search(rb"\nDiag: protocol=(git|file)\nDiag: hostandport=(.*)\nDiag: path=(.*)\n\Z", said, re.S)
    if found is None:
        return None
    # Git opens the path of a file URL on this machine, whatever its host.
    host, port = host_and_port(found[2]) if found[1] == b"git" else (None, None)
    protocol = HOME if found[1] == b"file" and found[3].startswith(b"~") else found[1].decode()
    return Reading(protocol, None, None, host or None, port, found[3])


def quoted(text):
    """A text as Git quotes it for a shell."""
    return b"'" + re.sub(rb"(['!])", rb"'\\\1'", text) + b"'"


def words_got(protocol, words):
    """The words that the program of a transport gets: a word for a host, a port and a path, or only a path."""
    if protocol == "ssh":
        return words[-2], int(words[words.index(b"-p") + 1]) if b"-p" in words[:-2] else None, words[-1]
    if protocol == "git":
        host, port, request = words
        path = re.match(rb"\S+ (.*?)\x03host=", request, re.S)
        return host, int(port), path and path[1]
    return tuple(words)


def words_wanted(reading):
    """The words that the program of a transport must get for a reading."""
    host, port, path = reading.host or b"", reading.port, reading.path
    if reading.protocol == "ssh":
        return host if reading.user is None else reading.user + b"@" + host, port, b"git-upload-pack " + quoted(path)
    return (host, GIT_PORT if port is None else port, path) if reading.protocol == "git" else (path,)


def program_fault(text, answer, reading):
    """The fault of the words that a program got for a reading, if there is one.

    Git refuses a text of `git://` by rules of its own: for an end of a line, or, before such a program, for a host or a
    port that begins with `-`. After an empty path Git reads the byte after the text's end, which may be a `~`, so there
    the path isn't compared.
    """
    words = shown(answer)
    if reading.protocol == "git" and (b"%0a" in text.lower() or words is None):
        refusal = rb"fatal: newline is forbidden" if b"%0a" in text.lower() else rb"fatal: strange (hostname|port) '-"
        return None if words is None and re.match(refusal, answer) else f"Git answers {answer!r}"
    if words is None:
        return f"no program is started: {answer!r}"
    if reading.path == b"" or text.endswith(b":") and reading.path.startswith(b"~"):
        return None
    return None if words_got(reading.protocol, words) == words_wanted(reading) else f"the program gets {words}"


def program_faults(readings, answers):
    """The texts for whose readings a program gets other words, each with the fault. For Secure Shell the answers have the
    words; those of `git://` and of this machine are run again, with both allowed."""
    own = {text: it for text, it in readings.items() if isinstance(it, Reading) and it.protocol in (*OWN, HOME)}
    others = [text for text, it in own.items() if it.protocol != "ssh"]
    programs = {"SHOW": SHOW, "GIT_PROXY_COMMAND": SHOW_REQUEST}
    said = in_loops('git ls-remote --upload-pack="$SHOW" -- "$text"', others, programs, GIT_ALLOW_PROTOCOL="git:file")
    for text, answer in {**answers, **dict(zip(others, said))}.items():
        if text in own and (fault := program_fault(text, answer, own[text])):
            yield text, fault


# ---- OpenSSH

def ask_secure_shell(pairs):
    """OpenSSH's answers to words, each with its port or None: a loop gets the option for the port, a space and the word."""
    texts = [b"%s %s" % (b"" if port is None else b"-p%d" % port, word) for word, port in pairs]
    return in_loops('ssh -F "$SETTINGS" -G ${text%% *} "${text#* }" x', texts, {"SETTINGS": f"User {NO_USER.decode()}\n"})


def heard_fault(answer, reading):
    """The fault of OpenSSH's reading of the word for Git's reading, if there is one.

    It must refuse a word with an empty user, and read a word that is a URL as another user and host; it may refuse
    others, as with port 0. Its host is the one that it shows itself, not the host that it would look up, which is in
    lower case.
    """
    is_refused = not re.search(rb"\nport [0-9]+\n", answer)
    if reading == "empty user":
        return None if is_refused else "OpenSSH doesn't refuse it"
    found = re.search(rb"(?:\A|\n)host (.*?)\nuser (.*?)\nhostname .*?\nport ([0-9]+)\n", answer, re.S)
    user = NO_USER if reading.user is None else reading.user
    port = SECURE_PORT if reading.port is None else reading.port
    is_heard = found is not None and (found[1], found[2], int(found[3])) == (reading.host or b"", user, port)
    if reading.protocol == SECURE_URL:
        return "OpenSSH doesn't read the word as a URL" if is_heard else None
    return None if is_refused or is_heard else f"OpenSSH reads {answer[:200]!r}"


def secure_faults(readings, answers):
    """The texts whose word OpenSSH reads differently, each with the fault, if it is installed. Of the words that are a
    plain user and a plain host, it gets every tenth."""
    if not shutil.which("ssh"):
        return
    named = [text for text, it in readings.items() if it == "empty user" or isinstance(it, Reading) and it.protocol in ("ssh", SECURE_URL)]
    pairs = {text: words_got("ssh", shown(answers[text]))[:2] for text in named}
    plain = [it for it in dict.fromkeys(pairs.values()) if PLAIN_WORD.fullmatch(it[0])]
    asked = {*pairs.values()} - {*plain} | {*plain[::10]}
    heard = dict(zip(asked, ask_secure_shell(asked)))
    for text, pair in pairs.items():
        if pair in heard and (fault := heard_fault(heard[pair], readings[text])):
            yield text, fault


# ---- repositories

# The repositories, below the folder.
REPOSITORIES = ("home/x", "here/x", "here/~/x", "here/~no-such-user/x", "here/a:b", "here/]/c", "here/a@[b]/c")
# A text, with the folder's path for `{}`; the repository that `git ls-remote`, `git fetch` and `git push` open, and the one
# that `git clone` opens: None if it is refused.
OPENED = rows_of("vectors/texts/opened.jsonl")


class Scratch:
    """Repositories in a folder, each identified by a commit of its own."""

    def __init__(self, scratch):
        self.scratch, self.here = scratch, f"{scratch}/here"
        people = {f"GIT_{it}_{part}": "x" for it in ("AUTHOR", "COMMITTER") for part in ("NAME", "EMAIL")}
        self.environment = alone(scratch, GIT_ALLOW_PROTOCOL="file", **people)
        os.mkdir(f"{scratch}/home")
        os.mkdir(self.here)
        self.said("init", "--quiet")
        self.tree = self.said("write-tree")
        self.known = {self.made(it): it for it in REPOSITORIES}
        self.commit = self.said("commit-tree", "-m", "pushed", self.tree)

    def said(self, *words):
        return subprocess.run(["git", *words], cwd=self.here, env=self.environment, input=b"", capture_output=True).stdout.decode().strip()

    def name(self, path):
        found = os.path.relpath(os.path.realpath(os.path.join(self.here, path.decode())), self.scratch)
        return found if found in REPOSITORIES else None

    def made(self, name):
        path = f"{self.scratch}/{name}"
        commit = self.said("commit-tree", "-m", name, self.tree)
        self.said("init", "--quiet", "--bare", "--initial-branch=main", path)
        self.said("push", "--quiet", f"file://{path}", f"{commit}:refs/heads/main")
        return commit

    def pushed(self, text):
        """The repository into which Git pushes: the branch is removed from it again, which Git reports."""
        self.said("push", "--quiet", text, f"{self.commit}:refs/heads/pushed")
        found = [it for it in REPOSITORIES if self.said("--git-dir", f"{self.scratch}/{it}", "branch", "-D", "pushed")]
        return found[0] if len(found) == 1 else None

    def opened(self, text):
        """The repositories that `git ls-remote`, `git fetch`, `git clone` and `git push` open: None for one that opens none."""
        listed = self.said("ls-remote", text, "HEAD").partition("\t")[0]
        self.said("update-ref", "-d", "FETCH_HEAD")
        self.said("fetch", "--quiet", text)
        fetched = self.said("rev-parse", "--quiet", "--verify", "FETCH_HEAD")
        with tempfile.TemporaryDirectory(dir=self.scratch) as clone:
            self.said("clone", "--quiet", "--bare", text, f"{clone}/x")
            cloned = self.said("--git-dir", f"{clone}/x", "rev-parse", "--quiet", "--verify", "HEAD")
        return [*map(self.known.get, (listed, fetched, cloned)), self.pushed(text)]
