"""The words with which Git runs Secure Shell, and the program that gets them.

Git's words are those that a `GIT_SSH_COMMAND` gets, which shows them and fails: by `git ls-remote`, `git send-pack` and `git
archive --remote`, or for an address family by `git fetch` and `git push`. If the library has other words than Git, or none, the
difference is in a class: one of `git_classes.py`, or one of those below, which are described in docs/RULES.md. In each
command `sh` must read the words of the program, by default only the service, and the path.

Git's own events (`GIT_TRACE2_EVENT`) show which programs `git ls-remote` starts: the words of each start, and whether a shell
runs them. Programs in a folder of the test's own, the only one in which Git finds them, replace Secure Shell: they end with a
status of their own if they get `-G`, otherwise they show their words and fail. The location has a port, for which the variants
have different options; if Git starts nothing, as for `simple`, it is run again without one.
"""
import json
import os
import random
import re
import tempfile
from collections import namedtuple

import git_classes
from git_classes import Case as Compared
from git_classes import Reading
from second_reading.git_reads import user_cuts
from git_runs import in_repositories, is_named, listed, named, order_of, put
from row_text import bytes_of, text_of
from runs import answers
from second_reading import git_class, grammar, writing
from texts import Programs
from transports import in_loops, shown

SHOW = r"""f() { { printf '\001'; printf '%s\001' "$@"; printf '%s\001\002' "$GIT_PROTOCOL"; } >&2; false; }; f"""
# A shell reads a command, and writes the words that it reads.
READ = r'(eval "set -- $text"; printf "%s\001" "$@")'
SERVICES = ("git-upload-pack", "git-receive-pack", "git-upload-archive")
VARIANTS = ("ssh", "plink", "putty", "tortoiseplink", "simple")
# The programs that may replace a service, with the words that a shell reads in them; None if it expands something.
PROGRAMS = {
    b"/opt/up": [b"/opt/up"], b"/opt/up x": [b"/opt/up", b"x"], b"'/opt/my up' -v": [b"/opt/my up", b"-v"], b"up\\ x\\'": [b"up x'"],
    b"sudo  git-upload-pack": [b"sudo", b"git-upload-pack"], b"git-receive-pack": [b"git-receive-pack"], b"git-upload-pack": [b"git-upload-pack"],
    b"git-receive-pack ": [b"git-receive-pack"], b"up\xc3\xa4\xff": [b"up\xc3\xa4\xff"], b"~/bin/up": None, b"A=1 $HOME/up": None, b"up;": None,
    b"-x": None, b"--upload-pack": None, b"": None,
}
CALLS = ("ssh::ssh_command", "ssh::ssh_command_for", "SshCommand::git_protocol")
# A run of Secure Shell: the variant, the version of the protocol, the service, the address family (4 or 6), and the program
# that replaces the service's.
Run = namedtuple("Run", "variant version service family program", defaults=(None, None))
# A text, its run, and the value of `GIT_PROTOCOL` with the words after it: Git's, or its reason for none, and the library's,
# None if it returns none.
Case = namedtuple("Case", "text run git own")
REFUSALS = {b"strange hostname": "strange hostname", b"strange pathname": "strange pathname", b"no path specified": "no path",
            b"is not supported": "unknown protocol", b"git-over-rsync": "rsync", b"does not support setting port": "port-of-simple", b"does not support -": "family-of-simple"}
# The reasons why a location has no command, which are classes of differences if Git runs one.
REASONS = {
    "not-read": lambda it, run: it is None,
    "not-of-ssh": lambda it, run: it.scheme != ("Ssh",),
    "password": lambda it, run: it.password is not None,
    "empty-user": lambda it, run: it.user == b"",
    "no-host": lambda it, run: not it.host,
    "byte-zero": lambda it, run: any(b"\0" in (one or b"") for one in (it.user, it.host, it.path)),
    "like-an-option": lambda it, run: any((one or b"").startswith(b"-") for one in (it.user, it.host, it.path)),
    "at-sign-in-host": lambda it, run: b"@" in it.host,
    "like-a-url": lambda it, run: (it.user or it.host).startswith(b"ssh://"),
    "empty-program": lambda it, run: run.program == b"",
    "option-like-program": lambda it, run: (run.program or b"").startswith(b"-"),
    "family-of-simple": lambda it, run: run.variant == "simple" and run.family is not None,
    "port-of-simple": lambda it, run: run.variant == "simple" and it.port is not None,
}
# The classes of differences, in addition to those of `git_classes`. For an address family Git has no words either.
CLASSES = (*(it for it in REASONS if it != "family-of-simple"), "zeros-of-port")
# Reasons against programs, which don't depend on the location.
OF_PROGRAMS = ("empty-program", "option-like-program")
# The run of the examples of classes in the documents.
USUAL = Run("ssh", 2, SERVICES[0])
RUNS = {"port-of-simple": USUAL._replace(variant="simple"), "empty-program": USUAL._replace(program=b""), "option-like-program": USUAL._replace(program=b"-x")}


def runs_of(texts):
    """Each text run by `ssh` and by `plink`, a tenth of them by other variants and services, and a fourth by an address family, for which
    `git archive` has no option, a program that replaces the service's, or both."""
    choice = random.Random(len(texts)).choice
    for at, text in enumerate(texts):
        yield from ((text, Run(variant, choice((2, 2, 0, 1)), SERVICES[0])) for variant in VARIANTS[:2])
        if at % 10 == 0 and text[:1] != b"-":
            yield text, Run(choice(VARIANTS), choice((0, 1, 2)), choice(SERVICES))
        if at % 4 == 0 and text[:1] != b"-":
            service, family = choice(SERVICES), choice((None, 4, 6))
            yield text, Run(choice(("ssh", *VARIANTS)), choice((0, 1, 2)), service, None if service == SERVICES[2] else family, choice((None, *PROGRAMS)))


# ---- Git and the library

def answer(said):
    if found := shown(said):
        return [found[-1], *found[:-1]]
    return named(said, REFUSALS) or said.decode("latin-1")


def command_of(text, run):
    """The command of Git that makes a run for a text."""
    words, option, rest = {
        ("git-upload-archive", False): (["archive"], b"--exec", [b"--remote=" + text, "HEAD"]),
        ("git-upload-pack", False): (["ls-remote"], b"--upload-pack", ["--", text]),
        ("git-upload-pack", True): (["fetch", f"-{run.family}"], b"--upload-pack", ["--", text]),
        ("git-receive-pack", False): (["send-pack", "--all"], b"--receive-pack", ["--", text]),
        ("git-receive-pack", True): (["push", f"-{run.family}"], b"--receive-pack", ["--", text, ":refs/heads/x"]),
    }[run.service, run.family is not None]
    program = [] if run.program is None else [option + b"=" + run.program]
    return ["git", "-c", f"protocol.version={run.version}", *words, *program, *rest]


def asked_of_git(asked):
    """The words that Git passes to Secure Shell for texts, each with its run."""
    return in_repositories(lambda ask, _, it: answer(ask(*command_of(*it), GIT_SSH_VARIANT=it[1].variant)), [([], asked)], GIT_SSH_COMMAND=SHOW)


def order(text, run, call=None):
    own = CALLS[0] if (run.family, run.program) == (None, None) else CALLS[1]
    return order_of(call or own, url=text, **run._asdict())


def asked_of_library(asked):
    """The library's words for the locations in texts, None if it returns none."""
    read = [it for it in asked if grammar.spells(it[0]) is not None]
    said = answers([order(*it, call) for call in (None, CALLS[2]) for it in read])
    found = {it: None if isinstance(words, dict) else [bytes_of(word) for word in (str(variable or ""), *words)]
             for it, words, variable in zip(read, said, said[len(read) :])}
    return map(found.get, asked)


def commands(asked):
    return [Case(*it, git, own) for it, git, own in zip(asked, asked_of_git(asked), asked_of_library(asked))]


def program_of(run):
    """The program that the server runs, before a space and the path."""
    return run.service.encode() if run.program is None else run.program


def path_of(command, run):
    """The path in a command, without its quotes."""
    return re.sub(rb"'\\(['!])'", rb"\1", command[len(program_of(run)) + 2 : -1])


# ---- differences

def cut(found, run):
    """The reading of words, their port as written, and the words that belong to no part of a location."""
    at = next((at for at, it in enumerate(found[:-2]) if it in (b"-p", b"-P")), len(found) - 2)
    port = found[at + 1] if at < len(found) - 2 else None
    user, host = next(iter(user_cuts(found[-2])), (None, None))
    reading = Reading("ssh", user, None, host or None, None if port is None else int(port), path_of(found[-1], run))
    return "empty user" if host is None else reading, port, [*found[:at], *found[at + 2 : -2], found[-1][: len(program_of(run)) + 2]]


def class_of(case, location, reason):
    """The class of a text for which the library has other words than Git, or none: None without a class, and if the library's
    words aren't for the location's own parts, or otherwise differ from Git's."""
    of_git, port, others = (case.git, None, None) if isinstance(case.git, str) else cut(case.git, case.run)
    if reason or of_git == "port-of-simple":
        return reason or of_git
    ours = Reading("ssh", location.user, None, location.host or None, location.port, location.path)
    own, own_port, own_others = cut(case.own, case.run) if case.own else (None, None, None)
    if own != ours or others not in (None, own_others):
        return None
    if of_git == ours:
        return None if port == own_port else "zeros-of-port"
    return git_classes.class_of(Compared(case.text, of_git, ours), git_classes.CLASSES)


def judged(cases):
    """The cases in which the library has other words than Git, each with its class, and with None those with a fault:
    the library has to return a command if no reason is against it, and Git's words if `agrees_with_git` is true of the
    location for which the text is written."""
    for it in cases:
        location, is_given = grammar.spells(it.text), it.own is not None
        reason = next((name for name, is_so in REASONS.items() if is_so(location, it.run)), None)
        example = f"{it.text!r}, {it.run}: Git has {it.git}, and the library {it.own}"
        if it.own != (None if isinstance(it.git, str) else it.git):
            is_own = location is not None and git_class.agrees_with_git(location) and writing.text(location) == it.text
            yield None if is_own and reason not in OF_PROGRAMS else class_of(it, location, reason), example
        if is_given == (reason is not None):
            yield None, example


def misread(cases):
    """The commands in which a shell reads other words than the program's and the path."""
    plain = [(it, words) for it in cases if isinstance(it.git, list) and (words := PROGRAMS.get(program_of(it.run), [program_of(it.run)]))]
    for (it, words), said in zip(plain, in_loops(READ, [it.git[-1] for it, _ in plain])):
        if said.split(b"\1")[:-1] != [*words, path_of(it.git[-1], it.run)]:
            yield f"a shell reads {said!r}: {it}"


def orders(asked):
    """The calls of the library for texts, each with its run, and Git's words."""
    for it, git in zip(asked, asked_of_git(asked)):
        yield order(*it), {"refused": True} if isinstance(git, str) else [*map(text_of, git[1:])]


# ---- the program

FAKE = r"""#!/bin/sh
case " $* " in *" -G "*) exit "$STATUS" ;; esac
{ printf '\001'; printf '%s\001' "$@"; printf '\002\n'; } >&2
exit 1
"""
# The three variables, None if they aren't set, and the status that a program has for `-G`.
Setting = namedtuple("Setting", "command path variant status")


def events(said):
    """Git's events in its output, the rest of which is for the user."""
    found = (json.loads(line.decode("utf-8", "surrogateescape")) for line in said.split(b"\n") if line.startswith(b'{"event":'))
    return [it for it in found if it["event"] in ("child_start", "child_exit", "error")]


def stopped(entries, said):
    """The place of the entry that Git stops at, None if it doesn't."""
    found = re.search(rb"bad config variable '([a-z.]+)' in file '.*' at line ([0-9]+)", said)
    if not found:
        return None
    at = int(found[2]) // 2 - 1
    if not is_named(entries[at], *found[1].split(b".")) or entries[at].value is not None:
        raise ValueError(f"Git stops at another entry: {said!r}")
    return {"error": "NoValue", "at": len(listed(entries[:at]))}


def variant_of(entries, setting, starts, ended):
    """The variant that Git takes the program for, by the words of its starts and the status of the first: it runs a
    program with `-G`, and takes the status for an answer."""
    if not starts:
        return "Simple"
    if starts[0][1] == "-G":
        if (ended == 0) != any("-p" in it[1:2] + it[3:4] for it in starts if it[1] != "-G"):
            raise ValueError(f"Git takes the status otherwise: {entries}, {setting}")
        return "Asked"
    if "-batch" in starts[0]:
        return "TortoisePlink"
    if "-p" in starts[0]:
        return "Ssh"
    # `plink` and `putty` have the same words.
    own = [it.value for it in entries if it.place is None and is_named(it, b"ssh", b"variant")]
    kept = setting.variant if setting.variant is not None else own[-1] if own else None
    return "Putty" if kept == b"putty" else "Plink"


def outcome(entries, setting, said, more):
    """Git's behaviour: it stops at an entry, or starts a program."""
    found = events(said)
    if stop := stopped(entries, said):
        return stop
    started = next(it for it in (*found, *events(more)) if it["event"] == "child_start")
    starts = [it["argv"] for it in found if it["event"] == "child_start"]
    ended = next((it["code"] for it in found if it["event"] == "child_exit"), None)
    words = shown(said)
    if words and not started["use_shell"] and words != [it.encode("utf-8", "surrogateescape") for it in starts[-1][1:]]:
        raise ValueError(f"the program gets other words than Git says: {said!r}")
    text = started["argv"][0].encode("utf-8", "surrogateescape")
    variant = variant_of(entries, setting, starts, ended)
    return {"text": text_of(text), "is_command_line": started["use_shell"], "variant": variant}


def program(ask, entries, setting):
    """The call of the library for a setting, with Git's outcome."""
    values = dict(zip(("GIT_SSH_COMMAND", "GIT_SSH", "GIT_SSH_VARIANT"), setting))
    variables = {**values, "STATUS": setting.status, "GIT_TRACE2_EVENT": "1"}
    said = ask("git", "ls-remote", "ssh://u@h:22/p", **variables)
    more = b"" if b'"child_start"' in said else ask("git", "ls-remote", "ssh://u@h/p", **variables)
    return order_of("SshProgram::of", entries, **{name.lower(): it for name, it in values.items()}), outcome(entries, setting, said, more)


def programs(configurations):
    """The calls of the library for settings; in their texts `@` is the folder of the programs."""
    with tempfile.TemporaryDirectory(prefix="programs-") as scratch:
        def placed(value):
            return value and value.replace(b"@", scratch.encode())

        for name in Programs.NAMES:
            put(f"{scratch}/{name.decode()}", FAKE, 0o700)
        asked = [([it._replace(value=placed(it.value)) for it in entries], [Setting(*map(placed, some), status) for *some, status in settings])
                 for entries, settings in configurations]
        return in_repositories(program, asked, PATH=f"{scratch}:{os.environ['PATH']}")
