"""Runs of the built programs: over lines, and over orders for calls of the library."""
import json
import re
import subprocess

from rt_api import program

# The numbers in a summary: lines, URLs, scp forms, local paths, remote helpers; settled, not settled, refused, dangerous.
SUMMARY = (b"lines: %d\nform\n%8d  URL\n%8d  scp form\n%8d  local path\n%8d  remote helper\n"
           b"verdict\n%8d  settled\n%8d  not settled\n%8d  refused\n%8d  dangerous\n")


def ended(texts, end=b"\n"):
    return b"".join(it + end for it in texts)


def run(name, words=(), given=b"", timeout=600, **how):
    """A run of a program: its status, its output and its reports."""
    return subprocess.run([program(name), *words], input=given, capture_output=True, timeout=timeout, check=False, **how)


def explain(words=(), given=b"", timeout=600, statuses=(0, 1)):
    """What `explain` writes; it must end with one of these statuses."""
    ran = run("explain", words, given, timeout)
    assert ran.returncode in statuses, f"explain {words} ended with {ran.returncode}: {ran.stderr!r}"
    return ran.stdout


def explained(lines, *words, end=b"\n"):
    """The objects that `explain --json` answers to lines."""
    return [json.loads(it) for it in explain(["--json", *words], ended(lines, end)).split(b"\n")[:-1]]


def shown(lines):
    """What `explain` answers to lines, each with its heading and its rows."""
    return re.split(rb"(?m)^(?=line \d+: )", explain(given=ended(lines)))[1:]


def outcomes(command, orders):
    """The lines that a program answers to orders, one each."""
    given = "".join(f"{it}\n" for it in orders).encode()
    ran = subprocess.run([command], input=given, stdout=subprocess.PIPE, check=False)
    lines = ran.stdout.decode().split("\n")[:-1]
    assert ran.returncode == 0 and len(lines) == len(orders), f"{command} ended with {ran.returncode} after {len(lines)} of {len(orders)} orders"
    return lines


def answers(orders):
    """The outcomes of orders, in the form of the rows of docs/VECTORS.md, by one run of the program `answers`."""
    return [*map(json.loads, outcomes(program("answers"), [*map(json.dumps, orders)]))]


def together(readings):
    """The results of generators, each of which yields lists of orders and is sent their outcomes. One run answers all that wait."""
    waiting, found = [(it, None) for it in readings], {}
    while waiting:
        asked = []
        for it, said in waiting:
            try:
                asked.append((it, it.send(said)))
            except StopIteration as end:
                found[it] = end.value
        said = iter(answers([order for _, orders in asked for order in orders]))
        waiting = [(it, [next(said) for _ in orders]) for it, orders in asked]
    return [found[it] for it in readings]
