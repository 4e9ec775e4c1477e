"""Size: lines of 100 MB and millions of lines, answered correctly, in linear time, with few reads and with little memory; calls
over texts of some MB, by the program `answers`, the page of `explain --html` over 100,000 lines, a configuration with
100,000 rules and entries, and a file of 20,000 submodules, in linear time; and a summary of 2,000,000 lines, whose memory doesn't
grow with them.

Time is processor time. A quadratic algorithm takes ten times as long for each byte of a text that is ten times as long; four
times is accepted, for a machine with other load.
"""
import filecmp
import json
import os
import subprocess
import sys
from functools import partial

import pytest
from row_text import joined
from rt_api import program, rows_of
from runs import SUMMARY
from texts import realistic

LARGE, LARGE_ORDER = 100_000_000, 4_000_000
# For each byte that is read, in addition to the program's own memory.
MOST_BYTES = 6
OWN_BYTES = 2_000_000
MOST_GROWTH = 4
# The minimum of bytes that a system call reads, and the number of other such calls of the program.
LEAST_READ = 1024
OWN_READS = 1000
# A program that takes longer is stopped.
MOST_SECONDS = 120
SETTLED, REFUSED = b"settled\t", b"refused\t"
CHUNK = 1 << 20

ROWS = rows_of("tests/hostile/sizes.jsonl")
SHAPES, CALLS = ([it for it in ROWS if ("order" in it) == is_call] for is_call in (False, True))


def chunks(begin, repeated, count, end):
    """The pieces of a text, so that the memory of this process never holds all of it."""
    at_once = max(1, CHUNK // len(repeated))
    yield begin
    for _ in range(count // at_once):
        yield repeated * at_once
    yield repeated * (count % at_once) + end


def put(path, pieces):
    with open(path, "wb") as it:
        return sum(map(it.write, pieces))


# Starts a program with its streams in files, and prints its status, its seconds, its bytes of memory and its system calls that read. The
# memory of the process that starts a program counts for it, so this one is small.
LAUNCHER = r"""
import json, os, re, resource, sys
given, out, seconds, *words = sys.argv[1:]
resource.setrlimit(resource.RLIMIT_CPU, (int(seconds), resource.getrlimit(resource.RLIMIT_CPU)[1]))
streams = [(os.POSIX_SPAWN_OPEN, 0, given, os.O_RDONLY, 0), (os.POSIX_SPAWN_OPEN, 1, out, os.O_WRONLY | os.O_CREAT | os.O_TRUNC, 0o600)]
process = os.posix_spawn(words[0], words, {}, file_actions=streams)
os.waitid(os.P_PID, process, os.WEXITED | os.WNOWAIT)
with open(f"/proc/{process}/io", encoding="ascii") as it:
    reads = int(re.search(r"(?m)^syscr: (\d+)", it.read())[1])
_, status, used = os.wait4(process, 0)
print(json.dumps([os.waitstatus_to_exitcode(status), used.ru_utime + used.ru_stime, used.ru_maxrss * 1024, reads]))
"""


class Ran:
    """A run of a program over a text, and whether its answer is correct, if an answer is given."""

    def __init__(self, words, folder, text, answer=None):
        given, right, out = (f"{folder}/{it}" for it in ("given", "right", "out"))
        self.size = put(given, text)
        started = [sys.executable, "-I", "-S", "-c", LAUNCHER, given, out, str(MOST_SECONDS), *words]
        said = subprocess.run(started, stdout=subprocess.PIPE, check=True).stdout
        self.status, self.seconds, self.bytes, self.reads = json.loads(said)
        if answer is None:
            self.is_right = self.status in (0, 1) and os.path.getsize(out) > self.size
            return
        put(right, answer)
        with open(right, "rb") as it:
            # Each line has the same answer, so the front of the answer determines the status.
            wanted = 1 if it.read(len(REFUSED)) == REFUSED else 0
        # It takes files with equal names, sizes and times for the same ones.
        filecmp.clear_cache()
        self.is_right = self.status == wanted and filecmp.cmp(out, right, shallow=False)


def line_of(shape, size):
    """The pieces of a line of a shape, and of its answer."""
    begin, repeated, end = (shape[it].encode() for it in ("begin", "repeated", "end"))
    count = (size - len(begin) - len(end)) // len(repeated)
    shown = [shape["answer"].encode()] if "answer" in shape else chunks(SETTLED + begin, repeated, count, end + b"\n")
    return chunks(begin, repeated, count, end + b"\n"), shown


def compact(*values):
    return tuple([json.dumps(it, separators=(",", ":")).encode() + b"\n"] for it in values)


def order_of(call, size):
    """The pieces of an order over a text of a size, and of its outcome."""
    count = size // len(call["repeated"])
    row = joined(json.loads(json.dumps(call).replace('"N"', str(count))))
    return compact(row["order"], row["is"])


def remotes_of(size):
    """This many remotes, each with another number, each tenth of which has a host of its own."""
    remotes = realistic()
    named = (remotes[n % len(remotes)] if n % 10 else b"https://host%d.example/p" % n for n in range(size))
    return [b"%b%d\n" % (it, n // len(remotes)) for n, it in enumerate(named)], None


def rules_of(size):
    return "".join(f"url.https://h{n}/.insteadof\na{n}:\0" for n in range(size))


def order_of_rules(size):
    """The pieces of an order over this many rules, each with a base of its own, the last of which applies, and of its outcome."""
    return compact({"call": "Rewrites::rewrite_fetch", "config": rules_of(size), "text": f"a{size - 1}:p"}, f"https://h{size - 1}/p")


def configuration_of(size):
    """This many rules, helpers and names of `http.*`; the answer to an HTTP line shows all but the rules."""
    settings = "".join(f"credential.helper\ns{n}\0http.n{n}\nv\0" for n in range(size))
    return [f"{rules_of(size)}{settings}".encode()], None


def modules_of(size):
    """This many submodules, each with a path and a host of its own."""
    return [b'[submodule "m%d"]\n\tpath = p/%d\n\turl = https://h%d.example/m.git\n' % (n, n, n) for n in range(size)], None


def lines_of_a_byte(count):
    return chunks(b"", b"a\n", count, b""), chunks(b"", b"settled\ta\n", count, b"")


def summed(size):
    """This many lines with one host, and their summary."""
    shown = SUMMARY % (size, 0, size, 0, 0, size, 0, 0, 0) + b'host\n%8d  "example.com"\n' % size
    return chunks(b"", b"git@example.com:group/repo.git\n", size, b""), [shown]


def compare(words, folder, make, large, most_bytes=None, most_seconds=MOST_SECONDS, most_more=None):
    """Runs over a size, and twice over a tenth of it; the memory for each byte, also for each that a tenth lacks, and the seconds
    may be limited."""
    name, *more = words
    tenths, whole = [Ran([program(name), *more], folder, *make(large // 10)) for _ in range(2)], Ran([program(name), *more], folder, *make(large))
    assert all(it.is_right for it in (*tenths, whole)), "it is answered otherwise"
    # The ratio of the times for each byte in the larger and the smaller size.
    growth = whole.seconds / max(0.001, min(it.seconds for it in tenths)) / (whole.size / tenths[0].size)
    size = (whole.bytes - OWN_BYTES) / whole.size
    more_bytes = (whole.bytes - tenths[-1].bytes) / (whole.size - tenths[-1].size)
    print(f"{whole.seconds:.1f} s, {growth:.2f} times as long for each byte as a tenth of it, {size:.2f} bytes of memory, {whole.reads} reads")
    assert growth <= MOST_GROWTH, "that isn't linear"
    assert whole.seconds <= most_seconds
    assert not most_bytes or size <= most_bytes
    assert not most_more or more_bytes <= most_more
    assert whole.reads <= OWN_READS + whole.size // LEAST_READ


@pytest.mark.parametrize("words, make, large, limits", [
    *(pytest.param(["locations"], partial(line_of, it), LARGE, {"most_bytes": MOST_BYTES}, id=f"{it['begin']}{it['repeated']}..{it['end']}")
      for it in SHAPES),
    *(pytest.param(["answers"], partial(order_of, it), LARGE_ORDER, {}, id=f"{it['order']['call']} over {it['repeated']}..") for it in CALLS),
    pytest.param(["locations"], lines_of_a_byte, 5_000_000, {"most_bytes": MOST_BYTES}, id="lines of a byte"),
    # A page has many bytes for each byte of the remotes, and its memory.
    pytest.param(["explain", "--html"], remotes_of, 100_000, {"most_bytes": 40}, id="page"),
    pytest.param(["answers"], order_of_rules, 100_000, {"most_seconds": 10}, id="a rewrite by many rules"),
    pytest.param(["explain", "--json", "--config", "-", "https://h/p"], configuration_of, 100_000, {"most_seconds": 10},
                 id="a large configuration"),
    pytest.param(["explain", "--gitmodules", "-"], modules_of, 20_000, {"most_seconds": 2}, id="many submodules"),
    pytest.param(["explain", "--summary"], summed, 2_000_000, {"most_more": 0.1}, id="a summary")])
def test_size(words, make, large, limits, tmp_path):
    compare(words, tmp_path, make, large, **limits)
