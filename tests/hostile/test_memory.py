"""Refused memory: counts the requests of each call and their bytes, and refuses each of them in turn. After each
run, with or without a refused request, as many bytes are held as after one without the call: everything that it requested is freed.

The rows are those of all tables in `vectors/`, and the program `answers` makes the calls, an order in each run: one run ends
before the call and one makes it, so the difference is the call's requests. Each request goes through `refuse_memory.c`, built
by the toolchain's compiler: `rt try --fail-alloc N` counts the same, but builds for each N.
"""
import collections
import concurrent.futures
import itertools
import json
import os
import re
import subprocess

import pytest
from rt_api import KIT, ROOT, program
from tables import MEMORY, rows, topics

# At most this many of the rows of one line are taken.
OF_A_LINE = 20
# A longer order comes through the pipe in pieces, and then the number of requests to read it varies.
LONGEST = 60_000
LINES = b"/a\nhttp://u%41:p@h/a%20b\nhttp://h:0/\nssh+git:///p\nh%41:p\nuser@[::1]:p\na::b\n\n"
ANSWER = (
    b"settled\t/a\nsettled\thttp://uA:p@h/a%20b\nrefused\tBadUrl BadPort\nunsettled\tssh\nsettled\th%41:p\n"
    b"settled\tuser@[::1]:p\nsettled\ta::b\nrefused\tEmptyLocal\n"
)
# Calls that collect into a list, which requests less if a larger request is refused: then they may return the correct result.
COLLECTING = {"danger::dangers"}


class Ran:
    """A run of a program whose requests are counted, with one of them refused; with none for 0."""

    def __init__(self, words, shim, given, refused):
        with open(os.memfd_create("requests"), "rb") as reported:
            env = {"LD_PRELOAD": shim, "REFUSED": str(refused), "REQUESTS_TO": str(reported.fileno())}
            ran = subprocess.run(words, input=given, env=env, pass_fds=[reported.fileno()], capture_output=True, timeout=600)
            reported.seek(0)
            self.reported = reported.read()
        self.status, self.out, self.err = ran.returncode, ran.stdout, ran.stderr
        # The bytes of each request, and the bytes held at the end.
        self.requests = [*map(int, re.findall(rb"(\d+)[+-]", self.reported))]
        self.held = int((re.findall(rb"(\d+)=", self.reported) or [0])[-1])

    def is_refused(self):
        return b"-" in self.reported


@pytest.fixture(scope="module")
def shim(tmp_path_factory):
    """Before the allocator."""
    clang, made = f"{KIT}/toolchain/bin/clang", tmp_path_factory.mktemp("shim") / "refuse.so"
    subprocess.run([clang, "-O1", "-shared", "-fPIC", "-nostdlib", "-fuse-ld=lld", "-o", made, f"{ROOT}/tests/hostile/refuse_memory.c"], check=True)
    return str(made)


def sampled(table):
    """The rows, only the first ones of those of one line, and none with a very long order."""
    seen = collections.Counter()
    for row in table:
        seen[row.place] += 1
        if seen[row.place] <= OF_A_LINE and len(row.order()) <= LONGEST:
            yield row


def refused_outcome(row):
    """The required result of the call of a row if its memory is refused: that error, otherwise the row's expectation."""
    call = row.members["call"]
    if call in ("expand_path::with", "Url::canonicalized"):
        return [MEMORY if call == "expand_path::with" else [MEMORY, 0], row.expected[1]]
    return {"outcome": MEMORY, "status": 2, "out": ""} if call == "lines::run" else MEMORY


def tells_memory(row, ran):
    """Whether a run only reported that memory was refused to the call of a row."""
    try:
        return ran.status == 0 and json.loads(ran.out) == refused_outcome(row)
    except ValueError:
        return False


def run_row(shim, row, is_made, refused=0):
    """A run over the order of a row. The orders with and without the call are equally long, and are read alike."""
    order = row.order(prepare=not is_made) + ("" if is_made else " ")
    return Ran([program("answers")], shim, f"{order}\n".encode(), refused)


def faults_of(shim, row):
    """The number of requests of the call of a row, and its faults: with ample memory, and if a request is refused, which comes after
    those that were made before the call."""
    prepared, ample = (run_row(shim, row, is_made) for is_made in (False, True))
    asked = ample.requests[len(prepared.requests):]
    found = [it for it in (
        (prepared.status, prepared.out) != (0, b"\n") and f"what the call is over is not prepared: {prepared.out!r}",
        ample.status and f"the program ended with status {ample.status}",
        ample.held != prepared.held and f"{ample.held} bytes are held in the end, and {prepared.held} without the call",
        row.fault(ample.out.decode(errors="replace"))) if it]
    if found:
        return 0, found
    if row.requests is not None and len(asked) > row.requests:
        found.append(f"makes {len(asked)} requests for memory, and may make {row.requests}")
    if row.bytes is not None and sum(asked) > row.bytes:
        found.append(f"asks for {sum(asked)} bytes of memory, and may ask for {row.bytes}")
    for number in range(1, len(asked) + 1):
        ran = run_row(shim, row, True, len(prepared.requests) + number)
        if ran.held != prepared.held:
            found.append(f"with request {number} refused {ran.held} bytes are held in the end, and {prepared.held} without the call")
        if not ran.is_refused():
            found.append(f"request {number} is not made again")
        elif not tells_memory(row, ran) and not (row.members["call"] in COLLECTING and row.fault(ran.out.decode()) is None):
            found.append(f"with request {number} refused it returns {ran.out!r}")
    return len(asked), found


@pytest.mark.parametrize("topic", topics())
def test_calls(topic, shim):
    table = [*sampled(rows(topic))]
    with concurrent.futures.ThreadPoolExecutor(2 * os.cpu_count()) as lanes:
        found = [*lanes.map(lambda row: faults_of(shim, row), table)]
    assert not [f"{row.place}: {it}: {row.order()}" for row, (_, faults) in zip(table, found) for it in faults]
    for row, (made, _) in zip(table, found):
        if row.requests is not None and made < row.requests:
            print(f"{row.place}: makes {made} requests, and the row says {row.requests}")
    # Otherwise the program's memory doesn't come by the shim.
    assert any(made for made, _ in found) or not any(it.requests for it in table)


def test_locations(shim):
    """The program, with each of its requests refused."""
    for number in itertools.count(1):
        ran = Ran([program("locations")], shim, LINES, number)
        wanted = (2, b"", b"locations: out of memory\n", 0) if ran.is_refused() else (1, ANSWER, b"", 0)
        assert (ran.status, ran.out, ran.err, ran.held) == wanted, f"with request {number} refused"
        if not ran.is_refused():
            assert number > 1
            return
