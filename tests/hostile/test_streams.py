"""Real streams: the programs with streams that fail, or transfer little at a time, and `explain` on a terminal."""
import os
import pty
import re
import subprocess

import pytest
from row_text import joined
from rt_api import program, rows_of

LINES = b"a::b://c\n/srv/repo.git\nhttp://h:0/\n"


@pytest.mark.parametrize("row", rows_of("tests/hostile/streams.jsonl"), ids=lambda it: it["command"])
def test_stream(row):
    words = ["bash", "-o", "pipefail", "-c", row["command"], program(row["program"])]
    ran = subprocess.run(words, input=LINES, capture_output=True, timeout=600)
    assert (ran.returncode, ran.stderr.decode()) == (row["status"], row["reported"])
    assert ran.stdout.decode() == joined(row["shown"])


def test_end_of_a_terminal():
    """Reading a terminal is reported. The end of input, typed after an unended line, ends the run: the shell gets what is typed later."""
    terminal, other = pty.openpty()
    started = subprocess.Popen([program("explain")], stdin=other, stdout=subprocess.PIPE, stderr=subprocess.PIPE)
    os.write(terminal, b"h:p\x04\x04next\n")
    try:
        said, reported = started.communicate(timeout=600)
    finally:
        started.kill()
    assert (started.returncode, said.startswith(b"line 1: scp form, settled\n"), b"line 2" in said) == (0, True, False)
    assert re.fullmatch(rb"explain: reads a location a line.*\n", reported)
    assert os.read(other, 100) == b"next\n"
