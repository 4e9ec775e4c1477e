"""The readers of `test_readers.py`: programs in `readers/`, with the commands of `vectors/readers/readers.jsonl`, which build one, run it and show
its version.

A reader that lacks something on this machine is left out. Compiled programs are kept in `out/readers`.
"""
import json
import os
import re
import shutil
import subprocess
from collections import namedtuple

from rt_api import ROOT, rows_of

FOLDER, OUT = f"{ROOT}/tests/witnesses/readers", f"{ROOT}/out/readers"
JGIT = ":".join(f"/usr/share/java/{it}.jar" for it in ("org.eclipse.jgit", "slf4j-api", "slf4j-nop"))
ENVIRONMENT = {
    **os.environ, "FOLDER": FOLDER, "OUT": OUT, "JGIT": JGIT, "NODE_PATH": "/usr/share/nodejs", "PYTHONDONTWRITEBYTECODE": "1",
    "GO111MODULE": "off", "GOPATH": "/usr/share/gocode", "GOCACHE": f"{OUT}/go", "GOFLAGS": "-p=2"}
# The kind of a reader: `git` for a program of Git, which reads all of its forms, `forge` for one that converts the scp form to
# a URL, and `url` for a reader of URLs, which is only asked whether it finds a host in other texts. `decoded` are the parts
# that it decodes.
Reader = namedtuple("Reader", "name packages kind decoded shows build command")


def lines(topic):
    """The lines of a table of `vectors/readers/`."""
    return rows_of(f"vectors/readers/{topic}.jsonl")


READERS = [Reader(it["reader"], *map(it.get, Reader._fields[1:])) for it in lines("readers") if "command" in it]


def sh(command, given=None):
    return subprocess.run(["sh", "-c", command], env=ENVIRONMENT, input=given, stdout=subprocess.PIPE, stderr=subprocess.PIPE)


def version(reader):
    """The version of a reader, None if this machine lacks it, or the program that starts it."""
    program = reader.command.split()[0]
    if not shutil.which(program) and (program == "java" or not reader.build):
        return None
    ran = sh(reader.shows)
    return ran.stdout.decode().strip() or None if ran.returncode == 0 else None


def build(reader):
    """Whether the program of a reader exists; it is built if its sources are newer."""
    made = f"{OUT}/{re.sub('[^a-z0-9]', '_', reader.name.lower())}.built"
    newest = max(os.path.getmtime(f"{folder}/{it}") for folder, _, files in os.walk(FOLDER) for it in files)
    if not reader.build or os.path.exists(made) and os.path.getmtime(made) > newest:
        return True
    os.makedirs(OUT, exist_ok=True)
    ran = sh(f"{reader.build} && touch {made}")
    if ran.returncode:
        print(f"{reader.name} is left out, since it isn't built: {ran.stderr[-300:].decode(errors='replace')}")
    return ran.returncode == 0


def ask(reader, texts):
    ran = sh(reader.command, b"".join(it + b"\n" for it in texts))
    lines = ran.stdout.split(b"\n")[:-1]
    if ran.returncode or len(lines) != len(texts):
        raise ValueError(f"{reader.name} answers {len(lines)} of {len(texts)} texts: {ran.stderr[-500:]!r}")
    said = (json.loads(it.decode("utf-8", "surrogateescape"), strict=False) for it in lines)
    return [{name: str(part).encode("utf-8", "surrogateescape") for name, part in it.items() if part is not None}
            for it in said]
