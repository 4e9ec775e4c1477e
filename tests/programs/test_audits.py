"""The findings of `explain` in submodules and in lists of remotes, and its logs in SARIF.

The findings in the lines of a bad `.gitmodules` (`audited.txt`, after `=>`) are by hand. One about a submodule as a whole is at its
first entry, or at its path, and one in continued lines at the first of them. A log is valid by the rules of the schema of
SARIF 2.1.0 (`sarif.schema.json`), its rules and its places are those of the results, and it agrees with the JSON.
"""
import json
import os
import urllib.parse

import pytest
from row_text import bytes_of, joined
from rt_api import read, rows_of
from runs import explain
from texts import plain

jsonschema = pytest.importorskip("jsonschema")
SECRET = "S3cr3t"
# The lines of a file, and the names of what is found in each.
FILE = [(text, names.split()) for text, _, names in (it.partition(" => ") for it in read("tests/programs/audited.txt").splitlines())]
PARENT = "https://example.com/group/super.git"
ROWS = rows_of("tests/programs/configurations.jsonl")
CONFIG = next(bytes_of(joined(it["audited"])) for it in ROWS if "audited" in it)
# The characters that no text of a log may contain.
CONTROLS = {*map(chr, range(32)), "\x7f"}


def run(words, given=b"", status=0):
    return explain(words, given, statuses=[status])


def objects(words, given=b"", status=0):
    return [json.loads(it) for it in run([*words, "--json"], given, status).splitlines()]


def log(words, given=b"", status=0):
    """A log, which is valid by the schema, has no secret, and whose results agree with their rules."""
    found = json.loads(run([*words, "--sarif"], given, status))
    jsonschema.Draft7Validator(json.loads(read("tests/programs/sarif.schema.json"))).validate(found)
    rules = found["runs"][0]["tool"]["driver"]["rules"]
    assert len({it["id"] for it in rules}) == len(rules) and SECRET not in json.dumps(found)
    for result in found["runs"][0]["results"]:
        rule, text = rules[result["ruleIndex"]], result["message"]["text"]
        assert (rule["id"], rule["defaultConfiguration"]["level"]) == (result["ruleId"], result["level"])
        assert text and not CONTROLS & {*text}
    return found["runs"][0]


def results(found):
    """Each result of a log: its rule, the name of its file, its line and its columns."""
    for it in found["results"]:
        place = it["locations"][0].get("physicalLocation", {})
        region = place.get("region", {})
        file = urllib.parse.unquote(place.get("artifactLocation", {}).get("uri", ""))
        yield it["ruleId"], file, region.get("startLine"), region.get("startColumn"), region.get("endColumn")


def placed(file):
    """The expected findings in the file, each with its line and columns: from the key to the end of the line."""
    for number, (text, names) in enumerate(FILE, 1):
        key = next((text.rfind(f"{it}") for it in ("path =", "url =", "update =", "branch =", "url") if it in text), 0)
        yield from ((name, file, number, key + 1, len(text) + 1) for name in names)


def test_a_bad_file(tmp_path):
    """The log, the JSON and the text have the expectations by hand, from a file and from standard input."""
    file = tmp_path / "bad: ü%41.gitmodules"
    file.write_text("".join(f"{text}\n" for text, _ in FILE))
    words = ["--gitmodules", file, "--parent", PARENT]
    found = [*results(log(words, status=1))]
    assert sorted(found) == sorted(placed(f"file://{file}"))
    reports = objects(words, status=1)
    of_json = [(it["name"], it["line"], it["column"], it["end_column"]) for report in reports for it in report["places"]]
    assert of_json == [(it[0], *it[2:]) for it in found]
    for it in reports:
        names = {place["name"] for place in it["places"]}
        assert names <= {*it["findings"]} and bool(names) == bool(it["findings"])
    text = run(words, status=1).decode()
    assert text.count("line ") == len(found) and SECRET not in text + json.dumps(reports)
    assert run(["--gitmodules", "-", "--parent", PARENT], file.read_bytes(), 1).decode() == text
    run(["--gitmodules", file, "-q"], status=1)


def test_logs_of_lines(tmp_path):
    file = tmp_path / "a b.txt"
    file.write_bytes(b"h:p\nhttps://u:%b@h/x\nhttp://\xc3\xa9:0/\n\xff:ext\next::x" % SECRET.encode())
    found = [*results(log(["-f", file], status=1))]
    end = len(f"https://u:{SECRET}@h/x") + 1
    assert [(it[0], *it[2:]) for it in found if it[0::2][:2] != ("git-differs", 2)] == [
        ("password", 2, 1, end), ("refused", 3, 8, 9), ("refused", 4, 1, 2), ("command", 5, 1, 7), ("git-differs", 5, 1, 7)]
    assert {it[1] for it in found} == {f"file://{file}"}
    assert {it[1:3] for it in results(log([], b"h:p\next::x\n", 1))} == {("file:///dev/stdin", 2)}
    assert {it["locations"][0]["logicalLocations"][0]["name"] for it in log(["h:p", "ext::x"], status=1)["results"]} == {"argument 2"}
    lacking = log(["-f", "/no/such/file", "-f", os.devnull], status=2)
    assert lacking["invocations"] == [{"executionSuccessful": False}] and not lacking["results"]


def test_remotes():
    """Remotes and submodules of a configuration: their log, their JSON and their text."""
    reports = objects(["--remotes"], CONFIG, 1)
    found = [(it.get("remote", it.get("submodule")), {*it["findings"]}) for it in reports]
    wanted = [("origin", set()), ("bad", {"danger", "git-differs", "policy"}), ("a", {"danger", "password"}),
              ("b", {"danger", "gitmodulesUrl"}), ("c", {"danger", "gitmodulesUpdate"}), (None, {"danger", "gitmodulesName"})]
    assert [it[0] for it in found] == [it[0] for it in wanted]
    assert all(names <= has and bool(names) == bool(has) for (_, has), (_, names) in zip(found, wanted)), found
    rules = {it["ruleId"] for it in log(["--remotes"], CONFIG, 1)["results"]}
    assert {"command", "policy", "password", "gitmodulesUrl", "gitmodulesName", "gitmodulesUpdate"} <= rules
    assert SECRET not in run(["--remotes"], CONFIG, 1).decode() + json.dumps(reports)


def test_nothing_is_found_in_plain_remotes():
    """Nor in submodules of them."""
    assert not run(["--quiet"], b"\n".join(plain()))
    assert not log([], b"\n".join(plain()))["results"]
    file = b"".join(b'[submodule "%d"]\n\tpath = p%d\n\turl = %s\n' % (at, at, it) for at, it in enumerate(plain()))
    assert run(["--gitmodules", "-"], file).count(b"\n") == 3 * len(plain())
