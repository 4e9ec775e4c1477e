"""Tests the modules gix_url.rules and gix_url.audit as Python sees them: types, errors, buffers, values, threads, help
and status."""
import copy
import dataclasses
import doctest
import enum
import inspect
import os
import pickle
import pydoc
import re
import subprocess
import sys
from concurrent.futures import ThreadPoolExecutor

import gix_url
import pytest
from gix_url import audit, rules
from gix_url.rules import Configuration, Entry

# The folder in which another process finds the package.
FOLDER = os.path.dirname(os.path.dirname(gix_url.__file__))
SEARCHED = os.pathsep.join(filter(None, [os.environ.get("PYTHONPATH"), FOLDER]))
URL = gix_url.parse("ssh://u@h:22/p")
ENTRY = Entry(b"submodule", b"a", b"url", b"../b")
NONE = Configuration()
# Calls, each with arguments of a wrong type.
WRONG = (
    (Configuration, "ab"), (Configuration, [ENTRY]), (Configuration, (b"a.b",)), (Configuration.from_listing, "a.b\0"),
    (Configuration.from_file, None), (NONE.rewrite_fetch, 5), (NONE.rewrite_push, None), (NONE.rewrite_push, "u", 1),
    (NONE.remote, None), (NONE.permission, 5), (NONE.settings, "proxy", URL), (NONE.settings, None, "u"),
    (NONE.credentials, URL), (rules.transport_of, URL), (rules.git_reading, bytearray(b"u")),
    (rules.credential_reading, 5), (rules.ssh_words, "h:p"), (rules.ssh_words, URL, 1), (rules.dangers, URL),
    (rules.dangers, "u", "u"), (rules.secrets, 5), (rules.redacted, None), (rules.resolve_submodule, "p", None),
    (rules.check_submodule, b"a.b"), (audit.audit, "[a]"), (Entry, "a", None, b"b", None),
    (Entry, b"a", "s", b"b", None), (Entry, b"a", None, None, None), (Entry, b"a", None, b"b", 5),
    (Entry, b"a", None, b"b", None, "1"), (Entry, b"a", None, b"b", None, True))
WRONG_NAMED = (
    (NONE.permission, "ssh", {"allow_list": 5}), (NONE.permission, "ssh", {"from_user": True}),
    (NONE.ssh_program, {"git_ssh": 5}), (rules.ssh_words, URL, {"program": 5}), (rules.ssh_words, URL, {"variant": 2}),
    (rules.ssh_words, URL, {"version": True}), (rules.ssh_words, URL, {"family": 4}))
HOSTILE = (
    b'[submodule "a"]\n\turl = ext::sh -c id\n\turl = https://u:s3cret@h/\n'
    b'[submodule "b\x1b]0;x"]\n\turl = ../../x\n\tpath = -x\n')


def listing(*entries):
    """The output of git config --list -z for keys with their values."""
    return Configuration.from_listing("".join("\n".join(it) + "\0" for it in entries).encode())


def raised(call, *given, **named):
    """The error that a call raises."""
    with pytest.raises(gix_url.Error) as error:
        call(*given, **named)
    return error.value


def results():
    """A result of each kind."""
    config = listing(("url.p:.insteadof", "gh:"), ("http.proxy", "http://u:s3cret@p"), ("credential.helper", "store"))
    return (
        config, *config.entries, *rules.secrets("https://u:s3cret@h/"), config.rewrite_fetch("gh:a"),
        config.remote("https://u:s3cret@h/"), config.permission("ssh"), config.settings("proxy", "https://h/"),
        config.ssh_program(git_ssh="x"), config.credentials("https://u:s3cret@h/"),
        rules.credential_reading("https://u:s3cret@h/p"), rules.ssh_words(URL), rules.git_reading("ssh://u@h:22/p"),
        listing(("submodule.a.url", "https://u:s3cret@h/")).submodules()[0], *rules.dangers("ext::x"),
        rules.resolve_submodule("https://u:s3cret@h/p", "../q"), *audit.audit(HOSTILE, "https://h/a"))


# ---- types

@pytest.mark.parametrize("call, given, named", [
    *((call, given, {}) for call, *given in WRONG), *((call, given, named) for call, *given, named in WRONG_NAMED)])
def test_no_call_takes_another_type(call, given, named):
    with pytest.raises(TypeError, match="^gix_url: [a-z_ ]+ is "):
        call(*given, **named)


def test_numbers_have_their_range():
    for version in (-1, 3, 258):
        with pytest.raises(ValueError):
            rules.ssh_words(URL, version=version)
    for place in ({"at": -1}, {"line": 1 << 64}):
        with pytest.raises(ValueError):
            dataclasses.replace(ENTRY, **place)
    assert raised(rules.ssh_words, URL, variant=rules.Variant.ASKED).name == "NoLocation"


def test_names_are_utf8():
    assert raised(NONE.permission, b"\xff").name == "NoLocation"
    assert raised(NONE.settings, b"\xff", "https://h/").name == "NoLocation"


@pytest.mark.parametrize("text", ["é", "h:\udcff", "\0"], ids=ascii)
def test_a_str_stands_for_its_utf8(text):
    given = text.encode(errors="surrogateescape")
    assert NONE.rewrite_fetch(text).text == given
    assert NONE.rewrite_fetch(given) == NONE.rewrite_fetch(text)


# ---- absence

def test_an_empty_variable_is_not_an_absent_one():
    assert NONE.permission("ssh", allow_list="").decision == rules.Decision.REFUSED
    assert NONE.permission("ssh").by == rules.Decider.BY_DEFAULT
    assert NONE.permission("file", from_user="").decision == rules.Decision.REFUSED
    assert (NONE.ssh_program().text, NONE.ssh_program(git_ssh="").text) == (b"ssh", b"")


def test_an_empty_part_is_not_an_absent_one():
    entries = [(it.subsection, it.value, it.key) for it in listing(("a..b", ""), ("a.b",)).entries]
    assert entries == [(b"", b"", b"a..b"), (None, None, b"a.b")]
    found = rules.credential_reading("https://:@h/")
    assert (found.user, found.password) == (b"", b"")
    assert rules.credential_reading("https://h/").user is None
    assert rules.ssh_words(URL, program="") == rules.SshRefusal.EMPTY_PROGRAM


def test_entries_are_made_by_hand():
    made = Entry(b"URL", b"https://h/", b"InsteadOf", b"gh:")
    config = Configuration((*listing(("a.b", "c")).entries, made))
    assert config.rewrite_fetch("gh:p") == rules.Rewritten(b"https://h/p", True, 10)
    assert Configuration(config.entries[:1]).rewrite_fetch("gh:p") == rules.Rewritten(b"gh:p", False, 0)
    with pytest.raises(dataclasses.FrozenInstanceError):
        config.entries = ()


# ---- errors

def test_git_stops_at_an_entry():
    rule = Entry(b"url", b"b", b"insteadof", None, at=77)
    config = Configuration((rule, Entry(b"credential", None, b"usehttppath", b"maybe", at=9)))
    error = raised(config.rewrite_fetch, "u")
    assert type(error) is rules.NoValue
    assert (error.name, error.at, error.line, error.flaw) == ("NoValue", 77, 0, None)
    assert str(error) == "Git stops at an entry without a value, at byte 77"
    error = raised(config.credentials, "https://h/")
    assert (type(error), error.name, error.at) == (rules.NoBoolean, "NoBoolean", 9)


OPEN_QUOTE = b'[a]\n\tb = "c\n'


@pytest.mark.parametrize("call, text, wanted", [
    (Configuration.from_listing, b"a.b\nv", (rules.Flaw.NO_END, 0, 0)),
    (Configuration.from_listing, b"a.b\0a\0", (rules.Flaw.NO_KEY, 4, 0)),
    (Configuration.from_file, OPEN_QUOTE, (rules.Flaw.OPEN_QUOTE, 11, 2))])
def test_a_text_is_no_configuration(call, text, wanted):
    error = raised(call, text)
    assert type(error) is rules.NoConfiguration
    assert (error.flaw, error.at, error.line) == wanted


def test_an_error_is_shown_with_its_place():
    error = raised(Configuration.from_file, OPEN_QUOTE)
    assert str(error) == f"{error.args[0]} (open_quote), at byte 11, line 2"
    assert "configuration" in error.args[0]


def test_errors_keep_their_fields():
    stopped = raised(listing(("url.a.insteadof",)).rewrite_fetch, "u")
    for error in (stopped, raised(Configuration.from_file, b"[a]\n=\n")):
        for protocol in range(pickle.HIGHEST_PROTOCOL + 1):
            again = pickle.loads(pickle.dumps(error, protocol))
            assert (type(again), str(again), vars(again)) == (type(error), str(error), vars(error))
        assert vars(copy.deepcopy(error)) == vars(error)


# ---- buffers

@pytest.mark.parametrize("length", [63, 64, 65, 1000, 100_000])
def test_long_texts_fit(length):
    text = "a" * length
    assert listing(("url.h:.insteadof", "x")).rewrite_fetch(f"x{text}").text == f"h:{text}".encode()
    assert Configuration.from_listing(f"a.b\n{text}\0".encode()).entries[0].value == text.encode()
    assert rules.resolve_submodule("https://h/a", f"../{text}").url == f"https://h/{text}".encode()
    assert rules.redacted(f"https://u:{text}@h/") == "https://u:redacted@h/"
    assert rules.ssh_words(gix_url.parse(f"h:{text}")).words[-1] == f"git-upload-pack '{text}'".encode()


@pytest.mark.parametrize("count", [1, 64, 65, 500])
def test_many_elements_fit(count):
    names = [f"n{it}" for it in range(count)]
    wanted = [it.encode() for it in names]
    config = listing(*((key, it) for key in ("remote.r.url", "credential.helper", "http.extraheader") for it in names))
    assert config.remote("r").urls == config.remote("r").push_urls == tuple(wanted)
    assert [it.value for it in config.credentials("https://h/").helpers] == wanted
    assert [it.value for it in config.settings("extraHeader", "https://h/").entries] == wanted
    modules = listing(*((f"submodule.{it}.path", it) for it in names)).submodules()
    assert [(it.name, it.path.value, it.url) for it in modules] == [(it, it, None) for it in wanted]


def test_lines_of_a_file_are_counted():
    entries = Configuration.from_file(b"".join(b"\n[a \"%d\"]\n\tb\n" % it for it in range(100))).entries
    assert [(it.line, it.value) for it in entries] == [(3 * it + 3, None) for it in range(100)]


# ---- values

def test_results_can_be_hashed_and_pickled():
    for it in results():
        for protocol in range(2, pickle.HIGHEST_PROTOCOL + 1):
            again = pickle.loads(pickle.dumps(it, protocol))
            assert (again, hash(again), repr(again)) == (it, hash(it), repr(it))
        assert copy.deepcopy(it) == it
        for field in dataclasses.fields(it) if dataclasses.is_dataclass(it) else ():
            with pytest.raises(dataclasses.FrozenInstanceError):
                setattr(it, field.name, None)


@pytest.mark.parametrize("name", [b"extraHeader", b"extraheader", b"smtpPass", b"apiToken", b"Password", b"cookie"])
def test_a_secret_by_its_name_is_not_represented(name):
    """Of http.<url>.*, as a result and in a configuration."""
    config = rules.Configuration((rules.Entry(b"http", b"https://h/", name, b"Authorization: Basic czNjcmV0"),))
    for it in (config, config.entries, config.settings(name, "https://h/p")):
        assert "czNjcmV0" not in repr(it) and "value=b'redacted'" in repr(it)
    assert "value=b'/c'" in repr(rules.Entry(b"http", None, b"cookieFile", b"/c"))


def test_a_password_in_a_user_is_not_represented():
    assert repr(rules.git_reading("ssh://u:s3cret@h/p")) == "GitPlace(protocol=Protocol.SSH, user=b'u:redacted', host=b'h', port=None, path=b'/p')"
    assert "user=b'u'" in repr(rules.git_reading("ssh://u@h/p"))


def test_no_password_is_represented():
    assert "s3cret" not in "".join(repr(it) for it in results())
    assert "redacted" in repr(rules.resolve_submodule("https://u:s3cret@h/p", "../q"))


def test_numbers_are_shown_by_name():
    assert (str(rules.Danger.OTHER_HOST), repr(rules.Variant.PUTTY)) == ("other_host", "Variant.PUTTY")
    wanted = ["gitmodulesName", "gitmodulesUrl", "gitmodulesPath", "gitmodulesUpdate"]
    assert [str(it) for it in rules.SubmoduleRefusal] == wanted


def test_one_configuration_is_used_in_threads():
    config = listing(("url.https://h/.insteadof", "gh:"), ("remote.r.url", "gh:r"))
    with ThreadPoolExecutor(8) as pool:
        found = [it.text for it in pool.map(config.rewrite_fetch, [f"gh:{it}" for it in range(200)])]
        assert found == [f"https://h/{it}".encode() for it in range(200)]
        assert {it.urls for it in pool.map(config.remote, ["r"] * 50)} == {(b"https://h/r",)}


def test_dangers_are_of_the_text_and_of_the_location():
    assert rules.dangers("https://u:p@h/") == (rules.Danger.PASSWORD,)
    assert rules.Danger.OTHER_HOST in rules.dangers("https://evil/p", gix_url.parse("https://h/p"))
    raised(rules.dangers, "http://h:0x/")


# ---- the audit

def audited(*words, given=b"", stdout=subprocess.PIPE):
    """The status and the output of the package as a program."""
    command = [sys.executable, "-B", "-W", "error", "-m", "gix_url", "audit", *words]
    environment = {**os.environ, "PYTHONPATH": SEARCHED}
    ran = subprocess.run(command, input=given, stdout=stdout, stderr=subprocess.PIPE, check=False, env=environment)
    return ran.returncode, (ran.stdout or b"").decode(), ran.stderr.decode()


def test_what_is_found_is_printed():
    wanted = (
        'line 2: "submodule.a.url": command: it runs a command: "ext::sh -c id"\n'
        'line 3: "submodule.a.url": password: it holds a password: "https://u:redacted@h/"\n'
        'line 5: "submodule.b\\x1b]0;x.url": climbs: it leaves the path of the parent: "https://x"\n'
        'line 6: "submodule.b\\x1b]0;x.path": gitmodulesPath: the path looks like an option: "-x"\n')
    assert audited("-", "--parent", "https://h/a", given=HOSTILE) == (1, wanted, "")


@pytest.mark.parametrize("text, parent, wanted", [
    (HOSTILE, None, [(2, "command"), (3, "password"), (5, "no_parent"), (6, "gitmodulesPath")]),
    (b'[submodule "a"]\n\turl = ../../../x\n', "/a", [(2, "unresolved")]),
    (b'[submodule "a"]\n\turl = ../x\n', "https://h/a", [])])
def test_a_relative_url_needs_a_parent(text, parent, wanted):
    assert [(it.entry.line, it.name) for it in audit.audit(text, parent)] == wanted


def test_the_status_is_that_of_explain(tmp_path):
    good = tmp_path / "good"
    good.write_bytes(b'[submodule "a"]\n\tpath = a\n\turl = https://h/a\n')
    assert audited(good) == (0, "", "")
    for words in ((), (tmp_path / "none",), (tmp_path,), (good, "--parent", "http://h:0x/"), (good, "--such")):
        status, out, err = audited(*words)
        assert (status, out, bool(err)) == (2, "", True), words
    status, out, err = audited("-", given=b"[a\x1b\n")
    assert (status, out) == (2, "")
    wanted = r"gix_url audit: [a-z ']+ configuration \(bad_section\), at byte 2, line 1\n"
    assert re.fullmatch(wanted, err)


def test_what_is_not_printed_is_not_whole():
    with open("/dev/full", "wb") as full:
        status, _, err = audited("-", given=HOSTILE, stdout=full)
    assert (status, err.count("\n")) == (2, 1)


def test_what_is_no_location_is_refused():
    found = audit.audit(b'[submodule "a"]\n\turl = http://h:0x/\n')
    assert [(it.name, it.words) for it in found] == [("refused", "the URL has an invalid port, at byte 9")]


def test_a_text_can_not_leave_its_line():
    value = b"ssh://-x/\\n\\t" + "\u202e\u00a0\u00e9".encode() + b"\xff"
    lines = [str(it) for it in audit.audit(b'[submodule "a\\"\\\\"]\n\turl = "' + value + b'"\n')]
    assert lines
    for it in lines:
        assert it.isprintable(), ascii(it)
        assert it.startswith('line 2: "submodule.a\\"\\\\.url": ')


# ---- help

def test_what_is_public_is_documented():
    public = [getattr(module, it) for module in (rules, audit) for it in module.__all__]
    classes = [it for it in public if inspect.isclass(it) and not issubclass(it, enum.Enum)]
    members = [it for of in classes for name, it in vars(of).items()
               if name[0] != "_" and (inspect.isfunction(it) or isinstance(it, (classmethod, property)))]
    assert len(members) > 10
    for it in (rules, audit, *public, *members):
        assert inspect.getdoc(it) not in (None, "", inspect.getdoc(enum.IntEnum)), it


def test_pydoc_shows_what_is_public():
    shown = pydoc.render_doc(rules, renderer=pydoc.plaintext)
    assert not [it for it in rules.__all__ if it not in shown]
    assert not [it for it in ("ctypes", "_lent", "_STOPS") if it in shown]


@pytest.mark.parametrize("module", [rules, audit])
def test_examples(module):
    failed, tried = doctest.testmod(module)
    assert tried and not failed
