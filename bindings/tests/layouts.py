"""Checks that the structs, the numbers and the calls of the package gix_url are those of the headers, as a C compiler
sees them."""
import ctypes
import enum
import os
import re
import subprocess
import sys
import tempfile

import gix_url
import pytest
from gix_url import _calls, _library, rules

INCLUDE = f"{os.path.dirname(os.path.realpath(__file__))}/../c/include"
COMPILER = os.environ.get("CC", "cc")
# The names in C of structs and enumerations whose names in Python aren't the same words.
NAMES = {"Location": "gix_url", "Look": "gix_url_seen", "Parts": "gix_url_components", "Variant": "gix_url_ssh_variant"}
# What begins the names of the numbers of enumerations in C.
FRONTS = {
    "condition": "CONDITION_", "flaw": "FLAW_", "no_transport": "TRANSPORT_", "danger": "DANGER_", "unread": "UNREAD_",
    "protocol": "PROTOCOL_", "ssh_variant": "SSH_", "ssh_refusal": "SSH_", "abnormal": "ABNORMAL_",
    "unresolved": "UNRESOLVED_", "submodule_refusal": "SUBMODULE_"}


def types_of(kind, *modules):
    """The types of this kind in modules of the package, by their names in C."""
    every = (it for module in modules for it in vars(module).items())
    found = {name: it for name, it in every if isinstance(it, type) and issubclass(it, kind)}
    return {NAMES.get(name) or re.sub("([A-Z])", r"_\1", f"gix_url{name}").lower(): it for name, it in found.items()}


STRUCTS = types_of(ctypes.Structure, _library, _calls)
NUMBERS = {name: it for name, it in types_of(enum.IntEnum, gix_url, rules).items() if list(it)}
# Calls of the headers that the package doesn't use.
UNUSED = {"danger_name"}
TYPES = {_library.Size: "size_t", _library.Truth: "_Bool", _library.Number: "int", ctypes.c_uint8: "uint8_t",
         ctypes.c_char: "char", **{it: name for name, it in STRUCTS.items()}}


def output(*command, given=""):
    """The output of a command, which must succeed, for an input."""
    return subprocess.run(command, input=given, stdout=subprocess.PIPE, text=True, check=True).stdout


def preprocessed(header):
    return output(COMPILER, "-E", "-P", "-xc", "-", given=f'#include "{INCLUDE}/{header}"\n')


def ran(lines):
    """The output of a program in C with these lines."""
    begin = '#include <stdio.h>\n#include "gix_url_rules.h"\nint main(void) {'
    with tempfile.TemporaryDirectory() as folder:
        text = "\n".join([begin, *lines, "}\n"])
        output(COMPILER, "-xc", "-", f"-I{INCLUDE}", "-o", f"{folder}/program", given=text)
        return output(f"{folder}/program").split("\n")[:-1]


HEADER = preprocessed("gix_url_rules.h")
CALL = re.compile(r"gix_url_error gix_url_(\w+)\((.*?)\);", re.S)


def members(kind, name):
    """The texts between the braces of a type, one for each member."""
    body = re.search(rf"typedef {kind} {name} {{(.*?)}} {name};", HEADER, re.S)
    return [it.strip() for it in re.split("[;,]", body[1]) if it.strip()]


def numbers(name):
    return [it.split("=")[0].strip() for it in members("enum", name)]


def short(name, front):
    """The name that a number of the headers has in Python."""
    return name.removeprefix(f"GIX_URL_{front}").removeprefix("GIX_URL_").removesuffix("_FAMILY")


def in_c(kind):
    """The name of a type in C. A number of an enumeration is an int here."""
    if kind is ctypes.c_char_p:
        return "char *"
    return f"{in_c(kind._type_)} *" if hasattr(kind, "contents") else TYPES[kind]


def parameter(text):
    """The type of a parameter of the header, with the same rule."""
    kind = re.sub(r"\bconst\b|\w+$", "", text.strip()).strip()
    return "int" if f"typedef enum {kind} " in HEADER else kind


def test_all_are_compared():
    assert (len(STRUCTS), len(NUMBERS)) == (24, 17)


@pytest.mark.parametrize("name", STRUCTS)
def test_structs_have_the_members_of_the_headers(name):
    fields = [it[0] for it in STRUCTS[name]._fields_]
    assert [re.search(r"\w+$", it)[0] for it in members("struct", name)] == fields


def test_members_are_at_their_places():
    lines, wanted = [], []
    for name, kind in STRUCTS.items():
        lines.append(f'printf("{name} %zu\\n", sizeof({name}));')
        wanted.append(f"{name} {ctypes.sizeof(kind)}")
        for field, _ in kind._fields_:
            place = f"offsetof({name}, {field}), sizeof((({name} *)0)->{field})"
            lines.append(f'printf("{name}.{field} %zu %zu\\n", {place});')
            wanted.append(f"{name}.{field} {getattr(kind, field).offset} {getattr(kind, field).size}")
    assert ran(lines) == wanted


@pytest.mark.parametrize("name", NUMBERS)
def test_numbers_are_those_of_the_headers(name):
    kind, front = NUMBERS[name], FRONTS.get(name.removeprefix("gix_url_"), "")
    found = dict(it.split() for it in ran(f'printf("{it} %d\\n", {it});' for it in numbers(name)))
    named, wanted = {short(it, front): int(value) for it, value in found.items()}, {it.name: it.value for it in kind}
    assert {it: value for it, value in named.items() if value or it in wanted} == wanted


def test_errors_are_those_of_the_headers():
    names = ("_".join(re.findall("[A-Z][a-z]+", it.__name__)).upper() for it in rules._STOPS.values())
    assert ran(f'printf("%d\\n", GIX_URL_{it});' for it in names) == [str(it) for it in rules._STOPS]


def test_calls_are_those_of_the_header():
    others = {it[1] for it in CALL.finditer(preprocessed("gix_url.h"))}
    found = {it[1]: it[2].split(",") for it in CALL.finditer(HEADER) if it[1] not in others}
    declared = {name: [parameter(it) for it in given] for name, given in found.items() if name not in UNUSED}
    assert declared == {name: [in_c(it) for it in call.types()] for name, call in _calls.CALLS.items()}


# Calls of each kind, and the errors that they raise.
CALLS = """
import gix_url
from gix_url import rules
config, text = rules.Configuration(), "h:p"
for call in (
    lambda: rules.Configuration.from_listing(b""), lambda: config.rewrite_fetch(text), config.submodules,
    lambda: config.permission(text), lambda: rules.secrets(text), lambda: rules.redacted(text),
    lambda: rules.Danger.TOKEN.words, lambda: rules.check_submodule(rules.Entry(b"a", None, b"b", None)),
    lambda: rules.ssh_words(gix_url.Url(gix_url.Scheme.SSH))
):
    try:
        print(call())
    except (MemoryError, gix_url.Error) as error:
        print(type(error).__name__)
"""


def ran_by(lines, program):
    """The output of a program in Python, and the last line of its errors, over a library of these lines of C."""
    names = ("error_name", "fault_name", "kind_name", "write_fault_name", "error_words", "version")
    texts = (f'const char *gix_url_{it}(void) {{ return "0"; }}' for it in names)
    with tempfile.TemporaryDirectory() as folder:
        library = f"{folder}/libgix_url.so"
        output(COMPILER, "-shared", "-fPIC", "-xc", "-", "-o", library, given="\n".join([*texts, *lines, ""]))
        searched = os.path.dirname(os.path.dirname(gix_url.__file__))
        environment = {**os.environ, "GIX_URL_LIB": library, "PYTHONPATH": searched}
        command = [sys.executable, "-B", "-c", program]
        ran = subprocess.run(command, capture_output=True, text=True, check=False, env=environment)
    return ran.stdout.split() + ran.stderr.split("\n")[-2:-1]


def test_a_library_without_the_calls_is_named():
    assert ran_by((), "import gix_url; print(gix_url.__version__)") == ["0"]
    error, = ran_by((), "import gix_url.rules")
    assert re.match("ImportError: gix_url: the library lacks a call: .*gix_url_read_listing$", error)


@pytest.mark.parametrize("number, wanted", [
    (1, "MemoryError"), (101, "Error"), (102, "Error"), (103, "Error"), (999, "Error")])
def test_no_error_is_taken_for_a_result(number, wanted):
    lines = [f"int gix_url_{it}(void) {{ return {number}; }}" for it in _calls.CALLS]
    assert ran_by(lines, CALLS) == [wanted] * 9
