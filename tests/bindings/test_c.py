"""The library for C, under AddressSanitizer and UndefinedBehaviorSanitizer, with leaks an error.

Each pointer is null in turn, and the memory after each call is compared with the memory before it, byte by byte; so is what a call leaves
in buffers and in the heap if a buffer is too short or a request for memory is refused, and which bytes the parts of a location are. The
answers to all short inputs and 10,000 remotes are those of `locations`, and member by member those of `explain --json`; whether Git reads
the same is by the rule of docs/GIT.md, written again in Python, and whether all readers do, by the class of docs/READERS.md. The rows of
vectors/ whose calls C has are answered. These tests have to find faults that are planted in the wrapper.
"""
import functools
import re

import pytest
from binding_rows import C
from build import OUT, TEXTS, built, check, copied, faults_of, inputs, is_caught, of_page, plant, run, sh
from git_runs import put
from members import check_members
from rt_api import ROOT, read, stored

pytestmark = pytest.mark.needs("cc", "ar")
# The files that tests in C share, and those of the tests of memory, with their flags.
SHARED = "reported orders rule_calls rule_configs"
OF_MEMORY = {"borrowed": ("reported", ""), "buffers": ("reported heap", "-Wl,--wrap=malloc,--wrap=realloc,--wrap=free")}
QUICK = ("nulls", "rule_nulls", *OF_MEMORY)


@functools.cache
def programs(folder, *names, sources="bindings/c"):
    """Tests in C over the sanitized library of these sources, in a folder."""
    built()
    sh(f'mkdir -p {folder}; proved_exports; library {folder}/libgix_url.a {sources} "${{sanitize[@]}}"')
    for name in names:
        compiled(folder, name)
    return folder


def compiled(folder, name):
    more, flags = OF_MEMORY.get(name, (SHARED, ""))
    files = " ".join(f"bindings/tests/{it}.c" for it in (name, *more.split()))
    sh(f'"${{CC:-cc}}" -std=c11 "${{sanitize[@]}}" "${{warnings[@]}}" -Ibindings/c/include {flags} {files} {folder}/libgix_url.a -o {folder}/{name}')
    return f"{folder}/{name}"


@pytest.fixture(scope="module")
def folder():
    return programs(f"{OUT}/c", *QUICK, "answers", "vectors", "members")


@pytest.mark.parametrize("name", QUICK)
def test_own_tests(name, folder):
    """Null pointers, what calls leave in buffers and in the heap, and the bytes that parts point to."""
    run(f"{folder}/{name}")


def test_each_call_that_returns_an_error_has_its_buffers_tested():
    headers = "".join(read(f"bindings/c/include/{it}.h") for it in ("gix_url", "gix_url_rules"))
    calls = re.findall(r"(?m)^gix_url_error (gix_url_[a-z_]*)\(", headers)
    made = read("bindings/tests/buffers.c")
    assert calls and not [it for it in calls if f"return {it}(" not in made]


@pytest.mark.parametrize("name", ["short inputs", "remotes"])
def test_answers(name, folder):
    given, wanted = inputs()[name]
    assert run(f"{folder}/answers", given=given) == wanted


def test_rows(folder):
    check(C().faults(f"{folder}/vectors"))


def test_members(folder):
    check_members(f"{folder}/members")


def test_program_of_the_page():
    put(f"{built()}/example.c", of_page("c", "gix_url.h"))
    sh(f'"${{CC:-cc}}" -std=c11 "${{warnings[@]}}" -Ibindings/c/include {OUT}/example.c {OUT}/libgix_url.a -o {OUT}/example')
    assert run(f"{OUT}/example", *TEXTS) == stored("bindings/tests/example.wanted")


@pytest.mark.parametrize("fault", faults_of("c"))
def test_finds(fault):
    """The quick tests come first."""
    copy = copied(f"{ROOT}/bindings/c", f"{OUT}/plant/c")
    plant(copy, *faults_of("c")[fault][1:])
    programs.cache_clear()
    folder = programs(f"{OUT}/plant", sources=copy)
    made = (compiled(folder, it) for it in QUICK)
    if not any(is_caught(lambda it=it: run(it)) for it in made):
        compiled(folder, "answers")
        vectors = compiled(folder, "vectors")
        assert is_caught(*(lambda it=it: test_answers(it, folder) for it in inputs()), lambda: check(C().faults(vectors)))
