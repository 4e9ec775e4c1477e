"""What `scripts/bindings --install` puts below a prefix: the headers, the libraries, the manual pages, and what is built with them."""
import glob
import os
import re

import pytest
from attacks import attacks, misled
from build import CRATE, OUT, built, run, sh
from rt_api import ROOT, read, stored
from runs import ended
from test_rust import cargo

pytestmark = pytest.mark.needs("cc", "c++", "clang", "pkg-config", "man", "nm", "readelf")
PREFIX = f"{OUT}/prefix"
FOUND = {"PKG_CONFIG_PATH": f"{PREFIX}/lib/pkgconfig", "LD_LIBRARY_PATH": f"{PREFIX}/lib"}
HEADERS = b"#include <gix_url_rules.h>\n#include <gix_url_rules.h>\n#include <gix_url.h>\nint main(void) { return !gix_url_version(); }\n"


@pytest.fixture(scope="module", autouse=True)
def prefix():
    built()
    sh(f"rm -rf {PREFIX}; install_library {PREFIX}")


def said(words):
    return sh(words).decode().split()


@pytest.mark.parametrize("compiler, language, version, file", [
    ("cc", "c", "c99", "-"), ("clang", "c", "c99", "-"),
    ("c++", "c++", "c++11", "bindings/tests/header.cc"), ("clang++", "c++", "c++11", "bindings/tests/header.cc")])
def test_headers(compiler, language, version, file):
    warnings = said('echo "${warnings[@]}"')
    words = ["-x", language, f"-std={version}", "-pedantic", *warnings, "-Ibindings/c/include", "-fsyntax-only", file]
    run(compiler, *words, given=HEADERS)


@pytest.mark.parametrize("library, flag, words", [
    ("libgix_url.so", "--dynamic", "declared"), ("libgix_url.a", "--extern-only", "declared; called_by_rust")])
def test_exported_symbols(library, flag, words):
    """Only the calls of the headers, and for Rust also those that the crate makes."""
    found = re.findall(r"(?m)^\w+ \w (\S+)$", run("nm", "--defined-only", flag, f"{PREFIX}/lib/{library}").decode())
    assert sorted(found) == sorted(said(words))


def test_versions():
    version, soname = said("version"), said('echo "$soname"')[0]
    assert f"[{soname}]" in run("readelf", "--dynamic", f"{PREFIX}/lib/libgix_url.so").decode()
    assert run("pkg-config", "--modversion", "gix_url", **FOUND).decode().split() == version
    assert f" (gix-url {version[0]})" in read("crates/explain/version")
    assert f'version = "{version[0]}"' in read("bindings/python/pyproject.toml").splitlines()


@pytest.mark.parametrize("section, name, word", [
    ("3", "gix_url", "GIX_URL_NO_ROOM"), ("3", "gix_url_look", "gix_url_seen"), ("3", "gix_url_rules", "GIX_URL_NO_CONFIGURATION"),
    ("3", "gix_url_permission_of", "gix_url_policy"), ("1", "locations", "unsettled"), ("1", "explain", "--json")])
def test_manual_page(section, name, word):
    """It shows without a warning, and contains this word."""
    shown = sh(f"man --warnings {section} {name} 2>{OUT}/warnings; [ ! -s {OUT}/warnings ]",
               LC_ALL="C.UTF-8", MANWIDTH="120", MANPATH=f"{PREFIX}/share/man")
    assert word in shown.decode()


@pytest.mark.parametrize("source", sorted(glob.glob("examples/c/*.c", root_dir=ROOT)))
@pytest.mark.parametrize("library", ["$(pkg-config --libs gix_url)", f"{PREFIX}/lib/libgix_url.a"], ids=["shared", "static"])
def test_example(source, library):
    """It prints the text that was written by hand next to it."""
    made = f"{OUT}/{os.path.basename(source)}.example"
    sh(f'"${{CC:-cc}}" -std=c99 "${{warnings[@]}}" $(pkg-config --cflags gix_url) {source} {library} -o {made}', **FOUND)
    assert run(made, given=stored("examples/remotes"), **FOUND) == stored(source.removesuffix(".c") + ".wanted")


@pytest.mark.parametrize("name", ["hosts", "ssh_command"])
def test_no_example_is_misled(name):
    """Of an attack it prints no host to which Git doesn't connect."""
    texts = ended(text.encode() for text, _ in attacks())
    assert misled(run(f"{OUT}/{name}.c.example", given=texts, **FOUND).decode().splitlines()) == []


@pytest.mark.needs("cargo")
def test_package_for_rust():
    """The package that cargo makes of the crate has the licences, and its tests pass without the repository, over the installed library; and
    so does an example in a program of its own."""
    listed = sh(f"cd {CRATE} && cargo package --offline --quiet --allow-dirty --list").decode().split()
    files = [it for it in listed if not re.fullmatch(r"Cargo\.(lock|toml\.orig)|\.cargo_vcs_info\.json", it)]
    assert {"LICENSE-APACHE", "LICENSE-MIT", "NOTICE", "README.md"} <= {*files}
    folder = f"{OUT}/rust-package"
    sh(f"rm -rf {folder}; mkdir -p {folder}; cd {CRATE} && cp -L --parents -t {folder} {' '.join(files)}")
    where = {"GIX_URL_LIB": f"{PREFIX}/lib", "GIX_URL_REPOSITORY": None}
    cargo("test --no-default-features --tests", f"{folder}/Cargo.toml", f"{OUT}/cargo-package", **where)
    shown = cargo("run --example hosts", f"{folder}/Cargo.toml", f"{OUT}/cargo-package", stored("examples/remotes"), **where)
    assert shown == stored("examples/c/hosts.wanted")
