"""The crate for Rust, over the built library: the rows of vectors/, the same lines as `locations` and `explain` answer, its own tests,
the programs of its documentation; and faults that are planted in its code, which the rows have to find."""
import functools
import os
import shutil

import pytest
from binding_rows import Rust
from build import CRATE, OUT, RULE_TABLES, TEXTS, built, check, copied, faults_of, inputs, is_caught, of_page, plant, run
from git_runs import put
from members import check_members
from rt_api import ROOT, stored

pytestmark = pytest.mark.needs("cc", "cargo")
# These tables take only a part of the time of all.
TABLES = ("git", "parts", "reading", "shown", "unambiguous")


def cargo(words, manifest=f"{CRATE}/Cargo.toml", target=f"{OUT}/cargo", given=b"", more=(), **where):
    """What cargo writes, over the built library and with the repository, unless these are elsewhere."""
    verb, *options = words.split()
    found = {"GIX_URL_LIB": built(), "GIX_URL_REPOSITORY": ROOT, **where}
    return run("cargo", verb, "--offline", "--quiet", *options, "--manifest-path", manifest, *more, given=given, CARGO_TARGET_DIR=target, **found)


@functools.cache
def examples():
    cargo("build --example members --example vectors")
    return f"{OUT}/cargo/debug/examples"


def test_rust_version():
    """It calls nothing of the standard library that is newer than its rust-version. Clippy knows, if it is installed."""
    if not shutil.which("cargo-clippy"):
        pytest.skip("there is no clippy")
    cargo("clippy --lib", more=("--", "-D", "clippy::incompatible_msrv"))


def test_rows():
    check(Rust().faults(f"{examples()}/vectors"))


@pytest.mark.parametrize("words", ["test", "test --no-default-features --test drop_in --test original"])
def test_own_tests(words):
    """Among them are the answers to the same lines as `locations` gives."""
    for name, it in zip(("remotes", "remotes.wanted"), inputs()["remotes"]):
        put(f"{built()}/{name}", it)
    cargo(words)


def test_members():
    check_members(f"{examples()}/members")


def test_program_of_the_page():
    os.makedirs(f"{built()}/readme/src", exist_ok=True)
    put(f"{OUT}/readme/src/main.rs", of_page("rust", "gix_url_proved"))
    put(f"{OUT}/readme/Cargo.toml", '[package]\nname = "readme"\nversion = "0.1.0"\nedition = "2021"\n\n[workspace]\n\n[dependencies]\n'
        f'gix-url-proved = {{ path = "{ROOT}/{CRATE}" }}\n')
    assert cargo("run", f"{OUT}/readme/Cargo.toml", more=("--", *TEXTS)) == stored("bindings/tests/example.wanted")


@pytest.mark.parametrize("fault", faults_of("rust", "rules"))
def test_finds(fault):
    """The fault, in calls over locations or over a configuration, has to compile. Cargo takes the crate and a newer copy for the same, so the
    copies are built in a folder of their own."""
    copy, (kind, *texts) = copied(f"{ROOT}/{CRATE}", f"{OUT}/rust-plant"), faults_of("rust", "rules")[fault]
    plant(f"{copy}/src", *texts)
    cargo("build --example vectors", f"{copy}/Cargo.toml", f"{OUT}/cargo-plant")
    tables = TABLES if kind == "rust" else RULE_TABLES
    assert is_caught(lambda: check(Rust().faults(f"{OUT}/cargo-plant/debug/examples/vectors", *tables)))
