"""The tests of the repository: `pytest tests/rows -k homes`. What is built, what is sampled, and what is left out.

A folder is what is tested. The programs are those that environment variables name (ANSWERS, EXPLAIN, LOCATIONS), or those of these
sources, which `scripts/built` proves and builds first. A test whose command or module is missing is skipped, and fails where CI is
`true`. Texts are made by `texts.py`, the same ones each time.
"""
import importlib.util
import os
import shutil
import sys

import pytest

sys.dont_write_bytecode = True
ROOT = os.path.dirname(os.path.dirname(os.path.realpath(__file__)))


def has(name):
    return bool(name() if callable(name) else shutil.which(name) or importlib.util.find_spec(name))


def pytest_runtest_setup(item):
    """A test with the mark `needs` is skipped where something that it names is missing."""
    missing = [getattr(name, "__name__", name) for mark in item.iter_markers("needs") for name in mark.args if not has(name)]
    if missing:
        (pytest.fail if os.environ.get("CI") == "true" else pytest.skip)(f"{', '.join(missing)} is missing: scripts/needs installs it")


def pytest_addoption(parser):
    parser.addoption("--record", action="store_true", help="write what is found into the stored tables, pages and pictures that a test compares")
    parser.addoption("--remotes", action="append", default=[], help="a file with a remote in each line, for readers in place of the repository's")


@pytest.fixture(scope="session", autouse=True)
def at_the_root():
    """All tests run at the root of the repository, whose folder `out` they may write to."""
    os.chdir(ROOT)
    os.makedirs("out", exist_ok=True)
