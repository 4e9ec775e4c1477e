"""The package for Python: a wheel, installed without a registry into an environment of its own, and the package that
`scripts/bindings --install` puts below a prefix, which finds its library there. Faults are planted in the package, which
the rows and the tests of calls over a configuration have to find."""
import functools
import os

import pytest
from binding_rows import Python
from build import OUT, RULE_TABLES, TEXTS, built, check, faults_of, inputs, is_caught, of_page, plant, run, sh
from git_runs import put
from rt_api import ROOT, stored

pytestmark = pytest.mark.needs("cc", "wheel", "setuptools", "ensurepip")
VECTORS, FOUND = f"{ROOT}/bindings/tests/vectors.py", {"PYTHONDONTWRITEBYTECODE": "1"}
# It does the same, with a pattern in each buffer, which it checks after each call.
PATTERNED = f"{ROOT}/bindings/tests/patterned.py"


@functools.cache
def installed():
    """The variables by which the wheel is used."""
    built()
    sh(f"rm -rf {OUT}/dist {OUT}/venv; wheel {OUT}/dist; python3 -m venv --system-site-packages {OUT}/venv; {OUT}/venv/bin/pip install --quiet --no-index"
       f' --disable-pip-version-check {OUT}/dist/gix_url-"$(version)"-py3-none-linux_x86_64.whl')
    return {"PATH": f"{OUT}/venv/bin:{os.environ['PATH']}", **FOUND}


def python(*words, given=b"", statuses=(0,), **environment):
    return run("python3", "-W", "error", *words, given=given, statuses=statuses, **{**installed(), **environment})


def test_rows(monkeypatch):
    for name, value in installed().items():
        monkeypatch.setenv(name, value)
    check(Python().faults(PATTERNED))


@pytest.mark.parametrize("name", ["values", "package", "rules", "layouts"])
def test_own_tests(name):
    python("-m", "pytest", f"bindings/tests/{name}.py")


def test_programs_of_the_page():
    put(f"{built()}/example.py", of_page("python", "gix_url"))
    assert python(f"{OUT}/example.py", *TEXTS) == stored("bindings/tests/example.wanted")
    put(f"{OUT}/rules.py", of_page("python", "rules"))
    remotes = ("gh:a/b", "ext::sh -c id", "-x", "https://u:secret@h/p")
    assert python(f"{OUT}/rules.py", *remotes, given=b"url.https://github.com/.insteadof\ngh:\0") == stored("bindings/tests/rules.wanted")


def test_answers():
    """The package as a program."""
    given, wanted = inputs()["short inputs"]
    assert python("-m", "gix_url", given=given, statuses=(0, 1)) == wanted
    sh(f"rm -rf {OUT}/prefix-python; install_library {OUT}/prefix-python")
    given, wanted = inputs()["remotes"]
    where = {"PYTHONPATH": f"{OUT}/prefix-python/share/gix_url/python", **FOUND}
    assert run("python3", "-W", "error", "-m", "gix_url", given=given, statuses=(0, 1), **where) == wanted


@pytest.mark.parametrize("fault", faults_of("python"))
def test_finds(fault, monkeypatch):
    """The fault has to load."""
    folder = f"{built()}/python-plant"
    sh(f"rm -rf {folder}; put_package {folder}")
    plant(f"{folder}/gix_url", *faults_of("python")[fault][1:])
    for name, value in {"PYTHONPATH": folder, "GIX_URL_LIB": f"{OUT}/lib", **FOUND}.items():
        monkeypatch.setenv(name, value)
    run("python3", "-c", "import gix_url.audit")
    command = ("python3", "-W", "error", "-m", "pytest")
    own = (lambda it=it: run(*command, f"bindings/tests/{it}.py") for it in ("rules", "layouts"))
    assert is_caught(lambda: check(Python().faults(VECTORS, *RULE_TABLES)), *own)
