"""The scripts have no fault that shellcheck or mypy finds."""
import glob
import os
import re
import subprocess

import pytest
from rt_api import ROOT, read

MYPY = ["mypy", "--cache-dir=/dev/null", "--ignore-missing-imports", "--scripts-are-modules", "--no-error-summary"]


def scripts(shell, ending):
    """The files of the repository that begin as scripts of a shell, or have its ending."""
    paths = (it for folder in ("scripts", "tools", "tests") for it in glob.glob(f"{folder}/**/*", root_dir=ROOT, recursive=True))
    paths = [it for it in (*paths, "locations", "explain", ".ci/run") if os.path.isfile(f"{ROOT}/{it}") and "__pycache__" not in it]
    return [it for it in paths if it.endswith(ending) or re.match(rf"#!.*{shell}", read(it))]


@pytest.mark.quick
@pytest.mark.needs("shellcheck")
def test_scripts_for_bash():
    found = scripts("bash", ".sh")
    assert len(found) > 5
    assert not subprocess.run(["shellcheck", "-x", *found], stdout=subprocess.PIPE, text=True).stdout


@pytest.mark.quick
@pytest.mark.needs("mypy")
@pytest.mark.parametrize("path, words", {
    "scripts": ("tools:scripts:tests", lambda: scripts("python3", ".py")),
    "tests of the package": ("bindings/python", lambda: glob.glob("bindings/tests/*.py", root_dir=ROOT)),
    "package": ("", lambda: ["--strict", "bindings/python/gix_url"]),
}.values(), ids=["scripts", "tests of the package", "package"])
def test_python(path, words):
    ran = subprocess.run([*MYPY, *words()], cwd=ROOT, env={**os.environ, "MYPYPATH": path}, stdout=subprocess.PIPE, text=True)
    assert ran.returncode == 0, ran.stdout
