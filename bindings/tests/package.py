"""Tests the package gix_url as Python sees it: how it finds its library, its types and its help, its use in threads and
in processes. The package is the installed one, or the one that PYTHONPATH names, with the library that it finds."""
import inspect
import multiprocessing
import os
import pathlib
import pydoc
import shutil
import subprocess
import sys
from concurrent.futures import ProcessPoolExecutor, ThreadPoolExecutor

import gix_url
import pytest

FOLDER = pathlib.Path(gix_url.__file__).parent
NAME = "libgix_url.so.2"
REMOTES = [f"https://u{it}:p@h{it}.example/{'a%20b/' * (it % 9)}{it}" for it in range(500)]
BAD = "http://h:0x/p"
# Prints the file of the library that a package in a folder finds.
FIND = """import sys; sys.path.insert(0, sys.argv[1]); import gix_url
print(*{line.split(maxsplit=5)[5].strip() for line in open("/proc/self/maps") if "/libgix_url" in line})"""


def read(text):
    """The result of a worker for a text."""
    url = gix_url.parse(text)
    return url, str(url), url.is_settled(), url.components()


def said(program, *words, **environment):
    """The last line of the output of a program in Python, or of its errors."""
    command = [sys.executable, "-B", "-c", program, *map(str, words)]
    ran = subprocess.run(command, env=environment, capture_output=True, text=True, check=False)
    return (ran.stdout or ran.stderr).strip().split("\n")[-1]


# ---- the library

@pytest.fixture
def prefix(tmp_path):
    """A prefix with the package, without the library."""
    folder = tmp_path.resolve() / "prefix"
    ignored = shutil.ignore_patterns("*.so.*", "__pycache__")
    shutil.copytree(FOLDER, folder / "share/gix_url/python/gix_url", ignore=ignored)
    return folder


def put(prefix, place):
    """Copies the library to this place below the prefix."""
    (prefix / place).parent.mkdir(parents=True, exist_ok=True)
    return str(shutil.copy(said(FIND, FOLDER.parent, **os.environ), prefix / place))


def found(prefix, folder="share/gix_url/python", **environment):
    return said(FIND, prefix / folder, **environment)


def test_the_environment_names_a_file_or_a_folder(prefix):
    put(prefix, f"share/gix_url/python/gix_url/{NAME}")
    file, in_folder, in_lib = (put(prefix, it) for it in ("x/libgix_url-copy.so", f"y/{NAME}", f"z/lib/{NAME}"))
    assert found(prefix, GIX_URL_LIB=file) == file
    assert found(prefix, GIX_URL_LIB=os.path.dirname(in_folder)) == in_folder
    assert found(prefix, GIX_URL_LIB=f"{prefix}/z") == in_lib


def test_what_is_named_has_to_be_there(prefix):
    put(prefix, f"lib/{NAME}")
    wanted = f"ImportError: gix_url: GIX_URL_LIB is {prefix}/share, which is neither "
    assert found(prefix, GIX_URL_LIB=f"{prefix}/share").startswith(wanted)


def test_the_package_has_its_own_before_that_of_the_prefix(prefix):
    of_prefix = put(prefix, f"lib/{NAME}")
    assert found(prefix) == of_prefix
    own = put(prefix, f"share/gix_url/python/gix_url/{NAME}")
    assert found(prefix) == own
    assert found(prefix, GIX_URL_LIB="") == own


def test_no_other_folder_is_searched(prefix):
    put(prefix, f"lib/{NAME}")
    shutil.copytree(prefix / "share/gix_url/python", prefix / "a/b/c")
    assert found(prefix, "a/b/c").startswith("ImportError: gix_url: the library can't be loaded: ")


# ---- workers

def test_threads_read_alike():
    wanted = [read(it) for it in REMOTES]
    with ThreadPoolExecutor(8) as pool:
        for _ in range(4):
            assert list(pool.map(read, REMOTES)) == wanted


@pytest.mark.parametrize("method", ["fork", "spawn", "forkserver"])
def test_one_bad_remote_is_an_error_of_its_own(method):
    with ProcessPoolExecutor(2, multiprocessing.get_context(method)) as pool:
        ran = [pool.submit(gix_url.parse, it) for it in (*REMOTES[:20], BAD, *REMOTES[20:40])]
        errors = [it.exception(60) for it in ran]
        assert [at for at, it in enumerate(errors) if it] == [20]
        assert str(errors[20]) == "the URL has an invalid port, at byte 9"
        assert (errors[20].reason, errors[20].len) == ("PortNotANumber", 2)
        assert [it.result(60) for it in [*ran[:20], *ran[21:]]] == [gix_url.parse(it) for it in REMOTES[:40]]


@pytest.mark.parametrize("mode", "01")
def test_a_text_is_utf8_in_every_locale(mode):
    program = "import gix_url; url = gix_url.parse('/\\u00e9\\udcff'); print(ascii(str(url)), bytes(url))"
    locale = {"LC_ALL": "C", "PYTHONCOERCECLOCALE": "0", "PYTHONUTF8": mode, "PYTHONPATH": str(FOLDER.parent)}
    assert said(program, **{**os.environ, **locale}) == "'/\\xe9\\udcff' b'/\\xc3\\xa9\\xff'"


# ---- help

def test_the_package_is_typed():
    assert (FOLDER / "py.typed").read_bytes() == b""


def test_what_is_public_is_documented():
    public = [getattr(gix_url, it) for it in gix_url.__all__]
    members = [it for of in public if inspect.isclass(of) for name, it in vars(of).items()
               if name[0] != "_" and (inspect.isfunction(it) or isinstance(it, property))]
    assert len(members) > 8
    assert not [it for it in (gix_url, *public, *members) if not inspect.getdoc(it)]


def test_pydoc_shows_what_is_public():
    shown = pydoc.render_doc(gix_url, renderer=pydoc.plaintext)
    assert not [it for it in ("class Url(", "redacted", "replace(", "GIX_URL_LIB", "parse(text: ") if it not in shown]
    assert not [it for it in ("SUBMODULES", "ctypes", "_TYPES") if it in shown]
