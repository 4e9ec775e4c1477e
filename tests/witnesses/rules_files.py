"""The entries of configuration files, entries of `.gitmodules` files, and URLs of submodules.

`git config --list -z` returns the entries of a file. A byte 0 in a subsection or a value, which Git takes for the end
of a text, is an error of the library: those files are separate.

Git's fsck reports which entries of `.gitmodules` it refuses. All files for it are in one repository, as `.gitmodules`
of folders of their own, since it looks at no others. A byte 255 ends its reading of a file, so none of these has one.

`git submodule init` uses the other values in a repository for each file, whose index has a submodule at each path.
What URLs it stores, it shows in a repository whose remote has the parent as its URL. Git stops at the first URL that
it doesn't resolve. It runs again without that one, until it no longer stops: by the program that `git submodule init`
starts, which takes a tenth of the time.
"""
import functools
import pathlib
import re
import tempfile
from collections import defaultdict
from contextlib import contextmanager

from git_runs import Entry, alone, entries_in, file_of, in_parallel, named, order_of, put, run
from row_text import text_of

REFUSED = re.compile(rb"fatal: bad config line (\d+) in standard input")
# Texts with a byte 0 that is read differently from Git, and the offset of the byte.
CUT = {b"[a \"b\0c\"]\nd = 1\n": 5, b"[a \"b\\\0c\"]\nd = 1\n": 6, b"[a]b=x\0y": 6, b"[a]\nb = \"\0\"\n": 9,
       b"[a]\r\nb = x\\\n\0 z\r\n": 12}


def outcome(text, said):
    """The required result of the library for Git's: a refused line, or entries, in which a key without a dot is a name without a section."""
    if text in CUT:
        return {"error": "ZeroByte", "at": CUT[text], "line": 1 + text[:CUT[text]].count(b"\n")}
    if refused := REFUSED.match(said):
        return {"error": "Refused", "line": int(refused[1])}
    parts = (it if it.name else Entry(b"", None, it.section, it.value) for it in entries_in(said))
    return [{name: text_of(one) for name, one in zip(("section", "subsection", "name", "value"), it) if one is not None} for it in parts]


def file(ask, _, text):
    """The call of the library for a file, with Git's outcome."""
    return order_of("config_file::entries", file=text), outcome(text, ask("git", "config", "--file=-", "--list", "-z", given=text))


# ---- submodules

REFUSED_BY_FSCK = re.compile(rb"error in blob ([0-9a-f]{40}): (gitmodules(?:Name|Url|Path|Update)): ")


@contextmanager
def with_git(*words):
    """A new repository, and a function that runs Git in it."""
    with tempfile.TemporaryDirectory(prefix="rules-") as scratch:
        git = functools.partial(run, scratch, alone(scratch), "git")
        git("init", "--quiet", *words)
        yield pathlib.Path(scratch), git


def checks(configurations):
    """The calls of the library for files, each with the refusals of fsck, by Git's names and in the order of the entries."""
    texts = [*map(file_of, configurations)]
    blobs = [b"blob\nmark :%d\ndata %d\n%s\n" % (at + 1, len(it), it) for at, it in enumerate(texts)]
    places = [b"M 100644 :%d %d/%d/.gitmodules\n" % (at + 1, at // 256, at) for at in range(len(texts))]
    head = b"commit refs/heads/main\ncommitter a <a@b> 0 +0000\ndata 0\n"
    with with_git("--bare") as (folder, git):
        git("fast-import", "--quiet", "--export-marks=marks", given=b"".join([*blobs, head, *places]))
        marks = dict(line.split() for line in (folder / "marks").read_bytes().splitlines())
        said = defaultdict(list)
        for oid, reason in REFUSED_BY_FSCK.findall(git("fsck", "--no-dangling").stdout):
            said[oid].append(reason.decode())
    return [(order_of("refusal::check", it), said[marks[b":%d" % at]]) for at, it in enumerate(configurations, 1)]


@contextmanager
def with_submodules(modules, paths, config=b""):
    """Runs Git in a repository with this `.gitmodules`, links in its index at the paths, and more configuration."""
    with with_git() as (folder, git):
        put(folder / ".gitmodules", modules)
        put(folder / ".git/config", (folder / ".git/config").read_bytes() + config)
        git("update-index", "--index-info", given=b"".join(b"160000 %s\t%s\n" % (b"1" * 40, it) for it in paths))
        yield git


def configured(git):
    """The values of the configuration for submodules: for each name those of its keys."""
    found = defaultdict(dict)
    for it in entries_in(git("config", "--local", "--list", "-z").stdout):
        if it.section == b"submodule" and it.name != b"active":
            found[text_of(it.place)][it.name.decode()] = text_of(it.value)
    return dict(found)


def used_of(entries):
    """The call of the library for a file, with the values that `git submodule init` writes: the URL of each submodule with a path, and its way
    to update."""
    paths = {it.value for it in entries if it.section == b"submodule" and it.name.lower() == b"path"}
    with with_submodules(file_of(entries), sorted(it for it in paths if not it.startswith(b"-"))) as git:
        for path in git("ls-files", "-z").stdout.split(b"\0")[:-1]:
            git("submodule", "init", "--", path)
        return order_of("submodules::submodules", entries), configured(git)


# ---- their URLs

# Git's messages when it stops, and the library's reasons.
SAID = {b"cannot strip one component off url": "NothingLeft", b"invalid empty remote_url": "EmptyParent"}


def resolved_of(pair):
    """The calls of the library for the URLs of one parent, each with Git's outcome. Git takes them in their order, and
    stops at the first that it doesn't store."""
    parent, urls = pair
    names, reasons = ["%06d" % at for at in range(len(urls))], {}
    modules = [Entry(b"submodule", it.encode(), *own) for it, url in zip(names, urls) for own in ((b"path", it.encode()), (b"url", url))]
    config = file_of([Entry(b"remote", b"origin", b"url", parent)])
    with with_submodules(file_of(modules), [it.encode() for it in names], config) as git:
        ran = git("submodule", "init")
        while ran.returncode:
            stopped = min({*names} - {*configured(git)} - {*reasons})
            reasons[stopped] = {"error": named(ran.stdout, SAID)}
            git("update-index", "--force-remove", stopped)
            ran = git("submodule--helper", "init")
        found = {name: it["url"] for name, it in configured(git).items()} | reasons
    return [(order_of("resolve::resolve", parent=parent, url=url), found[it]) for it, url in zip(names, urls)]


def resolved(pairs):
    return [it for orders in in_parallel(resolved_of, pairs) for it in orders]
