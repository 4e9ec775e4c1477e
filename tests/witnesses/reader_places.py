"""The place that a reader reads in a text, in a comparable form: the host in lower case without brackets, an address in its shortest form, the
scheme's default port filled in, user and password decoded, and the path as a program of Git would send it, over HTTP without trailing slashes.
Git's transports, Git's credential code, Git's libcurl and OpenSSH are asked here.
"""
import contextlib
import ipaddress
import re
import shutil
import subprocess
from collections import namedtuple

from git_classes import HOME, SECURE_URL
from second_reading.git_reads import decoded, git_reads
from second_reading.unambiguous import pieces
from texts import can_be_a_line
from transports import NO_USER, ask_git, ask_secure_shell, diagnosed
from web_asked import ask_credential, curl_of_git
from web_reads import curl_reads, Web

# A reading; a part that is empty is None. `REFUSED` isn't a place, nor is `SILENT`: the reader finds no host in a text.
Place = namedtuple("Place", "scheme user password host port path")
REFUSED, SILENT = "refused", "silent"
PORTS = {b"http": 80, b"https": 443, b"ssh": 22, b"git": 9418}
ALIASES = {b"git+ssh": b"ssh", b"ssh+git": b"ssh", b"git+https": b"https", b"git+http": b"http"}
# Other schemes by which a reader finds a host in a text that isn't a URL to Git.
OTHER_SCHEMES = (b"ftp", b"ftps", b"ws", b"wss")
ADDRESS = re.compile(rb"[0-9.]+|[0-9a-f:.]+")


def plain_host(host):
    """A host in lower case, without brackets, and an address in its shortest form."""
    host = host.lower()
    host = host[1:-1] if host[:1] == b"[" and host[-1:] == b"]" else host
    with contextlib.suppress(ValueError):
        return ipaddress.ip_address(host.decode()).compressed.encode() if ADDRESS.fullmatch(host) else host
    return host


def port_of(scheme, port):
    if port in (None, b""):
        return PORTS.get(scheme)
    return int(port) if port.isdigit() else port


def place(scheme, user, password, host, port, path):
    scheme = ALIASES.get(scheme, scheme)
    if scheme in (b"ssh", b"git") and path.startswith(b"/~"):
        path = path[1:]
    # Git appends `/info/refs` to an HTTP path, whatever slashes it ends with.
    if scheme in (b"http", b"https"):
        path = b"/" + path.rstrip(b"/") if not path.startswith(b"/") else path.rstrip(b"/") or b"/"
    if scheme == b"file":
        return Place(scheme, None, None, plain_host(host) if host else None, None, path)
    return Place(scheme, user or None, password or None, plain_host(host) if host else None, port_of(scheme, port), path)


def said_place(reader, form, said):
    """The place that a reader reads in a text of a form, by its answer."""
    if form == "file" and reader.name == "hosted-git-info":
        return SILENT
    is_elsewhere = form in ("scp", "local") and reader.kind != "git"
    if is_elsewhere and reader.kind == "web":
        return SILENT
    if "refused" in said:
        return SILENT if is_elsewhere else REFUSED
    parts = {name: it if name in reader.decoded or name not in ("user", "password") else decoded(it) for name, it in said.items()}
    scheme = parts.get("scheme", b"").lower()
    is_known = scheme in PORTS or scheme in ALIASES or scheme in OTHER_SCHEMES
    if is_elsewhere and not (parts.get("host") and (is_known or not scheme)):
        return SILENT
    path = parts.get("path", b"")
    if scheme in (b"http", b"https"):
        path += b"?" + parts["query"] if parts.get("query") else b""
    elif "path" not in reader.decoded:
        path = decoded(path)
    return place(scheme, parts.get("user"), parts.get("password"), parts.get("host"), parts.get("port"), path)


def place_of(it, protocol):
    """The place of a reading of Git's transports."""
    return place(protocol.encode(), it.user, None, it.host, None if it.port is None else b"%d" % it.port, it.path)


def git_place(text, form):
    """The place that Git connects to; None if it connects to none."""
    if form == "http":
        found = curl_reads(text)
        return place(*found) if isinstance(found, Web) else None
    found = [*git_reads(text)]
    return place_of(found[0], found[0].protocol) if len(found) == 1 else None


def with_decoded_path(it):
    """The place that is compared with a reader that only shows the decoded path of HTTP."""
    return it._replace(path=decoded(it.path)) if it.scheme in (b"http", b"https") else it


def is_same(reader, form, wanted, found):
    """Whether the reading is the same place. A program that converts the scp form to a URL puts a slash before its path."""
    if found == SILENT or found == wanted:
        return True
    if found == REFUSED or wanted is None:
        return False
    if reader.name == "Mercurial":
        wanted = with_decoded_path(wanted)
    # `gh` drops every port of Secure Shell.
    if reader.name == "gh" and wanted.scheme == b"ssh":
        found = found._replace(port=wanted.port)
    if form in ("scp", "local") and found.scheme == b"":
        return (found.user, found.host, found.port or wanted.port) == (wanted.user, wanted.host, wanted.port)
    if reader.kind == "forge" and form == "scp":
        return found._replace(path=found.path.lstrip(b"/")) == wanted._replace(path=wanted.path.lstrip(b"/"))
    return found == wanted


# ---- Git's transports, Git's credential code, Git's libcurl and OpenSSH

def shown_place(said):
    """The place that `git fetch-pack --diag-url` shows. A path below a home folder, and a word that OpenSSH reads as a URL, are compared as
    Git has them."""
    it = diagnosed(said)
    return REFUSED if it is None else place_of(it, {HOME: "file", SECURE_URL: "ssh"}.get(it.protocol, it.protocol))


def secure_place(text, said):
    """OpenSSH reads no path, so the path is the text's."""
    found = {name: re.search(rb"^%s (.*)$" % name, said, re.M) for name in (b"user", b"hostname", b"port")}
    if None in found.values():
        return REFUSED
    user, host, port = (it[1] for it in found.values())
    return place(b"ssh", None if user == NO_USER else user, None, host, port, decoded(pieces(text).path))


def secure_places(texts):
    """OpenSSH gets the URL without its path, which it refuses."""
    fronts = [b"ssh://" + it.removeprefix(b"ssh://").partition(b"/")[0] for it in texts]
    return [*map(secure_place, texts, ask_secure_shell([(it, None) for it in fronts]))]


def first_line(*command):
    """The first line of a command's output, None if it is missing."""
    if not shutil.which(command[0]):
        return None
    ran = subprocess.run(command, stdout=subprocess.PIPE, stderr=subprocess.STDOUT, text=True)
    return ran.stdout.partition("\n")[0].strip()


def own_readers():
    """For each reader its name, its version, the texts of a form that it is run on, and how."""
    git, secure, curl = first_line("git", "--version"), first_line("ssh", "-V"), curl_of_git()
    if git and curl:
        # After the end of an empty path of the scp form Git looks for a `~`, in other bytes.
        yield ("Git", git.split()[-1], lambda text, form: form not in ("http", "other") and pieces(text).path != b"",
               lambda texts: [*map(shown_place, ask_git("fetch-pack --diag-url", texts))])
        yield ("Git credential", git.split()[-1], lambda text, form: form == "http" and can_be_a_line(text),
               lambda texts: [place(*it[:-1], b"/" + it.path) if isinstance(it, Web) else REFUSED
                              for it in ask_credential(texts)])
        yield ("libcurl", curl.version.partition("/")[2], lambda text, form: form == "http",
               lambda texts: [REFUSED if it is None else place(*it) for it in map(curl.reads, texts)])
    if secure:
        yield "OpenSSH", re.sub(r"OpenSSH_([^ ,]*).*", r"\1", secure), lambda text, form: text.startswith(b"ssh://"), secure_places
