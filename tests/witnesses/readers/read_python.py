"""The readers in Python, each by its name: a line of the input is a text, and is answered by a line of JSON. Those that aren't asked may be
missing."""
import json
import sys
from urllib.parse import urlsplit

NAMES = ("scheme", "user", "password", "host", "port", "path", "query")


def urllib(text):
    it = urlsplit(text)
    return it.scheme, it.username, it.password, it.hostname, it.port, it.path, it.query or None


def urllib3(text):
    """That by which `requests` connects."""
    from urllib3.util import parse_url
    it = parse_url(text)
    user, mark, password = (it.auth or "").partition(":")
    return it.scheme, user or None, password if mark else None, it.host, it.port, it.path or "", it.query


def yarl(text):
    """That by which `aiohttp` connects."""
    from yarl import URL
    it = URL(text)
    return it.scheme, it.raw_user, it.raw_password, it.raw_host, it.port, it.raw_path, it.raw_query_string or None


def pip(text):
    """The URL of a remote of Git, and that URL without its user."""
    from pip._internal.utils.misc import split_auth_netloc_from_url
    from pip._internal.vcs.git import Git
    url, _, own = split_auth_netloc_from_url(Git._git_remote_to_pip_url(text))
    scheme, _, _, *rest = urllib(url)
    return scheme, *own, *rest


def mercurial(text):
    """The path lacks its first slash if the URL has a host."""
    from mercurial.utils.urlutil import url
    it = url(text.encode())
    path = it.localpath() if it.scheme == b"file" and it.host is None else it.path or b""
    path = b"/" + path if it.host is not None else path
    found = it.scheme, it.user, it.passwd, it.host, it.port, path, it.query
    return [part if part is None else part.decode("utf-8", "surrogateescape") for part in found]


def dulwich(text):
    """The client for a text, and for HTTP the URL that the client requests."""
    from dulwich import client
    made, path = client.get_transport_and_path(text)
    if isinstance(made, client.LocalGitClient):
        return "file", None, None, None, None, path
    if isinstance(made, client.SSHGitClient):
        return "ssh", made.username, made.password, made.host, made.port, path
    if isinstance(made, client.TCPGitClient):
        return "git", None, None, made._host, made._port, path
    scheme, _, _, *rest = urllib(made._get_url(path))
    return scheme, made._username, made._password, *rest


for line in sys.stdin.buffer.read().split(b"\n")[:-1]:
    try:
        found = {name: it for name, it in zip(NAMES, globals()[sys.argv[1]](line.decode())) if it is not None}
    except Exception as error:
        found = {"refused": f"{type(error).__name__}: {error}"}
    print(json.dumps(found))
