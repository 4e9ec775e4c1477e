"""The results of Git's credential code and of libcurl for HTTP texts.

`git credential fill` gets a text as `url=TEXT` and asks a helper, which reports the request. libcurl's calls on URLs are made
in the library that `git-remote-http` is linked to, with the flags of a transfer (`parseurlandfillconn` in lib/url.c of libcurl
7.88.1): `CURLU_GUESS_SCHEME` and `CURLU_NON_SUPPORT_SCHEME`, and neither `CURLU_PATH_AS_IS` nor `CURLU_DISALLOW_USER`, since
Git doesn't set these options. As in a transfer, the whole URL is read first, which replaces each `%` that is left in the host
by `%25`; then each part, without a flag, except the path with `CURLU_URLENCODE`. A transfer decodes the user, and refuses byte
0 in it if no password follows; a user with a password libcurl gets from Git, separately from the URL.

`git ls-remote` runs with a proxy of this script on 127.0.0.1, so no other machine is looked up or connected to. The proxy records its requests.
It answers a request without a password with 401, so that Git asks its helper, and any other one, including the `CONNECT` of https, with 404.
"""
import base64
import ctypes
import functools
import re
import socketserver
import subprocess
import threading
from collections import namedtuple
from contextlib import contextmanager

from differences import unlike
from second_reading.git_reads import decoded
from git_runs import in_repositories, named
from web_reads import Web, credential_cut, credential_reads, curl_reads, cut, escaped, host_and_port

# The helper reports its request between byte 1 and byte 2, and does nothing for `store` and `erase`.
SETTINGS = r"""[credential]
useHttpPath = true
helper = "!f() { test \"$1\" = get || exit 0; printf '\\1' >&2; cat >&2; printf '\\2' >&2; echo username=x; echo password=y; }; f"
"""
REFUSALS = {b"warning: url contains a newline": "line end", b"contains carriage return": "carriage return"}
# The whole URL and its parts, by libcurl's numbers for them.
ALL = {"whole": 0, "scheme": 1, "user": 2, "password": 3, "host": 5, "port": 6, "path": 7, "query": 8, "zone": 10}
GUESS_SCHEME, NON_SUPPORT_SCHEME, URLENCODE = 1 << 9, 1 << 3, 1 << 7


# ---- Git's credential code

def asked(answer):
    """The request to a helper, or the answer without one, if the text has a user and a password."""
    if refusal := named(answer, REFUSALS):
        return refusal
    found = re.search(rb"\x01(.*?\n)\x02", answer, re.S)
    said = dict(it.split(b"=", 1) for it in (found[1] if found else answer).split(b"\n") if it)
    host, port = host_and_port(said.get(b"host"))
    return Web(said[b"protocol"], said.get(b"username"), said.get(b"password"), host, port, said.get(b"path", b""))


def ask_credential(texts):
    return in_repositories(lambda ask, _, text: asked(ask("git", "credential", "fill", given=b"url=%s\n" % text)), [([], texts)],
                           {"GIT_CONFIG_GLOBAL": SETTINGS})


# ---- libcurl

class Curl:
    def __init__(self, file):
        self.calls = ctypes.CDLL(file)
        place, text, number, flags = ctypes.c_void_p, ctypes.c_char_p, ctypes.c_int, ctypes.c_uint
        self.calls.curl_version.restype, self.calls.curl_url.restype = text, place
        self.calls.curl_url_set.argtypes = [place, number, text, flags]
        self.calls.curl_url_get.argtypes = [place, number, ctypes.POINTER(place), flags]
        self.calls.curl_url_cleanup.argtypes = self.calls.curl_free.argtypes = [place]
        self.version = self.calls.curl_version().decode().split()[0]

    def part(self, url, name):
        place = ctypes.c_void_p()
        if self.calls.curl_url_get(url, ALL[name], ctypes.byref(place), URLENCODE if name == "path" else 0):
            return None
        found = ctypes.string_at(place)
        self.calls.curl_free(place)
        return found

    def parts(self, text):
        """The whole URL, and its parts, which are read after it; None if it is refused."""
        url = self.calls.curl_url()
        try:
            is_refused = self.calls.curl_url_set(url, ALL["whole"], text, GUESS_SCHEME | NON_SUPPORT_SCHEME)
            return None if is_refused else [self.part(url, it) for it in ALL]
        finally:
            self.calls.curl_url_cleanup(url)

    def reads(self, text):
        parts = self.parts(text)
        _, scheme, user, password, host, port, path, query, zone = parts or [None] * len(ALL)
        if parts is None or user and password is None and b"%00" in user:
            return None
        if zone is not None:
            host = host[:-1] + b"%" + zone + b"]"
        user, password = (it if it is None else decoded(it) for it in (user, password))
        return Web(scheme, user, password, host, port, path + (b"?" + escaped(query) if query else b""))


@functools.cache
def curl_of_git():
    """The libcurl that `git-remote-http` is linked to; None if there is none."""
    try:
        folder = subprocess.run(["git", "--exec-path"], capture_output=True, check=True, text=True).stdout.strip()
        said = subprocess.run(["ldd", f"{folder}/git-remote-http"], capture_output=True, check=True, text=True).stdout
    except (OSError, subprocess.CalledProcessError):
        return None
    found = re.search(r"libcurl\S* => (/\S+)", said)
    return found and Curl(found[1])


# ---- the requests that Git sends, and the passwords in them

Request = namedtuple("Request", "method host port path")
# The result of a text: the requests, the requests to the helper, and the users and passwords that are sent.
Sent = namedtuple("Sent", "requests asked passwords")
NOTHING = Sent(set(), None, set())
DEFAULT_PORTS = {b"http": b"80", b"https": b"443"}
REFUSED = b"HTTP/1.1 %s\r\nWWW-Authenticate: Basic realm=\"here\"\r\nContent-Length: 0\r\nConnection: close\r\n\r\n"


class Recorder(socketserver.StreamRequestHandler):
    """Records the head of a request, and refuses it."""

    timeout = 30

    def handle(self):
        head = [*iter(lambda: self.rfile.readline().rstrip(b"\r\n"), b"")]
        if head:
            self.server.heads.append(head)
            is_last = head[0].startswith(b"CONNECT ") or any(not it.endswith(b":") for it in passwords_of([head]))
            self.wfile.write(REFUSED % (b"404 Not Found" if is_last else b"401 Unauthorized"))


@contextmanager
def recording():
    """A proxy on 127.0.0.1, which connects to nothing."""
    with socketserver.ThreadingTCPServer(("127.0.0.1", 0), Recorder) as proxy:
        proxy.daemon_threads, proxy.heads = True, []
        threading.Thread(target=proxy.serve_forever, args=(0.01,), daemon=True).start()
        yield proxy
        proxy.shutdown()


def field(head, name):
    return next((it.partition(b":")[2].strip() for it in head if it.lower().startswith(name + b":")), None)


def request_of(head):
    """The request of a head. Its first line and its field `Host` must name one host, except for the escapes of a `%`."""
    method, target, _ = re.fullmatch(rb"(\S+) (.*) (HTTP/\S+)", head[0], re.S).groups()
    scheme, authority, path = (b"https", target, None) if method == b"CONNECT" else cut(target)
    own = field(head, b"host")
    if own not in (authority, authority.replace(b"%25", b"%")):
        raise ValueError(f"a request to {authority!r} with the host {own!r}")
    host, port = host_and_port(own)
    # If libcurl sends a second request by itself, with the user of the URL, it writes more escapes.
    return Request(method, host, port or DEFAULT_PORTS[scheme], path and escaped(path))


def passwords_of(heads):
    """The users and passwords in requests, separated by a colon, as they are sent."""
    found = {field(it, name) for it in heads for name in (b"authorization", b"proxy-authorization")} - {None}
    return {base64.b64decode(it.removeprefix(b"Basic ")) for it in found}


def sent(ask, _, text):
    with recording() as proxy:
        said = ask("git", "-c", f"http.proxy=http://127.0.0.1:{proxy.server_address[1]}", "ls-remote", "--", text)
    return Sent({*map(request_of, proxy.heads)}, asked(said) if b"\1" in said else None, passwords_of(proxy.heads))


def all_sent(texts):
    """The requests of `git ls-remote` for each text, to a proxy of its own."""
    allowed = {"GIT_EXEC_PATH": None, "GIT_ALLOW_PROTOCOL": "http:https"}
    return in_repositories(sent, [([], texts)], {"GIT_CONFIG_GLOBAL": SETTINGS}, **allowed)


# ---- by the rules

def requested(place):
    host = re.sub(rb"%.*\]", b"]", place.host)
    port = place.port or DEFAULT_PORTS[place.scheme]
    return Request(b"GET", host, port, place.path) if place.scheme == b"http" else Request(b"CONNECT", host, port, None)


def expected(text):
    """The expected requests for a text, by the readings of the credential code and of libcurl."""
    base = text if text.endswith(b"/") else text + b"/"
    tail = b"info/refs" + (b"&" if b"?" in base else b"?") + b"service=git-upload-pack"
    place, own = curl_reads(base + tail), credential_cut(base)
    # Git refuses a line end before it connects; libcurl refuses a host outside ASCII in the locale C.
    if not text.startswith((b"http://", b"https://")) or credential_reads(base) == "line end" or place is None or not place.host.isascii():
        return NOTHING
    first = requested(place)
    if place.scheme == b"https":
        return Sent({first}, None, set())
    if None not in (own.user, own.password):
        return Sent({first}, None, {own.user + b":" + own.password})
    # libcurl answers the first 401 with the user of the URL, and without a password.
    passwords = set() if place.user is None else {place.user + b":" + (place.password or b"")}
    if place.password:
        return Sent({first}, None, passwords)
    # If libcurl writes the URL differently, Git takes that for a redirection: it asks its helpers for the new place, and then
    # libcurl reads the new URL.
    again = curl_of_git().parts(base + tail)[0]
    own = credential_reads(again.removesuffix(tail))
    return Sent({first, requested(curl_reads(again))}, own, {*passwords, b"x:y"}) if isinstance(own, Web) else Sent({first}, own, passwords)


def wire_faults(texts):
    return unlike("git ls-remote sends", texts, dict(zip(texts, all_sent(texts))).get, expected)
