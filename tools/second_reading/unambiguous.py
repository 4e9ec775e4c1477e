"""The texts that no reader is known to read differently: a class of texts by their bytes alone.

A text is split into pieces as most readers split it: a URL has `://`, the scp form has a `:` before any `/`, and any other text
is a local path. Each condition is a function of the pieces that returns whether they break it. A text is in the class if it
breaks none.
"""
import re
from collections import namedtuple

from second_reading.hosts import ip6, is_ip4
from second_reading.octets import is_utf8

# The form is `http` (also for `https`), `ssh` (also for its other names), `git`, `file`, `scp`, `local`, or `other`.
Pieces = namedtuple("Pieces", "form scheme user password host port path")
FORMS = {b"http": "http", b"https": "http", b"ssh": "ssh", b"git+ssh": "ssh", b"ssh+git": "ssh", b"git": "git", b"file": "file"}
URLS, PLACES = ("http", "ssh", "git", "file"), ("http", "ssh", "git", "scp")
HELPER = re.compile(rb"[0-9A-Za-z][0-9A-Za-z+.-]*::|::")
# The words that some reader takes for a scheme before a single colon.
SCHEME_WORDS = (b"http", b"https", b"ssh", b"git", b"file", b"ftp", b"ftps", b"ext", b"rsync", b"svn", b"sftp", b"ws", b"wss")
ESCAPE = re.compile(rb"%(?:20|[89A-F][0-9A-F])")


# ---- the pieces

def authority(front):
    """User, password, host and port of the text between `://` and the path."""
    information, at, named = front.rpartition(b"@")
    user, colon, password = information.partition(b":")
    host, port = re.fullmatch(rb"(\[[^\]]*\]|.*?)(?::([^:\]]*))?", named, re.S).groups()
    return user if at else None, password if colon else None, host, port


def url_pieces(text):
    scheme, _, rest = text.partition(b"://")
    front, slash, path = rest.partition(b"/")
    return Pieces(FORMS.get(scheme, "other"), scheme, *authority(front), slash + path)


def scp_pieces(text):
    """The first `:` ends the host, or the first one after its brackets."""
    front, path = re.fullmatch(rb"(?s)((?:[^:@/]*@)?\[[^\]]*\]|[^:]*):(.*)", text).groups()
    user, at, host = front.rpartition(b"@")
    return Pieces("scp", None, user if at else None, None, host, None, path)


def pieces(text):
    """The pieces of a text."""
    if b"://" in text:
        return url_pieces(text)
    if HELPER.match(text):
        return Pieces("other", None, None, None, None, None, text)
    if b":" in text.partition(b"/")[0]:
        return scp_pieces(text)
    return Pieces("local", None, None, None, None, None, text)


# ---- common functions of conditions

def has(piece, found):
    """Whether a piece matches a pattern."""
    return piece is not None and re.search(found, piece) is not None


def name(it):
    """A host that is a name: one without a colon that isn't an address of four numbers. It is empty if there is none."""
    is_name = it.form in PLACES and not bracketed(it) and b":" not in it.host and not is_ip4(it.host)
    return it.host if is_name else b""


def labels(it):
    return name(it).split(b".") if name(it) else []


def bracketed(it):
    """Whether a host begins with a bracket."""
    return it.form in PLACES and it.host.startswith(b"[")


def address(it):
    """The IPv6 address between the brackets of a host, empty if there is none."""
    return it.host[1:-1] if bracketed(it) and it.host.endswith(b"]") and ip6(it.host[1:-1]) else b""


def url_path(it):
    """The path of a URL, empty for another form."""
    return it.path if it.form in URLS else b""


def scp_path(it):
    return it.path if it.form == "scp" else b""


def local_path(it):
    return it.path if it.form == "local" else b""


def other_escapes(it):
    """The path of a URL, for HTTP without the escapes that most readers keep."""
    return ESCAPE.sub(b"", url_path(it)) if it.form == "http" else url_path(it)


def kept_escapes(it):
    """Those escapes of a path of HTTP."""
    return b"".join(ESCAPE.findall(url_path(it))) if it.form == "http" else b""


# ---- the conditions: for each the break of it

def scheme(it):
    """A remote helper, or a scheme other than `http`, `https`, `ssh`, `git` and `file` in lower case."""
    return it.form == "other" or it.scheme in (b"git+ssh", b"ssh+git")


def user_empty(it):
    """Nothing before the `@`."""
    return it.user == b""


def user_at(it):
    """Two `@` before the path."""
    return has(it.user, rb"@") or has(it.password, rb"@")


def user_mark(it):
    """A `?` or `#` in the user."""
    return has(it.user, rb"[?#]")


def user_slash(it):
    r"""A `\` or an escape of `/` or `\` in the user."""
    return has(it.user, rb"\\|%2[Ff]|%5[Cc]")


def user_escape(it):
    """Another `%` in the user."""
    return has(it.user, rb"%(?!2[Ff]|5[Cc])")


def user_bracket(it):
    """A bracket in the user."""
    return has(it.user, rb"[\[\]]")


def user_byte(it):
    """Another byte in the user but letters, digits and `._~-`."""
    return has(it.user, rb"[^A-Za-z0-9._~@?#\\%\[\]-]")


def user_dash(it):
    """A user that begins with `-`."""
    return has(it.user, rb"\A-")


def user_of_git(it):
    """A user of `git://`."""
    return it.form == "git" and it.user is not None


def password_place(it):
    """A password outside of HTTP."""
    return it.form not in ("http", "other") and it.password is not None


def password_empty(it):
    """An empty password."""
    return it.password == b""


def password_byte(it):
    """A byte in the password but letters, digits and `._~-`."""
    return has(it.password, rb"[^A-Za-z0-9._~@-]")


def host_empty(it):
    """No host, where one is needed."""
    return it.form in PLACES and it.host == b""


def host_of_file(it):
    """A host of `file://`."""
    return it.form == "file" and (it.user is not None or it.host != b"" or it.port is not None)


def host_address(it):
    """An IPv6 address in brackets."""
    return address(it) != b"" and b"." not in address(it)


def host_quad(it):
    """An IPv6 address in brackets that ends with four numbers."""
    return b"." in address(it)


def host_bracket(it):
    """Something else that begins with a bracket, as a host."""
    return bracketed(it) and address(it) == b""


def host_colon(it):
    """A `:` in a host without brackets."""
    return it.form in PLACES and not bracketed(it) and b":" in it.host


def host_case(it):
    """A capital letter in a host."""
    return has(name(it), rb"[A-Z]")


def host_underscore(it):
    """A `_` in a host."""
    return b"_" in name(it)


def host_mark(it):
    r"""A `?`, `#` or `\` in a host."""
    return has(name(it), rb"[?#\\]")


def host_escape(it):
    """A `%` in a host."""
    return b"%" in name(it)


def host_byte(it):
    """Another byte in a host but lower-case letters, digits, `-` and `.`."""
    return has(name(it), rb"[^A-Za-z0-9._?#\\%-]")


def host_length(it):
    """A host of more than 253 bytes."""
    return len(name(it)) > 253


def label_empty(it):
    """An empty label."""
    return b"" in labels(it)


def label_length(it):
    """A label of more than 63 bytes."""
    return any(len(label) > 63 for label in labels(it))


def label_end(it):
    """A label with `-` at an end."""
    return any(label.startswith(b"-") or label.endswith(b"-") for label in labels(it))


def label_punycode(it):
    """A label that begins with `xn--`."""
    return any(label.lower().startswith(b"xn--") for label in labels(it))


def last_label(it):
    """A name whose last label begins with a digit."""
    return has(name(it), rb"(\A|\.)[0-9][^.]*\Z")


def two_numbers(it):
    """A name that begins with two numbers."""
    return has(name(it), rb"\A([0-9]+\.){2}")


def port_empty(it):
    """A `:` without a port."""
    return it.form in PLACES and it.port == b""


def port_byte(it):
    """A byte in the port but digits."""
    return it.form in PLACES and has(it.port, rb"[^0-9]")


def port_zero(it):
    """A port that begins with `0`."""
    return it.form in PLACES and has(it.port, rb"\A0")


def port_range(it):
    """A port above 65535."""
    return it.form in PLACES and has(it.port, rb"\A[0-9]+\Z") and int(it.port) > 65535


def path_empty(it):
    """A URL or an scp form without a path."""
    return it.form in (*URLS, "scp") and it.path == b""


def path_space(it):
    """`%20` in a path of HTTP."""
    return b"%20" in kept_escapes(it)


def path_letter(it):
    """An escape of a byte past 127 with capital letters, as `%C3%A9`, in a path of HTTP."""
    return has(kept_escapes(it), rb"%[89A-F]")


def path_escape(it):
    """Another `%` in the path of a URL."""
    return b"%" in other_escapes(it)


def path_query(it):
    """A `?` in the path of a URL."""
    return b"?" in url_path(it)


def path_fragment(it):
    """A `#` in the path of a URL."""
    return b"#" in url_path(it)


def path_semicolon(it):
    """A `;` in the path of a URL."""
    return b";" in url_path(it)


def path_quote(it):
    """A `'` in the path of a URL."""
    return b"'" in url_path(it)


def path_bracket(it):
    """A bracket in the path of a URL."""
    return has(url_path(it), rb"[\[\]]")


def path_byte(it):
    """Another byte in the path of a URL but letters, digits and `._~!$&()*+,=:@/-`."""
    return has(url_path(it), rb"[^A-Za-z0-9._~!$&'()*+,=:@/%?#;\[\]-]")


def path_dots(it):
    """A segment `.` or `..` in the path of a URL or of the scp form."""
    return has(it.path, rb"(\A|/)\.\.?(/|\Z)") and it.form in (*URLS, "scp")


def path_slashes(it):
    """`//` at the front of the path of a URL."""
    return url_path(it).startswith(b"//")


def path_drive(it):
    """A byte and a `:` after the first `/` of the path, in URLs of `ssh`, `git` and `file`."""
    return it.form in ("ssh", "git", "file") and it.path[2:3] == b":"


def path_tilde(it):
    """`/~~` at the front of the path, in URLs of `ssh` and `git`."""
    return it.form in ("ssh", "git") and it.path.startswith(b"/~~")


def path_dash(it):
    """`/-` at the front of the path, in URLs of `ssh`, `git` and `file`."""
    return it.form in ("ssh", "git", "file") and it.path.startswith(b"/-")


def file_tilde(it):
    """`/~` at the front of the path, in URLs of `file`."""
    return it.form == "file" and it.path.startswith(b"/~")


def scp_slash(it):
    """The scp form, with a path that lacks a `/` between two bytes."""
    return scp_path(it) != b"" and not has(it.path, rb"(?s)./.")


def scp_digits(it):
    """The scp form, with digits and a `/` or `:` at the front of its path."""
    return has(scp_path(it), rb"\A[0-9]+[/:]")


def scp_front(it):
    """The scp form, with `-` at the front of its path, or `~` as the second byte."""
    return has(scp_path(it), rb"(?s)\A(-|.~)")


def scp_letter(it):
    """The scp form, with a host of one byte."""
    return it.form == "scp" and len(it.host) == 1


def scp_scheme(it):
    """The scp form without a user, and with the word of a scheme as its host."""
    return it.form == "scp" and it.user is None and it.host.lower() in SCHEME_WORDS


def scp_again(it):
    """An `@` with a `:` after it in the path of the scp form, as if the host were there."""
    return has(scp_path(it), rb"(?s)@.*:") and not scp_bracket(it)


def scp_at(it):
    """Another `@` in the path of the scp form."""
    return b"@" in scp_path(it) and not scp_again(it) and not scp_bracket(it)


def scp_colon(it):
    """Another `:` in the path of the scp form."""
    return b":" in scp_path(it) and not scp_again(it) and not scp_bracket(it)


def scp_mark(it):
    r"""A `%`, `?`, `#` or `\` in the path of the scp form."""
    return has(scp_path(it), rb"[%?#\\]")


def scp_bracket(it):
    """A bracket in the path of the scp form."""
    return has(scp_path(it), rb"[\[\]]")


def scp_byte(it):
    """Another byte in the path of the scp form but letters, digits and `._~+,=/-`."""
    return has(scp_path(it), rb"[^A-Za-z0-9._~+,=/:@%?#\\\[\]-]")


def local_colon(it):
    """A `:` in a local path."""
    return b":" in local_path(it)


def local_backslash(it):
    r"""A `\` in a local path."""
    return b"\\" in local_path(it)


def local_bracket(it):
    """A bracket in a local path."""
    return has(local_path(it), rb"[\[\]]")


def local_at(it):
    """An `@` in a local path that doesn't begin with `/`."""
    return b"@" in local_path(it) and not it.path.startswith(b"/")


def local_slashes(it):
    """`//` in a local path."""
    return b"//" in local_path(it)


def local_control(it):
    """A control character in a local path."""
    return has(local_path(it), rb"[\x00-\x1f\x7f]")


def local_front(it):
    """A local path that is empty, is `/`, or begins with `-` or `~`."""
    return it.form == "local" and (it.path in (b"", b"/") or it.path.startswith((b"-", b"~")))


def local_utf8(it):
    """A local path that isn't UTF-8."""
    return not is_utf8(local_path(it))


ALL = (
    scheme, user_empty, user_at, user_mark, user_slash, user_escape, user_bracket, user_byte, user_dash, user_of_git, password_place,
    password_empty, password_byte, host_empty, host_of_file, host_address, host_quad, host_bracket, host_colon, host_case, host_underscore,
    host_mark, host_escape, host_byte, host_length, label_empty, label_length, label_end, label_punycode, last_label, two_numbers,
    port_empty, port_byte, port_zero, port_range, path_empty, path_space, path_letter, path_escape, path_query, path_fragment,
    path_semicolon, path_quote, path_bracket, path_byte, path_dots, path_slashes, path_drive, path_tilde, path_dash, file_tilde, scp_slash, scp_digits,
    scp_front, scp_letter, scp_scheme, scp_again, scp_at, scp_colon, scp_mark, scp_bracket, scp_byte, local_colon, local_backslash, local_bracket, local_at,
    local_slashes, local_control, local_front, local_utf8)
# The conditions by their names, as `UserEmpty`.
CONDITIONS = {"".join(map(str.capitalize, it.__name__.split("_"))): it for it in ALL}


def broken(text):
    """The names of the conditions that a text breaks, in their order."""
    found = pieces(text)
    return [name for name, is_broken in CONDITIONS.items() if is_broken(found)]


def is_unambiguous(text):
    return not broken(text)
