"""The hints of `explain`: for each its name, and its condition; `Hint` of `explain_report` has the conditions in words."""
import re
import unicodedata

from second_reading.explain import components, form
from second_reading.readers import instead

# Two labels or more, the last one of letters, and not the one that bare repositories end in.
HOST_NAME = rb"(?:[A-Za-z0-9-]+\.)+(?!git(?:/|\Z))[A-Za-z]{2,}"
OF_SERVICES = rb"(?:[A-Za-z0-9-]+\.)+(?:com|org|net|io|dev|app|edu|gov|info|cloud)"
TRANSPORTS = (b"ssh", b"git", b"http", b"https", b"file", b"ftp", b"ftps", b"git+ssh", b"ssh+git")
MISTYPED = (b"ssh", b"git", b"http", b"https", b"file")
# A user without unusual bytes; `\w` for bytes is ASCII.
USER = rb"[\w.-]+"
COLON_FOR_SLASH = re.compile(rb"(?:ssh|git|https?)://(?:[^/]*@)?[^/@:\[\]]+:[A-Za-z~][^/@:]*(?:/|\Z)")
SLASH_IN_PASSWORD = re.compile(rb"(?:ssh|git|https?)://[^/@:]*:[^/@]*/.*@[^@/][^@]*/[^@]*\Z", re.S)
CAPITALS = re.compile(rb"(?!(?-i:[a-z+]*:))(?:https?|ssh|git|file|ftps?|git\+ssh|ssh\+git)://", re.I)
COMMANDS = re.compile(rb"(?:[$%#>] )?git (?:clone|fetch|pull|push|ls-remote|remote add|remote set-url|submodule add) ")
DRIVE = rb"[A-Za-z]:"
QUOTES = ((b'"', b'"'), (b"'", b"'"), (b"`", b"`"), (b"<", b">"))
PORT_IN_BRACKETS = re.compile(rb"(?:(?:(?!\]:|://)[^\[])*@)?\[[^:]+:[0-9]+\]:")
SCHEME_AFTER_USER = re.compile(USER + rb"@(?:" + b"|".join(map(re.escape, TRANSPORTS)) + rb")://")
SHORT_NAMES = (b"github", b"gitlab", b"bitbucket", b"gist", b"codeberg", b"sourcehut")
REVISIONS = ("ref", "rev", "tag", "branch", "commit", "version")
FORGES = (b"github.com", b"codeberg.org", b"gitea.com", b"bitbucket.org", b"git.sr.ht")
DETAILS = b"tree|blob|raw|blame|edit|pull|commit|compare|src|branch|log|item"
LISTS = b"pulls|pull-requests|issues|releases|tags|branches|commits|actions|wiki|refs"
OF_GITLAB = b"tree|blob|raw|blame|commit|commits|compare|merge_requests|issues|tags|branches|releases|pipelines|wikis"
# There is no `@` before the path, and the last `%40` there has text after it.
ESCAPED_AT = re.compile(rb"(?:ssh|git|https?)://(?=[^/?#@]*(?:[/?#]|\Z))[^/?#]*%40(?=[^/?#])(?![^/?#]*%40)")
SETTING = re.compile(rb"[ \t\n\r\f]*(?:(?:remote|submodule)\.[^=]*\.)?(?i:(?:push)?url)[ \t\n\r\f]*=")
DRAWN_ALIKE = ("GREEK ", "CYRILLIC ", "ARMENIAN ", "CHEROKEE ")


def is_form(v, *forms):
    return v is not None and form(v) in forms


def is_scheme(v, *schemes):
    return v is not None and v.scheme[0] in schemes


def is_page(v):
    """Whether the path goes on after a repository, as in forges' links to a part of it."""
    path = re.split(rb"[?#]", v.path)[0]
    of_forge = v.host in FORGES and re.match(rb"/[^/]+/[^/]+/(?:(?:" + LISTS + rb")(?:/|\Z)|(?:" + DETAILS + rb")/[^/])", path)
    return bool(of_forge or re.match(rb"(?s:(?:(?!/-/).)*)/-/(?:" + OF_GITLAB + rb")(?:/|\Z)", path))


def has_one_slash(line):
    scheme, mark, rest = line.partition(b":/")
    return mark and scheme in TRANSPORTS and scheme != b"git" and rest[:1] != b"/"


def edits(text):
    """Each text that is one edit away, with letters and digits."""
    bytes_ = [bytes([it]) for it in b"abcdefghijklmnopqrstuvwxyzABCDEFGHIJKLMNOPQRSTUVWXYZ0123456789"]
    for at in range(len(text) + 1):
        front, rest = text[:at], text[at:]
        yield from (front + it + rest for it in bytes_)
        yield from (front + it + rest[1:] for it in bytes_ if rest)
        yield front + rest[1:]
        yield front + rest[1:2] + rest[:1] + rest[2:]


NEARLY = {it for name in MISTYPED for it in edits(name)}


def has_near_scheme(line):
    scheme, mark, _ = line.partition(b"://")
    return mark and scheme in NEARLY and scheme.lower() not in TRANSPORTS


def names_revision(v):
    if is_scheme(v, "Http", "Https"):
        it = components(v)
        return it["fragment"] is not None or any(field["name"] in REVISIONS for field in it["query"] or [])
    return is_form(v, "scp", "url") and is_scheme(v, "Ssh", "Git") and re.search(rb"\.git[#?]", v.path)


def refused_host(line):
    """The text that a refused URL has instead of its host."""
    _, mark, rest = line.partition(b"://")
    return rest.split(b"/")[0].rpartition(b"@")[2].partition(b":")[0] if mark else b""


def is_mixed(host):
    """Whether a label has an ASCII letter, and one of a script in which some are drawn like ASCII letters."""
    for label in host.decode("utf-8", "replace").split("."):
        alike = any(unicodedata.name(it, "").startswith(DRAWN_ALIKE) for it in label)
        if alike and any(it.isascii() and it.isalpha() for it in label):
            return True
    return False


def has_mixed_host(line, v):
    return is_mixed(refused_host(line) if v is None else v.host or b"" if is_form(v, "url", "scp") else b"")


HINTS = {
    "colon_for_slash": lambda line, v: v is None and COLON_FOR_SLASH.match(line) and not (SLASH_IN_PASSWORD.match(line) or ESCAPED_AT.match(line)),
    "no_scheme": lambda line, v: is_form(v, "local") and re.match(HOST_NAME + rb"/.", line, re.S),
    "windows_path": lambda line, v: is_form(v, "scp") and re.match(rb"[A-Za-z]:(?:\\|/(?!~))", line),
    "capital_scheme": lambda line, v: CAPITALS.match(line),
    "carriage_return": lambda line, v: line.endswith(b"\r"),
    "byte_order_mark": lambda line, v: line.startswith("\ufeff".encode()),
    "outer_blank": lambda line, v: line != line.strip(b" \t"),
    "runs_command": lambda line, v: is_scheme(v, "Ext"),
    "home_here": lambda line, v: is_form(v, "local") and line.startswith(b"~"),
    "home_there": lambda line, v: is_scheme(v, "Ssh", "Git") and v.path.startswith(b"~"),
    "stored_password": lambda line, v: is_scheme(v, "Http", "Https") and v.password is not None,
    "unencrypted": lambda line, v: is_scheme(v, "Http") and not v.user is v.password is None,
    "pasted_command": lambda line, v: COMMANDS.match(line),
    "web_page": lambda line, v: is_scheme(v, "Http", "Https") and is_page(v),
    "slash_for_colon": lambda line, v: is_form(v, "local") and re.match(USER + rb"@" + HOST_NAME + rb"/.", line, re.S),
    "quotes": lambda line, v: len(line) > 1 and (line[:1], line[-1:]) in QUOTES,
    "scp_port": lambda line, v: is_form(v, "scp") and re.match(rb"[0-9]{1,5}/", v.path),
    "port_in_brackets": lambda line, v: PORT_IN_BRACKETS.match(line),
    "one_slash": lambda line, v: has_one_slash(line),
    "near_scheme": lambda line, v: has_near_scheme(line),
    "package_scheme": lambda line, v: re.match(rb"git(?:\+(?:https?|file|git)://|::(?!//))", line),
    "short_name": lambda line, v: is_form(v, "scp") and v.user is None and v.host in SHORT_NAMES and not v.path.startswith(b"/"),
    "scheme_after_user": lambda line, v: SCHEME_AFTER_USER.match(line),
    "revision": lambda line, v: v is not None and names_revision(v),
    "host_as_user": lambda line, v: is_form(v, "url", "scp") and re.fullmatch(OF_SERVICES, v.user or b""),
    "mixed_scripts": has_mixed_host,
    "relative": lambda line, v: is_form(v, "local") and (line + b"/").startswith(b"../"),
    "remote_name": lambda line, v: is_form(v, "local") and re.fullmatch(rb"\w[\w-]*", line),
    "slash_in_password": lambda line, v: v is None and SLASH_IN_PASSWORD.match(line),
    "punycode": lambda line, v: v is None and re.match(rb"https?://", line) and not refused_host(line).isascii(),
    "ssh_password": lambda line, v: is_form(v, "url") and is_scheme(v, "Ssh") and v.password is not None,
    "file_host": lambda line, v: is_form(v, "url") and is_scheme(v, "File") and v.host and not re.fullmatch(DRIVE, v.host),
    "escaped_at": lambda line, v: ESCAPED_AT.match(line),
    "missing_colon": lambda line, v: is_form(v, "local") and line.partition(b"//")[0] in TRANSPORTS and b"//" in line,
    "two_colons": lambda line, v: line.partition(b":://")[0] in TRANSPORTS and b":://" in line,
    "scheme_twice": lambda line, v: line.count(b"://") > 1 and {*line.split(b"://", 2)[:2]} <= {*TRANSPORTS},
    "end_of_sentence": lambda line, v: is_form(v, "url", "scp") and re.search(rb"\.git[,;).]+\Z", line),
    "markdown_link": lambda line, v: re.match(rb"(?s)\[.*\]\(.*\)\Z", line),
    "pasted_setting": lambda line, v: SETTING.match(line),
    "pasted_remote": lambda line, v: re.search(rb" \((?:fetch|push)\)\Z", line),
    "windows_share": lambda line, v: is_form(v, "local") and line[:2] == b"\\\\",
    "file_drive": lambda line, v: is_form(v, "url") and is_scheme(v, "File") and re.fullmatch(DRIVE, v.host or b""),
    # For the line that is explained, which may differ from the shown one.
    "hidden_secret": lambda line, v: False,
    "write_instead": lambda line, v: v is not None and instead(line, v),
}
OF_PASSWORDS = {"stored_password", "ssh_password"}


def hints(line, v, hides=False):
    """The names of the hints that apply to a line, in the order of the list, and that a part of it is hidden, if one is."""
    found = {name for name, applies in HINTS.items() if applies(line, v)}
    if hides and not found & OF_PASSWORDS:
        found.add("hidden_secret")
    return [name for name in HINTS if name in found]
