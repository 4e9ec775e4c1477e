"""A second reading of `CredentialReads` and `UriReads`, the definitions of the readings of Git's credential code and of a reader of URIs
in the text of an HTTP location (`crates/git_reads/specs/Credentials.antt`, `crates/git_laws/specs/GitWeb.antt`).

Each function is a relation of the definitions, and returns everything that it relates to its arguments: it tries every split of
a text, and checks the condition of each case. It doesn't call Git or libcurl: `tests/witnesses` compares.
"""
import re
from collections import namedtuple

from second_reading import git_class, grammar, hosts, octets
from second_reading.git_reads import decoded, first_cuts
from second_reading.octets import cuts

CredentialReading = namedtuple("CredentialReading", "protocol user password host path")
UriReading = namedtuple("UriReading", "scheme information host port path query fragment")
PATH_STARTS = b"/?#"
HOST_BYTES = octets.ALNUM | frozenset(b"-._~!$&'()*+,;=%")
URI_BYTES = HOST_BYTES | frozenset(b":@/?")


def pieces(rest):
    """The authority and the text after it: it ends at the first byte at which a path may start."""
    return [(front, back) for front, back in octets.halves(rest)
            if (back == b"" or back[0] in PATH_STARTS) and not any(it in front for it in PATH_STARTS)]


def splits_at(mark, text):
    return [(text, None)] if mark not in text else first_cuts(text, mark)


# ---- Git's credential code

def credential_decodes(piece):
    whole = [decoded(piece)] if b":" not in piece else []
    return whole + [front + b":" + decoded(rest) for front, rest in first_cuts(piece, b":")]


def credential_cuts(authority):
    """All of user, password and the text that names a host."""
    alone = [(None, None, authority)] if b"@" not in authority else []
    front = [(u, w, named) for information, named in first_cuts(authority, b"@") for u, w in splits_at(b":", information)]
    return alone + [(user, password, named) for u, w, named in front for user in credential_decodes(u)
                    for password in ([None] if w is None else credential_decodes(w))]


def trimmed_path(path):
    return path[:1] + path[1:].rstrip(b"/") if path else None


def credential_paths(suffix):
    rests = [rest for slashes, rest in octets.halves(suffix) if not slashes.strip(b"/") and not rest.startswith(b"/")]
    return [trimmed_path(it) for rest in rests for it in credential_decodes(rest)]


def credential_readings(text):
    found = [
        CredentialReading(protocol, user, password, host, path)
        for protocol, rest in cuts(text, b"://") if protocol and b"://" not in protocol and b"\0" not in text
        for authority, suffix in pieces(rest)
        for user, password, named in credential_cuts(authority)
        for host in credential_decodes(named)
        for path in credential_paths(suffix)
    ]
    return {it for it in found if not any(re.search(rb"[\n\r]", part or b"") for part in it)}


# ---- URIs

def uri_authorities(authority):
    alone = [(None, authority)] if b"@" not in authority else []
    return alone + [(information, named) for information, named in first_cuts(authority, b"@") if b"@" not in named]


def uri_hosts(named):
    """All of a host and the text after it."""
    return [(host, suffix) for host, suffix in octets.halves(named) if is_bracketed(host) or (b":" not in host and host[:1] != b"[")]


def is_bracketed(host):
    return host[:1] == b"[" and host[-1:] == b"]" and hosts.ip6(host[1:-1])


def uri_ports(suffix):
    is_port = suffix[:1] == b":" and all(it in octets.DIGITS for it in suffix[1:])
    return [None] if suffix == b"" else [suffix[1:]] if is_port else []


def is_escaped(allowed, part):
    return part is None or (all(it in allowed for it in part) and octets.sound(part))


def has_uri_bytes(r):
    return (grammar.is_scheme_text(r.scheme) and is_escaped(HOST_BYTES | frozenset(b":"), r.information)
            and (r.host[:1] == b"[" or is_escaped(HOST_BYTES, r.host))
            and all(is_escaped(URI_BYTES, it) for it in (r.path, r.query, r.fragment)))


def uri_readings(text):
    found = {
        UriReading(scheme, information, host, port, path, query, fragment)
        for scheme, rest in cuts(text, b"://")
        for authority, suffix in pieces(rest)
        for information, named in uri_authorities(authority)
        for host, after in uri_hosts(named)
        for port in uri_ports(after)
        for before, fragment in splits_at(b"#", suffix)
        for path, query in splits_at(b"?", before)
    }
    return {it for it in found if has_uri_bytes(it)}


def is_normal(uri):
    return uri.scheme == uri.scheme.lower() and uri.host == uri.host.lower() and not git_class.has_dot_segment(uri.path)


# ---- the location's own

def own_credential(v):
    port = b"" if v.port is None else b":%d" % v.port
    return CredentialReading(grammar.as_str(v.scheme), v.user, v.password, v.host + port, trimmed_path(v.path[1:]))


def with_query(uri):
    return uri.path if uri.query is None else uri.path + b"?" + uri.query


def is_own_information(v, information):
    if v.user is None or information is None:
        return v.user is information
    return any((octets.dec(a), b if b is None else octets.dec(b)) == (v.user, v.password) for a, b in splits_at(b":", information))


def is_own_uri(v, uri):
    port = None if v.port is None else b"%d" % v.port
    return (uri.scheme, uri.host, uri.port, uri.fragment) == (grammar.as_str(v.scheme), v.host, port, None) and (
        is_own_information(v, uri.information) and octets.dec(with_query(uri)) == v.path)


def own_faults(text, v):
    """The faults of `ReadsOwnOverWeb` for a text and a location."""
    if credential_readings(text) != {own_credential(v)}:
        yield f"by the definition Git's credential code reads {credential_readings(text)} in {text!r}, and not {own_credential(v)}"
    found = uri_readings(text)
    if len(found) != 1 or not all(is_own_uri(v, it) and is_normal(it) for it in found):
        yield f"by the definition {found} is the URI {text!r}, and not one in normal form of the location's own components"
