"""Tests the values of the package gix_url as Python sees them: types, order, texts, names, copies and errors."""
import copy
import ctypes
import dataclasses
import doctest
import logging
import pathlib
import pickle

import gix_url
import pytest
from gix_url import Argument, Condition, Scheme, Url

# Fields, each with values of a wrong type.
WRONG = {
    "scheme": (None, "https", b"https", 4, 4.0), "name": (b"a", 5), "user": (b"u", 5, True), "password": (b"p", 5),
    "host": (b"h", 5), "port": ("22", 22.0, b"22", True), "path": (None, 3, "/p", ["/p"], True),
    "alternative": (None, 1, "no"), "spelling": (3, "/p")}
FIELDS = ("name", "kind", "fault", "write_fault", "shown", "total", "at", "len", "reason", "words")
WITHOUT_TEXT = Url(Scheme.SSH, user="u", path=b"/p")
# Texts, and a location without a text, each refused with another error.
REFUSED = ("", "ssh://h", "http://h:x/", b"http://h/\xff", "http://" + "a" * 2000, WITHOUT_TEXT)
SECRET = "https://u:s3cret@h:22/a%20b?c#d"
WHOLE = Url(Scheme.HTTPS, user="u", password="p", host="h", port=22, path=b"/p", spelling=b"/%70")
PROTOCOLS = range(pickle.HIGHEST_PROTOCOL + 1)


def refusal(of):
    """The error with which a text or a location is refused."""
    with pytest.raises(gix_url.Error) as raised:
        bytes(of if isinstance(of, Url) else gix_url.parse(of))
    return raised.value


def fields(error):
    return [str(error), *(getattr(error, it) for it in FIELDS)]


# ---- types

@pytest.mark.parametrize("name, value", [(name, it) for name, values in WRONG.items() for it in values])
def test_no_field_is_made_of_another_type(name, value):
    with pytest.raises(TypeError, match=f"gix_url: {name} is "):
        WHOLE.replace(**{name: value})


@pytest.mark.parametrize("name, value", [
    ("port", -1), ("port", 65536), ("port", 1 << 64), ("user", "s3cr\udce9t"), ("password", "s3cr\ud800t"),
    ("name", "n")], ids=ascii)
def test_no_field_is_made_of_what_it_cant_have(name, value):
    with pytest.raises(ValueError, match="^gix_url: [a-zA-Z8 -]+$"):
        WHOLE.replace(**{name: value})


def test_a_helper_has_a_name():
    with pytest.raises(ValueError):
        Url(Scheme.HELPER, path=b"p")


def test_the_message_has_no_value():
    with pytest.raises(TypeError) as raised:
        Url(Scheme.HTTPS, password=b"secret")
    assert str(raised.value) == "gix_url: password is bytes, and has to be str or None"


def test_fields_are_given_by_name():
    with pytest.raises(TypeError):
        Url(Scheme.HTTPS, None, "u")
    for make in (WHOLE.replace, lambda **fields: Url(Scheme.HTTPS, **fields)):
        with pytest.raises(TypeError):
            make(pasword="p")


@pytest.mark.parametrize("name", [*(it.name for it in dataclasses.fields(Url)), "pasword"])
def test_no_field_can_be_changed(name):
    before = copy.deepcopy(WHOLE)
    with pytest.raises(AttributeError):
        setattr(WHOLE, name, None)
    assert WHOLE == before


# ---- keys

def test_equal_locations_are_one_key():
    texts = ("https://h/p", "https://h/p", "https://h:443/p", "https://h/%70", "ssh://h/p", "h:/p", "a::b", "a://b/")
    urls = [gix_url.parse(it) for it in texts]
    assert len(set(urls)) == 7
    assert {urls[0]: 1}[urls[1]] == 1
    assert gix_url.parse("https://H/P") not in urls


def test_locations_are_sorted():
    texts = ("file:///b", "/a", "ssh://h/a", "ssh://h:22/a", "h:/a", "ssh://u@h/a", "ssh://u:p@h/a", "http://h/a",
             "http://h/%61", "a::b", "z::a")
    urls = [gix_url.parse(it) for it in texts]
    assert sorted(reversed(urls)) == urls
    assert (max(urls), min(urls)) == (urls[-1], urls[0])
    with pytest.raises(TypeError):
        urls[0] < "ssh://h/a"


@pytest.mark.parametrize("text, changes, wanted", [
    ("https://u:p@h/%70", {}, "https://u:p@h/%70"),
    ("https://u:p@h/%70", {"password": None}, "https://u@h/%70"),
    ("https://u:p@h/%70", {"path": b"/q"}, "https://u:p@h/q"),
    ("https://u:p@h/%70", {"path": b"/p"}, "https://u:p@h/%70"),
    ("https://u:p@h/%70", {"path": b"/q", "spelling": b"/%71"}, "https://u:p@h/%71"),
    ("ftp://h/p", {"scheme": Scheme.HTTPS, "name": None}, "https://h/p")])
def test_replace_makes_another_one(text, changes, wanted):
    assert gix_url.parse(text).replace(**changes) == gix_url.parse(wanted)


# ---- texts

def test_a_text_is_as_it_is_used():
    url = gix_url.parse(SECRET)
    assert [str(url), f"{url}", "%s" % url, bytes(url).decode()] == [SECRET] * 4
    assert url.redacted == "https://u:redacted@h:22/a%20b?c#d"


@pytest.mark.parametrize("given", [
    b"/\xff\xfe", b"/\xc3\xa9\xff", "h:é".encode(), "ssh://h/é".encode(), b"/\xed\xa0\x80"])
def test_a_text_is_read_again(given):
    url = gix_url.parse(given)
    assert (gix_url.parse(str(url)), bytes(url)) == (url, given)


def test_a_text_is_bytes_or_a_path():
    assert str(gix_url.parse(b"/\xff")) == "/\udcff"
    assert gix_url.parse(pathlib.Path("/a")) == gix_url.parse("/a")


def test_what_is_logged_has_no_password(caplog):
    url = gix_url.parse(SECRET)
    with caplog.at_level(logging.INFO):
        logging.info("%r from %r", [url], {"url": url})
    for shown in (repr(url), f"{url!r}", caplog.messages[0], repr(dataclasses.replace(url, password="s3cret"))):
        assert "s3cret" not in shown
        assert "password='redacted'" in shown
    wanted = "Url(scheme=Scheme.HTTPS, user='u', host='h', port=22, path=b'/a b?c#d', spelling=b'/a%20b?c#d')"
    assert repr(url.replace(password=None)) == wanted


@pytest.mark.parametrize("text", [bytes, str, lambda it: it.redacted])
def test_what_has_no_text_is_shown(text):
    assert repr(WITHOUT_TEXT) == "Url(scheme=Scheme.SSH, user='u', path=b'/p')"
    with pytest.raises(gix_url.Error, match="^the location can't be written: "):
        text(WITHOUT_TEXT)


# ---- names

def test_a_scheme_is_shown_as_in_texts():
    shown = "file git ssh http https ext helper helper_url".split()
    assert [str(it) for it in Scheme] == shown
    assert [f"{it}" for it in Scheme] == shown
    for scheme in list(Scheme)[:6]:
        assert Url(scheme).scheme_text() == str(scheme)
    assert Url(Scheme.HELPER_URL, name="ftp").scheme_text() == "ftp"


def test_other_numbers_are_shown_by_name():
    assert [str(it) for it in Argument] == ["absent", "usable", "dangerous"]
    assert (str(Condition.PATH_BYTES), repr(Condition.PATH_BYTES)) == ("path_bytes", "Condition.PATH_BYTES")


# ---- errors

def test_an_error_has_its_place():
    error = refusal("http://h:0x/")
    assert (error.kind, error.reason, error.at, error.len) == ("Url", "PortNotANumber", 9, 2)
    assert (str(error), error.args) == ("the URL has an invalid port, at byte 9", ("the URL has an invalid port",))
    assert str(refusal("")) == "the location is empty, at byte 0"


def test_what_is_refused_leaves_no_password(monkeypatch):
    made = []
    monkeypatch.setattr(gix_url, "buffer", lambda size: made.append((ctypes.c_char * size)()) or made[-1])
    assert refusal("http://u:s3cret@h:0/").reason == "PortZero"
    assert made
    assert b"s3cret" not in b"".join(map(bytes, made))


def test_what_is_no_text_has_no_place():
    error = refusal(WITHOUT_TEXT)
    wanted = ("the location can't be written: a user comes without a host", None, 0)
    assert (str(error), error.reason, error.at) == wanted


@pytest.mark.parametrize("of", REFUSED, ids=lambda it: ascii(it)[:20])
def test_errors_keep_their_fields(of):
    error = refusal(of)
    for protocol in PROTOCOLS:
        assert fields(pickle.loads(pickle.dumps(error, protocol))) == fields(error)
    assert fields(copy.deepcopy(error)) == fields(error)


def test_locations_keep_their_fields():
    url = gix_url.parse(SECRET)
    for protocol in PROTOCOLS:
        again = pickle.loads(pickle.dumps(url, protocol))
        assert (again, hash(again), bytes(again)) == (url, hash(url), bytes(url))
    assert (copy.deepcopy(url), copy.copy(url).spelling) == (url, url.spelling)


def test_examples():
    failed, tried = doctest.testmod(gix_url)
    assert tried and not failed
