#!/usr/bin/env python3
"""Executes the orders on the standard input, one a line, by the package gix_url, and prints the result of each call as
a line of JSON, as the program `answers` does. tests/bindings/binding_rows.py writes and describes orders."""
import json
import os
import re
import sys

sys.dont_write_bytecode = True
sys.path.append(f"{os.path.dirname(os.path.realpath(__file__))}/../python")
import gix_url
import rule_calls
from rule_calls import named, reported

SCHEMES = {"File": 0, "Git": 1, "Ssh": 2, "Http": 3, "Https": 4, "Ext": 5, "Helper": 6, "HelperUrl": 7}
NAMES = {number: name for name, number in SCHEMES.items()}


def order_of(line):
    """The members of an order. In their values `\\x` with two digits is a byte."""
    members = (it.partition(b"=") for it in line.split(b"\t"))
    return {name.decode(): re.sub(rb"\\x(..)", lambda it: bytes([int(it[1], 16)]), value) for name, _, value in members}


def location(order, whole):
    """The location with the parts of an order that have this prefix, as they are."""
    part = {name.removeprefix(whole): it for name, it in order.items() if name.startswith(whole)}
    scheme, space, name = part["scheme"].decode().partition(" ")
    texts = {it: part[it].decode() for it in ("user", "password", "host") if it in part}
    port = int(part["port"]) if "port" in part else None
    more = {"path": part.get("path", b""), "spelling": part.get("spelling"), "alternative": part.get("alternative") == b"true"}
    return gix_url.Url(gix_url.Scheme(SCHEMES[scheme]), name=name if space else None, port=port, **texts, **more)


def reported_url(url):
    spelling = url.look().original_path
    name = NAMES[url.scheme] + (f" {reported(url.name)}" if url.name is not None else "")
    own = {"alternative": url.alternative or None, "spelling": spelling if spelling != url.path else None}
    parts = {**{it: getattr(url, it) for it in ("user", "password", "host", "port", "path")}, **own}
    return {"scheme": name, **{it: reported(part) for it, part in parts.items() if part is not None}}


def reported_error(error, refused=b""):
    members = {"error": " ".join(it for it in (error.name, error.fault, error.write_fault, error.kind) if it)}
    if error.name == "TooLong":
        members.update(kept=reported(refused[: error.shown]), total=error.total)
    if error.reason:
        members.update(at=error.at, len=error.len, reason=error.reason)
    return members


def judged(argument, text):
    return [None, {"usable": reported(text)}, {"dangerous": reported(text)}][argument]


def usable(argument, text):
    return reported(text) if argument == gix_url.Argument.USABLE else None


def components(url):
    parts = url.components()
    query = None if parts.query is None else [[reported(name), reported(value)] for name, value in parts.query]
    members = {"path": reported(parts.path), "query": query, "fragment": reported(parts.fragment)}
    return {name: it for name, it in members.items() if it is not None}


def shown(url):
    try:
        return {"shown": reported(url.redacted)}
    except gix_url.Error:
        return {"shown": "", "failed": True}


def unmet_condition(url):
    """The first condition that isn't met, by its name here, which is the library's name with `_` between words."""
    unmet = url.unmet_condition()
    assert (unmet is None) == url.is_unambiguous()
    return None if unmet is None else named(unmet)


def reported_order(one, other):
    """The order of two locations, as a total and as a partial one, whether they are equal and whether their hashes are."""
    order = "Less" if one < other else "Greater" if one > other else "Equal"
    assert (one <= other, one >= other, one != other) == (order != "Greater", order != "Less", order != "Equal")
    return [[order, order], [one == other, hash(one) == hash(other)]]


# The result of each call over a location.
CALLS = {
    "Url::agrees_with_git": lambda url: url.agrees_with_git(),
    "Url::host": lambda url: reported(url.host),
    "Url::host_argument_safe": lambda url: usable(url.look().host, url.host),
    "Url::host_as_argument": lambda url: judged(url.look().host, url.host),
    "Url::is_settled": lambda url: url.is_settled(),
    "Url::is_unambiguous": lambda url: url.is_unambiguous(),
    "Url::original_path": lambda url: reported(url.look().original_path),
    "Url::password": lambda url: reported(url.password),
    "Url::path_argument_safe": lambda url: reported(url.path) if url.look().path_is_usable else None,
    "Url::path_is_root": lambda url: url.look().path_is_root,
    "Url::path_query_fragment": components,
    "Url::port_or_default": lambda url: url.look().port,
    "Url::to_bstring": lambda url: reported(bytes(url)),
    "Url::text_len": lambda url: len(bytes(url)),
    "Url::unmet_condition": unmet_condition,
    "Url::user": lambda url: reported(url.user),
    "Url::user_argument_safe": lambda url: usable(url.look().user, url.user),
    "Url::user_as_argument": lambda url: judged(url.look().user, url.user),
    "Url:fmt": shown,
}


def refused_parts(parts, error):
    """The error with which parts are refused. If they have a text, it is the parse error of that."""
    try:
        return reported_error(error, bytes(parts))
    except gix_url.Error:
        return reported_error(error)


def of_scheme(call, order):
    """The result of a call over a scheme, by a location that has nothing else."""
    url = location({"scheme": order["scheme"]}, "")
    return reported(url.scheme_text()) if call == "Scheme::as_str" else reported_order(url, location({"scheme": order["other"]}, ""))


def outcome(order):
    call = order["call"].decode()
    if call in rule_calls.CALLS:
        return rule_calls.outcome({**order, "location": location(order, "url.")} if "url.scheme" in order else order)
    if call in ("Scheme::as_str", "Scheme:Ord"):
        return of_scheme(call, order)
    if call == "Url::from_parts":
        parts = location(order, "record.")
        try:
            return reported_url(gix_url.from_parts(parts))
        except gix_url.Error as error:
            return refused_parts(parts, error)
    if call == "Error:fmt":
        return words(order["text"])
    try:
        text = order.get("text", order.get("url"))
        url = location(order, "url.") if text is None else gix_url.parse(text)
    except gix_url.Error as error:
        return reported_error(error, text) if call == "parse::parse" else {"halt": "not prepared"}
    try:
        if call == "Url:Ord":
            return reported_order(url, gix_url.parse(order["other"]) if "other" in order else location(order, "other."))
        return reported_url(url) if call == "parse::parse" else CALLS[call](url)
    except gix_url.Error as error:
        return reported_error(error)


def words(text):
    """The message for a refused text, with the length of a text that is too long, as the library writes it."""
    try:
        gix_url.parse(text)
    except gix_url.Error as error:
        return {"shown": error.args[0] + (f", in a text of {error.total} bytes" if error.total else "")}
    return None


def main():
    for line in sys.stdin.buffer:
        print(json.dumps(outcome(order_of(line.rstrip(b"\n")))))


if __name__ == "__main__":
    main()
