"""Differences of readings, and the classes that they belong to.

A case is a text and its readings. It has the parts that are read differently (`differing`), the reading of each reader by the
reader's name (`readings`), and the example's version of that (`said`).
"""
import json

from git_classes import class_of, reported
from runs import answers
from tables import fits


def lost(cases, classes):
    """The differences in no class, each with its readings."""
    for it in cases:
        if it.differing and class_of(it, classes) is None:
            yield it, f"in no class: {it.text!r}" + "".join(f"\n    {name}: {reported(found)}" for name, found in it.readings.items())


def needless(cases, classes):
    """The classes that no difference needs: each of theirs would be in another one."""
    differences = [it for it in cases if it.differing]
    return [name for name in classes if not any(
        class_of(it, {other: parts for other, parts in classes.items() if other != name}) is None for it in differences)]


def changed(examples, case_of, classes):
    """The examples whose reading has changed, or that aren't in their class."""
    for it in examples:
        case = case_of(it.text)
        found = (class_of(case, classes) if case.differing else "alike", *case.said)
        if found != (it.class_name, *it.said):
            yield f"{it.place}: {it.text!r} is stored as {(it.class_name, *it.said)}, and is read as {found}"


def unlike(words, texts, read, rule):
    """The texts whose reading differs from a rule, each with the fault."""
    for text in texts:
        found, wanted = read(text), rule(text)
        if found != wanted:
            yield text, f"{words} {found} in {text!r}, and not {wanted}"


def library_faults(expected):
    """The orders for which the library has another outcome than Git, among pairs of an order and Git's outcome, without None."""
    pairs = [*filter(None, expected)]
    for (order, is_so), outcome in zip(pairs, answers([it for it, _ in pairs])):
        if not fits(is_so, outcome):
            yield None, f"{json.dumps(order)}\n  expected {json.dumps(is_so)}\n  returned {json.dumps(outcome)}"
