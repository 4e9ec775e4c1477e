"""The programs that represent groups of readers, and whether each finds the host of its group (`second_reading/groups.py`).

A text counts if Git connects with it, and finds another host than the program or the group; the group's host isn't the host of
the location either. `file` texts don't count, since Git finds no host in them. For `digits_are_port` the port is compared too.
If a program finds a host that isn't the group's, the text has a shape that `groups.jsonl` lists for this program: by `shapes.jsonl` a pattern is
in the text or in the host of the group, or isn't at the front of the text.
"""
import re
from collections import Counter

from reader_places import REFUSED, SILENT, plain_host
from reader_programs import lines
from second_reading import grammar
from second_reading.groups import GROUPS, host_by, is_own

# The counts: texts in which the program finds another host than Git, and those of them in which it finds the group's; texts
# that the group misreads, and the program's host in them: the group's, none, Git's, or another one.
MEMBERS = ("differs", "takes", "misread", "same", "none", "gits", "another")
LISTED, SHAPES = lines("groups"), {it["words"]: it for it in lines("shapes")}


# ---- the hosts of groups and programs

def taken(group, it):
    """The compared part of a place: its host, and for `digits_are_port` the port too."""
    return (it.host, it.port) if group == "digits_are_port" else it.host


def found(group, host):
    """The same for the host that a group finds."""
    if group != "digits_are_port":
        return plain_host(host)
    named, _, digits = host.rpartition(b":")
    return plain_host(named), int(digits)


def hosts_of(case):
    """By groups, the host that each finds in a case, as it is written there; None for each group if the case doesn't count."""
    if case.wanted is None or case.form == "file":
        return {}
    return {group: it for group in GROUPS if (it := host_by(group, case.text)) is not None}


def is_misread(case, group):
    """Whether the host that a group finds is neither Git's nor the location's."""
    if found(group, case.hosts[group]) == taken(group, case.wanted):
        return False
    location = grammar.spells(case.text)
    return location is not None and not is_own(location.host, case.hosts[group])


class Seen:
    """The behaviour of a program of a group in a case: whether the group misreads it, and the program's host."""

    def __init__(self, group, case, it):
        self.group, self.case, self.is_misread = group, case, group in case.misread
        self.has_host = it not in (REFUSED, SILENT) and it.host is not None
        self.host = it.host if self.has_host else None
        self.is_same = self.has_host and taken(group, it) == found(group, case.hosts[group])
        self.differs = self.has_host and taken(group, it) != taken(group, case.wanted)
        self.is_wrong = self.has_host and not self.is_same and (self.is_misread or self.differs)

    def has(self, words):
        shape = SHAPES[words]
        pattern = re.compile(shape["pattern"].encode(), re.S)
        if shape["in"] == "host":
            return pattern.search(self.case.hosts[self.group])
        return pattern.search(self.case.text) if shape["in"] == "text" else not pattern.match(self.case.text)

    def members(self):
        if self.differs:
            yield from ("differs", "takes") if self.is_same else ("differs",)
        if self.is_misread:
            yield "misread"
            yield "none" if not self.has_host else "same" if self.is_same else "another" if self.differs else "gits"


def seen(name, cases, places):
    """The behaviour of the program in each case of its groups that counts."""
    for group in (it["group"] for it in LISTED if it["program"] == name):
        for case, it in zip(cases, places):
            if group in case.hosts and (one := Seen(group, case, it)) and (one.differs or one.is_misread):
                yield one


def counted(readers):
    """The lines of the programs that were run, with their counts."""
    asked = {it.name: it for it in readers}
    for line in (it for it in LISTED if it["program"] in asked):
        count = Counter(member for it in asked[line["program"]].seen if it.group == line["group"] for member in it.members())
        yield {**line, **{member: count[member] for member in MEMBERS}}


# ---- faults

def wrong(readers):
    """Texts in which a program finds another host than its group, each with the line of both."""
    lines_of = {(it["group"], it["program"]): it for it in LISTED}
    return [(lines_of[it.group, reader.name], it) for reader in readers for it in reader.seen if it.is_wrong]


def group_faults(readers):
    """Texts in which a program finds another host than its group, and that have no shape that is listed for it."""
    for line, it in wrong(readers):
        if not any(map(it.has, line["shapes"])):
            yield f"{line['program']} takes {it.host} in {it.case.text!r}, and its group {it.group} finds {it.case.hosts[it.group]!r}"


def shape_faults(readers):
    found, names = wrong(readers), {it.name for it in readers}
    for line in (it for it in LISTED if it["program"] in names):
        for words in line["shapes"]:
            if not any(of is line and it.has(words) for of, it in found):
                yield f"in no text {line['program']} takes another host than {line['group']} by the shape: {words}"
