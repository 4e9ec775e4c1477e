"""The attacks of docs/READERS.md: texts in which some readers find another host than the one that Git connects to."""
import re

from rt_api import read

# A line of the table: the text, and the host that Git connects to; none for a local path.
ROW = re.compile(r"(?m)^\| `(.+?)` \| (?:`(.+?)`|a local path) \|")
# A word of an answer that names a host.
NAME = re.compile(r"[^\s@]+\.[^\s@]+")


def attacks():
    """The texts, each with Git's host."""
    return ROW.findall(read("docs/READERS.md").partition("<!-- attacks -->")[2].partition("<!-- end -->")[0])


def misled(answers):
    """The attacks for which a program answers with a host to which Git doesn't connect. It answers each by a line."""
    return [text for (text, host), answer in zip(attacks(), answers, strict=True) if {*NAME.findall(answer)} - {host}]
