"""Storm's explicit format (.drn): its lines, its header, and how a state and an action are written."""

import re

from toolbox.endings import Refusal
from toolbox.explicit import shown

TYPES = {b"DTMC", b"MDP", b"SMG"}
VALUE_TYPES = {b"double", b"rational"}

STATE = re.compile(
    rb"""state\s+(?P<number>[0-9]+)
         (?P<rate>\s+![0-9]\S*)?
         (?P<observation>\s+\{[^}]*\})?
         (?:\s+<(?P<player>[^>]*)>)?
         (?:\s+\[(?P<rewards>[^\]]*)\])?
         (?P<labels>(?:\s+(?:"[^"]+"|[^\s"]+))*)\Z""",
    re.VERBOSE,
)
ACTION = re.compile(rb'action\s+(?:"([^"]+)"|(\S+))(?:\s+\[(?P<rewards>[^\]]*)\])?\Z')
PLACEHOLDER = re.compile(rb"\$(\S+)\s*:\s*(\S.*)\Z")


class Lines:
    """The lines of a file without blank ones, one after another, and the number of the last one taken."""

    def __init__(self, name, file):
        self.name, self.file, self.number = name, file, 0

    def __iter__(self):
        for line in self.file:
            self.number += 1
            line = line.strip()
            if line:
                yield line

    def refuse(self, cause, number=None):
        raise Refusal(self.name, number or self.number, cause)

    def following(self):
        """The next line, whatever it is."""
        self.number += 1
        return next(self.file, b"").strip()


class Header:
    """What stands before `@model`."""

    def __init__(self):
        self.kind = self.states = self.choices = None
        self.rewards = b""
        self.placeholders = {}


def read_header(lines):
    header = Header()
    for line in lines:
        word, _, rest = line.partition(b" ")
        if line == b"@model":
            if header.kind is None or header.states is None:
                lines.refuse("@model before @type and @nr_states")
            return header
        if word == b"@type:":
            header.kind = rest.strip()
            if header.kind not in TYPES:
                lines.refuse(f"a model of type {shown(header.kind)}; DTMC, MDP and SMG are read")
        elif word == b"@value_type:":
            if rest.strip() not in VALUE_TYPES:
                lines.refuse(f"values of type {shown(rest.strip())}; double and rational are read")
        elif line == b"@parameters":
            parameters = lines.following()
            if parameters:
                lines.refuse(f"parameters {shown(parameters)} are not read")
        elif line == b"@reward_models":
            header.rewards = lines.following()
        elif line == b"@nr_states":
            header.states = count_in(lines)
        elif line == b"@nr_choices":
            header.choices = count_in(lines)
        elif line.startswith(b"$"):
            read_placeholder(lines, line, header.placeholders)
        elif line != b"@placeholders" and not line.startswith(b"//"):
            lines.refuse(f"{shown(line)} is no part of a header")
    if not lines.number:
        raise Refusal(lines.name, None, "nothing in it")
    lines.refuse("the end before @model")


def count_in(lines):
    count = lines.following()
    if not count.isdigit():
        lines.refuse(f"{shown(count)} is no whole number")
    return int(count)


def read_placeholder(lines, line, placeholders):
    found = PLACEHOLDER.match(line)
    if not found:
        lines.refuse("no placeholder and value")
    placeholders[found[1]] = found[2]


def written_out(lines, header, value):
    """A value as it is spelt, that of its placeholder where it is one."""
    if not value.startswith(b"$"):
        return value
    if value[1:] not in header.placeholders:
        lines.refuse(f"{shown(value)} is no placeholder of the header")
    return header.placeholders[value[1:]]
