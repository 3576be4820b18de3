"""The cases on the lines of an input, as they are written: each with its places, beside the one on the line before."""

import re

from case import File, parse
from stages import lines_of

MARKS = ("executed", "pending", "included")


def padded(data, number):
    """The case of a line behind spaces and line ends, so that each of its places is that of the whole input."""
    lines = lines_of(data)
    before = "".join(line.decode(errors="replace") + "\n" for line in lines[:number])
    return re.sub(r"[^\n]", " ", before).encode() + re.sub(rb"\r\Z", b"", lines[number])


class Line:
    """The case of a line, and its text behind spaces and line ends."""

    def __init__(self, data, number):
        top, self.text = parse(padded(data, number))
        self.file = File(top)

    def event(self, name):
        """The event of this name as it is written."""
        return self.file.events[self.file.names.index(name)]

    def old_events(self, before):
        """The events that stood on the line before, as no nests there."""
        old = {*before.file.atoms}
        return [event for event, name in zip(self.file.events, self.file.names) if name in old]


def passed_over(before, line):
    """Each mark that is written of an old event: the event's name, the mark, its place, and whether it is the same on the
    line before."""
    for event in line.old_events(before):
        name = event.get("name").value
        earlier = before.event(name)
        for mark, at, value in event.members:
            if mark in MARKS:
                there = earlier.get(mark)
                yield name, mark, at, there is not None and there.value == value.value
