#!/usr/bin/env python3
"""A second implementation, in another language, of the check of event logs: what `dcr conform` answers.

    tools/traces.py < INPUT     a line for each trace, and how many there are; or the line of the refusal

INPUT is a case file on its first line, and a log behind it. Nothing is proved of what it prints, and it needs neither the
kit nor a build. reader.py reads the case; the records of the log are found by one pattern for a field, and a marking is
three numbers with a bit for each event. The status is 0, 3 where the case or the log is refused, and 2 with other words.
"""

import re
import sys

from command import Usage, command
from reader import MOST_BYTES, Refused, read_case, refuse

MARK = b"\xef\xbb\xbf"
ENDS = re.compile(rb"[\r\n]*")
# A field: in quotes, of which two stand for one, with what follows the last quote; or up to a comma or the end of the record.
FIELD = re.compile(rb'"([^"]*(?:""[^"]*)*)(?:"([^,\r\n]*))?|([^,\r\n]*)')
TRACE = re.compile(rb"[A-Za-z0-9_.-]{1,64}")


def records(log):
    """The records of a log: where each begins, and its fields. A mark at the head and empty lines are none."""
    at = len(MARK) if log.startswith(MARK) else 0
    while True:
        at = ENDS.match(log, at).end()
        if at == len(log):
            return
        begun, fields = at, []
        while not fields or log[at : at + 1] == b",":
            found = FIELD.match(log, at + 1 if fields else at)
            quoted, rest, plain = found.groups()
            fields.append(plain if quoted is None else quoted.replace(b'""', b'"') + (rest or b""))
            at = found.end()
        yield begun, fields


def is_text(field):
    try:
        field.decode()
    except UnicodeDecodeError:
        return False
    return True


def is_bad(row, fields, width):
    """Whether the record with this number is none of a log whose header has so many fields."""
    if row == 0:
        return fields[:2] != [b"case", b"event"]
    return len(fields) != width or not TRACE.fullmatch(fields[0]) or not is_text(fields[1])


def read_log(log):
    """The traces by name, in order of first appearance, each with the texts of its events."""
    traces, width = {}, None
    for row, (_, fields) in enumerate(records(log)):
        width = len(fields) if row == 0 else width
        refuse(is_bad(row, fields, width), 15, "log", row)
        if row:
            traces.setdefault(fields[0].decode(), []).append(fields[1].decode())
    refuse(width is None, 15, "log 0")
    return traces


def bits(numbers):
    """The number with these bits."""
    return sum(1 << number for number in numbers)


def least(marks):
    """The least event of these."""
    return (marks & -marks).bit_length() - 1


class Judge:
    """The rules of a case, by the number of an event: what blocks it, and what it does."""

    def __init__(self, case):
        self.number, self.atoms = case.number, case.atoms
        self.opening = [bits(case.number[it] for it in marks) for marks in (case.executed, case.pending, case.included)]
        before, after = ("condition", "milestone"), ("cancel", "response", "include", "exclude")
        self.rules = {kind: [0] * len(case.atoms) for kind in before + after}
        for kind, of in self.rules.items():
            for a, b in case.pairs[kind]:
                event, other = (b, a) if kind in before else (a, b)
                of[case.number[event]] |= 1 << case.number[other]

    def cause(self, event, executed, pending, included):
        """Why the event can't be executed at this marking, or None."""
        if not included >> event & 1:
            return "excluded"
        for kind, blocks in (("condition", included & ~executed), ("milestone", included & pending)):
            blocks &= self.rules[kind][event]
            if blocks:
                return "%s %s" % (kind, self.atoms[least(blocks)])
        return None

    def after(self, event, executed, pending, included):
        """The marking after an execution of the event."""
        pending = pending & ~(1 << event | self.rules["cancel"][event]) | self.rules["response"][event]
        return executed | 1 << event, pending, (included | self.rules["include"][event]) & ~self.rules["exclude"][event]

    def judged(self, texts):
        """How a trace with these events is judged."""
        marking = self.opening
        for place, text in enumerate(texts):
            event = self.number.get(text)
            if event is None:
                return "unknown %d" % place
            why = self.cause(event, *marking)
            if why:
                return "refused %d %s" % (place, why)
            marking = self.after(event, *marking)
        owed = marking[1] & marking[2]
        return "waits %s %d" % (self.atoms[least(owed)], len(texts)) if owed else "accepting %d" % len(texts)


def answer(data):
    """The status of `dcr conform` for these bytes, and what is written."""
    try:
        refuse(len(data) > MOST_BYTES, 1, "too-long")
        file, _, log = data.partition(b"\n")
        judge, traces = Judge(read_case(file)), read_log(log)
    except Refused as refusal:
        return 3, b"%s\n" % str(refusal).encode()
    lines = ["%s %s\n" % (name, judge.judged(texts)) for name, texts in traces.items()]
    return 0, ("".join(lines) + "traces %d\n" % len(traces)).encode()


@command(__doc__)
def main(words):
    if words:
        raise Usage
    status, wrote = answer(sys.stdin.buffer.read(MOST_BYTES + 1))
    sys.stdout.buffer.write(wrote)
    return status


if __name__ == "__main__":
    sys.exit(main(sys.argv[1:]))
