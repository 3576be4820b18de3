#!/usr/bin/env python3
"""A plain model of `dcr serve --sessions M --workers 1` in another language, where the links come one after the other.

    bench/linked.py LINK .. < CASE      the report, where each link gives the bytes of a file; the replies come on
                                        standard error

It reads the table of docs/FORMATS.md, *Lines over a link*; the case is read by reader.py and stepped by model.py.
"""

import sys

sys.dont_write_bytecode = True
import second  # noqa: E402, F401
from reader import Refused, is_call, read_case  # noqa: E402

MOST_ENTRIES = MOST_LINES = 200_000
MOST_BYTES = 200


class Serving:
    """The calls of the links so far. Where `good` is named, no more executions than so many can be kept on the tape."""

    def __init__(self, case, good=None):
        self.case, self.entries, self.links = case, [], 0
        self.head, self.good = list(case.head()), good

    def entry(self, call, seq):
        case = self.case
        before = case.executed, case.pending, case.included
        told = case.answer(call)
        if told == "done" and self.good is not None:
            if not self.good:
                case.executed, case.pending, case.included = before
                told = "faulted"
            self.good -= told == "done"
        self.entries.append("%d %d %d %s %s" % (len(self.entries), self.links, seq, call, told))
        return self.entries[-1].encode()

    def is_stopped(self):
        return self.entries[-1:] and self.entries[-1].endswith(" faulted")

    def halt(self):
        """What a call is answered that is not made any more; nothing where it is."""
        if self.is_stopped():
            return b"stopped %d" % (len(self.entries) - 1)
        return b"full %d" % MOST_ENTRIES if len(self.entries) == MOST_ENTRIES else b""

    def call_of(self, line):
        """The call that a line spells, or None."""
        try:
            text = line.decode()
        except UnicodeDecodeError:
            return None
        return text if is_call(self.case, text) else None

    def replies(self, data):
        """What the next link is answered, line by line."""
        at, answered, seq = 0, 0, 0
        while answered < MOST_LINES or at == len(data):
            end = data.find(b"\n", at)
            if (end if end >= 0 else len(data)) - at > MOST_BYTES:
                yield b"long-line"
                return
            if end < 0:
                return
            line = data[at:end]
            call = self.call_of(line[:-1] if line.endswith(b"\r") else line)
            at, answered = end + 1, answered + 1
            denied = None if call is None else self.case.denied(self.links, call)
            if call is None or denied is not None:
                yield b"bad-line" if call is None else b"denied " + denied.encode()
                continue
            if self.halt():
                yield self.halt()
                return
            yield self.entry(call, seq)
            seq += 1
        yield b"many-lines"

    def link(self, data):
        """The bytes that the next link takes."""
        told = b"".join(line + b"\n" for line in self.replies(data))
        self.links += 1
        return told

    def report(self):
        case = self.case
        lines = [*self.head, *self.entries]
        lines += ["site %s %s" % (name, case.projected(owned)) for name, owned in case.sites]
        lines.append("verdict waits " + case.waits() if case.waits() else "verdict accepting")
        return ("\n".join([*lines, "end %d" % len(self.entries)]) + "\n").encode()


def answer(data, links, good=None):
    """The status of a serving over these links, what is written, and what each link takes; no link is taken for a file
    that is refused."""
    try:
        serving = Serving(read_case(data), good)
    except Refused as refusal:
        return 3, b"%s\n" % str(refusal).encode(), []
    told = [serving.link(link) for link in links]
    status = 7 if serving.is_stopped() else 9 if len(serving.entries) == MOST_ENTRIES else 0
    return status, serving.report(), told


if __name__ == "__main__":
    files = [open(name, "rb").read() for name in sys.argv[1:]]
    status, wrote, replied = answer(sys.stdin.buffer.read(), files)
    sys.stdout.buffer.write(wrote)
    sys.stderr.buffer.write(b"".join(replied))
    sys.exit(status)
