#!/usr/bin/env python3
"""Checks the reports of a case that was kept on a tape, day by day: each by itself, and that each goes on from the one before.

    tools/chain.py CASE REPORT..               each report is checked by the plain checker, tools/replay.py
    tools/chain.py --by PROGRAM CASE REPORT..  each report is checked by `PROGRAM replay` too, such as ./dcr

CASE is your own case file, and the reports are named in their order. Each must be valid; its lines `dcr`, `graph` and
`cover` must be those of the case; the first one must open as the case does, and each later one with the marking that the
calls of those before it leave. The sessions of the case are not looked at. It needs Python alone, and nothing is proved
of what it prints; by `--by` the program's own, proved check is asked as well.

A line is printed for each report, up to the first that fails. The status is 0 where all hold; 1 where a report is of
other rules, or doesn't go on from the one before; 8 where one is not valid; 3 where the case is refused; 2 where the
words are others or a file can't be read.
"""

import subprocess
import sys

from command import Usage, Wrong, command, read_bytes
from reader import Refused, read_case
from replay import read_mark, verdict

DONE, BROKEN, REFUSED, INVALID = 0, 1, 3, 8
HEAD = ["dcr", "graph", "cover"]


def shortened(text, most=160):
    return text if len(text) <= most else text[:most] + ".."


def by_program(program, data):
    """What `PROGRAM replay` says of a report: its line."""
    ran = subprocess.run([program, "replay"], input=data, stdout=subprocess.PIPE)
    if ran.returncode not in (DONE, REFUSED, INVALID):
        raise Wrong("%s replay ended with status %d" % (program, ran.returncode))
    return ran.stdout.decode()


def ends_of(case, lines):
    """The markings that a valid report may leave, the case taken to its line `open`: one, or two where keeping its last
    execution failed, so that it may be on the tape and may not."""
    case.executed, case.pending, case.included = read_mark(case, lines[3].split(" ")[1:])
    entries = [line.split(" ") for line in lines[4:] if line[:1].isdigit()]
    for words in entries:
        if words[3] == "exec" and words[-1] == "done":
            case.step(words[5])
    ends = [case.mark(case.executed, case.pending, case.included)]
    if entries and entries[-1][3] == "exec" and entries[-1][-1] == "faulted":
        case.step(entries[-1][5])
        ends.append(case.mark(case.executed, case.pending, case.included))
    return ends


def check(case, path, data, program, before, ends):
    """Prints what a report comes to. Answers a status, and the markings that it may leave."""
    status, line = verdict(data)
    if program is not None and by_program(program, data) != line:
        raise Wrong("%s: %s replay says `%s`, and tools/replay.py `%s`" % (path, program, by_program(program, data).strip(), line.strip()))
    if status != DONE:
        print("%s: %s" % (path, line.strip()))
        return INVALID, ends
    lines = data.decode().split("\n")
    for number, (own, told) in enumerate(zip(list(case.head())[:3], lines), 1):
        if own != told:
            print("%s:%d: the line `%s` is not the case's\n  case:   %s\n  report: %s" % (path, number, HEAD[number - 1], shortened(own), shortened(told)))
            return BROKEN, ends
    if lines[3][len("open ") :] not in ends:
        where = "as the case does" if before is None else "where %s ends" % before
        print("%s:4: it is valid, and doesn't open %s\n  wanted: open %s\n  report: %s" % (path, where, ends[0], lines[3]))
        if before is not None:
            print("  look for: a report between the two; a run that was killed and so wrote none; reports in another order")
        return BROKEN, ends
    print("%s: %s, and opens %s" % (path, line.strip(), "as the case does" if before is None else "where %s ends" % before))
    return DONE, ends_of(case, lines)


@command(__doc__)
def main(words):
    program = None
    if words[:1] == ["--by"] and len(words) > 1:
        program, words = words[1], words[2:]
    if len(words) < 2 or words[0].startswith("--"):
        raise Usage
    try:
        case = read_case(read_bytes(words[0]))
    except Refused as refusal:
        print("%s: %s" % (words[0], refusal))
        return REFUSED
    before, ends = None, [case.mark(case.executed, case.pending, case.included)]
    for path in words[1:]:
        status, ends = check(case, path, read_bytes(path), program, before, ends)
        if status != DONE:
            return status
        before = path
    return DONE


if __name__ == "__main__":
    sys.exit(main(sys.argv[1:]))
