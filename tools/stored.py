#!/usr/bin/env python3
"""A plain model of `dcr run --store` in another language: what a tape holds, what is answered over it, and what its bytes
are then.

    tools/stored.py show TAPE CASE   the executions that the tape holds, one a line: the number, the site and the event
    tools/stored.py show TAPE        the same without the case: the numbers of the event and of the site in its place
    tools/stored.py TAPE < CASE      the line or the report, for a case over this tape

The tape is left as it is. The status is 0, or that of `dcr run --store`: 3 where the case is refused, 10 where the tape
is. It reads the table of docs/FORMATS.md, *Tape file*, in its order; the case is read by reader.py and run by model.py,
with one worker.
"""

import hashlib
import sys

from command import Usage, command, read_bytes
from reader import Refused, read_case

MAGIC = b"DCRTAPE"
MOST_READ = 1_000_001


class TapeRefused(Exception):
    """A refusal, with the line that is written."""


def refuse(holds, *words):
    if holds:
        raise TapeRefused("tape " + " ".join(map(str, words)))


# ---- the bytes


def digest_of(case):
    """The digest of a case that has not begun."""
    return hashlib.sha256("".join(line + "\n" for line in list(case.head())[1:4]).encode()).digest()


def header(version, digest):
    return MAGIC + bytes([version]) + digest + bytes(24)


def record(width, number, execution):
    """A record behind its gate."""
    event, site = execution
    numbered = number.to_bytes(4, "big") if width == 12 else b""
    return event.to_bytes(2, "big") + site.to_bytes(2, "big") + numbered + bytes(3)


def part(digest, executions, width=12):
    """A whole tape: with records of 12 bytes of version 2, with those of 8 bytes of version 1."""
    records = [b"\x01" + record(width, number, execution) for number, execution in enumerate(executions)]
    return header(2 if width == 12 else 1, digest) + b"".join(records) + b"\x00"


def in_force(tape):
    """Where the part in force begins, and how wide its records are."""
    refuse(len(tape) < 65 or tape[:7] != MAGIC or tape[7] not in (1, 2), "not-tape")
    begin, width = 0, 12
    if tape[7] == 1:
        refuse(any(tape[49:64]), "not-tape")
        begin, width = (int.from_bytes(tape[41:49], "big"), 12) if tape[40] == 1 else (0, 8)
    refuse(begin > 2**62 or begin + 65 > len(tape), "not-tape")
    is_header = tape[begin : begin + 8] == MAGIC + b"\x02" and not any(tape[begin + 40 : begin + 64])
    refuse(width == 12 and not is_header, "not-tape")
    return begin, width


def executions_on(tape, begin, width):
    found = []
    for r in range(MOST_READ):
        at = begin + 64 + width * r
        refuse(at >= len(tape), "bad", r)
        if tape[at] != 1:
            return found
        whole = tape[at : at + width]
        refuse(len(whole) < width or any(whole[-3:]), "bad", r)
        refuse(width == 12 and int.from_bytes(whole[5:9], "big") != r, "bad", r)
        found.append((int.from_bytes(whole[1:3], "big"), int.from_bytes(whole[3:5], "big")))
    raise TapeRefused("tape long")


def opened(tape, case):
    """What the tape stands for, and where its part in force begins. The case goes on from there."""
    begin, width = in_force(tape)
    refuse(tape[begin + 8 : begin + 40] != digest_of(case), "other-case")
    executions = executions_on(tape, begin, width)
    for r, (event, site) in enumerate(executions):
        refuse(event >= len(case.atoms) or site >= len(case.sites), "bad", r)
        refuse(case.atoms[event] not in case.sites[site][1] or case.cause(case.atoms[event]), "bad", r)
        case.step(case.atoms[event])
    return executions, begin, width


def put(tape, at, data):
    tape[at : at + len(data)] = data


def renewed(tape, digest, executions):
    """The bytes of a tape of version 1 once it is renewed."""
    begin = 65 + 8 * len(executions)
    put(tape, begin, part(digest, executions))
    put(tape, 41, begin.to_bytes(8, "big"))
    put(tape, 40, b"\x01")
    return begin


def append(tape, begin, number, execution):
    put(tape, begin + 65 + 12 * number, record(12, number, execution) + b"\x00")
    put(tape, begin + 64 + 12 * number, b"\x01")


# ---- the run


def run(case, good=None):
    """The report of the case from where it stands, and its executions. Where `good` is named, keeping more executions
    than so many fails: the next one is faulted, and the last entry."""
    lines, done, place = list(case.head()), 0, 0
    for number, session in enumerate(case.sessions):
        for seq, call in enumerate(session):
            before = case.executed, case.pending, case.included
            told = case.answer(call)
            if told == "done" and done == good:
                case.executed, case.pending, case.included = before
                told = "faulted"
            done += told == "done"
            lines.append("%d %d %d %s %s" % (place, number, seq, call, told))
            place += 1
            if told == "faulted":
                break
        if lines[-1].endswith(" faulted"):
            break
    lines += ["site %s %s" % (name, case.projected(owned)) for name, owned in case.sites]
    lines.append("verdict waits " + case.waits() if case.waits() else "verdict accepting")
    report = ("\n".join([*lines, "end %d" % place]) + "\n").encode()
    return report, executions_of(case, report)


def executions_of(case, report):
    """The executions that a report has, each as the numbers of its event and its site."""
    sites = [name for name, _ in case.sites]
    entries = [line.split(" ") for line in report.decode().split("\n") if line[:1].isdigit()]
    return [(case.number[words[5]], sites.index(words[4])) for words in entries if words[-1] == "done"]


def begun(case, tape):
    """The tape as a run takes it up, where its part in force begins, and its executions."""
    digest = digest_of(case)
    if not tape:
        return bytearray(part(digest, [])), 0, []
    executions, begin, width = opened(tape, case)
    tape = bytearray(tape)
    return tape, renewed(tape, digest, executions) if width == 8 else begin, executions


def is_near(tape, case, executions):
    """Whether a tape stands for these executions, or for these and one more."""
    try:
        found = opened(tape, case)[0]
    except TapeRefused:
        return False
    return len(found) <= len(executions) + 1 and found[: len(executions)] == executions


def stops(data, tape):
    """For each execution of an accepted case on a sound tape: the report where it can't be kept, and the executions
    that the tape has then."""
    case = read_case(data)
    _, _, old = begun(case, tape)
    marks = case.executed, case.pending, case.included
    for good in range(len(run(case)[1])):
        case.executed, case.pending, case.included = marks
        report, done = run(case, good)
        yield report, old + done


def answer(data, tape):
    """The status of a run with this store, what is written, and the store then; None is a file that there is not."""
    try:
        case = read_case(data)
        after, begin, old = begun(case, tape)
    except Refused as refusal:
        return 3, b"%s\n" % str(refusal).encode(), tape
    except TapeRefused as refusal:
        return 10, b"%s\n" % str(refusal).encode(), tape
    report, done = run(case)
    for number, execution in enumerate(done, len(old)):
        append(after, begin, number, execution)
    return 0, report, bytes(after)


def shown(tape, case):
    """A line for each execution of a tape, by the names of the case where there is one."""
    if not tape:
        return
    if case is None:
        for number, (event, site) in enumerate(executions_on(tape, *in_force(tape))):
            yield "%d site %d event %d" % (number, site, event)
        return
    for number, (event, site) in enumerate(opened(tape, case)[0]):
        yield "%d exec %s %s" % (number, case.sites[site][0], case.atoms[event])


@command(__doc__)
def main(words):
    if words[:1] == ["show"] and len(words) in (2, 3):
        try:
            for line in shown(read_bytes(words[1]), read_case(read_bytes(words[2])) if words[2:] else None):
                print(line)
            return 0
        except (Refused, TapeRefused) as refusal:
            print(refusal)
            return 3 if isinstance(refusal, Refused) else 10
    if len(words) != 1 or words[0].startswith("--"):
        raise Usage
    status, wrote, _ = answer(sys.stdin.buffer.read(), read_bytes(words[0]))
    sys.stdout.buffer.write(wrote)
    return status


if __name__ == "__main__":
    sys.exit(main(sys.argv[1:]))
