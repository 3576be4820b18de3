#!/usr/bin/env python3
"""Gives the program inputs that were changed at random, and compares all that it answers with the plain models.

    bench/hostile.py KIND COUNT SEED [--jobs N]    as many inputs of a kind, by N processes, else by one a processor

The kinds:

    run        case files of all versions, with roles and without, changed in bytes, words, members and values: the
               refusal's line, or the report (reader.py)
    replay     reports, changed likewise: the first wrong line and its kind, or that they are valid (replay.py)
    store      tapes of both versions in the file dcr.tape, changed likewise: the report or the refusal, and the file's
               bytes behind the run (stored.py)
    conform    cases with an event log behind them, changed likewise: a line for each trace, or the refusal's (traces.py)
    serve      what one to three connections send, denied calls too: each byte of the replies, and the report (linked.py)
    outside    the same commands where memory, output, input, disk, port or connections fail: no status but those of
               docs/FORMATS.md, with what the table says was written (outside.py, outside_disk.py, outside_link.py)
    all        each of these

Before the random inputs each kind tries some that stand at the limits. The counts that are printed at the end say how
many inputs got which answer. The status is 1 at the first input that is answered otherwise than by the model: it is
then written to files in the current folder, a case, a report or a log also to one that is as small as was found, and both
answers are printed. Input K of a seed is the same whatever COUNT and N are.

The program is `crates/dcr/out/dcr`, or the one that the environment variable DCR names. `serve` and `outside` have a
network of their own in each process where the system allows that; else the port 7411 must be free.
"""

import collections
import multiprocessing
import os
import random
import sys
import time

sys.dont_write_bytecode = True
sys.path.insert(0, os.path.dirname(os.path.abspath(__file__)))
import second  # noqa: E402, F401
import inputs  # noqa: E402
import linked  # noqa: E402
import outside  # noqa: E402
import outside_disk  # noqa: E402
import outside_link  # noqa: E402
import reader  # noqa: E402
import replay  # noqa: E402
import stored  # noqa: E402
import traces  # noqa: E402
from trial import Network, Room, Trial, dcr, serve, show, want_program  # noqa: E402

# How many inputs a process takes at a time.
AT_ONCE = 25
MOST_OF_REPORT = 268_435_456
# Up to how many bytes an input is made smaller that is answered otherwise.
MOST_MADE_SMALLER = 20_000


# ---- one input of a kind: drawn, or one that stands at a limit


def label_of_line(line):
    """What a line of an answer is counted as."""
    words = line.split(b"\n")[0].decode("latin-1").split(" ")
    return " ".join(words[: 4 if words[1:2] in (["3"], ["4"], ["16"]) else 3])


def try_run(draw, edge=None):
    text = inputs.changed_case(draw) if edge is None else edge
    wanted = reader.answer(text)
    label = label_of_line(wanted[1]) if wanted[0] else "report"
    if label == "report" and edge is None and draw.random() < 0.1:
        told = dcr(["run", "--workers", str(draw.randint(2, 4))], text)
        return Trial("report by several workers", {"case": text}, told, lambda told: wrong_by_several(told, wanted[1]))
    return Trial(label, {"case": text}, dcr(["run"], text), wanted)


def wrong_by_several(told, report):
    """What is wrong with the report of several workers, whose calls must be those of one worker's report, or None."""

    def calls(text):
        entries = [line.split(b" ") for line in text.split(b"\n") if line[:1].isdigit()]
        return sorted(words[1 : 3 + reader.LENGTHS[words[3].decode()]] for words in entries)

    is_valid = told[0] == 0 and len(told) == 2 and replay.check(told[1]).startswith("valid ")
    return None if is_valid and calls(told[1]) == calls(report) else "a valid report of the calls of %r" % report


def check_report(text):
    if len(text) > MOST_OF_REPORT:
        return 3, b"refused 1 too-long\n"
    line = replay.check(text).encode()
    return 0 if line.startswith(b"valid") else 8, line


def try_replay(draw, edge=None):
    text = inputs.changed_report(draw) if edge is None else edge
    wanted = check_report(text)
    words = wanted[1].decode().split()
    label = "invalid " + words[2] if words[0] == "invalid" else words[0]
    return Trial(label, {"report": text}, dcr(["replay"], text), wanted)


def try_store(draw, edge=None):
    text, tape = edge or inputs.changed_tape(draw)
    wanted = stored.answer(text, tape)
    with Room(tape) as room:
        told = (*dcr(["run", "--store"], text, cwd=room.folder), room.tape())
    return Trial(label_of_store(wanted, tape), {"case": text, "tape": tape}, told, wanted)


def is_bad_record(tape):
    """Whether a record of a tape is none, and not its execution one that can't be done."""
    try:
        stored.executions_on(tape, *stored.in_force(tape))
    except stored.TapeRefused:
        return True
    return False


def label_of_store(wanted, tape):
    if wanted[0] == 3:
        return label_of_line(wanted[1])
    if wanted[0]:
        words = wanted[1].decode().split()
        causes = [] if words[1] != "bad" else ["record" if is_bad_record(tape) else "execution"]
        return " ".join(words[:2] + causes)
    if not tape:
        return "a new tape"
    return "gone on from version %d%s" % (tape[7], ", renewed before" if tape[7] == 1 and tape[40] == 1 else "")


def try_conform(draw, edge=None):
    data = inputs.changed_log(draw) if edge is None else edge
    wanted = traces.answer(data)
    labels = [label_of_line(wanted[1])] if wanted[0] else [label_of_trace(line) for line in wanted[1].decode().split("\n")[:-1]]
    return Trial(labels, {"log": data}, dcr(["conform"], data), wanted)


def label_of_trace(line):
    """What the line of a trace is counted as: its answer, and of one that is refused the cause."""
    words = line.split(" ")
    return "a log" if len(words) == 2 else "trace " + words[1] + (" " + words[3] if words[1] == "refused" else "")


def try_serve(draw, edge=None):
    text, links = edge or inputs.changed_links(draw)
    wanted = linked.answer(text, links)
    told = serve(text, links, draw)
    labels = ["status %d" % wanted[0] if wanted[0] != 3 else label_of_line(wanted[1])]
    labels += [label_of_reply(line.decode()) for line in b"".join(wanted[2]).split(b"\n")[:-1]]
    return Trial(labels, {"case": text, **{"link%d" % k: link for k, link in enumerate(links)}}, told, wanted)


def label_of_reply(line):
    """What a reply is counted as: its first word, or the call's, with the first one of an execution's outcome."""
    words = line.split(" ")
    if not line[:1].isdigit():
        return "reply " + words[0]
    return "reply " + words[3] + (" " + words[6] if words[3] == "exec" else "")


def try_outside(draw):
    return draw.choice(outside.WAYS + outside_disk.WAYS + outside_link.WAYS)(draw)


# ---- the campaign

TRIED = {
    "run": try_run,
    "replay": try_replay,
    "store": try_store,
    "conform": try_conform,
    "serve": try_serve,
    "outside": try_outside,
}
EDGES = {
    "run": inputs.edges_of_run,
    "replay": inputs.edges_of_replay,
    "store": inputs.edges_of_store,
    "conform": inputs.edges_of_conform,
    "serve": inputs.edges_of_serve,
}


def smaller(kind, text):
    """A part of an input that is answered otherwise too: whatever can be left out of it is."""
    step = len(text)
    while step:
        at = 0
        while at < len(text):
            less = text[:at] + text[at + step :]
            if TRIED[kind](None, less).complaint():
                text = less
            else:
                at += step
        step //= 2
    return text


def tried(task):
    """The answers to some inputs, counted, and the first one that is wrong."""
    kind, seed, numbers, edge = task
    counts = collections.Counter()
    for number in numbers:
        draw = random.Random("%s %d %d" % (kind, seed, number))
        trial = TRIED[kind](draw, *edge)
        counts.update(trial.labels())
        complaint = trial.complaint()
        if complaint:
            found = trial.inputs
            if kind in ("run", "replay", "conform") and len(*found.values()) < MOST_MADE_SMALLER:
                found["smaller"] = smaller(kind, *found.values())
            return counts, ("hostile-%s-%d-%d" % (kind, seed, number), found, trial.told, complaint)
    return counts, None


def limits(kind, seed):
    """Tasks of one input each, that stands at a limit."""
    for k, edge in enumerate(EDGES[kind]() if kind in EDGES else []):
        yield kind, seed, [-1 - k], [edge]


def at_random(kind, count, seed):
    for first in range(0, count, AT_ONCE):
        yield kind, seed, range(first, min(first + AT_ONCE, count)), []


def all_tried(pool, tasks, counts):
    """Tries the inputs of the tasks and counts the answers; whether all are as the model says."""
    for more, wrong in pool.imap_unordered(tried, tasks):
        counts.update(more)
        if wrong:
            pool.terminate()
            show(*wrong)
            return False
    return True


def campaign(kind, count, seed, jobs):
    """Tries as many inputs of a kind; whether all are answered as the model says."""
    counts = collections.Counter()
    has_own = kind in ("serve", "outside") and Network.can_be_own()
    if kind == "serve" and not has_own:
        jobs = 1
    with multiprocessing.Pool(jobs, Network.enter if has_own else None) as pool:
        if not all_tried(pool, limits(kind, seed), counts):
            return False
        begun = time.monotonic()
        if not all_tried(pool, at_random(kind, count, seed), counts):
            return False
        seconds = time.monotonic() - begun
    found = (kind, count, jobs, count / seconds)
    print("%s: %d inputs by %d processes, %.0f a second, and those at the limits" % found)
    for label, many in sorted(counts.items()):
        print("%10d %s" % (many, label))
    return True


def main(words):
    jobs = os.cpu_count() or 1
    if words[3:4] == ["--jobs"] and len(words) == 5 and words[4].isdigit():
        words, jobs = words[:3], int(words[4])
    if len(words) != 3 or words[0] not in [*TRIED, "all"] or not (words[1] + words[2]).isdigit() or not jobs:
        sys.exit(__doc__)
    want_program()
    kinds = list(TRIED) if words[0] == "all" else words[:1]
    return 0 if all(campaign(kind, int(words[1]), int(words[2]), jobs) for kind in kinds) else 1


if __name__ == "__main__":
    sys.exit(main(sys.argv[1:]))
