#!/usr/bin/env python3
"""Kills the program in the midst of runs with a store, and reads the tape that it leaves.

    bench/crash.py [KILLS [SEED]]    200 kills from seed 1, where none are named

The case has four sessions, each of calls at two sites of its own, and is run by 1, 2 or 4 workers. Each run is killed (signal 9)
at a random moment, one of four before it comes to an execution and the others behind that. The tape is then read here, by the rules of docs/FORMATS.md: it must have all executions that were on it at
the kill before, and behind them only such as come next in their session, each legal by the rules of the whole graph (tools/model.py).
The next run makes the calls that are left, on the same tape, and the last one makes them all. The status is 1 at the first tape
that is none or has other executions.

A kill ends the process, not the machine: the operating system keeps what was written. What it would lose with its power, and
what a disk would, is not tried here.
"""

import hashlib
import json
import os
import random
import subprocess
import sys
import tempfile
import time

sys.dont_write_bytecode = True
sys.path.insert(0, os.path.dirname(os.path.abspath(__file__)))
import second  # noqa: E402, F401
import replay  # noqa: E402
from model import PROGRAM, Case  # noqa: E402

SESSIONS = 4
CALLS = 2_500
# How many executions a run makes at most, about, before it is killed.
AHEAD = 40


def group(k):
    """The events, relations and sites of one session: a doctor and a nurse."""
    pm, s, gm, dt = ("%s-%d" % (name, k) for name in ("pm", "s", "gm", "dt"))
    relations = [["condition", pm, s], ["condition", s, gm], ["condition", s, dt], ["response", pm, s], ["response", pm, gm]]
    relations += [["response", dt, s], ["exclude", dt, gm], ["include", s, gm], ["milestone", s, gm]]
    return [pm, s, gm, dt], relations, [("doctor-%d" % k, [pm, s]), ("nurse-%d" % k, [gm, dt])]


def calls_of(k, draw):
    (pm, s, gm, dt), _, ((doctor, _), (nurse, _)) = group(k)
    return [draw.choice(["exec %s %s" % it for it in [(doctor, pm), (doctor, s), (doctor, s), (nurse, gm), (nurse, gm), (nurse, dt)]]) for _ in range(CALLS)]


def text_of(groups, sessions):
    events, relations, sites = (sum(parts, []) for parts in zip(*[group(k) for k in groups]))
    graph = {"events": [{"name": name} for name in events], "relations": relations}
    return json.dumps({"graph": graph, "cover": [{"site": site, "events": owned} for site, owned in sites], "sessions": sessions})


def executions(k, calls):
    """The numbers of the calls that are done where the session makes them all: its sites hear of no other session."""
    alone = Case(text_of([k], []))
    return [j for j, call in enumerate(calls) if alone.answer(call) == "done"]


def read_tape(folder, digest):
    """The executions that the tape stands for, each an event and a site; None where no byte of it was written."""
    path = os.path.join(folder, "dcr.tape")
    if not os.path.exists(path) or not os.path.getsize(path):
        return None
    with open(path, "rb") as file:
        tape = file.read()
    if len(tape) < 65 or tape[:8] != b"DCRTAPE\x02" or tape[8:40] != digest or any(tape[40:64]):
        sys.exit("dcr.tape has no header of a tape of the case: %s" % tape[:65].hex(" "))
    found = []
    while True:
        record = tape[64 + 12 * len(found) :][:12]
        if not record:
            sys.exit("the gate of record %d is missing" % len(found))
        if record[0] != 1:
            return found
        event, site, number = (int.from_bytes(record[a:b], "big") for a, b in ((1, 3), (3, 5), (5, 9)))
        if len(record) < 12 or any(record[9:]) or number != len(found):
            sys.exit("record %d is %s" % (len(found), record.hex(" ")))
        found.append((event, site))


class Run:
    """The case on one tape: what is done of it, by what stands there."""

    def __init__(self, draw):
        self.calls = [calls_of(k, draw) for k in range(SESSIONS)]
        self.done = [executions(k, calls) for k, calls in enumerate(self.calls)]
        self.whole = Case(text_of(range(SESSIONS), []))
        self.digest = hashlib.sha256("".join(line + "\n" for line in list(self.whole.head())[1:4]).encode()).digest()
        self.tape = []
        self.made = [0] * SESSIONS

    def case(self):
        """The case with the calls that are left."""
        left = [calls[done[made - 1] + 1 if made else 0 :] for calls, done, made in zip(self.calls, self.done, self.made)]
        return text_of(range(SESSIONS), left).encode()

    def is_done(self):
        return all(made == len(done) for made, done in zip(self.made, self.done))

    def take(self, found):
        """Takes what stands on the tape now, behind what stood there before."""
        if found[: len(self.tape)] != self.tape:
            sys.exit("the tape had %d executions and has others now" % len(self.tape))
        for event, site in found[len(self.tape) :]:
            name, owned = self.whole.sites[site]
            session, call = site // 2, "exec %s %s" % (name, self.whole.atoms[event])
            due = next((self.calls[session][j] for j in self.done[session][self.made[session] :]), "nothing")
            if call != due or self.whole.atoms[event] not in owned or self.whole.answer(call) != "done":
                sys.exit("execution %d is %s, and session %d has %s next" % (len(self.tape), call, session, due))
            self.made[session] += 1
            self.tape.append((event, site))


def started(folder, text, workers, report=subprocess.DEVNULL):
    with tempfile.TemporaryFile() as file:
        file.write(text)
        file.seek(0)
        words = [*PROGRAM, "--workers", str(workers), "--store"]
        return subprocess.Popen(words, stdin=file, stdout=report, cwd=folder)


def finish(run, folder):
    """Makes all calls that are left."""
    last = started(folder, run.case(), 4, subprocess.PIPE)
    report = last.communicate()[0]
    if last.returncode:
        sys.exit("the tape can't be gone on from: status %d" % last.returncode)
    if not replay.check(report).startswith("valid "):
        sys.exit("the report of the last run isn't valid")
    run.take(read_tape(folder, run.digest))
    if not run.is_done():
        sys.exit("the last run made %s of %s executions" % (run.made, [len(done) for done in run.done]))


class Pace:
    """How fast runs are, as far as it was seen, whatever else the machine does."""

    def __init__(self, draw):
        self.draw = draw
        # Seconds until a run puts something on the tape, and for an execution.
        self.start, self.each = 0.01, 0.001

    def kill(self, ran, folder):
        path, begun = os.path.join(folder, "dcr.tape"), time.monotonic()

        def size():
            return os.path.getsize(path) if os.path.exists(path) else 0

        had = max(size(), 65)
        if self.draw.random() < 0.25:
            time.sleep(self.draw.uniform(0, self.start))
        else:
            while ran.poll() is None and size() <= had:
                time.sleep(0.001)
            self.start = time.monotonic() - begun
            time.sleep(self.draw.uniform(0, AHEAD * self.each))
        ran.kill()
        if ran.wait() not in (-9, 0):
            sys.exit("the program ends with status %d" % ran.returncode)

    def saw(self, more):
        if more:
            self.each *= 0.8 if more > AHEAD else 1.05


def main(kills=200, seed=1):
    draw = random.Random(seed)
    run, pace, killed, grown, longest, empty = Run(draw), Pace(draw), 0, 0, 0, 0
    while killed < kills:
        with tempfile.TemporaryDirectory(dir=".") as folder:
            while killed < kills and not run.is_done():
                ran = started(folder, run.case(), draw.choice((1, 2, 4)))
                pace.kill(ran, folder)
                found, before = read_tape(folder, run.digest), len(run.tape)
                run.take(found or [])
                more = len(run.tape) - before
                pace.saw(more)
                killed, empty = killed + (ran.returncode == -9), empty + (found is None)
                grown, longest = grown + (more > 0), max(longest, more)
            finish(run, folder)
            print("a tape of %d executions after %d kills" % (len(run.tape), killed))
        run = Run(draw)
    print("%d kills: at %d the tape had grown, by %d at most; at %d no tape was made yet" % (killed, grown, longest, empty))
    # Where hardly a run came to an execution nothing was tried.
    return grown < killed / 4


if __name__ == "__main__":
    if len(sys.argv) > 3 or not all(word.isdigit() for word in sys.argv[1:]):
        sys.exit(__doc__)
    sys.exit(main(*(int(word) for word in sys.argv[1:])))
