#!/usr/bin/env python3
"""Times runs by several workers, and what a store costs beside the syncs that it makes.

    bench/workers.py                    all tables
    bench/workers.py run                sessions at sites of their own, at one site, at 16 and at 64 sites that share, by 1 to 64 workers
    bench/workers.py before PROGRAM     by one worker, beside another build of the program, which knows the word `run`
    bench/workers.py store              5,000 executions with and without a store, beside their syncs alone

Each line of the first two is the least of several runs: wall time, processor time (user and system) and peak memory of the process.
The status is 1 where the program is above a bound: by several workers 1.3 times one worker's time, 1.1 where the sites share
nothing, and 1.5 times its processor time; 1.2 times the other build's processor time; 1.1 times the syncs. The bounds are of four
idle processors. The tape is made in the current folder. Build first: `./dcr` builds the program.
"""

import os
import random
import subprocess
import sys
import tempfile
import time

sys.dont_write_bytecode = True
sys.path.insert(0, os.path.dirname(os.path.abspath(__file__)))
from bench import PROGRAM, largest, measure  # noqa: E402

EXECUTIONS = 5_000
WORKERS = (2, 4, 8, 64)
RUNS = 7
MOST_APART, MOST_SHARED, MOST_CPU = 1.1, 1.3, 1.5
MOST_BEFORE = 1.2
MOST_SYNCS = 1.1


def groups(count, sessions, calls=200_000, seed=3):
    """A case of so many sites with 16 events each, which are related to no other site's; its sessions go round the sites."""
    draw = random.Random(seed)
    events, relations, cover, made = [], [], [], []
    for k in range(count):
        names = ["e%d-%d" % (k, j) for j in range(16)]
        events += ['{"name":"%s"}' % name for name in names]
        for _ in range(64):
            kind = draw.choice(["condition", "response", "milestone", "include", "exclude"])
            a, b = sorted(draw.sample(range(16), 2))
            if kind in ("include", "exclude"):
                kind = "include" if (a + b) % 4 else "exclude"
            relations.append('["%s","%s","%s"]' % (kind, names[a], names[b]))
        cover.append('{"site":"s%d","events":[%s]}' % (k, ",".join('"%s"' % name for name in names)))
    for k in range(sessions):
        site = k % count
        made.append("[%s]" % ",".join('"exec s%d e%d-%d"' % (site, site, draw.randrange(16)) for _ in range(calls // sessions)))
    parts = (",".join(part) for part in (events, relations, cover, made))
    return ('{"graph":{"events":[%s],"relations":[%s]},"cover":[%s],"sessions":[%s]}' % tuple(parts)).encode()


CASES = [
    ("64 sites apart, a session each", lambda: groups(64, 64), MOST_APART),
    ("one site, 64 sessions", lambda: groups(1, 64), MOST_SHARED),
    ("256 atoms, 16 sites that share", lambda: largest(256, 16, 1), MOST_SHARED),
    ("1,024 atoms, 64 sites that share", lambda: largest(1024, 64, 2), MOST_SHARED),
]


def run_table():
    print("%-34s %7s %6s %9s %9s %9s %12s %7s %7s" % ("200,000 calls", "workers", "status", "seconds", "cpu s", "peak MB", "calls/s", "of one", "cpu"))
    above = False
    for name, make, most in CASES:
        text = make()
        one, one_cpu = None, None
        for workers in (1, *WORKERS):
            status, seconds, cpu, peak = measure([*PROGRAM, "--workers", str(workers)], text, RUNS)
            one, one_cpu = one or seconds, one_cpu or max(cpu, 0.01)
            above = above or seconds > most * one or cpu > MOST_CPU * one_cpu
            row = (name, workers, status, seconds, cpu, peak, 200_000 / seconds, seconds / one, cpu / one_cpu)
            print("%-34s %7d %6d %9.2f %9.2f %9.1f %12.0f %7.2f %7.2f" % row)
    return above


def before_table(other):
    print("%-34s %9s %9s %9s | %9s %9s %9s | %6s" % ("run by one worker", "seconds", "cpu s", "peak MB", "other s", "cpu s", "peak MB", "ratio"))
    most = 0
    for name, make, _ in CASES:
        text = make()
        _, seconds, cpu, peak = measure(PROGRAM, text)
        _, before, before_cpu, before_peak = measure([os.path.abspath(other), "run"], text)
        ratio = cpu / max(before_cpu, 0.01)
        most = max(most, ratio)
        print("%-34s %9.2f %9.2f %9.1f | %9.2f %9.2f %9.1f | %6.2f" % (name, seconds, cpu, peak, before, before_cpu, before_peak, ratio))
    return most > MOST_BEFORE


def timed(call):
    begun = time.monotonic()
    call()
    return time.monotonic() - begun


def syncs(folder):
    """Makes the writes of so many appends, each with its sync."""
    file = os.open(os.path.join(folder, "plain.sync"), os.O_RDWR | os.O_CREAT)
    os.pwrite(file, bytes(65), 0)
    os.fsync(file)
    for number in range(EXECUTIONS):
        end = 65 + 12 * number
        os.pwrite(file, bytes([0, 1, 0, 1, *number.to_bytes(4, "big"), 0, 0, 0, 0]), end)
        os.fdatasync(file)
        os.pwrite(file, b"\x01", end - 1)
        os.fdatasync(file)
    os.close(file)


def stored_case(count):
    """A case of so many executions, all done, at one site."""
    calls = ",".join(['"exec x a"'] * count)
    return ('{"graph":{"events":[{"name":"a"}]},"cover":[{"site":"x","events":["a"]}],"sessions":[[%s]]}' % calls).encode()


def store_table():
    """The middle one of three runs by the ratio. What the run costs without a store is no part of what the store costs."""
    runs = []
    for _ in range(3):
        with tempfile.TemporaryDirectory(dir=".") as folder:
            how = {"input": stored_case(EXECUTIONS), "stdout": subprocess.DEVNULL, "cwd": folder, "check": True}
            plain = timed(lambda: subprocess.run(PROGRAM, **how))
            stored = timed(lambda: subprocess.run([*PROGRAM, "--store"], **how))
            alone = timed(lambda: syncs(folder))
        runs.append(((stored - plain) / alone, stored, plain, alone))
    runs.sort()
    ratio, stored, plain, alone = runs[1]
    row = (EXECUTIONS, stored, plain, alone, ratio, ", ".join("%.3f" % it[0] for it in runs))
    print("%d executions: %.2f s with a store, %.2f s without, their syncs alone %.2f s: ratio %.3f of %s" % row)
    return ratio > MOST_SYNCS


def main(words):
    if words[:1] == ["before"] and len(words) == 2:
        return before_table(words[1])
    if words not in ([], ["run"], ["store"]):
        sys.exit(__doc__)
    above = run_table() if words != ["store"] else False
    return (store_table() if words != ["run"] else False) or above


if __name__ == "__main__":
    sys.exit(main(sys.argv[1:]))
