#!/usr/bin/env python3
"""Doubles one thing of a case while all others stay, and prints how much more its run and the replay of its report take.

    bench/doubles.py            all steps
    bench/doubles.py CALLS      all steps, of so many calls in place of 50,000 where it isn't they that double

What doubles, twice each: the calls; the sites, over 1,024 atoms; the atoms, with 1,024 relations; the relations, over
1,024 atoms; the bytes of each name. What doesn't is 256 atoms, 16 sites, 4,096 relations, 50,000 calls of all kinds in
1,024 sessions and the shortest names. The fewer the calls, the more of a line is what it takes to read and to open.
A ratio is that to the line before: of the instructions by valgrind's callgrind (a dash where no `valgrind` is on the
path), of the least processor time of nine runs, of the greatest peak memory. The status is 1 where a ratio of the
instructions or of the peak memory is above 2.3, or, where there is no valgrind, one of the processor time or of the
peak memory; the last lines tell which.
It takes three minutes with valgrind, half a one without. The program is that of bench.py. Build first: `./dcr`.
"""

import random
import sys

sys.dont_write_bytecode = True
from bench import PROGRAM, REPLAY, VALGRIND, case_file, dealt, instructions, measure, mixed, named, opening, report_of, told  # noqa: E402

MOST = 2.3
TIMES = 9
CALLS = 50_000
STEPS = [
    ("calls", (50_000, 100_000, 200_000), {}),
    ("sites", (16, 32, 64), {"atoms": 1024}),
    ("atoms", (256, 512, 1024), {"relations": 1024}),
    ("relations", (1024, 2048, 4096), {"atoms": 1024}),
    ("name_bytes", (16, 32, 64), {}),
]
FIGURES = ("instructions", "processor time", "peak memory")
HELD = ("instructions" if VALGRIND else "processor time", "peak memory")


def case(calls, atoms=256, sites=16, relations=4096, name_bytes=1):
    """A case like the largest of bench.py, whose calls are the same whatever its relations are."""
    names, places = named("e", atoms, name_bytes), named("s", sites, name_bytes)
    opened = opening(random.Random(1), names, places, relations)
    return case_file(opened, dealt(mixed(random.Random(2), names, places, calls)))


def figures(command, text):
    """What a run takes, as FIGURES names it."""
    status, _, cpu, peak = measure(command, text, TIMES)
    if status != 0:
        sys.exit("%s ended with status %d" % (" ".join(command), status))
    return instructions(command, text), cpu, peak


def ratio(before, after):
    return None if before is None or after is None else after / max(before, 0.001)


def lines(command, thing, sizes, texts):
    """Prints a line for each size, and gives what is above MOST."""
    above, before = [], (None, None, None)
    for size, text in zip(sizes, texts):
        title = "%s, %s %s" % (command[1], thing.replace("_", " "), format(size, ","))
        now = figures(command, text)
        ratios = [ratio(*pair) for pair in zip(before, now)]
        count, cpu, peak = ("-" if it is None else "%.2f" % it for it in ratios)
        print("%-28s %9s %6s %9.3f %6s %9.1f %6s" % (title, told(now[0]), count, now[1], cpu, now[2], peak), flush=True)
        held = [(name, it) for name, it in zip(FIGURES, ratios) if name in HELD and it is not None]
        above += ["%s: %s %.2f" % (title, name, it) for name, it in held if it > MOST]
        before = now
    return above


def main(words):
    if words[1:] or not all(word.isdigit() for word in words):
        sys.exit(__doc__)
    calls = int(words[0]) if words else CALLS
    print("%-28s %9s %6s %9s %6s %9s %6s" % ("what doubles", "M instr", "ratio", "cpu s", "ratio", "peak MB", "ratio"))
    above = []
    for thing, sizes, given in STEPS:
        texts = [case(**{"calls": calls, **given, thing: size}) for size in sizes]
        above += lines(PROGRAM, thing, sizes, texts)
        above += lines(REPLAY, thing, sizes, map(report_of, texts))
    print("\n".join(["above %.1f:" % MOST, *above] if above else ["no ratio of %s or %s is above %.1f" % (*HELD, MOST)]))
    return 1 if above else 0


if __name__ == "__main__":
    sys.exit(main(sys.argv[1:]))
