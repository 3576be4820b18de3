#!/usr/bin/env python3
"""Times `dcr adapt` on 16 cases of 12,500 calls beside `dcr run` of the 200,000 calls, and compares their reports.

    bench/adapt.py                   256 events and 16 sites, with 512 and with 4,096 relations
    bench/adapt.py compare COUNT     as many random inputs, by the program and by a second implementation

Each of the 16 cases has the graph and the sites of the one that is run, and the next of its calls, so that they are to be
answered alike: the entries of all reports are held against those of `run`, and the reports against those of a second
implementation. Of each command: the least time and the least processor time of three runs, the greatest peak memory, and
how many times that of `run` it is. At most 1.2 times its time is wanted, with the reading of 16 files. `compare` and a
report that differs end with status 1. Build first: `./dcr` builds the program.
"""

import random
import subprocess
import sys

import second  # noqa: F401
import carried
from bench import PROGRAM, case_file, measure, mixed, named, opening
from stages import reports_of

ADAPT = [PROGRAM[0], "adapt"]
CASES, CALLS = 16, 200_000
MOST = 1.2


def made(relations):
    """The case that is run, and the 16 on lines."""
    draw = random.Random(1)
    names, places = named("e", 256), named("s", 16)
    opened, calls = opening(draw, names, places, relations), mixed(draw, names, places, CALLS)
    each = CALLS // CASES
    parts = [calls[begin : begin + each] for begin in range(0, CALLS, each)]
    return case_file(opened, [calls]), b"".join(case_file(opened, [part]) + b"\n" for part in parts)


def written(command, text):
    return subprocess.run(command, input=text, stdout=subprocess.PIPE, check=True).stdout


def answers(report):
    """The calls of a report with their outcomes, and the lines behind them but the number of calls."""
    lines = report.decode().split("\n")[4:-2]
    entries = [line.split(" ", 3)[3] for line in lines if line[:1].isdigit()]
    return entries, lines[len(entries) :]


def differ(whole, text):
    """Why the reports aren't those that are wanted, or None."""
    wrote = written(ADAPT, text)
    if (0, wrote) != carried.answer(text):
        return "the second implementation writes other reports"
    parts = [answers(report) for report in reports_of(wrote)]
    entries, ends = answers(written(PROGRAM, whole))
    if [entry for part, _ in parts for entry in part] != entries or parts[-1][1] != ends:
        return "the calls are answered otherwise than by one run"
    return None


def table():
    print("%-34s %-8s %9s %8s %9s %9s %9s" % ("256 events, 16 sites, 200,000 calls", "command", "input MB", "seconds", "cpu s", "peak MB", "times run"))
    wrong = 0
    for relations in (512, 4096):
        whole, text = made(relations)
        before = None
        for name, command, given in (("run", PROGRAM, whole), ("adapt", ADAPT, text)):
            _, seconds, cpu, peak = measure(command, given)
            before = before or seconds
            print("%-34s %-8s %9.1f %8.2f %9.2f %9.1f %9.2f" % ("%d relations" % relations, name, len(given) / 1e6, seconds, cpu, peak, seconds / before), flush=True)
        if seconds > MOST * before:
            print("more than %.1f times is not wanted" % MOST)
        why = differ(whole, text)
        if why:
            print(why)
            wrong = 1
    return wrong


if __name__ == "__main__":
    if len(sys.argv) == 1:
        sys.exit(table())
    if len(sys.argv) == 3 and sys.argv[1] == "compare" and sys.argv[2].isdigit():
        sys.exit(carried.compare(int(sys.argv[2]), int(sys.argv[2])))
    sys.exit(__doc__)
