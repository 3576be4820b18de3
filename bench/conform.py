#!/usr/bin/env python3
"""Times `dcr conform` on logs of 16.7 MB beside a plain C program that answers the same bytes, and judging by itself.

    bench/conform.py             both tables
    bench/conform.py command     the whole command, over four kinds of logs and graphs of 10, 256 and 1,024 events
    bench/conform.py judging     the judging of the same logs alone, by one, two and four processors, as far as there are

Of each command: the least wall time, the least processor time and the greatest peak memory of three runs, and the ratio of
the processor times. The C program, bench/conform.c, is compiled by `cc -O2`; it finds names by a hash and events by numbers.
It passes the case over, which it is given as numbers. Both outputs are compared. The traces are executions that can be
done one after the other, so that each event is judged; 4,096 relations stand in each graph. `judging` prints the
microseconds of the middle one of seven rounds in one process. The inputs are made anew from fixed seeds. Build first:
`./dcr`, and for `judging` `rt run` in crates/bench_conform.
"""

import functools
import os
import random
import subprocess
import sys
import tempfile

import second  # noqa: F401
from bench import MOST_BYTES, PROGRAM, TOP, measure, members, named
from reader import read_case
from traces import Judge

CONFORM = [PROGRAM[0], "conform"]
ALONE = os.path.join(TOP, "crates/bench_conform/out/bench_conform")
SOURCE = os.path.join(TOP, "bench/conform.c")
KINDS = ["condition", "milestone", "response", "include", "exclude", "cancel"]
RELATIONS = 4096
DIGITS = "0123456789ABCDEFGHIJKLMNOPQRSTUVWXYZ"
# Traces, the events of each, whether their records are mixed, and how many runs the traces are dealt of.
LOGS = [
    ("22,500 traces of 40 events, in order", 22_500, 40, False, 200),
    ("22,500 traces of 40 events, mixed", 22_500, 40, True, 200),
    ("1,200,000 traces of one event", 1_200_000, 1, False, 200),
    ("1,000 traces of 900 events", 1_000, 900, False, 20),
]
GRAPHS = [10, 256, 1024]


def graph_of(atoms, seed):
    """A case of one site, in whose graph most events can be executed: its text, without sessions."""
    draw, names, related = random.Random(seed), named("e", atoms), []
    while len(related) < RELATIONS:
        kind = draw.choices(["condition", "milestone", "response", "include", "exclude"], (20, 10, 20, 45, 5))[0]
        a, b = draw.randrange(atoms), draw.randrange(atoms)
        if kind in ("condition", "milestone"):
            a, b = min(a, b), max(a, b)
        # (no event is both included and excluded by another, and the first one is never excluded)
        if a == b and kind in ("condition", "milestone") or kind == "include" and (a + b) % 7 == 3 or kind == "exclude" and (b == 0 or (a + b) % 7 != 3):
            continue
        related.append('["%s","%s","%s"]' % (kind, names[a], names[b]))
    return ("{%s}" % members(names, related, [("s", names)])).encode()


def run_of(draw, judge, count):
    """So many events that can be executed one after the other. Where few can, the first event of all comes again."""
    found, (executed, pending, included) = [], judge.opening
    for _ in range(count):
        tries = [draw.randrange(len(judge.atoms)) for _ in range(40)]
        event = next((it for it in tries if judge.cause(it, executed, pending, included) is None), 0)
        found.append(judge.atoms[event])
        executed, pending, included = judge.after(event, executed, pending, included)
    return found


@functools.lru_cache(maxsize=None)
def read(case):
    return read_case(case)


def name_of(number, width):
    """The name of a trace: its number in digits and capitals, of so many letters at least."""
    found = ""
    while number or len(found) < width:
        number, digit = divmod(number, 36)
        found = DIGITS[digit] + found
    return found


def log_of(case, traces, events, is_mixed, runs, seed):
    """An input: this case, and a log of such traces, as many bytes as there may be."""
    draw, judge = random.Random(seed), Judge(read(case))
    bodies = [run_of(draw, judge, events) for _ in range(runs)]
    text = sum(len(event) for k in range(traces) for event in bodies[k % runs]) + 2 * traces * events
    width, rest = divmod(MOST_BYTES - len(case) - len("\ncase,event\n") - text, traces * events)
    names = [name_of(k, width + (k < rest // events)) for k in range(traces)]
    rows = [(k, j) for k in range(traces) for j in range(events)] if not is_mixed else [(k, j) for j in range(events) for k in range(traces)]
    return b"".join([case, b"\ncase,event\n", *[b"%s,%s\n" % (names[k].encode(), bodies[k % runs][j].encode()) for k, j in rows]])


def numbers_of(case):
    """The graph of a case as the C program reads it."""
    case = read(case)
    lines = ["%d %d" % (len(case.atoms), sum(map(len, case.pairs.values())))]
    lines += ["%s %d %d %d" % (it, it in case.executed, it in case.pending, it in case.included) for it in case.atoms]
    lines += ["%d %d %d" % (KINDS.index(kind), case.number[a], case.number[b]) for kind in KINDS for a, b in sorted(case.pairs[kind])]
    return "\n".join(lines) + "\n"


def inputs():
    """Each input with its name, and its case."""
    for atoms in GRAPHS:
        case = graph_of(atoms, atoms)
        for seed, (name, *log) in enumerate(LOGS):
            yield "%s, %d events" % (name, atoms), case, log_of(case, *log, seed)


def written(command, text):
    return subprocess.run(command, input=text, stdout=subprocess.PIPE, check=False).stdout


def judged(lines):
    """How many events were judged, by the lines that were written."""
    numbers = [[int(it) for it in line.split() if it.isdigit()] for line in lines.decode().splitlines()[:-1]]
    return sum(it[-1] for it in numbers)


def command_table():
    print("%-54s %12s %25s %25s %7s" % ("", "", "dcr conform", "plain C", "ratio"))
    print("%-54s %12s %8s %8s %7s %8s %8s %7s" % ("log and graph", "judged", "seconds", "cpu s", "MB", "seconds", "cpu s", "MB"))
    with tempfile.TemporaryDirectory() as folder:
        plain, graph = os.path.join(folder, "conform"), os.path.join(folder, "graph")
        subprocess.run(["cc", "-O2", "-o", plain, SOURCE], check=True)
        for name, case, text in inputs():
            with open(graph, "w") as file:
                file.write(numbers_of(case))
            wrote = written(CONFORM, text)
            if wrote != written([plain, graph], text):
                print("%s: the two write different lines" % name)
                return 1
            (_, *own), (_, *other) = measure(CONFORM, text), measure([plain, graph], text)
            print("%-54s %12d %8.2f %8.2f %7.1f %8.2f %8.2f %7.1f %7.2f" % (name, judged(wrote), *own, *other, own[1] / max(other[1], 0.001)))
    return 0


def judging_table():
    counts = [it for it in (1, 2, 4) if it <= len(os.sched_getaffinity(0))]
    print("%-54s %s" % ("microseconds of judging alone, by processors", " ".join("%12d" % it for it in counts)))
    for name, _, text in inputs():
        cells = []
        for count in counts:
            some = sorted(os.sched_getaffinity(0))[:count]
            ran = subprocess.run([ALONE, "time"], input=text, stdout=subprocess.PIPE, check=True, preexec_fn=lambda some=some: os.sched_setaffinity(0, some))
            cells.append(int(ran.stdout.split()[1]))
        print("%-54s %s" % (name, " ".join("%12d" % it for it in cells)))
    return 0


def main(words):
    if words not in ([], ["command"], ["judging"]):
        sys.exit(__doc__)
    status = command_table() if words in ([], ["command"]) else 0
    return status or (judging_table() if words in ([], ["judging"]) else 0)


if __name__ == "__main__":
    sys.exit(main(sys.argv[1:]))
