#!/usr/bin/env python3
"""The case of a number by a second implementation, to compare `dcr load` with.

    bench/load.py case NUMBER            the case file that a number spells
    bench/load.py line NUMBER            the line about its run, by the plain model of the rules
    bench/load.py compare FIRST COUNT    the lines of so many numbers from the first on, by the program and by the model

The words are those of the generator PCG32 (XSH RR 64/32) at the state NUMBER and the stream 54. `compare` ends with status 1
at the first number whose lines differ, and prints both; it tells how many different lines there were.
"""

import json
import subprocess
import sys
import time

import second  # noqa: F401
from model import PROGRAM, Case

LOAD = [PROGRAM[0], "load"]
ATOMS, SITES, SESSIONS, RELATIONS, CALLS = 200, 12, 8, 600, 20_000
MASK = (1 << 64) - 1


class Words:
    """The words of 32 bits that a number spells, one after the other."""

    def __init__(self, number):
        self.increment = (54 << 1) | 1
        self.state = 0
        self.step()
        self.state = (self.state + number) & MASK
        self.step()

    def step(self):
        self.state = (self.state * 6364136223846793005 + self.increment) & MASK

    def pick(self, count):
        state = self.state
        self.step()
        word = (((state >> 18) ^ state) >> 27) & 0xFFFFFFFF
        turn = state >> 59
        return ((word >> turn) | (word << (-turn & 31)) & 0xFFFFFFFF) % count


def relation(words):
    kind, a, b = words.pick(4), words.pick(ATOMS), words.pick(ATOMS)
    if kind < 2:
        return None if a == b else [["condition", "milestone"][kind], min(a, b), max(a, b)]
    if kind == 2:
        return ["response", a, b]
    return ["exclude" if (a + b) % 2 else "include", a, b]


def call(words):
    what, event, site = words.pick(20), words.pick(ATOMS), words.pick(SITES)
    if what < 2:
        return "%s s%d" % (["look", "enabled"][what], site)
    if what == 2:
        return "accepting"
    return "exec s%d e%d" % (site if what == 3 else event % SITES, event)


def case_of(number):
    words = Words(number)
    owned = [set() for _ in range(SITES)]
    for atom in range(ATOMS):
        owned[atom % SITES].add(atom)
        owned[words.pick(SITES)].add(atom)
    drawn = [relation(words) for _ in range(RELATIONS)]
    relations = [[kind, "e%d" % a, "e%d" % b] for kind, a, b in filter(None, drawn)]
    calls = [call(words) for _ in range(CALLS)]
    return {
        "graph": {"events": [{"name": "e%d" % k} for k in range(ATOMS)], "relations": relations},
        "cover": [{"site": "s%d" % i, "events": ["e%d" % k for k in sorted(atoms)]} for i, atoms in enumerate(owned)],
        "sessions": [calls[k::SESSIONS] for k in range(SESSIONS)],
    }


def line_of(number):
    case = Case(json.dumps(case_of(number)))
    blockers = {kind: {b: [] for b in case.atoms} for kind in ("condition", "milestone")}
    for kind, lists in blockers.items():
        for a, b in sorted(case.pairs[kind], key=lambda pair: case.number[pair[0]]):
            lists[b].append(a)

    # The same cause as the model's, without a look at each atom.
    def cause(event):
        if event not in case.included:
            return "excluded"
        for kind, unmet in (("condition", lambda a: a not in case.executed), ("milestone", lambda a: a in case.pending)):
            for a in blockers[kind][event]:
                if a in case.included and unmet(a):
                    return "%s %s" % (kind, a)
        return None

    case.cause = cause
    answers = [case.answer(text) for session in case.sessions for text in session]
    done = answers.count("done")
    verdict = "waits " + case.waits() if case.waits() else "accepting"
    return "load %d entries %d done %d other %d verdict %s\n" % (number, len(answers), done, len(answers) - done, verdict)


def compare(first, count):
    lines, longest = set(), 0.0
    for number in range(first, first + count):
        begin = time.monotonic()
        told = subprocess.run([*LOAD, str(number)], capture_output=True, check=False)
        longest = max(longest, time.monotonic() - begin)
        line = line_of(number)
        if (told.returncode, told.stdout.decode()) != (0, line):
            print("program: status %d, %smodel: %s" % (told.returncode, told.stdout.decode(), line), end="")
            return 1
        lines.add(line.split(" ", 2)[2])
    print("%d lines are the same, %d of them different behind their number; the slowest took %.2f s" % (count, len(lines), longest))
    return 0


if __name__ == "__main__":
    if len(sys.argv) == 3 and sys.argv[1] == "case":
        print(json.dumps(case_of(int(sys.argv[2])), separators=(",", ":")))
    elif len(sys.argv) == 3 and sys.argv[1] == "line":
        sys.stdout.write(line_of(int(sys.argv[2])))
    elif len(sys.argv) == 4 and sys.argv[1] == "compare":
        sys.exit(compare(int(sys.argv[2]), int(sys.argv[3])))
    else:
        sys.exit(__doc__)
