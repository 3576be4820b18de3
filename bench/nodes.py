#!/usr/bin/env python3
"""Times `dcr nodes N`, where sites talk by messages, beside `dcr run` by one worker, and compares their reports.

    bench/nodes.py                   200,000 executions over 12 and over 64 sites
    bench/nodes.py compare COUNT     as many random cases and numbers, by the program and by a second implementation

Of each run of the first: the least processor time and the greatest peak memory of three, the messages that were sent as
the second implementation counts them, and the bytes of memory for each message beyond what `run` takes. Both reports are
to be the same bytes, and so are those of two numbers. `compare` ends with status 1 at the first case whose report differs.
Build first: `./dcr` builds the program.
"""

import random
import subprocess
import sys

import second  # noqa: F401
from bench import PROGRAM, measure, members
from model import Case, random_case
from apart import World

CALLS = 200_000


def executions(atoms, sites, seed):
    """A case of one session, which executes events at sites that own them, most of which can be."""
    draw = random.Random(seed)
    names, places = ["e%d" % k for k in range(atoms)], ["s%d" % i for i in range(sites)]
    owned = [sorted({*range(i, atoms, sites), *(draw.randrange(atoms) for _ in range(atoms // sites))}) for i in range(sites)]
    related = ['["%s","e%d","e%d"]' % (draw.choice(["response", "include"]), draw.randrange(atoms), draw.randrange(atoms)) for _ in range(3 * atoms)]
    for _ in range(atoms):
        a, b = sorted(draw.sample(range(atoms), 2))
        related.append('["condition","e%d","e%d"]' % (a, b))
    calls = []
    for _ in range(CALLS):
        site = draw.randrange(sites)
        calls.append('"exec s%d e%d"' % (site, draw.choice(owned[site])))
    text = members(names, related, [(places[i], [names[k] for k in own]) for i, own in enumerate(owned)])
    return ('{%s,"sessions":[[%s]]}' % (text, ",".join(calls))).encode()


def nodes(number):
    return [PROGRAM[0], "nodes", str(number)]


def written(command, text):
    return subprocess.run(command, input=text, stdout=subprocess.PIPE, check=True).stdout


def table():
    print("%-28s %-10s %9s %9s %9s %10s %12s" % ("200,000 executions", "command", "seconds", "cpu s", "peak MB", "messages", "bytes each"))
    for atoms, sites, seed in ((200, 12, 1), (1024, 64, 2)):
        text = executions(atoms, sites, seed)
        name = "%d atoms, %d sites" % (atoms, sites)
        _, seconds, cpu, before = measure(PROGRAM, text)
        print("%-28s %-10s %9.2f %9.2f %9.1f" % (name, "run", seconds, cpu, before))
        wanted = written(PROGRAM, text)
        for number in (0, 5):
            _, seconds, cpu, peak = measure(nodes(number), text)
            world = World(Case(text.decode())).run(number)
            each = (peak - before) * 1024 * 1024 / len(world.sent)
            print("%-28s %-10s %9.2f %9.2f %9.1f %10d %12.1f" % (name, "nodes %d" % number, seconds, cpu, peak, len(world.sent), each))
            if not written(nodes(number), text) == wanted == world.report().encode():
                print("the reports differ")
                return 1
    return 0


def compare(count):
    draw, same = random.Random(count), 0
    for _ in range(count):
        text, number = random_case(draw), draw.choice([draw.randrange(20), draw.randrange(1 << 32)])
        told = subprocess.run(nodes(number), input=text.encode(), stdout=subprocess.PIPE, check=False).stdout.decode()
        if told.startswith("refused 9 clash "):
            continue
        if told != World(Case(text)).run(number).report():
            print("nodes %d\n%s" % (number, text))
            return 1
        same += 1
    print("%d reports are the same" % same)
    return 0


if __name__ == "__main__":
    if len(sys.argv) == 1:
        sys.exit(table())
    if len(sys.argv) == 3 and sys.argv[1] == "compare" and sys.argv[2].isdigit():
        sys.exit(compare(int(sys.argv[2])))
    sys.exit(__doc__)
