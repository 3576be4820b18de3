#!/usr/bin/env python3
"""Times the calls of a case through a cluster, by one, two and four threads, beside the list of sites without locks.

    bench/cluster.py            all tables; status 1 where one thread costs more than 1.5 times the list
    bench/cluster.py mixed      calls of all kinds at sites that share events
    bench/cluster.py apart      executions at sites that share none, each session at sites of its own
    bench/cluster.py parts      one kind of call alone, which shows what each part of a call costs

A row has the calls a second of the list, and of the cluster by one, two and four threads, each with its ratio to the
list. The load of the machine stands above. Each number is the middle of seven runs within one process, which makes all
four in turn. Build first: `rt run` in crates/bench_cluster.
"""

import os
import random
import subprocess
import sys

from bench import TOP, largest

PROGRAM = os.path.join(TOP, "crates/bench_cluster/out/bench_cluster")
MOST = 1.5


def case_text(atoms, owned, relations, sessions):
    """The text of a case: sites own these atoms, and sessions make these calls."""
    events = ",".join('{"name":"e%d"}' % k for k in range(atoms))
    cover = ",".join('{"site":"s%d","events":[%s]}' % (i, ",".join('"e%d"' % k for k in own)) for i, own in enumerate(owned))
    related = ",".join('["%s","e%d","e%d"]' % relation for relation in relations)
    calls = ",".join("[" + ",".join('"%s"' % call for call in session) + "]" for session in sessions)
    return ('{"graph":{"events":[%s],"relations":[%s]},"cover":[%s],"sessions":[%s]}' % (events, related, cover, calls)).encode()


def apart(sites, atoms_each, each, seed):
    """Sites that share no event. Four sessions, each at a quarter of the sites; their executions are never blocked."""
    draw = random.Random(seed)
    owned = [list(range(i * atoms_each, (i + 1) * atoms_each)) for i in range(sites)]
    relations = []
    for own in owned:
        for _ in range(2 * atoms_each):
            relations.append(("response", draw.choice(own), draw.choice(own)))
    sessions = []
    for k in range(4):
        mine = range(k * sites // 4, (k + 1) * sites // 4)
        calls = []
        for _ in range(each):
            i = draw.choice(mine)
            calls.append("exec s%d e%d" % (i, draw.choice(owned[i])))
        sessions.append(calls)
    return case_text(sites * atoms_each, owned, relations, sessions)


def parts(each):
    """(what is measured, a case of it): each call of one kind."""
    atoms, sites = 64, 64
    alone = [[k] for k in range(atoms)]
    shared = [list(range(atoms)) for _ in range(sites)]

    def four(call):
        return [[call(k, j) for j in range(each)] for k in range(4)]

    yield "not here: no site's lock", case_text(atoms, alone, [], four(lambda k, j: "exec s%d e%d" % (k, k + 4)))
    yield "done at one site", case_text(atoms, alone, [], four(lambda k, j: "exec s%d e%d" % (16 * k + j % 16, 16 * k + j % 16)))
    blocked = [("condition", 4 * k, 4 * k + 1) for k in range(16)]
    own = [[k] for k in range(atoms)]
    yield "blocked at one site", case_text(atoms, own, blocked, four(lambda k, j: "exec s%d e%d" % (4 * (4 * k + j % 4) + 1, 4 * (4 * k + j % 4) + 1)))
    yield "look", case_text(atoms, alone, [], four(lambda k, j: "look s%d" % (16 * k + j % 16)))
    yield "accepting at 64 sites", case_text(atoms, alone, [], four(lambda k, j: "accepting"))
    yield "done at 64 sites", case_text(atoms, shared, [], four(lambda k, j: "exec s%d e%d" % (j % sites, j % atoms)))


def measured(text):
    """The calls a second of the list and of the cluster by each number of threads."""
    out = subprocess.run([PROGRAM, "time"], input=text, stdout=subprocess.PIPE, check=True, text=False).stdout
    return [int(line.split()[-1]) for line in out.decode().splitlines()]


def table(title, rows):
    """Prints the table; the largest ratio of one thread's cost to the list's."""
    print("%-34s %12s %20s %20s %20s" % (title, "list", "1 thread", "2 threads", "4 threads"))
    worst = 0.0
    for name, calls, text in rows:
        times = measured(text)
        cells = ["%12.0f" % (calls / times[0] * 1e6)]
        for took in times[1:]:
            cells.append("%12.0f (%4.2f)" % (calls / took * 1e6, took / times[0]))
        print("%-34s %s" % (name, " ".join(cells)))
        worst = max(worst, times[1] / times[0])
    return worst


def main():
    print("load %s, %d processors" % (" ".join("%.1f" % it for it in os.getloadavg()), os.cpu_count()))
    worst = 0.0
    if sys.argv[1:] in ([], ["mixed"]):
        rows = [("256 atoms, 16 sites", 200_000, largest(256, 16, 1)), ("1,024 atoms, 64 sites", 200_000, largest(1024, 64, 2))]
        worst = max(worst, table("calls of all kinds", rows))
    if sys.argv[1:] in ([], ["apart"]):
        rows = [("16 sites of 16 atoms", 200_000, apart(16, 16, 50_000, 3)), ("64 sites of 16 atoms", 200_000, apart(64, 16, 50_000, 4))]
        worst = max(worst, table("sites apart, executions", rows))
    if sys.argv[1:] in ([], ["parts"]):
        table("one kind of call", ((name, 80_000, text) for name, text in parts(20_000)))
    sys.exit(worst > MOST)


if __name__ == "__main__":
    main()
