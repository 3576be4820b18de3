#!/usr/bin/env python3
"""Times what roles cost: reading a file that has them, calls that are allowed and denied, and files that are sent to do harm.

    bench/policies.py                  all three tables
    bench/policies.py read             files of 16 MB of version 3 beside the same files as version 2
    bench/policies.py calls [BEFORE]   calls over a connection, each awaited; also by the program BEFORE, of a state before roles
    bench/policies.py harm             a nest with very many roles, a user with as many others, and 200,000 calls

A file is read by `conform`, behind which a log without records stands, so that the case is read with its policy and
nothing is run; in version 2 the roles are passed over, which JSON must be read for all the same. The first file has roles
as cases do, and most of it are calls; the others are hardly anything but roles, users, or users of sessions. Of each: the
least processor time of three runs, and the greatest peak memory. At most 1.2 times is wanted of the first.

Of the calls: how many a second, the waits for a reply, and the program's processor time for a line, the least and the
greatest of five runs. Wanted are: a call that is allowed by its roles costs what a call of version 2 does, within the
spread of the runs, and a denied one at most twice a line that is none (`bad-line`).

The last table is of files that are told apart only by how many roles they have; each is to be answered within ten
seconds, in memory that grows with the file. The status is 1 where something wanted isn't so. Build first: `./dcr` builds
the program. `calls` needs the port 7411 free. The program is `crates/dcr/out/dcr`, or the one that the environment
variable DCR names.
"""

import json
import os
import random
import subprocess
import sys
import tempfile
import time

sys.dont_write_bytecode = True
sys.path.insert(0, os.path.dirname(os.path.abspath(__file__)))
import second  # noqa: E402, F401
from bench import MOST_BYTES, PROGRAM, measure, named  # noqa: E402
from inputs import many_roles  # noqa: E402
from serve import connected, ended  # noqa: E402

CONFORM = [PROGRAM[0], "conform"]
LOG = b"\ncase,event\n"
MOST_RATIO, MOST_OF_BAD_LINE, MOST_SECONDS = 1.2, 2.0, 10
LINES, RUNS = 40_000, 5


def written(file):
    return json.dumps(file, separators=(",", ":")).encode()


# ---- reading


def case_of(version, events, users, by, calls=()):
    file = {"version": version, "graph": {"events": events}, "cover": [{"site": "s", "events": [it["name"] for it in events]}]}
    return {**file, "users": users, "by": by, "sessions": list(calls)}


def as_cases_are():
    """A case of 1,024 events that ask for three roles each, 64 users with half of all roles, and 200,000 calls that are allowed."""
    draw, names, roles = random.Random(1), named("e", 1024, 64), named("role", 40)
    events = [{"name": name, "roles": draw.sample(roles, 3)} for name in names]
    users = [{"user": "u%d" % k, "roles": roles[::2] if k % 2 else roles} for k in range(64)]
    calls = [["exec s %s" % names[draw.randrange(1024)] for _ in range(195)] for _ in range(1024)]
    return lambda version: case_of(version, events, users, ["u%d" % (2 * k % 64) for k in range(1024)], calls)


def roles_alone():
    names, roles = named("e", 1024), named("r", 200_000)
    events = [{"name": name, "roles": roles[k::64][:1_800]} for k, name in enumerate(names)]
    return lambda version: case_of(version, events, [{"user": "u", "roles": []}], ["u"])


def users_alone():
    users = [{"user": "u%d" % k, "roles": ["r%d" % (k % 100), "r%d" % (k % 7)]} for k in range(420_000)]
    return lambda version: case_of(version, [{"name": "e", "roles": ["r1"]}], users, [])


def sessions_alone():
    users = [{"user": "u%d" % k, "roles": ["r"]} for k in range(1_000)]
    return lambda version: case_of(version, [{"name": "e", "roles": ["r"]}], users, ["u%d" % (k * 7 % 1_000) for k in range(2_400_000)])


READS = [("roles as cases have them, 199,680 calls", as_cases_are, MOST_RATIO), ("roles of events alone", roles_alone, None), ("users alone", users_alone, None), ("users of sessions alone", sessions_alone, None)]


def filled(text):
    """The text with spaces behind it and the log, as long as an input may be."""
    if len(text) + len(LOG) > MOST_BYTES:
        sys.exit("a file of %d bytes is too long" % len(text))
    return text + b" " * (MOST_BYTES - len(text) - len(LOG)) + LOG


def read_table():
    columns = ("read, 16,777,216 bytes", "MB used", "status", "cpu s", "as v. 2", "times", "at most", "peak MB", "as v. 2")
    print("%-42s %8s %7s %8s %8s %6s %8s %8s %8s" % columns)
    wrong = 0
    for name, make, most in READS:
        of_version = make()
        third, other = written(of_version("3")), written(of_version("2"))
        status, _, cpu, peak = measure(CONFORM, filled(third))
        _, _, cpu_before, peak_before = measure(CONFORM, filled(other))
        row = (name, len(third) / 1e6, status, cpu, cpu_before, cpu / max(cpu_before, 0.01), "-" if most is None else "%.1f" % most, peak, peak_before)
        print("%-42s %8.1f %7d %8.2f %8.2f %6.2f %8s %8.1f %8.1f" % row, flush=True)
        wrong += status != 0 or most is not None and cpu > most * cpu_before
    return wrong


# ---- calls that are awaited


def small(version, roles, by):
    """A case of one event, for which these roles are asked, and of one user, who has the last of them."""
    event = {"name": "e0", **({"roles": roles} if roles else {})}
    return written(case_of(version, [event], [{"user": "u", "roles": roles[-1:]}], by, [[]]))


KINDS = [
    ("a call of version 2", small("2", [], []), b"exec s e0\n"),
    ("a call that is allowed", small("3", named("r", 20), ["u"]), b"exec s e0\n"),
    ("a call that is denied", small("3", named("r", 20), []), b"exec s e0\n"),
    ("a line that is none", small("3", named("r", 20), ["u"]), b"exec s e1\n"),
]


def awaited(program, text, line):
    """The lines a second, the waits and the processor time of one session in which this line is sent again and again."""
    with tempfile.TemporaryFile() as file:
        file.write(text)
        file.seek(0)
        words = [program, "serve", "--sessions", "1", "--workers", "1"]
        process = subprocess.Popen(words, stdin=file, stdout=subprocess.DEVNULL, stderr=subprocess.DEVNULL)
    waits, link = [], connected()
    if link is None:
        sys.exit("the program can't be asked")
    begun = time.perf_counter()
    for _ in range(LINES):
        sent = time.perf_counter()
        link.sendall(line)
        # (a reply is less than a segment)
        assert link.recv(4096).endswith(b"\n")
        waits.append(time.perf_counter() - sent)
    seconds = time.perf_counter() - begun
    link.close()
    status, used, _ = ended(process)
    if status:
        sys.exit("the program ends with status %d" % status)
    waits.sort()
    return LINES / seconds, waits[LINES // 2] * 1e6, waits[LINES * 99 // 100] * 1e6, used / LINES * 1e6


def calls_table(before):
    print("%-42s %9s %8s %8s %24s" % ("awaited, %d lines" % LINES, "lines/s", "50% us", "99% us", "us of the program"))
    kinds, used = [(name, PROGRAM[0], text, line) for name, text, line in KINDS], {}
    if before:
        kinds.insert(0, ("a call of version 2, by the one before", os.path.abspath(before), *KINDS[0][1:]))
    # (round and round, so that a busy minute meets all of them)
    runs = [[awaited(*kind[1:]) for kind in kinds] for _ in range(RUNS)]
    for (name, *_), told in zip(kinds, zip(*runs)):
        speed, half, most, own = zip(*told)
        used[name] = min(own), max(own)
        print("%-42s %9d %8.0f %8.0f %12.2f to %8.2f" % (name, max(speed), min(half), min(most), *used[name]))
    first = used[kinds[0][0]]
    is_dear = used["a call that is allowed"][0] > first[1]
    is_denied_dear = used["a call that is denied"][0] > MOST_OF_BAD_LINE * used["a line that is none"][0]
    for holds, said in ((is_dear, "a call that is allowed costs more than the spread of one without roles"), (is_denied_dear, "a denied call costs more than %.1f times a line that is none" % MOST_OF_BAD_LINE)):
        if holds:
            print(said)
    return is_dear + is_denied_dear


# ---- files that are sent to do harm


def harm_table():
    print("%-42s %8s %7s %8s %8s %9s" % ("1,000 events in a nest, 200,000 calls", "file MB", "status", "seconds", "peak MB", "MB per MB"))
    wrong, sizes = 0, []
    for count in (155_000, 310_000, 620_000):
        text = many_roles(count, 200_000)
        status, seconds, _, peak = measure(PROGRAM, text, 1)
        sizes.append((len(text) / 1e6, peak))
        print("%-42s %8.1f %7d %8.2f %8.1f %9.1f" % ("a nest and a user, %d roles each" % count, *sizes[-1][:1], status, seconds, peak, peak / sizes[-1][0]), flush=True)
        wrong += status != 3 or seconds > MOST_SECONDS
    # (what a byte more of the file takes stays the same)
    slopes = [(b[1] - a[1]) / (b[0] - a[0]) for a, b in zip(sizes, sizes[1:])]
    if slopes[-1] > 1.2 * slopes[0]:
        print("the memory grows by more than the file")
        wrong += 1
    return wrong


def main(words):
    if words[:1] == ["calls"] and len(words) < 3:
        return 1 if calls_table(words[1] if words[1:] else None) else 0
    tables = {"read": read_table, "calls": lambda: calls_table(None), "harm": harm_table}
    if words and (len(words) != 1 or words[0] not in tables):
        sys.exit(__doc__)
    return 1 if sum(bool(tables[it]()) for it in words or tables) else 0


if __name__ == "__main__":
    sys.exit(main(sys.argv[1:]))
