#!/usr/bin/env python3
"""Refuses each allocation of the program in turn, and shows that its calls take no memory.

    bench/allocations.py             seven rows: examples/medication.json by `run`, the same by `run --store` in an
                                     empty folder, its executions by `nodes 5`, examples/laboratory.stages by `adapt`,
                                     examples/medication.log by `conform`, and the graph by `serve`, with a connection
                                     that sends four lines; and the graph with roles (`denied`), by a connection that is
                                     denied the first of three
    bench/allocations.py trace ROW   each allocation of a row (run, store, nodes, adapt, conform, serve, denied): its number, its bytes,
                                     and the functions that may have asked for it, the nearest first; calls of the system
                                     stand between

allocations.c, compiled here by gcc, stands before the C library's allocator. Of a row the first allocation is refused,
then the second one alone, and so on, until a run comes to its end with none refused; and then the same with all that
come behind it refused too. Each time the status must be 6, or 0 where what was refused wasn't needed, or 7 where the
disk wanted it for its copy of the file; what was written must be a front of the report (of a report of the first calls,
in `serve`), or with 7 nothing, or the report whose last call is faulted; the tape must be one that a beginning of the
executions leaves; and the next run must go on from it.

Then the rows run with nothing refused, and for each allocation every function that may have asked for it, directly or
not, is looked up in the program's symbols: none may be a function of a cluster that is open (`Cluster::call`, `close`
and those that they are made of), but for the disk of `store`, whose copy of the file grows. Since a function can have
been written into its caller, which the symbols don't show, there are two more proofs: of `store`, that nothing is asked
for between the first append to the tape and the last one, and of `serve` and `denied`, that nothing is between the first
reply and the last one, of a thousand as of ten.

The status is 1 where one of this doesn't hold. It needs gcc and nm; and for `serve` the port 7411, or leave to have a
network of its own.
"""

import bisect
import collections
import json
import os
import re
import subprocess
import sys
import tempfile

sys.dont_write_bytecode = True
sys.path.insert(0, os.path.dirname(os.path.abspath(__file__)))
import second  # noqa: E402, F401
import apart  # noqa: E402
import linked  # noqa: E402
import reader  # noqa: E402
import stored  # noqa: E402
import carried  # noqa: E402
import traces  # noqa: E402
from model import TOP, Case  # noqa: E402
from trial import DCR, Network, Room, connected, exchanged, told_by, unforeseen, want_program  # noqa: E402

DONE, NO_MEMORY, DISK_FAULT = 0, 6, 7
# More allocations than a run asks for.
MANY = 1_000_000_000
LINES = [b"look doctor", b"exec doctor pm\r", b"foo", b"exec nurse gm"]
# The functions of a cluster that is open, and the disk below them, whose copy of the file grows.
CALLS = re.compile(r"dcr_cluster::cluster::Cluster::(?!open\b)")
DISK = re.compile(r"dcr_base::file_disk\b")


def example(name="medication.json"):
    with open(os.path.join(TOP, "examples", name), "rb") as file:
        return file.read()


def with_roles():
    """The case of the example without its sessions, in which a doctor alone may prescribe and a nurse alone may give."""
    file, roles = json.loads(example()), {"pm": ["doc"], "gm": ["nur"]}
    events = [{**event, **({"roles": roles[event["name"]]} if event["name"] in roles else {})} for event in file["graph"]["events"]]
    served = {"version": "3", "graph": {**file["graph"], "events": events}, "cover": file["cover"]}
    return json.dumps({**served, "users": [{"user": "ann", "roles": ["doc"]}], "by": ["ann"]}).encode()


# The rows over a connection: the case, and the lines that are sent.
SERVED = {"serve": (example, LINES), "denied": (with_roles, [b"exec nurse gm", b"exec doctor pm", b"look nurse"])}


def library(folder):
    """The shared library of allocations.c."""
    path = os.path.join(folder, "allocations.so")
    source = os.path.join(TOP, "bench/allocations.c")
    subprocess.run(["gcc", "-O2", "-shared", "-fPIC", "-o", path, source, "-ldl", "-lpthread"], check=True)
    return path


class Watched:
    """One run of a row under the library, with these allocations refused: what is told, and the lines of its trace."""

    def __init__(self, path, row, first=0, last=-1):
        with tempfile.TemporaryDirectory() as folder, Room(None) as room:
            trace = os.path.join(folder, "trace")
            named = {"LD_PRELOAD": path, "TRACE": trace, "FIRST": str(first), "LAST": str(last)}
            how = {"env": {**os.environ, **named}, "cwd": room.folder}
            self.told = ROWS[row](how)
            self.tape = room.tape()
            with open(trace) as file:
                self.lines = [line.split() for line in file]
        self.asked = [line for line in self.lines if line[0] in ("asked", "refused")]
        self.is_refused = any(line[0] == "refused" for line in self.lines)


# ---- the rows: each gives the status, the output and the replies


def run_row(how, *words, command="run", name="medication.json"):
    how = {**how, "stdout": subprocess.PIPE, "stderr": subprocess.PIPE, "timeout": 60}
    return (*told_by(subprocess.run([DCR, command, *words], input=example(name), **how)), b"")


def serve_row(how, row, count=None):
    """The lines of a row, or so many of them round and round."""
    words, (case, lines) = [DCR, "serve", "--sessions", "1", "--workers", "1"], SERVED[row]
    lines = [lines[k % len(lines)] for k in range(len(lines) if count is None else count)]
    with Network.port(), tempfile.TemporaryFile() as file:
        file.write(case())
        file.seek(0)
        program = subprocess.Popen(words, stdin=file, stdout=subprocess.PIPE, stderr=subprocess.PIPE, **how)
        link = connected(program)
        replies = exchanged(link, [b"".join(line + b"\n" for line in lines)]) if link else b""
        wrote, said = program.communicate(timeout=60)
        said = unforeseen(said)
    return (program.returncode, wrote, *[said] * bool(said), replies)


ROWS = {"run": run_row, "store": lambda how: run_row(how, "--store"), "nodes": lambda how: run_row(how, "5", command="nodes")}
ROWS.update({"adapt": lambda how: run_row(how, command="adapt", name="laboratory.stages"), "conform": lambda how: run_row(how, command="conform", name="medication.log")})
ROWS.update({"serve": lambda how: serve_row(how, "serve"), "denied": lambda how: serve_row(how, "denied")})


# ---- each allocation refused in turn


def tapes():
    """Every tape that a beginning of the executions leaves; none, and an empty file, come before the first."""
    case = Case(example().decode())
    tape, begin, _ = stored.begun(case, None)
    found = [None, b"", bytes(tape)]
    for number, execution in enumerate(stored.run(case)[1]):
        stored.append(tape, begin, number, execution)
        found.append(bytes(tape))
    return found


def goes_on(tape):
    """Whether the case is run to its end from this tape."""
    with Room(tape) as room:
        ran = subprocess.run([DCR, "run", "--store"], input=example(), stdout=subprocess.PIPE, cwd=room.folder)
        return (ran.returncode, ran.stdout, room.tape()) == stored.answer(example(), tape)


def reports_served(row):
    """The reports of a serving that ended behind its first lines, and the replies to them."""
    found, (case, lines) = [], SERVED[row]
    for count in range(len(lines) + 1):
        _, report, told = linked.answer(case(), [b"".join(line + b"\n" for line in lines[:count])])
        found.append((report, told[0]))
    return found


def whole(row):
    """What a row writes where nothing fails."""
    if row == "adapt":
        return carried.answer(example("laboratory.stages"))[1]
    if row == "conform":
        return traces.answer(example("medication.log"))[1]
    return (apart.answer(example(), 5) if row == "nodes" else reader.answer(example()))[1]


def is_unkept(wrote, tape):
    """Whether this is written, and left on the tape, where the disk fails at its opening or at an execution."""
    if not wrote:
        return tape in tapes()[:3]
    stops = dict(stored.stops(example(), None))
    return wrote in stops and stored.is_near(tape, Case(example().decode()), stops[wrote])


def wrong(row, seen):
    """What is wrong with an answer in which an allocation was refused, or None."""
    if len(seen.told) != 3:
        return "it says %r" % (seen.told[2],)
    status, wrote, replies = seen.told
    if row == "store" and not goes_on(seen.tape):
        return "the tape can't be gone on from"
    if row == "store" and status == DISK_FAULT:
        return None if is_unkept(wrote, seen.tape) else "a fault of the disk with another report or tape"
    wholes = reports_served(row) if row in SERVED else [(whole(row), b"")]
    if status not in (DONE, NO_MEMORY):
        return "status %d" % status
    if status == DONE and (wrote, replies) != wholes[-1]:
        return "status 0 with another report or other replies"
    if status == NO_MEMORY and not any(report.startswith(wrote) and report != wrote for report, _ in wholes):
        return "what was written is no front of a report"
    if not wholes[-1][1].startswith(replies):
        return "other replies"
    if row != "store":
        return None if seen.tape is None else "there is a tape"
    is_right = seen.tape in tapes() and (status == NO_MEMORY or seen.tape == tapes()[-1])
    return None if is_right else "the tape is no beginning of the run's"


def refuse_each(path, row, is_alone):
    """Refuses each allocation of the row, alone or with all behind it; whether each is answered as it must be."""
    statuses, wrote, number = collections.Counter(), 0, 1
    while True:
        seen = Watched(path, row, number, number if is_alone else MANY)
        complaint = wrong(row, seen) if seen.is_refused else None
        if complaint:
            print("%s: the allocation %d refused: %s: %r" % (row, number, complaint, seen.told))
            return False
        if not seen.is_refused:
            break
        statuses[seen.told[0]] += 1
        wrote += seen.told[1] != b"" and seen.told[0] == NO_MEMORY
        number += 1
    found = ", ".join("status %d %d times" % pair for pair in sorted(statuses.items()))
    told = (row, number - 1, "alone" if is_alone else "with all behind it", found, wrote)
    print("%s: each of %d allocations refused %s: %s; %d times a front was written" % told)
    return seen.told[0] == DONE and number > 1


# ---- who asks


class Symbols:
    def __init__(self):
        listed = subprocess.run(["nm", "-n", "--defined-only", DCR], stdout=subprocess.PIPE, check=True).stdout
        rows = [line.split(" ", 2) for line in listed.decode().splitlines()]
        self.rows = [(int(place, 16), name) for place, kind, name in rows if kind in "tTwW"]
        self.places = [place for place, _ in self.rows]

    def name(self, place):
        """The function that has the call before this place."""
        at = bisect.bisect_right(self.places, place - 1) - 1
        return self.rows[at][1] if at >= 0 else "?"

    def names(self, line):
        """The functions that may have asked, without those that stand next to themselves."""
        found = [self.name(int(place, 16)) for place in line[3:]]
        return [name for name, before in zip(found, ["", *found]) if name != before]


def shown_by_symbols(path, symbols):
    """Whether no function of an open cluster asks, in any row, but for its disk."""
    good = True
    for row in ROWS:
        counts, asked = collections.Counter(), Watched(path, row).asked
        for line in asked:
            names = symbols.names(line)
            at = next((k for k, name in enumerate(names) if CALLS.search(name)), None)
            is_disk = at is not None and any(DISK.search(name) for name in names[:at])
            counts["outside" if at is None else "disk" if is_disk else "calls"] += 1
            if at is not None and not is_disk:
                print("%s: allocation %s of %s bytes may come from %s" % (row, line[1], line[2], names[at]))
                good = False
        found = (row, len(asked), counts["calls"], counts["disk"])
        print("%s: of %d allocations %d come within a call or the closing, and %d from the disk below one" % found)
    calls = sorted({name for _, name in symbols.rows if CALLS.search(name)})
    print("the functions of an open cluster that have a symbol: %s" % (", ".join(calls) or "none"))
    return good and bool(calls)


def shown_by_appends(path):
    """Whether nothing is asked for between the first append and the last one."""
    lines = Watched(path, "store").lines
    appends = [at for at, line in enumerate(lines) if line[0].startswith("pwrite")][1:]
    between = [line for line in lines[appends[0] : appends[-1]] if line[0] == "asked"] if len(appends) > 2 else ["none"]
    print("store: %d writes of executions to the tape, %d allocations between them" % (len(appends), len(between)))
    return not between


def shown_by_lines(path):
    """Whether nothing is asked for between the first reply and the last one."""
    counts = []
    for row, count in ((row, count) for row in SERVED for count in (10, 1_000)):
        ROWS["many"] = lambda how, row=row, many=count: serve_row(how, row, many)
        lines = Watched(path, "many").lines
        replies = [at for at, line in enumerate(lines) if line[0] == "send"]
        counts.append(sum(line[0] == "asked" for line in lines[replies[0] : replies[-1]]))
        print("%s: %d replies, %d allocations between them" % (row, len(replies), counts[-1]))
    del ROWS["many"]
    return not any(counts)


def main(words):
    if words and (len(words) != 2 or words[0] != "trace" or words[1] not in ROWS):
        sys.exit(__doc__)
    want_program()
    if Network.can_be_own():
        Network.enter()
    with tempfile.TemporaryDirectory() as folder:
        path, symbols = library(folder), Symbols()
        if words:
            for line in Watched(path, words[1]).lines:
                print(" ".join(line[:3]), *(symbols.names(line) if line[0] == "asked" else []), sep="\n    ")
            return 0
        refused = [refuse_each(path, row, is_alone) for row in ROWS for is_alone in (True, False)]
        shown = [shown_by_symbols(path, symbols), shown_by_appends(path), shown_by_lines(path)]
    return 0 if all(refused + shown) else 1


if __name__ == "__main__":
    sys.exit(main(sys.argv[1:]))
