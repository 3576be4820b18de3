#!/usr/bin/env python3
"""Times the program on the largest cases, and on inputs of 16 MB beside the JSON reader alone.

    bench/bench.py                          all tables
    bench/bench.py run [--instructions]     runs of the largest cases
    bench/bench.py replay [--instructions]  the replay of reports of such runs
    bench/bench.py read                     the inputs of 16 MB
    bench/bench.py long                     runs with long reports, by one, two and four processors

Each line is of three runs: the least processor time (user and system), the least wall time and the greatest peak memory
of the process. With `--instructions` these two tables tell how many million instructions it takes too, counted by
valgrind's callgrind, for which the runs take some four minutes more and the replays half a one; without the word, and
where no `valgrind` is on the path, a dash stands there. Below "at most" stands what is wanted of the column before.
The ratio of the third table is that of the processor times.
The program is `crates/dcr/out/dcr`, or the one that the environment variable DCR names.
The inputs are made anew from fixed seeds; nothing is kept. Build first: `./dcr` builds the program, and
`rt run` in crates/bench_json the JSON reader alone.
"""

import os
import random
import re
import shutil
import subprocess
import sys
import tempfile

TOP = os.path.dirname(os.path.dirname(os.path.abspath(__file__)))
PROGRAM = [os.path.abspath(os.environ.get("DCR", os.path.join(TOP, "crates/dcr/out/dcr"))), "run"]
REPLAY = [PROGRAM[0], "replay"]
READER = [os.path.join(TOP, "crates/bench_json/out/bench_json")]
VALGRIND = shutil.which("valgrind")
MOST_BYTES = 16_777_216
SESSIONS = 1024

# Runs a command once. The peak memory that the kernel tells of a process is at least what it had before its program
# began. Begun from here that is 5 MB; begun from the process that made the input it would be all that this one has.
ONCE = """
import os, sys, time
begun = time.monotonic()
pid = os.fork()
if pid == 0:
    os.dup2(os.open(sys.argv[1], os.O_RDONLY), 0)
    os.dup2(os.open(os.devnull, os.O_WRONLY), 1)
    os.execv(sys.argv[2], sys.argv[2:])
_, status, usage = os.wait4(pid, 0)
seconds = time.monotonic() - begun
print(os.WEXITSTATUS(status) if os.WIFEXITED(status) else -os.WTERMSIG(status))
print(seconds, usage.ru_utime + usage.ru_stime, usage.ru_maxrss / 1024)
"""


def measure(command, text, times=3, cores=None):
    """Of so many runs, by these processors alone: (status, least seconds, least processor seconds, greatest peak MB)."""
    limit = cores and (lambda: os.sched_setaffinity(0, cores))
    with tempfile.NamedTemporaryFile() as file:
        file.write(text)
        file.flush()
        runs = []
        for _ in range(times):
            told = subprocess.run([sys.executable, "-I", "-S", "-c", ONCE, file.name, *command], stdout=subprocess.PIPE, check=True, preexec_fn=limit).stdout
            status, *figures = told.split()
            runs.append((int(status), *map(float, figures)))
    statuses, seconds, cpu, peak = zip(*runs)
    return statuses[0], min(seconds), min(cpu), max(peak)


def instructions(command, text):
    """How many million instructions a run takes, by callgrind; None where there is no valgrind. They are half a percent
    more or fewer as the stack lies, so that the environment is empty and the program's path always as long."""
    if VALGRIND is None:
        return None
    with tempfile.TemporaryFile() as file, tempfile.TemporaryDirectory() as folder:
        file.write(text)
        file.seek(0)
        program = os.path.join(folder, "program")
        os.symlink(command[0], program)
        counting = [VALGRIND, "--tool=callgrind", "--callgrind-out-file=/dev/null", program, *command[1:]]
        how = {"env": {}, "cwd": "/", "stdin": file, "stdout": subprocess.DEVNULL, "stderr": subprocess.PIPE}
        told = subprocess.run(counting, check=False, **how).stderr.decode()
    found = re.search(r"Collected : (\d+)", told)
    if found is None:
        sys.exit("valgrind counts nothing:\n" + told)
    return int(found.group(1)) / 1e6


def report_of(text):
    """The report of the run of a case."""
    return subprocess.run(PROGRAM, input=text, stdout=subprocess.PIPE, check=True).stdout


def named(letter, count, width=1):
    """Names of a letter and a number, of so many bytes at least."""
    return ["%s%0*d" % (letter, width - 1, k) for k in range(count)]


def members(names, related, owned):
    """The members of a case file but its sessions; a site owns the events of its list."""
    events = ",".join('{"name":"%s"}' % name for name in names)
    cover = ",".join('{"site":"%s","events":[%s]}' % (place, ",".join('"%s"' % name for name in own)) for place, own in owned)
    return '"graph":{"events":[%s],"relations":[%s]},"cover":[%s]' % (events, ",".join(related), cover)


def opening(draw, names, places, relations=4096):
    """The members of a case of so many relations, in which each event is owned by one site or two."""
    atoms, sites = len(names), len(places)
    owned = [set() for _ in range(sites)]
    for k in range(atoms):
        owned[k % sites].add(k)
        owned[draw.randrange(sites)].add(k)
    related = []
    while len(related) < relations:
        kind = draw.choice(["condition", "response", "milestone", "include", "exclude"])
        a, b = draw.randrange(atoms), draw.randrange(atoms)
        if kind in ("condition", "milestone"):
            if a == b:
                continue
            a, b = min(a, b), max(a, b)
        if kind in ("include", "exclude"):
            kind = "include" if (a + b) % 4 else "exclude"
        related.append('["%s","%s","%s"]' % (kind, names[a], names[b]))
    return members(names, related, [(places[i], [names[k] for k in sorted(own)]) for i, own in enumerate(owned)])


def mixed(draw, names, places, count):
    """So many calls of all kinds, most of them executions by a site that owns the event."""
    atoms, sites = len(names), len(places)
    calls = []
    for _ in range(count):
        e, kind = draw.randrange(atoms), draw.randrange(20)
        if kind == 0:
            calls.append("look %s" % places[draw.randrange(sites)])
        elif kind == 1:
            calls.append("enabled %s" % places[draw.randrange(sites)])
        elif kind == 2:
            calls.append("accepting")
        else:
            calls.append("exec %s %s" % (places[e % sites], names[e]))
    return calls


def dealt(calls):
    """The calls by sessions, one to each in turn."""
    return [calls[k::SESSIONS] for k in range(SESSIONS)]


def case_file(opened, sessions):
    listed = ",".join("[%s]" % ",".join('"%s"' % call for call in calls) for calls in sessions)
    return ('{%s,"sessions":[%s]}' % (opened, listed)).encode()


def largest(atoms, sites, seed):
    """A case of 4,096 relations, 1,024 sessions and 200,000 calls of all kinds."""
    draw = random.Random(seed)
    names, places = named("e", atoms), named("s", sites)
    opened = opening(draw, names, places)
    return case_file(opened, dealt(mixed(draw, names, places, 200_000)))


def looks(atoms):
    """A case whose 200,000 calls all look at a site that owns all atoms."""
    events = ",".join('{"name":"e%d"}' % k for k in range(atoms))
    owned = ",".join('"e%d"' % k for k in range(atoms))
    return case_file('"graph":{"events":[%s]},"cover":[{"site":"s","events":[%s]}]' % (events, owned), [["look s"] * 200_000])


def scattered():
    """Looks at 1,024 events whose marks lie scattered, so that the names in a line are those of many short runs."""
    events = ",".join('{"name":"e%d","executed":%s,"pending":%s,"included":%s}' % (k, *(str(it).lower() for it in (k % 2 == 0, k % 3 == 0, k % 5 != 0))) for k in range(1024))
    owned = ",".join('"e%d"' % k for k in range(1024))
    return case_file('"graph":{"events":[%s]},"cover":[{"site":"s","events":[%s]}]' % (events, owned), [["look s"] * 200_000])


def questions(atoms, sites, seed):
    """A case like the largest whose 200,000 calls all ask what is enabled, round the sites."""
    places = named("s", sites)
    opened = opening(random.Random(seed), named("e", atoms), places)
    return case_file(opened, dealt(["enabled %s" % places[k % sites] for k in range(200_000)]))


def verdicts(atoms, sites, seed):
    """A case like the largest whose 200,000 calls all ask whether it is accepting, of all sites."""
    opened = opening(random.Random(seed), named("e", atoms), named("s", sites))
    return case_file(opened, dealt(["accepting"] * 200_000))


def dense(atoms, sites, word):
    """A case in which each event is related to each, itself too, by four kinds; its 200,000 calls execute events or ask what is enabled."""
    names, places = named("e", atoms), named("s", sites)
    events = ",".join(['{"name":"all"}'] + ['{"name":"%s","parent":"all"}' % name for name in names])
    relations = ",".join('["%s","all","all"]' % kind for kind in ("condition", "response", "milestone", "include"))
    cover = ",".join('{"site":"%s","events":[%s]}' % (place, ",".join('"%s"' % name for name in names[k::sites])) for k, place in enumerate(places))
    opened = '"graph":{"events":[%s],"relations":[%s]},"cover":[%s]' % (events, relations, cover)
    behind = (lambda k: " " + names[k % atoms]) if word == "exec" else (lambda k: "")
    return case_file(opened, dealt(["%s %s%s" % (word, places[k % sites], behind(k)) for k in range(200_000)]))


def everywhere():
    """A case of executions that are each done at all 64 sites: each site owns all events, which are executed round 195 times."""
    names, places, rounds = named("e", 1024), named("s", 64), 195
    calls = ["exec %s %s" % (places[(turn + k) % 64], name) for turn in range(rounds) for k, name in enumerate(names)]
    opened = members(names, [], [(place, names) for place in places])
    return case_file(opened, [calls[k * rounds : (k + 1) * rounds] for k in range(SESSIONS)])


def long_names(atoms, sites, seed):
    """A case like the largest, of 200,000 executions and with names of 64 bytes for the events."""
    draw = random.Random(seed)
    names, places = named("e", atoms, 64), named("s", sites)
    opened = opening(draw, names, places)
    calls = ["exec %s %s" % (places[e % sites], names[e]) for e in (draw.randrange(atoms) for _ in range(200_000))]
    return case_file(opened, dealt(calls))


# The case, its calls, and how many million instructions and MB its run takes at most.
RUNS = [
    ("256 atoms, 16 sites, 200,000 calls", lambda: largest(256, 16, 1), 200_000, 750, 26),
    ("1,024 atoms, 64 sites, 200,000 calls", lambda: largest(1024, 64, 2), 200_000, 850, 32),
    ("256 atoms, 200,000 looks", lambda: looks(256), 200_000, 2300, 42),
    ("1,024 atoms, 200,000 looks", lambda: looks(1024), 200_000, None, None),
    ("256 atoms, 16 sites, 200,000 enabled", lambda: questions(256, 16, 1), 200_000, 1000, None),
    ("1,024 atoms, all at 64 sites, 199,680 done", everywhere, 199_680, None, None),
    ("1,024 atoms, 64 sites, 200,000 accepting", lambda: verdicts(1024, 64, 2), 200_000, None, None),
    ("1,024 atoms, 64 sites, all related, exec", lambda: dense(1024, 64, "exec"), 200_000, None, 40),
    ("1,024 atoms, one site, all related, enabled", lambda: dense(1024, 1, "enabled"), 200_000, None, None),
]

# The cases with long reports: of 1 GB, of 1.7 GB, and of 18.7 MB.
LONG = [
    ("1,024 atoms, 200,000 looks", lambda: looks(1024)),
    ("1,024 atoms, 200,000 looks, scattered", scattered),
    ("256 atoms, 16 sites, 200,000 calls", lambda: largest(256, 16, 1)),
]

# The case, and how many million instructions the replay of its report takes at most.
REPLAYS = [
    ("256 atoms, 16 sites, 200,000 calls", lambda: largest(256, 16, 1), 700),
    ("1,024 atoms, 64 sites, 200,000 calls", lambda: largest(1024, 64, 2), 800),
    ("256 names of 64 bytes, 200,000 executions", lambda: long_names(256, 16, 4), None),
]


def filled(front, piece, back):
    """The pieces, with commas, as many as fit the most bytes, padded with spaces."""
    count = (MOST_BYTES - len(front) - len(back)) // (len(piece) + 1)
    text = front + b",".join([piece] * count) + back
    return text + b" " * (MOST_BYTES - len(text))


def read_inputs():
    cover = b'"cover":[{"site":"x","events":["a"]}]'
    yield "many events, refused", filled(b'{"graph":{"events":[', b'{"name":"a"}', b"]}," + cover + b"}")
    yield "many relations, refused", filled(b'{"graph":{"events":[{"name":"a"}],"relations":[', b'["condition","a","a"]', b"]}," + cover + b"}")
    yield "many owned texts, accepted", filled(b'{"graph":{"events":[{"name":"a"}]},"cover":[{"site":"x","events":[', b'"a"', b"]}]}")
    yield "many calls, refused", filled(b'{"graph":{"events":[{"name":"a"}]},' + cover + b',"sessions":[[', b'"accepting"', b"]]}")
    yield "many short texts passed over, accepted", filled(b'{"graph":{"events":[{"name":"a"}]},' + cover + b',"note":[', b'"n"', b"]}")
    head, tail = b'{"graph":{"events":[{"name":"a"}]},' + cover + b',"note":"', b'"}'
    yield "one long text passed over, accepted", head + b"n" * (MOST_BYTES - len(head) - len(tail)) + tail
    head, tail = b'{"graph":{"events":[{"name":"a","label":"', b'"}]},' + cover + b"}"
    yield "one long label, refused", head + b"n" * (MOST_BYTES - len(head) - len(tail)) + tail
    nested = b"[" * 100 + b"]" * 100
    yield "nested arrays passed over, accepted", filled(b'{"graph":{"events":[{"name":"a"}]},' + cover + b',"note":[', nested, b"]}")
    yield "empty arrays, refused", filled(b"[", b"[]", b"]")
    yield "spaces, refused", b" " * MOST_BYTES


def told(number):
    return "-" if number is None else "%.0f" % number


def run_table(is_counted):
    columns = ("run", "status", "M instr", "at most", "cpu s", "seconds", "peak MB", "at most", "calls/s")
    print("%-42s %6s %9s %8s %8s %8s %8s %8s %9s" % columns)
    for name, make, calls, most, most_peak in RUNS:
        text = make()
        status, seconds, cpu, peak = measure(PROGRAM, text)
        count = told(instructions(PROGRAM, text) if is_counted else None)
        row = (name, status, count, told(most), cpu, seconds, peak, told(most_peak), calls / seconds)
        print("%-42s %6d %9s %8s %8.2f %8.2f %8.1f %8s %9.0f" % row, flush=True)


def replay_table(is_counted):
    columns = ("replay", "status", "M instr", "at most", "cpu s", "seconds", "peak MB", "report MB", "run cpu", "run s")
    print("%-42s %6s %9s %8s %8s %8s %8s %9s | %8s %8s" % columns)
    for name, make, most in REPLAYS:
        text = make()
        report = report_of(text)
        _, run, run_cpu, _ = measure(PROGRAM, text)
        status, seconds, cpu, peak = measure(REPLAY, report)
        count = told(instructions(REPLAY, report) if is_counted else None)
        row = (name, status, count, told(most), cpu, seconds, peak, len(report) / 1e6, run_cpu, run)
        print("%-42s %6d %9s %8s %8.2f %8.2f %8.1f %9.1f | %8.2f %8.2f" % row, flush=True)


def read_table():
    columns = ("read, 16,777,216 bytes", "status", "seconds", "cpu s", "peak MB", "JSON s", "JSON cpu", "JSON MB", "ratio")
    print("%-40s %6s %9s %9s %9s | %8s %8s %8s %6s" % columns)
    for name, text in read_inputs():
        status, seconds, cpu, peak = measure(PROGRAM, text)
        _, alone, alone_cpu, alone_peak = measure(READER, text)
        row = (name, status, seconds, cpu, peak, alone, alone_cpu, alone_peak, cpu / max(alone_cpu, 0.01))
        print("%-40s %6d %9.2f %9.2f %9.1f | %8.2f %8.2f %8.1f %6.2f" % row)


def long_table():
    cores = sorted(os.sched_getaffinity(0))
    counts = [count for count in (1, 2, 4) if count <= len(cores)]
    print("%-42s %s" % ("run", "".join("%8s %8s %8s" % ("by %d: s" % count, "cpu s", "peak MB") for count in counts)))
    for name, make in LONG:
        text = make()
        runs = [measure(PROGRAM, text, cores=cores[:count])[1:] for count in counts]
        print("%-42s %s" % (name, "".join("%8.2f %8.2f %8.1f" % it for it in runs)), flush=True)


def main(words):
    is_counted = words[1:] == ["--instructions"] and words[0] in ("run", "replay")
    if words[:1] not in ([], ["run"], ["replay"], ["read"], ["long"]) or (words[1:] and not is_counted):
        sys.exit(__doc__)
    if words[:1] in ([], ["run"]):
        run_table(is_counted)
    if words[:1] in ([], ["replay"]):
        replay_table(is_counted)
    if words[:1] in ([], ["read"]):
        read_table()
    if words[:1] in ([], ["long"]):
        long_table()


if __name__ == "__main__":
    main(sys.argv[1:])
