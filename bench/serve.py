#!/usr/bin/env python3
"""Times sessions over connections, kills a serving in its midst, and floods one.

    bench/serve.py                      the waits, and the flood
    bench/serve.py waits                100,000 calls over 1, 4 and 64 links, and 1,024 links that each make one
    bench/serve.py flood                a link beside one that asks without end and reads nothing, and beside none
    bench/serve.py kills [KILLS [SEED]] 200 servings with a store, from seed 1, each killed at a random moment

A client waits for the reply to a line before it sends the next one; the clients are four processes at most, which each hold a
part of the links. A line of the first table gives the calls a second of all together, the wait for a reply (the 50th, 99th and
99.9th percentile), the program's processor time for a call, and its peak memory.

Of a serving that is killed the tape is read here, by the rules of docs/FORMATS.md: it must have each execution that a client was
told, in its place, and at most as many more as calls were on their way. The next serving goes on from it.

The status is 1 where a tape has less or more, or where the flood slows the link beside it by more than half. The tape is made in
the current folder. Build first: `./dcr` builds the program. The port 7411 must be free.
"""

import hashlib
import json
import multiprocessing
import os
import random
import selectors
import socket
import subprocess
import sys
import tempfile
import threading
import time

sys.dont_write_bytecode = True
sys.path.insert(0, os.path.dirname(os.path.abspath(__file__)))
import second  # noqa: E402, F401
from bench import PROGRAM  # noqa: E402
from crash import read_tape  # noqa: E402
from model import Case  # noqa: E402

ADDRESS = ("127.0.0.1", 7411)
CALLS = 100_000
KILLED_CLIENTS = 4


def case(sites):
    """A case of so many sites, each with an event of its own."""
    events = [{"name": "e%d" % k} for k in range(sites)]
    cover = [{"site": "s%d" % k, "events": ["e%d" % k]} for k in range(sites)]
    return json.dumps({"graph": {"events": events}, "cover": cover})


def line_of(k):
    return b"exec s%d e%d\n" % (k, k)


def started(sites, sessions, workers, *words, folder="."):
    with tempfile.TemporaryFile() as file:
        file.write(case(sites).encode())
        file.seek(0)
        words = [PROGRAM[0], "serve", "--sessions", str(sessions), "--workers", str(workers), *words]
        return subprocess.Popen(words, stdin=file, stdout=subprocess.DEVNULL, cwd=folder)


def connected(tries=1_000):
    """A connection, once somebody listens; None where nobody does any more."""
    for _ in range(tries):
        try:
            link = socket.create_connection(ADDRESS)
            link.setsockopt(socket.IPPROTO_TCP, socket.TCP_NODELAY, 1)
            return link
        except ConnectionError:
            time.sleep(0.01)
    return None


def ended(program):
    """The status of the program, its processor time, and its peak memory in MB."""
    _, status, used = os.wait4(program.pid, 0)
    program.returncode = os.waitstatus_to_exitcode(status)
    return program.returncode, used.ru_utime + used.ru_stime, used.ru_maxrss / 1024


# ---- how long a client waits


def talk(links, calls, waits):
    """Makes so many calls over each of these links, one after the other on each. Puts down each wait."""
    with selectors.DefaultSelector() as ready:
        for k, link in links:
            left = [calls, time.perf_counter()]
            ready.register(link, selectors.EVENT_READ, (k, left))
            link.sendall(line_of(k))
        open_links = len(links)
        while open_links:
            for key, _ in ready.select():
                k, left = key.data
                # (a reply is less than a segment)
                assert key.fileobj.recv(4096).endswith(b" done\n")
                now = time.perf_counter()
                waits.append(now - left[1])
                left[0] -= 1
                if left[0]:
                    left[1] = now
                    key.fileobj.sendall(line_of(k))
                else:
                    ready.unregister(key.fileobj)
                    key.fileobj.close()
                    open_links -= 1


def client(numbers, calls, at_once, sites, barrier, results):
    """The links of these numbers, all at once or one after the other."""
    waits = []
    if at_once:
        links = [(k % sites, connected()) for k in numbers]
    barrier.wait()
    begun = time.perf_counter()
    if at_once:
        talk(links, calls, waits)
    else:
        for k in numbers:
            talk([(k % sites, connected())], calls, waits)
    results.put((begun, time.perf_counter(), waits))


def measured(links, calls, workers, at_once):
    sites, processes = min(links, 64), min(links, 4)
    program = started(sites, links, workers)
    barrier, results = multiprocessing.Barrier(processes), multiprocessing.Queue()
    clients = [
        multiprocessing.Process(target=client, args=(range(part, links, processes), calls, at_once, sites, barrier, results))
        for part in range(processes)
    ]
    for it in clients:
        it.start()
    came = [results.get() for _ in clients]
    status, used, memory = ended(program)
    for it in clients:
        it.join()
    if status:
        sys.exit("the program ends with status %d" % status)
    waits = sorted(wait for _, _, part in came for wait in part)
    seconds = max(end for _, end, _ in came) - min(begun for begun, _, _ in came)
    return len(waits) / seconds, [waits[int(len(waits) * part)] * 1e6 for part in (0.5, 0.99, 0.999)], used / len(waits) * 1e6, memory


def table_of_waits():
    print("  links  workers   calls each     calls/s   50% us   99% us   99.9% us   us of the program   MB")
    for links, calls, workers, at_once in ((1, CALLS, 1, True), (4, CALLS // 4, 4, True), (64, CALLS // 64, 64, True), (1024, 1, 4, False)):
        speed, waits, used, memory = measured(links, calls, workers, at_once)
        print("%7d %8d %12d %11d %8.0f %8.0f %10.0f %19.1f %4.0f" % (links, workers, calls, speed, *waits, used, memory))


# ---- a link that floods


def speed_beside(floods, calls=20_000):
    """The calls a second over one link, with another link beside it that only asks, or with none."""
    program = started(2, 2, 2)
    other = connected()
    if floods:

        def flood():
            try:
                while True:
                    other.sendall(line_of(1) * 1_000)
            except OSError:
                pass

        threading.Thread(target=flood, daemon=True).start()
    link = connected()
    time.sleep(0.3)
    begun = time.perf_counter()
    waits = []
    talk([(0, link)], calls, waits)
    seconds = time.perf_counter() - begun
    other.shutdown(socket.SHUT_RDWR)
    other.close()
    if ended(program)[0]:
        sys.exit("the program doesn't end with status 0")
    return calls / seconds


def flooded():
    alone = max(speed_beside(False) for _ in range(3))
    beside = max(speed_beside(True) for _ in range(3))
    print("one link: %d calls/s; beside one that floods: %d (%.2f)" % (alone, beside, beside / alone))
    return beside < alone / 2


# ---- a serving that is killed


def asking(k, told):
    """Asks without end, each time once the last call was answered. Puts down what it is told."""
    link = connected(100)
    if link is None:
        return
    try:
        with link, link.makefile("rb") as replies:
            while True:
                link.sendall(line_of(k))
                reply = replies.readline()
                if not reply.endswith(b"\n"):
                    return
                told.append(reply)
    except OSError:
        return


def killed(draw, folder, before, digest, names):
    """Serves four clients on the tape that has these executions, and is killed. Gives what it has then."""
    program = started(KILLED_CLIENTS, KILLED_CLIENTS, KILLED_CLIENTS, "--store", folder=folder)
    told = [[] for _ in range(KILLED_CLIENTS)]
    clients = [threading.Thread(target=asking, args=(k, told[k])) for k in range(KILLED_CLIENTS)]
    for it in clients:
        it.start()
    time.sleep(draw.uniform(0.005, 0.2))
    program.kill()
    if program.wait() != -9:
        sys.exit("the program ends with status %d" % program.returncode)
    for it in clients:
        it.join()
    tape = read_tape(folder, digest)
    if tape is None:
        if any(told):
            sys.exit("an execution was answered, and there is no tape")
        return before, 0
    if tape[: len(before)] != before:
        sys.exit("the tape had %d executions and has others now" % len(before))
    for k, replies in enumerate(told):
        for number, reply in enumerate(replies):
            place, _, seq, rest = reply.split(b" ", 3)
            at = len(before) + int(place)
            if int(seq) != number or rest != line_of(k)[:-1] + b" done\n":
                sys.exit("client %d was told %s" % (k, reply))
            if at >= len(tape) or names[tape[at][0]] != b"e%d" % k:
                sys.exit("execution %d was answered, and isn't on the tape" % at)
    count = sum(len(replies) for replies in told)
    if len(tape) - len(before) > count + KILLED_CLIENTS:
        sys.exit("%d executions were answered, and %d are on the tape" % (count, len(tape) - len(before)))
    return tape, count


def kills(many=200, seed=1):
    draw, tape, answered, grown = random.Random(seed), [], 0, 0
    whole = Case(case(KILLED_CLIENTS))
    digest = hashlib.sha256("".join(line + "\n" for line in list(whole.head())[1:4]).encode()).digest()
    names = [name.encode() for name in whole.atoms]
    with tempfile.TemporaryDirectory(dir=".") as folder:
        for _ in range(many):
            tape, count = killed(draw, folder, tape, digest, names)
            answered, grown = answered + count, grown + (count > 0)
    print("%d kills: at %d executions had been answered, %d in all; the tape has %d" % (many, grown, answered, len(tape)))
    # Where hardly a call was answered nothing was tried.
    return grown < many / 4


def main(words):
    if not words:
        table_of_waits()
        return flooded()
    if words == ["waits"]:
        return table_of_waits()
    if words == ["flood"]:
        return flooded()
    if words[0] == "kills" and len(words) < 4 and all(word.isdigit() for word in words[1:]):
        return kills(*(int(word) for word in words[1:]))
    sys.exit(__doc__)


if __name__ == "__main__":
    sys.exit(main(sys.argv[1:]))
