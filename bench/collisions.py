#!/usr/bin/env python3
"""Times look-ups of names whose hashes collide beside those of as many names drawn at random.

    bench/collisions.py            the case files, the reports, the calls, the entries and the logs; status 1 where a ratio
                                   is above 1.5, of logs above 2

Whoever writes a file can compute names that share a place in every table kept by one hash, since the hash has a fixed
seed. Here are 2,048 nodes with such names, 1,024 of them atoms below the others, and one site whose owned texts name
the last of them as often as 16 MB hold; and a report with the same texts in its cover line, which is read to its end
before it is refused. Then 200,000 calls of the last atom, and the report of their run. Then logs of 16 MB whose traces
have such names, one after the other as they are drawn: 2,048 traces, and as many that each comes twice. Names of 7 bytes
share the low 11 bits of their hash; names of 48 bytes share the whole hash. The seconds are those of the processor.
Build first: `./dcr`.
"""

import random
import struct
import subprocess
import sys

from bench import MOST_BYTES, PROGRAM, REPLAY, measure

MULTIPLIER = 0x9E3779B97F4A7C15
SEED = 0x243F6A8885A308D3
WORD = 2**64 - 1
LETTERS = b"ABCDEFGHIJKLMNOPQRSTUVWXYZabcdefghijklmnopqrstuvwxyz"
FOLLOWS = LETTERS + b"0123456789_-."
COUNT = 2048
MOST_RATIO = 1.5
MOST_OF_LOG = 2.0
CONFORM = [PROGRAM[0], "conform"]
LOG = b'{"graph":{"events":[{"name":"a"}]},"cover":[{"site":"x","events":["a"]}]}\ncase,event\n'
# So many traces with names of 48 bytes may come twice in a log.
MANY = (MOST_BYTES - len(LOG)) // len(b"x" * 48 + b",a\n") // 2


def folded(a, b):
    """The two halves of a product of 128 bits, joined by xor."""
    product = a * b
    return (product & WORD) ^ (product >> 64)


def word(text, at):
    return struct.unpack_from("<Q", text, at)[0]


def hash_of(text):
    """The hash of a text by std's hasher, whose seed is fixed."""
    count = len(text)
    if count <= 8:
        first, last = struct.unpack_from("<I", text, 0)[0], struct.unpack_from("<I", text, count - 4)[0]
        return folded(SEED ^ (first | last << 32), MULTIPLIER ^ (2 * count))
    state, at = (SEED + count) & WORD, 0
    while count - at > 16:
        state = folded(word(text, at) ^ state, word(text, at + 8) ^ MULTIPLIER)
        at += 16
    return folded(word(text, max(count - 16, 0)) ^ state, word(text, count - 8) ^ MULTIPLIER)


def drawn(draw, count):
    return bytes([draw.choice(LETTERS)] + [draw.choice(FOLLOWS) for _ in range(count - 1)])


def at_random(count, seed, many=COUNT):
    draw = random.Random(seed)
    names = set()
    while len(names) < many:
        names.add(drawn(draw, count))
    return sorted(names)


def colliding_short(seed):
    """Names of 7 bytes whose hashes have the same low 11 bits, as many as there are places."""
    draw = random.Random(seed)
    names = set()
    while len(names) < COUNT:
        name = drawn(draw, 7)
        if hash_of(name) % COUNT == 0:
            names.add(name)
    return sorted(names)


def colliding_long(seed, many=COUNT):
    """Names of 48 bytes with one hash: where the third word is the state after the first two, the product is 0
    whatever the fourth is."""
    draw = random.Random(seed)
    while True:
        front = drawn(draw, 16)
        state = folded(word(front, 0) ^ ((SEED + 48) & WORD), word(front, 8) ^ MULTIPLIER)
        middle = struct.pack("<Q", state)
        if all(byte in FOLLOWS for byte in middle):
            break
    back = drawn(draw, 16)
    names = set()
    while len(names) < many:
        names.add(front + middle + drawn(draw, 8) + back)
    assert len({hash_of(name) for name in names}) == 1
    return sorted(names)


def events(names):
    """The first half are nests, and each has one atom of the second half below it."""
    nests, atoms = names[: COUNT // 2], names[COUNT // 2 :]
    parts = [b'{"name":"%s"}' % name for name in nests]
    parts += [b'{"name":"%s","parent":"%s"}' % (name, nest) for name, nest in zip(atoms, nests)]
    return b",".join(parts)


def owned(names, room):
    """All atoms, and the last name as often as there is room."""
    front = b",".join(b'"%s"' % name for name in names[COUNT // 2 :])
    again = b',"%s"' % names[-1]
    return front + again * ((room - len(front)) // len(again))


def case(names):
    front = b'{"graph":{"events":[' + events(names) + b']},"cover":[{"site":"x","events":['
    back = b"]}]}"
    return front + owned(names, MOST_BYTES - len(front) - len(back)) + back


def report(names):
    """A report of which the cover line alone is not canonical: it is read whole and then refused."""
    small = b'{"graph":{"events":[' + events(names) + b']},"cover":[{"site":"x","events":[' + owned(names, 0) + b"]}]}"
    lines = subprocess.run(PROGRAM, input=small, stdout=subprocess.PIPE, check=True).stdout.split(b"\n")
    front, back = b'cover [{"events":[', b'],"site":"x"}]'
    kept = sum(len(line) + 1 for line in lines)
    lines[2] = front + owned(names, MOST_BYTES - kept - len(front) - len(back)) + back
    return b"\n".join(lines)


def called(names):
    """A case with as many calls as there may be, each of the last atom."""
    front = b'{"graph":{"events":[' + events(names) + b']},"cover":[{"site":"x","events":[' + owned(names, 0) + b"]}],"
    return front + b'"sessions":[[' + b",".join([b'"exec x %s"' % names[-1]] * 200_000) + b"]]}"


def answered(names):
    """The report of the run of these calls."""
    return subprocess.run(PROGRAM, input=called(names), stdout=subprocess.PIPE, check=True).stdout


def logged(names):
    """A log of traces with these names, each record of another one, in an order that is drawn."""
    draw, room = random.Random(4), (MOST_BYTES - len(LOG)) // len(names[0] + b",a\n")
    order = [it for _ in range(-(-room // len(names))) for it in draw.sample(names, len(names))]
    return LOG + b"".join(b"%s,a\n" % it for it in order[:room])


def main():
    short, long = (7, at_random(7, 3), colliding_short(1)), (48, at_random(48, 3), colliding_long(2))
    many = (48, at_random(48, 3, MANY), colliding_long(2, MANY))
    print("%-34s %6s %9s %9s %6s" % ("look-ups of names", "status", "random s", "equal s", "ratio"))
    is_slow = False
    for title, command, make, most, lists in [
        ("case", PROGRAM, case, MOST_RATIO, [short, long]),
        ("report", REPLAY, report, MOST_RATIO, [short, long]),
        ("calls", PROGRAM, called, MOST_RATIO, [short, long]),
        ("entries", REPLAY, answered, MOST_RATIO, [short, long]),
        ("log", CONFORM, logged, MOST_OF_LOG, [short, long]),
        ("log of each name twice", CONFORM, logged, MOST_OF_LOG, [many]),
    ]:
        for count, others, names in lists:
            _, _, fair, _ = measure(command, make(others))
            status, _, unfair, _ = measure(command, make(names))
            ratio = unfair / max(fair, 0.01)
            is_slow |= ratio > most
            print("%-34s %6d %9.2f %9.2f %6.2f" % ("%s, names of %d bytes" % (title, count), status, fair, unfair, ratio))
    return 1 if is_slow else 0


if __name__ == "__main__":
    sys.exit(main())
