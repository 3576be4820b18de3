"""The worked rows that are data: the program as a process answers each of them, and so do the plain models in Python.

The table is crates/dcr_cases/stdin. Each line is a mark, a space and a text:

    = NAME       a row begins
    $ WORDS      the words of its command; of the row before it where it has none. `~` is an empty word
    ? STATUS     its status; that of the row before it where it has none
    < TEXT       of its input
    <| TEXT      of its input, with a line end
    - TEXT       what stands in its input so far
    + TEXT       what is put in the place of that
    ^ TEXT       each front of this text but the empty one, in turn, is put behind the input
    > TEXT       of what is to be written, with a line end
    [ TEXT       of the store that it begins with; without this line and the next it has no store, and none may be made
    ] TEXT       of the store that it is to leave
    : NAME TEXT  a piece, of which several lines are joined
    # ..         nothing, as is an empty line

In a text `~n` is a line end, `~xHH` a byte and `~{NAME}` a piece. Between two back quotes stands what is repeated:
`3,TEXT` is TEXT three times with commas between, `3*TEXT` with nothing between; each `#` in it is the number of the copy,
counted from 0, or from 7 in `3+7,TEXT`.
"""

import os
import re
import subprocess
import sys
import tempfile
from concurrent.futures import ThreadPoolExecutor

from checks import TOP, want
from checks.program import PROGRAM, prepare  # noqa: F401

sys.path[:0] = [os.path.join(TOP, "tools"), os.path.join(TOP, "bench")]
import apart  # noqa: E402
import carried  # noqa: E402
import load  # noqa: E402
import part  # noqa: E402
import reader  # noqa: E402
import replay  # noqa: E402
import stored  # noqa: E402
import traces  # noqa: E402

TABLE = os.path.join(TOP, "crates/dcr_cases/stdin")
# The most bytes of an input that a model reads within a second or so.
MOST_OF_A_MODEL = 100_000


class Row:
    """A row of the table."""

    def __init__(self, name, words, status):
        self.name, self.words, self.status = name, words, status
        self.input, self.front, self.wanted, self.old = b"", b"", b"", None
        self.tape, self.kept = None, b""

    def inputs(self):
        """Each input that is tried."""
        return [self.input + self.front[:count] for count in range(1, len(self.front) + 1)] or [self.input]


def once(text, pieces):
    """What a text spells in which nothing is repeated."""
    parts = text.split("~")
    found = parts[0].encode()
    for part in parts[1:]:
        if part.startswith("n"):
            found += b"\n" + part[1:].encode()
        elif part.startswith("x") and part[1:3] == part[1:3].lower():
            found += bytes([int(part[1:3], 16)]) + part[3:].encode()
        else:
            name, _, rest = part[1:].partition("}")
            found += pieces[name] + rest.encode()
    return found


def spelled(text, pieces):
    """What a text spells."""
    found = b""
    for place, part in enumerate(text.split("`")):
        if place % 2:
            count, first, mark, piece = re.fullmatch(r"(\d+)(?:\+(\d+))?([,*])(.*)", part).groups()
            copies, between, first = once(piece, pieces), b"," if mark == "," else b"", int(first or 0)
            if b"#" in copies:
                found += between.join(copies.replace(b"#", b"%d" % number) for number in range(first, first + int(count)))
            else:
                found += ((copies + between) * int(count))[: len(copies + between) * int(count) - len(between) * (count != "0")]
        else:
            found += once(part, pieces)
    return found


def rows(lines):
    """The rows of a table."""
    pieces, row = {}, Row("", [], 0)
    for number, line in enumerate(lines, 1):
        mark, _, text = line.rstrip("\n").partition(" ")
        if mark in ("", "#"):
            continue
        if mark == ":":
            name, _, text = text.partition(" ")
            pieces[name] = pieces.get(name, b"") + spelled(text, pieces)
        elif mark == "=":
            if row.name:
                yield row
            row = Row(text, row.words, row.status)
        elif mark == "$":
            row.words = ["" if it == "~" else it for it in text.split(" ")] if text else []
        elif mark == "?":
            row.status = int(text)
        elif mark in ("<", "<|"):
            row.input += spelled(text, pieces) + b"\n" * (mark == "<|")
        elif mark == "-":
            row.old = spelled(text, pieces)
        elif mark == "+":
            want(row.old in row.input, "line %d of the table: what is to be replaced doesn't stand there" % number)
            row.input = row.input.replace(row.old, spelled(text, pieces), 1)
        elif mark == "^":
            row.front += spelled(text, pieces)
        elif mark == ">":
            row.wanted += spelled(text, pieces) + b"\n"
        elif mark == "[":
            row.tape = (row.tape or b"") + spelled(text, pieces)
        elif mark == "]":
            row.tape, row.kept = row.tape or b"", row.kept + spelled(text, pieces)
        else:
            raise AssertionError("line %d of the table: an unknown mark %s" % (number, mark))
    if row.name:
        yield row


def wrong_rows(answer):
    """How many rows there are, and what this finds wrong of them. Few are held at a time, since some have much to read."""
    count, wrong, running = 0, [], []
    with open(TABLE, encoding="utf-8", newline="\n") as file, ThreadPoolExecutor(os.cpu_count()) as pool:
        for row in rows(file):
            count += 1
            running.append(pool.submit(answer, row))
            while len(running) > 2 * os.cpu_count():
                wrong.append(running.pop(0).result())
        wrong += [it.result() for it in running]
    return count, [it for it in wrong if it]


def told(row, status, wrote):
    """What is wrong of an answer, where it is."""
    if status != row.status:
        return "row %s: status %d, and not %d" % (row.name, status, row.status)
    if wrote != row.wanted:
        at = next((k for k, (a, b) in enumerate(zip(wrote, row.wanted)) if a != b), min(len(wrote), len(row.wanted)))
        return "row %s: from byte %d on it wrote %r, and not %r" % (row.name, at, wrote[at : at + 80], row.wanted[at : at + 80])
    return None


def ran(row):
    """What is wrong of the program's answers to a row, where something is."""
    for given in row.inputs():
        with tempfile.TemporaryDirectory(prefix="dcr-row-") as room:
            path = os.path.join(room, "dcr.tape")
            if row.tape:
                with open(path, "wb") as file:
                    file.write(row.tape)
            ended = subprocess.run([PROGRAM, *row.words], cwd=room, input=given, stdout=subprocess.PIPE, stderr=subprocess.PIPE, timeout=300, check=False)
            wrong = told(row, ended.returncode, ended.stdout)
            if wrong:
                return wrong
            if row.tape is None:
                if os.path.exists(path):
                    return "row %s: it made a store" % row.name
            else:
                with open(path, "rb") as file:
                    if file.read() != row.kept:
                        return "row %s: it left another store" % row.name
    return None


def check_the_program_answers_each_row():
    count, wrong = wrong_rows(ran)
    want(count and not wrong, "%d of %d rows: %s" % (len(wrong), count, "; ".join(wrong[:5])))
    print("tools/check: rows: %d rows hold" % count)


def modelled(row, given):
    """The status and the text of the plain models for a command that they know."""
    if row.words[:1] == ["replay"]:
        if len(given) > 268_435_456:
            return 3, b"refused 1 too-long\n"
        line = replay.check(given)
        return 0 if line.startswith("valid") else 8, line.encode()
    if row.words[:1] == ["load"] and len(row.words) == 2:
        return 0, load.line_of(int(row.words[1])).encode()
    if row.words[:1] == ["nodes"]:
        return apart.answer(given, int(row.words[1]))
    if row.words[:1] == ["conform"]:
        return traces.answer(given)
    if row.words == ["adapt"]:
        return carried.answer(given)
    if row.words[:1] == ["part"] and len(row.words) == 2:
        return part.answer(given, row.words[1])
    if row.tape is not None:
        return stored.answer(given, row.tape or None)[:2]
    return reader.answer(given)


def by_model(row):
    """What is wrong of the models' answers to a row, where something is."""
    for given in row.inputs():
        wrong = None if row.status == 2 or len(given) > MOST_OF_A_MODEL else told(row, *modelled(row, given))
        if wrong:
            return wrong
    return None


def check_the_plain_models_answer_each_row():
    count, wrong = wrong_rows(by_model)
    want(count and not wrong, "%d of %d rows: %s" % (len(wrong), count, "; ".join(wrong[:5])))
