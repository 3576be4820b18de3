"""For hostile.py: commands whose memory, output or input fails, and what the table of statuses says is told then.

A way is a function of a draw that gives a Trial. What a command answers where nothing fails is told by the models; a
front of that, and not all of it, is what a failed output or a want of memory leaves.
"""

import contextlib
import fcntl
import json
import os
import resource
import signal
import subprocess
import tempfile

import second  # noqa: F401
import inputs
import mutate
import reader
import replay
import stored
import traces
from model import Case, random_case
from trial import DCR, PLACE, Room, Trial, dcr, told_by

DONE, USAGE, REFUSED, READ_FAULT, WRITE_FAULT, NO_MEMORY, DISK_FAULT, INVALID = 0, 2, 3, 4, 5, 6, 7, 8
PAGE = 4096


class Asked:
    """A command and its input, with the status, the output and the tape that it comes to where nothing fails."""

    def __init__(self, draw, *commands):
        self.words = draw.choice(commands or [["run"], ["run", "--workers", "4"], ["run", "--store"], ["replay"], ["conform"]])
        text, case = inputs.accepted_case(draw)
        self.text, self.old = text.encode(), None
        if "--workers" in self.words:
            # A single session is one report by any number of workers.
            file = json.loads(text)
            self.text = json.dumps({**file, "sessions": [sum(file["sessions"], [])]}).encode()
        if self.words == ["replay"]:
            self.text = case.report().encode()
        if self.words == ["conform"]:
            self.text = inputs.changed_log(draw)
        if draw.random() < 0.15:
            self.text = mutate.change_bytes(draw, self.text)
        self.is_stored = self.words[-1] == "--store"
        if self.is_stored and draw.random() < 0.5:
            self.old = stored.part(stored.digest_of(Case(text)), [], draw.choice((8, 12)))
        self.wanted = self.answer()

    def answer(self):
        if self.words == ["replay"]:
            line = replay.check(self.text).encode()
            return (DONE if line.startswith(b"valid") else INVALID), line, None
        if self.words == ["conform"]:
            return (*traces.answer(self.text), None)
        if self.is_stored:
            return stored.answer(self.text, self.old)
        return (*reader.answer(self.text), None)

    def inputs(self):
        return {"words": " ".join(self.words).encode(), "input": self.text, "tape": self.old}

    def tapes(self):
        """Every tape that the run leaves after so many executions, one in which it did nothing, and the whole one."""
        found = [self.old, b"" if self.old is None else self.old]
        with contextlib.suppress(reader.Refused, stored.TapeRefused):
            case = reader.read_case(self.text)
            tape, begin, old = stored.begun(case, self.old)
            found.append(bytes(tape))
            for number, execution in enumerate(stored.run(case)[1], len(old)):
                stored.append(tape, begin, number, execution)
                found.append(bytes(tape))
        return found


def a_front(asked, *statuses):
    """That the status is one of these and a front of the output was written, not all of it; or that nothing failed."""

    def complaint(told):
        status, wrote = told[:2]
        if len(told) > 3:
            return "it says %r" % (told[3],)
        if status in statuses and asked.wanted[1].startswith(wrote) and wrote != asked.wanted[1]:
            return None
        right = "status %s with a front, or %r" % (statuses, asked.wanted[:2])
        return None if (status, wrote) == asked.wanted[:2] else right

    return complaint


def labelled(way, told):
    return "%s: status %d" % (way, told[0])


def asked_with(asked, given=None, **how):
    """What is told by a command in a folder of its own, with the tape behind it."""
    with Room(asked.old) as room:
        told = dcr(asked.words, asked.text if given is None else given, cwd=room.folder, **how)
        tape = room.tape() if asked.is_stored else None
    return (*told[:2], tape, *told[2:])


# ---- memory


class Floor:
    """The least room of addresses in which the program comes to its first answer."""

    found = None

    @classmethod
    def get(cls):
        if cls.found is None:
            low, high = 1 << 20, 1 << 32
            while high - low > PAGE:
                middle = (low + high) // 2 // PAGE * PAGE
                low, high = (low, middle) if limited([], b"", middle)[:2] == (USAGE, b"usage\n") else (middle, high)
            cls.found = high
        return cls.found


def is_unkept(asked, told):
    """Whether this is the answer to a disk that failed, and the tape has what was executed: the disk keeps a copy of
    the file in memory, and the want of that is a fault of the disk."""
    if told[1] == b"":
        return told[2] in asked.tapes()[:3]
    stops = dict(stored.stops(asked.text, asked.old))
    return told[1] in stops and stored.is_near(told[2], reader.read_case(asked.text), stops[told[1]])


def limited(words, given, room, **how):
    """What is told with so much room for addresses."""
    return dcr(words, given, preexec_fn=lambda: resource.setrlimit(resource.RLIMIT_AS, (room, room)), **how)


def little_memory(draw):
    asked = Asked(draw)
    if draw.random() < 0.3:
        # Long enough to be told in pieces.
        more = json.loads(random_case(draw))
        more["sessions"] = [["look s0"] * draw.choice((100, 1_000))]
        asked.words, asked.text, asked.old, asked.is_stored = ["run"], json.dumps(more).encode(), None, False
        asked.wanted = asked.answer()
    room = Floor.get() + draw.randrange(1 << draw.choice((14, 17, 19, 20, 22, 24))) // PAGE * PAGE
    with Room(asked.old) as folder:
        told = limited(asked.words, asked.text, room, cwd=folder.folder)
        told = (*told[:2], folder.tape() if asked.is_stored else None, *told[2:])
    front = a_front(asked, NO_MEMORY)

    def complaint(told):
        if told[0] == DISK_FAULT and asked.is_stored:
            return None if is_unkept(asked, told) else "a fault of the disk with another report or tape"
        if asked.is_stored and told[2] not in (asked.tapes() if told[0] == NO_MEMORY else [asked.wanted[2]]):
            return "a tape of a beginning of the executions"
        return front(told)

    return Trial(labelled("little memory", told), {**asked.inputs(), "memory": str(room).encode()}, told, complaint)


# ---- outputs


def kept(asked, statuses=(WRITE_FAULT,)):
    """As a front, and with a store all executions are on the tape."""
    front = a_front(asked, *statuses)
    return lambda told: "the whole tape: %r" % (asked.wanted[2],) if told[2] != asked.wanted[2] else front(told)


def must_fail(complaint, asked, status=WRITE_FAULT):
    return lambda told: "status %d" % status if told[0] != status else complaint(told)


def output_trial(way, asked, **how):
    told = asked_with(asked, **{"stdout": None, **how})
    told = (told[0], told[1] or b"", *told[2:])
    return Trial(labelled(way, told), asked.inputs(), told, must_fail(kept(asked), asked))


def closed_output(draw):
    asked = Asked(draw)
    return output_trial("closed output", asked, preexec_fn=lambda: os.close(1))


def full_output(draw):
    with open("/dev/full", "wb") as full:
        return output_trial("full device", Asked(draw), stdout=full)


def read_only_output(draw):
    with open("/dev/null", "rb") as null:
        return output_trial("output that can only be read", Asked(draw), stdout=null)


def gone_reader(draw):
    ends = os.pipe()
    os.close(ends[0])
    try:
        return output_trial("pipe without a reader", Asked(draw), stdout=ends[1])
    finally:
        os.close(ends[1])


def leaving_reader(draw):
    """A reader that takes some bytes of a report that no pipe has room for, and goes away."""
    file = json.loads(inputs.accepted_case(draw)[0])
    # (100 KB at least, of which a pipe takes 64)
    file["sessions"] = [["look s0"] * 2_000]
    text = json.dumps(file).encode()
    report, count = reader.answer(text)[1], draw.choice((0, 1, 1_000, 20_000))
    with tempfile.TemporaryFile() as given:
        given.write(text)
        given.seek(0)
        program = subprocess.Popen([DCR, "run"], stdin=given, stdout=subprocess.PIPE, stderr=subprocess.PIPE)
        front = program.stdout.read(count)
        program.stdout.close()
        said = program.stderr.read()
    told = (program.wait(), front, *[said] * bool(said))
    return Trial(labelled("reader that leaves", told), {"case": text}, told, (WRITE_FAULT, report[:count]))


def file_room(room):
    """No file may grow past so many bytes; a write there fails, and no signal comes."""
    signal.signal(signal.SIGXFSZ, signal.SIG_IGN)
    resource.setrlimit(resource.RLIMIT_FSIZE, (room, room))


def short_output(draw):
    """A file that may not grow past some bytes."""
    asked = Asked(draw, ["run"], ["replay"], ["conform"])
    room = draw.choice((0, 1, draw.randrange(len(asked.wanted[1]) + 2)))
    with tempfile.TemporaryFile(dir=PLACE) as file:
        told = asked_with(asked, stdout=file, restore_signals=False, preexec_fn=lambda: file_room(room))
        file.seek(0)
        told = (told[0], file.read(), *told[2:])
    wanted = asked.wanted if room >= len(asked.wanted[1]) else (WRITE_FAULT, asked.wanted[1][:room], None)
    return Trial(labelled("short file", told), {**asked.inputs(), "room": str(room).encode()}, told, wanted)


def stuck_output(draw):
    """A pipe that nobody reads and that takes a page, and then would block."""
    asked = Asked(draw, ["run"])
    file = json.loads(random_case(draw))
    file["sessions"] = [["look s0"] * draw.choice((1, 20, 200))]
    asked.text = json.dumps(file).encode()
    asked.wanted = asked.answer()
    ends = os.pipe()
    fcntl.fcntl(ends[1], fcntl.F_SETPIPE_SZ, PAGE)
    os.set_blocking(ends[1], False)
    told = asked_with(asked, stdout=ends[1])
    os.close(ends[1])
    with open(ends[0], "rb") as pipe:
        told = (told[0], pipe.read(), *told[2:])
    wanted = asked.wanted if len(asked.wanted[1]) <= PAGE else (WRITE_FAULT, asked.wanted[1][:PAGE], None)
    return Trial(labelled("full pipe", told), asked.inputs(), told, wanted)


# ---- inputs


def failed_input(draw):
    """An input that can't be read: nothing is written, and no tape made."""
    ways = ("closed input", "folder as input", "input that can only be written", "input that would block")
    asked, way = Asked(draw), draw.choice(ways)
    ends = os.pipe()
    os.set_blocking(ends[0], False)
    opened = {"folder as input": ("/", os.O_RDONLY), "input that can only be written": ("/dev/null", os.O_WRONLY)}
    given = os.open(*opened[way]) if way in opened else ends[0]
    if way == "input that would block":
        # What there is of it is read first.
        os.write(ends[1], asked.text[: draw.choice((0, 1, 100, 1_000))])
    with Room(asked.old) as room:
        how = {"stdout": subprocess.PIPE, "stderr": subprocess.PIPE, "cwd": room.folder, "timeout": 60}
        if way == "closed input":
            how["preexec_fn"] = lambda: os.close(0)
        told = (*told_by(subprocess.run([DCR, *asked.words], stdin=given, **how)), room.tape())
    for end in {*ends, given}:
        os.close(end)
    return Trial(labelled(way, told), asked.inputs(), told, (READ_FAULT, b"", asked.old))


def wrong_words(draw):
    """Words at random; an input that is no case, so that none of them waits for anybody."""
    known = "run serve replay conform --workers --sessions --store --store 1 2 64 65 0 02 1024 1025 +1 -1 é".split() + [""]
    starts = [["run"], ["run", "--workers", "4"], ["replay"], ["conform"], ["serve", "--sessions", "1", "--workers", "1"], []]
    words = draw.choice(starts) + draw.choices(known, k=draw.choice((0, 0, 1, 1, 2, 3)))
    if words and draw.random() < 0.5:
        words[draw.randrange(len(words))] = draw.choice(known)
    ends = (b"\xff", b" ", b"\n", b"x")
    words = [word.encode() + (draw.choice(ends) if draw.random() < 0.1 else b"") for word in words]
    with Room(None) as room:
        told = (*dcr(words, b"{", cwd=room.folder), room.tape())
    known = {"run": (REFUSED, b"refused 2 not-json\n", None), "replay": (INVALID, b"invalid 1 head\n", None)}
    wanted = known.get(command_of(words), (USAGE, b"usage\n", None))
    return Trial(labelled("words", told), {"words": repr(words).encode()}, told, wanted)


def command_of(words):
    """What the words spell: run (or serve and conform, which answer the same to no case), replay, or nothing."""

    def is_number(word, most):
        return word.isdigit() and not word.startswith(b"0") and int(word) <= most

    rest = words[1:]
    if words[:1] == [b"replay"] and not rest:
        return "replay"
    if words == [b"conform"]:
        return "run"
    if words[:1] == [b"serve"]:
        if rest[0:3:2] != [b"--sessions", b"--workers"] or len(rest) < 4:
            return None
        is_served = is_number(rest[1], 1024) and is_number(rest[3], 64) and rest[4:] in ([], [b"--store"])
        return "run" if is_served else None
    if words[:1] == [b"run"]:
        if rest[:1] == [b"--workers"]:
            if len(rest) < 2 or not is_number(rest[1], 64):
                return None
            rest = rest[2:]
        return "run" if rest in ([], [b"--store"]) else None
    return None


# Memory is tried most often, since it fails at another place each time.
WAYS = [little_memory] * 3 + [closed_output, full_output, read_only_output, gone_reader, short_output, stuck_output]
WAYS += [leaving_reader, failed_input, failed_input, wrong_words, wrong_words]
