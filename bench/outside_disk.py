"""For hostile.py: runs whose disk fails, and what the table of statuses says is told then. Ways as in outside.py."""

import ctypes
import json
import os
import resource
import subprocess
import sys
import tempfile

import second  # noqa: F401
import reader
import stored
from model import Case
from outside import DISK_FAULT, DONE, PAGE, REFUSED, Asked, asked_with, file_room, labelled
from trial import DCR, Room, Trial, dcr, told_by

NOBODY = 65534


def disk_trial(way, asked, told):
    """Nothing can be kept: a file that is a case is a disk fault, with nothing written."""
    is_case = asked.wanted[0] != REFUSED
    return Trial(labelled(way, told), asked.inputs(), told[:2], (DISK_FAULT, b"") if is_case else asked.wanted[:2])


def no_file(draw):
    """In the place of the tape stands what is no file, or what can't be opened."""
    asked = Asked(draw, ["run", "--store"])
    links = {"link to nowhere": "/nowhere/at/all", "link to itself": "dcr.tape", "link to a full device": "/dev/full"}
    asked.old, way = None, draw.choice(("folder as tape", *links, "pipe as tape", "too many files open"))
    asked.wanted = asked.answer()
    with Room(None) as room:
        how = {}
        if way == "folder as tape":
            os.mkdir(room.path)
        elif way == "pipe as tape":
            os.mkfifo(room.path)
        elif way == "too many files open":
            # (the loader of the program needs one itself)
            how = {"preexec_fn": lambda: resource.setrlimit(resource.RLIMIT_NOFILE, (4, 4))}
        else:
            os.symlink(links[way], room.path)
        told = dcr(asked.words, asked.text, cwd=room.folder, **how)
    return disk_trial(way, asked, told)


def forbidden_tape(draw):
    """The tape may not be read, or not be written, or the folder may not get one."""
    if os.getuid() != 0:
        return Trial("not tried: forbidden tape", {}, None, None)
    ways = ("tape that may not be read", "tape that may only be read", "folder that may not be written")
    asked, way = Asked(draw, ["run", "--store"]), draw.choice(ways)
    if way == "folder that may not be written":
        asked.old = None
    elif asked.old is None:
        asked.old = b""
    asked.wanted = asked.answer()
    with Room(asked.old) as room, open(DCR, "rb") as program:
        if asked.old is not None:
            os.chmod(room.path, 0o222 if way == "tape that may not be read" else 0o444)
        os.chmod(room.folder, 0o755)
        # By its number, since its folder may be closed to others.
        words = ["/proc/self/fd/%d" % program.fileno(), *asked.words]
        how = {"stdout": subprocess.PIPE, "stderr": subprocess.PIPE, "pass_fds": [program.fileno()], "timeout": 60}
        how.update({"cwd": room.folder, "user": NOBODY, "group": NOBODY, "extra_groups": []})
        told = told_by(subprocess.run(words, input=asked.text, **how))
        os.chmod(room.folder, 0o700)
        if room.tape() != asked.old:
            told = (*told, "the tape was changed")
    return disk_trial(way, asked, told)


def with_room(asked, room):
    """The status and the output where the disk has so many bytes, and the executions that are on the tape then; None
    for a tape that is as it was."""
    try:
        case = reader.read_case(asked.text)
        tape, begin, old = stored.begun(case, asked.old)
    except (reader.Refused, stored.TapeRefused):
        return (*asked.wanted[:2], None)
    if len(tape) > room and tape != asked.old:
        return DISK_FAULT, b"", None if asked.old is None else old
    fits = max((room - begin - 65) // 12 - len(old), 0)
    report, done = stored.run(case, fits)
    return (DISK_FAULT if b" faulted\nsite " in report else DONE), report, old + done


def stands_for(asked, wanted):
    """That the answer is this one, and the tape then stands for these executions."""

    def complaint(told):
        if told[:2] != wanted[:2]:
            return repr(wanted[:2])
        if wanted[2] is not None:
            try:
                found = stored.opened(told[2], reader.read_case(asked.text))[0]
            except stored.TapeRefused as refusal:
                return str(refusal)
            return None if found == wanted[2] else "the executions %s, not %s" % (wanted[2], found)
        return None

    return complaint


def short_tape(draw):
    """The tape's file may not grow past some bytes."""
    asked = Asked(draw, ["run", "--store"])
    room = draw.choice((0, 1, 64, 65, 76, 77, draw.randrange(65, 230)))
    told = asked_with(asked, restore_signals=False, preexec_fn=lambda: file_room(room))
    inputs = {**asked.inputs(), "room": str(room).encode()}
    return Trial(labelled("short tape", told), inputs, told, stands_for(asked, with_room(asked, room)))


class Mounted:
    """A file system of this process's own, in memory, of so many pages."""

    NEW_MOUNTS, REC, PRIVATE = 0x20000, 16384, 1 << 18
    can = None

    def __init__(self, pages):
        self.pages = pages

    @classmethod
    def is_possible(cls):
        if cls.can is None:
            cls.system = ctypes.CDLL(None, use_errno=True)
            cls.can = not cls.system.unshare(cls.NEW_MOUNTS)
            cls.can = cls.can and not cls.system.mount(None, b"/", None, cls.REC | cls.PRIVATE, None)
        return cls.can

    def __enter__(self):
        self.folder = tempfile.mkdtemp(prefix="hostile-")
        if self.system.mount(b"tmpfs", self.folder.encode(), b"tmpfs", 0, b"size=%d" % (self.pages * PAGE)):
            sys.exit("no file system can be mounted")
        return self.folder

    def __exit__(self, *_):
        self.system.umount2(self.folder.encode(), 2)
        os.rmdir(self.folder)


def full_disk(draw):
    """A disk of one or two pages, that gets full within the run."""
    if not Mounted.is_possible():
        return Trial("not tried: full disk", {}, None, None)
    pages = draw.choice((1, 1, 2))
    at = draw.choice(("s0", "s1"))
    cover = [{"site": "s0", "events": ["e0"]}, {"site": "s1", "events": ["e0", "e1"]}]
    file = {"graph": {"events": [{"name": "e0"}, {"name": "e1"}]}, "cover": cover}
    sessions = ["exec %s e0" % at] * draw.randint(0, 9), ["exec s1 e1", "accepting", "look s1"] * draw.randint(0, 3)
    file["sessions"] = list(sessions)
    asked = Asked(draw, ["run", "--store"])
    asked.text = json.dumps(file).encode()
    width = draw.choice((12, 12, 8))
    # (a tape of version 1 is written anew behind itself)
    most = (pages * PAGE - 65) // 12 if width == 12 else (pages * PAGE - 130) // 20
    executions = [(0, 0)] * (most - draw.randint(0, 14) + (draw.randint(0, 3) if width == 8 else 0))
    asked.old = stored.part(stored.digest_of(Case(json.dumps(file))), executions, width)
    with Mounted(pages) as folder:
        path = os.path.join(folder, "dcr.tape")
        with open(path, "wb") as tape:
            tape.write(asked.old)
        told = dcr(asked.words, asked.text, cwd=folder)
        with open(path, "rb") as tape:
            told = (*told[:2], tape.read(), *told[2:])
    wanted = stands_for(asked, with_room(asked, pages * PAGE))
    return Trial(labelled("full disk", told), asked.inputs(), told, wanted)


WAYS = [no_file, no_file, forbidden_tape, short_tape, short_tape, full_disk]
