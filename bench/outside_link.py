"""For hostile.py: servings whose port, connections or output fail, and what the table of statuses says is told then.
Ways are as in outside.py."""

import os
import socket
import struct
import subprocess
import tempfile
import time

import second  # noqa: F401
import inputs
import linked
import reader
import stored
from outside import file_room, labelled
from trial import ADDRESS, DCR, SECONDS, Network, Room, Trial, connected, dcr, serve

DONE, REFUSED, WRITE_FAULT, DISK_FAULT, DOOR_FAULT = 0, 3, 5, 7, 11


def taken_port(draw):
    """Another program has the port."""
    if not Network.is_own:
        return Trial("not tried: taken port", {}, None, None)
    text = inputs.accepted_case(draw)[0].encode()
    with socket.socket() as other:
        other.setsockopt(socket.SOL_SOCKET, socket.SO_REUSEADDR, 1)
        other.bind(ADDRESS)
        other.listen()
        told = dcr(["serve", "--sessions", str(draw.randint(1, 3)), "--workers", str(draw.randint(1, 3))], text)
    return Trial(labelled("taken port", told), {"case": text}, told, (DOOR_FAULT, linked.answer(text, [])[1]))


def failed_output(draw):
    """The report of a serving can't be written; its replies can, and all executions are on the tape."""
    text, links = inputs.changed_links(draw)
    words, way = draw.choice(([], ["--store"])), draw.choice(("closed output", "full device"))
    status, report, replies = linked.answer(text, links)
    with Room(None) as room, open("/dev/full", "wb") as full:
        how = {"preexec_fn": lambda: os.close(1)} if way == "closed output" else {"stdout": full}
        told = serve(text, links, draw, words, cwd=room.folder, **how)
        told = (told[0], told[1] or b"", *told[2:], room.tape())
    tape = None
    if words and status == DONE:
        case = reader.read_case(text)
        tape = stored.part(stored.digest_of(case), stored.executions_of(case, report))
    trial = {"case": text, "words": " ".join(words).encode(), **{"link%d" % k: link for k, link in enumerate(links)}}
    return Trial(labelled("serving, " + way, told), trial, told, (WRITE_FAULT, b"", replies, tape))


def stopped_tape(draw):
    """The tape of a serving may not grow past some bytes: an execution is faulted, and no call is made any more."""
    text, links = inputs.changed_links(draw)
    room = draw.choice((64, 65, 76, 77, 89, draw.randrange(65, 140)))
    wanted = linked.answer(text, links, (room - 65) // 12)
    if room < 65 and wanted[0] != REFUSED:
        wanted = DISK_FAULT, b"", []
    with Room(None) as folder:
        how = {"cwd": folder.folder, "restore_signals": False, "preexec_fn": lambda: file_room(room)}
        told = (*serve(text, links, draw, ["--store"], **how), folder.tape())

    def complaint(told):
        if told[:-1] != wanted:
            return repr(wanted)
        if wanted[0] == REFUSED or room < 65:
            return None
        case = reader.read_case(text)
        executions = stored.executions_of(case, wanted[1])
        return None if stored.opened(told[-1], case)[0] == executions else "a tape of %s" % executions

    trial = {"case": text, "room": str(room).encode(), **{"link%d" % k: link for k, link in enumerate(links)}}
    stopped = sum(b"\nstopped " in b"\n" + reply for reply in wanted[2])
    return Trial([labelled("serving, short tape", told), *["reply stopped"] * stopped], trial, told, complaint)


def gone_link(draw):
    """A connection is reset once it has sent its lines, perhaps with replies unread: its session ends alone."""
    file, case = inputs.accepted_case(draw)
    text, data = file.encode(), inputs.link_of(draw, case)
    with Network.port(), tempfile.TemporaryFile() as given:
        given.write(text)
        given.seek(0)
        words = [DCR, "serve", "--sessions", "1", "--workers", "1"]
        program = subprocess.Popen(words, stdin=given, stdout=subprocess.PIPE, stderr=subprocess.PIPE)
        link = connected(program)
        if link:
            link.sendall(data)
            time.sleep(draw.choice((0, 0, 0.0005, 0.002)))
            link.setsockopt(socket.SOL_SOCKET, socket.SO_LINGER, struct.pack("ii", 1, 0))
            link.close()
        wrote, said = program.communicate(timeout=SECONDS)
    told, ends = (program.returncode, wrote, *[said] * bool(said)), [0]
    ends += [at + 1 for at, byte in enumerate(data) if byte == 10]
    reports = {linked.answer(text, [data[:end]])[1] for end in ends}

    def complaint(told):
        is_right = told[0] == DONE and told[1] in reports and len(told) == 2
        return None if is_right else "status 0 with one of %r" % reports

    return Trial(labelled("reset link", told), {"case": text, "link": data}, told, complaint)


WAYS = [taken_port, failed_output, failed_output, stopped_tape, stopped_tape, gone_link]
