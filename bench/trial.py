"""Runs the program on one input, for hostile.py: with bytes as input, in a folder with a tape, or over connections."""

import contextlib
import ctypes
import fcntl
import os
import shutil
import socket
import struct
import subprocess
import sys
import tempfile
import threading
import time

import second  # noqa: F401
from model import PROGRAM

DCR = os.environ.get("DCR", PROGRAM[0])
ADDRESS = ("127.0.0.1", 7411)
DOOR_FAULT = 11
SECONDS = 300
# How much of an answer is printed.
SHOWN = 10_000
# A folder in memory, where there is one, so that a sync costs nothing.
PLACE = "/dev/shm" if os.path.isdir("/dev/shm") else None


class Trial:
    """What the program told for some inputs, and what was wanted: the same, or what a function takes, which gives a
    complaint or None."""

    def __init__(self, label, inputs, told, wanted):
        self.label, self.inputs, self.told, self.wanted = label, inputs, told, wanted

    def labels(self):
        return [self.label] if isinstance(self.label, str) else self.label

    def complaint(self):
        """What should have been told, or None where it was."""
        if callable(self.wanted):
            return self.wanted(self.told)
        return None if self.told == self.wanted else repr(self.wanted)


def show(name, inputs, told, complaint):
    """Writes the inputs to files of this name, and prints both answers."""
    files = {"%s.%s" % (name, part): content for part, content in inputs.items() if content is not None}
    for path, content in files.items():
        with open(path, "wb") as file:
            file.write(content)
    print("answered otherwise: %s" % " ".join(files))
    print("program: %s" % repr(told)[:SHOWN])
    print("model:   %s" % complaint[:SHOWN])


def want_program():
    if not os.path.exists(DCR):
        sys.exit("%s is not there: `./dcr` builds the program" % DCR)


def unforeseen(said):
    """What stands on standard error but for the sentences of the program."""
    return b"".join(line for line in said.splitlines(keepends=True) if not line.startswith(b"dcr: "))


def told_by(ran):
    """The status and what was written; what was said too that the program doesn't say, where anything was."""
    said = unforeseen(ran.stderr)
    return (ran.returncode, ran.stdout, said) if said else (ran.returncode, ran.stdout)


def dcr(words, given, **how):
    how = {"stdout": subprocess.PIPE, "stderr": subprocess.PIPE, "timeout": SECONDS, **how}
    return told_by(subprocess.run([DCR, *words], input=given, **how))


class Room:
    """A folder of its own, with this tape in it, or none."""

    def __init__(self, tape):
        self.begun = tape

    def __enter__(self):
        self.folder = tempfile.mkdtemp(prefix="hostile-", dir=PLACE)
        self.path = os.path.join(self.folder, "dcr.tape")
        if self.begun is not None:
            with open(self.path, "wb") as file:
                file.write(self.begun)
        return self

    def __exit__(self, *_):
        shutil.rmtree(self.folder)

    def tape(self):
        """The bytes of the tape now, or None; the names of the files where there are others."""
        names = os.listdir(self.folder)
        if names not in ([], ["dcr.tape"]):
            return names
        if not names:
            return None
        with open(self.path, "rb") as file:
            return file.read()


# ---- connections


class Network:
    """A network that is this process's alone, with nothing but an address of its own."""

    NEW_USER, NEW_NETWORK = 0x10000000, 0x40000000
    GET_FLAGS, SET_FLAGS, UP = 0x8913, 0x8914, 1
    is_own = False

    @staticmethod
    def enter():
        system = ctypes.CDLL(None, use_errno=True)
        if system.unshare(Network.NEW_NETWORK) and system.unshare(Network.NEW_USER | Network.NEW_NETWORK):
            return False
        with socket.socket(socket.AF_INET, socket.SOCK_DGRAM) as link:
            asked = struct.pack("16sh14x", b"lo", 0)
            flags = struct.unpack("16sh14x", fcntl.ioctl(link, Network.GET_FLAGS, asked))[1]
            fcntl.ioctl(link, Network.SET_FLAGS, struct.pack("16sh14x", b"lo", flags | Network.UP))
        Network.is_own = True
        return True

    @staticmethod
    def can_be_own():
        child = os.fork()
        if not child:
            with contextlib.suppress(OSError):
                os._exit(0 if Network.enter() else 1)
            os._exit(1)
        return os.waitpid(child, 0)[1] == 0

    @staticmethod
    @contextlib.contextmanager
    def port():
        """The port, which one process of this machine has at a time."""
        if Network.is_own:
            yield
            return
        with open(os.path.join(tempfile.gettempdir(), "dcr-port-%d.lock" % ADDRESS[1]), "w") as file:
            fcntl.flock(file, fcntl.LOCK_EX)
            yield


def connected(program):
    """A connection, once somebody listens; None where the program has ended."""
    while True:
        try:
            link = socket.create_connection(ADDRESS, timeout=SECONDS)
            link.setsockopt(socket.IPPROTO_TCP, socket.TCP_NODELAY, 1)
            return link
        except ConnectionError:
            if program.poll() is not None:
                return None
            time.sleep(0.0005)


def send(link, pieces):
    """Sends all that is taken, and then ends the sending."""
    with contextlib.suppress(OSError):
        for piece in pieces:
            link.sendall(piece)
        link.shutdown(socket.SHUT_WR)


def exchanged(link, pieces):
    """What is answered to these pieces."""
    sender = threading.Thread(target=send, args=(link, pieces))
    sender.start()
    parts = []
    with contextlib.suppress(ConnectionError), link:
        while not parts or parts[-1]:
            parts.append(link.recv(65536))
        sender.join()
    sender.join()
    return b"".join(parts)


def cut(draw, data):
    """The bytes in up to three pieces."""
    places = sorted(draw.randint(0, len(data)) for _ in range(draw.choice((0, 0, 1, 2))))
    return [data[a:b] for a, b in zip([0, *places], [*places, len(data)])]


def serve(text, links, draw, words=(), **how):
    """The status of a serving by one worker, what it wrote, and what each link was answered."""
    words = [DCR, "serve", "--sessions", str(len(links)), "--workers", "1", *words]
    how = {"stdout": subprocess.PIPE, "stderr": subprocess.PIPE, **how}
    while True:
        with Network.port(), tempfile.TemporaryFile() as file:
            file.write(text)
            file.seek(0)
            program = subprocess.Popen(words, stdin=file, **how)
            told = []
            for data in links:
                link = connected(program)
                if link is None:
                    break
                told.append(exchanged(link, cut(draw, data)))
            wrote, said = program.communicate(timeout=SECONDS)
        # (the port is another program's, which doesn't ask for the lock)
        if program.returncode != DOOR_FAULT or told or Network.is_own:
            said = unforeseen(said)
            return (program.returncode, wrote, told, said) if said else (program.returncode, wrote, told)
        time.sleep(0.1)
