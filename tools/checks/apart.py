"""`dcr site` as a process, against a stand-in for who orders its calls: every byte over its connections, and what ends them."""

import contextlib
import io
import json
import os
import random
import re
import signal
import socket
import struct
import subprocess
import sys
import tempfile
import time

import apart
from apart_order import ADDRESS, ANSWER_BYTES, CAN, MARKS, MOST_SECONDS, QUESTION_KIND, WAITS, Order, answered, challenge, heard, hello, question
from checks import TOP, examples, read, run, want
from checks.program import DONE, NO_MEMORY, PROGRAM, READ_FAULT, REFUSED, USAGE, WRITE_FAULT, dcr, in_shell, prepare  # noqa: F401
from checks.serving import the_port
from model import Case
from stored import digest_of

# What a site says on standard error, line by line.
SAID = re.compile(
    r"dcr: (no connection to 127\.0\.0\.1:7412 can be made; it is tried again and again|link \d+ to 127\.0\.0\.1:7412 begins"
    r"|link \d+ has ended: (it failed as it was read|it failed as an answer was written"
    r"|the other side ended it, or what came is nothing that a site may be asked))"
)
DOCTOR, NURSE = 0, 1
PM, S, GM, DT = range(4)
KEY = bytes(range(32, 64))


def case_of(name):
    return Case(read("examples/%s.json" % name).decode())


MEDICATION = case_of("medication")
DIGEST = digest_of(MEDICATION)


def part(name, site):
    status, wrote, _ = dcr("part", site, given=read("examples/%s.json" % name))
    want(status == DONE, "%s of %s has no part" % (site, name))
    return wrote


def twin(case, number):
    """A site by the second implementation, at the opening."""
    return apart.Site(number, case, case.sites[number][1])


def ask(site, number, event, count):
    return apart.FIELDS.pack(apart.ASK, site, number, event, count, 0)


def told(site, index, event):
    return apart.FIELDS.pack(apart.APPLY, site, index, event, 0, 0)


def replies(site, atoms, frames):
    """What the second implementation answers to these, one behind the other."""
    return b"".join(answered(site, atoms, it) if it[0] == QUESTION_KIND else site.step(it) or b"" for it in frames)


class Running:
    """`dcr site` with this part, in a folder of its own, until the check ends. Its key's file has this text, where there is one."""

    def __init__(self, given, key=None):
        self.folder, self.error = tempfile.TemporaryDirectory(), tempfile.TemporaryFile()
        if key is not None:
            with open(os.path.join(self.folder.name, "dcr.key"), "wb") as file:
                file.write(key)
        self.left = os.listdir(self.folder.name)
        with tempfile.TemporaryFile() as file:
            file.write(given)
            file.seek(0)
            self.process = subprocess.Popen([PROGRAM, "site"], stdin=file, stdout=subprocess.PIPE, stderr=self.error, cwd=self.folder.name)

    def __enter__(self):
        return self

    def said(self):
        """The lines on standard error so far."""
        with open("/proc/self/fd/%d" % self.error.fileno(), "rb") as file:
            return file.read().decode().splitlines()

    def ends(self, number=signal.SIGKILL):
        """Ends it by a signal. Till then it has written nothing, said nothing unknown and left its folder as it was."""
        status = self.process.poll()
        self.process.send_signal(number)
        wrote, _ = self.process.communicate(timeout=60)
        want(status is None and self.process.returncode == -number, "it ended with status %s" % (self.process.returncode if status is None else status))
        want(wrote == b"", "it wrote %s" % wrote)
        wrong = [it for it in self.said() if not SAID.fullmatch(it)]
        want(not wrong, "it says %s" % wrong)
        want(os.listdir(self.folder.name) == self.left, "its folder has %s" % os.listdir(self.folder.name))

    def __exit__(self, kind, *_):
        try:
            if kind is None and self.process.returncode is None:
                self.ends()
        finally:
            self.process.kill()
            self.process.wait()
            self.process.stdout.close()
            self.error.close()
            self.folder.cleanup()


@contextlib.contextmanager
def who_orders():
    """The port that sites connect to, which one check has at a time."""
    with the_port(), socket.create_server(ADDRESS) as listener:
        listener.settimeout(60)
        yield listener


def come(listener):
    link, _ = listener.accept()
    link.settimeout(60)
    link.setsockopt(socket.IPPROTO_TCP, socket.TCP_NODELAY, 1)
    return link


def greeted(listener, number=NURSE, digest=DIGEST, key=None):
    """The next connection, once it was greeted: the hello is that of this site, to the byte."""
    link, asked = come(listener), challenge(os.urandom(8), os.urandom(32))
    link.sendall(asked)
    said = heard(link, 78)
    want(said == hello(asked, number, digest, key), "to %s it says %s" % (asked.hex(), said.hex()))
    return link


def is_silent(link, seconds=0.2):
    """Whether nothing comes for so long, and the connection doesn't end."""
    link.settimeout(seconds)
    try:
        return link.recv(1) is None
    except socket.timeout:
        return True
    finally:
        link.settimeout(60)


def rest_of(link):
    """What else comes before the site ends the connection."""
    got = b""
    with contextlib.suppress(ConnectionResetError):
        while more := link.recv(4096):
            got += more
    link.close()
    return got


# Whether `gm` may be executed at the opening: its condition `s` blocks it.
AT_OPENING = ask(NURSE, 7, GM, 0)
BLOCKED = bytes.fromhex("02 0001 00000007 0001 00000000 03".replace(" ", ""))


def is_at_opening(link):
    link.sendall(AT_OPENING)
    said = heard(link, 14)
    want(said == BLOCKED, "it isn't at the opening: %s" % said.hex(" "))


# ---- the greeting


def check_a_site_says_nothing_before_the_whole_challenge_and_then_its_hello():
    asked = challenge(bytes(range(8)), bytes(range(100, 132)))
    with who_orders() as listener, Running(part("medication", "nurse")) as site, come(listener) as link:
        want(is_silent(link), "it speaks unasked")
        for byte in asked[:43]:
            link.sendall(bytes([byte]))
        want(is_silent(link), "it answers to 43 bytes")
        link.sendall(asked[43:])
        wanted = b"dcrS" + bytes(range(8)) + b"\0\1" + bytes.fromhex(json.loads(part("medication", "nurse"))["digest"]) + bytes(32)
        said = heard(link, 78)
        want(said == wanted, "it says %s" % said.hex())
        want(is_silent(link), "it says more than its hello")
        is_at_opening(link)
        want(site.said() == ["dcr: link 0 to 127.0.0.1:7412 begins"], "it says %s" % site.said())


def check_each_site_of_the_examples_greets_as_itself():
    for name in examples():
        case = case_of(name)
        for number, (site, _) in enumerate(case.sites):
            # (each with a port of its own: a site that is killed may have connected once more)
            with who_orders() as listener, Running(part(name, site)):
                greeted(listener, number, digest_of(case)).close()


def check_a_site_greets_by_its_key():
    # (in both cases of its digits, and without one)
    for text, key in [(KEY.hex(), KEY), (KEY.hex().upper(), KEY), (None, None)]:
        with who_orders() as listener, Running(part("medication", "nurse"), text and text.encode() + b"\n"):
            for _ in range(2):
                with greeted(listener, key=key) as link:
                    is_at_opening(link)


def check_a_text_that_is_no_key_is_refused():
    digits = KEY.hex().encode()
    texts = [b"", b"\n", digits, digits + b"\r\n", digits + b"\n\n", digits + b" \n", b" " + digits + b"\n", digits[1:] + b"\n", digits + b"0\n", b"g" + digits[1:] + b"\n", b"nurse " + digits + b"\n", digits * 1000]
    with who_orders() as listener:
        for text in texts:
            with tempfile.TemporaryDirectory() as folder:
                with open(os.path.join(folder, "dcr.key"), "wb") as file:
                    file.write(text)
                ended = dcr("site", given=part("medication", "nurse"), cwd=folder, seconds=60)
                want(ended == (REFUSED, b"refused 20 keys 1\n", b""), "%s: %s" % (text[:80], ended))
        want(nobody_comes(listener), "it has connected")


def check_a_key_that_cannot_be_read_is_a_read_fault():
    with tempfile.TemporaryDirectory() as folder:
        os.mkdir(os.path.join(folder, "dcr.key"))
        status, wrote, said = dcr("site", given=part("medication", "nurse"), cwd=folder, seconds=60)
        want((status, wrote) == (READ_FAULT, b"") and said.startswith(b"dcr: the file dcr.key can't be "), "%d %s %s" % (status, wrote, said))
        # (a loop of links, which can't be opened whoever asks)
        os.rmdir(os.path.join(folder, "dcr.key"))
        os.symlink("dcr.key", os.path.join(folder, "dcr.key"))
        status, wrote, said = dcr("site", given=part("medication", "nurse"), cwd=folder, seconds=60)
        want((status, wrote) == (READ_FAULT, b"") and said.startswith(b"dcr: the file dcr.key can't be opened: "), "%d %s %s" % (status, wrote, said))
        # (which is no concern of any other command, nor of other words)
        want(dcr("part", "nurse", given=read("examples/medication.json"), cwd=folder)[0] == DONE, "another command looks at it")
        want(dcr("site", "nurse", given=part("medication", "nurse"), cwd=folder) == (USAGE, b"usage\n", b""), "it is looked at for other words")


def nobody_comes(listener):
    listener.settimeout(0.2)
    try:
        listener.accept()[0].close()
        return False
    except socket.timeout:
        return True
    finally:
        listener.settimeout(60)


# ---- what is asked and answered


def check_a_talk_to_the_byte():
    frames = [AT_OPENING, told(NURSE, 0, S), ask(NURSE, 8, GM, 1), question(NURSE, 9, MARKS, 1), question(NURSE, 9, CAN, 1), question(NURSE, 9, WAITS, 1)]
    # (gm, 2, and dt, 3, are included and s, 1, too; s is executed; nothing is pending)
    sets = [bytes([it]) + bytes(127) for it in (0b0010, 0, 0b1110)]
    wanted = BLOCKED + bytes.fromhex("02 0001 00000008 0000 00000000 00".replace(" ", ""))
    wanted += bytes.fromhex("05 0001 00000009 00 0000 0004 0004 0004".replace(" ", "")) + b"".join(sets)
    wanted += bytes.fromhex("05 0001 00000009 01 0000 0004 0000 0000".replace(" ", "")) + bytes([0b1100]) + bytes(383)
    wanted += bytes.fromhex("05 0001 00000009 02 0000 0000 0000 0000".replace(" ", "")) + bytes(384)
    with who_orders() as listener, Running(part("medication", "nurse")):
        # (at once, byte by byte, and each behind the answer to the one before)
        with greeted(listener) as link:
            link.sendall(b"".join(frames))
            want(heard(link, len(wanted)) == wanted and is_silent(link), "at once it answers otherwise")
        with greeted(listener) as link:
            for byte in b"".join(frames):
                link.sendall(bytes([byte]))
            want(heard(link, len(wanted)) == wanted and is_silent(link), "byte by byte it answers otherwise")
        with greeted(listener) as link:
            answers = wanted
            for frame, length in zip(frames, (14, 0, 14, 400, 400, 400)):
                link.sendall(frame)
                want(heard(link, length) == answers[:length], "to %s it answers otherwise" % frame.hex(" "))
                answers = answers[length:]
            want(is_silent(link), "it answers more than it was asked")


def drawn_frame(draw, case, site):
    """A message or a question that may be sent to a site, now and then one that it passes over."""
    number, to = draw.getrandbits(32), site.number if draw.random() < 0.9 else draw.randrange(1 << 16)
    count = site.count if draw.random() < 0.8 else draw.randrange(1 << 32)
    kind = draw.random()
    if kind < 0.4:
        # (one for another site may be of an event that there isn't)
        return ask(to, number, draw.randrange(len(case.atoms) if to == site.number else 1 << 16), count)
    if kind < 0.8 and site.alphabet:
        return told(to, min(count, 199_999), draw.choice(sorted(site.alphabet)))
    return question(to, number, draw.choice([MARKS, CAN, WAITS]), count)


def check_drawn_talks_are_those_of_a_second_implementation():
    draw = random.Random(7412)
    for name in examples():
        case = case_of(name)
        for number, (named, _) in enumerate(case.sites):
            site, frames, wanted = twin(case, number), [], b""
            for _ in range(300):
                frames.append(drawn_frame(draw, case, site))
                wanted += replies(site, len(case.atoms), frames[-1:])
            with who_orders() as listener, Running(part(name, named)), greeted(listener, number, digest_of(case)) as link:
                link.sendall(b"".join(frames))
                link.shutdown(socket.SHUT_WR)
                want(rest_of(link) == wanted, "the site %s of %s answers otherwise" % (named, name))


# ---- what ends a connection


# What comes behind the greeting, and how a connection ends.
NO_ASKS = [
    ("an ask about an event that is no atom", ask(NURSE, 0, 4, 0)),
    ("one at another count", ask(NURSE, 0, 4, 9)),
    ("an ask with a decision", AT_OPENING[:13] + b"\1"),
    ("a vote", BLOCKED),
    ("an answer", bytes([5]) + bytes(399)),
    ("an execution of an event that the site doesn't hear of", told(NURSE, 0, 4)),
    ("an execution beyond the last one", told(NURSE, 200_000, S)),
    ("an execution with a count", told(NURSE, 0, S)[:12] + b"\1\0"),
    ("a question of another kind", question(NURSE, 0, 3, 0)),
    ("a kind that there isn't", bytes([0]) + AT_OPENING[1:]),
    ("a challenge", challenge(bytes(8), bytes(32))),
    ("a line", b"exec nurse gm\n"),
    ("garbage", bytes(range(255, 0, -1)) * 100),
]


def check_what_is_no_ask_ends_a_connection_unanswered():
    with who_orders() as listener, Running(part("medication", "nurse")):
        for why, data in NO_ASKS:
            with greeted(listener) as link:
                is_at_opening(link)
                # (an ask behind it isn't answered either)
                link.sendall(told(NURSE, 0, S) + data + ask(NURSE, 1, GM, 1))
                want(rest_of(link) == b"", "it answers to %s" % why)
        with greeted(listener) as link:
            is_at_opening(link)


def check_what_is_no_challenge_ends_a_connection_unanswered():
    asked = challenge(bytes(8), bytes(32))
    with who_orders() as listener, Running(part("medication", "nurse")):
        for data in (b"dcrS" + asked[4:], b"DCRO" + asked[4:], b"\0" + asked, b"HTTP/1.1 400 Bad Request\r\n" + bytes(100), asked[::-1]):
            with come(listener) as link:
                link.sendall(data)
                want(rest_of(link) == b"", "it answers to %s" % data)
        for count in (0, 1, 4, 43):
            with come(listener) as link:
                link.sendall(asked[:count])
                link.shutdown(socket.SHUT_WR)
                want(rest_of(link) == b"", "it answers to %d bytes" % count)
        with greeted(listener) as link:
            is_at_opening(link)


def check_half_a_message_is_passed_over_with_its_connection():
    frames = [(AT_OPENING, 14), (told(NURSE, 0, S), 14), (question(NURSE, 0, MARKS, 0), 12)]
    with who_orders() as listener, Running(part("medication", "nurse")):
        for frame, length in frames:
            for count in (1, 7, length - 1):
                with greeted(listener) as link:
                    is_at_opening(link)
                    link.sendall(frame[:count])
                    link.shutdown(socket.SHUT_WR)
                    want(rest_of(link) == b"", "it answers to %d bytes of %s" % (count, frame.hex(" ")))
        with greeted(listener) as link:
            is_at_opening(link)


# ---- a connection that ends, and is tried again


def check_a_site_begins_anew_behind_each_connection():
    with who_orders() as listener, Running(part("medication", "nurse")) as site:
        for how in ("at its end", "without a word", "by a reset", "in the middle of an answer"):
            with greeted(listener) as link:
                is_at_opening(link)
                link.sendall(told(NURSE, 0, S) + ask(NURSE, 8, GM, 1))
                want(heard(link, 14)[13] == 0, "%s: gm isn't enabled behind s" % how)
                if how == "at its end":
                    link.shutdown(socket.SHUT_WR)
                    want(rest_of(link) == b"", "it says more than it was asked")
                elif how == "by a reset":
                    link.setsockopt(socket.SOL_SOCKET, socket.SO_LINGER, b"\1\0\0\0\0\0\0\0")
                elif how == "in the middle of an answer":
                    link.sendall(question(NURSE, 9, MARKS, 1))
                    heard(link, 100)
        with greeted(listener) as link:
            is_at_opening(link)
            lines = site.said()
            # (that nobody listens may be said between them, where the port isn't had yet)
            begun = [it for it in lines if it.endswith(" begins")]
            want(begun == ["dcr: link %d to 127.0.0.1:7412 begins" % k for k in range(5)], "it says %s" % lines)
            want(sum("has ended" in it for it in lines) == 4, "it says %s" % lines)


def check_who_orders_may_come_later_and_come_back():
    nobody, given = "dcr: no connection to 127.0.0.1:7412 can be made; it is tried again and again", part("medication", "nurse")
    with the_port(), Running(given) as site:
        for count in range(3):
            for _ in range(1000):
                if site.said().count(nobody) == count + 1:
                    break
                time.sleep(0.02)
            # (it is said once and not at each try)
            time.sleep(0.3)
            want(site.said().count(nobody) == count + 1, "it says %s" % site.said())
            with socket.create_server(ADDRESS) as listener:
                listener.settimeout(60)
                with greeted(listener) as link:
                    is_at_opening(link)


def check_a_site_waits_longer_each_time():
    with who_orders() as listener, Running(part("medication", "nurse")):
        with greeted(listener) as link:
            is_at_opening(link)
        # Nothing is answered over these, as where the key is wrong: no pause, 10 milliseconds, 20, 40, 80 and 160.
        begun = time.monotonic()
        for _ in range(6):
            greeted(listener).close()
        greeted(listener).close()
        took = time.monotonic() - begun
        want(took >= 0.3, "it has connected seven times in %.3f seconds" % took)


def check_a_signal_ends_a_site():
    for number in (signal.SIGTERM, signal.SIGINT):
        with who_orders() as listener, Running(part("medication", "nurse")) as site, greeted(listener) as link:
            is_at_opening(link)
            site.ends(number)
            want(rest_of(link) == b"", "it says more than it was asked")


def check_nothing_is_said_where_standard_error_is_closed():
    with who_orders() as listener, tempfile.TemporaryFile() as file:
        file.write(part("medication", "nurse"))
        file.seek(0)
        with subprocess.Popen(["sh", "-c", 'exec "$@" 2>&-', "sh", PROGRAM, "site"], stdin=file, stdout=subprocess.PIPE) as process:
            try:
                with greeted(listener) as link:
                    is_at_opening(link)
                    link.shutdown(socket.SHUT_WR)
                    want(rest_of(link) == b"", "it answers more than it was asked")
            finally:
                process.kill()
            want(process.communicate(timeout=60)[0] == b"", "it writes")


# ---- calls by processes


ORDER = [sys.executable, os.path.join(TOP, "tools/apart_order.py")]


@contextlib.contextmanager
def an_order(case, keys=None):
    """Who orders the calls of a case, who keeps to himself who has come."""
    with the_port(), contextlib.redirect_stderr(io.StringIO()), contextlib.closing(Order(case, keys)) as order:
        yield order


def check_the_calls_of_a_case_by_sites_of_their_own_are_those_of_nodes():
    for name in examples():
        given, case = read("examples/%s.json" % name), case_of(name)
        keys = [bytes([number]) * 32 for number, _ in enumerate(case.sites)]
        with an_order(case, keys) as order, contextlib.ExitStack() as sites:
            for (site, _), key in zip(case.sites, keys):
                sites.enter_context(Running(part(name, site), key.hex().encode() + b"\n"))
            order.executes_all()
            want(order.report().encode() == dcr("nodes", "0", given=given)[1], "%s: the report is another one" % name)


def check_the_stand_in_as_a_command():
    command, given = [sys.executable, os.path.join(TOP, "tools/apart_order.py")], read("examples/medication.json")
    with tempfile.NamedTemporaryFile() as keys:
        for number, (site, _) in enumerate(MEDICATION.sites):
            keys.write(b"%s %s\n" % (site.encode(), (bytes([number]) * 32).hex().encode()))
        keys.flush()
        for words in ([], ["--keys", keys.name]):
            with the_port(), contextlib.ExitStack() as sites:
                for number, (site, _) in enumerate(MEDICATION.sites):
                    sites.enter_context(Running(part("medication", site), words and (bytes([number]) * 32).hex().encode() + b"\n" or None))
                status, report, said = run([*command, *words], given, seconds=60)
            want(sorted(said.splitlines()) == [b"the site doctor has come", b"the site nurse has come"], "it says %s" % said.decode())
            want((status, report) == (DONE, dcr("nodes", "0", given=given)[1]), "status %d, or another report" % status)
        want(run([*command, "--keys", keys.name], read("examples/first.json").replace(b"nurse", b"other"))[0] == 2, "it takes other sites' keys")
        with the_port(), socket.create_server(ADDRESS):
            status, wrote, said = run(command, given)
            want((status, wrote) == (2, b"") and said == b"the port 7412 of 127.0.0.1: Address already in use\n", "where the port isn't had: %d %s%s" % (status, wrote, said))
    want(run(command, b"{}") == dcr("run", given=b"{}"), "it takes what is no case")


def check_a_site_that_is_killed_goes_on_from_what_it_is_told():
    nurse, doctor = part("medication", "nurse"), part("medication", "doctor")
    wanted = dcr("nodes", "0", given=read("examples/medication.json"))[1].decode()
    with an_order(MEDICATION) as order, Running(doctor):
        calls = [it.split(" ")[1:] for it in MEDICATION.sessions[0] if it.startswith("exec ")]
        sites = {"doctor": DOCTOR, "nurse": NURSE}
        for site, event in calls:
            with Running(nurse) if site == "nurse" else contextlib.nullcontext():
                order.executes(0, sites[site], MEDICATION.number[event])
        with Running(nurse):
            want(order.report() == wanted, "the report is another one")


def check_whoever_is_no_site_of_the_case_is_not_let_in():
    key = KEY.hex().encode() + b"\n"
    other = json.loads(read("examples/medication.json"))
    other["graph"]["events"][0]["executed"] = True
    foreign = dcr("part", "nurse", given=json.dumps(other).encode())[1]
    with an_order(MEDICATION, [bytes(32), KEY]) as order:
        for why, given, text in [("another case's", foreign, key), ("no key", part("medication", "nurse"), None), ("the key of another", part("medication", "doctor"), key)]:
            with Running(given, text):
                want([order.let_in(60) for _ in range(2)] == [None, None], "it is let in: %s" % why)
        with Running(part("medication", "nurse"), key):
            want(order.let_in(60) == NURSE, "the nurse isn't let in")
            # (who is silent isn't either)
            with socket.create_connection(ADDRESS):
                begun = time.monotonic()
                want(order.let_in(60) is None and time.monotonic() - begun > MOST_SECONDS / 2, "a silent one is let in")
            want(struct.unpack(">H", order.asks(NURSE, question(NURSE, 0, MARKS, 0), ANSWER_BYTES)[1:3]) == (NURSE,), "the nurse has gone")


# ---- words, the input and the output


def check_what_is_no_part_is_refused():
    good = part("medication", "nurse")
    texts = [b"", b"\n", b"{}\n", good[:-1], good + b"\n", good + good, b" " + good, good.replace(b",", b", ", 1), good.replace(b"part 1", b"part 2"), good.replace(b'"site"', b'"Site"')]
    texts += [read("examples/medication.json"), read("examples/medication.report"), good.replace(b'"number":1', b'"number":64'), good.replace(b"[1,2,3]", b"[1,3,2]"), bytes(range(256))]
    for text in texts:
        ended = dcr("site", given=text, seconds=60)
        want(ended == (REFUSED, b"refused 19 not-part\n", b""), "%s: %s" % (text[:80], ended))
    ended = dcr("site", given=b" " * 33_554_433, seconds=60)
    want(ended == (REFUSED, b"refused 1 too-long\n", b""), "%s" % (ended,))
    ended = dcr("site", given=b" " * 33_554_432, seconds=60)
    want(ended == (REFUSED, b"refused 19 not-part\n", b""), "%s" % (ended,))


def check_a_part_is_refused_before_its_key():
    with tempfile.TemporaryDirectory() as folder:
        with open(os.path.join(folder, "dcr.key"), "wb") as file:
            file.write(b"no key\n")
        want(dcr("site", given=b"{}\n", cwd=folder, seconds=60) == (REFUSED, b"refused 19 not-part\n", b""), "the key is refused first")
        want(dcr("site", "x", given=b"{}\n", cwd=folder, seconds=60) == (USAGE, b"usage\n", b""), "the key is refused before the words")


def check_explain_knows_the_lines_of_a_site():
    path = os.path.join(TOP, "examples/medication.json")
    for words, told in [("19 not-part", "no part"), ("20 keys 1", "dcr.key")]:
        status, wrote, said = run([sys.executable, os.path.join(TOP, "tools/explain.py"), path, "refused", *words.split()])
        want(status == 1 and told in wrote.decode() and b"rule:" in wrote and b"mend:" in wrote and not said, "%s: %d %s%s" % (words, status, wrote, said))


def check_other_words_are_usage_and_nothing_is_read():
    with the_port(), socket.create_server(ADDRESS) as listener, tempfile.TemporaryFile() as file:
        file.write(part("medication", "nurse"))
        for words in [["site", "nurse"], ["site", ""], ["site", "site"], ["site", "--keys", "dcr.key"], ["site", "--store"], ["Site"], ["site "], ["sit"], ["run", "site"], [b"site\xff"], ["site", b"\xff"], ["order"]]:
            file.seek(0)
            ended = dcr(*words, stdin=file, seconds=60)
            want(ended == (USAGE, b"usage\n", b""), "%s: %s" % (words, ended))
            want(os.lseek(file.fileno(), 0, os.SEEK_CUR) == 0, "%s: the input was read" % words)
        want(nobody_comes(listener), "it has connected")


def check_an_input_and_an_output_that_fail():
    good = part("medication", "nurse")
    rows = [('exec "$@" <&-', b"", READ_FAULT), ('exec "$@" </', b"", READ_FAULT), ('exec "$@" >/dev/full', b"{}\n", WRITE_FAULT), ('exec "$@" >&-', b"{}\n", WRITE_FAULT)]
    for text, given, status in rows:
        ended = in_shell(text, "site", given=given, seconds=60)
        want(ended[:2] == (status, b"") and ended[2].startswith(b"dcr: the "), "%s: %s" % (text, ended))
    ended = in_shell('exec "$@" >/dev/full', "site", "nurse", given=good, seconds=60)
    want(ended[:2] == (WRITE_FAULT, b""), "%s" % (ended,))


def check_want_of_memory_is_told_by_its_status():
    # (a text of so many bytes has to be held)
    ended = in_shell('ulimit -v 24000; exec "$@"', "site", given=b" " * 33_554_432, seconds=60)
    want(ended == (NO_MEMORY, b"", b"dcr: memory could not be had; nothing was written\n"), "%s" % (ended,))
