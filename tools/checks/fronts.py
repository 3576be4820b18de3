"""Users over connections to `dcr serve`: calls that are denied, and the front that hands each user his own session."""

import contextlib
import os
import re
import socket
import ssl
import subprocess
import sys
import tempfile
import time

from checks import TOP, want
from checks.program import DONE, dcr, prepare  # noqa: F401
from checks.serving import Serving, Session, asked, certificate, listens, needs, the_port, typed

FRONT = ("127.0.0.1", 7412)


def check_a_call_that_is_denied_is_answered_so_and_makes_no_entry():
    with the_port(), Serving(2, 2, case="examples/shift.json") as serving:
        ann = Session()
        want(ann.asks(b"exec office pm") == b"0 0 0 exec office pm done\n", "the doctor isn't answered")
        bea = Session()
        told = [bea.asks(line) for line in (b"exec office s", b"exec bedside pm\r", b"exec office gm", b"exec  office s", b"exec bedside gm", b"look office")]
        wanted = [b"denied doctor\n", b"denied doctor\n", b"1 1 0 exec office gm not-here\n", b"bad-line\n", b"2 1 1 exec bedside gm condition s\n", b"3 1 2 look office executed pm pending s included pm,s\n"]
        want(told == wanted, "the nurse is answered %s" % told)
        want(ann.asks(b"exec office gm") == b"denied nurse\n" and ann.asks(b"exec bedside dt").endswith(b" condition s\n"), "the doctor is answered otherwise")
        want(ann.ends() == bea.ends() == b"", "more is answered than was asked")
        status, report = serving.ended()
        want(status == DONE and b"denied" not in report and dcr("replay", given=report) == (DONE, b"valid 5\n", b""), "status %d and another report" % status)


def made_certificates(folder):
    """The certificates that the guide has made, and two that are shown by others: one of the same name, and one that the
    nurse has signed with her own key."""
    for line in typed("openssl req -x509"):
        subprocess.run(line.split(), cwd=folder, check=True, stderr=subprocess.DEVNULL, timeout=120)
    for line in typed("cat "):
        subprocess.run(["sh", "-c", line], cwd=folder, check=True, timeout=60)
    certificate(folder, "stranger", "ann")
    asked = ["openssl", "req", "-newkey", "rsa:2048", "-nodes", "-subj", "/CN=ann", "-keyout", "forged.key", "-out", "forged.csr"]
    signed = ["openssl", "x509", "-req", "-in", "forged.csr", "-CA", "bea.crt", "-CAkey", "bea.key", "-CAcreateserial", "-days", "2", "-out", "forged.crt"]
    for line in (asked, signed):
        subprocess.run(line, cwd=folder, check=True, stdout=subprocess.DEVNULL, stderr=subprocess.DEVNULL, timeout=120)


@contextlib.contextmanager
def fronted(folder):
    """The front of the guide, once it lets users in; it is ended behind that, and its log is kept in the folder."""
    (line,) = typed("examples/front.py")
    words = [sys.executable, *[os.path.join(TOP, it) if it.startswith("examples/") else it for it in line.split()]]
    with open(os.path.join(folder, "front.log"), "w") as log, subprocess.Popen(words, cwd=folder, stdout=log, stderr=log) as process:
        try:
            for _ in range(400):
                if listens(FRONT[1]) or process.poll() is not None:
                    break
                time.sleep(0.05)
            yield process
        finally:
            process.terminate()


def log_of(folder):
    """What the front has printed, without the times."""
    with open(os.path.join(folder, "front.log"), encoding="utf-8") as file:
        return [re.sub(r"^\d{4}-\d\d-\d\dT[\d:]{8} ", "", line) for line in file.read().splitlines()]


class Guest:
    """A client of the front, who shows the certificate of this name, or none."""

    def __init__(self, folder, name):
        context = ssl.create_default_context(cafile=os.path.join(folder, "server.crt"))
        if name:
            context.load_cert_chain(*[os.path.join(folder, name + ending) for ending in (".crt", ".key")])
        self.link = context.wrap_socket(socket.create_connection(FRONT, timeout=60), server_hostname="the.machine")
        self.replies = self.link.makefile("rb")

    def asks(self, line):
        """The reply to a line; nothing where there is none."""
        with contextlib.suppress(OSError):
            self.link.sendall(line + b"\n")
            return self.replies.readline()
        return b""

    def goes(self):
        """Ends the connection, and waits till the front has seen it."""
        with contextlib.suppress(OSError):
            self.link.unwrap()
        self.replies.close()
        self.link.close()


def turned_away(folder, name):
    """Whether a client who shows this certificate, or none, is answered nothing."""
    try:
        guest = Guest(folder, name)
    except OSError:
        return True
    told = guest.asks(b"accepting")
    guest.goes()
    return told == b""


def comes(folder, name):
    """A client who comes again, once the front has seen that he had gone."""
    for _ in range(100):
        guest = Guest(folder, name)
        told = guest.asks(b"")
        if told == b"bad-line\n":
            return guest
        guest.goes()
        time.sleep(0.05)
    raise AssertionError("%s isn't let in again: %s" % (name, told))


def check_users_who_connect_in_the_wrong_order_get_their_own_sessions():
    needs("openssl")
    with the_port(), tempfile.TemporaryDirectory() as folder:
        made_certificates(folder)
        with Serving(2, 2, case="examples/shift.json") as serving:
            with fronted(folder):
                # the nurse, who is session 1's, comes before the doctor
                bea = Guest(folder, "bea")
                want(bea.asks(b"exec office pm") == b"denied doctor\n", "the nurse prescribes")
                want(bea.asks(b"exec bedside gm") == b"2 1 1 exec bedside gm condition s\n", "the nurse isn't session 1's")
                # (while the doctor's session is free)
                let_in = [it for it in ("stranger", "forged", "server", None) if not turned_away(folder, it)]
                want(not let_in and turned_away(folder, "bea"), "let in is %s, or a second nurse" % let_in)
                ann = Guest(folder, "ann")
                want(ann.asks(b"exec office pm") == b"3 0 1 exec office pm done\n", "the doctor isn't session 0's")
                want(ann.asks(b"exec bedside gm\r") == b"denied nurse\n" and ann.asks(b"exec office s") == b"4 0 2 exec office s done\n", "the doctor gives, or doesn't sign")
                want(b"exec" not in asked(FRONT[1], b"exec office pm"), "a scan is answered")
                # (what is cut off is forgotten, and the session stays)
                bea.link.sendall(b"exec bedside")
                bea.goes()
                bea = comes(folder, "bea")
                want(bea.asks(b" gm") == b"bad-line\n" and bea.asks(b"exec bedside gm") == b"5 1 2 exec bedside gm done\n", "the nurse doesn't go on in her session")
                want(bea.asks(b"x" * 300) == b"long-line\n" and bea.asks(b"accepting") == b"", "a line that is too long is answered otherwise")
                bea.goes()
                bea = comes(folder, "bea")
                want(bea.asks(b"accepting") == b"6 1 3 accepting yes\n", "a line that is too long has ended the session")
            status, report = serving.ended()
        want(status == DONE and dcr("replay", given=report) == (DONE, b"valid 7\n", b""), "status %d and another report" % status)
        log = log_of(folder)
        want([it for it in log if "denied" in it] == ["bea: exec office pm: denied doctor", "ann: exec bedside gm: denied nurse"], "the log is %s" % log)
        want(log[0] == "ann, bea may come to port 7412" and "bea is here already" in log and log.count("bea has come") >= 3, "the log is %s" % log)


def check_the_front_as_the_guide_asks_over_it():
    needs("openssl")
    (line,) = typed("openssl s_client")
    with the_port(), tempfile.TemporaryDirectory() as folder:
        made_certificates(folder)
        with Serving(2, 2, case="examples/shift.json") as serving:
            with fronted(folder):
                for name, told in (("bea", b"denied doctor\n"), ("ann", b"2 0 1 exec office pm done\n")):
                    words = line.replace("-connect the.machine", "-connect 127.0.0.1").replace("ann.", name + ".").split()
                    with subprocess.Popen(words, cwd=folder, stdin=subprocess.PIPE, stdout=subprocess.PIPE, stderr=subprocess.DEVNULL) as client:
                        client.stdin.write(b"exec office pm\n")
                        client.stdin.flush()
                        reply = client.stdout.readline()
                        client.kill()
                    want(reply == told, "%s is answered %s" % (name, reply))
            status, report = serving.ended()
            want(status == DONE and report.endswith(b"\nend 3\n"), "status %d and another report" % status)


def check_a_front_lets_nobody_in_where_a_session_is_not_its_own():
    needs("openssl")
    with the_port(), tempfile.TemporaryDirectory() as folder:
        made_certificates(folder)
        with Serving(2, 2, case="examples/shift.json") as serving:
            # somebody has connected before it
            other = Session()
            want(other.asks(b"") == b"bad-line\n", "it isn't answered")
            with fronted(folder) as front_before:
                want(front_before.wait(timeout=60) == 1 and not listens(FRONT[1]), "it lets users in")
            want(log_of(folder)[0].startswith("this is not session 0: has somebody else connected"), "it says %s" % log_of(folder))
            want(other.ends() == b"" and serving.ended()[0] == DONE, "the serving ends otherwise")
