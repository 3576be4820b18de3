"""`dcr serve` as a process: connections to its port, and who asks over them."""

import contextlib
import fcntl
import json
import os
import re
import shutil
import signal
import socket
import subprocess
import sys
import tempfile
import time

from checks import TOP, NotTried, read, want
from checks.program import DISK_FAULT, DONE, DOOR_FAULT, PROGRAM, USAGE, dcr, prepare  # noqa: F401

ADDRESS = ("127.0.0.1", 7411)
CLIENT = os.path.join(TOP, "examples/client.py")
# What a serving says on standard error, line by line.
SAID = re.compile(
    r"dcr: (listening on 127\.0\.0\.1:7411 for \d+ sessions(; a silent client holds a worker, so give as many workers as sessions, up to 64)?|127\.0\.0\.1:7411 can't be listened on: .+|no connection could be taken"
    r"|session \d+ begins|session \d+ has ended: (the client has ended it|it was ended here, as its last reply says"
    r"|the connection failed as (it was read|a reply was written))|the .+; the report is whole|the file dcr\.tape could not be .+)"
)


@contextlib.contextmanager
def the_port():
    """The one port, which one check has at a time."""
    with open(os.path.join(tempfile.gettempdir(), "dcr-port-%d.lock" % ADDRESS[1]), "w") as file:
        fcntl.flock(file, fcntl.LOCK_EX)
        yield


class Serving:
    """The program that serves a case, until it ends by itself or the check does."""

    def __init__(self, sessions, workers, *words, case="examples/medication.json", folder=TOP):
        command = [PROGRAM, "serve", "--sessions", str(sessions), "--workers", str(workers), *words]
        with open(os.path.join(TOP, case), "rb") as file:
            self.process = subprocess.Popen(command, stdin=file, stdout=subprocess.PIPE, stderr=subprocess.PIPE, cwd=folder)

    def __enter__(self):
        return self

    def __exit__(self, *_):
        self.process.kill()
        self.process.wait()

    def ended(self):
        """The status, and what was written. What it said on standard error is kept, and is of the known form."""
        wrote, said = self.process.communicate(timeout=60)
        self.said = said.decode()
        wrong = [it for it in self.said.splitlines() if not SAID.fullmatch(it)]
        want(not wrong, "it says %s" % wrong)
        begun, over = re.findall(r"session (\d+) begins", self.said), re.findall(r"session (\d+) has ended", self.said)
        # (a signal cuts sessions off without a word)
        is_whole = {*over} <= {*begun} if self.process.returncode < 0 else sorted(over) == sorted(begun)
        want(begun == [str(it) for it in range(len(begun))] and is_whole, "it says %s" % self.said)
        return self.process.returncode, wrote


class Session:
    """A connection, once somebody listens."""

    def __init__(self):
        for _ in range(400):
            try:
                self.link = socket.create_connection(ADDRESS, timeout=60)
                break
            except ConnectionRefusedError:
                time.sleep(0.05)
        self.replies = self.link.makefile("rb")

    def asks(self, line):
        """The reply to a line."""
        self.link.sendall(line + b"\n")
        return self.replies.readline()

    def ends(self):
        """What else is answered, once nothing more is asked."""
        self.link.shutdown(socket.SHUT_WR)
        rest = self.replies.read()
        self.link.close()
        return rest


def lines_of(report):
    """The lines of a report behind the opening marking."""
    return report.split(b"\n", 4)[4]


def check_a_session_over_a_connection():
    with the_port(), Serving(1, 1) as serving:
        session = Session()
        told = [session.asks(line) for line in (b"look doctor", b"exec doctor pm\r", b"foo", b"", b"accepting")]
        wanted = [b"0 0 0 look doctor executed - pending - included pm,s\n", b"1 0 1 exec doctor pm done\n", b"bad-line\n", b"bad-line\n", b"2 0 2 accepting waits s\n"]
        want(told == wanted, "the replies are %s" % told)
        want(session.ends() == b"", "more is answered than was asked")
        status, report = serving.ended()
        want(status == DONE and lines_of(report).startswith(wanted[0] + wanted[1] + wanted[4]), "status %d and another report" % status)
        want(dcr("replay", given=report) == (DONE, b"valid 3\n", b""), "the report isn't valid")


def check_a_line_comes_in_pieces():
    with the_port(), Serving(1, 1) as serving:
        session = Session()
        for piece in (b"exec doc", b"tor p", b"m\nacc"):
            session.link.sendall(piece)
            time.sleep(0.05)
        want(session.asks(b"epting") == b"0 0 0 exec doctor pm done\n", "the first line is answered otherwise")
        want(session.ends() == b"1 0 1 accepting waits s\n", "the second line is answered otherwise")
        want(serving.ended()[0] == DONE, "it ends otherwise")


def check_sessions_are_served_side_by_side():
    with the_port(), Serving(2, 2) as serving:
        one, other = Session(), Session()
        # Each asks while the other one is connected and silent.
        want(one.asks(b"exec doctor pm").endswith(b" exec doctor pm done\n"), "the first one isn't answered")
        want(other.asks(b"exec doctor s").endswith(b" exec doctor s done\n"), "the second one isn't answered")
        want(one.asks(b"exec nurse gm").endswith(b" exec nurse gm done\n"), "the first one isn't answered again")
        want(one.ends() == other.ends() == b"", "more is answered than was asked")
        status, report = serving.ended()
        want(status == DONE and dcr("replay", given=report) == (DONE, b"valid 3\n", b""), "status %d, or no valid report" % status)


def check_a_session_that_is_cut_off_ends_alone():
    with the_port(), Serving(3, 1) as serving:
        gone = Session()
        want(gone.asks(b"exec doctor pm") == b"0 0 0 exec doctor pm done\n", "it isn't answered")
        # The connection is reset.
        gone.link.setsockopt(socket.SOL_SOCKET, socket.SO_LINGER, b"\1\0\0\0\0\0\0\0")
        gone.replies.close()
        gone.link.close()
        long = Session()
        want(long.asks(b"x" * 300) == b"long-line\n" and long.replies.read() == b"", "a line that is too long is answered otherwise")
        last = Session()
        want(last.asks(b"exec doctor s") == b"1 2 0 exec doctor s done\n" and last.ends() == b"", "the last one isn't answered")
        status, report = serving.ended()
        want(status == DONE and report.endswith(b"end 2\n"), "status %d and another report" % status)
        said = ["listening on 127.0.0.1:7411 for 3 sessions; a silent client holds a worker, so give as many workers as sessions, up to 64", "session 0 begins", "session 0 has ended: the connection failed as it was read"]
        said += ["session 1 begins", "session 1 has ended: it was ended here, as its last reply says", "session 2 begins", "session 2 has ended: the client has ended it"]
        want(serving.said == "".join("dcr: %s\n" % it for it in said), "it says %s" % serving.said)


def check_replies_arrive_also_where_more_was_sent_than_is_read():
    # (the serving ends the session at a line that is too long; the client has sent much more by then, and reads late)
    count, rest = 2000, b"x" * 1_000_000
    with the_port(), Serving(1, 1) as serving:
        session = Session()
        session.link.sendall(b"accepting\n" * count + b"y" * 300 + b"\n" + rest)
        time.sleep(0.2)
        replies = session.replies.read().splitlines()
        want(len(replies) == count + 1 and replies[-1] == b"long-line", "%d replies arrive, the last one is %s" % (len(replies), replies[-1:]))
        session.link.close()
        want(serving.ended()[0] == DONE, "it ends otherwise")


def check_only_this_machine_is_listened_to():
    with the_port(), Serving(1, 1) as serving:
        session = Session()
        for host in ("127.0.0.2", "127.255.255.254"):
            try:
                socket.create_connection((host, ADDRESS[1]), timeout=10).close()
                want(False, "somebody listens at %s too" % host)
            except ConnectionRefusedError:
                pass
        want(session.ends() == b"" and serving.ended()[0] == DONE, "it ends otherwise")


def check_nothing_is_said_where_standard_error_is_closed():
    with the_port(), open(os.path.join(TOP, "examples/medication.json"), "rb") as file:
        command = 'exec "$@" 2>&-'
        with subprocess.Popen(["sh", "-c", command, "sh", PROGRAM, "serve", "--sessions", "1", "--workers", "1"], stdin=file, stdout=subprocess.PIPE) as ran:
            want(Session().ends() == b"", "more is answered than was asked")
            wrote = ran.communicate(timeout=60)[0]
    want(ran.returncode == DONE and wrote.endswith(b"\nend 0\n"), "status %d and %s" % (ran.returncode, wrote))


def check_a_port_that_another_has_is_a_door_fault():
    with the_port(), socket.create_server(ADDRESS):
        with Serving(1, 1) as serving:
            status, report = serving.ended()
            want(status == DOOR_FAULT and report.endswith(b"\nend 0\n"), "status %d and another report" % status)
            lines = serving.said.splitlines()
            want(lines[0].startswith("dcr: 127.0.0.1:7411 can't be listened on: ") and "in use" in lines[0].lower(), "it says %s" % serving.said)
            want(lines[-1].startswith("dcr: the port 7411 could not be had") and lines[-1].endswith("; the report is whole"), "it says %s" % serving.said)


def check_what_was_answered_is_on_the_tape():
    with the_port(), tempfile.TemporaryDirectory() as folder:
        with Serving(1, 1, "--store", folder=folder) as serving:
            session = Session()
            want(session.asks(b"exec doctor pm") == b"0 0 0 exec doctor pm done\n", "it isn't answered")
            serving.process.kill()
            want(serving.process.wait() < 0, "it ended by itself")
        with Serving(1, 1, "--store", folder=folder) as serving:
            session = Session()
            want(session.asks(b"exec doctor s") == b"0 0 0 exec doctor s done\n" and session.ends() == b"", "it isn't gone on")
            status, report = serving.ended()
            want(status == DONE and b"\nopen executed pm pending s,gm included pm,s,gm,dt\n" in report, "status %d and another report" % status)


def check_a_second_program_is_kept_from_a_tape():
    with the_port(), tempfile.TemporaryDirectory() as folder:
        with Serving(1, 1, "--store", folder=folder) as serving:
            session = Session()
            want(session.asks(b"exec doctor pm") == b"0 0 0 exec doctor pm done\n", "it isn't answered")
            tape = read(os.path.join(folder, "dcr.tape"))
            told = dcr("run", "--store", given=read("examples/medication.json"), cwd=folder)
            want(told[:2] == (DISK_FAULT, b"") and read(os.path.join(folder, "dcr.tape")) == tape, "the second one ends with %s" % (told,))
            want(session.asks(b"exec doctor s") == b"1 0 1 exec doctor s done\n" and session.ends() == b"", "the first one isn't answered again")
            want(serving.ended()[0] == DONE, "the first one ends otherwise")
        told = dcr("run", "--store", given=read("examples/medication.json"), cwd=folder)
        want(told[0] == DONE and dcr("replay", given=told[1])[0] == DONE, "the next one ends with status %d" % told[0])


def check_a_tape_that_is_a_symbolic_link_is_a_disk_fault():
    for is_there in (False, True):
        with tempfile.TemporaryDirectory() as folder:
            if is_there:
                dcr("run", "--store", given=read("examples/medication.json"), cwd=folder)
                os.rename(os.path.join(folder, "dcr.tape"), os.path.join(folder, "elsewhere"))
            os.symlink("elsewhere", os.path.join(folder, "dcr.tape"))
            told = dcr("run", "--store", given=read("examples/medication.json"), cwd=folder)
            want(told[:2] == (DISK_FAULT, b"") and os.path.exists(os.path.join(folder, "elsewhere")) == is_there, "it ends with %s" % (told,))


def check_a_serving_without_a_store_leaves_the_folder_alone():
    with the_port(), tempfile.TemporaryDirectory() as folder:
        with Serving(1, 1, folder=folder) as serving:
            want(Session().ends() == b"" and serving.ended()[0] == DONE, "it ends otherwise")
        want(os.listdir(folder) == [], "it left %s" % os.listdir(folder))


def check_a_disk_that_fails_ends_the_serving():
    with the_port(), tempfile.TemporaryDirectory() as folder:
        os.mkdir(os.path.join(folder, "dcr.tape"))
        with Serving(1, 1, "--store", folder=folder) as serving:
            want(serving.ended() == (DISK_FAULT, b""), "it ends otherwise")


def check_words_that_are_no_serving_are_usage():
    for words in (["serve"], ["serve", "--sessions", "0", "--workers", "1"], ["serve", "--sessions", "1025", "--workers", "1"], ["serve", "--workers", "1", "--sessions", "1"]):
        want(dcr(*words, given=read("examples/first.json")) == (USAGE, b"usage\n", b""), "%s" % words)


def check_the_client():
    with the_port(), Serving(1, 1) as serving:
        asked = subprocess.run([CLIENT], input=b"exec doctor pm\nexec nurse gm\naccepting", stdout=subprocess.PIPE, timeout=60)
        wanted = b"0 0 0 exec doctor pm done\n1 0 1 exec nurse gm condition s\n2 0 2 accepting waits s\n"
        want((asked.returncode, asked.stdout) == (0, wanted), "it prints %s" % asked.stdout)
        want(serving.ended()[0] == DONE, "it ends otherwise")


# ---- a serving that is ended early, and what may stand before it


def end_serving(*words):
    ran = subprocess.run([sys.executable, os.path.join(TOP, "tools/end_serving.py"), *words], stdout=subprocess.PIPE, stderr=subprocess.PIPE, timeout=120)
    return ran.returncode, ran.stdout.decode() + ran.stderr.decode()


def check_a_serving_is_ended_early_with_its_report():
    for sessions, workers in [(40, 3), (2, 64)]:
        with the_port(), Serving(sessions, workers) as serving:
            first = Session()
            want(first.asks(b"exec doctor pm") == b"0 0 0 exec doctor pm done\n" and first.ends() == b"", "it isn't answered")
            status, said = end_serving("--wait", "60")
            want((status, said) == (0, "%d sessions were opened and closed; nobody listens at 127.0.0.1:7411\n" % (sessions - 1)), "%d %s" % (status, said))
            status, report = serving.ended()
            want(status == DONE and report.endswith(b"end 1\n") and dcr("replay", given=report) == (DONE, b"valid 1\n", b""), "status %d and another report" % status)


def check_nobody_who_is_connected_is_cut_off():
    with the_port(), Serving(5, 2) as serving:
        one, other = Session(), Session()
        want(one.asks(b"exec doctor pm").endswith(b" done\n") and other.asks(b"accepting").endswith(b" waits s\n"), "they aren't answered")
        status, said = end_serving("--wait", "1")
        want(status == 1 and said.startswith("0 sessions") and "hold all workers" in said, "%d %s" % (status, said))
        want(one.asks(b"exec doctor s").endswith(b" done\n") and one.ends() == b"", "it is cut off")
        status, said = end_serving("--wait", "2")
        want(status == 1 and "They have to end first" in said, "%d %s" % (status, said))
        want(other.asks(b"accepting").endswith(b" waits gm\n") and other.ends() == b"", "the other one is cut off")
        status, report = serving.ended()
        want(status == DONE and report.endswith(b"end 4\n"), "status %d and another report" % status)


def check_what_listens_there_and_is_no_dcr_is_left_alone():
    with the_port():
        want(end_serving() == (0, "0 sessions were opened and closed; nobody listens at 127.0.0.1:7411\n"), "where nobody listens")
        with socket.create_server(ADDRESS) as other:
            other.settimeout(60)
            ran = subprocess.Popen([sys.executable, os.path.join(TOP, "tools/end_serving.py")], stdout=subprocess.PIPE, stderr=subprocess.PIPE)
            link, _ = other.accept()
            link.sendall(b"HTTP/1.1 400 Bad Request\r\n")
            wrote, said = ran.communicate(timeout=60)
            want(ran.returncode == 2 and not wrote and b"no dcr" in said, "%d %s%s" % (ran.returncode, wrote, said))
            link.close()


def check_a_signal_ends_a_serving_and_its_tape_has_what_was_answered():
    for number in (signal.SIGTERM, signal.SIGINT):
        with the_port(), tempfile.TemporaryDirectory() as folder:
            with Serving(3, 2, "--store", folder=folder) as serving:
                session = Session()
                want(session.asks(b"exec doctor pm") == b"0 0 0 exec doctor pm done\n", "it isn't answered")
                serving.process.send_signal(number)
                want(serving.ended() == (-number, b""), "it ends otherwise")
                session.replies.close()
                session.link.close()
            report = dcr("run", "--store", given=without_sessions(), cwd=folder)[1]
            want(b"\nopen executed pm pending s,gm included pm,s,gm,dt\n" in report, "the tape has %s" % report)


def without_sessions():
    case = json.loads(read("examples/medication.json"))
    del case["sessions"]
    return json.dumps(case).encode()


def certificate(folder, name, subject):
    """A certificate of its own, with its key: name.crt, and name.pem with both."""
    path = os.path.join(folder, name)
    made = ["openssl", "req", "-x509", "-newkey", "rsa:2048", "-nodes", "-days", "2", "-subj", "/CN=" + subject, "-addext", "subjectAltName=DNS:" + subject]
    subprocess.run([*made, "-keyout", path + ".key", "-out", path + ".crt"], check=True, stderr=subprocess.DEVNULL, timeout=120)
    with open(path + ".pem", "wb") as file:
        for ending in (".key", ".crt"):
            with open(path + ending, "rb") as part:
                file.write(part.read())


def needs(*programs):
    """Their paths, where all of them are installed."""
    found = [shutil.which(it, path=os.environ.get("PATH", os.defpath) + ":/usr/sbin") for it in programs]
    if None in found:
        raise NotTried("%s is not on the path" % programs[found.index(None)])
    return found


def typed(start):
    """The lines of the guide that begin so."""
    return re.findall(r"^%s.*$" % re.escape(start), read("docs/GUIDE.md").decode(), re.M)


@contextlib.contextmanager
def front(command, port, cwd=None):
    """What stands before the program, from when it listens on."""
    process = subprocess.Popen(command, cwd=cwd, stderr=subprocess.DEVNULL)
    try:
        for _ in range(400):
            if listens(port):
                break
            time.sleep(0.05)
        yield
    finally:
        process.kill()
        process.wait()


def listens(port):
    """Whether somebody listens there. (A connection to a front would be a session.)"""
    with open("/proc/net/tcp", encoding="ascii") as file:
        return any(it.split()[1].endswith(":%04X" % port) and it.split()[3] == "0A" for it in file.readlines()[1:])


def asked(port, *lines):
    """What one connection to the port is answered to these lines, till it is ended."""
    with socket.create_connection(("127.0.0.1", port), timeout=60) as link:
        got = b""
        # (a front may have ended it by now)
        with contextlib.suppress(OSError):
            link.sendall(b"".join(it + b"\n" for it in lines))
            link.shutdown(socket.SHUT_WR)
            while more := link.recv(4096):
                got += more
        return got


def check_a_front_for_a_trusted_network_keeps_others_out():
    needs("socat")
    line = typed("socat -T 300 TCP-LISTEN")[0].replace("bind=10.0.0.5", "bind=127.0.0.1")
    with the_port(), Serving(1, 1) as serving:
        with front(line.split(), 7412):
            want(asked(7412, b"exec doctor pm") == b"", "one from another network is answered")
        with front(line.replace("range=10.0.0.0/24", "range=127.0.0.0/24").split(), 7412):
            want(asked(7412, b"exec doctor pm", b"accepting") == b"0 0 0 exec doctor pm done\n1 0 1 accepting waits s\n", "one of the network is answered otherwise")
        status, report = serving.ended()
        want(status == DONE and report.endswith(b"end 2\n"), "status %d and another report" % status)


def check_whoever_can_log_in_asks_through_ssh():
    sshd, _, keygen = needs("sshd", "ssh", "ssh-keygen")
    (line,) = typed("ssh -N -L")
    with the_port(), tempfile.TemporaryDirectory() as folder:
        for name in ("host", "own"):
            subprocess.run([keygen, "-q", "-t", "ed25519", "-N", "", "-f", os.path.join(folder, name)], check=True, timeout=60)
        files = {
            "sshd.conf": "Port 7414\nListenAddress 127.0.0.1\nHostKey {0}/host\nAuthorizedKeysFile {0}/own.pub\nStrictModes no\nUsePAM no\nPidFile none\n",
            "ssh.conf": "Host the.machine\n  HostName 127.0.0.1\n  Port 7414\n  IdentityFile {0}/own\n  IdentitiesOnly yes\n  BatchMode yes\n  StrictHostKeyChecking no\n  UserKnownHostsFile {0}/known\n",
        }
        for name, text in files.items():
            with open(os.path.join(folder, name), "w", encoding="ascii") as file:
                file.write(text.format(folder))
        if os.geteuid() == 0:
            os.makedirs("/run/sshd", mode=0o755, exist_ok=True)
        # (both ends are this machine, so that the near end has another port)
        line = line.replace("-L 7411:", "-L 7413:").replace("ssh ", "ssh -F %s/ssh.conf " % folder)
        with Serving(1, 1) as serving, front([sshd, "-D", "-f", os.path.join(folder, "sshd.conf")], 7414), front(line.split(), 7413):
            want(asked(7413, b"exec doctor pm", b"exec nurse gm") == b"0 0 0 exec doctor pm done\n1 0 1 exec nurse gm condition s\n", "another answer")
            status, report = serving.ended()
            want(status == DONE and report.endswith(b"end 2\n"), "status %d and another report" % status)


def check_a_front_with_certificates_keeps_strangers_out():
    needs("socat", "openssl")
    stand, client = typed("socat -T 300 OPENSSL") + typed("socat -t 10 - OPENSSL")
    with the_port(), tempfile.TemporaryDirectory() as folder:
        for name, subject in [("server", "the.machine"), ("client", "nurse"), ("stranger", "stranger")]:
            certificate(folder, name, subject)
        os.rename(os.path.join(folder, "client.crt"), os.path.join(folder, "clients.crt"))
        with Serving(1, 1) as serving:
            with front(stand.split(), 7412, folder):
                # (a scan, which is answered in TLS at most; a client without a certificate, and one with another)
                want(b"done" not in asked(7412, b"exec doctor pm"), "a scan is answered")
                own = client.replace("the.machine:7412", "127.0.0.1:7412,commonname=the.machine")
                for other in (own.replace("cert=client.pem,", ""), own.replace("client.pem", "stranger.pem")):
                    ran = subprocess.run(other.split(), input=b"exec doctor pm\n", cwd=folder, stdout=subprocess.PIPE, stderr=subprocess.DEVNULL, timeout=120)
                    want(b"done" not in ran.stdout, "a stranger is answered: %s" % ran.stdout)
                ran = subprocess.run(own.split(), input=b"exec doctor pm\nexec nurse gm\n", cwd=folder, stdout=subprocess.PIPE, stderr=subprocess.PIPE, timeout=120)
                want(ran.stdout == b"0 0 0 exec doctor pm done\n1 0 1 exec nurse gm condition s\n", "the client is answered %s%s" % (ran.stdout, ran.stderr))
                status, report = serving.ended()
                want(status == DONE and report.endswith(b"end 2\n"), "status %d and another report" % status)
