#!/usr/bin/env python3
"""A front for `dcr serve`: whoever shows a user's certificate asks in that user's session, and nobody else asks at all.

    ./dcr serve --sessions 2 --workers 2 < examples/shift.json > shift.report &
    examples/front.py examples/shift.json server.pem users.crt [PORT]

A session's user goes by the session's number, and that is the order of connecting. So this opens all connections itself,
one for each name in the case's `by` and in that order, and sees by the entry of a first call in each (`accepting`) that
the connection is the session of its number. Only then does it listen, at PORT or 7412, for TLS: `server.pem` has its own
key and certificate, `users.crt` the certificates of the users, whose common names are their names in `by`. A client must
show one of these, and is handed the connection of that name, line by line, while nobody else has it; it stays open for
when he comes again. What was denied is printed, and who came and went. Where this ends the sessions do, and the report is
written. Nothing is proved of it. As many workers are wanted as sessions, and as many sessions as names.
"""

import json
import re
import socket
import ssl
import sys
import threading
import time

PROGRAM, PORT = ("127.0.0.1", 7411), 7412
# The most bytes of a line with its end. How long a client may be silent, and how long he may take to show who he is.
MOST_BYTES, PATIENCE, GREETING = 201, 300, 10
# So many clients are looked at at a time; others wait.
ROOM = threading.BoundedSemaphore(100)


def log(said, *words):
    print(time.strftime("%Y-%m-%dT%H:%M:%S"), said % words, flush=True)


def connected():
    """A connection to the program, once it listens."""
    for _ in range(200):
        try:
            return socket.create_connection(PROGRAM, timeout=GREETING)
        except ConnectionRefusedError:
            time.sleep(0.05)
    sys.exit("%s:%d: nobody listens" % PROGRAM)


class Session:
    """The session of this number and name: the connection to the program, which one client has at a time."""

    def __init__(self, number, name):
        self.name, self.held = name, threading.Lock()
        self.link = connected()
        self.replies = self.link.makefile("rb")
        try:
            entry = self.asked(b"accepting\n").split()
        except OSError as error:
            sys.exit("session %d is not answered: are there as many workers and sessions as users? %s" % (number, error))
        if entry[1:2] != [b"%d" % number]:
            sys.exit("this is not session %d: has somebody else connected, or are there fewer sessions than users?" % number)
        self.link.settimeout(None)

    def asked(self, line):
        """The reply to a line; nothing where the session has ended."""
        self.link.sendall(line)
        return self.replies.readline()


def name_shown(client, users):
    """The name in the certificate that a client has shown, where it is one of the users' own, and not one signed by it."""
    if client.getpeercert(binary_form=True) not in users:
        return None
    return dict(part[0] for part in client.getpeercert()["subject"]).get("commonName")


def talk(client, session):
    """Hands whole lines on, and each reply back, until either side has ended."""
    lines = client.makefile("rb")
    for line in iter(lambda: lines.readline(MOST_BYTES), b""):
        if not line.endswith(b"\n"):
            # (one that is cut off says nothing, and one that is too long would end the session)
            return client.sendall(b"long-line\n" if len(line) == MOST_BYTES else b"")
        reply = session.asked(line)
        if reply.startswith(b"denied "):
            log("%s: %s: %s", session.name, line.decode().strip(), reply.decode().strip())
        if not reply:
            return log("the session of %s has ended", session.name)
        client.sendall(reply)


def let_in(link, context, sessions, users):
    """Finds out who it is, and lets him ask in his session, if he has one that nobody has just now."""
    try:
        link.settimeout(GREETING)
        with context.wrap_socket(link, server_side=True) as client:
            session = sessions.get(name_shown(client, users))
            if session and session.held.acquire(blocking=False):
                try:
                    log("%s has come", session.name)
                    client.settimeout(PATIENCE)
                    talk(client, session)
                finally:
                    session.held.release()
                    log("%s has gone", session.name)
            else:
                log("%s", session.name + " is here already" if session else "a certificate that no user has was shown")
            client.settimeout(GREETING)
            client.unwrap()
    except OSError as error:
        log("a connection has failed: %s", error)
    finally:
        link.close()
        ROOM.release()


def main(case, own, users, port=PORT):
    with open(case, encoding="utf-8") as file:
        by = json.load(file).get("by", [])
    with open(users, encoding="utf-8") as file:
        shown = {ssl.PEM_cert_to_DER_cert(it) for it in re.findall("-----BEGIN CERTIFICATE-.+?-END CERTIFICATE-----", file.read(), re.S)}
    if not by or len({*by}) < len(by):
        sys.exit("%s: `by` names nobody, or somebody twice: each has one connection" % case)
    context = ssl.SSLContext(ssl.PROTOCOL_TLS_SERVER)
    context.minimum_version, context.verify_mode = ssl.TLSVersion.TLSv1_2, ssl.CERT_REQUIRED
    context.load_cert_chain(own)
    context.load_verify_locations(users)
    sessions = {name: Session(number, name) for number, name in enumerate(by)}
    with socket.create_server(("", int(port))) as door:
        log("%s may come to port %s", ", ".join(by), port)
        while ROOM.acquire():
            threading.Thread(target=let_in, args=(door.accept()[0], context, sessions, shown), daemon=True).start()


if __name__ == "__main__":
    if len(sys.argv) not in (4, 5):
        sys.exit(__doc__)
    try:
        main(*sys.argv[1:])
    except (OSError, ValueError) as error:
        sys.exit(str(error))
    except KeyboardInterrupt:
        sys.exit(130)
