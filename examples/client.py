#!/usr/bin/env python3
"""Asks a case that `dcr serve` serves: sends each line of standard input, and prints the reply before the next one.

    ./dcr serve --sessions 1 --workers 1 < examples/medication.json > the.report &
    echo 'exec doctor pm' | examples/client.py

A connection is one session, and its end is the session's. Where nobody listens yet it tries again for ten seconds. The
status is 1 where nobody does, or where the session was ended before the last line was answered.
"""

import socket
import sys
import time

ADDRESS = ("127.0.0.1", 7411)


def connected():
    """A connection, once somebody listens."""
    for _ in range(200):
        try:
            return socket.create_connection(ADDRESS)
        except ConnectionRefusedError:
            time.sleep(0.05)
    sys.exit("%s:%d: nobody listens" % ADDRESS)


def main():
    with connected() as link, link.makefile("rb") as replies:
        for line in sys.stdin.buffer:
            # (a line that is cut off, at the end of what is typed, is sent whole)
            link.sendall(line.rstrip(b"\n") + b"\n")
            reply = replies.readline()
            sys.stdout.buffer.write(reply)
            sys.stdout.flush()
            if not reply:
                sys.exit("the session has ended")
        link.shutdown(socket.SHUT_WR)
        # (whoever serves closes the connection once it has seen its end)
        sys.stdout.buffer.write(replies.read())


if __name__ == "__main__":
    main()
