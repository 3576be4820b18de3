#!/usr/bin/env python3
"""Ends a serving early with its report kept: opens and closes the sessions that are left.

    tools/end_serving.py                  until nobody listens at 127.0.0.1:7411 any more
    tools/end_serving.py --wait SECONDS   the same, with so much patience for each session, else 10 seconds

`dcr serve --sessions N` writes its report once N sessions have ended. This opens one session after the other, asks
nothing in it but an empty line (which is answered by `bad-line` and makes no entry), and closes it, until the serving has
no sessions left and ends by itself. Sessions of others that are connected are not cut off: they are served to their end,
and the serving waits for them. What is printed says how many sessions were opened and closed.

The status is 0 where nobody listens any more; 1 where a session wasn't answered in time, since all workers are held by
sessions that stay connected; 2 where the words are others, or something else than `dcr serve` answers at the port.
"""

import socket
import sys
import time

from command import Usage, Wrong, command

ADDRESS = ("127.0.0.1", 7411)
# The most sessions that a serving has.
MOST = 1024
ENDED, HELD = 0, 1


def opened_and_closed(wait):
    """Whether a session was had and ended; None where nobody listens, and False where it isn't answered in time."""
    try:
        link = socket.create_connection(ADDRESS, timeout=wait)
    except ConnectionRefusedError:
        return None
    except socket.timeout:
        return False
    with link:
        try:
            link.sendall(b"\n")
            reply = link.makefile("rb").readline()
            if reply not in (b"bad-line\n", b""):
                raise Wrong("%s:%d: something answers that is no dcr: %s" % (*ADDRESS, reply[:40]))
            if reply:
                link.shutdown(socket.SHUT_WR)
                link.recv(1)
            return bool(reply) or None
        except socket.timeout:
            return False
        except (ConnectionResetError, BrokenPipeError):
            # (the serving has ended while this one was waiting for a worker)
            return None


def ended(wait):
    """How many sessions were opened and closed, and the status."""
    count = 0
    while count <= MOST:
        told = opened_and_closed(wait)
        if told is False:
            return count, HELD
        if told is None:
            # (a serving that has had its sessions ends within a moment)
            for _ in range(100):
                try:
                    socket.create_connection(ADDRESS, timeout=wait).close()
                except (ConnectionRefusedError, ConnectionResetError):
                    return count, ENDED
                except socket.timeout:
                    return count, HELD
                time.sleep(wait / 100)
            return count, HELD
        count += 1
    raise Wrong("%s:%d: %d sessions were closed, and still one is had: it is no serving of dcr, or is started anew each time" % (*ADDRESS, count))


@command(__doc__)
def main(words):
    wait = 10.0
    if words[:1] == ["--wait"] and len(words) == 2:
        try:
            wait = float(words[1])
        except ValueError:
            raise Usage from None
    elif words:
        raise Usage
    if not 0 < wait < 1e6:
        raise Usage
    count, status = ended(wait)
    if status == ENDED:
        print("%d sessions were opened and closed; nobody listens at %s:%d" % (count, *ADDRESS))
    else:
        print("%d sessions were opened and closed; the next one wasn't answered within %g seconds: sessions that are still connected hold all workers, or are the last ones. They have to end first" % (count, wait))
    return status


if __name__ == "__main__":
    sys.exit(main(sys.argv[1:]))
