#!/usr/bin/env python3
"""A stand-in for whoever orders the calls of sites in processes of their own, in another language: what is said to `dcr site`.

    tools/apart_order.py < CASE                 the report of the case's executions, made by the sites that connect
    tools/apart_order.py --keys FILE < CASE     the same, where each site has the key of its line: SITE, a blank, 64 hex digits

It listens at port 7412 of 127.0.0.1, lets in whoever greets as a site of the case, asks the sites one execution after the other,
and writes the report as `dcr nodes N` writes it. A site that goes away, or never comes, is waited for, and is told everything
anew when it comes. On standard error it says who has come. It is for trials, and no command of `dcr` does the same yet: nothing
is proved of it, nothing is kept, and one who connects and is silent holds it up for two seconds. The status is 0, 3 where the
case is refused, and 2 with other words, where FILE isn't the keys of the sites, where the port can't be had, or where a site
answers something else than it was asked.
"""

import hmac
import os
import re
import socket
import struct
import sys

import reader
from apart import ASK, FIELDS, VOTE, Journal, World
from command import Usage, Wrong, command, read_text
from model import Case
from stored import digest_of

ADDRESS = ("127.0.0.1", 7412)
CHALLENGE_BYTES, HELLO_BYTES, VOTE_BYTES, ANSWER_BYTES = 44, 78, 14, 400
# For how long a site may be silent that is asked something.
MOST_SECONDS = 2
# The fields of a question: kind, site, number, what is asked, count.
QUESTION, QUESTION_KIND = struct.Struct(">BHIBI"), 4
# The fields of an answer: kind, site, number, what is told, event, of how many atoms each of three sets is, the sets.
ANSWER, ANSWER_KIND = struct.Struct(">BHIBHHHH128s128s128s"), 5
# What is asked and told: the marks, which events may be executed, which event is waited for; and told alone, that one is.
MARKS, CAN, WAITS, WAITS_FOR = 0, 1, 2, 3
SORTS = ("executed", "pending", "included")


# ---- the bytes


def challenge(run, nonce):
    """What is sent first: the number of the run, 8 bytes, and a nonce, 32."""
    return b"dcrO" + run + nonce


def hello(asked, site, digest, key=None):
    """What the site of this number answers to a challenge."""
    said = b"dcrS" + asked[4:12] + struct.pack(">H", site) + digest
    return said + (hmac.new(key, b"dcr site" + asked[4:44] + said[12:46], "sha256").digest() if key else bytes(32))


def question(site, number, asked, count):
    return QUESTION.pack(QUESTION_KIND, site, number, asked, count)


def set_bytes(events):
    return sum(1 << event for event in events).to_bytes(128, "little")


def events_of(data):
    return {event for event in range(1024) if data[event // 8] >> event % 8 & 1}


def answered(site, atoms, asked):
    """What a site of apart.py, of a case with so many atoms, answers to a question; nothing where it isn't for it at its count."""
    _, to, number, what, count = QUESTION.unpack(asked)
    if (to, count) != (site.number, site.count):
        return b""
    told, event, sets = what, 0, []
    if what == MARKS:
        sets = [site.marks[sort] for sort in SORTS]
    elif what == CAN:
        sets = [{it for it in site.owned if site.decide(it)[0] == 0}]
    elif waits := site.owned & site.marks["pending"] & site.marks["included"]:
        told, event = WAITS_FOR, min(waits)
    rooms = [atoms if k < len(sets) else 0 for k in range(3)]
    return ANSWER.pack(ANSWER_KIND, to, number, told, event, *rooms, *(set_bytes(sets[k] if k < len(sets) else ()) for k in range(3)))


def keys_of(text, case):
    """The key of each site."""
    lines = text.split("\n")
    found = [re.fullmatch(r"(\S+) ([0-9a-fA-F]{64})", line) for line in lines[:-1]]
    if lines[-1] or [it and it[1] for it in found] != [name for name, _ in case.sites]:
        raise Wrong("these are not the keys of the sites %s, each on a line in this order" % ", ".join(name for name, _ in case.sites))
    return [bytes.fromhex(it[2]) for it in found]


# ---- over connections


def heard(link, count):
    """So many bytes of a connection, or an error where it ends before."""
    got = b""
    while len(got) < count:
        more = link.recv(count - len(got))
        if not more:
            raise ConnectionError("it has ended")
        got += more
    return got


class Order:
    """Who orders the calls of a case: the port, the journal's node, and of each site the connection and how much it was told."""

    def __init__(self, case, keys=None):
        self.case, self.keys, self.digest, self.run = case, keys, digest_of(case), os.urandom(8)
        self.world = World(case)
        self.journal = self.world.journal = Journal([site.alphabet for site in self.world.sites])
        self.links, self.told = [None for _ in case.sites], [0 for _ in case.sites]
        try:
            self.listener = socket.create_server(ADDRESS)
        except OSError as error:
            raise Wrong("the port %d of %s: %s" % (*ADDRESS[::-1], os.strerror(error.errno))) from None

    def close(self):
        for link in [self.listener, *filter(None, self.links)]:
            link.close()

    def known(self, asked, said):
        """The site that greets so, or why nobody is let in."""
        (site,) = struct.unpack(">H", said[12:14])
        if said[:4] != b"dcrS":
            return None, "this is no hello"
        if said[4:12] != self.run:
            return None, "the hello is another run's"
        if said[14:46] != self.digest:
            return None, "the site is another case's"
        if site >= len(self.case.sites):
            return None, "the case has no site of this number"
        if self.keys and not hmac.compare_digest(said, hello(asked, site, self.digest, self.keys[site])):
            return None, "the key is not that of the site"
        if self.links[site]:
            return None, "the site is here already"
        return site, None

    def let_in(self, seconds=None):
        """Greets the next who connects. The number of the site that has come, or None."""
        self.listener.settimeout(seconds)
        link, _ = self.listener.accept()
        link.settimeout(MOST_SECONDS)
        link.setsockopt(socket.IPPROTO_TCP, socket.TCP_NODELAY, 1)
        asked = challenge(self.run, os.urandom(32))
        try:
            link.sendall(asked)
            site, why = self.known(asked, heard(link, HELLO_BYTES))
        except OSError as error:
            site, why = None, str(error)
        if why:
            print("somebody was not let in: %s" % why, file=sys.stderr)
            link.close()
            return None
        print("the site %s has come" % self.case.sites[site][0], file=sys.stderr)
        self.links[site], self.told[site] = link, 0
        return site

    def asks(self, site, frame, length):
        """What a site answers to this, once it was told of its executions. A site that is not here is waited for."""
        while True:
            while not self.links[site]:
                self.let_in()
            stream = self.journal.streams[site]
            try:
                self.links[site].sendall(b"".join(self.journal.item(site, k) for k in range(self.told[site], len(stream))) + frame)
                self.told[site] = len(stream)
                return heard(self.links[site], length)
            except OSError as error:
                print("the site %s has gone: %s" % (self.case.sites[site][0], error), file=sys.stderr)
                self.links[site].close()
                self.links[site] = None

    def executes(self, session, site, event):
        """Makes an execution by the site."""
        self.journal.out = (session, site, event)
        vote = self.asks(site, self.journal.ask(), VOTE_BYTES)
        self.journal.step(vote)
        _, _, _, cause, _, decision = FIELDS.unpack(vote)
        if self.journal.out or decision > 4 or cause >= len(self.case.atoms):
            raise Wrong("the site %s answers %s to an ask" % (self.case.sites[site][0], vote.hex(" ")))

    def tells(self, site, what):
        """What a site tells at the end: what kind of thing, the event, and the three sets."""
        number, count = len(self.journal.entries), len(self.journal.streams[site])
        kind, to, of, told, event, *rest = ANSWER.unpack(self.asks(site, question(site, number, what, count), ANSWER_BYTES))
        if (kind, to, of) != (ANSWER_KIND, site, number) or told not in ({WAITS, WAITS_FOR} if what == WAITS else {what}):
            raise Wrong("the site %s answers something else to a question" % self.case.sites[site][0])
        sets = [events_of(it) for it in rest[3:]]
        if any(it >= len(self.case.atoms) for events in sets for it in events):
            raise Wrong("the site %s tells of events that there aren't" % self.case.sites[site][0])
        return told, event, sets

    def report(self):
        """The report, once all calls were made: the marks are those that the sites tell."""
        for site, kept in enumerate(self.world.sites):
            kept.marks = dict(zip(SORTS, self.tells(site, MARKS)[2]))
            waits = kept.owned & kept.marks["pending"] & kept.marks["included"]
            if self.tells(site, WAITS)[:2] != ((WAITS_FOR, min(waits)) if waits else (WAITS, 0)):
                raise Wrong("the site %s tells that it waits for something else than by its marks" % self.case.sites[site][0])
        return self.world.report()

    def executes_all(self):
        """Makes the executions of all sessions, one session after the other."""
        sites = {name: k for k, (name, _) in enumerate(self.case.sites)}
        for session, calls in enumerate(self.case.sessions):
            for _, name, event in (it.split(" ") for it in calls if it.startswith("exec ")):
                self.executes(session, sites[name], self.case.number[event])


@command(__doc__)
def main(words):
    if words and (len(words) != 2 or words[0] != "--keys"):
        raise Usage
    text = sys.stdin.buffer.read()
    status, wrote = reader.answer(text)
    if status:
        sys.stdout.buffer.write(wrote)
        return status
    case = Case(text.decode())
    order = Order(case, keys_of(read_text(words[1]), case) if words else None)
    try:
        order.executes_all()
        print(order.report(), end="")
    finally:
        order.close()
    return 0


if __name__ == "__main__":
    sys.exit(main(sys.argv[1:]))
