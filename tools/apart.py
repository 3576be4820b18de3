#!/usr/bin/env python3
"""A second implementation, in another language, of sites that talk by messages: what `dcr nodes N` does.

    tools/apart.py run N < CASE         the report of the case's executions, as `dcr nodes N` writes it
    tools/apart.py messages N < CASE    each message that was sent, in order: its number, its 14 bytes, what they mean

Nothing is proved of what it prints, and it needs neither the kit nor a build. Each site knows its own marks, its own rules
and what it was told, the journal's node knows the entries alone, and what goes between them is bytes. N picks what the
network loses, repeats and reorders. The status is 0, 3 where the case is refused, and 2 with other words.
"""

import re
import struct
import sys

from command import Usage, command
from model import Case

MASK = (1 << 64) - 1
# The stream of the generator from which a run draws.
STREAM = 55
ASK, VOTE, APPLY = 1, 2, 3
# The fields of a message: kind, site, number (or index), event, count, decision.
FIELDS = struct.Struct(">BHIHIB")
DECISIONS = ["enabled", "not-here", "excluded", "condition", "milestone"]


class Words:
    """The words of 32 bits of PCG32 (XSH RR 64/32) at a state and a stream."""

    def __init__(self, number, stream):
        self.increment = (stream << 1) | 1
        self.state = 0
        self.step()
        self.state = (self.state + number) & MASK
        self.step()

    def step(self):
        self.state = (self.state * 6364136223846793005 + self.increment) & MASK

    def pick(self, count):
        state = self.state
        self.step()
        word = (((state >> 18) ^ state) >> 27) & 0xFFFFFFFF
        turn = state >> 59
        return ((word >> turn) | (word << (-turn & 31)) & 0xFFFFFFFF) % count


class Site:
    """A site: the rules that concern it, and its marks of the events that it tracks. It sees nothing else."""

    def __init__(self, number, case, owned):
        def sources(kind, targets):
            return {case.number[a] for a, b in case.pairs[kind] if case.number[b] in targets}

        def pairs(kind, targets):
            return {(case.number[a], case.number[b]) for a, b in case.pairs[kind] if case.number[b] in targets}

        self.number, self.count = number, 0
        self.owned = {case.number[a] for a in owned}
        conditions, milestones = sources("condition", self.owned), sources("milestone", self.owned)
        self.tracks = {"executed": self.owned | conditions, "pending": self.owned | milestones, "included": self.owned | conditions | milestones}
        targets = {"condition": self.owned, "milestone": self.owned, "include": self.tracks["included"], "exclude": self.tracks["included"]}
        targets |= {kind: self.tracks["pending"] for kind in ("response", "cancel")}
        self.rules = {kind: pairs(kind, these) for kind, these in targets.items()}
        self.alphabet = set(self.tracks["included"])
        for kind in ("response", "cancel", "include", "exclude"):
            self.alphabet |= {a for a, _ in self.rules[kind]}
        self.marks = {kind: {case.number[a] for a in getattr(case, kind)} & these for kind, these in self.tracks.items()}
        # (the rules of an event are looked up by it, so that a large case is quick)
        self.before = {kind: {} for kind in ("condition", "milestone")}
        self.after = {kind: {} for kind in ("response", "cancel", "include", "exclude")}
        for kind, found in self.before.items():
            for a, b in sorted(self.rules[kind]):
                found.setdefault(b, []).append(a)
        for kind, found in self.after.items():
            for a, b in self.rules[kind]:
                found.setdefault(a, set()).add(b)

    def decide(self, event):
        """The decision and its cause's event, or 0."""
        if event not in self.owned:
            return 1, 0
        if event not in self.marks["included"]:
            return 2, 0
        for number, kind, blocks in ((3, "condition", lambda a: a not in self.marks["executed"]), (4, "milestone", lambda a: a in self.marks["pending"])):
            for a in self.before[kind].get(event, ()):
                if a in self.marks["included"] and blocks(a):
                    return number, a
        return 0, 0

    def step(self, message):
        """What the site answers to a message, or None."""
        kind, site, number, event, count, _ = FIELDS.unpack(message)
        if site != self.number:
            return None
        if kind == ASK and count == self.count:
            decision, cause = self.decide(event)
            return FIELDS.pack(VOTE, site, number, cause, 0, decision)
        if kind == APPLY and number == self.count:
            self.apply(event)
            self.count += 1
        return None

    def apply(self, event):
        if event in self.tracks["executed"]:
            self.marks["executed"].add(event)
        self.marks["pending"] -= {event} | self.after["cancel"].get(event, set())
        self.marks["pending"] |= self.after["response"].get(event, set())
        self.marks["included"] |= self.after["include"].get(event, set())
        self.marks["included"] -= self.after["exclude"].get(event, set())


class Journal:
    """The node that orders: the entries, each site's stream of executions, and the proposal that is out. It has no marks."""

    def __init__(self, alphabets):
        self.alphabets, self.entries, self.out = alphabets, [], None
        self.streams = [[] for _ in alphabets]

    def ask(self):
        _, site, event = self.out
        return FIELDS.pack(ASK, site, len(self.entries), event, len(self.streams[site]), 0)

    def item(self, site, index):
        return FIELDS.pack(APPLY, site, index, self.streams[site][index], 0, 0)

    def step(self, message):
        kind, site, number, event, _, decision = FIELDS.unpack(message)
        if kind != VOTE or self.out is None or number != len(self.entries) or site != self.out[1]:
            return
        session, _, asked = self.out
        self.entries.append((session, site, asked, decision, event))
        self.out = None
        if decision == 0:
            for alphabet, stream in zip(self.alphabets, self.streams):
                if asked in alphabet:
                    stream.append(asked)


class World:
    """All nodes, and the messages that were ever sent."""

    def __init__(self, case):
        self.case = case
        self.sites = [Site(k, case, owned) for k, (_, owned) in enumerate(case.sites)]
        self.journal, self.sent = Journal([it.alphabet for it in self.sites]), []

    def deliver(self, number):
        message = self.sent[number]
        if message[0] == VOTE:
            self.journal.step(message)
            return
        answer = self.sites[FIELDS.unpack(message)[1]].step(message)
        if answer is not None:
            self.sent.append(answer)

    def catch_up(self, site):
        """A site is given the items that it hasn't heard of."""
        for index in range(self.sites[site].count, len(self.journal.streams[site])):
            self.sent.append(self.journal.item(site, index))
            self.deliver(len(self.sent) - 1)

    def turn(self, words):
        kind = words.pick(4)
        if kind == 0:
            self.deliver(words.pick(len(self.sent)))
        elif kind == 1:
            self.sent.append(self.journal.ask())
        elif kind == 2:
            site = words.pick(len(self.sites))
            if length := len(self.journal.streams[site]):
                self.sent.append(self.journal.item(site, words.pick(length)))

    def run(self, number):
        words = Words(number, STREAM)
        sites = {name: k for k, (name, _) in enumerate(self.case.sites)}
        for session, calls in enumerate(self.case.sessions):
            for call in (it.split(" ") for it in calls if it.startswith("exec ")):
                self.journal.out = (session, sites[call[1]], self.case.number[call[2]])
                self.sent.append(self.journal.ask())
                for _ in range(words.pick(9)):
                    if self.journal.out is None:
                        break
                    self.turn(words)
                if self.journal.out is not None:
                    self.catch_up(sites[call[1]])
                    for message in (self.journal.ask(), None):
                        if message is not None:
                            self.sent.append(message)
                        self.deliver(len(self.sent) - 1)
        for site in range(len(self.sites)):
            self.catch_up(site)
        return self

    def report(self):
        case, made, lines = self.case, {}, []
        for place, (session, site, event, decision, cause) in enumerate(self.journal.entries):
            seq = made.get(session, 0)
            made[session] = seq + 1
            told = "done" if decision == 0 else DECISIONS[decision] + (" " + case.atoms[cause] if decision > 2 else "")
            lines.append("%d %d %d exec %s %s %s" % (place, session, seq, case.sites[site][0], case.atoms[event], told))
        waits = []
        for site, (name, _) in zip(self.sites, case.sites):
            marks = ["%s %s" % (kind, ",".join(case.atoms[k] for k in sorted(site.marks[kind])) or "-") for kind in ("executed", "pending", "included")]
            lines.append("site %s %s" % (name, " ".join(marks)))
            waits += site.owned & site.marks["pending"] & site.marks["included"]
        lines.append("verdict waits " + case.atoms[min(waits)] if waits else "verdict accepting")
        return "\n".join([*case.head(), *lines, "end %d" % len(self.journal.entries)]) + "\n"


def meaning(case, message):
    """What a message says, in words."""
    kind, site, number, event, count, decision = FIELDS.unpack(message)
    name = case.sites[site][0]
    if kind == ASK:
        return "ask %s number %d: may %s be executed, where you have heard of %d?" % (name, number, case.atoms[event], count)
    if kind == VOTE:
        return "vote of %s on number %d: %s" % (name, number, DECISIONS[decision] + (" " + case.atoms[event] if decision > 2 else ""))
    return "apply at %s its item %d: %s" % (name, number, case.atoms[event])


def answer(text, number):
    """The status and the text of a run over the network of this number."""
    import reader

    status, wrote = reader.answer(text)
    return (status, wrote) if status else (0, World(Case(text.decode())).run(number).report().encode())


@command(__doc__)
def main(words):
    if len(words) != 2 or words[0] not in ("run", "messages") or not re.fullmatch(r"0|[1-9][0-9]{0,9}", words[1]) or int(words[1]) > 0xFFFFFFFF:
        raise Usage
    text, number = sys.stdin.buffer.read(), int(words[1])
    status, wrote = answer(text, number)
    if status != 0 or words[0] == "run":
        sys.stdout.buffer.write(wrote)
        return status
    world = World(Case(text.decode())).run(number)
    for number, message in enumerate(world.sent):
        print("%d  %s  %s" % (number, message.hex(" "), meaning(world.case, message)))
    return 0


if __name__ == "__main__":
    sys.exit(main(sys.argv[1:]))
