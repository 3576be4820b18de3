#!/usr/bin/env python3
"""A plain model of the rules in another language, to compare the program with.

    tools/model.py run < CASE           the report of a case, or the line of its refusal, as `dcr run` writes them
    tools/model.py compare COUNT SEED   as many random cases, by the program and by the model

`run` needs Python alone, and neither the kit nor a build; nothing is proved of what it prints. Its status is that of
`dcr run`: 0, or 3 where the case is refused. The model keeps one global marking as sets of names and looks relations up
pair by pair, with one worker; reader.py beside it reads the case. `compare` ends with status 1 at the first case whose
report differs, and prints it; of the random cases those with a clash are only expected to be refused as such.
"""

import json
import os
import random
import subprocess
import sys

from command import Usage, Wrong, command
from roles import VERSION, Policy

TOP = os.path.dirname(os.path.dirname(os.path.abspath(__file__)))
PROGRAM = [os.path.join(TOP, "crates/dcr/out/dcr"), "run"]
KINDS = ["condition", "response", "milestone", "include", "exclude"]


class Case:
    def __init__(self, text):
        file = json.loads(text)
        self.version = file.get("version", "1")
        self.events = file["graph"]["events"]
        self.written = file["graph"].get("relations", [])
        self.sessions = file.get("sessions", [])
        self.parent = {event["name"]: event.get("parent") for event in self.events}
        nests = {parent for parent in self.parent.values() if parent}
        self.atoms = [event["name"] for event in self.events if event["name"] not in nests]
        self.number = {atom: k for k, atom in enumerate(self.atoms)}
        self.pairs = {kind: set() for kind in [*KINDS, "cancel"]}
        for kind, source, target in self.written:
            self.pairs[kind] |= {(a, b) for a in self.below(source) for b in self.below(target)}
        self.sites = [(site["site"], {a for text in site["events"] for a in self.below(text)}) for site in file["cover"]]
        marks = {event["name"]: event for event in self.events}
        self.executed = {a for a in self.atoms if marks[a].get("executed", False)}
        self.pending = {a for a in self.atoms if marks[a].get("pending", False)}
        self.included = {a for a in self.atoms if marks[a].get("included", True)}
        self.policy = Policy(file, self.line_of)

    def below(self, node):
        return [atom for atom in self.atoms if node in self.line_of(atom)]

    def line_of(self, node):
        line = []
        while node is not None:
            line.append(node)
            node = self.parent[node]
        return line

    def sources(self, kind, targets):
        return {a for a, b in self.pairs[kind] if b in targets}

    def targets(self, kind, source):
        return {b for a, b in self.pairs[kind] if a == source}

    def cause(self, event):
        if event not in self.included:
            return "excluded"
        for c in self.atoms:
            if (c, event) in self.pairs["condition"] and c in self.included and c not in self.executed:
                return "condition " + c
        for m in self.atoms:
            if (m, event) in self.pairs["milestone"] and m in self.included and m in self.pending:
                return "milestone " + m
        return None

    def step(self, event):
        self.executed = self.executed | {event}
        self.pending = (self.pending - {event} - self.targets("cancel", event)) | self.targets("response", event)
        self.included = (self.included | self.targets("include", event)) - self.targets("exclude", event)

    def waits(self):
        return next((a for a in self.atoms if a in self.included and a in self.pending), None)

    def listed(self, atoms):
        return ",".join(sorted(atoms, key=self.number.get)) or "-"

    def mark(self, executed, pending, included):
        return "executed %s pending %s included %s" % (self.listed(executed), self.listed(pending), self.listed(included))

    def projected(self, owned):
        conditions, milestones = self.sources("condition", owned), self.sources("milestone", owned)
        return self.mark(
            self.executed & (owned | conditions),
            self.pending & (owned | milestones),
            self.included & (owned | conditions | milestones),
        )

    def denied(self, session, call):
        """The role for want of which a call of the session is denied; None where it is allowed."""
        words = call.split(" ")
        return self.policy.denied(session, words[2]) if words[0] == "exec" else None

    def answer(self, call):
        words, owned = call.split(" "), dict(self.sites)
        if words[0] == "look":
            return self.projected(owned[words[1]])
        if words[0] == "enabled":
            return "can " + self.listed({a for a in owned[words[1]] if self.cause(a) is None})
        if words[0] == "accepting":
            return "waits " + self.waits() if self.waits() else "yes"
        if words[2] not in owned[words[1]]:
            return "not-here"
        cause = self.cause(words[2])
        if cause is None:
            self.step(words[2])
        return cause or "done"

    def head(self):
        def compact(value):
            return json.dumps(value, separators=(",", ":"), ensure_ascii=False)

        events = []
        for event in self.events:
            shown = {"label": event.get("label", event["name"]), "name": event["name"]}
            if "parent" in event:
                shown["parent"] = event["parent"]
            events.append(shown)
        cover = [{"events": sorted(owned, key=self.number.get), "site": name} for name, owned in self.sites]
        yield "dcr 1" if self.version == "1" else "dcr 2"
        yield "graph " + compact({"events": events, "relations": self.written})
        yield "cover " + compact(cover)
        yield "open " + self.mark(self.executed, self.pending, self.included)

    def report(self):
        lines, place = list(self.head()), 0
        for number, session in enumerate(self.sessions):
            for seq, call in enumerate(session):
                lines.append("%d %d %d %s %s" % (place, number, seq, call, self.answer(call)))
                place += 1
        lines += ["site %s %s" % (name, self.projected(owned)) for name, owned in self.sites]
        lines.append("verdict waits " + self.waits() if self.waits() else "verdict accepting")
        return "\n".join([*lines, "end %d" % place]) + "\n"


def random_case(draw):
    count = draw.randint(1, 9)
    events = []
    for k in range(count):
        event = {"name": "e%d" % k}
        if k and draw.random() < 0.35:
            event["parent"] = "e%d" % draw.randrange(k)
        if draw.random() < 0.3:
            event["label"] = draw.choice(["x", 'é"\\', "a\nb", "\u0001", ""])
        events.append(event)
    nests = {event.get("parent") for event in events}
    for event in events:
        for mark in ("executed", "pending", "included"):
            if event["name"] not in nests and draw.random() < 0.25:
                event[mark] = draw.random() < 0.5
    version = draw.choice(["1", "2", "3", None])
    kinds = KINDS + (["cancel"] if version in ("2", "3") else [])
    relations = [[draw.choice(kinds), "e%d" % draw.randrange(count), "e%d" % draw.randrange(count)] for _ in range(draw.randint(0, 10))]
    sites = draw.randint(1, 4)
    cover = [{"site": "s%d" % i, "events": []} for i in range(sites)]
    for k in range(count):
        cover[draw.randrange(sites)]["events"].append("e%d" % k)
    for site in cover:
        if draw.random() < 0.3:
            site["events"].append("e%d" % draw.randrange(count))
    atoms = [event["name"] for event in events if event["name"] not in nests]

    def call():
        site = draw.randrange(sites)
        execution = "exec s%d %s" % (site, draw.choice(atoms))
        return draw.choice([execution] * 6 + ["look s%d" % site, "enabled s%d" % site, "accepting"])

    sessions = [[call() for _ in range(draw.randint(0, 12))] for _ in range(draw.randint(0, 3))]
    file = {"graph": {"events": events, "relations": relations}, "cover": cover, "sessions": sessions}
    if version:
        file["version"] = version
    if version == VERSION:
        give_roles(draw, file)
        leave_out_denied(file)
    return json.dumps(file, ensure_ascii=draw.random() < 0.5)


def give_roles(draw, file):
    """Gives roles to events of a case, and makes users, and says whose each session is."""
    roles = ["r%d" % k for k in range(draw.randint(1, 4))]
    for event in file["graph"]["events"]:
        if draw.random() < 0.4:
            event["roles"] = [draw.choice(roles) for _ in range(draw.randint(0, 3))]
    users = [{"user": "u%d" % k, "roles": draw.sample(roles, draw.randint(0, len(roles)))} for k in range(draw.randint(0, 3))]
    by = [draw.choice(users)["user"] for _ in range(draw.randint(0, 4))] if users else []
    file.update({member: value for member, value in (("users", users), ("by", by)) if value or draw.random() < 0.5})


def leave_out_denied(file):
    """Takes the calls that are denied out of the sessions of a case."""
    case = Case(json.dumps(file))
    file["sessions"] = [[call for call in session if case.denied(k, call) is None] for k, session in enumerate(case.sessions)]


def compare(count, seed):
    draw, same, clashes = random.Random(seed), 0, 0
    for _ in range(count):
        text = random_case(draw)
        told = subprocess.run(PROGRAM, input=text.encode(), capture_output=True).stdout.decode()
        if told.startswith("refused 9 clash "):
            clashes += 1
        elif told == Case(text).report():
            same += 1
        else:
            print(text)
            return 1
    print("%d reports are the same, %d cases clash" % (same, clashes))
    return 0


@command(__doc__)
def main(words):
    if words == ["run"]:
        import reader

        status, wrote = reader.answer(sys.stdin.buffer.read())
        sys.stdout.buffer.write(wrote)
        return status
    if len(words) != 3 or words[0] != "compare" or not (words[1] + words[2]).isdigit():
        raise Usage
    if not os.path.exists(PROGRAM[0]):
        raise Wrong("the program is not built: call ./dcr first")
    return compare(int(words[1]), int(words[2]))


if __name__ == "__main__":
    sys.exit(main(sys.argv[1:]))
