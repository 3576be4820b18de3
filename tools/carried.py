#!/usr/bin/env python3
"""A second implementation, in another language, of a case that goes on with other rules: what `dcr adapt` does.

    tools/carried.py run < STAGES           the reports, or the line of the refusal, as `dcr adapt` writes them
    tools/carried.py opens < STAGES         what each case opens with, an event a line: its marks, and whose they are
    tools/carried.py compare COUNT SEED     as many random inputs, by the program and by this

STAGES has 1 to 16 case files, each on a line. `run` and `opens` need Python alone, and neither the kit nor a build;
nothing is proved of what they print. Each line is read by reader.py and run by model.py's rules with one worker, from
the marking that the one before ended with. The status is 0, 3 where the cases are refused, and 2 with other words;
`compare` ends with status 1 at the first input whose answer differs, and prints it.
"""

import json
import os
import random
import subprocess
import sys

from command import Usage, Wrong, command
from model import PROGRAM, Case, give_roles, leave_out_denied, random_case
from reader import MOST_BYTES, Refused, read_case, refuse
from stages import MOST_CASES, lines_of

ADAPT = [PROGRAM[0], "adapt"]
MARKS = ("executed", "pending", "included")


class Stage(Case):
    """A case whose rules are looked up by an event, so that a long one is quick."""

    def __init__(self, text):
        self.atoms_below, self.leading = {}, {}
        super().__init__(text)
        self.before = {kind: {} for kind in ("condition", "milestone")}
        self.after = {kind: {} for kind in ("response", "cancel", "include", "exclude")}
        for kind, found in self.before.items():
            for a, b in sorted(self.pairs[kind], key=lambda pair: self.number[pair[0]]):
                found.setdefault(b, []).append(a)
        for kind, found in self.after.items():
            for a, b in self.pairs[kind]:
                found.setdefault(a, set()).add(b)

    def below(self, node):
        if node not in self.atoms_below:
            self.atoms_below[node] = super().below(node)
        return self.atoms_below[node]

    def sources(self, kind, targets):
        key = kind, frozenset(targets)
        if key not in self.leading:
            self.leading[key] = super().sources(kind, targets)
        return self.leading[key]

    def targets(self, kind, source):
        return self.after[kind].get(source, set())

    def cause(self, event):
        if event not in self.included:
            return "excluded"
        for c in self.before["condition"].get(event, ()):
            if c in self.included and c not in self.executed:
                return "condition " + c
        for m in self.before["milestone"].get(event, ()):
            if m in self.included and m in self.pending:
                return "milestone " + m
        return None

    def is_old(self, atom, before):
        """Whether the atom goes on with the marks that it has in the case before."""
        return before is not None and atom in before.number

    def carry(self, before):
        """Opens with the marking that the case before has come to, where there is one: an old atom has its marks there."""
        for name in MARKS if before is not None else ():
            there, own = getattr(before, name), getattr(self, name)
            setattr(self, name, {a for a in self.atoms if a in (there if self.is_old(a, before) else own)})


def read_stages(data):
    """The cases of the lines. Refused, with the whole line, where the input is."""
    refuse(len(data) > MOST_BYTES, 1, "too-long")
    lines, cases = lines_of(data), []
    refuse(not 1 <= len(lines) <= MOST_CASES, 14, "cases", len(lines))
    for number, line in enumerate(lines):
        try:
            case = read_case(line, Stage)
            for atom in cases[-1].atoms if cases else []:
                refuse(atom not in case.number, 13, "dropped", atom)
        except Refused as refusal:
            raise Refused("case %d %s" % (number, refusal)) from None
        cases.append(case)
    return cases


def opened(cases):
    """Each case as it opens, with the one before it, which has been run."""
    before = None
    for case in cases:
        case.carry(before)
        yield before, case
        case.wrote = case.report()
        before = case


def reports(cases):
    """The report of each case, each going on from where the one before ended."""
    for _ in opened(cases):
        pass
    return [case.wrote for case in cases]


def answer(data):
    """The status of `dcr adapt` for these bytes, and what is written."""
    try:
        return 0, "".join(reports(read_stages(data))).encode()
    except Refused as refusal:
        return 3, b"%s\n" % str(refusal).encode()


def openings(cases):
    """A line for each event of each case: the case's number, the event, its marks at opening, and whose they are."""
    for number, (before, case) in enumerate(opened(cases)):
        for atom in case.atoms:
            marks = " ".join(name for name in MARKS if atom in getattr(case, name)) or "-"
            yield "%d %s %s%s" % (number, atom, marks, " (carried)" if case.is_old(atom, before) else "")


# ---- random inputs


def changed(draw, file):
    """A case that goes on from this one: mostly with more events, relations and owners, seldom with fewer events."""
    case = json.loads(json.dumps(file))
    graph, events = case["graph"], case["graph"]["events"]
    for k in range(draw.randint(0, 3)):
        event = {"name": "n%d-%d" % (len(events), k), **{mark: draw.random() < 0.5 for mark in MARKS if draw.random() < 0.3}}
        events.insert(draw.choice([0, len(events)]), event)
    nests = {event.get("parent") for event in events}
    for event in events:
        if draw.random() < 0.2 and event["name"] not in nests:
            event[draw.choice(MARKS)] = draw.random() < 0.5
        if draw.random() < 0.1:
            event["label"] = draw.choice(["another label", "", "é"])
    if draw.random() < 0.05:
        nest = draw.choice(events)
        events.append({"name": "b%d" % len(events), "parent": nest["name"]})
        for mark in MARKS:
            nest.pop(mark, None)
    if draw.random() < 0.05 and len(events) > 1:
        gone = events.pop(draw.randrange(len(events)))["name"]
        graph["relations"] = [it for it in graph["relations"] if gone not in it]
    if draw.random() < 0.03:
        draw.shuffle(events)
    kinds, names = ["condition", "response", "milestone", "include", "exclude"], [event["name"] for event in events]
    nests, sites = {event.get("parent") for event in events}, draw.randint(1, 4)
    atoms = [it for it in names if it not in nests or draw.random() < 0.02]
    graph["relations"] = [it for it in graph["relations"] if draw.random() < 0.9]
    graph["relations"] += [[draw.choice(kinds), draw.choice(names), draw.choice(names)] for _ in range(draw.randint(0, 2))]
    case["cover"] = [{"site": "s%d" % k, "events": [it for it in names if k == 0 or draw.random() < 0.3]} for k in range(sites)]
    draw.shuffle(case["cover"])
    calls = ["exec s%d %s" % (draw.randrange(sites), draw.choice(atoms)) for _ in range(draw.randint(0, 9))]
    case["sessions"] = [calls[::2], ["look s0", "accepting"], calls[1::2]]
    return with_other_roles(draw, case)


def refusal_of(case):
    """The line by which a case is refused; nothing where it isn't."""
    try:
        read_case(json.dumps(case).encode())
    except Refused as refusal:
        return str(refusal)
    return ""


def with_other_roles(draw, case):
    """The case with other roles, users, or sessions of users, where it is of version 3 or becomes it; mostly no call is
    denied then."""
    if draw.random() < 0.3:
        case["version"] = draw.choice(["2", "3", "3"])
    if case.get("version") == "3" and draw.random() < 0.5:
        give_roles(draw, case)
    if draw.random() < 0.7 and refusal_of(case).startswith("refused 17 "):
        leave_out_denied(case)
    if draw.random() < 0.05:
        event, other = draw.choice(case["graph"]["events"]), draw.choice([1, None, "r0", ["1r"], [{}]])
        draw.choice([event, case]).update({draw.choice(["roles", "users", "by"]): other})
    return case


def random_stages(draw):
    """An input of some lines, which may be refused."""
    cases = [json.loads(random_case(draw))]
    while draw.random() < 0.75 and len(cases) < 17:
        cases.append(changed(draw, cases[-1]))
    lines = [json.dumps(case, ensure_ascii=draw.random() < 0.5).encode() for case in cases]
    if draw.random() < 0.05:
        lines[draw.randrange(len(lines))] = draw.choice([b"", b"{", b"{}", lines[0] + b" " + lines[0]])
    return draw.choice([b"\n", b"\n", b"\n", b"\r\n"]).join(lines) + draw.choice([b"", b"\n", b"\n", b"\r\n", b"\n\n"])


def compare(count, seed):
    draw, statuses = random.Random(seed), {0: 0, 3: 0}
    for _ in range(count):
        data = random_stages(draw)
        told = subprocess.run(ADAPT, input=data, stdout=subprocess.PIPE, check=False)
        status, wrote = answer(data)
        if (told.returncode, told.stdout) != (status, wrote):
            sys.stdout.buffer.write(data)
            print("\nprogram: status %d\n%s\nthis: status %d\n%s" % (told.returncode, told.stdout.decode(), status, wrote.decode()))
            return 1
        statuses[status] += 1
    print("the same of %d inputs that are run and of %d that are refused" % (statuses[0], statuses[3]))
    return 0


@command(__doc__)
def main(words):
    if words == ["run"]:
        status, wrote = answer(sys.stdin.buffer.read(MOST_BYTES + 1))
        sys.stdout.buffer.write(wrote)
        return status
    if words == ["opens"]:
        try:
            print("\n".join(openings(read_stages(sys.stdin.buffer.read(MOST_BYTES + 1)))))
        except Refused as refusal:
            print(refusal)
            return 3
        return 0
    if len(words) != 3 or words[0] != "compare" or not (words[1] + words[2]).isdigit():
        raise Usage
    if not os.path.exists(PROGRAM[0]):
        raise Wrong("the program is not built: call ./dcr first")
    return compare(int(words[1]), int(words[2]))


if __name__ == "__main__":
    sys.exit(main(sys.argv[1:]))
