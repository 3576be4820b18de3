"""The wrong bodies: each can be applied, and the record shows that the prover refused it as the sources stand now."""

import os
import sys

from checks import TOP, NotTried, want

sys.path.insert(0, os.path.join(TOP, "tools"))
from tried import Sums, applied, crates, edits_of, record, stands  # noqa: E402

MOST_AT_THE_GATE = 30


def check_each_edit_can_be_applied():
    lost = []
    for name in crates():
        for edit in [*edits_of(name), *edits_of(name, folder="must-fail")]:
            try:
                applied(edit, os.path.join(TOP, "crates", name))
            except ValueError as why:
                lost.append("%s: %s" % (os.path.relpath(edit, TOP), why))
    want(not lost, "; ".join(lost))


def check_the_record_shows_that_each_edit_is_refused():
    sums, lost = Sums(), []
    if sums.version is None:
        raise NotTried("rt, the command of Rattle's kit, is not on the path")
    for name in sums.used:
        lines, edits = record(name), edits_of(name)
        told = [(os.path.basename(it), stands(name, it, sums, lines)) for it in edits]
        lost += ["%s/%s %s" % (name, it, why) for it, why in told if why]
        lost += ["%s/%s is in TRIED, and isn't there" % (name, it) for it in lines if it not in {it for it, _ in told}]
    want(not lost, "%d: %s" % (len(lost), "; ".join(lost)))


def check_no_edit_stands_twice():
    twice = [it for name in crates() for it in {*map(os.path.basename, edits_of(name))} & {*map(os.path.basename, edits_of(name, folder="must-fail"))}]
    want(not twice, "in both folders: %s" % ", ".join(twice))


def check_the_gate_tries_few():
    # (each costs a check of its crate at every run of the gate, and a second one in a crate that crate's proof once more)
    count = sum(len(edits_of(name, folder="must-fail")) for name in crates())
    want(count <= MOST_AT_THE_GATE, "%d stand in must-fail folders, and at most %d are to" % (count, MOST_AT_THE_GATE))
