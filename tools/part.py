#!/usr/bin/env python3
"""The part of a site, by a second implementation.

    tools/part.py SITE < CASE       the site's part of the case, or the line of the refusal
    tools/part.py --read < PART     what a part says, in words: the site, its events and its rules

The text is put together here byte by byte from the table of docs/FORMATS.md, *The part of a site*; the case is read by
reader.py. The status is 0, or 3 where the case is refused or has no such site.
"""

import json
import sys

from command import Usage, Wrong, command
from model import Case
from reader import MOST_BYTES, Refused, read_case, refuse
from stored import digest_of

# The kinds of relation in the order of their words.
KINDS = ["cancel", "condition", "exclude", "include", "milestone", "response"]


class Site:
    """What a site with an owned set keeps of a case."""

    def __init__(self, case, owned):
        conditions, milestones = case.sources("condition", owned), case.sources("milestone", owned)
        self.owned = owned
        self.executed = owned | conditions
        self.pending = owned | milestones
        self.included = owned | conditions | milestones
        # Which targets of each kind the local relations have.
        self.targets = {
            "cancel": self.pending,
            "condition": owned,
            "exclude": self.included,
            "include": self.included,
            "milestone": owned,
            "response": self.pending,
        }
        self.pairs = {kind: {pair for pair in case.pairs[kind] if pair[1] in self.targets[kind]} for kind in KINDS}
        changing = {a for kind in ("response", "cancel", "include", "exclude") for a, _ in self.pairs[kind]}
        self.alphabet = self.included | changing


def listed(items):
    return "[" + ",".join(items) + "]"


def numbers(case, atoms):
    return listed(str(k) for k in sorted(case.number[atom] for atom in atoms))


def rows(case, pairs):
    sources = sorted({a for a, _ in pairs}, key=case.number.get)
    return listed("[%d,%s]" % (case.number[a], numbers(case, {b for c, b in pairs if c == a})) for a in sources)


def part(case, name):
    """The text of the part of the site with this name."""
    names = [site for site, _ in case.sites]
    refuse(name not in names, 18, "no-site", name)
    number = names.index(name)
    site = Site(case, case.sites[number][1])
    alphabet = listed(
        '[%d,"%s",%s]' % (case.number[a], a, "true" if a in site.owned else "false") for a in sorted(site.alphabet, key=case.number.get)
    )
    opening = '{"executed":%s,"included":%s,"pending":%s}' % tuple(
        numbers(case, marks)
        for marks in (case.executed & site.executed, case.included & site.included, case.pending & site.pending)
    )
    relations = ",".join('"%s":%s' % (kind, rows(case, site.pairs[kind])) for kind in KINDS)
    return (
        '{"alphabet":%s,"atoms":%d,"digest":"%s","format":"dcr part 1","number":%d,"opening":%s,"relations":{%s},"site":"%s"}\n'
        % (alphabet, len(case.atoms), digest_of(case).hex(), number, opening, relations, name)
    ).encode()


def answer(data, name):
    """The status for these bytes and this site, and what is written."""
    try:
        return 0, part(read_case(data, Case), name)
    except Refused as refusal:
        return 3, b"%s\n" % str(refusal).encode()


def read(data):
    """The lines that say what a part says."""
    try:
        told = json.loads(data)
        names = {number: name for number, name, _ in told["alphabet"]}
        yield "site %s, number %d, of a case of %d atoms with the digest %s" % (told["site"], told["number"], told["atoms"], told["digest"])
        for number, name, owned in told["alphabet"]:
            marks = [word for word in ("executed", "included", "pending") if number in told["opening"][word]]
            yield "%s %s%s" % ("owns" if owned else "hears of", name, ": " + ", ".join(marks) if marks else "")
        for kind in KINDS:
            for source, targets in told["relations"][kind]:
                yield "%s %s -> %s" % (kind, names[source], ", ".join(names[target] for target in targets))
    except (ValueError, KeyError, TypeError):
        raise Wrong("the input is no part") from None


@command(__doc__)
def main(words):
    if len(words) != 1:
        raise Usage
    data = sys.stdin.buffer.read(MOST_BYTES + 1)
    if words == ["--read"]:
        print("\n".join(read(data)))
        return 0
    status, wrote = answer(data, words[0])
    sys.stdout.buffer.write(wrote)
    return status


if __name__ == "__main__":
    sys.exit(main(sys.argv[1:]))
