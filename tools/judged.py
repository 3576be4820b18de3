#!/usr/bin/env python3
"""Sums up what `dcr conform` says of the traces of a log: how many end accepting, wait, are refused, and by what.

    tools/judged.py [OPTIONS] LINES..         the summary
    tools/judged.py list [OPTIONS] LINES..    each trace, as a table of CSV

LINES is what `dcr conform` wrote, one file for each input, and may be `-`. The options:

    --input INPUT   what dcr was given for these lines, the case and its log; again for each input. A line tells the place of
                    an event and not the event: with the inputs it is told too which event was refused, by which relation of
                    the case file, and which text is no event
    --case CASE     the case file alone: the labels are told, and the relations of the file by which it may have been
    --table TABLE   what tools/from_log.py wrote: the ids of the cases are told in place of the traces' names

The columns of `list` are the trace, its case, the answer, the place or the number of events, the event at that place, the
cause, and the event that is the cause, that excluded it, or that is waited for.

The status is 0, and 2 where the words are others, or a file is missing, or its lines are none of `dcr conform`.
"""

import collections
import csv
import json
import re
import sys

from command import Usage, Wrong, command, read_bytes, read_text
from reader import Refused, read_case
from traces import read_log

LINE = re.compile(r"([A-Za-z0-9_.-]{1,64}) (?:(unknown) (\d+)|(refused) (\d+) (?:(excluded)|(condition|milestone) (\S+))|(waits) (\S+) (\d+)|(accepting) (\d+))")
COUNT = re.compile(r"traces (\d+)")
WAYS = {"accepting": "accepting", "waits": "waiting", "refused": "refused", "unknown": "with an unknown event"}
# How many traces are named of each kind.
SHOWN = 3


class Line:
    """What a line says: the trace, the answer, the place or the number of events, the cause, and the event that it names."""

    def __init__(self, found):
        self.trace, unknown, at, refused, place, excluded, kind, by, waits, owed, count, accepting, total = found.groups()
        self.answer = unknown or refused or waits or accepting
        self.at = int(at or place or count or total)
        self.cause, self.by = excluded or kind, by or owed


def read_lines(path):
    """What the lines of a file say."""
    lines = read_text(path).split("\n")
    if len(lines) == 2 and re.match(r"refused \d", lines[0]):
        raise Wrong("%s: the input was refused: %s (tools/explain.py INPUT %s says why)" % (path, lines[0], lines[0]))
    end = COUNT.fullmatch(lines[-2]) if len(lines) > 1 and not lines[-1] else None
    if end is None or int(end[1]) != len(lines) - 2:
        raise Wrong("%s: it doesn't end with the number of its lines, `traces N`: was it cut, or is it something else?" % path)
    for number, line in enumerate(lines[:-2], 1):
        found = LINE.fullmatch(line)
        if not found:
            raise Wrong("%s:%d: this is no line of `dcr conform`: %s" % (path, number, line[:100]))
        yield Line(found)


class Inputs:
    """The case, and the texts of each trace's events, as far as they are known: by inputs, by a case file alone, or not at all."""

    def __init__(self, paths, case):
        self.case, self.texts, self.labels, files = None, {}, {}, set()
        for path in [*case, *paths]:
            file, log = read_bytes(path), None
            if path not in case:
                file, _, log = file.partition(b"\n")
            files.add(file)
            try:
                self.case = read_case(file)
                self.texts.update({} if log is None else read_log(log))
            except Refused as refusal:
                raise Wrong("%s: %s" % (path, refusal)) from None
        if len(files) > 1:
            raise Wrong("there are several cases: sum up the lines of one at a time, by --input or by --case")
        if self.case:
            self.labels = {it["name"]: it["label"] for it in self.case.events if it.get("label", it["name"]) != it["name"]}

    def event(self, line):
        """The text at the place that a line tells of, or None."""
        if not self.texts or line.answer not in ("refused", "unknown"):
            return None
        texts = self.texts.get(line.trace, [])
        if line.at >= len(texts):
            raise Wrong("the inputs have no event at place %d of the trace `%s`: are they those of these lines?" % (line.at, line.trace))
        return texts[line.at]

    def cause(self, line):
        """The event that a line names; of one that is excluded the one that excluded it, or None where that was at opening."""
        if line.cause != "excluded" or not self.texts:
            return line.by
        event = self.event(line)
        return next((it for it in reversed(self.texts[line.trace][: line.at]) if (it, event) in self.case.pairs["exclude"]), None)

    def written(self, kind, source, target):
        """The relations of the case file by which the one event is so related to the other, or to any where that isn't known."""
        if None in (self.case, kind, source):
            return []
        above, below = self.case.line_of(source), self.case.parent if target is None else self.case.line_of(target)
        return [it for it in self.case.written if it[0] == kind and it[1] in above and it[2] in below]

    def shown(self, name):
        """An event's name, with its label where that is another text."""
        return "`%s` (%s)" % (name, self.labels[name]) if name in self.labels else "`%s`" % name


def words(inputs, answer, kind, event, by):
    """What the lines with this answer, cause and event are counted as."""
    if answer == "waits":
        return inputs.shown(by)
    if answer == "unknown":
        return "a text that is no event" if event is None else "the text `%s`" % event
    if kind == "excluded":
        how = "" if not inputs.texts else ", from the opening on" if by is None else ", by %s" % inputs.shown(by)
        return "%s is excluded%s" % ("an event" if event is None else inputs.shown(event), how)
    return "%s the %s %s" % ("by" if event is None else inputs.shown(event) + " has", kind, inputs.shown(by))


def places(found):
    """Where it was, in words."""
    times = collections.Counter(found)
    if len(times) == 1:
        return "at place %d" % found[0]
    return "at places %d to %d, most often %d" % (min(times), max(times), times.most_common(1)[0][0])


def put_group(title, lines, inputs, ids):
    """Prints the lines with an answer by what they are counted as, the most frequent first."""
    groups = {}
    for line in lines:
        groups.setdefault((line.answer, line.cause, inputs.event(line), inputs.cause(line)), []).append(line)
    if groups:
        print("\n%s" % title)
    for (answer, kind, event, by), own in sorted(groups.items(), key=lambda it: -len(it[1])):
        where = "" if answer == "waits" else ", " + places([it.at for it in own])
        named = ", ".join(ids.get(it.trace, it.trace) for it in own[:SHOWN]) + (", .." if len(own) > SHOWN else "")
        print("%8d  %s%s: %s" % (len(own), words(inputs, answer, kind, event, by), where, named))
        written = inputs.written("exclude" if kind == "excluded" else kind, by, event)
        for it in written:
            print("          %s%s" % ("or " if event is None and it is not written[0] else "", json.dumps(it)))


def put_summary(lines, inputs, ids):
    print("%8d  traces" % len(lines))
    for answer, words in WAYS.items():
        count = sum(it.answer == answer for it in lines)
        print("%8d  %s%s" % (count, words, ", %.1f%%" % (100 * count / len(lines)) if lines else ""))
    for answer, title in (("waits", "waiting for"), ("refused", "refused"), ("unknown", "unknown")):
        put_group(title, [it for it in lines if it.answer == answer], inputs, ids)


def put_list(lines, inputs, ids):
    table = csv.writer(sys.stdout, lineterminator="\n")
    table.writerow(["trace", "case", "answer", "at", "event", "cause", "by"])
    for it in lines:
        table.writerow([it.trace, ids.get(it.trace, it.trace), it.answer, it.at, inputs.event(it), it.cause, inputs.cause(it)])


def read_table(path):
    """The ids of a table, by the names of the traces."""
    with open(path, encoding="utf-8-sig", newline="") as file:
        rows = [it for it in csv.reader(file) if it]
    if rows[:1] != [["trace", "case"]] or any(len(it) != 2 for it in rows):
        raise Wrong("%s: this is no table with the columns `trace` and `case`" % path)
    return dict(rows[1:])


@command(__doc__)
def main(given):
    put, paths, case, ids = put_summary, [], [], {}
    if given[:1] == ["list"]:
        put, given = put_list, given[1:]
    while given and given[0].startswith("--"):
        option, path, given = given[0], given[1:2], given[2:]
        if option not in ("--input", "--case", "--table") or not path:
            raise Usage
        if option == "--table":
            ids.update(read_table(path[0]))
        else:
            (paths if option == "--input" else case).extend(path)
    if not given:
        raise Usage
    inputs = Inputs(paths, case)
    put([line for path in given for line in read_lines(path)], inputs, ids)
    return 0


if __name__ == "__main__":
    sys.exit(main(sys.argv[1:]))
