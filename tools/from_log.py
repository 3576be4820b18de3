#!/usr/bin/env python3
"""Makes an input of `dcr conform` of a case file and of a log as other tools write it: XES, or a table of CSV.

    tools/from_log.py [OPTIONS] CASE LOG > log.input

LOG may be packed by gzip, and may be `-`, for standard input. Of XES a trace's `concept:name` is the id of its case, and an
event's its activity. Of CSV these are the columns `case:concept:name` and `concept:name`, or else `case` and `event`.

    --case NAME, --event NAME, --time NAME, --transition NAME    other keys of attributes, or other columns
    --separator C       of CSV, where no commas stand between the fields; `tab` is the tab
    --by name           an activity is the event with this name, and no other; `--by label`: with this label, and no other.
                        Without it: the event with this name, or else the one with this label
    --drop              activities that are no event of the case are left out; without it they stand in the input, so that
                        their traces are told as `unknown`
    --lifecycle WORD    events with another transition (as `start` where WORD is `complete`) are left out
    --by-time           the events of each trace are put in the order of their times; those of one time stay as they stand
    --table FILE        the id of the case behind each trace's name, as a table of CSV
    --parts FRONT       the input goes to FRONT1, and to FRONT2 and so on where it has more bytes than dcr takes

On standard error is told what is left out, which activities are no event, and that names of traces are not the ids: a name
has 1 to 64 ASCII letters, digits, `_`, `-` and `.`; an id that has is kept, for each other one a name is made that no other
trace has. The status is 0, 3 where dcr would refuse the case, and 2 where the words are others or a file is missing or no log.
"""

import collections
import csv
import re
import sys

from command import Usage, Wrong, command, read_bytes
from convert import spelled
from event_log import moment, read_log
from explain import near
from reader import MOST_BYTES, Refused, read_case

DONE, REFUSED = 0, 3
VALUES = ("case", "event", "time", "transition", "separator", "by", "lifecycle", "table", "parts")
FLAGS = ("drop", "by-time")
TRACE = re.compile(r"[A-Za-z0-9_.-]{1,64}")
QUOTED = re.compile(r'[",\r\n]')
# How many letters of an id stand in a name that is made for it, so that a number has room behind them.
MOST_OF_ID = 50
# How many letters of an activity are shown.
MOST_SHOWN = 200
# Of how many activities that are no event it is looked for one that may be meant, which takes time.
MOST_HINTS = 100


def tell(line):
    print(line, file=sys.stderr)


def options(words):
    """What the options say, and the words behind them."""
    given, words = {}, list(words)
    while words and words[0].startswith("--"):
        name = words.pop(0)[2:]
        if name in FLAGS:
            given[name] = True
        elif name in VALUES and words:
            given[name] = words.pop(0)
        else:
            raise Usage
    separator = "\t" if given.get("separator") == "tab" else given.get("separator", ",")
    if len(words) != 2 or len(separator) != 1 or separator in '"\r\n' or given.get("by", "name") not in ("name", "label"):
        raise Usage
    return {**given, "separator": separator}, words


# ---- activities


class Events:
    """Which event of a case an activity is."""

    def __init__(self, case, by):
        self.case, self.known, self.hints = case, {}, MOST_HINTS
        atoms, labels = set(case.atoms), collections.defaultdict(list)
        for event in case.events:
            if event["name"] in atoms:
                labels[event.get("label", event["name"])].append(event["name"])
        if by != "name":
            self.known.update({label: names[0] for label, names in labels.items() if len(names) == 1})
        if by != "label":
            self.known.update({name: name for name in case.atoms})
        self.several = {label: names for label, names in labels.items() if len(names) > 1 and label not in self.known and by != "name"}

    def text_of(self, activity):
        """The event's name; of an activity that is none, a text that is no event's name."""
        found = self.known.get(activity, activity)
        return found if activity in self.known or found not in self.case.number else "?" + found

    def why_unknown(self, activity):
        if activity in self.several:
            return ": it is the label of %s" % " and ".join("`%s`" % it for it in self.several[activity])
        if activity in self.case.parent and activity not in self.case.number:
            return ": it is a nest"
        self.hints -= 1
        return near(activity, [*self.known]) if self.hints >= 0 and len(activity) <= MOST_SHOWN else ""

    def tell_unknown(self, traces, is_dropped):
        """Tells which activities of the traces are no event, and which events are no activity."""
        times, places = collections.Counter(), collections.Counter()
        for trace in traces:
            own = [it.activity for it in trace.events]
            times.update(own)
            places.update({*own})
        for activity in times:
            if activity not in self.known:
                shown = activity if len(activity) <= MOST_SHOWN else activity[:MOST_SHOWN] + ".."
                tell("%s: the activity `%s`, %d times in %d traces%s" % ("left out" if is_dropped else "no event", shown, times[activity], places[activity], self.why_unknown(activity)))
        named = {self.known.get(it) for it in times}
        lost = [it for it in self.case.atoms if it not in named]
        if lost:
            tell("never in the log: %s" % ", ".join("`%s`" % it for it in lost))


# ---- traces


def without_other_transitions(traces, wanted):
    """Leaves out the events with another transition; those without one stay."""
    count = collections.Counter(it.transition for trace in traces for it in trace.events if it.transition)
    if wanted is None:
        if len(count) > 1:
            tell("the log has the transitions %s; by --lifecycle complete, say, those of one alone are taken" % ", ".join("`%s` (%d)" % it for it in count.items()))
        return
    for trace in traces:
        trace.events = [it for it in trace.events if it.transition.lower() in ("", wanted.lower())]
    for word, times in count.items():
        if word.lower() != wanted.lower():
            tell("left out: %d events with the transition `%s`" % (times, word))


def in_order_of_time(traces, path):
    for trace in traces:
        try:
            trace.events.sort(key=lambda it: moment(it.time))
        except ValueError as error:
            raise Wrong("%s: of an event of the case `%s` the time can't be told: %s" % (path, trace.id, error)) from None


def names_of(traces):
    """A name for each trace, no two the same: its id, where that is a name and is no earlier trace's, or one that is made of it."""
    # (the ids that are names first, so that none of these loses its own to one that is made)
    found, taken, next_number = [None] * len(traces), set(), {}
    for k, trace in enumerate(traces):
        if TRACE.fullmatch(trace.id) and trace.id not in taken:
            found[k] = trace.id
            taken.add(trace.id)
    for k, trace in enumerate(traces):
        if found[k] is None:
            front = spelled(trace.id)[:MOST_OF_ID] or "trace"
            name, number = front, next_number.get(front, 2)
            while name in taken:
                name, number = "%s-%d" % (front, number), number + 1
            found[k], next_number[front] = name, number
            taken.add(name)
    return found


def tell_renamed(traces, names, has_table):
    other = [(trace.id, name) for trace, name in zip(traces, names) if trace.id != name]
    if other:
        kept = "" if has_table else "; --table FILE keeps the ids"
        tell("renamed: %d of %d traces, as the case `%s` to `%s`%s" % (len(other), len(traces), *other[0], kept))


# ---- the input


def field(text):
    return '"%s"' % text.replace('"', '""') if QUOTED.search(text) else text


def records(events, name, trace):
    """The records of a trace."""
    return "".join("%s,%s\n" % (name, field(events.text_of(it.activity))) for it in trace.events).encode()


def inputs(case, events, names, traces):
    """The inputs: one, or as many as are wanted so that none has more bytes than dcr takes. A trace stands in one of them."""
    head = case + b"\ncase,event\n"
    room, parts, size = MOST_BYTES - len(head), [], 0
    if room < 0:
        raise Wrong("the case has %d bytes, which leaves no room for a log" % len(case))
    for name, trace in zip(names, traces):
        part = records(events, name, trace)
        if len(part) > room:
            raise Wrong("the trace `%s` has %d bytes, and with the case at most %d stand in an input" % (name, len(part), MOST_BYTES))
        if size + len(part) > room:
            yield b"".join([head, *parts])
            parts, size = [], 0
        parts.append(part)
        size += len(part)
    yield b"".join([head, *parts])


def on_one_line(data):
    """A case file on one line: no text of JSON holds an end of a line, so that each is space between its parts."""
    return b" ".join(it.strip() for it in data.splitlines() if it.strip())


def put_inputs(made, front):
    if front is None:
        first, *more = made
        if more:
            raise Wrong("the log makes %d inputs of at most %d bytes: name the front of their files by --parts" % (1 + len(more), MOST_BYTES))
        sys.stdout.buffer.write(first)
        return
    for number, data in enumerate(made, 1):
        with open("%s%d" % (front, number), "wb") as file:
            file.write(data)
        tell("%s%d: %d bytes" % (front, number, len(data)))


def put_table(path, names, traces):
    with open(path, "w", encoding="utf-8", newline="") as file:
        table = csv.writer(file, lineterminator="\n")
        table.writerow(["trace", "case"])
        table.writerows([name, trace.id] for name, trace in zip(names, traces))


@command(__doc__)
def main(words):
    given, (case_path, log_path) = options(words)
    data = read_bytes(case_path)
    try:
        case = read_case(data)
    except Refused as refusal:
        tell("%s: %s" % (case_path, refusal))
        return REFUSED
    named = {it: given[it] for it in ("case", "event", "time", "transition") if it in given}
    wanted = ["case", "event", *["time"] * ("by-time" in given), *["transition"] * ("lifecycle" in given)]
    traces = read_log(log_path, named, wanted, given["separator"], tell)
    without_other_transitions(traces, given.get("lifecycle"))
    if "by-time" in given:
        in_order_of_time(traces, log_path)
    events = Events(case, given.get("by"))
    events.tell_unknown(traces, "drop" in given)
    if "drop" in given:
        for trace in traces:
            trace.events = [it for it in trace.events if it.activity in events.known]
    empty = sum(not trace.events for trace in traces)
    if empty:
        tell("left out: %d traces without an event" % empty)
    traces = [it for it in traces if it.events]
    names = names_of(traces)
    tell_renamed(traces, names, "table" in given)
    put_inputs(inputs(on_one_line(data), events, names, traces), given.get("parts"))
    if "table" in given:
        put_table(given["table"], names, traces)
    return DONE


if __name__ == "__main__":
    sys.exit(main(sys.argv[1:]))
