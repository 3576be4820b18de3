#!/usr/bin/env python3
"""A plain check of reports in another language: the second checker, beside `dcr replay`.

    tools/replay.py check < REPORT        whether a report is valid, or its first wrong line, as `dcr replay` writes it
    tools/replay.py compare COUNT SEED    the reports of as many random cases, each also changed in some place, by the
                                          program and by this check

`check` needs Python alone, and neither the kit nor a build; nothing is proved of what it prints. Its status is that of
`dcr replay`: 0 where the report is valid, 8 where a line is wrong, 3 where there are more than 268435456 bytes. It reads
the table of the format line by line, and takes the rules from model.py. `compare` ends with status 1 at the first text
of which the two tell different things, and prints it.
"""

import json
import os
import random
import re
import subprocess
import sys

from command import Usage, Wrong, command
from model import KINDS, PROGRAM, Case, random_case

REPLAY = [PROGRAM[0], "replay"]
NAME = re.compile(r"[A-Za-z][A-Za-z0-9_.-]{0,63}\Z")
NUMBER = re.compile(r"(0|[1-9][0-9]*)\Z")
MOST_BYTES = 268_435_456
DONE, REFUSED, INVALID = 0, 3, 8


class WrongLine(Exception):
    """That a line is wrong, and what was to stand there, where one text alone can."""

    wanted = None


def want(holds, wanted=None):
    if not holds:
        wrong = WrongLine()
        wrong.wanted = wanted
        raise wrong


def compact(value):
    return json.dumps(value, separators=(",", ":"), ensure_ascii=False)


def value_of(line, word):
    """The JSON value behind a word; the line must be its compact text."""
    want(line is not None and line.startswith(word))
    try:
        text = line[len(word) :].decode()
        value = json.loads(text)
        want(compact(value) == text)
    except (ValueError, RecursionError):
        raise WrongLine from None
    return value


def read_graph(line, version):
    graph = value_of(line, b"graph ")
    want(isinstance(graph, dict) and list(graph) == ["events", "relations"])
    events, relations = graph["events"], graph["relations"]
    want(isinstance(events, list) and isinstance(relations, list) and len(events) <= 2048 and len(relations) <= 4096)
    names = []
    for event in events:
        want(isinstance(event, dict) and list(event) in (["label", "name"], ["label", "name", "parent"]))
        want(all(isinstance(text, str) for text in event.values()) and len(event["label"].encode()) <= 200)
        want(NAME.match(event["name"]) and event["name"] not in names)
        want(event.get("parent", None) in [None, *names])
        names.append(event["name"])
    for relation in relations:
        want(isinstance(relation, list) and len(relation) == 3 and all(isinstance(text, str) for text in relation))
        want(relation[0] in KINDS or (relation[0] == "cancel" and version == "2"))
        want(relation[1] in names and relation[2] in names)
    file = {"version": version, "graph": graph, "cover": []}
    case = Case(json.dumps(file))
    want(len(case.atoms) <= 1024 and not case.pairs["include"] & case.pairs["exclude"])
    return file, case


def read_cover(line, file, case):
    cover = value_of(line, b"cover ")
    want(isinstance(cover, list) and 1 <= len(cover) <= 64)
    sites, owned = [], set()
    for site in cover:
        want(isinstance(site, dict) and list(site) == ["events", "site"] and isinstance(site["site"], str) and isinstance(site["events"], list))
        want(NAME.match(site["site"]) and site["site"] not in sites)
        want(all(isinstance(text, str) and text in case.number for text in site["events"]))
        numbers = [case.number[text] for text in site["events"]]
        want(all(a < b for a, b in zip(numbers, numbers[1:])))
        sites.append(site["site"])
        owned |= set(site["events"])
    want(owned == set(case.atoms))
    file["cover"] = cover
    return Case(json.dumps(file))


def read_list(case, text):
    if text == "-":
        return set()
    names = text.split(",")
    want(all(name in case.number for name in names))
    numbers = [case.number[name] for name in names]
    want(all(a < b for a, b in zip(numbers, numbers[1:])))
    return set(names)


def read_mark(case, words):
    want(len(words) == 6 and words[0::2] == ["executed", "pending", "included"])
    return tuple(read_list(case, text) for text in words[1::2])


def want_outcome(case, call, words):
    """That the words are an outcome of this kind of call, whichever."""
    if call[0] == "exec":
        if words[0] in ("condition", "milestone"):
            want(len(words) == 2 and words[1] in case.number)
        else:
            want(words in (["done"], ["not-here"], ["excluded"], ["faulted"]))
    elif call[0] == "look":
        read_mark(case, words)
    elif call[0] == "enabled":
        want(len(words) == 2 and words[0] == "can")
        read_list(case, words[1])
    elif words[0] == "waits":
        want(len(words) == 2 and words[1] in case.number)
    else:
        want(words == ["yes"])


def read_entry(case, line, place, made):
    """The session, the call and the outcome of the next entry."""
    try:
        words = line.decode().split(" ")
    except UnicodeDecodeError:
        raise WrongLine from None
    want(len(words) >= 4 and all(len(word) < 20 and NUMBER.match(word) for word in words[:3]))
    session = int(words[1])
    want(int(words[0]) == place and session < 1024 and int(words[2]) == made.get(session, 0))
    lengths = {"exec": 3, "look": 2, "enabled": 2, "accepting": 1}
    want(words[3] in lengths)
    call, outcome = words[3:][: lengths[words[3]]], words[3:][lengths[words[3]] :]
    want(len(call) == lengths[words[3]] and outcome)
    want(len(call) < 2 or call[1] in dict(case.sites))
    want(len(call) < 3 or call[2] in case.number)
    want_outcome(case, call, outcome)
    return session, " ".join(call), " ".join(outcome)


def answer(case, call, outcome):
    """The answer, without its effect where the outcome is a fault in the place of done."""
    before = case.executed, case.pending, case.included
    told = case.answer(call)
    if told == "done" and outcome == "faulted":
        case.executed, case.pending, case.included = before
        return "faulted"
    return told


def walked(data):
    """Whether a report is valid, the number of its entries or of its first wrong line, what is expected in that line,
    and the text that was to stand there, where one text alone can."""
    pieces = data.split(b"\n")
    lines = pieces[:-1]
    rest = pieces[-1]

    def line(number):
        return lines[number - 1] if number <= len(lines) else None

    number, kind = 1, "head"
    try:
        want(line(1) in (b"dcr 1", b"dcr 2"))
        number, kind = 2, "graph"
        file, case = read_graph(line(2), line(1).decode()[4:])
        number, kind = 3, "cover"
        case = read_cover(line(3), file, case)
        number, kind = 4, "open"
        want(line(4) is not None and line(4).startswith(b"open "))
        try:
            words = line(4).decode().split(" ")
        except UnicodeDecodeError:
            raise WrongLine from None
        case.executed, case.pending, case.included = read_mark(case, words[1:])
        number, kind, made, count, faulted = 5, "entry", {}, 0, False
        while True:
            text = line(number)
            if text is None and number == len(lines) + 1:
                # A line without its end is taken as an entry where it begins with a digit, and is wrong.
                want(not rest[:1].isdigit())
            if text is None or not text[:1].isdigit():
                break
            kind = "entry"
            want(count < 200_000 and not faulted)
            session, call, outcome = read_entry(case, text, count, made)
            kind = "outcome"
            told = answer(case, call, outcome)
            want(told == outcome, told)
            made[session] = made.get(session, 0) + 1
            number, count, faulted, kind = number + 1, count + 1, outcome == "faulted", "entry"
        wanted = [("site", "site %s %s" % (name, case.projected(owned))) for name, owned in case.sites]
        wanted.append(("verdict", "verdict waits " + case.waits() if case.waits() else "verdict accepting"))
        wanted.append(("end", "end %d" % count))
        for kind, text in wanted:
            want(line(number) == text.encode(), text)
            number += 1
        kind = "extra"
        want(number == len(lines) + 1 and not rest)
    except WrongLine as wrong:
        return False, number, kind, wrong.wanted
    return True, count, None, None


def check(data):
    """What is told of a report: valid, or the first wrong line."""
    is_valid, number, kind, _ = walked(data)
    return "valid %d\n" % number if is_valid else "invalid %d %s\n" % (number, kind)


def verdict(data):
    """The status of `dcr replay` for these bytes, and the line that is written."""
    if len(data) > MOST_BYTES:
        return REFUSED, "refused 1 too-long\n"
    line = check(data)
    return DONE if line.startswith("valid ") else INVALID, line


def changed(draw, data):
    """The report with some place changed."""
    lines = data.split(b"\n")
    at, other = draw.randrange(len(lines)), draw.randrange(len(lines))
    way = draw.randrange(9)
    if way == 0:
        del lines[at]
    elif way == 1:
        lines.insert(at, lines[other])
    elif way == 2:
        lines[at], lines[other] = lines[other], lines[at]
    elif way == 3:
        words, more = lines[at].split(b" "), lines[other].split(b" ")
        words[draw.randrange(len(words))] = draw.choice(more)
        lines[at] = b" ".join(words)
    elif way == 4:
        # The end of an entry by another outcome of the kind.
        lines[at] = re.sub(rb"(done|excluded|not-here|faulted|condition \S+|milestone \S+)$", draw.choice([b"done", b"excluded", b"not-here", b"faulted", b"condition e0"]), lines[at])
    elif way == 5:
        words = lines[at].split(b" ")
        k = draw.randrange(len(words))
        words[k] = draw.choice([b"-", b"", b"0", b"00", b"1024", words[k] + b",e0", words[k][::-1]])
        lines[at] = b" ".join(words)
    text = b"\n".join(lines)
    where = draw.randrange(len(text) + 1)
    if way == 6:
        text = text[:where]
    elif way == 7:
        text = text[:where] + bytes([draw.choice(b"0129 ,-\nase\"\r\xff{[")]) + text[where:]
    elif way == 8 and where < len(text):
        text = text[:where] + bytes([draw.choice(b"0129 ,-\nase\"\r\xff{[")]) + text[where + 1 :]
    return text


def told(data):
    return subprocess.run(REPLAY, input=data, capture_output=True).stdout.decode()


def compare(count, seed):
    draw, kinds = random.Random(seed), {}
    for _ in range(count):
        report = subprocess.run(PROGRAM, input=random_case(draw).encode(), capture_output=True).stdout
        if report.startswith(b"refused 9 clash "):
            continue
        for text in (report, changed(draw, report), changed(draw, changed(draw, report))):
            line = told(text)
            if line != check(text):
                sys.stdout.buffer.write(text)
                print("\nprogram: %smodel: %s" % (line, check(text)))
                return 1
            kind = line.split()[-1] if line.startswith("invalid") else "valid"
            kinds[kind] = kinds.get(kind, 0) + 1
    print("the same of %d texts: %s" % (sum(kinds.values()), ", ".join("%s %d" % pair for pair in sorted(kinds.items()))))
    return 0


@command(__doc__)
def main(words):
    if words == ["check"]:
        status, line = verdict(sys.stdin.buffer.read(MOST_BYTES + 1))
        sys.stdout.write(line)
        return status
    if len(words) != 3 or words[0] != "compare" or not (words[1] + words[2]).isdigit():
        raise Usage
    if not os.path.exists(PROGRAM[0]):
        raise Wrong("the program is not built: call ./dcr first")
    return compare(int(words[1]), int(words[2]))


if __name__ == "__main__":
    sys.exit(main(sys.argv[1:]))
