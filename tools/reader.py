#!/usr/bin/env python3
"""A plain reader of case files in another language, which tells for any bytes what `dcr run` answers.

    tools/reader.py < FILE      the line of the refusal, or the report; the status is 3 or 0

It reads JSON by itself, since readers of JSON differ at the edges: what Python's takes besides (NaN, a lone surrogate,
numbers that are infinite, any depth) is refused here. Then come the tables of docs/FORMATS.md, one function each, in
their order. The report of a case that is accepted is model.py's.
"""

import json
import math
import re
import sys

from command import Usage, command
from model import KINDS, Case

MOST_BYTES = 16_777_216
MOST_NESTED = 127
MARKS = ("executed", "pending", "included")
# How many words each call has.
LENGTHS = {"exec": 3, "look": 2, "enabled": 2, "accepting": 1}
NAME = re.compile(r"[A-Za-z][A-Za-z0-9_.-]{0,63}\Z")
SPACE = re.compile(r"[ \t\n\r]*")
NUMERAL = re.compile(r"-?(?:0|[1-9][0-9]*)(?:\.[0-9]+)?(?:[eE][+-]?[0-9]+)?")
PLAIN = re.compile(r'[^"\\\x00-\x1f]*')
UNIT = re.compile(r"\\u([0-9a-fA-F]{4})")
WORDS = {"true": True, "false": False, "null": None}
ESCAPES = {'"': '"', "\\": "\\", "/": "/", "b": "\b", "f": "\f", "n": "\n", "r": "\r", "t": "\t"}


class Refused(Exception):
    """A refusal, with the line that is written."""


class NotJson(Exception):
    pass


def refuse(holds, *words):
    if holds:
        raise Refused("refused " + " ".join(map(str, words)))


# ---- JSON


class Text:
    """A text, and how far it is read."""

    def __init__(self, text):
        self.text, self.at = text, 0

    def skip(self):
        self.at = SPACE.match(self.text, self.at).end()

    def next(self):
        """The next character; nothing at the end."""
        return self.text[self.at : self.at + 1]

    def take(self, word):
        if not self.text.startswith(word, self.at):
            raise NotJson
        self.at += len(word)

    def value(self, depth=0):
        """A value inside as many arrays and objects, with the space round it."""
        self.skip()
        first = self.next()
        if first == '"':
            found = self.string()
        elif first in ("{", "["):
            if depth == MOST_NESTED:
                raise NotJson
            found = self.object(depth + 1) if first == "{" else self.array(depth + 1)
        elif first in ("t", "f", "n"):
            word = {"t": "true", "f": "false", "n": "null"}[first]
            self.take(word)
            found = WORDS[word]
        else:
            found = self.number()
        self.skip()
        return found

    def number(self):
        numeral = NUMERAL.match(self.text, self.at)
        if numeral is None or math.isinf(float(numeral[0])):
            raise NotJson
        self.at = numeral.end()
        return float(numeral[0])

    def unit(self):
        """The number of an escape by four digits."""
        escape = UNIT.match(self.text, self.at)
        if escape is None:
            raise NotJson
        self.at = escape.end()
        return int(escape[1], 16)

    def escaped(self):
        """The character that a \\ begins."""
        letter = self.text[self.at + 1 : self.at + 2]
        if letter in ESCAPES:
            self.at += 2
            return ESCAPES[letter]
        first = self.unit()
        if 0xD800 <= first < 0xDC00:
            second = self.unit()
            if not 0xDC00 <= second < 0xE000:
                raise NotJson
            return chr(0x10000 + ((first - 0xD800) << 10) + (second - 0xDC00))
        if 0xDC00 <= first < 0xE000:
            raise NotJson
        return chr(first)

    def string(self):
        self.take('"')
        parts = []
        while True:
            plain = PLAIN.match(self.text, self.at)
            parts.append(plain[0])
            self.at = plain.end()
            if self.next() != "\\":
                self.take('"')
                return "".join(parts)
            parts.append(self.escaped())

    def array(self, depth):
        self.take("[")
        items = []
        self.skip()
        while self.next() != "]" or items:
            items.append(self.value(depth))
            if self.next() == "]":
                break
            self.take(",")
        self.take("]")
        return items

    def object(self, depth):
        """The members; of two with one key the last."""
        self.take("{")
        members = {}
        self.skip()
        while self.next() != "}" or members:
            self.skip()
            key = self.string()
            self.skip()
            self.take(":")
            members[key] = self.value(depth)
            if self.next() == "}":
                break
            self.take(",")
        self.take("}")
        return members


def read_json(data):
    """The value that the bytes spell: objects are dicts, numbers floats."""
    try:
        text = Text(data.decode())
    except UnicodeDecodeError:
        raise NotJson from None
    value = text.value()
    if text.at < len(text.text):
        raise NotJson
    return value


# ---- the tables


def is_texts(value):
    return isinstance(value, list) and all(isinstance(text, str) for text in value)


def is_event(event):
    if not isinstance(event, dict) or not isinstance(event.get("name"), str):
        return False
    types = {**dict.fromkeys(MARKS, bool), "parent": str, "label": str}
    return all(isinstance(event[name], kind) for name, kind in types.items() if name in event)


def is_site(site):
    return isinstance(site, dict) and isinstance(site.get("site"), str) and is_texts(site.get("events"))


def try_shape(file):
    refuse(not isinstance(file, dict) or file.get("version", "1") not in ("1", "2", "3"), 3, "shape top 0")
    kinds = KINDS if file.get("version", "1") == "1" else [*KINDS, "cancel"]
    graph = file.get("graph")
    refuse(not isinstance(graph, dict), 3, "shape graph 0")
    refuse(not isinstance(graph.get("events"), list), 3, "shape graph 0")
    refuse(not isinstance(graph.get("relations", []), list), 3, "shape graph 0")
    for i, event in enumerate(graph["events"]):
        refuse(not is_event(event), 3, "shape event", i)
    for i, relation in enumerate(graph.get("relations", [])):
        refuse(not is_texts(relation) or len(relation) != 3 or relation[0] not in kinds, 3, "shape relation", i)
    refuse(not isinstance(file.get("cover"), list), 3, "shape cover 0")
    for i, site in enumerate(file["cover"]):
        refuse(not is_site(site), 3, "shape site", i)
    refuse(not isinstance(file.get("sessions", []), list), 3, "shape sessions 0")
    for k, session in enumerate(file.get("sessions", [])):
        refuse(not is_texts(session), 3, "shape session", k)


def named(file):
    """The file with the members that count alone, those that may be missing too."""
    counting, events = ("name", "parent", "label", "roles", *MARKS), file["graph"]["events"]
    events = [{name: event[name] for name in counting if name in event} for event in events]
    return {
        "version": file.get("version", "1"),
        "graph": {"events": events, "relations": file["graph"].get("relations", [])},
        "cover": [{"site": site["site"], "events": site["events"]} for site in file["cover"]],
        "sessions": file.get("sessions", []),
        **{member: file[member] for member in ("users", "by") if member in file},
    }


def try_limits(file):
    events, sessions = file["graph"]["events"], file["sessions"]
    parents = {event.get("parent") for event in events}
    labels = [len(event["label"].encode()) for event in events if "label" in event]
    sites, calls = len(file["cover"]), sum(map(len, sessions))
    atoms = sum(event["name"] not in parents for event in events)
    refuse(len(events) > 2048, 4, "limit nodes", len(events))
    refuse(atoms > 1024, 4, "limit atoms", atoms)
    refuse(len(file["graph"]["relations"]) > 4096, 4, "limit relations", len(file["graph"]["relations"]))
    for label in labels:
        refuse(label > 200, 4, "limit label", label)
    refuse(not 1 <= sites <= 64, 4, "limit sites", sites)
    refuse(len(sessions) > 1024, 4, "limit sessions", len(sessions))
    refuse(calls > 200_000, 4, "limit calls", calls)


def try_nodes(graph):
    events, names = graph["events"], set()
    for i, event in enumerate(events):
        refuse(not NAME.match(event["name"]) or event["name"] in names, 5, "event-name", i)
        names.add(event["name"])
    earlier = set()
    for i, event in enumerate(events):
        refuse("parent" in event and event["parent"] not in earlier, 6, "parent", i)
        earlier.add(event["name"])
    parents = {event.get("parent") for event in events}
    for i, event in enumerate(events):
        refuse(event["name"] in parents and any(mark in event for mark in MARKS), 7, "mark-on-nest", i)
    for i, (_, source, target) in enumerate(graph["relations"]):
        refuse(source not in names or target not in names, 8, "relation-end", i)


def try_cover(case, cover):
    names, known = set(), set(case.parent)
    for i, site in enumerate(cover):
        refuse(not NAME.match(site["site"]) or site["site"] in names, 10, "site-name", i)
        names.add(site["site"])
        for j, text in enumerate(site["events"]):
            refuse(text not in known, 10, "owned", i, j)
    owned = set().union(*[owned for _, owned in case.sites])
    for atom in case.atoms:
        refuse(atom not in owned, 11, "uncovered", atom)


def is_call(case, text):
    """Whether the text is a call over the sites and atoms of the case."""
    words = text.split(" ")
    if LENGTHS.get(words[0]) != len(words):
        return False
    is_at = len(words) < 2 or any(words[1] == name for name, _ in case.sites)
    return is_at and (len(words) < 3 or words[2] in case.number)


def try_policy(case):
    wrong = case.policy.wrong()
    refuse(wrong is not None, 16, "policy", *(wrong or ()))
    for k, session in enumerate(case.sessions):
        for j, call in enumerate(session):
            role = case.denied(k, call)
            refuse(role is not None, 17, "denied", k, j, role)


def read_case(data, kind=Case):
    """The case that the bytes spell, as a model of this kind."""
    refuse(len(data) > MOST_BYTES, 1, "too-long")
    try:
        file = read_json(data)
    except NotJson:
        raise Refused("refused 2 not-json") from None
    try_shape(file)
    file = named(file)
    try_limits(file)
    try_nodes(file["graph"])
    case = kind(json.dumps(file))
    clashes = case.pairs["include"] & case.pairs["exclude"]
    for a, b in sorted(clashes, key=lambda pair: (case.number[pair[0]], case.number[pair[1]])):
        refuse(True, 9, "clash", a, b)
    try_cover(case, file["cover"])
    for k, session in enumerate(file["sessions"]):
        for j, call in enumerate(session):
            refuse(not is_call(case, call), 12, "call-line", k, j)
    try_policy(case)
    return case


def answer(data):
    """The status of `dcr run` for these bytes, and what is written."""
    try:
        return 0, read_case(data).report().encode()
    except Refused as refusal:
        return 3, b"%s\n" % str(refusal).encode()


@command(__doc__)
def main(words):
    if words:
        raise Usage
    status, wrote = answer(sys.stdin.buffer.read(MOST_BYTES + 1))
    sys.stdout.buffer.write(wrote)
    return status


if __name__ == "__main__":
    sys.exit(main(sys.argv[1:]))
