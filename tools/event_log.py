"""Reads event logs as other tools write them: XES, or a table of CSV; either may be packed by gzip.

Both are read into traces, each with the id of its case and its events in the order of the log.
"""

import codecs
import csv
import gzip
import io
import re
import sys
import xml.parsers.expat
import zlib
from datetime import datetime, timedelta
from fractions import Fraction

from command import Wrong

# What is looked for where no other key or column is named: the keys of XES, and the columns, of which the first that is there counts.
KEYS = {"case": "concept:name", "event": "concept:name", "time": "time:timestamp", "transition": "lifecycle:transition"}
COLUMNS = {"case": ["case:concept:name", "case"], "event": ["concept:name", "event"], "time": ["time:timestamp", "time"], "transition": ["lifecycle:transition", "transition"]}
PACKED = b"\x1f\x8b"
MARK = codecs.BOM_UTF8
MOMENT = re.compile(r"(\d{4})-(\d\d)-(\d\d)(?:[T ](\d\d):(\d\d)(?::(\d\d)(?:[.,](\d+))?)?)? ?(Z|[+-]\d\d:?\d\d)?")
NUMBER = re.compile(r"-?\d{1,40}(?:\.\d{1,40})?")
BEGIN = datetime(1970, 1, 1)


class Event:
    """An event of a log: its activity, when it was, and its transition (as `start` or `complete`), as far as they are told."""

    __slots__ = ("activity", "time", "transition")

    def __init__(self, activity, time, transition):
        self.activity, self.time, self.transition = activity, time, transition


class Trace:
    """A trace of a log: the id of its case, nothing where it has none, and its events."""

    def __init__(self, id, events):
        self.id, self.events = id, events


def moment(text):
    """The seconds since 1970 of a time as ISO 8601 writes it, or of a number. Without a zone it is taken as UTC."""
    text = text.strip()
    if NUMBER.fullmatch(text):
        return Fraction(text)
    found = MOMENT.fullmatch(text)
    if not found:
        raise ValueError("`%s` is no time as 2026-03-01T09:30:00+01:00, and no number" % text)
    *parts, digits, zone = found.groups()
    passed = datetime(*[int(it or 0) for it in parts]) - BEGIN
    if zone and zone != "Z":
        away = timedelta(hours=int(zone[1:3]), minutes=int(zone[-2:]))
        passed += away if zone[0] == "-" else -away
    return passed.days * 86400 + passed.seconds + Fraction("0." + (digits or "0"))


# ---- XES


class Xes:
    """What is read of a log in XES: an attribute counts where it stands directly in a trace or an event of it."""

    def __init__(self, keys, tell):
        self.keys, self.tell, self.open = keys, tell, []
        self.traces, self.found, self.loose, self.nameless = [], {}, 0, 0
        self.parser = xml.parsers.expat.ParserCreate()
        self.parser.StartElementHandler, self.parser.EndElementHandler = self.begin, self.end
        self.parser.StartDoctypeDeclHandler = self.refuse_types

    def refuse_types(self, *_):
        raise ValueError("it has a document type of its own, which isn't read")

    def begin(self, name, attributes):
        name, above = name.rpartition(":")[2], self.open[-1] if self.open else None
        if above is None and name != "log":
            raise ValueError("its first element is `%s`, and not `log`" % name)
        self.open.append(name)
        if name == "trace":
            self.traces.append(Trace("", []))
        elif name == "event":
            self.found = {}
        elif above == "trace" and attributes.get("key") == self.keys["case"]:
            self.traces[-1].id = attributes.get("value", "").strip()
        elif above == "event" and "key" in attributes:
            self.found[attributes["key"]] = attributes.get("value", "").strip()

    def end(self, _):
        if self.open.pop() != "event":
            return
        activity, time, transition = (self.found.get(self.keys[it], "") for it in ("event", "time", "transition"))
        if "trace" not in self.open:
            self.loose += 1
        elif not activity:
            self.nameless += 1
        else:
            self.traces[-1].events.append(Event(sys.intern(activity), time, sys.intern(transition)))

    def read(self, file):
        self.parser.ParseFile(file)
        if self.loose:
            self.tell("left out: %d events that stand in no trace" % self.loose)
        if self.nameless:
            self.tell("left out: %d events without `%s`" % (self.nameless, self.keys["event"]))
        return self.traces


# ---- CSV


def column(header, named, of, is_wanted):
    """The place of a column: the one that is named, or the first of those that are looked for. None where it isn't there."""
    for name in [named] if named else COLUMNS[of]:
        if name in header:
            return header.index(name)
    if is_wanted or named:
        raise ValueError("it has no column `%s` for the %s; its columns are %s: name one by --%s" % (named or COLUMNS[of][0], of, ", ".join("`%s`" % it for it in header), of))
    return None


def read_table(file, named, wanted, separator):
    """The traces of a table that must have the columns that are wanted: one for each id of a case, in order of first appearance."""
    rows = csv.reader(io.TextIOWrapper(file, "utf-8-sig", newline=""), delimiter=separator, strict=True)
    header = [it.strip() for it in next(rows, [])]
    if not header:
        raise ValueError("it has no header")
    at = [column(header, named.get(it), it, it in wanted) for it in ("case", "event", "time", "transition")]
    traces = {}
    for row in rows:
        if not row:
            continue
        if len(row) != len(header):
            raise ValueError("line %d has %d fields, and the header %d" % (rows.line_num, len(row), len(header)))
        id, activity, time, transition = ("" if it is None else row[it].strip() for it in at)
        if id not in traces:
            traces[id] = Trace(id, [])
        traces[id].events.append(Event(sys.intern(activity), time, sys.intern(transition)))
    return [*traces.values()]


def read_log(path, named, wanted, separator, tell):
    """The traces of the log in this file, or on standard input where it is named `-`. Wrong where it is none, or lacks a
    column that is wanted."""
    csv.field_size_limit(sys.maxsize)
    file = sys.stdin.buffer if path == "-" else open(path, "rb")
    try:
        with file:
            file = io.BufferedReader(gzip.GzipFile(fileobj=file)) if file.peek(2)[:2] == PACKED else file
            head = file.peek(64)
            if (head[len(MARK) :] if head.startswith(MARK) else head).lstrip()[:1] == b"<":
                return Xes({**KEYS, **named}, tell).read(file)
            return read_table(file, named, wanted, separator)
    except xml.parsers.expat.ExpatError as error:
        raise Wrong("%s:%d:%d: this is no XML: %s" % (path, error.lineno, error.offset + 1, xml.parsers.expat.errors.messages[error.code])) from None
    except UnicodeDecodeError:
        raise Wrong("%s: it is not UTF-8: `iconv -f WINDOWS-1252 -t UTF-8`, say, makes it that" % path) from None
    except (ValueError, csv.Error, EOFError, zlib.error) as error:
        raise Wrong("%s: this is no log in XES or CSV: %s" % (path, error)) from None
