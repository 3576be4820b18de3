"""Says where in an input of `dcr conform` it is that its refusal tells of: the part of explain.py that knows logs."""

import re

import traces
from case import NotJson, parse, place
from command import Wrong

# A line that is the header of a log, or is meant to be it.
HEADER = re.compile(rb"^(?:\xef\xbb\xbf)?\W{0,3}case\W{1,5}event\b", re.M | re.I)
NAME_RULE = "A trace's name has 1 to 64 ASCII letters, digits, `_`, `-` and `.`."
HEADER_RULE = "The first record of a log begins with the fields `case` and `event`, in these very letters."


def is_json(data):
    try:
        parse(data)
    except NotJson:
        return False
    return True


def case_of(data):
    """The case file: all of the bytes, or the first line of an input of `conform`, behind which its log stands."""
    head, end, log = data.partition(b"\n")
    return head if end and HEADER.search(log) and not is_json(data) else data


def shortened(data, at):
    """The line that begins at this place, as far as it is shown."""
    text = re.split(rb"[\r\n]", data[at : at + 1000], 1)[0].decode(errors="replace")
    return text if len(text) <= 100 else text[:97] + "..."


def tell_second_line(path, data):
    """Tells where the case of an input of `conform` goes on behind its first line, if it does: whether."""
    head, _, log = data.partition(b"\n")
    header = HEADER.search(log)
    if not header or not is_json(head + b"\n" + log[: header.start()]):
        return False
    print("%s:2:1: the case goes on in this line, and the log begins behind the first\n    %s" % (path, shortened(log, 0)))
    print("  rule: The first line of an input of `conform` is the case.\n  mend: put the case on one line, as tools/from_log.py does, or `tr -d '\\r\\n'`")
    return True


def of_header(fields):
    """What is wrong with a header, the rule, and how to mend it."""
    if [it.strip().lower() for it in fields[:2]] == [b"case", b"event"]:
        return "the words have other letters, or spaces round them", HEADER_RULE, "write `case,event`"
    if len(fields) == 1 and re.match(rb"\W*case\W+event\b", fields[0], re.I):
        return "the fields are told apart by something else than a comma", HEADER_RULE, "write commas, or make the input by tools/from_log.py with --separator"
    return "this is another header", HEADER_RULE, "put the case's name and the event into the first two columns, under `case,event`; tools/from_log.py does, by the columns' names"


def of_name(name):
    """What is wrong with the name of a trace."""
    other = re.search("[^A-Za-z0-9_.-]", name.decode(errors="replace"))
    if not name:
        return "the name is empty"
    return "the name has %r in it" % other[0] if other else "the name has %d bytes" % len(name)


def of_record(fields, width):
    """What is wrong with a record behind the header, the rule, and how to mend it."""
    if len(fields) != width:
        is_over_lines = any(re.search(rb"[\r\n]", it) for it in fields)
        mend = "look for a quote that is opened and not closed" if is_over_lines else "write as many fields, and a field that holds a comma in quotes"
        return "this has %d field%s, and the header %d" % (len(fields), "s" * (len(fields) != 1), width), "Each record has as many fields as the header.", mend
    if not traces.TRACE.fullmatch(fields[0]):
        return of_name(fields[0]), NAME_RULE, "rename the trace; tools/from_log.py makes names of ids, and a table of both"
    return "the event is not UTF-8", "An event is a text of UTF-8.", "have the log written as UTF-8, or `iconv -f WINDOWS-1252 -t UTF-8`"


def first_bad(log):
    """The first bad record of a log: its number, where it begins, its fields and how many the header has; the number and None
    where there is no record, and None where none is bad."""
    width = None
    for number, (at, fields) in enumerate(traces.records(log)):
        width = len(fields) if number == 0 else width
        if traces.is_bad(number, fields, width):
            return number, (at, fields, width)
    return (0, None) if width is None else None


def tell_log(path, data, row):
    """Tells the place of the first bad record of the log of an input, which must have this number."""
    begun = len(data.partition(b"\n")[0]) + 1
    found = first_bad(data[begun:])
    if found is None or found[0] != row:
        raise Wrong("%s: the plain reader finds %s bad: is it the input that dcr was given?" % (path, "no record" if found is None else "record %d" % found[0]))
    if found[1] is None:
        print("%s: no record stands behind the case\n  rule: The log begins in the second line, with the record `case,event`.\n  mend: put the case on one line, and the log behind it" % path)
        return
    at, fields, width = found[1]
    wrong, rule, mend = of_record(fields, width) if row else of_header(fields)
    before = data[: begun + at].decode(errors="replace")
    print("%s:%d:1: record %d: %s\n    %s" % (path, place(before, len(before))[0], row, wrong, shortened(data, begun + at)))
    print("  rule: %s\n  mend: %s" % (rule, mend))
