#!/usr/bin/env python3
"""Puts case files on a line each, as `dcr adapt` reads them, and cuts the reports that it writes apart.

    tools/stages.py FILE..                  the case of each file on one line, in the order of the words
    tools/stages.py --report I REPORTS      report I, counted from 0, of reports that stand one after the other
    tools/stages.py --cut FOLDER REPORTS    each of them as a file of this folder: 0.report, 1.report and so on

A FILE may have several cases already, each on a line of its own. Nothing but line ends and the spaces beside them is
changed. A file that is no JSON is not taken: its line ends may stand where they mean something. Whether dcr takes a
case, `tools/explain.py` tells. At most 16 cases and 16,777,216 bytes are written. REPORTS may be `-`, standard input; a
report that was cut out is one that `dcr replay`, tools/replay.py, tools/draw.py and tools/report_json.py take.

The status is 0, or 2 with one line on standard error.
"""

import os
import re
import sys

from case import NotJson, parse, place
from command import Usage, Wrong, command, read_bytes

MOST_CASES = 16
MOST_BYTES = 16_777_216
# With which line a report begins, and none of its other lines does.
HEADS = re.compile(rb"^dcr [12]$", re.M)


def lines_of(data):
    """The lines of an input of several cases: what stands between line feeds, and behind the last one where that isn't empty."""
    lines = data.split(b"\n")
    return lines[:-1] if lines[-1] == b"" else lines


def is_json(data):
    try:
        parse(data)
    except NotJson:
        return False
    return True


def is_several(data):
    """Whether these are the lines of several cases, and not one JSON text over several lines."""
    lines = lines_of(data)
    return len(lines) > 1 and is_json(lines[0]) and not is_json(data)


def on_one_line(data):
    """The JSON text without its line ends. None of them stands in a text, where JSON has no line end."""
    return b" ".join(filter(None, (line.strip(b" \t") for line in data.replace(b"\r", b"\n").split(b"\n"))))


def cases_of(path):
    """The cases of a file, each as one line."""
    data = read_bytes(path)
    lines = lines_of(data) if is_several(data) else [data]
    for number, line in enumerate(lines):
        try:
            parse(line)
        except NotJson as error:
            row, column = place(line.decode(errors="replace"), error.at)
            raise Wrong("%s:%d:%d: %s" % (path, number + row, column, error)) from None
    return [on_one_line(line) for line in lines]


def put_together(paths):
    """The cases of these files, each with a line end."""
    cases = [case for path in paths for case in cases_of(path)]
    if len(cases) > MOST_CASES:
        raise Wrong("these are %d cases, and at most %d are taken" % (len(cases), MOST_CASES))
    data = b"".join(case + b"\n" for case in cases)
    if len(data) > MOST_BYTES:
        raise Wrong("these are %d bytes, and at most %d are taken" % (len(data), MOST_BYTES))
    return data


def reports_of(data):
    """The reports that stand one after the other."""
    heads = [found.start() for found in HEADS.finditer(data)]
    if heads[:1] != [0]:
        raise Wrong("no report stands at the head of these bytes: it begins with the line `dcr 1` or `dcr 2`")
    return [data[begin:end] for begin, end in zip(heads, [*heads[1:], len(data)])]


def write_reports(folder, reports):
    os.makedirs(folder, exist_ok=True)
    for number, report in enumerate(reports):
        path = os.path.join(folder, "%d.report" % number)
        with open(path, "wb") as file:
            file.write(report)
        print(path)


@command(__doc__)
def main(words):
    if words[:1] in (["--report"], ["--cut"]) and len(words) == 3:
        reports = reports_of(read_bytes(words[2]))
        if words[0] == "--cut":
            write_reports(words[1], reports)
            return 0
        if not words[1].isdigit():
            raise Usage
        if int(words[1]) >= len(reports):
            raise Wrong("there is no report %s, counted from 0: there are %d" % (words[1], len(reports)))
        sys.stdout.buffer.write(reports[int(words[1])])
        return 0
    if not words or words[0].startswith("--"):
        raise Usage
    sys.stdout.buffer.write(put_together(words))
    return 0


if __name__ == "__main__":
    sys.exit(main(sys.argv[1:]))
