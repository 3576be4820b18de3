#!/usr/bin/env python3
"""Gives a report as JSON, for other programs.

    tools/report_json.py REPORT         one object: version, graph, cover, open, calls, sites, verdict, end
    tools/report_json.py calls REPORT   the calls alone, an object a line

REPORT may be `-`, for standard input. Each call has `place`, `session`, `seq` and `call`, and as far as they apply `site`,
`event` and `outcome`: of `exec` a word, and where that is `condition` or `milestone` the event that blocks as `by`; of
`look` the `marks`; of `enabled` what it `can`; of `accepting` whether it is `accepting`, and else the event that it
`waits` for. Lists of events are arrays, in the order of the graph. A report that isn't valid is not turned into JSON.

The status is 0; 8 where the report isn't valid, or 3 where it is too long, with the line of the plain checker on standard
error; 2 where the words are others or the file is missing.
"""

import json
import sys

import replay
from command import Usage, command, read_bytes

WORDS = {"exec": 3, "look": 2, "enabled": 2, "accepting": 1}


def listed(text):
    return [] if text == "-" else text.split(",")


def marks(words):
    """The marking that `executed LIST pending LIST included LIST` is."""
    return {name: listed(text) for name, text in zip(words[0::2], words[1::2])}


def waits(words):
    return {"accepting": False, "waits": words[1]} if words[0] == "waits" else {"accepting": True}


def entry(line):
    """The call of a line, and what it was answered."""
    words = line.split(" ")
    kind = words[3]
    found = {"place": int(words[0]), "session": int(words[1]), "seq": int(words[2]), "call": kind}
    found.update(zip(("site", "event"), words[4 : 3 + WORDS[kind]]))
    told = words[3 + WORDS[kind] :]
    if kind == "exec":
        found["outcome"] = told[0]
        found.update({"by": told[1]} if told[1:] else {})
    elif kind == "look":
        found["marks"] = marks(told)
    elif kind == "enabled":
        found["can"] = listed(told[1])
    else:
        found.update(waits(told))
    return found


def as_json(lines):
    """The whole report as one value."""
    calls = [entry(line) for line in lines[4:] if line[:1].isdigit()]
    found = {"version": lines[0][len("dcr ") :], "graph": json.loads(lines[1][len("graph ") :]), "cover": json.loads(lines[2][len("cover ") :])}
    found["open"] = marks(lines[3].split(" ")[1:])
    found["calls"], rest = calls, lines[4 + len(calls) :]
    found["sites"] = [{"site": line.split(" ")[1], **marks(line.split(" ")[2:])} for line in rest if line.startswith("site ")]
    found["verdict"] = waits(rest[len(found["sites"])].split(" ")[1:])
    found["end"] = len(calls)
    return found


@command(__doc__)
def main(words):
    only_calls = words[:1] == ["calls"] and len(words) == 2
    if len(words) != (2 if only_calls else 1) or words[-1].startswith("--"):
        raise Usage
    data = read_bytes(words[-1])
    status, line = replay.verdict(data)
    if status:
        print("%s: %s" % (words[-1], line.strip()), file=sys.stderr)
        return status
    lines = data.decode().split("\n")[:-1]
    if only_calls:
        for text in lines[4:]:
            if text[:1].isdigit():
                print(json.dumps(entry(text), ensure_ascii=False))
    else:
        print(json.dumps(as_json(lines), ensure_ascii=False, indent=1))
    return 0


if __name__ == "__main__":
    sys.exit(main(sys.argv[1:]))
