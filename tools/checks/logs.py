"""Event logs: the program beside a second implementation, what is made of other tools' logs, and what is said of the lines."""

import csv
import gzip
import io
import json
import os
import random
import re
import sys
import tempfile

from checks import EXAMPLES, TOP, read, run, want
from checks.program import PROGRAM, prepare  # noqa: F401
from checks.tools import tool

sys.path[:0] = [os.path.join(TOP, "tools"), os.path.join(TOP, "bench")]
import inputs  # noqa: E402
import traces  # noqa: E402

MEDICATION, CLAIM, XES = (os.path.join(EXAMPLES, it) for it in ("medication.json", "claim.json", "claim.xes"))
AS_IN_GUIDE = ("--lifecycle", "complete", "--by-time")


def made(*words, text=None, case=MEDICATION, ending=".csv"):
    """The input that is made of a log, or of the claims where none is given, the lines that are told, and the table."""
    with tempfile.TemporaryDirectory() as folder:
        path, table = os.path.join(folder, "log" + ending), os.path.join(folder, "table")
        if text is not None:
            with open(path, "wb") as file:
                file.write(text if isinstance(text, bytes) else text.encode())
        status, wrote, said = tool("from_log.py", "--table", table, *words, case, XES if text is None else path)
        want(status == 0, "%s has status %d: %s" % (words, status, said))
        with open(table, newline="") as file:
            return wrote, said.splitlines(), [*csv.reader(file)][1:]


def log_in(wrote):
    """The log in an input."""
    return wrote.partition("\n")[2]


# ---- the program beside the second implementation


def check_the_lines_of_the_examples():
    for given, lines in [(read("examples/medication.log"), "medication.lines"), (made(*AS_IN_GUIDE, case=CLAIM)[0].encode(), "claim.lines")]:
        want(traces.answer(given) == (0, read("examples/" + lines)), "tools/traces.py gives other lines than %s" % lines)
        told = run([PROGRAM, "conform"], given)
        want(told == (0, read("examples/" + lines), b""), "dcr gives other lines than %s: %s" % (lines, told))
    want(json.loads(read("examples/medication.log").partition(b"\n")[0]) == json.loads(read("examples/medication.json")), "medication.log has another case")


def check_the_refused_example_has_its_line():
    rows = re.findall(r"^\| `([^`]*\.csv)` \| `([^`]*)` \|$", read("examples/refused/README.md").decode(), re.M)
    want(len(rows) == 1, str(rows))
    for name, line in rows:
        given, wanted = read("examples/refused/" + name), line.encode() + b"\n"
        want(traces.answer(given) == (3, wanted), "tools/traces.py gives %s another line" % name)
        told = run([PROGRAM, "conform"], given)
        want(told == (3, wanted, b""), "%s gives %s" % (name, told))


def check_random_logs():
    for number in range(200):
        data = inputs.changed_log(random.Random("a log %d" % number))
        told, wanted = run([PROGRAM, "conform"], data)[:2], traces.answer(data)
        want(told == wanted, "of %r the program says %s, and tools/traces.py %s" % (data, told, wanted))


def check_the_second_implementation_has_the_rules_of_the_model():
    draw = random.Random(3)
    for _ in range(100):
        file, case = inputs.accepted_case(draw)
        judge, texts = traces.Judge(case), [it.decode(errors="replace") for it in inputs.events_of(draw, file)]
        told = judge.judged(texts).split(" ", 2)
        for place, text in enumerate(texts):
            why = case.cause(text) if text in case.number else "unknown"
            if why:
                break
            case.step(text)
        else:
            place, why = len(texts), None
        wanted = ["unknown", str(place)] if why == "unknown" else ["refused", str(place), why] if why else ["waits", case.waits(), str(place)] if case.waits() else ["accepting", str(place)]
        want(told == wanted, "%s of %s: %s, and not %s" % (texts, file, told, wanted))


# ---- an input of a log


def check_a_log_in_xes():
    case, wrote = json.loads(read("examples/claim.json")), made(*AS_IN_GUIDE, case=CLAIM)
    want(json.loads(wrote[0].partition("\n")[0]) == case, "another case stands on the first line")
    told = ["left out: 6 events with the transition `start`", "no event: the activity `Call the customer`, 1 times in 1 traces", "never in the log: `send`"]
    want(wrote[1] == [*told, "renamed: 9 of 9 traces, as the case `Claim 2026/101` to `Claim-2026-101`"], str(wrote[1]))
    want(wrote[2] == [["Claim-2026-%d" % k, "Claim 2026/%d" % k] for k in range(101, 110)], str(wrote[2]))
    first = ["Claim-2026-101,%s" % it for it in ("report", "register", "survey", "accept", "pay")]
    want(log_in(wrote[0]).splitlines()[:6] == ["case,event", *first], wrote[0])
    mixed = log_in(made(case=CLAIM)[0]).splitlines()
    want(mixed[3:7] == ["Claim-2026-101," + it for it in ("survey", "survey", "pay", "accept")], "without an order or a transition: %s" % mixed)
    packed = made(*AS_IN_GUIDE, case=CLAIM, text=gzip.compress(read("examples/claim.xes")), ending=".xes.gz")
    want(packed[0] == wrote[0], "packed it makes another input")
    dropped = made("--drop", *AS_IN_GUIDE, case=CLAIM)
    want("Call" not in dropped[0] and "left out: the activity `Call the customer`, 1 times in 1 traces" in dropped[1], str(dropped[1]))


ODD = """<?xml version="1.0"?>
<log xmlns="http://www.xes-standard.org/">
 <global scope="event"><string key="concept:name" value="s"/></global>
 <string key="concept:name" value="the log"/>
 <trace><string key="concept:name" value="7"/>
  <list key="more"><string key="concept:name" value="other"/></list>
  <event><string key="concept:name" value="pm"><string key="concept:name" value="inner"/></string></event>
  <event><string key="org:resource" value="x"/></event>
 </trace>
 <trace><string key="concept:name" value="7"/><event><string key="concept:name" value="p, &quot;m&quot;"/></event></trace>
 <trace><event><string key="concept:name" value="gm"/></event></trace>
 <trace><string key="concept:name" value="empty"/></trace>
 <event><string key="concept:name" value="pm"/></event>
</log>"""


def check_odd_parts_of_xes():
    wrote, told, table = made(text=ODD)
    want(log_in(wrote) == 'case,event\n7,pm\n7-2,"p, ""m"""\ntrace,gm\n', wrote)
    want(table == [["7", "7"], ["7-2", "7"], ["trace", ""]], str(table))
    for line in ("left out: 1 events that stand in no trace", "left out: 1 events without `concept:name`", "left out: 1 traces without an event"):
        want(line in told, "`%s` is not told, but %s" % (line, told))


def check_a_log_in_csv():
    text = "\ufeffWhen;Case;What\r\n2026-03-01 10:00;b;s\r\n2026-03-01 09:00;b;pm\r\n\r\n2026-03-01T10:00+02:00;a;\"x;y\"\r\n2026-03-01 09:00;b;gm\r\n"
    words = ("--separator", ";", "--case", "Case", "--event", "What")
    want(log_in(made(*words, text=text)[0]) == 'case,event\nb,s\nb,pm\nb,gm\na,x;y\n', "in the order of the log")
    want(log_in(made(*words, "--by-time", "--time", "When", text=text)[0]) == 'case,event\nb,pm\nb,gm\nb,s\na,x;y\n', "in the order of the times")
    tabs = made("--separator", "tab", text="case\tevent\n1\tpm\n")
    want(log_in(tabs[0]) == "case,event\n1,pm\n" and tabs[2] == [["1", "1"]], "with tabs: %s" % (tabs,))
    usual = made(text="concept:name,case:concept:name,lifecycle:transition\npm,1,START\npm,1,complete\ns,1,\n")
    want(log_in(usual[0]) == "case,event\n1,pm\n1,pm\n1,s\n" and "the log has the transitions `START` (1), `complete` (1)" in usual[1][0], str(usual))


def check_times_are_compared():
    import event_log

    rising = ["2026-03-01", "2026-03-01T00:00:00.001", "2026-03-01T02:00:01+02:00", "2026-03-01 00:00:01,5Z", "2026-02-28T22:00:02-02:00", "2026-03-01T00:00:03.123456789+00:00"]
    found = [event_log.moment(it) for it in rising]
    want(found == sorted(found) and len({*found}) == len(found), str(found))
    want(event_log.moment("12.50") == event_log.moment("12.5") < event_log.moment("13"), "numbers")


def check_activities_are_events_by_name_or_by_label():
    events = [{"name": "a", "label": "A"}, {"name": "b", "label": "a"}, {"name": "c", "label": "X"}, {"name": "d", "label": "X"}, {"name": "N", "label": "Nest"}, {"name": "e", "parent": "N"}]
    case = {"graph": {"events": events}, "cover": [{"site": "s", "events": ["a", "b", "c", "d", "N"]}]}
    text = "case,event\n" + "".join("1,%s\n" % it for it in ("a", "A", "X", "N", "Nest", "b", "e"))
    with tempfile.NamedTemporaryFile("w", suffix=".json") as file:
        json.dump(case, file, indent=1)
        file.flush()
        for by, wanted in [((), "a a X N Nest b e"), (("--by", "name"), "a A X N Nest b e"), (("--by", "label"), "b a X N Nest ?b e")]:
            wrote, told, _ = made(*by, text=text, case=file.name)
            want(log_in(wrote) == "case,event\n" + "".join("1,%s\n" % it for it in wanted.split()), "%s: %s" % (by, wrote))
            want(any(it.startswith("no event: the activity `N`") and it.endswith(": it is a nest") for it in told), "%s: %s" % (by, told))
            want("name" in by or any("`X`" in it and it.endswith(": it is the label of `c` and `d`") for it in told), "%s: %s" % (by, told))


def check_names_of_traces_stay_apart():
    ids = ["a/b", "a-b", "a b", "a-b-2", "Læge", "x" * 64, "x" * 65, "é" * 70, "", "?", "a/b-2", "c,1", 'c"1']
    out = io.StringIO()
    csv.writer(out).writerows([["case", "event"], *[[it, "pm"] for it in ids]])
    wrote, told, table = made(text=out.getvalue())
    names = [it[0] for it in table]
    want([it[1] for it in table] == ids and len({*names}) == len(ids) and all(traces.TRACE.fullmatch(it.encode()) for it in names), str(table))
    want(all(name == id for name, id in table if traces.TRACE.fullmatch(id.encode())), "an id that is a name lost it: %s" % table)
    want([*traces.read_log(log_in(wrote).encode())] == names and "renamed: 10 of 13 traces" in told[-1], "%s %s" % (told, wrote))


def check_a_log_that_is_too_long_is_cut_by_traces():
    rows = ["%s,%s" % (name, "x" * 5_000_000) for name in ("a", "b", "a", "c", "d")]
    text = "case,event\n" + "\n".join(rows) + "\n"
    with tempfile.TemporaryDirectory() as folder:
        path = os.path.join(folder, "log.csv")
        with open(path, "w") as file:
            file.write(text)
        status, wrote, said = tool("from_log.py", MEDICATION, path)
        want(status == 2 and not wrote and "the log makes 2 inputs of at most 16777216 bytes: name the front of their files by --parts" in said, said[-300:])
        front = os.path.join(folder, "part")
        status, wrote, said = tool("from_log.py", "--parts", front, MEDICATION, path)
        want(status == 0 and not wrote, said[-300:])
        parts = [read(front + "1"), read(front + "2")]
        found = [traces.read_log(it.partition(b"\n")[2]) for it in parts]
        want([[*it] for it in found] == [["a", "b"], ["c", "d"]] and not os.path.exists(front + "3"), str([[*it] for it in found]))
        want(len(found[0]["a"]) == 2 and all(len(it) <= 16_777_216 and it.partition(b"\n")[0] == parts[0].partition(b"\n")[0] for it in parts), "the parts are others")
        with open(path, "w") as file:
            file.write("case,event\n" + "a,%s\n" % ("x" * 5_000_000) * 4)
        status, wrote, said = tool("from_log.py", "--parts", front, MEDICATION, path)
        want(status == 2 and "the trace `a` has 20000012 bytes" in said, said[-300:])


def check_what_is_no_log_is_one_line():
    texts = [b"", b"a", b"<a/>", b"<log><trace>", b'<!DOCTYPE a [<!ENTITY b "c">]><log/>', b"case,event\n1\n", b"case,event\n\xff,pm\n", b"\x1f\x8b", b"\x1f\x8bxxxxxxxxxxxxxxxxx", b'case,event\n1,"pm', gzip.compress(b"<log/>")[:-9]]
    for text in texts:
        status, wrote, said = tool("from_log.py", MEDICATION, "-", given=text)
        want(status == 2 and not wrote and said.count("\n") == 1 and "Traceback" not in said, "%s: %d %s%s" % (text, status, wrote, said))
    told = tool("from_log.py", "--by-time", MEDICATION, "-", given=b"case,event,time\n1,pm,soon\n")
    want(told[0] == 2 and "`soon` is no time" in told[2], str(told))
    for words, lacking in [(["--by-time"], "time:timestamp"), (["--lifecycle", "complete"], "lifecycle:transition"), (["--event", "what"], "what")]:
        told = tool("from_log.py", *words, MEDICATION, "-", given=b"case,event\n1,pm\n")
        want(told[0] == 2 and "it has no column `%s`" % lacking in told[2], "%s: %s" % (words, told))
    told = tool("from_log.py", os.path.join(EXAMPLES, "refused/9-clash.json"), XES)
    want(told[:2] == (3, "") and told[2].endswith("9-clash.json: refused 9 clash v w\n"), str(told))
    for words in (["--by", "id", MEDICATION, XES], ["--separator", ";;", MEDICATION, XES], [MEDICATION], ["--case"]):
        want(tool("from_log.py", *words)[0] == 2, str(words))


# ---- what is said of the lines


def judged(lines, *words):
    """The lines of a summary."""
    status, wrote, said = tool("judged.py", *words, "-", given=lines)
    want(status == 0 and not said, "%d %s" % (status, said))
    return wrote.splitlines()


def check_the_lines_are_summed_up():
    wrote = judged(read("examples/medication.lines"))
    want(wrote[:5] == ["       4  traces", "       1  accepting, 25.0%", "       1  waiting, 25.0%", "       1  refused, 25.0%", "       1  with an unknown event, 25.0%"], str(wrote))
    for line in ("       1  `s`: c3", "       1  by the condition `s`, at place 1: c2", "       1  a text that is no event, at place 1: c4"):
        want(line in wrote, "`%s` is not said, but %s" % (line, wrote))
    by_case = judged(read("examples/medication.lines"), "--case", MEDICATION)
    want(by_case[by_case.index("       1  by the condition `s`, at place 1: c2") + 1 :][:2] == ['          ["condition", "s", "gm"]', '          or ["condition", "s", "dt"]'], str(by_case))
    by_input = judged(read("examples/medication.lines"), "--input", os.path.join(EXAMPLES, "medication.log"))
    want('       1  `gm` has the condition `s`, at place 1: c2' in by_input and "       1  the text `xx`, at place 1: c4" in by_input, str(by_input))
    want(judged(b"traces 0\n")[0] == "       0  traces", "of no trace")


def check_the_cases_are_told_by_their_ids():
    with tempfile.TemporaryDirectory() as folder:
        given, table = os.path.join(folder, "input"), os.path.join(folder, "table")
        status, wrote, _ = tool("from_log.py", "--table", table, *AS_IN_GUIDE, CLAIM, XES)
        with open(given, "w") as file:
            file.write(wrote)
        words = ["--input", given, "--table", table]
        told = judged(read("examples/claim.lines"), *words)
        wanted = ["       1  `reject` (Reject the claim) has the milestone `send` (Send the documents), at place 4: Claim 2026/103", '          ["milestone", "send", "Decision"]']
        want(told[told.index(wanted[0]) :][:2] == wanted, str(told))
        wanted = ["       1  `withdraw` (Withdraw the claim) is excluded, by `accept` (Accept the claim), at place 4: Claim 2026/106", '          ["exclude", "accept", "withdraw"]']
        want(told[told.index(wanted[0]) :][:2] == wanted, str(told))
        status, wrote, said = tool("judged.py", "list", *words, "-", given=read("examples/claim.lines"))
        rows = [*csv.reader(io.StringIO(wrote))]
        want(status == 0 and len(rows) == 10 and rows[0] == ["trace", "case", "answer", "at", "event", "cause", "by"], wrote)
        want(rows[1][1:4] == ["Claim 2026/101", "accepting", "5"] and rows[3][2:] == ["refused", "4", "reject", "milestone", "send"] and rows[9][2:] == ["waits", "4", "", "", "pay"], wrote)


def check_lines_that_are_none():
    lines = read("examples/medication.lines")
    for given in (b"", b"traces 1\n", lines[:-1], lines[3:], lines.replace(b"c2 refused 1 condition s", b"c2 refused 1"), read("examples/medication.report")):
        told = tool("judged.py", "-", given=given)
        want(told[0] == 2 and not told[1] and told[2].count("\n") == 1, "%s: %s" % (given[:40], told))
    told = tool("judged.py", "-", given=b"refused 15 log 3\n")
    want(told[0] == 2 and "the input was refused: refused 15 log 3" in told[2], str(told))
    told = tool("judged.py", "--input", os.path.join(EXAMPLES, "medication.log"), "-", given=b"c9 unknown 4\ntraces 1\n")
    want(told[0] == 2 and "no event at place 4 of the trace `c9`" in told[2], str(told))
    want(judged(b"refused refused 0 excluded\ntraces accepting 3\ntraces 2\n")[0] == "       2  traces", "traces with names of words")


# ---- the place of a refusal

CASE = b'{"graph":{"events":[{"name":"pm"}]},"cover":[{"site":"x","events":["pm"]}]}'
# What stands behind the case, the refusal, the line that is told, and a word of what is said.
BAD = [
    (b"", "refused 15 log 0", "", "no record stands behind the case"),
    (b"\n\r\n\n", "refused 15 log 0", "", "no record stands behind the case"),
    (b"\n\nCase,event\n", "refused 15 log 0", "3:1", "other letters"),
    (b"\ncase;event\nc1;pm\n", "refused 15 log 0", "2:1", "something else than a comma"),
    (b"\nid,what\n", "refused 15 log 0", "2:1", "another header"),
    (b"\ncase,event\nc1,pm\n\nc1\n", "refused 15 log 2", "5:1", "this has 1 field, and the header 2"),
    (b"\ncase,event\nc1,pm,x", "refused 15 log 1", "3:1", "this has 3 fields"),
    (b'\ncase,event,x\nc1,pm,"a\nb"\nc1\n', "refused 15 log 2", "5:1", "this has 1 field"),
    (b'\r\ncase,event\r\nc1,pm,"\r\nc2,pm\r\n', "refused 15 log 1", "3:1", "a quote that is opened and not closed"),
    (b"\ncase,event\n,pm\n", "refused 15 log 1", "3:1", "the name is empty"),
    (b"\ncase,event\nc 1,pm\n", "refused 15 log 1", "3:1", "has ' ' in it"),
    (b"\ncase,event\nc\xc3\xa4,pm\n", "refused 15 log 1", "3:1", "has '\u00e4' in it"),
    (b"\ncase,event\n" + b"c" * 65 + b",pm\n", "refused 15 log 1", "3:1", "has 65 bytes"),
    (b"\ncase,event\nc1,\xff\n", "refused 15 log 1", "3:1", "not UTF-8"),
]


def check_explain_finds_the_bad_record():
    with tempfile.TemporaryDirectory() as folder:
        path = os.path.join(folder, "log")
        for log, line, where, said in BAD:
            with open(path, "wb") as file:
                file.write(CASE + log)
            want(traces.answer(CASE + log) == (3, line.encode() + b"\n"), "%s is refused otherwise" % log)
            status, wrote, _ = tool("explain.py", path, *line.split())
            want(status == 1 and wrote.startswith("%s%s: " % (path, ":" + where if where else "")) and said in wrote and "rule:" in wrote and "mend:" in wrote, "%s: %s" % (log, wrote))
            told = tool("explain.py", path, "-", given=line.encode() + b"\n")
            want(told == (status, wrote, ""), "%s, read from standard input" % log)
            told = tool("explain.py", path, "refused", "15", "log", "9")
            want(told[0] == 2 and not told[1], "%s, by another line: %s" % (log, told))


def check_the_policy_of_the_case_is_tried_before_the_log():
    third = CASE.replace(b'{"graph"', b'{"version":"3","graph"').replace(b'"pm"', b'"pm","roles":["doctor"]', 1)
    rows = [(b"", b'"by":1', b"refused 16 policy by 0"), (b"", b'"sessions":[["look x","exec x pm"]]', b"refused 17 denied 0 1 doctor")]
    with tempfile.TemporaryDirectory() as folder:
        path = os.path.join(folder, "log")
        for _, member, line in rows:
            given = third[:-1] + b"," + member + b"}\nCase;event\n"
            want(traces.answer(given) == (3, line + b"\n"), "%s by the second implementation: %s" % (line, traces.answer(given)))
            told = run([PROGRAM, "conform"], given)
            want(told == (3, line + b"\n", b""), "%s: %s" % (line, told))
            with open(path, "wb") as file:
                file.write(given)
            status, wrote, _ = tool("explain.py", path, *line.decode().split())
            want(status == 1 and wrote.startswith(path + ":1:") and "mend:" in wrote, wrote)
    # (and of whoever did what in a log it is not asked which role he had)
    given, lines = third + b"\ncase,event\nc1,pm\n", b"c1 accepting 1\ntraces 1\n"
    want(traces.answer(given) == (0, lines) and run([PROGRAM, "conform"], given) == (0, lines, b""), "a log of a case with roles")


def check_explain_finds_the_case_before_a_log():
    log = b"\ncase,event\nc1,pm\n"
    rows = [(CASE + log, (), 0, ": dcr takes it with a log of 1 traces, and passes over no member\n")]
    rows += [(CASE.replace(b'"pm"', b'"p m"', 1) + log, ("refused", "5", "event-name", "0"), 1, ":1:29: this is no name\n")]
    rows += [(CASE.replace(b",", b",\n") + log, ("refused", "2", "not-json"), 1, ":2:1: the case goes on in this line, and the log begins behind the first\n")]
    rows += [(CASE[:-1] + log, ("refused", "2", "not-json"), 1, ":1:%d: the file ends here, in the middle of a value\n" % len(CASE))]
    with tempfile.TemporaryDirectory() as folder:
        path = os.path.join(folder, "log")
        for given, words, status, first in rows:
            with open(path, "wb") as file:
                file.write(given)
            told = tool("explain.py", path, *words)
            want(told[0] == status and told[1].startswith(path + first), "%s: %s" % (given, told))


def check_the_records_are_those_of_the_table_of_states():
    # (a second reading of records, byte by byte, as the format of the crate that dcr reads them by is told)
    pieces, draw = [b'"', b'""', b",", b"\n", b"\r", b"\r\n", b"a", b"\xff", b"\xef\xbb\xbf", b" ", b"c1,pm"], random.Random(5)
    for _ in range(3000):
        log = b"".join(draw.choice(pieces) for _ in range(draw.randrange(12)))
        found = [fields for _, fields in traces.records(log)]
        want(found == records_by_states(log), "%r: %s" % (log, found))


def records_by_states(log):
    """The records of a log, by states: before a record, before a field, in one, in quotes, and behind a quote."""
    found, fields, field, state = [], [], b"", "record"
    for byte in log[3:] if log.startswith(b"\xef\xbb\xbf") else log:
        letter = bytes([byte])
        if state == "quotes":
            state, field = ("behind", field) if letter == b'"' else ("quotes", field + letter)
        elif letter == b'"' and state in ("record", "field"):
            state = "quotes"
        elif letter == b'"' and state == "behind":
            state, field = "quotes", field + letter
        elif letter in b"\r\n":
            if state != "record":
                found.append([*fields, field])
            fields, field, state = [], b"", "record"
        elif letter == b",":
            fields, field, state = [*fields, field], b"", "field"
        else:
            field, state = field + letter, "in"
    return found if state == "record" else [*found, [*fields, field]]
