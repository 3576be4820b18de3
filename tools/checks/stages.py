"""Cases that go on with other rules: `dcr adapt` beside a second implementation, how cases are put on lines, how their
reports are cut apart, and what `tools/explain.py` says of them."""

import json
import os
import random
import re
import sys
import tempfile

from checks import TOP, examples, read, run, want
from checks.files import tool as called
from checks.program import DONE, INVALID, PROGRAM, REFUSED, dcr, prepare  # noqa: F401
from checks.tools import path_of, tool

sys.path.insert(0, os.path.join(TOP, "tools"))
import carried  # noqa: E402
import stages  # noqa: E402

FIRST = path_of("first.json")
# What is no JSON, and the place that is told of it.
NO_JSON = [
    ('{"graph":{"events":[{"name":"a","label":"two\nlines"}]}}', "1:41"),
    ('{"graph":\n {"events":[],}}', "2:14"),
    ('{"graph":1}\n{"graph":2', "2:11"),
    ('{"graph":1}\n\n{"graph":2}', "2:1"),
    ("", "1:1"),
    ("\ufeff{}", "1:1"),
]


def in_files(folder, *texts):
    """Files with these texts, in this folder."""
    paths = [os.path.join(folder, "%d" % number) for number in range(len(texts))]
    for path, text in zip(paths, texts):
        with open(path, "w", newline="") as file:
            file.write(text)
    return paths


# ---- case files on lines


def check_a_case_on_a_line_is_the_same_case():
    paths = [path_of(name + ".json") for name in examples()]
    for path in paths:
        status, wrote, said = tool("stages.py", path)
        want(status == 0 and not said and wrote.count("\n") == 1 and wrote.endswith("\n"), "%s: %d %s%s" % (path, status, wrote, said))
        want(json.loads(wrote) == json.loads(read(path)), "%s is another case on a line" % path)
    status, wrote, _ = tool("stages.py", *paths[:16])
    want(status == 0 and wrote.splitlines() == [tool("stages.py", path)[1].strip("\n") for path in paths[:16]], "several files")


def check_line_ends_and_the_spaces_beside_them_go_and_nothing_else():
    case = '{"graph": {"events": [{"name": "a",\t"label": "x  \\n\\u00e9 é"}], "note": 1.50},%s "cover": [],%s"cover": []}'
    lines = set()
    with tempfile.TemporaryDirectory() as folder:
        for end in ("\n", "\r\n", "\r", "\n\n", "  \n\t"):
            status, wrote, _ = tool("stages.py", *in_files(folder, case % (end, end) + end))
            want(status == 0, "with %r" % end)
            lines.add(wrote)
    want(lines == {case % ("", " ") + "\n"}, str(lines))


def check_a_file_of_several_cases_is_taken_as_it_is():
    with tempfile.TemporaryDirectory() as folder:
        several, one = '{"a": 1}\n{"b": 2}\r\n', '{"c":\n 3}'
        status, wrote, _ = tool("stages.py", *in_files(folder, several, one))
        want((status, wrote) == (0, '{"a": 1}\n{"b": 2}\n{"c": 3}\n'), wrote)
        status, wrote, _ = tool("stages.py", "-", *in_files(folder, several), given=one.encode())
        want((status, wrote) == (0, '{"c": 3}\n{"a": 1}\n{"b": 2}\n'), wrote)


def check_what_is_no_json_is_put_on_no_line():
    with tempfile.TemporaryDirectory() as folder:
        for text, where in NO_JSON:
            path = in_files(folder, text)[0]
            status, wrote, said = tool("stages.py", FIRST, path)
            want(status == 2 and not wrote and said.startswith("%s:%s: " % (path, where)) and said.count("\n") == 1, "%r: %d %s%s" % (text, status, wrote, said))


def check_as_many_cases_as_are_taken():
    status, wrote, _ = tool("stages.py", *[FIRST] * 16)
    want(status == 0 and wrote == tool("stages.py", FIRST)[1] * 16, "sixteen")
    status, wrote, said = tool("stages.py", *[FIRST] * 17)
    want((status, wrote, said) == (2, "", "these are 17 cases, and at most 16 are taken\n"), said)
    with tempfile.TemporaryDirectory() as folder:
        path = in_files(folder, '{"note":"%s"}' % ("x" * 9_000_000))[0]
        status, wrote, said = tool("stages.py", path, path)
        want(status == 2 and not wrote and re.fullmatch(r"these are 180000\d\d bytes, and at most 16777216 are taken\n", said), said)


# ---- reports apart


def check_reports_are_cut_apart():
    names = examples(".report")
    reports = [read("examples/%s.report" % name) for name in names]
    with tempfile.TemporaryDirectory() as folder:
        path = os.path.join(folder, "all")
        with open(path, "wb") as file:
            file.write(b"".join(reports))
        status, wrote, said = tool("stages.py", "--cut", folder + "/new", path)
        made = ["%s/new/%d.report" % (folder, number) for number in range(len(names))]
        want((status, wrote.splitlines(), said) == (0, made, ""), "%d %s%s" % (status, wrote, said))
        for number, (name, report) in enumerate(zip(names, reports)):
            with open(made[number], "rb") as file:
                want(file.read() == report, "%s is cut out otherwise" % name)
            want(tool("stages.py", "--report", str(number), "-", given=b"".join(reports)) == (0, report.decode(), ""), name)
        want(tool("stages.py", "--report", str(len(names)), path)[0] == 2, "one more than there are")


def check_a_report_that_was_cut_out_is_taken():
    reports = read("examples/medication.report") + read("examples/claim.report")
    with tempfile.TemporaryDirectory() as folder:
        path = os.path.join(folder, "0.report")
        tool("stages.py", "--cut", folder, "-", given=reports)
        want(tool("replay.py", "check", given=reports)[1] == "invalid 18 extra\n", "both together")
        want(tool("replay.py", "check", given=read(path)) == (0, "valid 9\n", ""), "replay")
        want(tool("draw.py", "run", path)[0] == 0 and tool("report_json.py", path)[0] == 0, "draw and report_json")


def check_what_is_no_report_is_not_cut():
    for text in (b"", b"dcr 3\n", b"dcr 1 \n", b"\ndcr 1\n", b"x\ndcr 1\n", read("examples/first.json")):
        status, wrote, said = tool("stages.py", "--report", "0", "-", given=text)
        want(status == 2 and not wrote and said.count("\n") == 1 and "no report" in said, "%r: %d %s%s" % (text, status, wrote, said))


# ---- adapt


def on_lines(*names):
    """The cases of these examples, each on a line."""
    return tool("stages.py", *[path_of(name) for name in names])[1].encode()


def check_the_example_goes_on():
    given, reports = read("examples/laboratory.stages"), read("examples/laboratory.reports")
    want(carried.answer(given) == (DONE, reports), "the second implementation makes other reports")
    want(dcr("adapt", given=given) == (DONE, reports, b""), "dcr adapt makes other reports")
    for number, report in enumerate(stages.reports_of(reports)):
        count = report.rsplit(b"\nend ", 1)[1]
        want(dcr("replay", given=report) == (DONE, b"valid " + count, b""), "report %d is not valid" % number)
    first = reports.index(b"\ndcr 1\n") + 1
    want(dcr("replay", given=reports) == (INVALID, b"invalid %d extra\n" % (reports[:first].count(b"\n") + 1), b""), "all of them together are a report")


def check_one_case_alone_is_run():
    for name in examples():
        told = dcr("adapt", given=on_lines(name + ".json"))
        want(told == (DONE, read("examples/%s.report" % name), b""), "%s: status %d and another report" % (name, told[0]))


def check_the_case_of_two_days_goes_on_as_with_a_store():
    given = on_lines("stored/monday.json", "stored/tuesday.json")
    told = dcr("adapt", given=given)
    want(told == (DONE, read("examples/stored/monday.report") + read("examples/stored/tuesday.report"), b""), "status %d and other reports" % told[0])


def check_the_same_case_again_is_a_chain():
    for name in examples():
        report = dcr("adapt", given=on_lines(*[name + ".json"] * 3))[1]
        with tempfile.TemporaryDirectory() as folder:
            paths = in_files(folder, *[it.decode() for it in stages.reports_of(report)])
            status, wrote, _ = tool("chain.py", path_of(name + ".json"), *paths)
            want(status == 0 and len(paths) == 3, "%s: %s" % (name, wrote))


def check_random_cases_go_on_as_in_the_second_implementation():
    draw, statuses = random.Random(11), {DONE: 0, REFUSED: 0}
    for _ in range(60):
        given = carried.random_stages(draw)
        told = dcr("adapt", given=given)
        want(told[:2] == carried.answer(given), "%s\nis answered with status %d: %s" % (given.decode(), *told[:2]))
        statuses[told[0]] += 1
    want(min(statuses.values()) >= 15, "the statuses were %s" % statuses)


def check_nothing_but_the_input_is_looked_at():
    with tempfile.TemporaryDirectory() as folder:
        told = dcr("adapt", given=read("examples/laboratory.stages"), cwd=folder)
        want(told[0] == DONE and not os.listdir(folder), "the folder has %s" % os.listdir(folder))
        with open(os.path.join(folder, "dcr.tape"), "wb") as file:
            file.write(b"anything")
        told = dcr("adapt", given=read("examples/laboratory.stages"), cwd=folder)
        want(told == (DONE, read("examples/laboratory.reports"), b"") and read(file.name) == b"anything", "dcr.tape was read or written")


def refused():
    """The files of several cases that are refused, with the line of each."""
    table = re.findall(r"^\| `([^`]*\.stages)` \| `([^`]*)` \|$", read("examples/refused/README.md").decode(), re.M)
    files = sorted(it for it in os.listdir(path_of("refused")) if it.endswith(".stages"))
    want(sorted(name for name, _ in table) == files, "the table and the files of examples/refused differ")
    return [("refused/" + name, line) for name, line in table]


def check_each_refusal_of_several_cases_has_its_line():
    for name, line in refused():
        given = read("examples/" + name)
        want(carried.answer(given) == (REFUSED, line.encode() + b"\n"), "%s by the second implementation" % name)
        want(dcr("adapt", given=given) == (REFUSED, line.encode() + b"\n", b""), name)


def check_each_line_of_a_file_of_cases_is_one_by_the_schema():
    sys.path.insert(0, os.path.join(TOP, "bench"))
    import schema

    rule = json.loads(read("docs/case.schema.json"))
    for name in ["laboratory.stages", *[name for name, _ in refused()]]:
        for line in read("examples/" + name).splitlines():
            found = schema.wrong(json.loads(line), rule, rule)
            want(found is None, "%s: %s" % (name, found))


# ---- explain


def explained(*words, given=""):
    return called("explain.py", *words, given=given)


ONE = '{"graph":{"events":[{"name":"a"}]},"cover":[{"site":"x","events":["a"]}]}'
TWO = '{"graph":{"events":[{"name":"a","pending":true},{"name":"b"}]},"cover":[{"site":"x","events":["a","b"]}]}'
ROLES = TWO.replace('{"graph"', '{"version":"3","graph"').replace('{"name":"b"}', '{"name":"b","roles":["r"]}')[:-1] + ',"users":[{"user":"u","roles":[]},{"user":"v","roles":["r"]}],"by":["u"],"sessions":[["look x","exec x b"]]}'
# Each: the cases, what dcr answers, the place that is told, and words that are.
BROKEN = [
    ([TWO, ONE], "case 1 refused 13 dropped b", "2:20", ["no event has the name `b` here", "1:49: it stands here on the line before", 'write {"name":"b"}', "leaves none out"]),
    ([TWO, TWO.replace('"b"', '"B"')], "case 1 refused 13 dropped b", "2:20", ["is `B` the same one?", 'keep the name `b`, and write the other text as its "label"']),
    ([ONE, ONE.replace('{"name":"a"}', '{"name":"a"},{"name":"c","parent":"a"}')], "case 1 refused 13 dropped a", "2:21", ["`a` is a nest here", "2:55: this makes it one", "1:21: it stands here", "give the nest another name"]),
    ([ONE, ONE, TWO, ONE, ONE], "case 3 refused 13 dropped b", "4:20", ["3:49: it stands here"]),
    ([ONE, ONE.replace('["a"]', '["a","b"]')], "case 1 refused 10 owned 0 1", "2:71", ["case 1 stands on this line", "no event has this name"]),
    ([ONE, ONE.replace('"name"', '"nmae"')], "case 1 refused 3 shape event 0", "2:21", ["is `nmae` meant to be it?", "passes over the member `nmae`"]),
    ([ONE, ONE[:-1]], "case 1 refused 2 not-json", "2:73", ["the file ends here", "what is open there begins here"]),
    ([ONE + " " + ONE], "case 0 refused 2 not-json", "1:75", ["behind the end of the value", "each on a line of its own"]),
    ([ONE, "", ONE], "case 1 refused 2 not-json", "2", ["the line is empty", "take the line out"]),
    ([ONE.replace(',"cover"', ',\n"cover"')], "case 0 refused 2 not-json", "1", ["one case over 2 lines", "tools/stages.py"]),
    ([ONE] * 17, "refused 14 cases 17", "", ["17 lines", "each on a line of its own", "leave one out without calls"]),
    ([TWO, ROLES], "case 1 refused 17 denied 0 1 r", "2:228", ["`u`, whose session 0 is, lacks a role: `b` asks for `r`", "2:84: `b` asks for it here", "2:163: these are the roles of `u`", "make the call in a session of `v`"]),
    ([TWO, ROLES.replace('"by":["u"]', '"by":["v","w"]')], "case 1 refused 16 policy by 1", "2:205", ["no user has this name"]),
    ([TWO, ROLES.replace('["r"]}]', '"r"}]', 1), ONE], "case 1 refused 16 policy event 1", "2:83", ["`roles` is a text here"]),
    # (a policy that is refused is told before an event that is left out, and behind another refusal of its line)
    ([TWO.replace("}]}", '},{"name":"c"}]}', 1).replace('"b"]', '"b","c"]'), ROLES.replace('"users":[', '"users":[1,')], "case 1 refused 16 policy user 0", "2:143", ["this is a number"]),
    ([TWO, ROLES.replace('"look x"', '"look y"').replace('"by":["u"]', '"by":1')], "case 1 refused 12 call-line 0 0", "2:215", ["no site has the name `y`"]),
    ([ROLES, TWO, "{"], "case 0 refused 17 denied 0 1 r", "1:228", ["lacks a role"]),
    ([*[ONE, ""] * 9], "refused 14 cases 18", "", ["empty are the lines 2, 4, 6", "An empty line counts too"]),
    ([ONE.replace(",", "\n,").replace(":", "\n:\n").replace("}]", "\n}]")], "refused 14 cases 17", "", ["one case over 17 lines", "tools/stages.py"]),
    ([], "refused 14 cases 0", "", ["the file is empty", "tools/stages.py"]),
]


def check_explain_finds_the_place_in_several_cases():
    with tempfile.TemporaryDirectory() as folder:
        for end in ("\n", "\r\n"):
            for cases, line, at, words in BROKEN:
                path = in_files(folder, "".join(case + end for case in cases))[0]
                want(carried.answer(read(path)) == (REFUSED, line.encode() + b"\n"), "%s: %s" % (line, carried.answer(read(path))))
                told = [explained(path, *line.split()), explained(path, "-", given=line + "\n")]
                status, wrote, said = told[0]
                want(told[0] == told[1] and status == 1 and not said, "%s: %d %s%s" % (line, status, wrote, said))
                want("%s%s: " % (path, ":" + at if at else "") in wrote, "%s: no place %s is told: %s" % (line, at, wrote))
                want(all(it in wrote for it in [*words, "rule: ", "mend: "]), "%s: %s is wanted: %s" % (line, words, wrote))
                if stages.is_several(read(path)):
                    alone = explained(path)
                    want(alone == (1, "%s: dcr adapt refuses it: %s\n%s" % (path, line, wrote), ""), "%s, alone: %s" % (line, alone))


def check_explain_knows_each_line_of_adapt():
    draw, kinds = random.Random(5), set()
    with tempfile.TemporaryDirectory() as folder:
        path = os.path.join(folder, "cases")
        while len(kinds) < 8 or not {"case refused 16", "case refused 17"} <= kinds:
            given = carried.random_stages(draw)
            line = carried.answer(given)[1].decode()
            if line.startswith("dcr"):
                continue
            kinds.add(" ".join(line.split()[:1] + line.split()[2:4]))
            with open(path, "wb") as file:
                file.write(given)
            status, wrote, said = explained(path, *line.split())
            want(status == 1 and wrote.startswith(path + ":") and "mend: " in wrote and not said, "%s%s%s%s" % (line, given, wrote, said))


def check_explain_tells_marks_that_are_passed_over():
    new = TWO.replace('{"name":"b"}', '{"name":"b","executed":true},{"name":"c","included":false}').replace('"a","b"]', '"a","b","c"]')
    with tempfile.TemporaryDirectory() as folder:
        path = in_files(folder, TWO + "\n" + new)[0]
        status, wrote, said = explained(path)
        lines = wrote.splitlines()
        want(status == 1 and not said and lines[0] == "%s: dcr adapt takes it: 2 cases, each on a line" % path, "%d %s%s" % (status, wrote, said))
        want(any(it.startswith(path + ":2:61: dcr passes over the mark `executed` of `b`") for it in lines), wrote)
        want(any(it.startswith(path + ":2:33: remark: ") and it.endswith("of `a`") for it in lines), wrote)
        want(any(it.startswith(path + ":2:78: `c` can never be executed") for it in lines), wrote)
        # (marks that are the same on both lines are a remark alone, and of old events it isn't told that they are done for)
        over = '{"graph":{"events":[{"name":"a"}],"relations":[["exclude","a","a"]]},"cover":[{"site":"x","events":["a"]}],"sessions":[["exec x a"]]}'
        for text in (TWO + "\n" + TWO, over + "\n" + over):
            want(explained(in_files(folder, text)[0])[0] == 0, text)


def check_explain_takes_the_example():
    path = path_of("laboratory.stages")
    want(explained(path) == (0, path + ": dcr adapt takes it: 3 cases, each on a line\n", ""), str(explained(path)))


def check_explain_tells_where_the_file_is_another_one():
    lines = ["case 3 refused 13 dropped a", "case 0 refused 13 dropped a", "case -1 refused 13 dropped a", "case 1 refused 13 dropped b", "case 1 refused 13 dropped pm", "case x refused"]
    lines += ["case 1", "case 1 refused", "case 1 refused 13", "case 1 refused 2 not-json", "case 1 refused 10 owned 9 9", "refused 14 cases 17", "refused 14 cases x"]
    with tempfile.TemporaryDirectory() as folder:
        for path in (path_of("laboratory.stages"), *in_files(folder, "{\n{}\n", "")):
            for line in lines:
                status, wrote, said = tool("explain.py", path, *line.split())
                want(status == 2 and said.count("\n") == 1 and "is it the file that dcr was given?" in said, "%s of %s: %d %s%s" % (line, path, status, wrote, said))


def check_explain_says_who_reads_several_cases():
    path = path_of("laboratory.stages")
    want("these are 3 cases, each on a line, as `dcr adapt` reads them" in explained(path, "refused", "2", "not-json")[1], "of the line of `run`")
    reports = path_of("laboratory.reports")
    want("tools/stages.py --cut" in explained(reports, "invalid", "11", "extra")[1], "of the line of `replay`")


# ---- the second implementation as a command


def check_the_second_implementation_has_the_statuses_of_adapt():
    told = tool("carried.py", "run", given=read("examples/laboratory.stages"))
    want(told == (0, read("examples/laboratory.reports").decode(), ""), str(told))
    for name, line in refused():
        want(tool("carried.py", "run", given=read("examples/" + name)) == (3, line + "\n", ""), name)
        want(tool("carried.py", "opens", given=read("examples/" + name)) == (3, line + "\n", ""), name)
    want(run([sys.executable, os.path.join(TOP, "tools/carried.py"), "run"], b" " * 16_777_217) == (3, b"refused 1 too-long\n", b""), "too long")
    lines = tool("carried.py", "opens", given=read("examples/laboratory.stages"))[1].splitlines()
    wanted = ["0 pm included", "0 s included", "0 gm included", "0 dt included"]
    wanted += ["1 pm executed included (carried)", "1 s pending included (carried)", "1 gm pending included (carried)", "1 dt included (carried)", "1 lab included"]
    wanted += ["2 pm executed included (carried)", "2 s executed included (carried)", "2 gm pending included (carried)", "2 dt included (carried)", "2 lab executed included (carried)"]
    want(lines == wanted, str(lines))
