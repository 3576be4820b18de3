"""The tools that are called as commands: their words, their statuses, and what they make of a file."""

import glob
import json
import os
import sys
import tempfile

from checks import EXAMPLES, TOP, examples, read, run, want
from checks.program import prepare  # noqa: F401

STORED = os.path.join(EXAMPLES, "stored")
# The tools that a user calls: all of tools/ but the parts that they share.
PARTS = ["bodies.py", "build.py", "case.py", "command.py", "convert.py", "definitions.py", "event_log.py", "explain_log.py", "explain_roles.py", "earlier.py", "layout.py", "odd.py", "roles.py", "told.py", "tried.py"]


def tool(name, *words, given=b"", **how):
    """The status of a tool as a process, what it wrote and what it said."""
    status, wrote, said = run([sys.executable, os.path.join(TOP, "tools", name), *words], given, **how)
    return status, wrote.decode(), said.decode()


def path_of(name):
    return os.path.join(EXAMPLES, name)


def all_tools():
    found = sorted(os.path.basename(it) for it in glob.glob(os.path.join(TOP, "tools/*.py")))
    return [it for it in found if it not in PARTS]


# ---- what all have in common


def check_each_tool_has_help_and_tells_wrong_words():
    want(len(all_tools()) >= 8, "only the tools %s are there" % all_tools())
    for name in all_tools():
        status, wrote, said = tool(name, "--help", cwd="/")
        want(status == 0 and "tools/" + name in wrote and not said, "%s --help: %d %s%s" % (name, status, wrote, said))
        status, wrote, said = tool(name, "--no-such-word", "x", "y", "z", cwd="/")
        want(status == 2 and "tools/" + name in said and not wrote and "Traceback" not in said, "%s with wrong words: %d %s%s" % (name, status, wrote, said))


def check_a_file_that_is_missing_is_one_line():
    calls = [("chain.py", "no-such-file", "x"), ("chain.py", path_of("first.json"), "no-such-file"), ("stored.py", "no-such-file")]
    calls += [("stored.py", "show", "no-such-file")]
    for words in calls:
        status, wrote, said = tool(*words)
        want(status == 2 and not wrote and said == "no-such-file: No such file or directory\n", "%s: %d %s%s" % (words, status, wrote, said))


# ---- the plain model and the second checker: they stand in for the program, also where a script asks for the status


def check_the_second_checker_has_the_statuses_of_replay():
    report = read("examples/medication.report")
    rows = [(report, 0, "valid 9\n"), (report.replace(b"condition s", b"done"), 8, "invalid 6 outcome\n"), (b"", 8, "invalid 1 head\n")]
    rows += [(report[:-3], 8, "invalid 17 end\n"), (report + b"x", 8, "invalid 18 extra\n"), (read("examples/first.json"), 8, "invalid 1 head\n")]
    rows += [(report.replace(b"\n3 0 3 ", b"\n3 0 %s " % (b"9" * 5000)), 8, "invalid 8 entry\n")]
    for given, status, line in rows:
        told = tool("replay.py", "check", given=given)
        want(told == (status, line, ""), "%s, and not %s" % (told, (status, line)))
        program = run([os.path.join(TOP, "crates/dcr/out/dcr"), "replay"], given)
        want(program == (status, line.encode(), b""), "dcr replay gives %s, and not %s" % (program, (status, line)))


def check_a_report_that_is_too_long_is_refused_by_the_second_checker():
    with tempfile.TemporaryFile() as file:
        # (a file that takes no room)
        file.truncate(268_435_457)
        told = run([sys.executable, os.path.join(TOP, "tools/replay.py"), "check"], stdin=file)
        want(told == (3, b"refused 1 too-long\n", b""), str(told))


def check_the_plain_model_has_the_statuses_of_run():
    for name in examples():
        told = tool("model.py", "run", given=read("examples/%s.json" % name))
        want(told == (0, read("examples/%s.report" % name).decode(), ""), "%s gives status %d and another report" % (name, told[0]))
    for name in sorted(os.listdir(path_of("refused"))):
        if name.endswith(".json"):
            told = tool("model.py", "run", given=read("examples/refused/" + name))
            want(told[0] == 3 and told[1].startswith("refused ") and not told[2], "%s: %s" % (name, told))


# ---- the tape, and the reports of a case that was kept on one


def tape_of(folder, *days):
    """The tape of the case over two days, by the plain model."""
    sys.path.insert(0, os.path.join(TOP, "tools"))
    import stored

    tape = None
    for day in days:
        status, _, tape = stored.answer(read("examples/stored/%s.json" % day), tape)
        want(status == 0, "%s is not taken" % day)
    with open(os.path.join(folder, "dcr.tape"), "wb") as file:
        file.write(tape)
    return os.path.join(folder, "dcr.tape")


def check_what_a_tape_holds_is_shown():
    with tempfile.TemporaryDirectory() as folder:
        tape, case = tape_of(folder, "monday", "tuesday"), path_of("stored/monday.json")
        done = [it for day in ("monday", "tuesday") for it in read("examples/stored/%s.report" % day).decode().split("\n") if it.endswith(" done")]
        wanted = "".join("%d %s\n" % (number, line.split(" ", 3)[3][: -len(" done")]) for number, line in enumerate(done))
        want(len(done) > 8 and tool("stored.py", "show", tape, case) == (0, wanted, ""), "with the case: %s" % (tool("stored.py", "show", tape, case),))
        status, wrote, _ = tool("stored.py", "show", tape)
        want(status == 0 and wrote.startswith("0 site 0 event 0\n") and wrote.count("\n") == len(done), "without the case: %s" % wrote)
        want(tool("stored.py", "show", tape, path_of("first.json")) == (10, "tape other-case\n", ""), "another case")
        want(tool("stored.py", "show", tape, path_of("refused/9-clash.json")) == (3, "refused 9 clash v w\n", ""), "a case that is refused")
        with open(tape, "r+b") as file:
            file.seek(64 + 12 * 3 + 7)
            file.write(b"\x09")
        want(tool("stored.py", "show", tape) == (10, "tape bad 3\n", ""), "a damaged tape")


MONDAY, TUESDAY = "examples/stored/monday.report", "examples/stored/tuesday.report"


def chained(*reports, case="examples/stored/monday.json", by=None):
    return tool("chain.py", *(["--by", by] if by else []), case, *reports, cwd=TOP)


def check_a_chain_of_reports_holds():
    for by in (None, os.path.join(TOP, "crates/dcr/out/dcr")):
        status, wrote, said = chained(MONDAY, TUESDAY, by=by)
        want(status == 0 and not said and "%s: valid 12, and opens where %s ends\n" % (TUESDAY, MONDAY) in wrote, "%d %s%s" % (status, wrote, said))
    want(chained(MONDAY)[0] == 0 and chained(MONDAY, case="examples/stored/tuesday.json")[0] == 0, "one report alone")


def check_a_chain_that_does_not_hold_says_where():
    for reports in [(TUESDAY,), (TUESDAY, MONDAY), (MONDAY, MONDAY), (MONDAY, TUESDAY, TUESDAY)]:
        status, wrote, _ = chained(*reports)
        want(status == 1 and ":4: it is valid, and doesn't open" in wrote, "%s: %d %s" % (reports, status, wrote))
    status, wrote, _ = chained(MONDAY, case="examples/medication.json")
    want(status == 1 and "the line `graph` is not the case's" in wrote, "another case: %d %s" % (status, wrote))
    want(chained(MONDAY, case="examples/refused/9-clash.json")[:2] == (3, "examples/refused/9-clash.json: refused 9 clash v w\n"), "a case that is refused")
    case = json.loads(read("examples/stored/monday.json"))
    with tempfile.TemporaryDirectory() as folder:
        case["cover"][0]["events"].append("sample")
        with open(os.path.join(folder, "own.json"), "w") as file:
            json.dump(case, file)
        status, wrote, _ = chained(MONDAY, case=os.path.join(folder, "own.json"))
        want(status == 1 and "the line `cover` is not the case's" in wrote, "another cover: %d %s" % (status, wrote))
        with open(os.path.join(folder, "changed.report"), "wb") as file:
            file.write(read(TUESDAY).replace(b" done\n", b" excluded\n", 1))
        status, wrote, _ = chained(MONDAY, os.path.join(folder, "changed.report"))
        want(status == 8 and wrote.count("\n") == 2 and "invalid 6 outcome" in wrote, "a changed report: %d %s" % (status, wrote))


def check_a_chain_takes_both_ends_of_an_execution_that_could_not_be_kept():
    # Of a case of two events: the first day ends with an execution that failed, which may be on the tape and may not.
    case = {"graph": {"events": [{"name": "a"}, {"name": "b"}], "relations": [["exclude", "b", "a"]]}, "cover": [{"site": "s", "events": ["a", "b"]}]}
    head = ["dcr 1", 'graph {"events":[{"label":"a","name":"a"},{"label":"b","name":"b"}],"relations":[["exclude","b","a"]]}', 'cover [{"events":["a","b"],"site":"s"}]']
    first, kept, other = "executed a pending - included a,b", "executed a,b pending - included b", "executed b pending - included b"

    def report(opens, entries, ends):
        return "\n".join([*head, "open " + opens, *entries, "site s " + ends, "verdict accepting", "end %d" % len(entries), ""])

    with tempfile.TemporaryDirectory() as folder:
        texts = {"day1": report("executed - pending - included a,b", ["0 0 0 exec s a done", "1 0 1 exec s b faulted"], first)}
        texts.update({"lost": report(first, [], first), "kept": report(kept, [], kept), "other": report(other, [], other), "case": json.dumps(case)})
        for name, text in texts.items():
            with open(os.path.join(folder, name), "w") as file:
                file.write(text)
        for name, status in [("lost", 0), ("kept", 0), ("other", 1)]:
            told = chained(*[os.path.join(folder, it) for it in ("day1", name)], case=os.path.join(folder, "case"))
            want(told[0] == status, "%s: %s" % (name, told))



# ---- reports as JSON


def as_report(value):
    """The report that a JSON value is of."""

    def listed(names):
        return ",".join(names) or "-"

    def mark(it):
        return "executed %s pending %s included %s" % tuple(listed(it[name]) for name in ("executed", "pending", "included"))

    def waits(it):
        return "waits " + it["waits"] if not it["accepting"] else None

    def compact(it):
        return json.dumps(it, separators=(",", ":"), ensure_ascii=False)

    lines = ["dcr " + value["version"], "graph " + compact(value["graph"]), "cover " + compact(value["cover"]), "open " + mark(value["open"])]
    for it in value["calls"]:
        words = [str(it["place"]), str(it["session"]), str(it["seq"]), it["call"], *[it[name] for name in ("site", "event") if name in it]]
        if it["call"] == "exec":
            words += [it["outcome"], *([it["by"]] if "by" in it else [])]
        elif it["call"] == "look":
            words.append(mark(it["marks"]))
        elif it["call"] == "enabled":
            words += ["can", listed(it["can"])]
        else:
            words.append(waits(it) or "yes")
        lines.append(" ".join(words))
    lines += ["site %s %s" % (it["site"], mark(it)) for it in value["sites"]]
    return "\n".join([*lines, "verdict " + (waits(value["verdict"]) or "accepting"), "end %d" % value["end"], ""])


def check_a_report_as_json_has_all_that_the_report_has():
    for name in [*examples(".report"), "stored/monday", "stored/tuesday"]:
        report = read("examples/%s.report" % name).decode()
        status, wrote, said = tool("report_json.py", path_of(name + ".report"))
        want(status == 0 and not said and as_report(json.loads(wrote)) == report, "%s: %d %s and another report" % (name, status, said))
        status, lines, _ = tool("report_json.py", "calls", "-", given=report.encode())
        want(status == 0 and [json.loads(it) for it in lines.splitlines()] == json.loads(wrote)["calls"], "%s: the calls alone" % name)


def check_a_report_that_is_not_valid_is_no_json():
    report = read("examples/medication.report").replace(b"condition s", b"done")
    want(tool("report_json.py", "-", given=report) == (8, "", "-: invalid 6 outcome\n"), "a changed report")
    want(tool("report_json.py", path_of("first.json")) == (8, "", path_of("first.json") + ": invalid 1 head\n"), "a case")
