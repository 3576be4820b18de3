"""What stands beside the program: the schema, and the tools that read a case or a report."""

import contextlib
import functools
import importlib.util
import io
import json
import os
import random
import re
import shutil
import subprocess
import sys
import tempfile
import xml.etree.ElementTree

from checks import EXAMPLES, TOP, examples, read, run, want
from checks.program import prepare  # noqa: F401

sys.path[:0] = [os.path.join(TOP, "tools"), os.path.join(TOP, "bench")]
import apart  # noqa: E402
import part  # noqa: E402
from model import Case, give_roles, random_case  # noqa: E402
from replay import check as replayed  # noqa: E402

PROGRAM = os.path.join(TOP, "crates/dcr/out/dcr")
# The text that stands at the place that each refused example's line tells of.
PLACES = {
    "2-not-json.json": ",]}}",
    "3-shape-event.json": "1",
    "3-shape-top-version.json": '"9"',
    "4-limit-label.json": '"' + "x" * 96 + "...",
    "4-limit-sites.json": "[]",
    "5-event-name.json": '"a"',
    "6-parent.json": '"b"',
    "7-mark-on-nest.json": "true",
    "8-relation-end.json": '"zz"',
    "9-clash.json": '["include","P","w"]',
    "10-owned.json": '"zz"',
    "10-site-name.json": '"x"',
    "11-uncovered.json": '{"name":"b"}',
    "12-call-line.json": '"exec x c"',
    "16-policy-event.json": '"doctor"',
    "16-policy-users.json": '{"ann":["doctor"]}',
    "16-policy-user.json": '"ann"',
    "16-policy-by.json": '"eve"',
    "17-denied.json": '"exec x sign"',
}


@functools.lru_cache(maxsize=None)
def module(path):
    name = os.path.basename(path)[:-3]
    spec = importlib.util.spec_from_file_location(name, os.path.join(TOP, path))
    made = importlib.util.module_from_spec(spec)
    spec.loader.exec_module(made)
    return made


def tool(name, *words, given=""):
    """The status of a tool, called in this process, and what it wrote to standard output and to standard error."""
    wrote, said, was = io.StringIO(), io.StringIO(), sys.stdin
    sys.stdin = io.StringIO(given)
    with contextlib.redirect_stdout(wrote), contextlib.redirect_stderr(said):
        try:
            status = module("tools/" + name).main(list(words))
        except SystemExit as end:
            status = 1 if isinstance(end.code, str) else end.code
            said.write(end.code if isinstance(end.code, str) else "")
    sys.stdin = was
    return status or 0, wrote.getvalue(), said.getvalue()


def check_the_schema():
    wrote = io.StringIO()
    with contextlib.redirect_stdout(wrote):
        status = module("bench/schema.py").check(30, 1)
    want(status == 0, wrote.getvalue())


def check_a_case_may_name_its_schema():
    rule, case = json.loads(read("docs/case.schema.json")), {"$schema": "docs/case.schema.json", **json.loads(read("examples/medication.json"))}
    wrong = module("bench/schema.py").wrong
    want(wrong(case, rule, rule) is None, "the schema refuses the member by which editors find it: %s" % wrong(case, rule, rule))
    want(wrong({**case, "$schema": 1}, rule, rule) and wrong({**case, "$shema": ""}, rule, rule), "the schema takes anything in its place")
    with tempfile.NamedTemporaryFile("w", suffix=".json") as file:
        json.dump(case, file)
        file.flush()
        told = tool("explain.py", file.name)
        want(told == (0, file.name + ": dcr takes it, and passes over no member\n", ""), str(told))
    ran = run([PROGRAM, "run"], json.dumps(case).encode())
    want(ran[:2] == (0, read("examples/medication.report")), "dcr runs it otherwise")


# ---- explain


def check_explain_finds_the_place_of_each_refusal():
    for name, line in re.findall(r"^\| `([^`]*\.json)` \| `([^`]*)` \|$", read("examples/refused/README.md").decode(), re.M):
        path = os.path.join(EXAMPLES, "refused", name)
        status, wrote, _ = tool("explain.py", path, *line.split())
        first, shown = wrote.split("\n")[:2]
        place = re.match(re.escape(path) + r":(\d+):(\d+): .", first)
        want(status == 1 and place and "rule:" in wrote and "mend:" in wrote, "%s: %s" % (name, wrote))
        there = read(path).decode().split("\n")[int(place[1]) - 1][int(place[2]) - 1 :]
        want(shown.strip() == PLACES[name] and there.startswith(shown.strip().rstrip(".")), "%s: %s" % (name, wrote))
        told = tool("explain.py", path, "-", given=line + "\n")
        want(told == (status, wrote, ""), "%s, read from standard input" % name)


def check_explain_lists_what_is_passed_over():
    for name in examples():
        status, wrote, _ = tool("explain.py", os.path.join(EXAMPLES, name + ".json"))
        want(status == 0 and "no member" in wrote, "%s: %s" % (name, wrote))
    with tempfile.NamedTemporaryFile("w", suffix=".json") as file:
        file.write('{"graph":{"events":[{"name":"a","incldued":false}],\n"relatoins":[]},"session":[],"cover":[1],\n"cover":[{"site":"s","events":["a"],"note":1}]}')
        file.flush()
        status, wrote, _ = tool("explain.py", file.name)
    want(status == 1, "status %d" % status)
    found = [line[len(file.name) + 1 :].split(": ", 1) for line in wrote.splitlines()]
    places = {it[0]: it[1] for it in found}
    want([*places] == ["1:33", "2:1", "2:17", "2:30", "3:37"], wrote)
    want("`included`" in places["1:33"] and "`relations`" in places["2:1"] and "`sessions`" in places["2:17"] and "earlier" in places["2:30"], wrote)


def spoilt(draw):
    """A random case with one thing changed that the program may refuse."""
    case = json.loads(random_case(draw))
    graph, calls, users = case["graph"], [(session, k) for session in case["sessions"] for k in range(len(session))], case.get("users", [])
    lists = [it for it in (graph["events"], graph["relations"], case["cover"], case["sessions"], *graph["relations"], *case["sessions"], *[site["events"] for site in case["cover"]]) if it]
    lists += [it for it in (users, case.get("by"), *[of.get("roles") for of in [*graph["events"], *users]]) if it]
    objects = [case, graph, *graph["events"], *case["cover"], *users]
    way, others = draw.randrange(5), [None, 3, "zz", "", [], {}, True, ["exec s0 e0"], "a b", "e0"]
    if way == 0:
        it = draw.choice(objects)
        it[draw.choice(sorted(it))] = draw.choice(others)
    elif way == 1:
        it = draw.choice(lists)
        it[draw.randrange(len(it))] = draw.choice(others)
    elif way == 2:
        it = draw.choice(objects)
        del it[draw.choice(sorted(it))]
    elif way == 3 and calls:
        session, k = draw.choice(calls)
        session[k] = draw.choice(["exec s0 zz", "exec zz e0", "look", "look s0 ", "Exec s0 e0", "accepting now", "exec  s0 e0", "exec s0 e0"])
    else:
        draw.choice(graph["events"])["parent"] = "e%d" % draw.randrange(9)
    text = json.dumps(case, indent=draw.choice([None, 1]))
    return text[: draw.randrange(len(text))] if draw.random() < 0.05 else text


def check_explain_knows_each_line_of_the_program():
    draw, kinds = random.Random(1), set()
    with tempfile.NamedTemporaryFile("w", suffix=".json") as file:
        for _ in range(160):
            text = spoilt(draw)
            line = subprocess.run([PROGRAM, "run"], input=text.encode(), stdout=subprocess.PIPE).stdout.decode()
            if not line.startswith("refused"):
                continue
            kinds.add(line.split()[2])
            file.seek(0)
            file.truncate()
            file.write(text)
            file.flush()
            status, wrote, said = tool("explain.py", file.name, *line.split())
            want(status == 1 and wrote.startswith(file.name + ":"), "%s%s%s%s" % (line, text, wrote, said))
    want(len(kinds) >= 9 and {"policy", "denied"} <= kinds, "only the refusals %s came" % sorted(kinds))


def check_explain_knows_the_lines_of_a_tape():
    for line in ("tape not-tape", "tape other-case", "tape bad 7", "tape long"):
        status, wrote, said = tool("explain.py", os.path.join(EXAMPLES, "medication.json"), *line.split())
        want(status == 1 and wrote.startswith("dcr.tape: ") and "rule:" in wrote and "mend:" in wrote, line + wrote + said)
    want("execution 7" in tool("explain.py", os.path.join(EXAMPLES, "medication.json"), "tape", "bad", "7")[1], "the number of the bad execution")


# ---- draw


def want_picture(name, wrote, words):
    texts = "".join(xml.etree.ElementTree.fromstring(wrote).itertext())
    for word in words:
        want(word in texts, "%s: the picture has no %s" % (name, word))


def check_draw_draws_each_example():
    for name in examples():
        case, path = json.loads(read("examples/%s.json" % name)), os.path.join(EXAMPLES, name)
        events = [event.get("label", event["name"]).split()[0] for event in case["graph"]["events"]]
        words = [*events, *[site["site"] for site in case["cover"]], *[kind for kind, _, _ in case["graph"]["relations"]]]
        words += ["by " + " or ".join(event["roles"]) for event in case["graph"]["events"] if "roles" in event]
        want_picture(name, tool("draw.py", "own", path + ".json")[1], words)
        status, wrote, _ = tool("draw.py", "dot", path + ".json")
        want(status == 0 and wrote.count("{") == wrote.count("}") and wrote.count(" -> ") == len(case["graph"]["relations"]), name)
        # (the name beside each label, and the legend)
        want(all(">%s<" % event["name"] in wrote for event in case["graph"]["events"] if '"%s" [' % event["name"] in wrote and "label" in event), "%s: a name is missing beside a label" % name)
        want(all(" %s</font>" % kind in wrote for kind, _, _ in case["graph"]["relations"]) and "excluded at opening" in wrote, "%s: the legend" % name)
        want(all(it in wrote for it in words if it.startswith("by ")), "%s: the roles" % name)
        verdict = read("examples/%s.report" % name).decode().split("\nverdict ")[1].split("\n")[0]
        want_picture(name, tool("draw.py", "run", path + ".report")[1], [*[site["site"] for site in case["cover"]], "verdict " + verdict])


def check_graphviz_draws_a_nest_that_is_related_to_itself():
    case = {"graph": {"events": [{"name": "N"}, {"name": "a", "parent": "N"}, {"name": "b", "parent": "N"}, {"name": "c"}]}, "cover": [{"site": "s", "events": ["N", "c"]}]}
    case["graph"]["relations"] = [["exclude", "N", "N"], ["response", "a", "N"], ["condition", "c", "N"], ["include", "c", "c"]]
    with tempfile.NamedTemporaryFile("w", suffix=".json") as file:
        json.dump(case, file)
        file.flush()
        status, wrote, _ = tool("draw.py", "dot", file.name)
        want(status == 0, wrote)
        ends = re.findall(r'^"([^"]*)" -> "([^"]*)"', wrote, re.M)
        want(ends == [("@N", "@N"), ("a", "@N"), ("c", "a"), ("c", "c")] and '"@N" [' in wrote and wrote.count("cluster_N") == 2, wrote)
        if shutil.which("dot"):
            drawn = subprocess.run(["dot", "-Tsvg"], input=wrote.encode(), stdout=subprocess.PIPE, stderr=subprocess.PIPE)
            want(drawn.returncode == 0 and not drawn.stderr, "Graphviz says %s" % drawn.stderr)
            want_picture("a nest", tool("draw.py", "case", file.name)[1], ["all of N", "excluded at opening"])


def check_roles_are_drawn_as_far_as_there_is_room():
    roles = ["role-with-a-long-name-%d" % k for k in range(40)]
    case = {"version": "3", "graph": {"events": [{"name": "N", "roles": ["boss"]}, {"name": "a", "parent": "N", "roles": roles}, {"name": "b", "roles": ["nurse", "nurse"]}, {"name": "c", "roles": []}]}, "cover": [{"site": "s", "events": ["N", "b", "c"]}]}
    told = {}
    with tempfile.NamedTemporaryFile("w", suffix=".json") as file:
        for version in ("3", "2"):
            file.seek(0)
            file.truncate()
            json.dump({**case, "version": version}, file)
            file.flush()
            told[version] = [tool("draw.py", way, file.name) for way in ("own", "dot")]
    for status, wrote, said in told["3"]:
        want(status == 0 and wrote.count("by ") == wrote.count("by boss") + wrote.count("by nurse") + wrote.count("by role-with") == 3, "%d %s%s" % (status, wrote, said))
        want("N, by boss" in wrote and "by nurse<" in wrote and "…" in wrote and "name-9" not in wrote, wrote)
    want(all(status == 0 and "by " not in wrote for status, wrote, _ in told["2"]), "roles of version 2 are drawn")


def check_the_run_tells_all_of_a_long_change():
    names = ["event-with-a-long-name-%d" % k for k in range(30)]
    case = {"graph": {"events": [{"name": it} for it in names], "relations": [["response", names[0], it] for it in names]}, "cover": [{"site": "s", "events": names}], "sessions": [["exec s " + names[0], "look s"]]}
    with tempfile.NamedTemporaryFile("w", suffix=".report") as file:
        file.write(Case(json.dumps(case)).report())
        file.flush()
        status, wrote, said = tool("draw.py", "run", file.name)
    want(status == 0, said)
    texts = [it.text or "" for it in xml.etree.ElementTree.fromstring(wrote).iter("{http://www.w3.org/2000/svg}text")]
    want(max(map(len, texts)) <= 140, "a line of %d characters" % max(map(len, texts)))
    joined = re.sub(r"\s", "", "".join(texts))
    want("+executed%s;+pending%s" % (names[0], ",".join(names)) in joined and "included" + ",".join(names) in joined, "something is cut off: %s" % joined[:900])


def check_the_pictures_of_the_documents_are_those_that_draw_makes():
    for file in sorted(it for it in os.listdir(os.path.join(TOP, "docs/pictures")) if it.endswith(".svg")):
        name, way = (file[:-8], "run") if file.endswith("-run.svg") else (file[:-4], "own")
        path = os.path.join(EXAMPLES, name + (".report" if way == "run" else ".json"))
        want(tool("draw.py", way, path)[1] == read("docs/pictures/" + file).decode(), "docs/pictures/%s is another: tools/draw.py %s %s makes it" % (file, way, os.path.relpath(path, TOP)))


def check_draw_says_what_it_cant_draw():
    status, _, said = tool("draw.py", "own", os.path.join(EXAMPLES, "refused/8-relation-end.json"))
    want(status == 2 and "refused 8 relation-end 1" in said, said)


# ---- the second implementations


def check_sites_apart_make_the_report_of_the_executions():
    for name in examples():
        case = read("examples/%s.json" % name)
        for number in (0, 5, 4294967295):
            status, report, _ = run([PROGRAM, "nodes", str(number)], given=case)
            want((status, report) == apart.answer(case, number), "nodes %d of %s: %d %s" % (number, name, status, report))
        status, verdict, _ = run([PROGRAM, "replay"], given=report)
        want(status == 0 and verdict.startswith(b"valid "), "replay finds the report of %s %s" % (name, verdict))
    for number in (1, 2, 77):
        report = run([PROGRAM, "nodes", str(number)], given=read("examples/apart.json"))[1]
        want(report == read("examples/apart.report"), "nodes %d of apart.json makes another report" % number)


def check_sites_apart_over_random_networks():
    draw = random.Random(7)
    for _ in range(60):
        text, number = random_case(draw).encode(), draw.choice([draw.randrange(20), draw.randrange(1 << 32)])
        status, report, _ = run([PROGRAM, "nodes", str(number)], given=text)
        want(report.startswith(b"refused 9 clash ") or (status, report) == apart.answer(text, number), "nodes %d of %s: %s" % (number, text, report))


# ---- the part of a site


def is_part_of(text, given, site):
    """What the program tells of a site is what the second implementation tells, and by the schema a part."""
    told = run([PROGRAM, "part", site], given=given)
    want(told == (*part.answer(given, site), b""), "part %s of %s: %s" % (site, text, told))
    rule = json.loads(read("docs/part.schema.json"))
    found = told[0] == 0 and module("bench/schema.py").wrong(json.loads(told[1]), rule, rule)
    want(not found, "part %s of %s: by the schema: %s" % (site, text, found))
    return told


def check_each_site_of_an_example_has_its_part():
    for name in examples():
        given = read("examples/%s.json" % name)
        for number, (site, _) in enumerate(Case(given.decode()).sites):
            told = json.loads(is_part_of(name, given, site)[1])
            want((told["site"], told["number"]) == (site, number), "the part of %s tells another site" % site)
            status, wrote, said = run([sys.executable, os.path.join(TOP, "tools/part.py"), "--read"], given=json.dumps(told).encode())
            want(status == 0 and wrote.startswith(b"site %s, number %d, " % (site.encode(), number)) and not said, "%s%s" % (wrote, said))


def check_the_parts_of_random_cases():
    draw, counts = random.Random(11), [0, 0]
    for _ in range(120):
        text = random_case(draw)
        for site in [*(it["site"] for it in json.loads(text)["cover"]), "nobody"]:
            counts[is_part_of(text, text.encode(), site)[0] == 0] += 1
    want(min(counts) > 100, "refused and told were %s" % counts)


def check_a_word_that_is_no_site_is_told_as_it_is():
    given = read("examples/medication.json")
    for site in ["Nurse", "", "nurse ", "a\nb", 'a"b', "\u00e9", "--store", "x" * 100_000]:
        told = run([PROGRAM, "part", site], given=given)
        want(told == (3, b"refused 18 no-site %s\n" % site.encode(), b""), "%s: %s" % (site[:90], str(told)[:200]))
    path = os.path.join(EXAMPLES, "medication.json")
    status, wrote, said = tool("explain.py", path, "refused", "18", "no-site", "nurs")
    want(status == 1 and "no site has the name `nurs`" in wrote and "`nurse`" in wrote and "rule:" in wrote and not said, "%d %s%s" % (status, wrote, said))
    want(tool("explain.py", path, "refused", "18", "no-site", "nurse")[0] == 2, "the nurse is a site")


def denied_by_definition(file, session, atom):
    """The role for want of which a session may not execute an atom, written out: all that it asks for, each once, and all
    that the session has."""
    events, asked = {event["name"]: event for event in file["graph"]["events"]}, []
    while atom is not None:
        asked += [role for role in events[atom].get("roles", []) if role not in asked]
        atom = events[atom].get("parent")
    names = file.get("by", [])[session : session + 1]
    had = [role for user in file.get("users", []) if user["user"] in names for role in user["roles"]]
    return asked[0] if asked and not {*asked} & {*had} else None


def check_policies_by_the_definition():
    draw, counts = random.Random(9), [0, 0]
    for _ in range(200):
        file = {**json.loads(random_case(draw)), "version": "3"}
        give_roles(draw, file)
        case, other = (Case(json.dumps({**file, "version": version})) for version in ("3", "2"))
        for session, atom in [(session, atom) for session in range(6) for atom in case.atoms]:
            wanted = denied_by_definition(file, session, atom)
            want(case.denied(session, "exec s9 " + atom) == wanted, "session %d and %s: %s" % (session, atom, json.dumps(file)))
            want(other.denied(session, "exec s9 " + atom) is case.denied(session, "look s0") is None, "something else is denied: %s" % json.dumps(file))
            counts[wanted is not None] += 1
    want(min(counts) > 500, "allowed and denied were %s" % counts)


def check_the_examples_by_the_models():
    for name in examples():
        case, report = read("examples/%s.json" % name), read("examples/%s.report" % name)
        want(Case(case.decode()).report() == report.decode(), "tools/model.py makes another report of %s" % name)
        want(replayed(report) == "valid " + report.decode().rsplit("\nend ", 1)[1], "tools/replay.py finds %s wrong" % name)


def check_the_case_over_two_days_by_the_models():
    first, second = (Case(read("examples/stored/%s.json" % day).decode()) for day in ("monday", "tuesday"))
    reports = [first.report()]
    second.executed, second.pending, second.included = first.executed, first.pending, first.included
    reports.append(second.report())
    for day, report in zip(("monday", "tuesday"), reports):
        want(report == read("examples/stored/%s.report" % day).decode(), "tools/model.py makes another report of %s" % day)
        want(replayed(report.encode()).startswith("valid "), "tools/replay.py finds %s wrong" % day)
