"""`tools/explain.py` on a good case that was broken in the ways that people break one."""

import os
import random
import re
import sys
import tempfile

from checks import TOP, run, want
from checks.program import PROGRAM, prepare  # noqa: F401
from checks.files import tool

sys.path.insert(0, os.path.join(TOP, "tools"))
from model import Case, random_case  # noqa: E402
from odd import Reach  # noqa: E402

GOOD = """{"version": "2",
 "graph": {
  "events": [
   {"name": "order", "label": "Order the goods"},
   {"name": "Work"},
   {"name": "pack", "parent": "Work", "pending": false},
   {"name": "send", "parent": "Work"},
   {"name": "pay"}],
  "relations": [
   ["condition", "order", "Work"],
   ["response", "order", "pay"],
   ["milestone", "pay", "send"],
   ["cancel", "send", "pay"]]},
 "cover": [
  {"site": "shop", "events": ["Work"]},
  {"site": "buyer", "events": ["order", "pay"]}],
 "sessions": [
  ["exec buyer order", "exec shop pack"],
  ["accepting"]]}
"""


def by(old, new):
    """The good file with one part in the place of another, which stands in it once."""
    want(GOOD.count(old) == 1, "%s stands in the good file %d times" % (old, GOOD.count(old)))
    return GOOD.replace(old, new)


def with_roles(old="", new=""):
    """The good file in version 3 with roles and users, and with one part in the place of another, which stands in it once."""
    text = by('"version": "2"', '"version": "3"').replace('{"name": "Work"}', '{"name": "Work", "roles": ["packer", "boss"]}')
    text = text.replace('"label": "Order the goods"', '"label": "Order the goods", "roles": ["customer"]')
    text = text.replace(' "sessions": [', ' "users": [\n  {"user": "kim", "roles": ["customer"]},\n  {"user": "lou", "roles": ["packer"]}],\n "by": ["kim", "lou"],\n "sessions": [')
    text = text.replace('["exec buyer order", "exec shop pack"],\n  ["accepting"]', '["exec buyer order"],\n  ["exec shop pack", "accepting"]')
    want(not old or text.count(old) == 1, "%s stands in the good file with roles %d times" % (old, text.count(old)))
    return text.replace(old, new)


# Each: what was done, the file, what `dcr run` answers (nothing where it takes the file), the text at the place that is
# told, and words that must be told.
BREAKAGES = [
    ("a misspelt member", by('"pending"', '"pendng"'), "", '"pendng"', ["passes over", "did you mean `pending`?"]),
    ("a misspelt member that must be there", by('"cover"', '"covr"'), "refused 3 shape cover 0", "{", ["no `cover`; is `covr` meant to be it?"]),
    ("a wrong parent", by('"send", "parent": "Work"', '"send", "parent": "Wrok"'), "refused 6 parent 3", '"Wrok"', ["no event has this name", "did you mean `Work`?", "mend the name"]),
    ("a parent that stands later", by('{"name": "order", ', '{"name": "order", "parent": "Work", '), "refused 6 parent 0", '"Work"', ["stands later", "put it before its children"]),
    ("an event at two sites", by('["Work"]}', '["Work", "pay"]}'), "", '{"name": "pay"}', ["remark", "several sites, shop and buyer"]),
    ("a missing site", by('  {"site": "shop", "events": ["Work"]},\n', ""), "refused 11 uncovered pack", '{"name": "pack"', ["no site owns `pack`", "give it to a site"]),
    ("a site that there is not in a call", by('"exec shop pack"', '"exec shp pack"'), "refused 12 call-line 0 1", '"exec shp pack"', ["no site has the name `shp`", "did you mean `shop`?"]),
    ("an unknown event in a call", by('"exec shop pack"', '"exec shop pakc"'), "refused 12 call-line 0 1", '"exec shop pakc"', ["no event has the name `pakc`", "did you mean `pack`?"]),
    ("a nest in a call", by('"exec shop pack"', '"exec shop Work"'), "refused 12 call-line 0 1", '"exec shop Work"', ["`Work` is a nest", "below it"]),
    ("two commas", by('["condition", "order", "Work"],', '["condition", "order", "Work"],,'), "refused 2 not-json", ",", ["a comma too many", "take it out"]),
    ("a trailing comma", by('["cancel", "send", "pay"]]}', '["cancel", "send", "pay"],]}'), "refused 2 not-json", ",]}", ["a comma too many", "take the comma out"]),
    ("a trailing comma of an object", by('{"name": "Work"}', '{"name": "Work",}'), "refused 2 not-json", ",}", ["a comma too many", "take the comma out"]),
    ("a missing comma", by('"shop", "events"', '"shop" "events"'), "refused 2 not-json", '"events"', ["a comma or }"]),
    ("a number for a text", by('"name": "pay"', '"name": 4'), "refused 3 shape event 4", "4", ["`name` is a number", "in quotes"]),
    ("a text for true or false", by("false", '"false"'), "refused 3 shape event 2", '"false"', ["`pending` is a text", "without quotes"]),
    ("a wrong case of a kind", by('["milestone"', '["Milestone"'), "refused 3 shape relation 2", '"Milestone"', ["did you mean `milestone`?", "small letters"]),
    ("noresponse", by('"cancel"', '"noresponse"'), "refused 3 shape relation 3", '"noresponse"', ["is `cancel` here", 'write "cancel"']),
    ("cancel in version 1", by('{"version": "2",', "{"), "refused 3 shape relation 3", '"cancel"', ['"version":"2"', 'needs version "2" or "3"']),
    ("a name twice", by('{"name": "pay"}', '{"name": "pack"}'), "refused 5 event-name 4", '"pack"}', ["earlier event's name", "rename it"]),
    ("a site without events", by('"shop", "events": ["Work"]', '"shop"'), "refused 3 shape site 0", '{"site": "shop"}', ["no `events`", '"events": []']),
    ("a site that owns none", by('["order", "pay"]}]', '["order", "pay"]}, {"site": "bank", "events": []}]'), "", '{"site": "bank"', ["remark", "owns no event"]),
    ("a long label", by("Order the goods", "x" * 201), "refused 4 limit label 201", '"xxx', ["201 bytes of this label", "at most 200"]),
    ("sessions as a flat list", by('[\n  ["exec buyer order", "exec shop pack"],\n  ["accepting"]]', '["exec buyer order", "accepting"]'), "refused 3 shape session 0", '"exec buyer order"', ["this is no array", "an array in an array"]),
    ("words of a call turned round", by('"exec shop pack"', '"exec pack shop"'), "refused 12 call-line 0 1", '"exec pack shop"', ["turned round", "`exec shop pack`"]),
    ("two spaces in a call", by('"exec shop pack"', '"exec shop  pack"'), "refused 12 call-line 0 1", '"exec shop  pack"', ["two spaces"]),
    ("cyclic parents", by('{"name": "Work"}', '{"name": "Work", "parent": "pack"}'), "refused 6 parent 1", '"pack"}', ["round in a circle", "take one of these members `parent` out"]),
    ("an event that is its own parent", by('{"name": "pay"}', '{"name": "pay", "parent": "pay"}'), "refused 6 parent 4", '"pay"}', ["the event itself", "take the member out"]),
    ("a condition on itself", by('["response", "order", "pay"]', '["condition", "pay", "pay"]'), "", '{"name": "pay"}', ["can never be executed", "condition of itself", '["condition", "pay", "pay"]']),
    ("a condition on itself through a nest", by('["condition", "order", "Work"]', '["condition", "pack", "Work"]'), "", '{"name": "pack"', ["can never be executed", "through a nest", '["condition", "pack", "Work"]']),
    ("conditions in a circle", by('["response", "order", "pay"]', '["condition", "pack", "order"]'), "", '{"name": "order"', ["can never be executed", "its condition `pack` can't be either"]),
    ("a milestone on itself", by('["milestone", "pay", "send"]', '["milestone", "pay", "pay"]'), "", '{"name": "pay"}', ["while it is pending", "milestone of itself"]),
    ("an event that nothing includes", by('{"name": "pay"}', '{"name": "pay", "included": false}'), "", '{"name": "pay"', ["can never be executed", "no event includes it"]),
    ("a session without calls", by('["accepting"]', "[]"), "", "[]]", ["session 1 has no calls"]),
    ("an unknown version", by('"version": "2"', '"version": "4"'), "refused 3 shape top 0", '"4"', ["this is no version", '"3" with quotes where there are roles', '"2" where']),
    ("a version that is a number", by('"version": "2"', '"version": 2'), "refused 3 shape top 0", "2,", ["this is a number", 'write "2" with quotes']),
    ("another version that is a number", with_roles('"version": "3"', '"version": 3'), "refused 3 shape top 0", "3,", ["this is a number", 'write "3" with quotes']),
    ("a version that is a large number", by('"version": "2"', '"version": 4e300'), "refused 3 shape top 0", "4e300,", ["this is a number", '"3" with quotes where']),
    ("roles of an event in version 2", by('{"name": "pay"}', '{"name": "pay", "roles": ["buyer"]}'), "", '"roles"', ["passes over", 'it counts where "version" is "3"']),
    ("users in version 1", with_roles('"version": "3"', '"version": "1"').replace('["cancel", "send", "pay"]', '["response", "send", "pay"]'), "", '"users"', ["passes over the member `users`", "the member `by`", "the member `roles`"]),
    ("a misspelt member of an event in version 3", with_roles('"roles": ["packer", "boss"]', '"role": ["packer", "boss"]'), "", '"role"', ["passes over", "did you mean `roles`?"]),
    ("a role as a text", with_roles('"roles": ["packer", "boss"]', '"roles": "packer"'), "refused 16 policy event 1", '"packer"', ["`roles` is a text here", "write [ and ] around the roles"]),
    ("roles that are null", with_roles('"roles": ["packer", "boss"]', '"roles": null'), "refused 16 policy event 1", "null", ["`roles` is null here", "take it out"]),
    ("a role with a space", with_roles('"boss"', '"the boss"'), "refused 16 policy event 1", '"the boss"', ["this is no name", "rename the role"]),
    ("a role as a number", with_roles('"boss"', "7"), "refused 16 policy event 1", "7]", ["this is a number", "in quotes"]),
    ("users as an object", with_roles('"users": [\n  {"user": "kim", "roles": ["customer"]},\n  {"user": "lou", "roles": ["packer"]}]', '"users": {"kim": ["customer"]}'), "refused 16 policy users 0", '{"kim"', ["`users` is an object here", '[{"user": .., "roles": [..]}, ..]']),
    ("a user as a text", with_roles('{"user": "kim", "roles": ["customer"]}', '"kim"'), "refused 16 policy user 0", '"kim"', ["this is a text", '{"user": .., "roles": [..]}']),
    ("a user with a name", with_roles('{"user": "lou"', '{"name": "lou"'), "refused 16 policy user 1", '{"name": "lou"', ["no `user`; is `name` meant to be it?"]),
    ("a user without roles", with_roles('{"user": "lou", "roles": ["packer"]}', '{"user": "lou", "role": ["packer"]}'), "refused 16 policy user 1", '{"user": "lou"', ["no `roles`; is `role` meant to be it?", '"roles": []']),
    ("a user's name with a space", with_roles('{"user": "lou"', '{"user": "Lou L."'), "refused 16 policy user 1", '"Lou L."', ["this is no name", "rename the user"]),
    ("a user's name as a number", with_roles('{"user": "lou"', '{"user": 2'), "refused 16 policy user 1", "2,", ["`user` is a number here", "in quotes"]),
    ("a user twice", with_roles('{"user": "lou"', '{"user": "kim"'), "refused 16 policy user 1", '"kim", "roles": ["packer"]', ["an earlier user's name", "the earlier one"]),
    ("a user's roles as a text", with_roles('"lou", "roles": ["packer"]', '"lou", "roles": "packer"'), "refused 16 policy user 1", '"packer"', ["`roles` is a text here"]),
    ("one user of all sessions as a text", with_roles('["kim", "lou"]', '"kim"'), "refused 16 policy by 0", '"kim"', ["`by` is a text here", "write [ and ] around the names"]),
    ("an unknown user of a session", with_roles('["kim", "lou"]', '["kim", "luo"]'), "refused 16 policy by 1", '"luo"', ["no user has this name; did you mean `lou`?", "mend the name"]),
    ("a user of a session as an object", with_roles('["kim", "lou"]', '["kim", {"user": "lou"}]'), "refused 16 policy by 1", '{"user": "lou"}', ["this is an object", "in quotes"]),
    ("users of sessions without users", with_roles('"users": [\n  {"user": "kim", "roles": ["customer"]},\n  {"user": "lou", "roles": ["packer"]}],\n', ""), "refused 16 policy by 0", '"kim"', ["no user has this name", "write the users"]),
    ("users of sessions exchanged", with_roles('["kim", "lou"]', '["lou", "kim"]'), "refused 17 denied 0 0 customer", '"exec buyer order"', ["`lou`, whose session 0 is, lacks a role: `order` asks for `customer`", "make the call in a session of `kim`", 'write "customer" among the roles of `lou`']),
    ("a nest's role that its user lacks", with_roles('"lou", "roles": ["packer"]', '"lou", "roles": []'), "refused 17 denied 1 0 packer", '"exec shop pack"', ["`pack` asks for one of `packer`, `boss`", "`pack` is in `Work`, which asks for it here", 'write "packer" among the roles of `lou`']),
    ("a session past the users", with_roles('["kim", "lou"]', '["kim"]'), "refused 17 denied 1 0 packer", '"exec shop pack"', ["session 1 has no user", "`by` names the users of 1 session", "at place 1 of `by`"]),
    ("no user of any session", with_roles(',\n "by": ["kim", "lou"]', ""), "refused 17 denied 0 0 customer", '"exec buyer order"', ["session 0 has no user", "at place 0 of `by`"]),
    ("a role that no user has", with_roles('{"name": "pay"}', '{"name": "pay", "roles": ["custmer"]}'), "", '{"name": "pay"', ["nobody may execute `pay`", "no user has a role", "did you mean `customer`?"]),
    ("roles without users", with_roles('"users": [\n  {"user": "kim", "roles": ["customer"]},\n  {"user": "lou", "roles": ["packer"]}],\n "by": ["kim", "lou"],\n', "").replace('["exec buyer order"],\n  ["exec shop pack", "accepting"]', '["accepting"]'), "", '{"name": "order"', ["nobody may execute `order` and 2 more", "there are no users"]),
    ("a role that no event asks for", with_roles('"lou", "roles": ["packer"]', '"lou", "roles": ["packer", "customr"]'), "", '"customr"', ["remark", "no event asks for the role `customr`; did you mean `customer`?"]),
    ("a user without a session", with_roles('{"user": "lou", "roles": ["packer"]}', '{"user": "lou", "roles": ["packer"]},\n  {"user": "max", "roles": []}'), "", '{"user": "max"', ["remark", "no session is by `max`"]),
    ("a session without a user", with_roles('["exec shop pack", "accepting"]', '["exec shop pack", "accepting"], ["look shop"]'), "", '["look shop"]', ["remark", "session 2 has no user, since `by` names 2"]),
    ("a byte order mark", "\ufeff" + GOOD, "refused 2 not-json", "\ufeff", ["a byte order mark", "without it"]),
    ("line ends of other systems", GOOD.replace("\n", "\r\n"), "", "{", ["remark", "CR LF", "not in a report"]),
    ("line ends of old systems", GOOD.replace("\n", "\r"), "", "{", ["remark", "the line ends are CR,"]),
    ("an empty file", "", "refused 2 not-json", "", ["the file is empty", "whether it was saved"]),
    ("two values", GOOD + GOOD, "refused 2 not-json", "{", ["behind the end of the value", "one object"]),
    ("a huge number", by('"pending": false', '"pending": 1e999'), "refused 2 not-json", "1e999", ["out of range"]),
    ("a relation as an object", by('["response", "order", "pay"]', '{"kind": "response", "from": "order", "to": "pay"}'), "refused 3 shape relation 1", '{"kind"', ["this is an object", 'write ["condition"']),
    ("a relation of two words", by('["response", "order", "pay"]', '["response", "order"]'), "refused 3 shape relation 1", '["response", "order"]', ["this has 2 texts"]),
    ("a missing bracket", by('{"name": "pay"}],', '{"name": "pay"},'), "refused 2 not-json", ": [", ["a comma or ]", "what is open there begins here"]),
    ("a missing bracket at the end", GOOD.rstrip()[:-1], "refused 2 not-json", "", ["the file ends here", "what is open there begins here"]),
    ("a comment", by('{"name": "Work"},', '{"name": "Work"}, // the nest'), "refused 2 not-json", "// the nest", ["a comment"]),
    ("single quotes", by('{"name": "Work"}', "{'name': 'Work'}"), "refused 2 not-json", "'name'", ["single quotes", "double quotes"]),
]


def want_told(row, folder):
    name, text, line, at, words = row
    path = os.path.join(folder, re.sub(r"\W", "-", name) + ".json")
    with open(path, "w", newline="") as file:
        file.write(text)
    ran = run([PROGRAM, "run"], text.encode())[1].decode()
    want(ran == line + "\n" if line else ran.startswith("dcr "), "%s: dcr answers %s" % (name, ran[:80]))
    # (alone, and by the line that dcr wrote, where there is one)
    for given in [[]] + ([line.split()] if line else []):
        status, wrote, said = tool("explain.py", path, *given)
        is_remark = "remark" in words
        want(not said and status == (0 if is_remark else 1), "%s: status %d, %s%s" % (name, status, wrote, said))
        want(all(it in wrote for it in words), "%s: %s is wanted: %s" % (name, words, wrote))
        places = [tuple(map(int, it)) for it in re.findall(re.escape(path) + r":(\d+):(\d+): ", wrote)]
        lines = re.split("\r\n|\r|\n", text)
        want(any(lines[row - 1][column - 1 :].startswith(at) for row, column in places), "%s: no place is told where %s stands: %s" % (name, at, wrote))
        want(line == "" or "mend: " in wrote, "%s: no way to mend it: %s" % (name, wrote))


def check_explain_tells_each_natural_breakage():
    want(len(BREAKAGES) >= 25, "there are %d breakages" % len(BREAKAGES))
    wrong = []
    with tempfile.TemporaryDirectory() as folder:
        for row in BREAKAGES:
            try:
                want_told(row, folder)
            except AssertionError as why:
                wrong.append(str(why))
    want(not wrong, "\n".join(wrong))


def check_explain_tells_nothing_of_the_good_file():
    with tempfile.TemporaryDirectory() as folder:
        path = os.path.join(folder, "good.json")
        for text in (GOOD, with_roles()):
            with open(path, "w") as file:
                file.write(text)
            want(tool("explain.py", path) == (0, path + ": dcr takes it, and passes over no member\n", ""), str(tool("explain.py", path)))


def check_explain_tells_where_a_policy_is_another_files():
    lines = ["16 policy event 0", "16 policy event 9", "16 policy users 0", "16 policy user 0", "16 policy user 9", "16 policy by 0", "16 policy by 9", "16 policy bye 0", "16 policy", "16 policy by x"]
    lines += ["17 denied 0 0 customer", "17 denied 1 0 packer", "17 denied 0 0 boss", "17 denied 1 1 packer", "17 denied 9 0 packer", "17 denied 0 9 packer", "17 denied 0 0", "17 denied", "17 denied x y z"]
    with tempfile.TemporaryDirectory() as folder:
        for number, text in enumerate((with_roles(), GOOD)):
            path = os.path.join(folder, "%d.json" % number)
            with open(path, "w") as file:
                file.write(text)
            for line in lines:
                status, wrote, said = tool("explain.py", path, "refused", *line.split())
                want(status == 2 and not wrote and "is it the file that dcr was given?" in said, "%s of file %d: %d %s%s" % (line, number, status, wrote, said))


def check_explain_says_what_the_graph_would_have_answered():
    report = os.path.join(TOP, "examples/medication.report")
    with open(report, newline="") as file:
        text = file.read()
    rows = [
        (text.replace("gm condition s", "gm done"), "invalid 6 outcome", "the graph answers: condition s"),
        (text.replace("4 accepting waits s", "4 accepting yes"), "invalid 9 outcome", "the graph answers: waits s"),
        (text.replace("verdict accepting", "verdict waits s"), "invalid 16 verdict", "wanted: verdict accepting"),
        (text.replace("site nurse executed s,gm,dt", "site nurse executed gm,dt"), "invalid 15 site", "wanted: site nurse executed s,gm,dt pending"),
        (text.replace("end 9", "end 8"), "invalid 17 end", "wanted: end 9"),
        (text.replace("\n", "\r\n"), "invalid 1 head", "line ends were changed"),
        ("\ufeff" + text, "invalid 1 head", "a byte order mark"),
    ]
    with tempfile.TemporaryDirectory() as folder:
        for number, (changed, line, words) in enumerate(rows):
            path = os.path.join(folder, "%d.report" % number)
            with open(path, "w", newline="") as file:
                file.write(changed)
            want(run([PROGRAM, "replay"], changed.encode())[1].decode() == line + "\n", "row %d is not %s" % (number, line))
            status, wrote, _ = tool("explain.py", path, *line.split())
            want(status == 1 and words in wrote, "row %d: %d %s" % (number, status, wrote))
    # A line that is another file's is told as such.
    status, wrote, said = tool("explain.py", report, "invalid", "6", "outcome")
    want(status == 2 and "finds it valid" in said and not wrote, "a valid report: %d %s%s" % (status, wrote, said))


def executed_in_some_run(case, most=3000):
    """The atoms that some run executes, found by trying all of them; nothing where there are too many markings."""
    found, seen = set(), set()
    left = [(frozenset(case.executed), frozenset(case.pending), frozenset(case.included))]
    while left:
        marking = left.pop()
        if marking in seen:
            continue
        seen.add(marking)
        if len(seen) > most:
            return None
        for atom in case.atoms:
            case.executed, case.pending, case.included = (set(it) for it in marking)
            if case.cause(atom) is None:
                found.add(atom)
                case.step(atom)
                left.append((frozenset(case.executed), frozenset(case.pending), frozenset(case.included)))
    return found


def check_what_can_never_be_executed_is_executed_in_no_run():
    draw, tried, told, missed = random.Random(3), 0, 0, 0
    while tried < 150:
        text = random_case(draw)
        reach = Reach(Case(text))
        some = executed_in_some_run(Case(text)) if len(reach.case.atoms) < 7 else None
        if some is None or reach.case.pairs["include"] & reach.case.pairs["exclude"]:
            continue
        want(some <= reach.found, "%s can be executed: %s" % (sorted(some - reach.found), text))
        tried, told, missed = tried + 1, told + len(reach.case.atoms) - len(reach.found), missed + len(reach.found) - len(some)
    # (of those that no run executes most are told; the rule errs to one side)
    want(told > 30 and missed < told, "%d atoms are told, %d are missed" % (told, missed))
