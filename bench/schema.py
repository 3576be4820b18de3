#!/usr/bin/env python3
"""Tries docs/case.schema.json on the examples, on the files that are refused, and on files that are made at random.

    bench/schema.py check COUNT SEED     the examples, examples/refused, and as many random cases, each also spoilt
    bench/schema.py validate FILE        what the schema says of a case file; nothing where it takes it

`check` wants: each example and each random case is taken; with a member misspelt, a value of another type or a call
that is none it is refused; of examples/refused those are refused that a schema can refuse. Where the library
`jsonschema` is installed, its answers are compared. The words of the schema that the file uses are checked here by some
lines, so that nothing but Python is needed.
"""

import copy
import glob
import json
import os
import random
import re
import sys

import second  # noqa: F401
from model import TOP, random_case

SCHEMA = os.path.join(TOP, "docs/case.schema.json")
TYPES = {"object": dict, "array": list, "string": str, "boolean": bool, "integer": int}
# These relate two places of a file, or have a label of 200 characters and more bytes, which a schema can't say.
BEYOND_A_SCHEMA = {"5-event-name", "6-parent", "7-mark-on-nest", "8-relation-end", "9-clash", "10-owned", "10-site-name", "11-uncovered", "12-call-line"}
BEYOND_A_SCHEMA |= {"16-policy-user", "16-policy-by", "17-denied"}


def wrong(value, rule, whole, at="$"):
    """Where a value breaks the rule: the first place and why, or None."""
    if rule is False:
        return "%s: nothing may stand here" % at
    if "$ref" in rule:
        found = wrong(value, whole["$defs"][rule["$ref"].rpartition("/")[2]], whole, at)
        if found:
            return found
    if "type" in rule and (not isinstance(value, TYPES[rule["type"]]) or rule["type"] == "integer" and isinstance(value, bool)):
        return "%s: no %s" % (at, rule["type"])
    if rule.get("type") == "integer" and not rule.get("minimum", value) <= value <= rule.get("maximum", value):
        return "%s: another number" % at
    if "enum" in rule and value not in rule["enum"] or "const" in rule and value != rule["const"]:
        return "%s: another value" % at
    if isinstance(value, str) and (len(value) > rule.get("maxLength", len(value)) or not re.search(rule.get("pattern", "").replace("$", r"\Z"), value)):
        return "%s: another text" % at
    if isinstance(value, list) and not rule.get("minItems", 0) <= len(value) <= rule.get("maxItems", len(value)):
        return "%s: too few or too many" % at
    if isinstance(value, list) and rule.get("uniqueItems") and len({json.dumps(it, sort_keys=True) for it in value}) < len(value):
        return "%s: one twice" % at
    found = wrong_inside(value, rule, whole, at)
    if not found and "if" in rule:
        branch = "else" if wrong(value, rule["if"], whole, at) else "then"
        found = wrong(value, rule.get(branch, {}), whole, at)
    return found or next(filter(None, (wrong(value, it, whole, at) for it in rule.get("allOf", []))), None)


def wrong_inside(value, rule, whole, at):
    """The same of the members and the elements of the value."""
    inside = []
    if isinstance(value, dict):
        lacking = [name for name in rule.get("required", []) if name not in value]
        if lacking:
            return "%s: no member %s" % (at, lacking[0])
        for name, member in value.items():
            if name in rule.get("properties", {}):
                inside.append((member, rule["properties"][name], "%s.%s" % (at, name)))
            elif rule.get("additionalProperties") is False:
                return "%s: a member %s" % (at, name)
    if isinstance(value, list):
        first = rule.get("prefixItems", [])
        rules = [first[k] if k < len(first) else rule.get("items", {}) for k in range(len(value))]
        inside = [(it, rules[k], "%s[%d]" % (at, k)) for k, it in enumerate(value)]
    return next(filter(None, (wrong(it, below, whole, place) for it, below, place in inside)), None)


def spoilt(draw, case):
    """The case with one thing changed that the schema refuses, and what was changed."""
    case = copy.deepcopy(case)
    places = [case, case["graph"], *case["graph"]["events"], *case["cover"], *case.get("users", [])]
    calls = [(session, k) for session in case.get("sessions", []) for k in range(len(session))]
    way = draw.randrange(5 if calls else 4)
    it = draw.choice(places)
    if way == 0:
        name = draw.choice(sorted(it))
        it[name[:-1] + "x" if draw.random() < 0.5 else name + "s"] = it.pop(name)
    elif way == 1:
        it[draw.choice(["note", "comment", "incldued", "parrent"])] = "a note"
    elif way == 2:
        it[draw.choice(sorted(it))] = draw.choice([None, 1, [1], {"a": 1}])
    elif way == 3:
        spoil_roles(draw, case)
    else:
        session, k = draw.choice(calls)
        session[k] = draw.choice([session[k] + " ", " " + session[k], session[k] + " x", session[k].replace(" ", "  ") + " ", session[k].upper(), "", "exec", "look", "step a b"])
    return way, case


def spoil_roles(draw, case):
    """Gives the case roles, users or sessions of users that are none, or that are of version 3 where it is of another."""
    event, is_third = draw.choice(case["graph"]["events"]), case.get("version") == "3"
    names = ["1r", "r 1", "", "r" * 65, None, 1]
    ways = [(event, "roles", [draw.choice(names)]), (case, "users", [{"user": "u9", "roles": [draw.choice(names)]}])]
    ways += [(case, "users", [draw.choice([{"user": "u9"}, {"roles": []}, {"user": "1", "roles": []}, "u9"])]), (case, "by", [draw.choice(names)])]
    if not is_third:
        ways = [(event, "roles", ["r1"]), (event, "roles", []), (case, "users", [{"user": "u9", "roles": ["r1"]}]), (case, "users", []), (case, "by", [])]
    of, member, value = draw.choice(ways)
    of[member] = value


def validator_of_a_library():
    """The class that validates by the library, where it is installed."""
    try:
        import jsonschema
    except ImportError:
        return None
    return jsonschema.Draft202012Validator


def check(count, seed):
    with open(SCHEMA, encoding="utf-8") as file:
        schema = json.load(file)
    library, ways, failed = validator_of_a_library(), {}, []
    if library:
        library.check_schema(schema)

    def expect(name, case, is_taken):
        answer = wrong(case, schema, schema)
        if (answer is None) != is_taken or (library and library(schema).is_valid(case) != is_taken):
            failed.append("%s: %s" % (name, answer or "taken"))

    for path in sorted(glob.glob(TOP + "/examples/*.json")):
        with open(path, encoding="utf-8") as file:
            expect(os.path.basename(path), json.load(file), True)
    for path in sorted(glob.glob(TOP + "/examples/refused/*.json")):
        name = os.path.basename(path)[:-5]
        with open(path, encoding="utf-8") as file:
            try:
                case = json.load(file)
            except ValueError:
                case = None
        expect(name, case, name in BEYOND_A_SCHEMA)
    draw = random.Random(seed)
    for number in range(count):
        case = json.loads(random_case(draw))
        expect("random case %d" % number, case, True)
        way, other = spoilt(draw, case)
        ways[way] = ways.get(way, 0) + 1
        expect("random case %d, spoilt: %s" % (number, json.dumps(other)), other, False)
    for it in failed:
        print(it)
    print("%d random cases are taken, and refused where spoilt (%s)%s" % (count, " ".join(str(ways[it]) for it in sorted(ways)), "; jsonschema says the same" if library else ""))
    return 1 if failed else 0


def validate(path):
    with open(SCHEMA, encoding="utf-8") as file, open(path, encoding="utf-8") as case:
        schema = json.load(file)
        found = wrong(json.load(case), schema, schema)
    if found:
        print(found)
    return 1 if found else 0


if __name__ == "__main__":
    if len(sys.argv) == 4 and sys.argv[1] == "check":
        sys.exit(check(int(sys.argv[2]), int(sys.argv[3])))
    elif len(sys.argv) == 3 and sys.argv[1] == "validate":
        sys.exit(validate(sys.argv[2]))
    else:
        sys.exit(__doc__)
