#!/usr/bin/env python3
"""Makes a case file of a graph that DCR-JS saved as JSON, as far as its parts exist here.

    tools/from_dcr_js.py GRAPH > case.json                each role becomes a site; events without one stand at the site `all`
    tools/from_dcr_js.py --site NAME GRAPH > case.json    all events stand at one site
    tools/from_dcr_js.py --roles GRAPH > case.json        all stand at the site `all`, and each asks for its roles, in version 3
    tools/from_dcr_js.py --roles --site NAME GRAPH > ..   the same at a site with this name

Each part that is left out and each name that is changed is told on standard error, a line each. Names have plain letters
here: others are spelled out (`Læge` becomes `Laege`), and the label keeps the text. Add `sessions` to the case yourself,
and where it has roles `users` with `by`, since a session without a user may execute no event that asks for a role.
GRAPH may be `-`, for standard input. The status is 0, 1 where dcr would refuse the case that was made, and 2 where the
words are others or the file is missing or no such graph.

The form that is read is that of DCR-JS's engine, its sets as arrays or as {"isSet": true, "set": [..]}: `events`;
`conditionsFor` and `milestonesFor`, which give each event those that it waits for; `responseTo`, `includesTo` and
`excludesTo`, which give each event those that it leads to; `marking` with `executed`, `pending` and `included`;
`labelMap`; `roleMap`; `nestingIds` and `nestingRelations`, which gives each event its nest. An event that has a
sub-process stands in the case, and what is inside of it doesn't.
"""

import json
import sys

from case import NAME
from command import Usage, Wrong, command, read_text
from convert import MARKS, Graph, put_case

TO_TARGETS = {"responseTo": "response", "includesTo": "include", "excludesTo": "exclude"}
TO_SOURCES = {"conditionsFor": "condition", "milestonesFor": "milestone"}
READ = {"events", "marking", "labels", "labelMap", "labelMapInv", "roles", "roleMap", "nestingIds", "nestingRelations", "subProcesses", *TO_TARGETS, *TO_SOURCES}
LEFT_OUT = {
    "subProcessMap": "which events are in which sub-process",
    "spawns": "spawn relations",
    "participants": "participants, since sites are made of roles",
    "participantMap": "which participant does which event, since sites are made of roles",
}


def members(value):
    """The elements of a set, as it may be written: texts."""
    if isinstance(value, dict):
        value = value.get("set", [])
    found = [value] if isinstance(value, str) else list(value or [])
    if not all(isinstance(it, str) for it in found):
        raise ValueError("a set has something that is no text")
    return found


def table(graph, member):
    """A member that gives each event something."""
    found = graph.get(member) or {}
    if not isinstance(found, dict):
        raise ValueError("`%s` is no object" % member)
    return found


def read_graph(given, tell):
    """The graph that the JSON value is. What is left out is told."""
    if not isinstance(given, dict) or "events" not in given:
        raise ValueError("it is no object with `events`")
    for member in given:
        if member not in READ and given[member] and given[member] != {"isSet": True, "set": []}:
            tell("left out: " + LEFT_OUT.get(member, "the member `%s`" % member))
    graph = Graph()
    subs = table(given, "subProcesses")
    for it, inside in subs.items():
        inner = ", ".join(members(inside.get("events"))) if isinstance(inside, dict) else ""
        tell("left out: the sub-processes' inside; the event %s stands in the case, and what is in it doesn't%s" % (it, ": " + inner if inner else ""))
    graph.order = list(dict.fromkeys([*members(given.get("nestingIds")), *members(given["events"]), *subs]))
    for child, nest in table(given, "nestingRelations").items():
        nests = members(nest)
        if nests and child in graph.order and nests[0] in graph.order:
            graph.parent[child] = nests[0]
        elif nests:
            tell("left out: that %s is in %s, one of which is no event" % (child, nests[0]))
    graph.nests = {*graph.parent.values()} | {it for it in members(given.get("nestingIds")) if it not in members(given["events"]) and it not in subs}
    graph.labels = {it: str(label) for it, label in table(given, "labelMap").items() if label}
    graph.roles = {it: [role for role in members(roles) if role] for it, roles in table(given, "roleMap").items()}
    marking = table(given, "marking")
    graph.marks = {mark: {*members(marking.get(mark))} for mark in MARKS}
    for member, kind in {**TO_SOURCES, **TO_TARGETS}.items():
        for one, others in table(given, member).items():
            for other in members(others):
                graph.relations.append([kind, other, one] if member in TO_SOURCES else [kind, one, other])
    return graph


def tell(line):
    print(line, file=sys.stderr)


@command(__doc__)
def main(words):
    has_roles = words[:1] == ["--roles"]
    words = words[1:] if has_roles else words
    site = words[1] if words[:1] == ["--site"] and len(words) == 3 else None
    if len(words) != (3 if site else 1) or words[-1].startswith("--") or site and not NAME.fullmatch(site):
        raise Usage
    try:
        graph = read_graph(json.loads(read_text(words[-1])), tell)
    except (ValueError, KeyError, TypeError, AttributeError, RecursionError) as error:
        raise Wrong("%s: this is no graph as DCR-JS's engine writes it: %s" % (words[-1], error)) from None
    return put_case(graph, site or ("all" if has_roles else None), tell, has_roles)


if __name__ == "__main__":
    sys.exit(main(sys.argv[1:]))
