#!/usr/bin/env python3
"""Makes a case file of a graph that an editor of the field saved as XML, as far as its parts exist here.

    tools/from_dcr_xml.py GRAPH > case.json            each role becomes a site; events without one stand at the site `all`
    tools/from_dcr_xml.py --site NAME GRAPH > case.json   all events stand at one site

Each part that is left out and each name that is changed is told on standard error, a line each. Names have plain letters
here: others are spelled out (`Læge` becomes `Laege`), and the label keeps the text. An event of several roles stands at
several sites. Add `sessions` to the case yourself. GRAPH may be `-`, for standard input. The status is 0, 1 where dcr
would refuse the case that was made, and 2 where the words are others or the file is missing or no such graph.

Two forms are read, as they are publicly known: that of the portal for DCR graphs, a `dcrgraph` with `specification`
(`resources` and `constraints`) and `runtime`; and that of DCR-JS, `definitions` with a `dcrGraph`. Of both: events, one in
another for a nest, labels, roles, the marking, and the relations condition, response, milestone, include, exclude and
`coresponse` (also no-response), which is `cancel` here. Not read: data and guards, times, sub-processes' insides, spawning.
"""

import sys
import xml.etree.ElementTree

from case import NAME
from command import Usage, Wrong, command, read_bytes
from convert import Graph, put_case

KINDS = {
    "condition": "condition",
    "response": "response",
    "milestone": "milestone",
    "include": "include",
    "exclude": "exclude",
    "coresponse": "cancel",
    "coresponce": "cancel",
    "noresponse": "cancel",
    "cancel": "cancel",
}
# Parts of an event or of the graph that say where it is drawn, and how it is sorted and shown.
DRAWN = {"visualization", "level", "sequence", "costs", "eventscope", "interfaces", "highlightlayers", "hightlightermarkup", "highlightermarkup", "graphdetails", "graphdocumentation", "graphlanguage", "graphdomain", "graphfilters", "graphtype", "eventparameters", "keywords", "purpose", "guide", "insight", "insightfilter", "eventtypedata", "roledescription", "eventdescription", "descriptions"}
READ_ROOT = {"events", "labels", "labelmappings", "custom"}
GROUPED = {"specification", "resources", "constraints", "runtime", "marking"}
RELATION = {"sourceid", "targetid", "sourceref", "targetref", "id", "type", "filterlevel", "description", "groups", "link", "waypoints"}


def name_of(element):
    """The element's name without its namespace, in small letters."""
    return element.tag.rpartition("}")[2].lower() if isinstance(element.tag, str) else ""


def attribute(element, *names):
    """The attribute of one of these names, whatever its capitals and namespace. Nothing where it is missing or empty."""
    for key, value in element.attrib.items():
        if key.rpartition("}")[2].lower() in names and value.strip():
            return value.strip()
    return None


def find(element, *path):
    """The elements at a path of names below this one."""
    found = [element]
    for name in path:
        found = [child for it in found for child in it if name_of(child) == name]
    return found


def has_content(element):
    return any((it.text or "").strip() or any(value.strip() for value in it.attrib.values()) for it in element.iter())


class Reader:
    """What was read of an XML file, and who is told what is left out."""

    def __init__(self, tell):
        self.graph, self.tell, self.told = Graph(), tell, set()

    def leave(self, what):
        if what not in self.told:
            self.told.add(what)
            self.tell("left out: " + what)

    # ---- events

    def event(self, element, parent, is_nest):
        """Takes an event with what is in it, but for the inside of a sub-process."""
        graph, name = self.graph, attribute(element, "id")
        if name is None:
            raise ValueError("an event has no id")
        if name in graph.order:
            raise ValueError("two events have the id %s" % name)
        graph.order.append(name)
        if parent is not None:
            graph.parent[name] = parent
        inside = [it for it in element if name_of(it) in ("event", "nesting", "subprocess", "events")]
        inside = [it for own in inside for it in (own if name_of(own) == "events" else [own])]
        is_sub = name_of(element) == "subprocess" or (attribute(element, "type") or "").lower() in ("subprocess", "multisubprocess")
        if is_sub:
            inner = ", ".join(attribute(it, "id") or "?" for it in inside)
            self.leave("the sub-process of %s; its event stands in the case, and what is in it doesn't%s" % (name, ": " + inner if inner else ""))
            return name
        if inside or is_nest:
            graph.nests.add(name)
        for it in inside:
            self.nested(it, name)
        return name

    def nested(self, element, parent):
        raise NotImplementedError

    def relation(self, element, kind, source, target):
        if source is None or target is None:
            raise ValueError("a relation has no ends")
        self.graph.relations.append([kind, source, target])
        for key, value in element.attrib.items():
            key = key.rpartition("}")[2]
            if key.lower() not in RELATION and value.strip():
                what = "the guard" if key.lower() in ("expressionid", "guard") else "the time" if key.lower() in ("time", "delay", "deadline") else "the attribute `%s`" % key
                self.leave("%s `%s` of the %s from %s to %s, which holds without it in the case" % (what, value, kind, source, target))


class Portal(Reader):
    """A file of the portal for DCR graphs."""

    def nested(self, element, parent):
        name = self.event(element, parent, (attribute(element, "type") or "").lower() in ("nesting", "form"))
        roles = [role.text.strip() for role in find(element, "custom", "roles", "role") if (role.text or "").strip()]
        if name in self.graph.nests:
            if roles:
                self.leave("the roles of the nest %s, which no site needs: %s" % (name, ", ".join(roles)))
        else:
            self.graph.roles[name] = roles
        for part in find(element, "custom"):
            for it in part:
                if name_of(it) not in {"roles", *DRAWN} and has_content(it):
                    self.leave("the part `%s` of events" % it.tag)

    def read(self, root):
        for it in find(root, "specification", "resources", "events"):
            for event in it:
                self.nested(event, None)
        if not self.graph.order:
            raise ValueError("there is no event in specification, resources, events")
        for it in find(root, "specification", "resources", "labelmappings", "labelmapping"):
            event, label = attribute(it, "eventid"), attribute(it, "labelid")
            if event is not None and label is not None:
                self.graph.labels[event] = label
        for part in find(root, "specification", "resources"):
            for it in part:
                if name_of(it) not in READ_ROOT and has_content(it):
                    self.leave("the part `%s`" % it.tag)
        for it in find(root, "specification", "constraints"):
            for group in it:
                self.relations(group)
        self.marking(root)

    def relations(self, group):
        kind = KINDS.get(name_of(group).rstrip("s"))
        if kind is None:
            if len(group):
                self.leave("the relations `%s`" % group.tag)
            return
        for it in group:
            self.relation(it, kind, attribute(it, "sourceid"), attribute(it, "targetid"))

    def marking(self, root):
        markings = find(root, "runtime", "marking")
        if not markings:
            self.graph.marks["included"] = {*self.graph.order}
            return
        for mark, member in [("executed", "executed"), ("included", "included"), ("pending", "pendingresponses")]:
            self.graph.marks[mark] = {attribute(it, "id") for it in find(markings[0], member, "event")}
            for it in find(markings[0], member, "event"):
                for key in it.attrib:
                    if key.lower() not in ("id", "description"):
                        self.leave("the attribute `%s` of the mark %s" % (key, mark))
        for it in markings[0]:
            if name_of(it) not in ("executed", "included", "pendingresponses") and has_content(it):
                self.leave("the part `%s` of the marking" % it.tag)
        for it in sorted(self.graph.nests - self.graph.marks["included"]):
            self.leave("that the nest %s is excluded, since a nest has no marks: those of the events in it are taken" % it)


class Js(Reader):
    """A file of DCR-JS."""

    def nested(self, element, parent):
        name = self.event(element, parent, name_of(element) == "nesting")
        if attribute(element, "description"):
            self.graph.labels[name] = attribute(element, "description")
        if name in self.graph.nests:
            return
        self.graph.roles[name] = [attribute(element, "role")] if attribute(element, "role") else []
        for mark, missing in [("executed", False), ("pending", False), ("included", True)]:
            value = attribute(element, mark)
            if value.lower() == "true" if value else missing:
                self.graph.marks[mark].add(name)

    def read(self, root):
        boards = [root] if name_of(root) == "dcrgraph" else find(root, "dcrgraph")
        for board in boards:
            for it in board:
                if name_of(it) in ("event", "nesting", "subprocess"):
                    self.nested(it, None)
            for it in board.iter():
                self.part(it)
        if not self.graph.order:
            raise ValueError("there is no event in the dcrGraph")

    def part(self, element):
        name = name_of(element)
        if name == "relation":
            kind = KINDS.get((attribute(element, "type") or "").lower().replace("-", ""))
            if kind is None:
                self.leave("the relation `%s` from %s to %s" % (attribute(element, "type"), attribute(element, "sourceref"), attribute(element, "targetref")))
            else:
                self.relation(element, kind, attribute(element, "sourceref"), attribute(element, "targetref"))
        elif name not in ("dcrgraph", "event", "nesting", "subprocess") and has_content(element):
            self.leave("the part `%s`" % name)


def read_graph(data, tell):
    """The graph that the XML is. What is left out is told."""
    if b"<!DOCTYPE" in data or b"<!ENTITY" in data:
        raise ValueError("it has a document type of its own, which isn't read")
    root = xml.etree.ElementTree.fromstring(data)
    is_js = name_of(root) == "definitions" or name_of(root) == "dcrgraph" and not find(root, "specification")
    if name_of(root) not in ("dcrgraph", "definitions"):
        raise ValueError("its first element is `%s`, and neither `dcrgraph` nor `definitions`" % root.tag)
    found = (Js if is_js else Portal)(tell)
    found.read(root)
    return found.graph


def tell(line):
    print(line, file=sys.stderr)


@command(__doc__)
def main(words):
    site = words[1] if words[:1] == ["--site"] and len(words) == 3 else None
    if len(words) != (3 if site else 1) or words[-1].startswith("--") or site and not NAME.fullmatch(site):
        raise Usage
    try:
        graph = read_graph(read_bytes(words[-1]), tell)
    except (ValueError, xml.etree.ElementTree.ParseError, RecursionError) as error:
        raise Wrong("%s: this is no graph as an editor of the field writes it: %s" % (words[-1], error)) from None
    return put_case(graph, site, tell)


if __name__ == "__main__":
    sys.exit(main(sys.argv[1:]))
