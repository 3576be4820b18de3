"""What the readers of other tools' graphs have in common: from events, marks, relations and roles to a case file."""

import json
import re
import unicodedata

from case import NAME
from command import Wrong

# Letters that have no accent to take off, as they are spelled where they can't be written.
SPELLED = {"æ": "ae", "ø": "oe", "å": "aa", "ä": "ae", "ö": "oe", "ü": "ue", "ß": "ss", "ð": "d", "þ": "th", "ł": "l", "đ": "d", "œ": "oe", "ı": "i"}
MARKS = ("executed", "pending", "included")
MOST_LABEL = 200


class Graph:
    """A graph of another tool, by its own names: the events and nests in the order of the file, and what is known of each."""

    def __init__(self):
        self.order, self.nests, self.parent = [], set(), {}
        self.labels, self.roles, self.marks = {}, {}, {mark: set() for mark in MARKS}
        self.relations = []

    def is_there(self, name):
        return name in self.parent or name in self.order


def spelled(text):
    """The text in letters of a name: those that a name can't have are spelled out, or lose their accent, or are a `-`."""
    text = unicodedata.normalize("NFC", text)
    long = []
    for letter in text:
        plain = SPELLED.get(letter.lower(), letter)
        long.append(plain.capitalize() if plain != letter and letter.isupper() else plain)
    bare = unicodedata.normalize("NFKD", "".join(long))
    bare = "".join(it for it in bare if not unicodedata.combining(it))
    return re.sub(r"[^A-Za-z0-9_.-]+", "-", bare).strip("-")


class Names:
    """A name of the format for each name of the graph, and no two the same. Each that is another one is told."""

    def __init__(self, what, tell):
        self.given, self.taken, self.what, self.tell = {}, set(), what, tell

    def of(self, text):
        if text not in self.given:
            plain = spelled(text)[:60]
            plain = plain if NAME.fullmatch(plain) else (self.what[0] + "-" + plain).rstrip("-")[:60]
            found, number = plain, 2
            while found in self.taken:
                found, number = "%s-%d" % (plain, number), number + 1
            self.given[text] = found
            self.taken.add(found)
            if found != text:
                self.tell("renamed: the %s `%s` is `%s`" % (self.what, text, found))
        return self.given[text]

    def new(self, plain):
        """A name that stands for no name of the graph."""
        found, number = plain, 2
        while found in self.taken:
            found, number = "%s-%d" % (plain, number), number + 1
        self.taken.add(found)
        return found


def in_order(graph, tell):
    """The events and nests, each nest right before its first child. Nests that have nothing in them are left out."""
    children = {}
    for it in graph.order:
        children.setdefault(graph.parent.get(it), []).append(it)
    seen = set()

    def add(it):
        seen.add(it)
        below = [name for child in children.get(it, []) for name in add(child)]
        if it in graph.nests and not below:
            tell("left out: the nest %s, which has nothing in it" % it)
            return []
        return [it, *below]

    found = [name for it in children.get(None, []) for name in add(it)]
    # (each parent is there, so that the ways up that come to no top go round)
    lost = [it for it in graph.order if it not in seen]
    if lost:
        raise Wrong("the nests go round in a circle: %s" % ", ".join(lost[:8]))
    return found


def below(graph, order, name):
    """The atoms at or below an event or nest."""

    def is_below(it):
        while it is not None and it != name:
            it = graph.parent.get(it)
        return it is not None

    return [it for it in order if it not in graph.nests and is_below(it)]


def without_clashes(graph, order, relations, tell):
    """The relations, where no event both includes and excludes another: an include wins, as in the rules of the field."""
    atoms = {it: below(graph, order, it) for it in order}

    def pairs(relation):
        return [(a, b) for a in atoms[relation[1]] for b in atoms[relation[2]]]

    includes, found = {pair for it in relations if it[0] == "include" for pair in pairs(it)}, []
    for it in relations:
        own = pairs(it) if it[0] == "exclude" else []
        lost = [pair for pair in own if pair in includes]
        if not lost:
            found.append(it)
            continue
        for a, b in lost:
            tell("left out: the exclude from %s to %s, which are related by an include too; there the include wins" % (a, b))
        found += [["exclude", a, b] for a, b in own if (a, b) not in includes]
    return found


def event_of(graph, it, names, roles, tell):
    """The event as the case has it; with its roles, where there are names for them."""
    event = {"name": names.of(it)}
    label = graph.labels.get(it) or it
    short = label.encode()[:MOST_LABEL].decode(errors="ignore")
    if short != label:
        tell("left out: the end of the label of %s, which has more than %d bytes" % (it, MOST_LABEL))
    if short != event["name"]:
        event["label"] = short
    if graph.parent.get(it) is not None:
        event["parent"] = names.of(graph.parent[it])
    if it not in graph.nests:
        event.update({mark: True for mark in ("executed", "pending") if it in graph.marks[mark]})
        event.update({} if it in graph.marks["included"] else {"included": False})
    own = [*dict.fromkeys(graph.roles.get(it) or [])] if roles else []
    if own and it in graph.nests:
        tell("left out: the roles of the nest %s (%s), which would be those of all events below it" % (it, ", ".join(own)))
    elif own:
        event["roles"] = [roles.of(role) for role in own]
    return event


def converted(graph, site, has_roles, tell):
    """The case of a graph, where all events stand at the site, if one is named; with its roles, or else with a site for
    each. What is left out or renamed is told."""
    order = in_order(graph, tell)
    names, sites = Names("event", tell), Names("site", tell)
    roles_of_events = Names("role", tell) if has_roles else None
    events = [event_of(graph, it, names, roles_of_events, tell) for it in order]
    for it in order:
        for mark in ("executed", "pending"):
            if it in graph.nests and it in graph.marks[mark]:
                tell("left out: the mark %s of the nest %s, since a nest has none" % (mark, it))
    there, relations = {*order}, []
    for kind, a, b in graph.relations:
        if a in there and b in there:
            relations.append([kind, a, b])
        else:
            tell("left out: the %s from %s to %s, an end of which is no event of the case" % (kind, a, b))
    relations = [[kind, names.of(a), names.of(b)] for kind, a, b in without_clashes(graph, order, relations, tell)]
    roles = {it: graph.roles.get(it) or [] for it in order if it not in graph.nests}
    for role in [role for own in roles.values() for role in own] if not site else []:
        sites.of(role)
    owned, rest = {}, None
    for it, own in roles.items():
        if not site and not own and rest is None:
            rest = sites.new("all")
        for name in [site] if site else [sites.of(role) for role in dict.fromkeys(own)] or [rest]:
            owned.setdefault(name, []).append(names.of(it))
    file = {"version": "3"} if has_roles else {"version": "2"} if any(it[0] == "cancel" for it in relations) else {}
    file["graph"] = {"events": events, "relations": relations}
    file["cover"] = [{"site": name, "events": own} for name, own in owned.items()]
    return file


def written(file):
    """The case as JSON, a line for each event, relation and site."""

    def lines(values):
        return ",\n   ".join(json.dumps(it, ensure_ascii=False) for it in values)

    graph, head = file["graph"], '"version":"%s",\n ' % file["version"] if "version" in file else ""
    return '{%s"graph":{\n  "events":[\n   %s],\n  "relations":[\n   %s]},\n "cover":[\n   %s]}\n' % (head, lines(graph["events"]), lines(graph["relations"]), lines(file["cover"]))


def put_case(graph, site, tell, has_roles=False):
    """Writes the case of a graph, and tells where dcr would refuse it. Answers the status: 1 there, else 0."""
    import reader

    text = written(converted(graph, site, has_roles, tell))
    print(text, end="")
    try:
        reader.read_case(text.encode())
    except reader.Refused as refusal:
        tell("dcr refuses this case: %s" % refusal)
        return 1
    return 0
