#!/usr/bin/env python3
"""Says where in a file it is that `dcr` tells of, what the rule is, and how to mend it.

    tools/explain.py CASE                        whether dcr takes the file; the members that it passes over, what is odd
    tools/explain.py CASE refused 6 parent 0     the place that this line tells of
    ./dcr run < CASE | tools/explain.py CASE -   the same, the line read from standard input
    tools/explain.py STAGES case 1 refused ..    the same of one of several cases, each on a line, as `dcr adapt` reads them
    tools/explain.py REPORT invalid 6 outcome    the line of a report that `replay` tells of
    tools/explain.py CASE tape other-case        why `dcr.tape` in the current folder is refused
    tools/explain.py PART refused 19 not-part    why `dcr site` refuses its input; and by refused 20 keys 1 its key
    tools/explain.py INPUT refused 15 log 3      the record of an input of `conform`; and its case, whose line stands first

Each place is FILE:LINE:COLUMN, counted from 1, with the text that stands there. Of a file alone it finds out by itself
why dcr would refuse it, by the plain reader (reader.py). Of one that dcr takes it tells what is legal and hardly meant:
members that are passed over, events that can never be executed or that nobody may execute, sessions without calls; and
as remarks what is odd only where it isn't meant, such as an event of several sites. Of several cases on lines, which it
knows by their first line, it tells marks too that are passed over, since their event stood on the line before and goes on
with those that it has. Of a call that is denied it says who lacks which role. The status is 0 where nothing but remarks
is told, 1 where a place is, and 2 where the words are others, the file is missing, or it isn't the one that the line
tells of.
"""

import sys

import carried
import earlier
import odd
import reader
import replay
import traces
from case import KINDS, NAME, File, NotJson, parse, place
from command import Usage, Wrong, command, read_bytes
from explain_log import case_of, tell_log, tell_second_line
from explain_roles import denied, policy
from stages import HEADS, is_json, is_several, lines_of
from told import NAME_RULE, Told, closest, misspelt, near, type_of

# What other tools and papers call a kind of relation.
OF_THE_FIELD = {
    "cancel": ["noresponse", "no-response", "coresponse", "co-response", "cancelresponse", "unresponse"],
    "condition": ["precondition", "pre-condition", "conditionsfor", "requires"],
    "response": ["responseto", "obligation", "postcondition"],
    "milestone": ["milestonesfor"],
    "include": ["includesto", "inclusion", "dynamicinclusion"],
    "exclude": ["excludesto", "exclusion", "dynamicexclusion"],
}
OF_TYPE = {"name": (str, "a text"), "parent": (str, "a text"), "label": (str, "a text")}
OF_TYPE.update({it: (bool, "true or false") for it in ("executed", "pending", "included")})


def of_top(file, number):
    version = file.top.get("version")
    if not file.top.is_a(dict):
        return Told(file.top, "this is no object", "A case file is one JSON object.", "write { and } around its members")
    wrong = "this is no version" if version.is_a(str) else "this is %s" % type_of(version)
    mend = 'write "3" with quotes where there are roles, "2" where there is a cancel and no role, and else "1"'
    return Told(version, wrong, 'The version is one of the texts "1", "2" and "3".', 'write "%d" with quotes' % version.value if version.value in (1.0, 2.0, 3.0) else mend)


def of_graph(file, number):
    graph = file.top.get("graph")
    if graph is None:
        hint = misspelt("graph", file.top)
        return Told(file.top, "this object has no `graph`" + hint, "A case has a `graph`.", "write the graph")
    if not graph.is_a(dict):
        return Told(graph, "this is no object", "The graph is an object with `events`, and perhaps `relations`.", "write { and } around them")
    events, relations = graph.get("events"), graph.get("relations")
    if events is None:
        hint = misspelt("events", graph)
        return Told(graph, "this object has no `events`" + hint, "A graph has an array `events`.", "write the events")
    wrong = relations if events.is_a(list) else events
    return Told(wrong, "this is no array", "`events` and `relations` are arrays.", "write [ and ] around them")


def of_event(file, number):
    event = file.events[number]
    if not event.is_a(dict):
        return Told(event, "this is no object", "An event is an object with a text `name`.", 'write {"name": ..}')
    if event.get("name") is None:
        hint = misspelt("name", event)
        return Told(event, "this event has no `name`" + hint, "An event has a text `name`.", "give it a name")
    for member, (kind, said) in OF_TYPE.items():
        value = event.get(member)
        if value is not None and not value.is_a(kind):
            mend = "take it out: a member with null is there too" if value.value is None else "write it in quotes" if kind is str else "write true or false, without quotes"
            return Told(value, "`%s` is %s here" % (member, type_of(value)), "`%s` is %s." % (member, said), mend)


def of_relation(file, number):
    relation = file.relations[number]
    rule = "A relation is an array of three texts, [KIND, FROM, TO]."
    if not relation.is_a(list):
        return Told(relation, "this is %s" % type_of(relation), rule, 'write ["condition", "a", "b"], the kind first, then the event that it leads from, then the one that it leads to')
    if len(relation.items) != 3:
        return Told(relation, "this has %d texts" % len(relation.items), rule, "write the kind, and one event at each end; several relations are several arrays")
    other = next((it for it in relation.items if not it.is_a(str)), None)
    if other:
        return Told(other, "this is no text", rule, "write the name in quotes")
    kind = relation.items[0]
    if kind.value == "cancel":
        return Told(kind, "cancel is no kind of version 1", 'Cancel needs version "2" or "3".', 'write "version":"2" at the head of the file')
    rule = "A kind is one of %s, in small letters." % ", ".join(KINDS)
    meant = next((it for it in KINDS if kind.value.lower().rstrip("s") in (it, *OF_THE_FIELD[it])), None)
    if meant == "cancel":
        return Told(kind, "this is no kind: what the field calls `%s` is `cancel` here" % kind.value, rule, 'write "cancel", and "version":"2" at the head of the file')
    if meant:
        return Told(kind, "this is no kind; did you mean `%s`?" % meant, rule, 'write "%s"' % meant)
    return Told(kind, "this is no kind" + near(kind.value, KINDS), rule, "mend the word")


def of_cover(file, number):
    cover = file.top.get("cover")
    hint = misspelt("cover", file.top)
    if cover is None:
        return Told(file.top, "this object has no `cover`" + hint, "A case has an array `cover`.", "write which site owns which events")
    return Told(cover, "this is no array", "`cover` is an array.", "write [ and ] around the sites")


def of_site(file, number):
    site = file.cover[number]
    rule = "A site is an object with a text `site` and an array `events` of texts."
    if not site.is_a(dict):
        return Told(site, "this is no object", rule, 'write {"site": .., "events": [..]}')
    for member, kind in [("site", str), ("events", list)]:
        value = site.get(member)
        if value is None:
            hint = misspelt(member, site)
            return Told(site, "this site has no `%s`%s" % (member, hint), rule, "write it; a site that owns none has \"events\": []")
        if not value.is_a(kind):
            return Told(value, "`%s` is %s here" % (member, type_of(value)), rule, "write it in quotes" if kind is str else "write [ and ] around the names, also around one alone, or none")
    return Told(next(it for it in site.get("events").items if not it.is_a(str)), "this is no text", rule, "write the event's name in quotes")


def of_sessions(file, number):
    return Told(file.top.get("sessions"), "this is no array", "`sessions` is an array of arrays of texts.", "write [ and ] around the sessions")


def of_session(file, number):
    session = file.sessions[number]
    rule = "A session is an array of texts, each a call."
    if not session.is_a(list):
        return Told(session, "this is no array", rule, "write [ and ] around the calls; one session alone is an array in an array")
    return Told(next(it for it in session.items if not it.is_a(str)), "this is no text", rule, "write the call in quotes")


def shape(file, part, number):
    return globals()["of_" + part](file, int(number))


def limit(file, kind, count):
    most = {"nodes": 2048, "atoms": 1024, "relations": 4096, "label": 200, "sites": 64, "sessions": 1024, "calls": 200_000}[kind]
    where = {"nodes": file.graph.get("events"), "atoms": file.graph.get("events"), "relations": file.graph.get("relations"), "sites": file.top.get("cover")}
    where = where.get(kind) or file.top.get("sessions")
    unit = "bytes of this label" if kind == "label" else kind
    if kind == "label":
        where = next(it.get("label") for it in file.events if it.get("label") and len(it.get("label").value.encode()) > most)
    if count == "0":
        return Told(where, "there is no site", "There is at least one site.", "write a site that owns the events")
    return Told(where, "%s %s" % (count, unit), "There are at most %d." % most, "take out what is too much")


def name(value, earlier, what):
    """What is wrong with a name that must be one, and be new."""
    if not NAME.fullmatch(value.value):
        wrong = "this is no name"
    else:
        wrong = "this is an earlier %s's name too" % what
    rule = "%s; no two %ss have the same." % (NAME_RULE, what)
    others = [(it, "the earlier one") for it in earlier if it.value == value.value][:1]
    return Told(value, wrong, rule, "rename it", *others)


def event_name(file, number):
    number = int(number)
    return name(file.events[number].get("name"), [it.get("name") for it in file.events[:number]], "event")


def parent(file, number):
    number = int(number)
    value, name = file.events[number].get("parent"), file.names[number]
    rule = "A parent is the name of an event that stands earlier."
    if value.value == name:
        return Told(value, "this is the event itself", rule, "take the member out, or name the nest that the event is in")
    if value.value not in file.names:
        return Told(value, "no event has this name" + near(value.value, [it for it in file.names if it != name]), rule, "mend the name, or add the event before this one")
    # (the way up from here; where it comes back there is no order in which each parent stands first)
    way = file.ways_up(name)
    above = dict(zip(reversed(file.names), reversed(file.parents)))
    if above.get(way[-1]) == name:
        others = [(file.events[file.names.index(it)].get("parent"), "and the parent of `%s` is this" % it) for it in way[1:]]
        return Told(value, "the parents go round in a circle: %s" % " in ".join("`%s`" % it for it in [*way, name]), rule, "take one of these members `parent` out", *others)
    later = file.events[file.names.index(value.value)].get("name")
    return Told(value, "this event stands later", rule, "put it before its children", (later, "it stands here"))


def mark_on_nest(file, number):
    event = file.events[int(number)]
    mark = next(it for it in event.members if it[0] in ("executed", "pending", "included"))
    child = next(it.get("parent") for it in file.events if it.get("parent") and it.get("parent").value == event.get("name").value)
    return Told(mark[2], "`%s` on an event that is a parent" % mark[0], "A nest has no marks.", "take the member out, or put it on the events below", (child, "its child"))


def relation_end(file, number):
    end = next(it for it in file.relations[int(number)].items[1:] if it.value not in file.names)
    return Told(end, "no event has this name" + near(end.value, file.names), "Both ends of a relation are names of events.", "mend the name")


def clash(file, first, second):
    def leads(relation, kind):
        words = [it.value for it in relation.items]
        return words[0] == kind and words[1] in file.ways_up(first) and words[2] in file.ways_up(second)

    includes = [it for it in file.relations if leads(it, "include")]
    excludes = [it for it in file.relations if leads(it, "exclude")]
    both = [(it, "another that does the same") for it in includes[1:] + excludes[1:]]
    wrong = "executing `%s` includes `%s`, by this relation" % (first, second)
    rule = "No event both includes and excludes another. A relation that is written with a nest holds for all events below it."
    return Told(includes[0], wrong, rule, "take one of the two relations out", (excludes[0], "and this one excludes it"), *both)


def site_name(file, number):
    number = int(number)
    return name(file.cover[number].get("site"), [it.get("site") for it in file.cover[:number]], "site")


def owned(file, number, text):
    value = file.cover[int(number)].get("events").items[int(text)]
    return Told(value, "no event has this name" + near(value.value, file.names), "A site owns events, by their names.", "mend the name")


def uncovered(file, atom):
    value = file.events[file.names.index(atom)]
    return Told(value, "no site owns `%s`" % atom, "Each event that is no nest is owned by one site at least; a nest's name stands for the events below it.", "give it to a site in `cover`")


def call_line(file, session, number):
    value = file.sessions[int(session)].items[int(number)]
    words = value.value.split(" ")
    forms = {"exec": 3, "look": 2, "enabled": 2, "accepting": 1}
    wrong = "this is no call"
    if words[0] not in forms:
        wrong += near(words[0], forms)
    elif "" in words:
        wrong += ": there are two spaces, or one before or after it"
    elif len(words) != forms[words[0]]:
        wrong += ": `%s` wants %d words behind it" % (words[0], forms[words[0]] - 1)
    elif len(words) == 3 and words[1] in file.names and words[2] in file.sites:
        return Told(value, "the words are turned round: `%s` is a site, and `%s` an event" % (words[2], words[1]), "A call is `exec SITE EVENT`.", "write `exec %s %s`" % (words[2], words[1]))
    elif words[1] not in file.sites:
        wrong = "no site has the name `%s`%s" % (words[1], near(words[1], file.sites))
    elif words[2] in file.nests:
        wrong = "`%s` is a nest, which is not executed: name an event below it" % words[2]
    else:
        wrong = "no event has the name `%s`%s" % (words[2], near(words[2], file.atoms))
    return Told(value, wrong, "A call is `exec SITE EVENT`, `look SITE`, `enabled SITE` or `accepting`, with one space between the words.", "mend the line")


def no_site(file, *words):
    name = " ".join(words)
    if name in file.sites:
        raise ValueError
    return Told(file.top.get("cover"), "no site has the name `%s`%s" % (name, near(name, file.sites)), "`dcr part SITE` writes the part of the site with this name.", "give the name of a site, as it stands here")


REFUSALS = {it.__name__.replace("_", "-"): it for it in (shape, limit, event_name, parent, mark_on_nest, relation_end, clash, site_name, owned, uncovered, call_line, policy, denied, no_site)}
EXPECTED = {
    "head": ("The first line is `dcr 1` or `dcr 2`.", "where it looks right, the line ends or the first bytes were changed on the way; a case file is run, not replayed"),
    "graph": ("`graph` and the graph as the program writes it, byte for byte.", "a graph that would be refused as a case, or the right one in another spelling"),
    "cover": ("`cover` and the cover as the program writes it, byte for byte.", "a cover that would be refused as a case, or the right one in another spelling"),
    "open": ("`open` and the marking at opening.", "a name that is no event's, or a list that is out of order"),
    "entry": ("The next call: its place, its session, its number in that session, the call and what it was answered.", "a line that was left out, put in or exchanged, or a name that the graph doesn't have"),
    "outcome": ("The answer that the graph gives to this call at this place.", "an answer that was changed, or a call before it that was"),
    "site": ("The marks that the next site has after all calls.", "marks that were changed, or a line that is missing"),
    "verdict": ("`verdict accepting`, or `verdict waits` and the first event that is waited for.", "a verdict that was changed, or a line that is missing"),
    "end": ("`end` and the number of calls.", "a call that was left out, or a file that was cut"),
    "extra": ("Nothing more.", "something behind the last line"),
}
TAPES = {
    "not-tape": ("A tape begins with DCRTAPE and a version that dcr reads.", "move the file away: it is something else, or the machine stopped while it was made, before any execution was answered"),
    "other-case": ("A tape goes on with the case that it was begun with: the same events, labels, relations, sites and opening marks.", "run this case in a folder of its own, or take the case that the tape was begun with"),
    "bad": ("Each execution of a tape is written whole, and can be done after those before it.", "the file was damaged or changed: keep a copy of it, and begin anew from the reports, or go back to a copy"),
    "long": ("A tape is gone on from where it has at most 1000000 executions.", "keep it, and begin anew in another folder"),
}

# What `site` refuses, of which nothing more is told: a part is one byte for byte, and a key isn't for every eye.
OF_A_SITE = {
    "not-part": ("this is no part", "A part is what `dcr part SITE` writes, byte for byte.", "hand it in as it was written; tools/part.py --read tells what stands in one"),
    "keys": ("the file dcr.key of the folder in which the site runs is no key", "A key is 64 hex digits and a line feed, and nothing else.", "write it again, or take the file away where the sites have no keys"),
}


def shown_at(path, text, value):
    """FILE:LINE:COLUMN of a value, and the text that stands there."""
    shown = " ".join(text[value.at : value.end].split())
    return "%s:%d:%d" % (path, *place(text, value.at)), shown if len(shown) <= 100 else shown[:97] + "..."


def tell(path, text, told):
    for value, why in [(told, told.wrong), *told.others]:
        print("%s: %s\n    %s" % (shown_at(path, text, value)[0], why, shown_at(path, text, value)[1]))
    print("  rule: %s\n  mend: %s" % (told.rule, told.mend))


def tell_not_json(path, text, error):
    print("%s:%d:%d: %s" % (path, *place(text, error.at), error))
    shown = " ".join(text[error.at : error.at + 60].split())
    if shown:
        print("    %s" % shown)
    if error.opened is not None:
        print("%s:%d:%d: what is open there begins here\n    %s" % (path, *place(text, error.opened), " ".join(text[error.opened : error.opened + 60].split())))
    print("  rule: A case file is JSON.\n  mend: %s" % error.mend)


def changed_on_the_way(data):
    """What happened to a report's bytes that no rule of the run explains."""
    if data.startswith(b"\xef\xbb\xbf"):
        return "a byte order mark stands at its head: it was saved by an editor; ask for the file as it was written"
    if b"\r" in data:
        return "its line ends were changed (there are CRs): ask for the file packed, or take the CRs out"
    if data.lstrip()[:1] == b"{":
        return "this looks like a case file, which is run and not replayed"
    if len(HEADS.findall(data)) > 1:
        return "these are several reports, as `dcr adapt` writes them: tools/stages.py --cut FOLDER FILE cuts them apart"
    return None


def tell_invalid(path, data, line, kind):
    is_valid, number, found, wanted = replay.walked(data)
    if is_valid or (number, found) != (line, kind):
        told = "valid" if is_valid else "invalid %d %s" % (number, found)
        raise Wrong("%s: the plain checker finds it %s: is it the file that dcr was given?" % (path, told))
    lines = data.split(b"\n")
    shown = lines[line - 1].decode(errors="replace") if line <= len(lines) else ""
    rule, look = EXPECTED[kind]
    print("%s:%d:1: `%s` is wrong here\n    %s" % (path, line, kind, shown[:100].rstrip("\r") or "(there is no such line)"))
    if wanted is not None:
        print("  %s: %s" % ("the graph answers" if kind == "outcome" else "wanted", wanted))
    print("  rule: %s\n  look for: %s" % (rule, changed_on_the_way(data) or look))


def tell_tape(kind, number="0"):
    rule, mend = TAPES[kind]
    what = "execution %d, counted from 0, is bad" % int(number) if kind == "bad" else "it is refused as the tape of this case"
    print("dcr.tape: %s\n  rule: %s\n  mend: %s" % (what, rule, mend))


def tell_passed_over(path, text, file):
    """Tells the members that are passed over, and answers how many there are."""
    found = sorted(file.passed_over(), key=lambda it: it[2])
    for kind, key, at, is_twice in found:
        hint = '; it counts where "version" is "3"' if file.is_of_roles(kind, key) else near(key, file.members(kind))
        what = "an earlier `%s`, of which the last counts" % key if is_twice else "dcr passes over the member `%s`%s" % (key, hint)
        print("%s:%d:%d: %s" % (path, *place(text, at), what))
    return len(found)


def tell_odd(path, text, found):
    """Tells what is odd in a file that dcr takes, and answers how many things are more than remarks."""
    for it in found:
        print("%s:%d:%d: %s%s" % (path, *place(text, it.at), "remark: " if it.is_remark else "", it.why))
        for value, why in it.others:
            print("  %s: %s %s" % (shown_at(path, text, value)[0], why, shown_at(path, text, value)[1]))
        print("  mend: %s" % it.mend)
    return sum(not it.is_remark for it in found)


def explain_refusal(path, data, words):
    """Tells the place of a refusal. Answers 1."""
    if words[1] == "1":
        print("%s: %d bytes\n  rule: A case has at most %d bytes, also with a log behind it, a report at most %d, a part at most 33554432.\n  mend: split the case, or shorten its labels; a log is split by tools/from_log.py --parts; a part is what `dcr part SITE` wrote" % (path, len(data), reader.MOST_BYTES, replay.MOST_BYTES))
        return 1
    if words[1] == "15":
        tell_log(path, data, int(words[3]))
        return 1
    try:
        top, text = parse(case_of(data))
    except NotJson as error:
        if not tell_second_line(path, data):
            tell_not_json(path, case_of(data).decode(errors="replace"), error)
        if is_several(data):
            print("  or: these are %d cases, each on a line, as `dcr adapt` reads them" % len(lines_of(data)))
        return 1
    if words[2] == "not-json":
        raise Wrong("%s: it is JSON: is it the file that dcr was given?" % path)
    tell(path, text, REFUSALS[words[2]](File(top), *words[3:]))
    tell_passed_over(path, text, File(top))
    return 1


def explain_alone(path, data):
    """Whether dcr takes the file, and what is odd in it."""
    file, log = case_of(data), None
    try:
        reader.read_case(file)
        if file is not data:
            log = traces.read_log(data[len(file) + 1 :])
    except reader.Refused as refusal:
        print("%s: dcr refuses it: %s" % (path, refusal))
        return explain_refusal(path, data, str(refusal).split())
    top, text = parse(file)
    passed = tell_passed_over(path, text, File(top))
    if not passed:
        print("%s: dcr takes it%s, and passes over no member" % (path, "" if log is None else " with a log of %d traces" % len(log)))
    return 1 if tell_odd(path, text, odd.oddities(File(top), text)) + passed else 0


# ---- several cases, each on a line, as `dcr adapt` reads them

ON_LINES = "`dcr adapt` reads 1 to 16 cases, each on a line of its own. An empty line counts too."
KEPT = "An event that is no nest stands, by its name and as no nest, in each later case too: a case adds events, and leaves none out."
PUT_ON_LINES = "`tools/stages.py FIRST SECOND > FILE` puts case files on a line each"


def of_dropped(before, line, name):
    """The place where the case of a line lacks an event, and where that stood on the line before."""
    stood = (before.event(name), "it stands here on the line before")
    if name in line.file.names:
        child = next(event for event, parent in zip(line.file.events, line.file.parents) if parent == name)
        wrong = "`%s` is a nest here, and was none before" % name
        return Told(line.event(name), wrong, KEPT, "give the nest another name, and leave `%s` an event in it or beside it" % name, (child.get("parent"), "this makes it one"), stood)
    meant = closest(name, [it for it in line.file.names if it not in before.file.names])
    wrong = "no event has the name `%s` here%s" % (name, "; is `%s` the same one?" % meant if meant else "")
    mend = 'write {"name":"%s"} among these events, and the name at a site; an event that nobody wants any more stays and is excluded by another one' % name
    if meant:
        mend = 'an event is known by its name: keep the name `%s`, and write the other text as its "label"; else %s' % (name, mend)
    return Told(line.file.graph.get("events"), wrong, KEPT, mend, stood)


def tell_old_marks(path, before, line):
    """Tells the marks of old events that are passed over, and answers how many aren't those of the line before."""
    found = sorted(earlier.passed_over(before, line), key=lambda it: it[2])
    others = [it for it in found if not it[3]]
    for name, mark, at, _ in others:
        print("%s:%d:%d: dcr passes over the mark `%s` of `%s`, which stands on the line before and goes on with the marks that it has" % (path, *place(line.text, at), mark, name))
    if others:
        print("  mend: take it out; an execution changes marks, such as one of a new event that includes, excludes or cancels")
    same = [it for it in found if it[3]]
    if same:
        names = ", ".join("`%s`" % it for it in dict.fromkeys(it[0] for it in same))
        print("%s:%d:%d: remark: marks that stand on the line before too are passed over here, of %s" % (path, *place(line.text, same[0][2]), names))
    return len(others)


def explain_count(path, data, count):
    """Tells how cases are put on lines. Answers 1."""
    lines = lines_of(data)
    if len(lines) != int(count):
        raise ValueError
    what = "this is one case over %d lines" % len(lines) if is_json(data) else "%d lines" % len(lines)
    print("%s: %s" % (path, what if lines else "the file is empty"))
    empty = ["%d" % number for number, line in enumerate(lines, 1) if not line.strip()]
    if empty and not is_json(data):
        print("  empty are the lines %s%s" % (", ".join(empty[:8]), ", .." if empty[8:] else ""))
    mend = PUT_ON_LINES
    if len(lines) > 16 and not is_json(data):
        mend += "; where there are more than 16, leave one out without calls: the next one may add what it adds"
    print("  rule: %s\n  mend: %s" % (ON_LINES, mend))
    return 1


def tell_dropped(path, data, number, name):
    """Tells where the case of a line lacks an event of the one before."""
    try:
        before, line = earlier.Line(data, number - 1), earlier.Line(data, number)
    except NotJson:
        raise ValueError from None
    if number == 0 or name not in before.file.atoms or name in line.file.atoms:
        raise ValueError
    tell(path, data.decode(errors="replace"), of_dropped(before, line, name))


def explain_stage(path, data, words):
    """Tells the place of a refusal of one of several cases. Answers 1."""
    number, lines = int(words[1]), lines_of(data)
    if number not in range(len(lines)):
        raise IndexError
    print("%s:%d: case %d stands on this line; they are counted from 0" % (path, number + 1, number))
    if words[3] == "13":
        tell_dropped(path, data, number, words[5])
    elif words[4] == "not-json" and len(lines) > 1 and is_json(data):
        print("  it is no case by itself: the file is one case over %d lines\n  rule: %s\n  mend: %s" % (len(lines), ON_LINES, PUT_ON_LINES))
    elif words[4] == "not-json" and not lines[number].strip():
        print("  the line is empty\n  rule: %s\n  mend: take the line out" % ON_LINES)
    else:
        explain_refusal(path, earlier.padded(data, number), words[2:])
        if words[4] == "not-json":
            print("  and: %s" % ON_LINES)
    return 1


def explain_stages(path, data):
    """Whether dcr adapt takes these cases, and what is odd in them."""
    try:
        cases = carried.read_stages(data)
    except reader.Refused as refusal:
        print("%s: dcr adapt refuses it: %s" % (path, refusal))
        return explain(path, str(refusal).split())
    print("%s: dcr adapt takes it: %d cases, each on a line" % (path, len(cases)))
    found, before = 0, None
    for number, (_, case) in enumerate(carried.opened(cases)):
        line, old = earlier.Line(data, number), set()
        found += tell_passed_over(path, line.text, line.file)
        if before is not None:
            found += tell_old_marks(path, before, line)
            old = {event.at for event in line.old_events(before)}
        found += tell_odd(path, line.text, [it for it in odd.oddities(line.file, line.text, case) if it.at not in old])
        before = line
    return 1 if found else 0


def explain(path, words):
    if words[:1] == ["tape"]:
        tell_tape(*words[1:])
        return 1
    data = read_bytes(path)
    if words[:1] == ["invalid"]:
        tell_invalid(path, data, int(words[1]), words[2])
        return 1
    if words[:1] == ["case"]:
        return explain_stage(path, data, words)
    if words in (["refused", "19", "not-part"], ["refused", "20", "keys", "1"]):
        print("%s: %s\n  rule: %s\n  mend: %s" % (path, *OF_A_SITE[words[2]]))
        return 1
    if words[:3] == ["refused", "14", "cases"]:
        return explain_count(path, data, words[3])
    if words[:1] == ["refused"]:
        return explain_refusal(path, data, words)
    if words:
        print("dcr found nothing to refuse: %s" % " ".join(words))
        return 0
    return explain_stages(path, data) if is_several(data) and case_of(data) is data else explain_alone(path, data)


@command(__doc__)
def main(words):
    if not words or words[0].startswith("--"):
        raise Usage
    path, words = words[0], " ".join(words[1:])
    if words == "-":
        words = sys.stdin.readline()
    try:
        return explain(path, words.split())
    except (KeyError, IndexError, ValueError, TypeError, AttributeError, StopIteration):
        raise Wrong("%s: the file has no such place as `%s` tells of: is it the file that dcr was given?" % (path, words.strip())) from None


if __name__ == "__main__":
    sys.exit(main(sys.argv[1:]))
