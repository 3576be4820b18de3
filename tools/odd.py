"""What dcr accepts in a case, and what was hardly meant: each with its place, and how to mend it."""

from model import Case
from told import near

# How many roles are told that no event asks for.
MOST_ROLES = 20


class Odd:
    """A value that looks odd, why, what to do, and other places to look at. A remark is odd only where it wasn't meant."""

    def __init__(self, value, why, mend, *others, is_remark=False):
        self.at, self.why, self.mend, self.others, self.is_remark = value.at, why, mend, others, is_remark


class Reach:
    """Which atoms some run may execute, by a rule that errs to one side: what it calls unreachable no run executes."""

    def __init__(self, case):
        self.case, self.found = case, set()
        kinds = ("condition", "milestone", "include", "exclude", "cancel", "response")
        self.into = {kind: {} for kind in kinds}
        for kind in kinds:
            for a, b in sorted(case.pairs[kind], key=lambda pair: case.number[pair[0]]):
                self.into[kind].setdefault(b, []).append(a)
        more = True
        while more:
            more = {it for it in case.atoms if it not in self.found and self.hindrance(it) is None}
            self.found |= more

    def sources(self, kind, atom):
        return self.into[kind].get(atom, [])

    def is_led_to(self, kind, atom):
        return any(it in self.found for it in self.sources(kind, atom))

    def may_be_excluded(self, atom):
        return atom not in self.case.included or self.is_led_to("exclude", atom)

    def may_be_done(self, atom):
        return atom in self.case.executed or atom in self.found

    def hindrance(self, atom):
        """Why no run executes the atom: a word, and the atom that it waits for. None where one may."""
        if atom not in self.case.included and not self.is_led_to("include", atom):
            return "include", atom
        for it in self.sources("condition", atom):
            if not self.may_be_done(it) and (it == atom or not self.may_be_excluded(it)):
                return "condition", it
        for it in self.sources("milestone", atom):
            owed = it in self.case.pending and it not in self.found and not self.is_led_to("cancel", it)
            if owed and (it == atom or not self.may_be_excluded(it)):
                return "milestone", it
        return None


def relations_of(file, kind, source, target):
    """The relations of the file that lead from the one atom to the other."""
    found = []
    for it in file.relations:
        words = [word.value for word in it.items]
        if words[0] == kind and words[1] in file.ways_up(source) and words[2] in file.ways_up(target):
            found.append(it)
    return found


def event_of(file, atom):
    return file.events[file.names.index(atom)]


def never_executed(file, reach):
    for atom in reach.case.atoms:
        if atom in reach.found:
            continue
        kind, other = reach.hindrance(atom)
        event = event_of(file, atom)
        if kind == "include":
            sources = reach.sources("include", atom)
            why = "no event includes it" if not sources else "only events include it that can never be executed: %s" % ", ".join(sources[:4])
            yield Odd(event, "`%s` can never be executed: it is excluded at opening, and %s" % (atom, why), "include it at opening, or have an event include it")
            continue
        others = [(it, "by this relation") for it in relations_of(file, kind, other, atom)]
        if other == atom:
            through = "" if any(it.items[1].value == atom == it.items[2].value for it, _ in others) else ", through a nest that it is in"
            what = "it must have been executed before" if kind == "condition" else "it must not be pending, and it is"
            yield Odd(event, "`%s` can never be executed: it is a %s of itself%s, so that %s" % (atom, kind, through, what), "write the relation with other events; one with a nest holds for all events below it, also for itself", *others)
        else:
            yield Odd(event, "`%s` can never be executed: its %s `%s` can't be either" % (atom, kind, other), "look at `%s` first" % other, *others)


def waits_for_itself(file, reach):
    for atom in reach.case.atoms:
        owed = atom in reach.case.pending or reach.is_led_to("response", atom)
        if atom in reach.found and owed and atom in reach.sources("milestone", atom):
            others = [(it, "by this relation") for it in relations_of(file, "milestone", atom, atom)]
            yield Odd(event_of(file, atom), "`%s` can't be executed while it is pending: it is a milestone of itself" % atom, "write the relation with other events; one with a nest holds for all events below it, also for itself", *others)


def sites_and_sessions(file, case):
    for value, (name, owned) in zip(file.cover, case.sites):
        if not owned:
            yield Odd(value, "the site `%s` owns no event" % name, "give it events, or take it out", is_remark=True)
    for atom in case.atoms:
        owners = [name for name, owned in case.sites if atom in owned]
        if len(owners) > 1:
            where = "%s and %s" % (", ".join(owners[:-1]), owners[-1])
            yield Odd(event_of(file, atom), "`%s` is owned by several sites, %s: an execution at one is one at all" % (atom, where), "leave it at one site, if it isn't shared", is_remark=True)
    for number, session in enumerate(file.sessions):
        if not session.items:
            yield Odd(session, "session %d has no calls" % number, "write its calls, or take it out")


def roles_of(file):
    """The roles that each event has for its own, and where each role stands first among those of users."""
    had = {}
    for it in (role for user in file.users for role in file.roles(user)):
        had.setdefault(it.value, it)
    return {name: [it.value for it in file.roles(event)] for event, name in zip(file.events, file.names)}, had


def executed_by_nobody(file):
    own, had = roles_of(file)
    lacking = {name for name, roles in own.items() if had.keys().isdisjoint(roles)}
    found = []
    for atom in file.atoms:
        way = file.ways_up(atom)
        role = next((own[it][0] for it in way if own[it]), None)
        if role is not None and lacking.issuperset(way):
            found.append((event_of(file, atom), atom, role))
    if found and not file.users:
        more = " and %d more" % (len(found) - 1) if found[1:] else ""
        yield Odd(found[0][0], "nobody may execute `%s`%s: roles are asked for, and there are no users" % (found[0][1], more), "write `users`, and in `by` whose each session is")
        return
    for event, atom, role in found:
        why = "no user has a role that it asks for, such as `%s`%s" % (role, near(role, [*had]))
        yield Odd(event, "nobody may execute `%s`: %s" % (atom, why), "write the role among those of a user, or mend its name")


def users_and_sessions(file):
    own, had = roles_of(file)
    asked, by = {it for roles in own.values() for it in roles}, {it.value for it in file.by}
    for role in [it for it in had if it not in asked][:MOST_ROLES]:
        yield Odd(had[role], "no event asks for the role `%s`%s" % (role, near(role, [*asked])), "mend its name, or take it out", is_remark=True)
    for user, name in zip(file.users, file.user_names):
        if name not in by:
            yield Odd(user, "no session is by `%s`" % name, "write the name in `by`, at the place of a session", is_remark=True)
    for number, session in enumerate(file.sessions[len(file.by) :] if by else [], len(file.by)):
        yield Odd(session, "session %d has no user, since `by` names %d" % (number, len(file.by)), "write its user in `by`", is_remark=True)


def line_ends(text, top):
    if "\r" in text:
        kind = "CR LF" if "\r\n" in text else "CR"
        yield Odd(top, "the line ends are %s, as other systems write them: dcr takes them in a case, and not in a report" % kind, "leave them, or have the editor write LF", is_remark=True)


def oddities(file, text, case=None):
    """What is odd in an accepted case, in the order of the file; of one that opens otherwise than its file says as it opens."""
    case = case or Case(text)
    reach = Reach(case)
    found = [*never_executed(file, reach), *waits_for_itself(file, reach), *sites_and_sessions(file, case), *executed_by_nobody(file), *users_and_sessions(file), *line_ends(text, file.top)]
    return sorted(found, key=lambda it: it.at)
