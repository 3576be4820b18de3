"""A case file as it is written: its JSON values with their places, and the members that the format names."""

import os
import re
import sys

sys.dont_write_bytecode = True
TOP = os.path.dirname(os.path.dirname(os.path.realpath(__file__)))
NAME = re.compile(r"[A-Za-z][A-Za-z0-9_.-]{0,63}")
KINDS = ["condition", "response", "milestone", "include", "exclude", "cancel"]
# The members that each kind of object has; every other member is passed over.
MEMBERS = {
    "top": ["version", "graph", "cover", "sessions"],
    "graph": ["events", "relations"],
    "event": ["name", "parent", "label", "executed", "pending", "included"],
    "site": ["site", "events"],
    "user": [],
}
# Those that they have besides in version 3.
WITH_ROLES = "3"
OF_ROLES = {"top": ["users", "by"], "event": ["roles"], "user": ["user", "roles"]}
# The member by which editors find the schema, which is passed over rightly.
OF_EDITORS = "$schema"
SPACE = re.compile(r"[ \t\n\r]*")
NUMBER = re.compile(r"-?(0|[1-9][0-9]*)(\.[0-9]+)?([eE][+-]?[0-9]+)?")
TEXT = re.compile(r'"((?:[^"\\\x00-\x1f]|\\(?:["\\/bfnrt]|u[0-9a-fA-F]{4}))*)"')
WORDS = {"true": True, "false": False, "null": None}
DEEPEST = 127


# What is often written in a JSON text and isn't JSON: how it begins, what it is, and how to mend it.
OFTEN = [
    ("//", "a comment, which JSON has none of", "take it out; a member of any other name, such as \"note\", is passed over"),
    ("/*", "a comment, which JSON has none of", "take it out; a member of any other name, such as \"note\", is passed over"),
    ("#", "a comment, which JSON has none of", "take it out; a member of any other name, such as \"note\", is passed over"),
    ("'", "a text in single quotes", "write double quotes"),
    ("\u201c", "a text in quotes of an editor for prose", "write plain double quotes"),
    ("True", "no word of JSON", "write true"),
    ("False", "no word of JSON", "write false"),
    ("None", "no word of JSON", "write null, or take the member out"),
]
COMMA = (",", "a comma too many: no value stands before it", "take it out")


LOOK = "look here and at what stands before it: a comma or a bracket too many or missing, a text without its quote"


class NotJson(Exception):
    """That the text is no JSON: where, why, how to mend it, and which array or object was read there."""

    def __init__(self, at, why, mend=LOOK):
        super().__init__(why)
        self.at, self.mend, self.opened = at, mend, None


class Value:
    """A JSON value, where it begins and ends, the values of an array, and the members of an object in order."""

    def __init__(self, at):
        self.at, self.end, self.value, self.items, self.members = at, at, None, [], []

    def get(self, name):
        """The member of this name that counts, which is the last, or None."""
        return next((it for key, _, it in reversed(self.members) if key == name), None)

    def is_a(self, kind):
        return isinstance(self.value, kind)


class _Reader:
    def __init__(self, text):
        self.text, self.at, self.opened = text, 0, []

    def fail(self, why, mend=None, others=()):
        """Fails here: as what often stands where JSON has none, as the end of the file, or for this reason."""
        for head, what, how in [*OFTEN, *others]:
            if self.text.startswith(head, self.at):
                raise NotJson(self.at, what, how)
        if self.at == len(self.text):
            raise NotJson(self.at, "the file ends here, in the middle of a value", "close what is open, or look whether the file was cut")
        raise NotJson(self.at, why, mend) if mend else NotJson(self.at, why)

    def comma(self, end):
        """Takes the comma between two values, behind which another one must come."""
        at = self.at
        self.take(",", "a comma or %s is wanted here" % end)
        if self.skip() == end:
            raise NotJson(at, "a comma too many: nothing stands behind it before the %s" % end, "take the comma out")

    def skip(self):
        self.at = SPACE.match(self.text, self.at).end()
        return self.text[self.at : self.at + 1]

    def take(self, mark, why):
        if self.skip() != mark:
            self.fail(why)
        self.at += 1

    def string(self):
        found = TEXT.match(self.text, self.at)
        if not found:
            raise NotJson(self.at, "a text whose end is missing, or that has a line end, a control character or an unknown escape in it")
        self.at = found.end()
        text = re.sub(r"\\(u[0-9a-fA-F]{4}|.)", lambda it: chr(int(it[1][1:], 16)) if it[1][0] == "u" else {"b": "\b", "f": "\f", "n": "\n", "r": "\r", "t": "\t"}.get(it[1], it[1]), found[1])
        text = text.encode("utf-16", "surrogatepass").decode("utf-16", "replace") if re.search("[\ud800-\udfff]", text) else text
        if "\ufffd" in text and "\ufffd" not in found[0] and "fffd" not in found[0].lower():
            raise NotJson(found.start(), "a text with half of a character (a lone surrogate)")
        return text

    def value(self, depth=0):
        mark, made = self.skip(), Value(self.at)
        if depth > DEEPEST:
            raise NotJson(self.at, "arrays and objects nested too deep", "nest less deep than %d" % DEEPEST)
        if mark in ("{", "["):
            self.opened.append(self.at)
            self.at += 1
            (self.object if mark == "{" else self.array)(made, depth + 1)
            self.opened.pop()
        elif mark == '"':
            made.value = self.string()
        else:
            word = re.compile(r"[a-zA-Z]*").match(self.text, self.at)[0]
            number = NUMBER.match(self.text, self.at)
            if word not in WORDS and not number:
                self.fail("no value of JSON stands here", "write a text in quotes, a number, true, false, null, an array or an object" if word else None, [COMMA])
            made.value = WORDS[word] if word else float(number[0])
            if made.value in (float("inf"), -float("inf")):
                raise NotJson(self.at, "a number out of range", "write one below 1.8e308; no member of a case is a number")
            self.at += len(word or number[0])
        made.end = self.at
        return made

    def array(self, made, depth):
        made.value = made.items
        if self.skip() == "]":
            self.at += 1
            return
        while True:
            made.items.append(self.value(depth))
            if self.skip() == "]":
                self.at += 1
                return
            self.comma("]")

    def object(self, made, depth):
        made.value = {}
        if self.skip() == "}":
            self.at += 1
            return
        while True:
            if self.skip() != '"':
                self.fail("a member's name in quotes is wanted here", "write the name in double quotes", [COMMA])
            at, key = self.at, self.string()
            self.take(":", "a colon is wanted here")
            made.members.append((key, at, self.value(depth)))
            if self.skip() == "}":
                self.at += 1
                made.value = {name: it.value for name, _, it in made.members}
                return
            self.comma("}")


def parse(data):
    """The JSON value of these bytes, and their text. NotJson where they are none."""
    try:
        text = data.decode("utf-8")
    except UnicodeDecodeError as error:
        raise NotJson(len(data[: error.start].decode()), "a byte that is not UTF-8", "have the editor save the file as UTF-8") from None
    if text.startswith("\ufeff"):
        raise NotJson(0, "a byte order mark, which some editors write at the head of a file", "have the editor save the file as UTF-8 without it")
    reader = _Reader(text)
    if not reader.skip():
        raise NotJson(0, "the file is empty" if not text else "the file has spaces and line ends alone", "write the case, or look whether it was saved")
    try:
        value = reader.value()
    except NotJson as error:
        if reader.opened and (error.mend == LOOK or error.at == len(text)):
            error.opened = reader.opened[-1]
        raise
    if reader.skip():
        raise NotJson(reader.at, "something stands behind the end of the value", "take it out: a file holds one object; or an earlier { or [ is closed too soon")
    return value, text


def place(text, at):
    """The line and the column, counted from 1, of a place in the text, whichever line ends it has."""
    lines = re.split("\r\n|\r|\n", text[:at])
    return len(lines), len(lines[-1]) + 1


class File:
    """The parts of a case file, as far as they are of their shape; what is not there or another thing is empty."""

    def __init__(self, top):
        self.top = top
        self.graph = top.get("graph") or Value(top.at)
        self.events = self.part(self.graph, "events")
        self.relations = self.part(self.graph, "relations")
        self.cover = self.part(top, "cover")
        self.sessions = self.part(top, "sessions")
        self.names = self.texts(self.events, "name")
        self.parents = self.texts(self.events, "parent")
        self.nests = {it for it in self.parents if it is not None}
        self.atoms = [it for it in self.names if it not in self.nests]
        self.sites = self.texts(self.cover, "site")
        version = top.get("version")
        self.has_roles = version is not None and version.value == WITH_ROLES
        self.users = self.part(top, "users") if self.has_roles else []
        self.by = self.part(top, "by") if self.has_roles else []
        self.user_names = self.texts(self.users, "user")

    def part(self, of, name):
        found = of.get(name)
        return found.items if found else []

    def texts(self, values, name):
        """The texts of a member of each, None where there is none."""
        found = [it.get(name) for it in values]
        return [it.value if it and it.is_a(str) else None for it in found]

    def ways_up(self, name):
        """The names of the event and of all nests that it is in."""
        above, found = dict(zip(reversed(self.names), reversed(self.parents))), []
        while name is not None and name not in found:
            found.append(name)
            name = above.get(name)
        return found

    def roles(self, value):
        """The roles that an event or a user names, as they are written."""
        return self.part(value, "roles") if self.has_roles else []

    def event(self, name):
        """The event of this name as it is written; of several the last."""
        return next(it for it, own in zip(reversed(self.events), reversed(self.names)) if own == name)

    def user_of(self, session):
        """The user of a session as it is written; None where it has none."""
        name = self.by[session].value if session < len(self.by) else None
        return next((it for it, own in zip(self.users, self.user_names) if own == name), None) if name is not None else None

    def asked(self, name):
        """The roles that an event asks for, as they are written: its own, then those of its nest, and so on upwards."""
        return [role for it in self.ways_up(name) for role in self.roles(self.event(it))]

    def objects(self):
        """Each object that has members of the format: its kind and itself."""
        yield "top", self.top
        if self.graph.is_a(dict):
            yield "graph", self.graph
        yield from (("event", it) for it in self.events if it.is_a(dict))
        yield from (("site", it) for it in self.cover if it.is_a(dict))
        yield from (("user", it) for it in self.users if it.is_a(dict))

    def members(self, kind):
        """The members that objects of a kind have in this version."""
        return MEMBERS[kind] + (OF_ROLES.get(kind, []) if self.has_roles else [])

    def is_of_roles(self, kind, key):
        """Whether this is a member that version 3 alone has, and the file is of another."""
        return not self.has_roles and key in OF_ROLES.get(kind, [])

    def passed_over(self):
        """Each member that is passed over: the kind of its object, its name, its place, and whether it's only the earlier of two."""
        for kind, it in self.objects():
            keys = [key for key, _, _ in it.members]
            for at, (key, where, _) in enumerate(it.members):
                if kind == "top" and key == OF_EDITORS:
                    continue
                if key not in self.members(kind):
                    yield kind, key, where, False
                elif key in keys[at + 1 :]:
                    yield kind, key, where, True
