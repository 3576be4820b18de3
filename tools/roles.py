"""Who may execute which events: a plain model of the policy of a case, in another language.

It reads the table of docs/FORMATS.md, *Roles*, in its order. The policy is that of a file of version 3; in the others
nothing of it is looked at, and everything is allowed.
"""

import re

NAME = re.compile(r"[A-Za-z][A-Za-z0-9_.-]{0,63}\Z")
VERSION = "3"


def is_name(value):
    return isinstance(value, str) and NAME.match(value) is not None


def are_names(value):
    return isinstance(value, list) and all(map(is_name, value))


class Policy:
    """The roles that the events of a file ask for, those of its users, and the user of each session. `upwards` gives an
    event and the nests that it is in, from itself on."""

    def __init__(self, file, upwards):
        has_one = file.get("version") == VERSION
        self.own = {event["name"]: event.get("roles", []) if has_one else [] for event in file["graph"]["events"]}
        self.users, self.by = (file.get(member, []) if has_one else [] for member in ("users", "by"))
        self.upwards, self.had, self.shared = upwards, None, {}

    def wrong(self):
        """The first part that fails, with its index; None where none does."""
        names = set()
        for i, roles in enumerate(self.own.values()):
            if not are_names(roles):
                return "event", i
        if not isinstance(self.users, list):
            return "users", 0
        for i, user in enumerate(self.users):
            if not isinstance(user, dict) or not is_name(user.get("user")) or user["user"] in names or not are_names(user.get("roles")):
                return "user", i
            names.add(user["user"])
        if not isinstance(self.by, list):
            return "by", 0
        return next((("by", i) for i, name in enumerate(self.by) if not isinstance(name, str) or name not in names), None)

    def user_of(self, session):
        """The name of a session's user; None where it has none."""
        return self.by[session] if session < len(self.by) else None

    def shares(self, user, event):
        """Whether the user has one of the roles that the event has for its own."""
        if self.had is None:
            self.had = {user["user"]: {*user["roles"]} for user in self.users}
        if (user, event) not in self.shared:
            self.shared[user, event] = not self.had.get(user, set()).isdisjoint(self.own[event])
        return self.shared[user, event]

    def denied(self, session, event):
        """The role for want of which a session may not execute the event: the first that it asks for. None where it may."""
        asking, user = [it for it in self.upwards(event) if self.own[it]], self.user_of(session)
        if not asking or any(self.shares(user, it) for it in asking):
            return None
        return self.own[asking[0]][0]
