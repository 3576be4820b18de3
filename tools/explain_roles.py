"""Says where in a case file it is that a refusal of its policy tells of: the part of explain.py that knows roles."""

from case import NAME
from told import NAME_RULE, Told, misspelt, near, type_of

ROLES = "`roles` is an array of names of roles. %s." % NAME_RULE
USER = 'A user is an object {"user": NAME, "roles": [NAME, ..]}; no two users have the same name.'
BY = "`by` is an array of users' names, the first of which is the user of session 0."
ALLOWED = "Who executes an event has one of the roles that it asks for: its own, or those of a nest that it is in. A session has the roles of its user."
# How many names are listed.
SHOWN = 4


def is_name(value):
    return value.is_a(str) and NAME.fullmatch(value.value)


def listed(names):
    """The names, each between back quotes, as far as they are shown."""
    return ", ".join("`%s`" % it for it in names[:SHOWN]) + (", .." if len(names) > SHOWN else "")


def no_array(value, member, rule, mend):
    """What is wrong with a member that is no array."""
    if value.is_a(list):
        raise ValueError
    null = "take it out: a member with null is there too"
    return Told(value, "`%s` is %s here" % (member, type_of(value)), rule, null if value.value is None else mend)


def of_roles(roles):
    """What is wrong with a member `roles`."""
    if not roles.is_a(list):
        return no_array(roles, "roles", ROLES, "write [ and ] around the roles, also around one alone")
    other = next(it for it in roles.items if not is_name(it))
    wrong = "this is no name" if other.is_a(str) else "this is %s" % type_of(other)
    return Told(other, wrong, ROLES, "rename the role" if other.is_a(str) else "write the role's name in quotes")


def of_event(file, number):
    return of_roles(file.events[number].get("roles"))


def of_users(file, number):
    return no_array(file.top.get("users"), "users", "`users` is an array of users. %s" % USER, 'write [{"user": .., "roles": [..]}, ..]')


def of_name(file, number, name):
    """What is wrong with a user's name; None where nothing is."""
    if not name.is_a(str):
        return Told(name, "`user` is %s here" % type_of(name), USER, "write the name in quotes")
    earlier = next((it.get("user") for it, own in zip(file.users[:number], file.user_names) if own == name.value), None)
    if earlier:
        return Told(name, "this is an earlier user's name too", USER, "rename the user, or write the roles of both at one of the two", (earlier, "the earlier one"))
    return None if is_name(name) else Told(name, "this is no name", "%s." % NAME_RULE, "rename the user")


def of_user(file, number):
    user = file.users[number]
    if not user.is_a(dict):
        return Told(user, "this is %s" % type_of(user), USER, 'write {"user": .., "roles": [..]}')
    name, roles = user.get("user"), user.get("roles")
    if name is None:
        hint = "; is `name` meant to be it?" if user.get("name") else misspelt("user", user)
        return Told(user, "this user has no `user`" + hint, USER, "write the name as the member `user`")
    if roles is None:
        return Told(user, "this user has no `roles`" + misspelt("roles", user), USER, 'write them; a user who has none has "roles": []')
    return of_name(file, number, name) or of_roles(roles)


def of_by(file, number):
    by = file.top.get("by")
    if not by.is_a(list):
        return no_array(by, "by", BY, "write [ and ] around the names, also around one alone")
    item = file.by[number]
    if not item.is_a(str):
        return Told(item, "this is %s" % type_of(item), BY, "write the name of the session's user in quotes")
    if item.value in file.user_names:
        raise ValueError
    wrong = "no user has this name" + near(item.value, file.user_names)
    return Told(item, wrong, BY, "mend the name, or write the user among `users`" if file.users else "write the users: this file has none")


def policy(file, part, number):
    """The part of a policy that is refused."""
    if not file.has_roles:
        raise ValueError
    return {"event": of_event, "users": of_users, "user": of_user, "by": of_by}[part](file, int(number))


def asked_at(file, event):
    """Where an event asks for roles: the first of them, of its own or of a nest that it is in, and whose it is."""
    asking = next(it for it in file.ways_up(event) if file.roles(file.event(it)))
    why = "`%s` asks for it here" % event if asking == event else "`%s` is in `%s`, which asks for it here" % (event, asking)
    return file.roles(file.event(asking))[0], why


def had_at(file, user):
    """Where it stands which roles a session has: those of its user, or which sessions have a user."""
    if user:
        return [(user.get("roles"), "these are the roles of `%s`" % user.get("user").value)]
    by = file.top.get("by")
    return [(by, "`by` names the users of %d session%s" % (len(file.by), "s" * (len(file.by) != 1)))] if by else []


def denied(file, session, number, role):
    """The call that is denied: who lacks which role, and what to write."""
    session, call = int(session), file.sessions[int(session)].items[int(number)]
    event, user = call.value.split(" ")[2], file.user_of(session)
    asked = [*dict.fromkeys(it.value for it in file.asked(event))]
    one, name = {*asked}, user.get("user").value if user else None
    able = [own for it, own in zip(file.users, file.user_names) if not one.isdisjoint(had.value for had in file.roles(it))]
    if asked[0] != role or name in able or user is None and session < len(file.by):
        raise ValueError
    asks = "`%s` asks for %s%s" % (event, "one of " if asked[1:] else "", listed(asked))
    if user:
        wrong, mend = "`%s`, whose session %d is, lacks a role: %s" % (name, session, asks), 'write "%s" among the roles of `%s`' % (role, name)
    else:
        wrong, mend = "session %d has no user, and %s" % (session, asks), "write the name of a user who has %s at place %d of `by`" % ("one of them" if asked[1:] else "it", session)
    if able:
        mend = "make the call in a session of %s, or %s" % (listed(able), mend)
    return Told(call, wrong, ALLOWED, mend, asked_at(file, event), *had_at(file, user))
