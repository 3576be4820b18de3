"""How a place in a case file is told of: the value that stands there, what is wrong, the rule, and how to mend it."""

import difflib

NAME_RULE = "A name is an ASCII letter and at most 63 ASCII letters, digits, _, - and . after it"


class Told:
    """The place that a line tells of, what is wrong there, the rule and how to mend it, and other places to look at."""

    def __init__(self, value, wrong, rule, mend, *others):
        self.at, self.end, self.wrong, self.rule, self.mend, self.others = value.at, value.end, wrong, rule, mend, others


def closest(word, words):
    """The word that was probably meant, or None; capitals count for nothing in it."""
    every = {it.lower(): it for it in words if isinstance(it, str)}
    found = difflib.get_close_matches(word.lower(), every, 1, 0.6) if isinstance(word, str) else []
    return every[found[0]] if found else None


def near(word, words):
    """A hint at that word."""
    found = closest(word, words)
    return "; did you mean `%s`?" % found if found is not None else ""


def misspelt(member, value):
    """A hint at the member that stands in the place of a missing one."""
    found = difflib.get_close_matches(member, [key for key, _, _ in value.members], 1, 0.6)
    return "; is `%s` meant to be it?" % found[0] if found else ""


def type_of(value):
    """What a JSON value is, in words."""
    kinds = [(bool, "true or false"), (str, "a text"), (float, "a number"), (list, "an array"), (dict, "an object")]
    return next((said for kind, said in kinds if value.is_a(kind)), "null")
