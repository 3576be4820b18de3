"""Judges several wrong bodies of a crate by one check, each the body of a function of its own.

A function is proved by its own body and by what the others promise, never by the bodies of these. So an edit that changes
the body of one function alone is refused exactly where that function isn't proved, whatever stands in the others meanwhile,
and a check costs mostly what it costs to begin. What a check of several can't tell is left for a check of its own: an edit
of anything but one body; one that the front end doesn't take; one whose function is proved all the same, calls one that
isn't, or isn't proved only because a proof file names what is gone.
"""

import os
import re
import shutil
import subprocess
import tempfile

from build import Kit
from tried import OWN, below, changes, crates

HEAD = re.compile(r"( *)(?:pub(?:\(\w+\))? )?(?:const )?fn (\w+)")
VERDICT = re.compile(r"fn (\S+): (.*)")
# What is said of a proof file that names what an edit took away.
NAMES = re.compile(r"has no field|is not in scope|has no `|was not admitted")
# How often an edit is tried beside others, where the first time told nothing of it.
TURNS = 10


class Body:
    """The body of a function: the file and the lines between its braces, the name, and the type of its impl, if any."""

    def __init__(self, file, name, owner, first, last):
        self.file, self.name, self.owner, self.first, self.last = file, name, owner, first, last

    def path(self):
        """The function's name as a check takes it: below its module, or of a method the end of it, since the module is the type's."""
        module = self.file[len("src/") : -len(".rt")]
        above = [self.owner] if self.owner else [] if module in ("lib", "main") else module.split("/")
        return "::".join([*above, self.name])


def behind_generics(head):
    """What stands behind the parameters of an impl: behind the bracket that closes the first one, where one stands there."""
    rest = head[len("impl") :]
    if not rest.startswith("<"):
        return rest
    depth = 0
    for at, one in enumerate(rest):
        depth += (one == "<") - (one == ">" and rest[at - 1] not in "-=")
        if not depth:
            return rest[at + 1 :]
    return rest


def owner_of(head):
    """The name by which a check calls an impl with this head: its type, and behind it the trait with its own type, if any."""
    trait, behind, own = behind_generics(head).partition("{")[0].rpartition(" for ")
    return re.match(r"\W*(?:\w+::)*(\w+)", own)[1] + ("".join(re.findall(r"\w+(?!\w|::)", trait)) if behind else "")


def bodies_of(file, text):
    """The bodies of all functions of a file, as `rt fmt` lays them out."""
    lines, owner, found = text.split("\n"), None, []
    for at, line in enumerate(lines):
        if line.startswith("impl"):
            owner = owner_of(" ".join(lines[at : at + 8]))
        elif line == "}":
            owner = None
        head = HEAD.match(line)
        if not head:
            continue
        indent = head[1]
        for begin in range(at, len(lines)):
            end = lines[begin]
            if end.endswith(";") and begin == at or begin > at and HEAD.match(end) or end.endswith("{}"):
                break
            if end == indent + "{" or end.endswith(" {") and (begin == at or end.startswith(indent + ")")):
                last = lines.index(indent + "}", begin)
                found.append(Body(file, head[2], owner if indent else None, begin + 1, last))
                break
    return found


def body_of(edit, crate):
    """The one body that the edit changes; None where it changes anything else."""
    found = {}
    for file, old, _ in changes(edit):
        if not file.startswith("src/"):
            return None
        with open(os.path.join(crate, file), encoding="utf-8") as it:
            text = it.read()
        first = text[: text.index(old)].count("\n")
        for body in bodies_of(file, text):
            if body.first <= first and first + old.count("\n") < body.last:
                found[body.path()] = body
                break
        else:
            return None
    return [*found.values()][0] if len(found) == 1 else None


class Bodies:
    """The checks of one crate of a copy of the repository, in which `rt ci` has built the crates below it."""

    def __init__(self, room, name):
        self.room, self.name, self.kit, self.kept = room, name, Kit(), tempfile.mkdtemp(dir=room)
        self.crate = os.path.join(room, "crates", name)

    def words(self, paths):
        """The words by which rattle checks the functions with these paths."""
        used, libraries = crates(self.room), self.kit.path("rlibs")
        with open(os.path.join(self.room, "crates.txt")) as file:
            uses = next(line.partition("#")[0].partition(":")[2].split() for line in file if re.match(self.name + r"\b", line))
        own = {it: os.path.join(self.room, "crates", it, "out/rlib") for it in below(self.name, used)}
        root = "src/main.rt" if os.path.exists(os.path.join(self.crate, "src/main.rt")) else "src/lib.rt"
        words = [self.kit.rattle, "check", "--crate-name", self.name, root]
        for it in ["std", *uses]:
            words += ["--extern", "%s=%s" % (it, os.path.join(own.get(it, libraries), it + ".rlib"))]
        for it in [libraries, *own.values()]:
            words += ["-L", "dependency=" + it]
        words += ["--antt-project", self.kit.path("rattle/logic/antt-project.json"), "--logic-built", self.kit.path("logic_built")]
        words += ["--links", self.name + "=", "--incremental", self.kept, "--jobs", "2"]
        return [*words, *[it for path in paths for it in ("--only", path)]]

    def said(self, texts, paths):
        """What a check of these functions says where the files have these texts."""
        with tempfile.TemporaryDirectory(dir=self.room) as folder:
            for part in OWN:
                if os.path.isdir(os.path.join(self.crate, part)):
                    shutil.copytree(os.path.join(self.crate, part), os.path.join(folder, part))
            for file, text in texts.items():
                with open(os.path.join(folder, file), "w", encoding="utf-8") as it:
                    it.write(text)
            how = {"cwd": folder, "stdin": subprocess.DEVNULL, "stdout": subprocess.PIPE, "stderr": subprocess.STDOUT}
            return subprocess.run(self.words(paths), errors="replace", check=False, **how).stdout.split("\n")

    def put_together(self, edits, bodies):
        """Edits of bodies that are all different, the first ones that can stand beside each other, and the texts with them."""
        taken, texts = {}, {}
        for edit in edits:
            trial = dict(texts)
            for file, old, new in changes(edit):
                if file not in trial:
                    with open(os.path.join(self.crate, file), encoding="utf-8") as it:
                        trial[file] = it.read()
                # (another edit may have taken what this one changes)
                trial[file] = trial[file].replace(old, new) if (trial[file] or "").count(old) == 1 else None
            if bodies[edit].path() not in taken and None not in trial.values():
                taken[bodies[edit].path()], texts = edit, trial
        return taken, texts

    def refused(self, edits):
        """Those of the edits that are refused for sure, each with what is said of it."""
        bodies = {it: body_of(it, self.crate) for it in edits}
        left, turns, found, most = [it for it in edits if bodies[it]], dict.fromkeys(edits, 0), {}, len(edits)
        while left:
            taken, texts = self.put_together(left[:most], bodies)
            lines = self.said(texts, taken)
            told = dict(it.groups() for it in map(VERDICT.match, lines) if it)
            if not told and len(taken) > 1:
                # (the front end took none of them, for one that it doesn't take: fewer at a time until that is found)
                most = len(taken) // 2
                continue
            most = len(edits)
            for path, edit in taken.items():
                names = [it for it in told if it.endswith("::" + path)]
                why = self.why(names[0], told[names[0]], lines) if len(names) == 1 else None
                # (alone it would be told the same once more)
                turns[edit] = turns[edit] + 1 if why is None and told and len(taken) > 1 else TURNS
                if why:
                    found[edit] = why
            left = [it for it in left if turns[it] < TURNS]
        return found

    @staticmethod
    def why(name, verdict, lines):
        """What shows that the function isn't proved; nothing where it doesn't show, and None where another turn may tell."""
        *above, last = name.split("::")[1:]
        place = re.compile(r"(\./)?proofs/%s\+?%s/[^:]*:\d+:\d+: error" % (re.escape("".join(it + "/" for it in above)), re.escape(last)))
        said = [it for it in lines if place.match(it) and not NAMES.search(it)]
        if verdict.startswith("not proved") and said:
            return said[0]
        if verdict.startswith("no proof: expected answers"):
            return verdict
        # (a function that it calls isn't proved, which may be another edit's doing)
        return None if re.search("which (is|are) not proved|which has no proof", verdict) else ""
