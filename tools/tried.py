"""The wrong bodies of the crates, and the record of what each came to.

A wrong body is a file `crates/NAME/edits/IT.edit`: lines `file: src/..`, `old: TEXT` and `new: TEXT`, where the old text
stands in that file exactly once. `crates/NAME/edits/TRIED` has a line for each: its name, what it came to, and a checksum
of what that rests on. A body is wrong where it doesn't do what the clauses say, so that is the crate's own files, the
definitions of the crates below that these are made of, the edit and the kit.
"""

import glob
import hashlib
import os
import subprocess

from definitions import Definitions

TOP = os.path.dirname(os.path.dirname(os.path.realpath(__file__)))
OWN = ("src", "specs", "proofs")
# The word of the record for each thing that rt says of an edit, the longer ones first.
WORDS = (
    ("refused, as it must be (only because a proof file names", "only-by-a-name"),
    ("refused, as it must be (only by a limit", "only-by-a-limit"),
    ("refused, as it must be", "refused"),
    ("BAD EDIT", "bad"),
    ("NOT REFUSED", "proved"),
    ("NOT TRIED", "not-tried"),
)


def crates(top=TOP):
    """The crates of crates.txt in its order, each with the crates of the repository that it uses."""
    used = {}
    with open(os.path.join(top, "crates.txt")) as file:
        for line in file:
            name, colon, words = line.partition("#")[0].partition(":")
            if colon:
                used[name.split()[0]] = words.split()
    return {name: [it for it in words if it in used] for name, words in used.items()}


def below(name, used):
    """The crates below this one, in order of their names."""
    found, left = set(), [*used[name]]
    while left:
        it = left.pop()
        if it not in found:
            found.add(it)
            left += used[it]
    return sorted(found)


def edits_of(name, top=TOP, folder="edits"):
    """The files of the crate's wrong bodies, in order."""
    return sorted(glob.glob(os.path.join(top, "crates", name, folder, "*.edit")))


def changes(path):
    """What the edit changes: files, each with the text that goes and the one that comes. A ValueError says why it can't be read."""
    found, file, old = [], None, None
    with open(path, encoding="utf-8") as it:
        lines = it.read().split("\n")
    for line in lines:
        if line.startswith("file: "):
            file = line[6:].strip()
            if os.path.normpath(file) != file or not file.startswith(OWN):
                raise ValueError("it names no file below src/, specs/ or proofs/: %s" % file)
        elif line.startswith("old: "):
            old = line[5:]
        elif line.startswith("new:"):
            if file is None or not old:
                raise ValueError("a line `new:` stands before `file:` and `old:`")
            found.append((file, old, line[4:][line[4:5] == " " :]))
            old = None
    return found


def applied(path, crate):
    """The texts that the edit changes, by their files in the crate's folder. A ValueError says why it can't be applied."""
    texts, was = {}, {}
    for file, old, new in changes(path):
        if file not in texts:
            try:
                with open(os.path.join(crate, file), encoding="utf-8") as it:
                    texts[file] = was[file] = it.read()
            except OSError:
                raise ValueError("there is no file %s" % file) from None
        if texts[file].count(old) != 1:
            raise ValueError("its old text is %d times in %s, and not once: %s" % (texts[file].count(old), file, old))
        texts[file] = texts[file].replace(old, new)
    if texts == was:
        raise ValueError("it changes nothing")
    return texts


def version():
    """The line of the kit; None where its command is not on the path."""
    try:
        ran = subprocess.run(["rt", "version"], stdin=subprocess.DEVNULL, stdout=subprocess.PIPE, check=False)
    except OSError:
        return None
    return ran.stdout


class Sums:
    """The checksums of what the results of edits rest on, in one state of the repository."""

    def __init__(self, top=TOP):
        self.top, self.used, self.version = top, crates(top), version()
        self.definitions, self.parts = Definitions(top), {}

    def part(self, name):
        """A checksum of a crate's own files and of the definitions of crates below that they are made of."""
        if name not in self.parts:
            found = hashlib.sha256()
            for folder in OWN:
                for path in sorted(glob.glob(os.path.join(self.top, "crates", name, folder, "**", "*.*"), recursive=True)):
                    if os.path.isfile(path):
                        with open(path, "rb") as it:
                            text = it.read()
                        found.update(b"%s %d\n%s" % (os.path.relpath(path, self.top).encode(), len(text), text))
            for crate, file, text in self.definitions.reached(name, below(name, self.used), OWN):
                found.update(("%s %s %d\n%s" % (crate, file, len(text), text)).encode())
            self.parts[name] = found.digest()
        return self.parts[name]

    def of(self, name, edit):
        """The checksum of what the result of this edit of the crate rests on."""
        found = hashlib.sha256(self.version + self.part(name))
        with open(edit, "rb") as it:
            found.update(it.read())
        return found.hexdigest()


def record(name, top=TOP):
    """What the record has of each edit of the crate: what it came to, and the checksum."""
    try:
        with open(os.path.join(top, "crates", name, "edits", "TRIED")) as file:
            return {it[0]: (it[1], it[2]) for it in (line.split() for line in file) if len(it) == 3}
    except OSError:
        return {}


def write_record(name, lines, top=TOP):
    """Writes the record anew, in order of the edits' names."""
    path = os.path.join(top, "crates", name, "edits", "TRIED")
    with open(path + ".new", "w") as file:
        file.writelines("%s %s %s\n" % (it, *lines[it]) for it in sorted(lines))
    os.replace(path + ".new", path)


def stands(name, edit, sums, lines):
    """Why the record doesn't show that the edit is refused; None where it does."""
    it = os.path.basename(edit)
    if it not in lines:
        return "isn't in TRIED"
    if lines[it][1] != sums.of(name, edit):
        return "was tried before something that this rests on changed"
    return None if lines[it][0] == "refused" else "wasn't refused: %s" % lines[it][0]
