"""The definitions that a crate's clauses are made of: those that its own files name, and those that these are made of.

A definition is a paragraph of `crates/NAME/specs/IT.antt`, without its comments. It is found by its name, or by that of a
case of it. A file names it by a line `use Rattle.NAME.specs.IT.{..}` or a path; where a name isn't found in the file that
is told, all of that file is taken. In a definition each word counts that is a name of its own file or of one that is used
there. What a value of a type of a crate below is, and what the clauses of a trait there name, is taken in any case. So rather
too much is found than too little.
"""

import glob
import os
import re

USE = re.compile(r"\b(?:Rattle\.|crate::)?(dcr_\w+|(?<=crate::)specs\b)(?:(?:\.|::)specs)?(?:\.|::)([A-Z]\w*)((?:(?:\.|::)[\w.]+)*)(?:\.\{([^}]*)\})?")
WORD = re.compile(r"[^\s(){},;.:λ]+")
OPENS = re.compile(r"(?:(?:abbrev|unfoldable|pub|record|data|rec|open|infixl|infixr|infix)\s+)*([^\s:({]+)")
CASE = re.compile(r"\s+(?:pub\s+)?([^\s:({]+)\s*:\s")
# What a source tells of its types and traits to the crates above it: what a value is, and the clauses of a trait.
TOLD = re.compile(r"^impl\b[^\n]*\bModel for.*?ghost Value\s*=\s*\{([^}]*)\}|^pub trait\b(.*?)^\}", re.S | re.M)


class Paragraph:
    """A definition: its place, which is a crate and a file of it, its text, its names, and the words in it."""

    def __init__(self, place, text):
        self.place, self.text, self.names = place, text, set()
        is_data = re.match(r"(pub\s+)?data\b", text)
        for line in text.split("\n"):
            found = OPENS.match(line) if not line[:1].isspace() else CASE.match(line) if is_data else None
            if found:
                self.names.add(found[1])
        self.words = set(WORD.findall(text)) | {it for it in self.names if "◌" in it}


def read(path):
    """The text of a file, without the lines that are comments of a definition."""
    with open(path, encoding="utf-8") as file:
        return re.sub(r"^[ \t]*--.*\n", "", file.read(), flags=re.M)


def uses_of(text, crate):
    """The files of definitions that a text uses, each with the names that it tells, or None where it tells none."""
    for found in USE.finditer(text):
        at = crate if found[1] == "specs" else found[1]
        names = found[4].split(",") if found[4] is not None else re.split(r"\.|::", found[3])[1:2]
        yield (at, found[2]), {it.strip() for it in names if it.strip()} or None


class Definitions:
    """The definitions of the crates, in one state of the repository."""

    def __init__(self, top):
        self.top, self.files, self.uses, self.told = top, {}, {}, {}

    def file(self, place):
        """The paragraphs of a file of definitions; none where there is no such file."""
        if place not in self.files:
            path = os.path.join(self.top, "crates", place[0], "specs", place[1] + ".antt")
            text = read(path) if os.path.isfile(path) else ""
            self.uses[place] = [*uses_of(text, place[0])]
            parts = re.split(r"\n\s*\n", re.sub(r"^use .*\n", "", text, flags=re.M))
            self.files[place] = [Paragraph(place, it.strip("\n")) for it in parts if it.strip()]
        return self.files[place]

    def named(self, place, names):
        """The paragraphs of a file that bring one of these names in, and all of it where one of them isn't there."""
        all_of_it = self.file(place)
        found = [it for it in all_of_it if names and it.names & names]
        lacking = names is None or names - set().union(*(it.names for it in all_of_it))
        return all_of_it if lacking else found

    def under(self, it):
        """The paragraphs that a paragraph names."""
        yield from (other for other in self.file(it.place) if other.names & it.words or any("◌" in name for name in other.names))
        for place, names in self.uses[it.place]:
            if names is None:
                yield from self.file(place)
            elif names & it.words or any("◌" in name for name in names):
                yield from self.named(place, {name for name in names if name in it.words or "◌" in name})

    def told_by(self, crate):
        """The paragraphs that the values of a crate's types are, and those that the clauses of its traits name."""
        if crate not in self.told:
            self.told[crate] = found = []
            for path in glob.glob(os.path.join(self.top, "crates", crate, "src", "**", "*.rt"), recursive=True):
                text = read(path)
                words = {it for model in TOLD.finditer(text) for it in WORD.findall(model[1] or model[2])}
                for place, names in uses_of(text, crate) if words else ():
                    if names is None or names & words:
                        found += self.named(place, names and names & words)
        return self.told[crate]

    def reached(self, crate, below, own):
        """The paragraphs of crates below that the crate's own files reach, in order of their places."""
        left = [it for other in below for it in self.told_by(other)]
        for folder in own:
            for path in glob.glob(os.path.join(self.top, "crates", crate, folder, "**", "*.*"), recursive=True):
                if path.endswith((".rt", ".antt")):
                    for place, names in uses_of(read(path), crate):
                        left += self.named(place, names) if place[0] != crate else []
        found = {}
        while left:
            it = left.pop()
            if id(it) not in found:
                found[id(it)] = it
                left += self.under(it)
        return sorted(((*it.place, it.text) for it in found.values() if it.place[0] != crate))
