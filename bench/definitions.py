#!/usr/bin/env python3
"""Counts the definitions that a word of a specs/ file stands on, down to sets and lists.

    bench/definitions.py crates/dcr_app/specs/Ends.antt Reported          definitions, lines, files
    bench/definitions.py crates/dcr_app/specs/Ends.antt Reported --list   each definition too, by file

Several words are counted together. The rule: a definition stands on each word that its text cites and that its file
defines or imports by a `use` line, and on what that word stands on. Counted are the definitions in specs/ folders of
this repository, each once, the first word among them; `do` cites the `>>=` that is in scope. The lines of a definition
are those of its statement and its equations, without comments and blank lines; `use` lines are no definition's.
Not counted: std's words and those of the kit's libraries (the JSON crate's among them), and the structs and enums of
src/, of which the number that is cited is told at the end. What a struct is in the model (its `impl Model`) is not
followed.
"""

import glob
import os
import re
import sys

TOP = os.path.dirname(os.path.dirname(os.path.abspath(__file__)))
WORD = re.compile(r'[^\s(){}.;,@"»λ]+|\.')
HEAD = re.compile(r"( *)((?:abbrev |unfoldable |opaque )*)(pub )?(record |data )?(\S+)(?: [^:=]*)? ?:(?: |$)")
NO_DEFINITION = re.compile(r"\s*(pub mod|infixl?|infixr|module|abbrev mutual|mutual)\b")


def without_comment(line):
    """The line with its texts emptied and its comment taken off."""
    line = re.sub(r'"(?:[^"\\]|\\.)*"', '""', line)
    return re.sub(r'(^|(?<=[ (){}.;,@"]))--.*', "", line).rstrip()


class Module:
    """One specs/ file: what its names stand for, and the lines of each of its definitions."""

    def __init__(self, path):
        self.uses, self.aliases, self.definitions = {}, {}, {}
        current, depth = None, 0
        with open(path, encoding="utf-8") as file:
            lines = [without_comment(line) for line in file]
        for line in lines:
            head = HEAD.match(line)
            if re.match(r"(pub )?use ", line):
                self.imports(line[line.index("use ") + 4 :])
                current = None
            elif NO_DEFINITION.match(line):
                current = None
            elif line and head and (head[2] or head[4] or current is None or head[3] and len(head[1]) <= depth):
                current, depth = head[5], len(head[1])
                self.definitions[current] = [line]
            elif line and current:
                self.definitions[current].append(line)

    def imports(self, text):
        """Notes what a `use` line brings into scope."""
        path, brace, names = text.partition(".{")
        if brace:
            for name in filter(None, (it.strip() for it in names.rstrip("}").split(","))):
                word, _, own = name.partition(" as ")
                self.uses[own or word] = (path, word)
        else:
            path, _, own = text.partition(" as ")
            if own:
                self.aliases[own] = path
            else:
                self.uses[path.rpartition(".")[2]] = tuple(path.rpartition(".")[::2])

    def cited_in(self, name):
        """The words in scope that the text of a definition names: (whose module, word), None for this module."""
        for line in self.definitions[name]:
            found = [it for it in WORD.finditer(line)]
            for at, it in enumerate(found):
                follows = at > 0 and found[at - 1][0] == "." and found[at - 1].end() == it.start()
                if follows:
                    if at > 1 and found[at - 2].end() == found[at - 1].start() and found[at - 2][0] in self.aliases:
                        yield self.aliases[found[at - 2][0]], it[0]
                    continue
                for word in {it[0], "◌%s◌" % it[0], "◌>>=◌" if it[0] == "do" else it[0]}:
                    if word in self.definitions:
                        yield None, word
                    elif word in self.uses:
                        yield self.uses[word]


def modules():
    """Each specs/ file of the repository, by the name that `use` lines give it."""
    found = {}
    for path in glob.glob(TOP + "/crates/*/specs/**/*.antt", recursive=True):
        crate, _, inside = os.path.relpath(path, TOP + "/crates").partition("/specs/")
        found["Rattle.%s.specs.%s" % (crate, inside[:-5].replace("/", "."))] = Module(path)
    return found


def stands_on(every, start):
    """The definitions that these words stand on, themselves among them, and the structs and enums that are cited."""
    seen, types, left = set(), set(), list(start)
    while left:
        module, word = left.pop()
        if (module, word) in seen:
            continue
        if module in every and word in every[module].definitions:
            seen.add((module, word))
            left += [(other or module, name) for other, name in every[module].cited_in(word)]
        else:
            declared = re.match(r"Rattle\.(\w+)\.specs\.declared\.(.*?)(\.TheVariants)?$", module)
            types |= {(declared[1], declared[2])} if declared and os.path.isdir("%s/crates/%s" % (TOP, declared[1])) else set()
    return seen, types


def main(words):
    is_list = "--list" in words
    words = [word for word in words if word != "--list"]
    if len(words) < 2:
        sys.exit(__doc__)
    crate, _, inside = os.path.relpath(os.path.abspath(words[0]), TOP + "/crates").partition("/specs/")
    module, every = "Rattle.%s.specs.%s" % (crate, inside[:-5].replace("/", ".")), modules()
    lacking = [word for word in words[1:] if module not in every or word not in every[module].definitions]
    if lacking:
        sys.exit("%s defines no %s" % (words[0], lacking[0]))
    seen, types = stands_on(every, [(module, word) for word in words[1:]])
    lines = {it: len(every[it[0]].definitions[it[1]]) for it in seen}
    files = sorted({it[0] for it in seen})
    for file in files if is_list else ():
        own = sorted(it for it in seen if it[0] == file)
        print("%4d  %s: %s" % (sum(lines[it] for it in own), file[7:].replace(".specs.", "/"), ", ".join("%s %d" % (it[1], lines[it]) for it in own)))
    print("%d definitions, %d lines, in %d files; structs and enums of src/ cited: %d" % (len(seen), sum(lines.values()), len(files), len(types)))


if __name__ == "__main__":
    main(sys.argv[1:])
