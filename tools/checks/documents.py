"""The documents: their links hold, the commands in them print what the page says, and what they name is there."""

import contextlib
import glob
import os
import re
import shutil
import tempfile

from checks import EXAMPLES, TOP, NotTried, read, run, want
from checks.program import prepare  # noqa: F401
from checks.serving import the_port

# Commands that a reader calls and that take minutes, or that change what is not the repository's.
NOT_RUN = re.compile(r"(rt |\.ci/run$|git |cd |mkdir -p ~/\.local/bin |install -D |bench/)")
LINK = re.compile(r"!?\[[^\]]*\]\(([^)\s]+)\)")


def pages():
    """Each document, by its path in the repository."""
    found = [*glob.glob(TOP + "/*.md"), *glob.glob(TOP + "/docs/*.md"), *glob.glob(TOP + "/examples/**/*.md", recursive=True)]
    return {os.path.relpath(path, TOP): read(path).decode() for path in sorted(found)}


def anchors(text):
    """The anchors of a page's headings."""
    heads = re.findall(r"^#+ (.*)$", text, re.M)
    return {re.sub(r"[^\w\- ]", "", it.lower()).replace(" ", "-") for it in heads}


def check_all_links_hold():
    lost, every = [], pages()
    for page, text in every.items():
        for target in LINK.findall(text):
            if re.match(r"[a-z]+:", target):
                continue
            path, _, anchor = target.partition("#")
            there = os.path.normpath(os.path.join(os.path.dirname(page), path)) if path else page
            if not os.path.exists(os.path.join(TOP, there)) or anchor and anchor not in anchors(every.get(there, "")):
                lost.append("%s: %s" % (page, target))
    want(not lost, "; ".join(lost))


def check_files_that_are_named_are_there():
    lost = []
    for page, text in pages().items():
        for name in re.findall(r"`((?:docs|bench|tools|examples|\.ci)/[\w./*-]*\w)[^`]*`", text):
            if not glob.glob(os.path.join(TOP, name)):
                lost.append("%s: %s" % (page, name))
    want(not lost, "; ".join(lost))


def check_edits_that_are_named_are_there():
    edits = {os.path.basename(it)[:-5] for of in ("edits", "must-fail") for it in glob.glob(TOP + "/crates/*/%s/*.edit" % of)} | {*os.listdir(TOP + "/crates")}
    lost = []
    for line in read("docs/PROMISES.md").decode().splitlines():
        cells = line.split(" | ")
        names = re.findall(r"`(\w+_\w+)`", cells[3]) if len(cells) > 4 else []
        lost += [it for it in names if it not in edits and it != "read_all"]
    want(not lost, "docs/PROMISES.md names edits that there are not: %s" % ", ".join(lost))


def check_sources_that_are_named_are_there():
    # (by folder, since `out` may have far more files)
    paths = [it for of in ("src", "specs", "proofs") for it in glob.glob(TOP + "/crates/*/" + of + "/**/*.*", recursive=True)]
    names, lost = {os.path.basename(it) for it in paths}, []
    for page, text in pages().items():
        for path in re.findall(r"`(?:\w+/)*(\w+\.(?:rt|antt))`", text):
            if path not in names:
                lost.append("%s: %s" % (page, path))
        # (a definition's file, and the words that stand in it)
        for path, words in re.findall(r"`(\w+/(?:src|specs)/[\w/]+\.(?:rt|antt))`((?:[:,] `\w+`(?:, `\w+`)*)?)", text):
            there = os.path.join(TOP, "crates", path)
            held = read(there).decode() if os.path.exists(there) else ""
            lost += ["%s: %s: %s" % (page, path, it) for it in re.findall(r"`(\w+)`", words) if not re.search(r"\b%s\b" % it, held)]
            lost += [] if held else ["%s: %s" % (page, path)]
        # (the same of files that are told by their names alone, of which several crates may have one)
        for files, words in re.findall(r"((?:`(?:\w+/)*\w+\.(?:rt|antt)`, )*`(?:\w+/)*\w+\.(?:rt|antt)`)(?: of `\w+`)?: ((?:`\w+`(?:, )?)+)", text):
            told = {os.path.basename(it) for it in re.findall(r"`([^`]+)`", files)}
            held = " ".join(read(it).decode() for it in paths if os.path.basename(it) in told)
            lost += ["%s: %s: %s" % (page, files, it) for it in re.findall(r"`(\w+)`", words) if not re.search(r"\b%s\b" % it, held)]
    want(not lost, "; ".join(lost))


def check_each_crate_is_told_of():
    used = {}
    for line in read("crates.txt").decode().splitlines():
        name, colon, words = line.partition("#")[0].partition(":")
        if colon:
            used[name.split()[0]] = words.split()
    ported = {it for words in used.values() for it in words} - {*used}
    lost = ["docs/%s: %s" % (page, it) for page, names in (("ARCHITECTURE.md", used), ("TRUSTED.md", ported)) for it in sorted(names) if "`%s`" % it not in read("docs/" + page).decode()]
    want(not lost, "; ".join(lost))


def contracts():
    """What a promise can name, by crate: its functions with the names of their clauses, and its other items with none."""
    found = {}
    for path in glob.glob(TOP + "/crates/*/src/**/*.rt", recursive=True):
        items, name = found.setdefault(os.path.relpath(path, TOP).split("/")[1], {}), ""
        for line in read(path).decode().splitlines():
            item = re.match(r"\s*(?:pub(?:\(\w+\))? )?(?:const )?(fn|struct|enum|trait|mod) (\w+)", line)
            clause = re.match(r"\s*(?:ensures|requires|ghost) (\w+)\s*[{:=]", line)
            if item:
                name = item.group(2) if item.group(1) == "fn" else ""
                items.setdefault(item.group(2), set())
            elif clause:
                # (a trait's facts, which stand outside its functions, are the crate's)
                items.setdefault(name, set()).add(clause.group(1))
                items.setdefault("", set()).add(clause.group(1))
    return found


def check_functions_and_clauses_that_are_named_are_there():
    every, lost = contracts(), []
    words = {word for path in glob.glob(TOP + "/crates/*/specs/**/*.antt", recursive=True) for word in re.findall(r"\w+", read(path).decode())}
    for number, line in enumerate(read("docs/PROMISES.md").decode().splitlines(), 1):
        cells = line.strip("| ").split("|")
        if len(cells) < 5 or not cells[1].strip(" -"):
            continue
        # (what stands in brackets, and the facts of a record, are words of the definitions)
        inside = {it for part in re.findall(r"\([^()]*\)|[^;()]* of `[A-Z]\w*`", cells[2]) for it in re.findall(r"`(\w+)`", part)}
        named = {it for part in re.findall(r"`([\w:]+)`", cells[2]) for it in part.split("::")} - inside - {"requires", "ensures"}
        promised = {it for part in re.findall(r"`([\w:]+)`", cells[1]) for it in part.split("::")}
        crates = [every[it] for it in (promised | named) & {*every}] or [*every.values()]
        items = {it for crate in crates for it in crate}
        # (of a function its own clauses count, of a type, a trait or a whole crate all of its crate)
        by_name = [crate[it] for crate in crates for it in promised | named if it in crate]
        clauses = {it for of in by_name for it in of}
        if any(not of for of in by_name) or promised <= {*every}:
            clauses |= {it for crate in crates for of in crate.values() for it in of}
        lost += ["%d: %s" % (number, it) for it in sorted(promised - items - {*every})]
        lost += ["%d: %s" % (number, it) for it in sorted(named - items - clauses - {*every})]
        lost += ["%d: %s" % (number, it) for it in sorted(inside - items - clauses - words)]
    want(not lost, "docs/PROMISES.md names what there is not, in lines %s" % "; ".join(lost))


def check_clauses_that_are_named_in_words_are_those_of_the_call():
    proved = read("docs/PROMISES.md").decode().partition("\n## What is proved, in words\n")[2].partition("\n## ")[0]
    named = {it for part in re.findall(r"\*\*([^*]+)\*\*", proved) for it in re.findall(r"`(\w+)`", part) if it not in ("run", "serve", "replay", "load", "nodes", "conform", "adapt", "part")}
    lost = named - contracts()["dcr_app"]["dcr"]
    want(named and not lost, "docs/PROMISES.md names clauses that dcr_app::dcr hasn't: %s" % ", ".join(sorted(lost)))


def check_the_readme_is_a_page():
    lines = read("README.md").decode().splitlines()
    long = [number for number, line in enumerate(lines, 1) if len(line) > 200]
    want(len(lines) <= 120 and not long, "README.md has %d lines, at most 120 are wanted; over 200 characters are lines %s" % (len(lines), long))
    # (but for those whose names are words of the report or commands)
    clauses = contracts()["dcr_app"]["dcr"] - {"valid", "invalid", "done", "report", "load"}
    named = {it for line in lines for it in re.findall(r"`(\w+)`", line)} & clauses
    want(not named, "README.md names clauses: %s" % ", ".join(sorted(named)))


# ---- commands


def blocks(text, kind):
    return re.findall(r"^```%s\n(.*?)^```$" % kind, text, re.M | re.S)


def commands(text):
    """Each command of a page's console blocks, and the lines that are to be printed."""
    for block in blocks(text, "console"):
        for part in re.split(r"^\$ ", block, flags=re.M)[1:]:
            command, _, lines = part.partition("\n")
            yield command, lines


def is_printed(wanted, wrote):
    """Whether the lines are those that were wanted, where a line of three dots stands for any number of lines."""
    pattern = "".join("(?:.*\n)*?" if line == "...\n" else re.escape(line) for line in wanted.splitlines(True))
    return re.fullmatch(pattern, wrote) is not None


def check_commands_print_what_the_pages_say():
    wrong, has_jq = [], shutil.which("jq")
    for page, text in pages().items():
        # (in a folder of its own, where the repository's files stand as links, so that what a command writes goes with it)
        with tempfile.TemporaryDirectory() as room:
            for name in os.listdir(TOP):
                os.symlink(os.path.join(TOP, name), os.path.join(room, name))
            # (without jq, neither its commands nor those that take what it made)
            for command, lines in [it for it in commands(text) if has_jq or not re.search(r"\bjq\b|own\.head", it[0])]:
                # (one check at a time serves)
                with the_port() if "dcr serve" in command else contextlib.nullcontext():
                    status, wrote, said = run(["sh", "-c", command], cwd=room)
                shown = (wrote + said).decode()
                if not is_printed(lines, shown) or (not lines and status):
                    wrong.append("%s: `%s` has status %d and prints\n%s" % (page, command, status, shown))
    want(not wrong, "\n".join(wrong))


def check_commands_that_are_not_run_are_known():
    lost = []
    for page, text in pages().items():
        lines = [line for block in blocks(text, "sh") for line in block.splitlines()]
        lost += ["%s: %s" % (page, line) for line in lines if not NOT_RUN.match(line)]
    want(not lost, "; ".join(lost))


def check_the_blocks_for_the_path_leave_the_checkout_alone():
    found = [it for text in pages().values() for it in blocks(text, "sh") if "~/.local/bin" in it]
    want(len(found) == 2, "there are %d blocks for the path" % len(found))
    script, program = ("#!/bin/sh\necho %s\n" % it for it in ("the script", "the program"))
    # (each alone, one after the other, and each again)
    for order in [(0,), (1,), (0, 1), (1, 0), (0, 0), (1, 1)]:
        with tempfile.TemporaryDirectory() as room:
            top, home = os.path.join(room, "the checkout"), os.path.join(room, "home")
            os.makedirs(top + "/crates/dcr/out")
            os.mkdir(home)
            files = {top + "/dcr": script, top + "/crates/dcr/out/dcr": program}
            for path, text in files.items():
                with open(path, "w") as file:
                    file.write(text)
                os.chmod(path, 0o755)
            for it in order:
                status, _, said = run(["sh", "-c", found[it]], cwd=top, env={"HOME": home, "PATH": os.environ["PATH"]})
                want(status == 0, "%s has status %d: %s" % (found[it], status, said))
            for path, text in files.items():
                with open(path) as file:
                    want(file.read() == text, "%s is overwritten where the blocks %s are pasted" % (os.path.basename(path), order))
            wrote = run([home + "/.local/bin/dcr"])[1]
            want(wrote == (b"the script\n", b"the program\n")["install" in found[order[-1]]], "on the path is %s" % wrote)


# ---- the column of FORMATS that finds the place


def check_jq_finds_each_refusal():
    if not shutil.which("jq"):
        raise NotTried("jq is not on the path")
    # (the part of a shape, of a limit and of a policy stands behind the word, since two of them have an `event`)
    paths, of = {}, ""
    for line in read("docs/FORMATS.md").decode().splitlines():
        begun = re.match(r"The (?:parts|kinds) of `(\w+)`", line)
        of = begun[1] + " " if begun else of
        row = re.split(r"(?<!\\) \| ", line.strip("| ")) if line.startswith("| ") else []
        if len(row) == 4:
            is_line = row[0].startswith("`refused")
            paths.setdefault(row[0].strip("`") if is_line else of + row[0].strip("`"), row[2 if is_line else 3])
    for name, line in re.findall(r"^\| `([^`]*\.json)` \| `([^`]*)` \|$", read("examples/refused/README.md").decode(), re.M):
        words = line.split()
        if words[2] == "not-json":
            continue
        key = " ".join(words[2:4]) if words[2] in ("shape", "limit", "policy") else next(it for it in paths if it.startswith(" ".join(words[:3]) + " "))
        names = key.split()[3:] if key.startswith("refused") else ["", "I"]
        path = paths[key].strip("`").replace("\\|", "|")
        numbers = words[3:] if key.startswith("refused") else ["", words[4]]
        for letter, number in zip(names, numbers):
            path = path.replace("[%s]" % letter, "[%s]" % number) if letter in "IJK" else path.replace('"%s"' % letter, '"%s"' % number)
        status, wrote, said = run(["jq", "-c", path, os.path.join(EXAMPLES, "refused", name)])
        want(status == 0 and wrote.strip() not in (b"", b"null"), "%s: jq '%s': %s%s" % (line, path, wrote, said))
