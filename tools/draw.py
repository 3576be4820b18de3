#!/usr/bin/env python3
"""Draws a case, and the run that a report tells.

    tools/draw.py case CASE > case.svg           by Graphviz where `dot` is on the path, else by a layout of its own
    tools/draw.py own CASE > case.svg            by the layout of its own
    tools/draw.py dot CASE > case.dot            as Graphviz text
    tools/draw.py run REPORT > run.svg           the calls down the page, the sites across, what each execution changed
    tools/draw.py page CASE REPORT > run.html    one page for a browser: the graph beside the run, call by call

The relations are drawn as the field draws them: condition with a dot at the arrow's head, response with one at its
tail, include +, exclude %, milestone with a diamond, cancel with a cross. An event that is excluded at opening has a
dashed border; one that is pending has a !, one that is executed a check mark. The sites that own an event stand at its
head in their colours, and below its label the roles that it asks for, one of which will do: `by doctor or nurse`. Those
of a nest stand behind its name, and are those of all that is in it too. The page needs no network; a slider or the arrow
keys go over the calls, and show at each place the marks, each site's own, what may be executed there by the marks, and
what an execution changed. A case must be one that dcr accepts, and a report one that it finds valid. The status is 0, or
2 where the words are others or a file is missing or not such.
"""

import html
import json
import math
import os
import shutil
import subprocess
import sys

import layout
import replay
from command import Usage, Wrong, command, read_bytes, read_text
from model import Case
from reader import Refused, read_case

# The colours that DCR tools give the relations, and the sign of each.
KINDS = {
    "condition": ("#e08a00", ""),
    "response": ("#1f78b4", ""),
    "include": ("#2a9134", "+"),
    "exclude": ("#d62728", "%"),
    "milestone": ("#9331b8", "◆"),
    "cancel": ("#7a4b2a", "×"),
}
# How many of an event's roles are shown.
MOST_ROLES = 6
COLOURS = ["#cfe4fa", "#fde2bf", "#d5efcf", "#f2d5f0", "#fbf2ae", "#d9d9f3", "#fbd3d3", "#cdeeea"]


def escaped(text):
    return html.escape(text, quote=True)


def colour_of(case, site):
    return COLOURS[[name for name, _ in case.sites].index(site) % len(COLOURS)]


def owners(case, atom):
    return [name for name, owned in case.sites if atom in owned]


def roles_of(case, name):
    """Whom an event or a nest asks for by roles of its own; nothing where it has none."""
    own = [*dict.fromkeys(case.policy.own[name])]
    shown = [shortened(it, 19) for it in own[:MOST_ROLES]] + ["…"] * (len(own) > MOST_ROLES)
    return "by " + " or ".join(shown) if own else ""


def marks_of(case, atom):
    return ("✓" if atom in case.executed else "") + ("!" if atom in case.pending else "")


# ---- an SVG of its own


class Picture:
    """The parts of an SVG picture, and how far they reach."""

    def __init__(self, has_groups=False):
        self.parts, self.least, self.most, self.has_groups = [], [0.0, 0.0], [0.0, 0.0], has_groups

    def group(self, name):
        """Begins the parts of an event, which a page finds by its name; ends them where there is none."""
        if self.has_groups:
            self.parts.append('<g class="event" data-event="%s">' % escaped(name) if name else "</g>")

    def reach(self, *points):
        for point in points:
            self.least = [min(a, b) for a, b in zip(self.least, point)]
            self.most = [max(a, b) for a, b in zip(self.most, point)]

    def box(self, x, y, width, height, fill="#ffffff", stroke="#444444", dashed=False, corner=5, thick=1.2):
        self.reach((x, y), (x + width, y + height))
        dashes = ' stroke-dasharray="6 4"' if dashed else ""
        self.parts.append('<rect x="%.1f" y="%.1f" width="%.1f" height="%.1f" rx="%d" fill="%s" stroke="%s" stroke-width="%.1f"%s/>' % (x, y, width, height, corner, fill, stroke, thick, dashes))

    def text(self, x, y, text, size=12, anchor="middle", fill="#222222", weight="normal"):
        wide = 0.62 * size * len(text)
        left = {"middle": x - wide / 2, "start": x, "end": x - wide}[anchor]
        self.reach((left, y - size), (left + wide, y + 4))
        self.parts.append('<text x="%.1f" y="%.1f" font-size="%d" text-anchor="%s" fill="%s" font-weight="%s">%s</text>' % (x, y, size, anchor, fill, weight, escaped(text)))

    def line(self, points, stroke, thick=1.6, dashed=False):
        self.reach(*points)
        dashes = ' stroke-dasharray="2 4"' if dashed else ""
        path = " ".join("%.1f,%.1f" % p for p in points)
        self.parts.append('<polyline points="%s" fill="none" stroke="%s" stroke-width="%.1f" stroke-linejoin="round"%s/>' % (path, stroke, thick, dashes))

    def shape(self, points, fill):
        self.parts.append('<polygon points="%s" fill="%s"/>' % (" ".join("%.1f,%.1f" % p for p in points), fill))

    def dot(self, point, fill, size=4.2):
        self.reach((point[0] - size, point[1] - size), (point[0] + size, point[1] + size))
        self.parts.append('<circle cx="%.1f" cy="%.1f" r="%.1f" fill="%s"/>' % (*point, size, fill))

    def svg(self):
        x, y = self.least[0] - 16, self.least[1] - 16
        width, height = self.most[0] - x + 16, self.most[1] - y + 16
        head = '<svg xmlns="http://www.w3.org/2000/svg" viewBox="%.1f %.1f %.1f %.1f" width="%.0f" height="%.0f" font-family="Helvetica, Arial, sans-serif">' % (x, y, width, height, width, height)
        ground = '<rect x="%.1f" y="%.1f" width="%.1f" height="%.1f" fill="#ffffff"/>' % (x, y, width, height)
        return "\n".join([head, ground, *self.parts, "</svg>"]) + "\n"


def along(points, distance):
    """The point so far before the end of the curve, and the direction there."""
    for (a, b), (c, d) in zip(reversed(points[:-1]), reversed(points[1:])):
        step = math.hypot(c - a, d - b)
        if step >= distance and step > 0:
            return (c + (a - c) * distance / step, d + (b - d) * distance / step), ((c - a) / step, (d - b) / step)
        distance -= step
    return points[0], (1.0, 0.0)


def draw_relation(picture, points, kind):
    colour, sign = KINDS[kind]
    is_condition = kind == "condition"
    tip, (dx, dy) = along(points, 8.0 if is_condition else 0.0)
    back, _ = along(points, 18.0 if is_condition else 10.0)
    picture.line([p for p in points if math.hypot(p[0] - points[-1][0], p[1] - points[-1][1]) > 9] + [back], colour)
    picture.shape([tip, (back[0] - 4.5 * dy, back[1] + 4.5 * dx), (back[0] + 4.5 * dy, back[1] - 4.5 * dx)], colour)
    if is_condition:
        picture.dot(along(points, 4.2)[0], colour)
    if kind in ("response", "cancel"):
        picture.dot(points[0], colour)
    if sign:
        (x, y), _ = along(points, 19.0)
        picture.parts.append('<circle cx="%.1f" cy="%.1f" r="7" fill="#ffffff" stroke="%s"/>' % (x, y, colour))
        picture.text(x, y + 4, sign, 11, fill=colour, weight="bold")


def draw_box(picture, case, box, events):
    if box.inside:
        picture.box(box.x, box.y, box.width, box.height, "#f7f7f7", "#888888", corner=9)
        picture.text(box.x + 12, box.y + 18, ", ".join(filter(None, (" ".join(box.lines), " ".join(box.notes)))), 12, "start", "#444444", "bold")
        for it in box.inside:
            draw_box(picture, case, it, events)
        return
    own, dashed = owners(case, box.name), box.name not in case.included
    picture.group(box.name)
    picture.box(box.x, box.y, box.width, box.height, dashed=dashed)
    wide = (box.width - 2) / len(own)
    for k, site in enumerate(own):
        picture.box(box.x + 1 + k * wide, box.y + 1, wide, layout.HEAD - 1, colour_of(case, site), "none", corner=4)
        picture.text(box.x + 1 + (k + 0.5) * wide, box.y + 13, site, 10, fill="#333333")
    for k, line in enumerate(box.lines):
        picture.text(box.x + box.width / 2, box.y + layout.HEAD + 14 + k * layout.LINE, line)
    for k, line in enumerate(box.notes, len(box.lines)):
        picture.text(box.x + box.width / 2, box.y + layout.HEAD + 13 + k * layout.LINE, line, 10, fill="#666666")
    if events[box.name].get("label", box.name) != box.name:
        picture.text(box.x + 7, box.y + box.height - 5, box.name, 9, "start", "#888888")
    picture.text(box.x + box.width - 7, box.y + box.height - 5, marks_of(case, box.name), 13, "end", "#1f78b4", "bold")
    picture.group(None)


def draw_legend(picture, case, y):
    x = 0.0
    for kind in KINDS:
        if any(it[0] == kind for it in case.written):
            draw_relation(picture, [(x + k, y) for k in range(0, 45, 3)], kind)
            picture.text(x + 50, y + 4, kind, 11, "start")
            x += 70 + 6.6 * len(kind)
    x, y = 0.0, y + 24
    for site, _ in case.sites:
        picture.box(x, y - 9, 14, 14, colour_of(case, site), corner=3)
        picture.text(x + 20, y + 2, site, 11, "start")
        x += 44 + 6.8 * len(site)
    if not picture.has_groups and any(atom not in case.included for atom in case.atoms):
        picture.box(x, y - 9, 22, 14, dashed=True, corner=3)
        picture.text(x + 28, y + 2, "excluded at opening", 11, "start")


def draw_own(case, has_groups=False):
    """The picture of a case, by a layout of its own."""
    events = {event["name"]: event for event in case.events}
    tops, pairs = layout.boxes(case.events, lambda name: roles_of(case, name)), [(a, b) for kind, a, b in case.written if kind != "exclude"]
    layout.settle(tops, pairs)
    everything = [it for top in tops for it in top.all()]
    by_name, picture, taken = {it.name: it for it in everything}, Picture(has_groups), []
    for top in tops:
        draw_box(picture, case, top, events)
    for kind, a, b in sorted({tuple(it) for it in case.written}, key=lambda it: [list(it) for it in case.written].index(list(it))):
        points = layout.loop(by_name[a]) if a == b else layout.route(by_name[a], by_name[b], everything, taken)
        taken.append(points)
        draw_relation(picture, points, kind)
    draw_legend(picture, case, picture.most[1] + 34)
    return picture.svg()


# ---- Graphviz text


SIGNS = {"condition": "→•", "response": "•→", "include": "→+", "exclude": "→%", "milestone": "→◆", "cancel": "•→×"}


def dot_legend(case):
    """The legend as Graphviz text: the kinds that there are with their signs, and the marks that an event may show."""
    cells = ['<td><font color="%s">%s %s</font></td>' % (KINDS[kind][0], SIGNS[kind], kind) for kind in KINDS if any(it[0] == kind for it in case.written)]
    cells += ["<td>%s</td>" % escaped(said) for said in ("✓ executed", "! pending", "dashed: excluded at opening")]
    return '<<table border="0" cellspacing="10"><tr>%s</tr></table>>' % "".join(cells)


def dot_atom(case, event):
    """An atom as Graphviz text: its sites at its head, its label, its roles, its name where that is another text, and its marks."""
    name, own = event["name"], owners(case, event["name"])
    label = event.get("label", name)
    heads = "".join('<td bgcolor="%s">%s</td>' % (colour_of(case, site), escaped(site)) for site in own)
    rows = '<tr><td colspan="%d">%s %s</td></tr>' % (len(own), escaped(label), marks_of(case, name))
    if roles_of(case, name):
        rows += '<tr><td colspan="%d"><font point-size="10" color="#666666">%s</font></td></tr>' % (len(own), escaped(roles_of(case, name)))
    if label != name:
        rows += '<tr><td colspan="%d"><font point-size="9" color="#888888">%s</font></td></tr>' % (len(own), escaped(name))
    border = ' style="dashed"' if name not in case.included else ""
    return '"%s" [label=<<table border="1" cellborder="0" cellspacing="0"%s><tr>%s</tr>%s</table>>];' % (name, border, heads, rows)


def dot_of(case):
    """The case as Graphviz text. A nest is a cluster, and an end of a relation that is a nest lies at one of its atoms;
    where the other end is the nest too or in it, at a node that stands for all that is in the nest."""
    lines = ["digraph {", "compound=true; rankdir=LR; fontname=Helvetica; fontsize=12; node [shape=plaintext, fontname=Helvetica, fontsize=12]; edge [arrowsize=0.8, fontname=Helvetica];"]
    lines.append("labelloc=b; label=%s;" % dot_legend(case))
    parents = {event.get("parent") for event in case.events}
    whole = {end for _, a, b in case.written for end, other in ((a, b), (b, a)) if end in parents and end in case.line_of(other)}

    def quoted(text):
        return '"%s"' % text.replace("\\", "\\\\").replace('"', '\\"').replace("\n", "\\n")

    def add(event):
        name = event["name"]
        if name not in parents:
            lines.append(dot_atom(case, event))
            return
        label, roles = event.get("label", name), roles_of(case, name)
        title = ", ".join(filter(None, (label if label == name else "%s (%s)" % (label, name), roles)))
        lines.append('subgraph "cluster_%s" { label=%s; labelloc=t; style=rounded; color="#888888";' % (name, quoted(title)))
        if name in whole:
            lines.append('"@%s" [shape=box, style="rounded,dashed", color="#888888", fontcolor="#666666", label=%s];' % (name, quoted("all of " + name)))
        for child in case.events:
            if child.get("parent") == name:
                add(child)
        lines.append("}")

    for event in case.events:
        if event.get("parent") is None:
            add(event)
    for kind, a, b in case.written:
        colour, sign = KINDS[kind]
        more = ["color=%s fontcolor=%s" % (json.dumps(colour), json.dumps(colour))]
        more += ["label=%s" % json.dumps(sign, ensure_ascii=False)] if sign else []
        more += ["arrowhead=dotnormal"] if kind == "condition" else []
        more += ["dir=both arrowtail=dot"] if kind in ("response", "cancel") else []
        ends = []
        for end, other, word in ((a, b, "ltail"), (b, a, "lhead")):
            is_whole = end in parents and end in case.line_of(other)
            ends.append("@" + end if is_whole else case.below(end)[0])
            more += ['%s="cluster_%s"' % (word, end)] if end in parents and not is_whole else []
        lines.append('"%s" -> "%s" [%s];' % (*ends, " ".join(more)))
    return "\n".join([*lines, "}"]) + "\n"


# ---- the run of a report


class Run:
    """The run that a report tells: its case at the opening marking, and its entries."""

    def __init__(self, report):
        lines = report.split("\n")
        file = {"version": lines[0][4:], "graph": json.loads(lines[1][6:]), "cover": json.loads(lines[2][6:])}
        self.case = Case(json.dumps(file))
        words = lines[3].split(" ")[2::2]
        self.case.executed, self.case.pending, self.case.included = ({*it.split(",")} - {"-"} for it in words)
        self.lines = [it for it in lines[4:] if it[:1].isdigit()]
        self.verdict = next(it for it in lines if it.startswith("verdict "))

    def entries(self):
        """Each entry: its session, the call's words, the outcome, and what the execution changed."""
        for line in self.lines:
            words = line.split(" ")
            size = {"exec": 3, "look": 2, "enabled": 2, "accepting": 1}[words[3]]
            call, outcome = words[3 : 3 + size], " ".join(words[3 + size :])
            before = (self.case.executed, self.case.pending, self.case.included)
            if call[0] == "exec" and outcome == "done":
                self.case.step(call[2])
            after = (self.case.executed, self.case.pending, self.case.included)
            yield words[1], call, outcome, self.changes(before, after)

    def changes(self, before, after):
        found = []
        for name, old, new in zip(("executed", "pending", "included"), before, after):
            for sign, those in (("+", new - old), ("−", old - new)):
                if those:
                    found.append("%s %s %s" % (sign, name, ", ".join(sorted(those, key=self.case.number.get))))
        return "; ".join(found)


def shortened(text, most):
    return text if len(text) <= most else text[: most - 1] + "…"


def in_lines(text, most=110):
    """The text in lines of about so many characters, broken behind commas and between words."""
    lines = [""]
    for piece in text.replace(",", ",\0").replace(" ", " \0").split("\0"):
        if lines[-1] and len(lines[-1]) + len(piece) > most:
            lines.append("")
        lines[-1] += piece
    return [it.rstrip() for it in lines]


def draw_run(report):
    run, picture = Run(report), Picture()
    case = run.case
    column = {site: 40 + 170 * k for k, (site, _) in enumerate(case.sites)}
    right, last = 40 + 170 * len(column), None
    for site, x in column.items():
        picture.box(x, 0, 150, 24, colour_of(case, site))
        picture.text(x + 75, 16, site, 12, weight="bold")
    picture.text(right, 16, "what it changed, or what was answered", 11, "start", "#666666")
    lifelines, y = len(picture.parts), 38.0
    for session, call, outcome, changes in run.entries():
        if session != last:
            picture.text(0, y + 14, "session %s" % session, 10, "start", "#888888")
            last, y = session, y + 22
        is_done, answer = outcome == "done", changes if outcome == "done" else outcome
        if len(call) == 1:
            picture.box(column[case.sites[0][0]], y, 170 * len(column) - 20, 20, "#f4f4f4", "#bbbbbb")
            picture.text(column[case.sites[0][0]] + 85 * len(column) - 10, y + 14, call[0], 11)
        else:
            x = column[call[1]]
            also = [column[site] for site in owners(case, call[2]) if site != call[1]] if is_done else []
            for other in also:
                picture.line([(x + 75, y + 10), (other + 75, y + 10)], "#2a9134", dashed=True)
                picture.dot((other + 75, y + 10), "#2a9134")
            is_refused = call[0] == "exec" and not is_done
            picture.box(x, y, 150, 20, "#fdecec" if is_refused else "#e6f4e6" if is_done else "#f4f4f4", "#d62728" if is_refused else "#2a9134" if is_done else "#bbbbbb")
            picture.text(x + 75, y + 14, shortened(" ".join([*call[:1], *call[2:]]), 22), 11)
            answer = ("refused: " if is_refused else "") + answer
        told = in_lines(answer)
        for k, line in enumerate(told):
            picture.text(right + (12 if k else 0), y + 14 + 15 * k, line, 11, "start", "#d62728" if answer.startswith("refused") else "#222222")
        y += 27 + 15 * (len(told) - 1)
    lines = ['<line x1="%.1f" y1="24" x2="%.1f" y2="%.1f" stroke="#cccccc"/>' % (x + 75, x + 75, y) for x in column.values()]
    picture.parts[lifelines:lifelines] = lines
    picture.text(40, y + 16, run.verdict, 12, "start", weight="bold")
    return picture.svg()


# ---- the page


MOST_CALLS = 20_000


class Enabled:
    """Which atoms may be executed, kept from call to call."""

    def __init__(self, case):
        self.case = case
        self.guards = {atom: set() for atom in case.atoms}
        for kind in ("condition", "milestone"):
            for a, b in case.pairs[kind]:
                self.guards[a].add(b)
        self.sources = {kind: {} for kind in ("condition", "milestone")}
        for kind, found in self.sources.items():
            for a, b in case.pairs[kind]:
                found.setdefault(b, []).append(a)
        self.now = {atom for atom in case.atoms if self.may(atom)}

    def may(self, atom):
        case = self.case
        waits = any(it in case.included and it not in case.executed for it in self.sources["condition"].get(atom, ()))
        return atom in case.included and not waits and not any(it in case.included and it in case.pending for it in self.sources["milestone"].get(atom, ()))

    def changed(self, atoms):
        """The atoms that may be executed now and could not before, and the other way round, after these changed."""
        asked = set().union(atoms, *[self.guards[it] for it in atoms])
        found = {it for it in asked if self.may(it) != (it in self.now)}
        self.now = self.now ^ found
        return found


def page_data(run):
    """What a page knows of a run: the marks at opening, and of each call what it changed."""
    case = run.case

    def listed(atoms):
        return sorted(atoms, key=case.number.get)

    sites = []
    for name, owned in case.sites:
        conditions, milestones = case.sources("condition", owned), case.sources("milestone", owned)
        tracked = {"executed": owned | conditions, "pending": owned | milestones, "included": owned | conditions | milestones}
        sites.append({"name": name, "colour": colour_of(case, name), "owned": listed(owned), "tracked": {mark: listed(it) for mark, it in tracked.items()}})
    labels = {event["name"]: event["label"] for event in case.events if event.get("label", event["name"]) != event["name"]}
    enabled = Enabled(case)
    data = {"atoms": case.atoms, "labels": labels, "sites": sites, "verdict": run.verdict}
    data["open"] = {"executed": listed(case.executed), "pending": listed(case.pending), "included": listed(case.included), "enabled": listed(enabled.now)}
    data["calls"], before = [], (case.executed, case.pending, case.included)
    for session, call, outcome, changes in run.entries():
        after = (case.executed, case.pending, case.included)
        flips = {name: listed(old ^ new) for name, old, new in zip(("executed", "pending", "included"), before, after)}
        flips["enabled"] = listed(enabled.changed({it for own in flips.values() for it in own}))
        data["calls"].append({"session": session, "call": " ".join(call), "outcome": outcome, "changes": changes, "flips": {name: it for name, it in flips.items() if it}})
        before = after
    return data


def draw_page(case_text, report, name):
    """One page of HTML that needs nothing beside itself."""
    run, case = Run(report), read_case(case_text)
    if list(case.head())[1:3] != report.split("\n")[1:3]:
        raise Wrong("%s: it is the report of another case: its lines `graph` and `cover` are not those of the case" % name)
    if len(run.lines) > MOST_CALLS:
        raise Wrong("%s: it has %d calls, and a page takes %d" % (name, len(run.lines), MOST_CALLS))
    # (a report has no roles)
    run.case.policy = case.policy
    graph = draw_own(run.case, has_groups=True)
    data = json.dumps(page_data(run), ensure_ascii=False, separators=(",", ":")).replace("<", "\\u003c")
    with open(os.path.join(os.path.dirname(os.path.realpath(__file__)), "page.html"), encoding="utf-8") as file:
        page = file.read()
    for mark, text in (("GRAPH", graph), ("DATA", data), ("NAME", escaped(os.path.basename(name)))):
        page = page.replace("<!--%s-->" % mark, text)
    return page


def want_valid(report, name):
    status, line = replay.verdict(report)
    if status:
        raise Wrong("%s: %s: tools/explain.py tells what is wrong" % (name, line.strip()))


def drawn(way, names):
    if way in ("run", "page"):
        want_valid(read_bytes(names[-1]), names[-1])
        report = read_text(names[-1])
        return draw_run(report) if way == "run" else draw_page(read_bytes(names[0]), report, names[-1])
    case = read_case(read_bytes(names[0]))
    if way == "own" or way == "case" and not shutil.which("dot"):
        return draw_own(case)
    if way == "dot":
        return dot_of(case)
    return subprocess.run(["dot", "-Tsvg"], input=dot_of(case).encode(), stdout=subprocess.PIPE, stderr=subprocess.DEVNULL, check=True).stdout.decode()


@command(__doc__)
def main(words):
    if words[:1] not in (["case"], ["own"], ["dot"], ["run"], ["page"]) or len(words) != (3 if words[0] == "page" else 2):
        raise Usage
    try:
        print(drawn(words[0], words[1:]), end="")
    except Refused as refusal:
        raise Wrong("%s: dcr would refuse this: %s: tools/explain.py tells what is wrong" % (words[1], refusal)) from None
    return 0


if __name__ == "__main__":
    sys.exit(main(sys.argv[1:]))
