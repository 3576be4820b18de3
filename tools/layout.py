"""Where the events of a case stand on a picture, and how the relations between them run."""

import math

WIDTH, HEAD, LINE, FOOT = 144, 18, 15, 16
GAP_X, GAP_Y, PAD, TITLE = 96, 44, 22, 24
STEPS = 48


class Box:
    """An event, or a nest with what is in it: its place and its size."""

    def __init__(self, name, lines, notes, inside):
        self.name, self.lines, self.notes, self.inside, self.parent = name, lines, notes, inside, None
        self.x = self.y = 0.0
        self.width, self.height = float(WIDTH), float(HEAD + LINE * (len(lines) + len(notes)) + FOOT)
        for it in inside:
            it.parent = self

    def all(self):
        yield self
        for it in self.inside:
            yield from it.all()

    def move(self, x, y):
        for it in self.all():
            it.x, it.y = it.x + x, it.y + y

    def middle(self):
        return self.x + self.width / 2, self.y + self.height / 2

    def has(self, point, room=0.0):
        return self.x - room <= point[0] <= self.x + self.width + room and self.y - room <= point[1] <= self.y + self.height + room

    def above(self):
        return [self] + (self.parent.above() if self.parent else [])


def wrapped(text, width=20):
    """The text in lines of about so many characters."""
    lines = [""]
    for word in text.split() or [text]:
        if lines[-1] and len(lines[-1]) + 1 + len(word) > width:
            lines.append("")
        lines[-1] = (lines[-1] + " " + word).strip()
    return lines[:4]


def boxes(events, noted):
    """The boxes of the events that have no parent, each with those that are in it, and what is noted of each, by its name."""
    children = {}
    for event in events:
        children.setdefault(event.get("parent"), []).append(event)

    def made(event):
        name, note = event["name"], noted(event["name"])
        return Box(name, wrapped(event.get("label", name)), wrapped(note, 23) if note else [], [made(it) for it in children.get(name, [])])

    return [made(it) for it in children.get(None, [])]


def ordered(level, pairs):
    """The boxes of a level in columns: each stands behind those earlier ones that lead to it."""
    place = {it.name: k for k, top in enumerate(level) for it in top.all()}
    leads = sorted({(place[a], place[b]) for a, b in pairs if a in place and b in place and place[a] < place[b]})
    column = [0] * len(level)
    for a, b in leads:
        column[b] = max(column[b], column[a] + 1)
    columns = [[k for k in range(len(level)) if column[k] == c] for c in range(max(column, default=-1) + 1)]
    row = {}
    for own in columns:
        before = {k: [row[a] for a, b in leads if b == k and a in row] for k in own}
        own.sort(key=lambda k: (sum(before[k]) / len(before[k]) if before[k] else 0, k))
        row.update({k: r - (len(own) - 1) / 2 for r, k in enumerate(own)})
    return [[level[k] for k in own] for own in columns]


def settle(level, pairs):
    """Gives the boxes of a level, and those in them, their places, and answers the width and the height."""
    for it in level:
        if it.inside:
            width, height = settle(it.inside, pairs)
            for inner in it.inside:
                inner.move(PAD, PAD + TITLE)
            it.width, it.height = width + 2 * PAD, height + 2 * PAD + TITLE
    columns, x = ordered(level, pairs), 0.0
    heights = [sum(it.height for it in own) + GAP_Y * (len(own) - 1) for own in columns]
    tallest = max(heights, default=0.0)
    for own, height in zip(columns, heights):
        wide, y = max(it.width for it in own), (tallest - height) / 2
        for it in own:
            it.move(x + (wide - it.width) / 2, y)
            y += it.height + GAP_Y
        x += wide + GAP_X
    return x - GAP_X, tallest


def curve(one, other, bend):
    """Points of the curve between two boxes' borders, bent sideways by so much."""
    (x, y), (u, v) = one.middle(), other.middle()
    if one in other.above():
        x, y = one.x, one.y + one.height / 2
    if other in one.above():
        u, v = other.x + other.width, other.y + other.height / 2
    far = math.hypot(u - x, v - y) or 1.0
    mid = ((x + u) / 2 - 2 * bend * (v - y) / far, (y + v) / 2 + 2 * bend * (u - x) / far)
    points = []
    for k in range(STEPS + 1):
        t = k / STEPS
        a, b, c = (1 - t) ** 2, 2 * t * (1 - t), t * t
        points.append((a * x + b * mid[0] + c * u, a * y + b * mid[1] + c * v))
    inside = [[it is not None and it.has(p) for p in points] for it in (None if one in other.above() else one, None if other in one.above() else other)]
    first = max((k for k in range(len(points)) if inside[0][k]), default=0)
    last = min((k for k in range(first, len(points)) if inside[1][k]), default=len(points) - 1)
    return [clipped(one, points[first], points[min(first + 1, len(points) - 1)])] + points[first + 1 : last] + [clipped(other, points[last], points[max(last - 1, 0)])]


def clipped(box, inner, outer):
    """The point between the two at which the box's border is crossed."""
    if not box.has(inner) or box.has(outer):
        return inner
    for _ in range(20):
        mid = ((inner[0] + outer[0]) / 2, (inner[1] + outer[1]) / 2)
        inner, outer = (mid, outer) if box.has(mid) else (inner, mid)
    return outer


def route(one, other, everything, taken):
    """The curve between two boxes that crosses the fewest others and runs beside those that were laid before."""
    mine = {*one.above(), *other.above()}
    others = [it for it in everything if it not in mine and not {*it.above()} & {one, other}]
    best, least = [], math.inf
    for bend in sorted(range(-260, 261, 13), key=abs):
        points = curve(one, other, bend)
        crossed = sum(it.has(p, 5) for it in others for p in points)
        near = sum(math.hypot(p[0] - q[0], p[1] - q[1]) < 11 for path in taken for q in path[3:-3:3] for p in points[3:-3:3])
        cost = 6 * crossed + 2 * near + abs(bend) / 13 + (8 if len(points) < 5 else 0)
        if cost < least:
            best, least = points, cost
    return best


def loop(box):
    """The curve of a relation of an event with itself, at a corner of its box."""
    x, y = box.x + box.width, box.y
    turn = [(x - 26 + 26 * math.cos(a), y - 26 * math.sin(a) + 8) for a in [math.pi * k / 24 for k in range(-6, 25)]]
    return list(reversed([p for p in turn if not box.has(p)]))
