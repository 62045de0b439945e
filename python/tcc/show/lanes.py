"""Swim lanes of an anomaly, as SVG: each session a column, its transactions below one another, and the links between them.

What is drawn is chosen first (`scene`): long walks are one line, and of a cycle with many derived links the first ones. Then it is
laid out: a transaction is below those that its session or its reads put before it, and each row is as high as its highest box.
Labels move along their lines until they are free of one another.
"""
from dataclasses import dataclass, replace
from html import escape
from typing import Dict, List, NamedTuple, Sequence, Set, Tuple

from tcc.common.notes import Note
from tcc.judging.answers import place, session_of
from tcc.show.scene import Edge, Scene
from tcc.show.terms import Terms

MORE = ".."
GAP, CORNER = 4.4, 8.0  # between rows of boxes, in heights of letters; and of a round corner


class Box(NamedTuple):
    """A transaction where it is drawn: its lines, each with how it is set."""

    name: str
    x: float
    y: float
    width: float
    height: float
    lines: Tuple[Tuple[str, str], ...]

    @property
    def middle(self) -> float:
        return self.x + self.width / 2


@dataclass(frozen=True)
class Size:
    """How large things are drawn: a box, the room between columns, and that at the sides; how wide all would like to be."""

    box: float
    font: float
    gutter: float
    margin: float
    wish: float
    least: float
    pad: float = 8

    @property
    def letters(self) -> int:
        """How many letters a line of a box has room for."""
        return int((self.box - 2 * self.pad) / (self.font * 0.602))

    def for_columns(self, count: int) -> "Size":
        """The same with boxes as narrow as so many columns need, but no narrower than they may be."""
        gutter = self.gutter if count < 5 else self.gutter * 0.7
        box = (self.wish - 2 * self.margin - gutter * (count - 1)) / max(count, 1)
        return replace(self, box=max(self.least, min(self.box, box)), gutter=gutter)


def short(text: str, letters: int) -> str:
    """A text that has room; what is left out in the middle is two points."""
    if len(text) <= letters:
        return text
    keep = max(letters - len(MORE), 2)
    return text[:keep - keep // 2] + MORE + text[len(text) - keep // 2:]


def folded(text: str, letters: int) -> List[str]:
    """Words in lines that have room."""
    lines: List[str] = []
    for word in text.split():
        if lines and len(lines[-1]) + 1 + len(word) <= letters:
            lines[-1] += " " + word
        else:
            lines.append(short(word, letters))
    return lines


def lines_of(name: str, scene: Scene, terms: Terms, letters: int) -> Tuple[Tuple[str, str], ...]:
    """The lines of a transaction's box."""
    part = [("part", line) for line in folded(scene.parts.get(name, ""), letters)]
    if name == "init":
        told = terms.initial(scene.keys.get(name, ()))
        return (("name", "before all transactions"), ("meta", short(told or "nothing is written", 60)),
                *([("part", scene.parts[name])] if name in scene.parts else []))
    note = terms.notes.get(name, Note())
    meta = folded(terms.found(name), letters)
    known = [form % part for form, part in (("index %s", note.index), ("%s s", shortened(note.time)), ("at %s", note.node)) if part]
    meta += folded(", ".join(one for one in known if one != terms.found(name)), letters)
    meta += folded(note.note, letters)[:2]
    if not terms.is_committed(name):
        meta.append("aborted")
    shown, hidden = terms.operations(name, scene.keys.get(name, ()))
    more = [("meta", "and %d more" % hidden)] if hidden else []
    return (("name", short(name, letters)), *[("meta", line) for line in meta],
            *[("operation", short(fitting(line, letters), letters)) for line in shown], *more, *part)


def fitting(operation: str, letters: int) -> str:
    """What a transaction did, in one letter where there is no room for the word."""
    word, _, what = operation.partition(" ")
    return operation if len(operation) <= letters else "%s %s" % (word[0], what)


def shortened(time: str) -> str:
    """A time to the millisecond."""
    try:
        return "%.3f" % float(time) if time else ""
    except ValueError:
        return time


def depths(scene: Scene) -> Dict[str, int]:
    """The row of each transaction: below all that come before it; on a circle by session and place."""
    labels = [name for name in scene.labels() if name != "init"]
    before: Dict[str, Set[str]] = {name: set() for name in labels}
    for one, other in zip(labels, labels[1:]):
        if session_of(one) == session_of(other):
            before[other].add(one)
    for edge in scene.edges:
        if edge.kind in ("session", "reads", "version", "walk", "against", "fault", "breach") and edge.source != "init" and edge.source != edge.target:
            before[edge.target].add(edge.source)
    depth: Dict[str, int] = {}
    left = list(labels)
    while left:
        free = next((name for name in left if all(one in depth for one in before[name])), left[0])
        above = [depth[one] for one in before[free] if one in depth]
        depth[free] = max(above, default=-1) + 1
        left.remove(free)
    return depth


Point = Tuple[float, float]
Line = Tuple[float, float, float, float]


def cuts(one: Line, other: Line) -> bool:
    return one[0] < other[2] and other[0] < one[2] and one[1] < other[3] and other[1] < one[3]


@dataclass
class Picture:
    """A scene that is laid out."""

    scene: Scene
    size: Size
    boxes: Dict[str, Box]
    heads: List[Tuple[str, float]]
    width: float
    height: float

    def svg(self, name: str, about: str) -> str:
        """The text of the picture; the ids in it begin with its name."""
        out = ['<svg class="lanes" role="group" aria-label="%s" viewBox="0 0 %d %d" width="%d" height="%d" font-size="%g">' % (
            escape(about, True), self.width, self.height, self.width, self.height, self.size.font)]
        out.append(MARKERS % {"name": name})
        for session, middle in self.heads:
            top = 1.9 * self.size.font
            out.append('<line class="rail" x1="%g" y1="%g" x2="%g" y2="%g"/>' % (middle, top, middle, self.height - 6))
            out.append('<text class="head" x="%g" y="%g"><title>session %s</title>%s</text>' % (
                middle, 1.3 * self.size.font, escape(session), escape(short(session, self.size.letters))))
        lines = [self.line(edge, name) for edge in self.scene.edges]
        out += [line for line, _, _ in lines]
        out += [self.box(one) for one in self.boxes.values()]
        taken: List[Line] = [(one.x, one.y, one.x + one.width, one.y + one.height) for one in self.boxes.values()]
        out += [self.label(edge, points, taken) for edge, (_, points, _) in zip(self.scene.edges, lines)]
        return "\n".join(out + ["</svg>"])

    def box(self, one: Box) -> str:
        step = self.size.font * 1.32
        told = []
        for number, (kind, line) in enumerate(one.lines):
            told.append('<text class="%s" x="%g" y="%g">%s</text>' % (
                kind, one.x + self.size.pad, one.y + self.size.pad + step * (number + 0.78), escape(line)))
        return '<g class="box"><title>%s</title><rect x="%g" y="%g" width="%g" height="%g" rx="4"/>%s</g>' % (
            escape(one.name), one.x, one.y, one.width, one.height, "".join(told))

    def line(self, edge: Edge, name: str) -> Tuple[str, List[Point], str]:
        """The line of an edge, and where its label may be."""
        path, points = self.path(edge)
        shape = '<path d="%s" marker-end="url(#%s-%s)"/>' % (path, name, edge.kind)
        if edge.kind == "derived":  # two lines: a thick one, and a thin one in it
            shape = '<path class="outer" d="%s"/><path class="inner" d="%s" marker-end="url(#%s-derived)"/>' % (path, path, name)
        return ('<g class="link %s" data-link="%d"><path class="wide" d="%s"/>%s</g>' % (edge.kind, edge.number, path, shape),
                points, path)

    def path(self, edge: Edge) -> Tuple[str, List[Point]]:
        one, other = self.boxes[edge.source], self.boxes[edge.target]
        if edge.source == edge.target:
            x, y = one.x + one.width, one.y + one.height / 2
            return curve((x, y - 10), (x + 44, y - 30), (x + 44, y + 30), (x, y + 10))
        if edge.source == "init" or edge.target == "init":
            return self.path_of_init(edge, one, other)
        if one.x == other.x:
            return self.path_in_lane(edge, one, other)
        return self.path_across(edge, one, other)

    def path_of_init(self, edge: Edge, one: Box, other: Box) -> Tuple[str, List[Point]]:
        box = other if edge.source == "init" else one
        init = self.boxes["init"]
        is_blocked = any(each.x == box.x and init.y < each.y < box.y for each in self.boxes.values())
        if is_blocked:  # around what is between
            side = -1 if edge.kind == "session" else 1
            x = box.x if side < 0 else box.x + box.width
            out = x + side * self.size.margin * 0.62
            points = ((x - side * 12, init.y + init.height), (out, init.y + init.height + 30), (out, box.y + box.height * 0.2 - 20),
                      (x, box.y + box.height * 0.5))
        else:
            shift = {"session": -0.3, "against": 0.0, "derived": 0.3}.get(edge.kind, 0.15) * box.width
            x = box.middle + shift
            points = ((x, init.y + init.height), (x, init.y + init.height + 12), (x, box.y - 12), (x, box.y))
        return curve(*(points if edge.source == "init" else points[::-1]))

    def path_in_lane(self, edge: Edge, one: Box, other: Box) -> Tuple[str, List[Point]]:
        is_down = other.y > one.y
        upper, lower = (one, other) if is_down else (other, one)
        is_next = not any(each.x == one.x and upper.y < each.y < lower.y for each in self.boxes.values())
        if edge.kind in ("session", "walk") and is_next:
            x = one.middle
            return curve((x, upper.y + upper.height), (x, upper.y + upper.height + 4), (x, lower.y - 4), (x, lower.y))
        side = -1 if edge.kind in ("derived",) else 1
        x = one.x if side < 0 else one.x + one.width
        bend = side * self.size.margin * 0.9
        begin, end = (x, one.y + one.height * 0.6), (x, other.y + other.height * 0.4)
        return curve(begin, (x + bend, begin[1]), (x + bend, end[1]), end)

    def path_across(self, edge: Edge, one: Box, other: Box) -> Tuple[str, List[Point]]:
        side = 1 if other.x > one.x else -1
        begins = {"derived": 0.62 if side > 0 else 0.86, "against": 0.36, "reads": 0.5}
        ends = {"derived": 0.62 if side > 0 else 0.86, "against": 0.66, "reads": 0.34}
        begin = (one.x + one.width if side > 0 else one.x, one.y + one.height * begins.get(edge.kind, 0.5))
        end = (other.x if side > 0 else other.x + other.width, other.y + other.height * ends.get(edge.kind, 0.5))
        reach = max(min(abs(end[0] - begin[0]) * 0.5, 160), self.size.gutter * 0.55)
        ways = [(begin, (begin[0] + side * reach, begin[1]), (end[0] - side * reach, end[1]), end)]
        if other.y > one.y + one.height:  # on to its column and down, or down and on to its side
            x, low = other.middle, one.middle
            ways.append((begin, (x, begin[1]), (x, begin[1]), (x, other.y)))
            ways.append(((low, one.y + one.height), (low, end[1]), (low, end[1]), end))
            ways.append(((low, one.y + one.height), (low, end[1] * 1.08), (low, end[1]), end))
        elif other.y + other.height < one.y:  # up and on to its side, or on to its column and up
            x, high = other.middle, one.middle
            ways.append(((high, one.y), (high, end[1]), (high, end[1]), end))
            ways.append((begin, (x, begin[1]), (x, begin[1]), (x, other.y + other.height)))
        best = min(ways, key=lambda way: self.covered(way, one, other))
        if self.covered(best, one, other) == 0:
            return curve(*best)
        return self.path_around(edge, begin, end, side, other)

    def path_around(self, edge: Edge, begin: Point, end: Point, side: int, other: Box) -> Tuple[str, List[Point]]:
        """Between the columns and between the rows, where no box is."""
        room = {"derived": 0.55, "against": 0.35}.get(edge.kind, 0.2)
        gap = GAP * self.size.font
        across = other.y - gap * room if begin[1] < other.y else other.y + other.height + gap * room
        first, last = begin[0] + side * self.size.gutter * room, end[0] - side * self.size.gutter * room
        points = [begin, (first, begin[1]), (first, across), (last, across), (last, end[1]), end]
        return rounded(points), [(first + (last - first) * part, across) for part in (0.5, 0.35, 0.65, 0.2, 0.8)]

    def covered(self, way: Sequence[Point], one: Box, other: Box) -> int:
        """How many points of a curve lie in another box than those two."""
        return sum(each.x < x < each.x + each.width and each.y < y < each.y + each.height
                   for x, y in (at(way, step / 32) for step in range(1, 32)) for each in self.boxes.values()
                   if each.name not in (one.name, other.name))

    def label(self, edge: Edge, points: List[Point], taken: List[Line]) -> str:
        """The text at an edge, with its number, where nothing else is; the number alone where there is no room."""
        texts = ["%d. %s" % (edge.number, short(edge.label, 24)), "%d" % edge.number] if edge.label else ["%d" % edge.number]
        font = self.size.font * 0.92
        found = [self.room(text, font, points, taken) for text in texts]
        overlap, frame, text = next((one for one in found if one[0] <= 40), min(found, key=lambda one: one[0]))
        taken.append(frame)
        return ('<g class="link label %s" data-link="%d" tabindex="0" role="button" aria-label="%s"><title>%s</title>'
                '<rect x="%g" y="%g" width="%g" height="%g" rx="3"/><text x="%g" y="%g" font-size="%g">%s</text></g>' % (
                    edge.kind, edge.number, escape(edge.told, True), escape(edge.told), frame[0], frame[1], frame[2] - frame[0],
                    frame[3] - frame[1], (frame[0] + frame[2]) / 2, frame[3] - 0.42 * font, font, escape(text)))

    def room(self, text: str, font: float, points: List[Point], taken: List[Line]) -> Tuple[float, Line, str]:
        """Where at some points a text has most room, and how much of something else it covers there."""
        width, height = len(text) * font * 0.602 + 8, font * 1.4
        best: Tuple[float, Line, str] = (float("inf"), (0.0, 0.0, 0.0, 0.0), text)
        for x, y in points:
            for across, down in ((0.0, 0.0), (0.0, -0.7 * height), (0.0, 0.7 * height), (-0.4 * width, 0.0), (0.4 * width, 0.0)):
                left = min(max(x - width / 2 + across, 1), self.width - width - 1)
                top = min(max(y - height / 2 + down, 1), self.height - height - 1)
                frame = (left, top, left + width, top + height)
                overlap = sum(area(frame, other) for other in taken)
                if overlap < best[0]:
                    best = overlap, frame, text
            if best[0] == 0:
                break
        return best


def area(one: Line, other: Line) -> float:
    if not cuts(one, other):
        return 0.0
    return (min(one[2], other[2]) - max(one[0], other[0])) * (min(one[3], other[3]) - max(one[1], other[1]))


def at(points: Sequence[Point], t: float) -> Point:
    """A point of a curve of Bezier."""
    u = 1 - t
    x, y = (u * u * u * points[0][i] + 3 * u * u * t * points[1][i] + 3 * u * t * t * points[2][i] + t * t * t * points[3][i] for i in (0, 1))
    return x, y


def rounded(points: Sequence[Point]) -> str:
    """A line by some points, with round corners."""
    out = ["M%.1f %.1f" % points[0]]
    for before, corner, after in zip(points, points[1:], points[2:]):
        (x1, y1), (x2, y2) = (toward(corner, other) for other in (before, after))
        out.append("L%.1f %.1fQ%.1f %.1f %.1f %.1f" % (x1, y1, *corner, x2, y2))
    return "".join(out) + "L%.1f %.1f" % points[-1]


def toward(one: Point, other: Point) -> Point:
    """A point near one, on the way to another."""
    far = max(abs(other[0] - one[0]), abs(other[1] - one[1]))
    part = min(CORNER, far / 2) / far if far else 0.0
    return one[0] + (other[0] - one[0]) * part, one[1] + (other[1] - one[1]) * part


def curve(*points: Point) -> Tuple[str, List[Point]]:
    """A curve of Bezier, and points on it from its middle outwards."""
    text = "M%.1f %.1fC%.1f %.1f %.1f %.1f %.1f %.1f" % tuple(one for point in points for one in point)
    return text, [at(points, t) for t in (0.5, 0.42, 0.58, 0.34, 0.66, 0.26, 0.74, 0.18, 0.82)]


KINDS = ("session", "reads", "version", "walk", "derived", "against", "fault", "breach")
MARKERS = "<defs>%s</defs>" % "".join(
    '<marker id="%%(name)s-%s" class="%s" viewBox="0 0 10 10" refX="9" refY="5" markerUnits="userSpaceOnUse" markerWidth="11" '
    'markerHeight="11" orient="auto"><path d="M0 1L10 5L0 9%s"/></marker>' % (kind, kind, "z" if kind != "derived" else "") for kind in KINDS)


def picture(scene: Scene, terms: Terms, size: Size) -> Picture:
    """Lays a scene out."""
    labels = scene.labels()
    depth = depths(scene)
    sessions = list(dict.fromkeys(session_of(name) for name in sorted(depth, key=lambda name: (depth[name], place(name)))))
    size = size.for_columns(len(sessions))
    lines = {name: lines_of(name, scene, terms, 60 if name == "init" else size.letters) for name in labels}
    step = size.font * 1.32
    heights = {name: len(told) * step + 2 * size.pad for name, told in lines.items()}
    gap = GAP * size.font
    width = 2 * size.margin + size.box * len(sessions) + size.gutter * (len(sessions) - 1)
    y = 2.4 * size.font
    boxes: Dict[str, Box] = {}
    if "init" in labels:
        boxes["init"] = Box("init", size.margin, y, width - 2 * size.margin, heights["init"], lines["init"])
        y += heights["init"] + gap
    for row in range(max(depth.values(), default=-1) + 1):
        mine = [name for name in labels if depth.get(name) == row]
        for name in mine:
            x = size.margin + (size.box + size.gutter) * sessions.index(session_of(name))
            boxes[name] = Box(name, x, y, size.box, heights[name], lines[name])
        y += max((heights[name] for name in mine), default=0.0) + gap
    heads = [(session, size.margin + (size.box + size.gutter) * number + size.box / 2) for number, session in enumerate(sessions)]
    return Picture(scene, size, boxes, heads, width, y - gap + 14)
