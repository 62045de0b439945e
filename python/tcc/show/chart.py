"""Where in a run something lies: bars over time or rows, with the spans of what the nemesis did, as SVG."""
import math
from dataclasses import dataclass, field
from html import escape
from typing import Callable, Iterator, List, Optional

LANE, MOST_LANES = 16, 6  # the height of a lane of the nemesis, and how many there are
LETTER = 6.7  # the width of a letter there


@dataclass
class Span:
    """Something that went on for a while, or, without an end, happened once."""

    what: str
    begin: float
    end: Optional[float] = None


@dataclass
class Course:
    """A run: how long it is, in which unit, and at which places what lies."""

    end: float
    unit: str  # `s`, `row` or `line`
    contradicted: List[float]
    faults: List[float]
    spans: List[Span] = field(default_factory=list)
    begin: float = 0.0


def ticks(begin: float, end: float, most: int) -> List[float]:
    """Round places between two ends, at most so many."""
    if end <= begin:
        return [begin]
    raw = (end - begin) / most
    power = 10.0 ** math.floor(math.log10(raw))
    step = next(power * factor for factor in (1, 2, 5, 10) if power * factor >= raw)
    first = math.ceil(begin / step)
    return [step * number for number in range(first, int(end / step + 1e-9) + 1)]


def counted(places: List[float], course: Course, bins: int) -> List[int]:
    found = [0] * bins
    for one in places:
        found[min(int((one - course.begin) / (course.end - course.begin or 1) * bins), bins - 1)] += 1
    return found


def number_text(value: float) -> str:
    return "{:,}".format(int(value)) if value == int(value) else "%g" % value


def chart(course: Course, width: int, bins: int) -> str:
    """The picture, so wide and with so many bars."""
    left, right, top, plot = 40, 12, 14, 110
    lanes = list(dict.fromkeys(one.what for one in course.spans))[:MOST_LANES]
    band = 4 + LANE * len(lanes) if course.spans else 0
    height = top + plot + band + 34
    span = width - left - right
    bars, hatched = counted(course.contradicted, course, bins), counted(course.faults, course, bins)
    most = max([a + b for a, b in zip(bars, hatched)] + [1])

    def across(value: float) -> float:
        return left + span * (value - course.begin) / (course.end - course.begin or 1)

    def up(count: float) -> float:
        return top + plot - plot * count / most

    about = "%d contradicted reads%s over the run, at most %d in one bar" % (
        len(course.contradicted), " and %d that can't be judged" % len(course.faults) if course.faults else "", most)
    out = ['<svg class="chart" role="img" aria-label="%s" viewBox="0 0 %d %d" width="%d" height="%d" font-size="12">' % (
        escape(about, True), width, height, width, height)]
    out.append('<defs><pattern id="hatch%d" width="6" height="6" patternUnits="userSpaceOnUse" patternTransform="rotate(45)">'
               '<rect width="6" height="6" class="hatch-ground"/><path d="M0 0V6" class="hatch-line"/></pattern>'
               '<pattern id="dots%d" width="6" height="6" patternUnits="userSpaceOnUse"><circle cx="3" cy="3" r="1.4" '
               'class="hatch-dot"/></pattern></defs>' % (width, width))
    for value in sorted({0, *ticks(0, most, 3)}):
        if value == int(value):
            out.append('<line class="grid" x1="%d" y1="%.1f" x2="%d" y2="%.1f"/><text class="tick" text-anchor="end" x="%d" y="%.1f">%s</text>' % (
                left, up(value), width - right, up(value), left - 6, up(value) + 4, number_text(value)))
    out += spans_of(course, across, lanes, top, plot, width)
    for number, (bar, faults) in enumerate(zip(bars, hatched)):
        x, wide = left + span * number / bins + 0.5, max(span / bins - 1, 1)
        lower, upper = (course.begin + (course.end - course.begin) * (number + part) / bins for part in (0, 1))
        where = "%s to %s" % tuple("%.6g%s" % (one, " s" if course.unit == "s" else "") for one in (lower, upper))
        if course.unit != "s":
            where = "%ss %d to %d" % (course.unit, lower, upper)
        if bar or faults:
            out.append('<g><title>%s: %d contradicted%s</title>' % (where, bar, ", %d not judged" % faults if faults else ""))
            if bar:
                out.append('<rect class="bar" x="%.1f" y="%.1f" width="%.1f" height="%.1f"/>' % (
                    x, up(bar), wide, max(top + plot - up(bar), 1.5)))
            if faults:
                out.append('<rect class="bar-faults" fill="url(#dots%d)" x="%.1f" y="%.1f" width="%.1f" height="%.1f"/>' % (
                    width, x, up(bar + faults), wide, max(up(bar) - up(bar + faults), 1.5)))
            out.append("</g>")
    if course.contradicted:
        first = across(min(course.contradicted))
        anchor = "start" if first < width * 0.6 else "end"
        out.append('<path class="first" d="M%.1f %.1fV%d"/><text class="first" text-anchor="%s" x="%.1f" y="%d">first</text>' % (
            first, top - 2, top + plot, anchor, first + (4 if anchor == "start" else -4), top - 3))
    base = top + plot + band
    out += names_of(course, across, lanes, top + plot, width)
    out.append('<line class="axis" x1="%d" y1="%d" x2="%d" y2="%d"/>' % (left, top + plot, width - right, top + plot))
    for value in ticks(course.begin, course.end, 4 if width < 500 else 8):
        out.append('<path class="axis" d="M%.1f %dv5"/><text class="tick" text-anchor="middle" x="%.1f" y="%d">%s</text>' % (
            across(value), base, min(across(value), width - 22), base + 18, number_text(value) + (" s" if course.unit == "s" else "")))
    out.append('<text class="tick" text-anchor="middle" x="%.1f" y="%d">%s</text>' % (
        left + span / 2, base + 32, {"s": "seconds from the beginning of the run", "row": "rows of the records", "line": "lines of the history"}[course.unit]))
    return "\n".join(out + ["</svg>"])


def spans_of(course: Course, across: Callable[[float], float], lanes: List[str], top: int, plot: int, width: int) -> Iterator[str]:
    """What the nemesis did: a hatched ground, and below it a lane for each name; of too many the last ones share one."""
    for one in course.spans:
        x, end = across(one.begin), across(one.end if one.end is not None else one.begin)
        lane = top + plot + 4 + LANE * (lanes.index(one.what) if one.what in lanes else len(lanes) - 1)
        about = "%s, %s%s" % (escape(one.what), number_text(round(one.begin, 3)), "" if one.end is None else " to %s" % number_text(round(one.end, 3)))
        if one.end is not None:
            wide = max(end - x, 2)
            yield ('<g><title>%s</title><rect class="span" fill="url(#hatch%d)" x="%.1f" y="%d" width="%.1f" height="%d"/>'
                   '<rect class="span" fill="url(#hatch%d)" x="%.1f" y="%d" width="%.1f" height="%d"/></g>' % (
                       about, width, x, top, wide, plot, width, x, lane, wide, LANE - 4))
        else:
            yield '<g><title>%s</title><path class="event" d="M%.1f %dV%d"/></g>' % (about, x, top, lane + LANE - 4)


def names_of(course: Course, across: Callable[[float], float], lanes: List[str], base: int, width: int) -> Iterator[str]:
    """The name of each lane, where its first span begins, over all that is drawn."""
    others = len({one.what for one in course.spans}) - len(lanes)
    for number, name in enumerate(lanes):
        told = name + (" and %d others" % others if others and number == len(lanes) - 1 else "")
        x = across(next(one.begin for one in course.spans if one.what == name)) + 3
        room = int((width - 50) / LETTER)
        told = told if len(told) <= room else told[:room - 2] + ".."
        x = max(min(x, width - 12 - len(told) * LETTER), 42)
        yield '<text class="span-name" x="%.1f" y="%d">%s</text>' % (x, base + LANE * (number + 1) - 2, escape(told))
