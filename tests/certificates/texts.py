"""The text of a certificate, read slowly: what it says, or its first fault.

Written from docs/FORMATS.md alone. What a text says is a dictionary: its `version`, `level` and `kind`, and by their names there the
numbers, links, tables and runs of its claim.
"""
import re

# What a number may be, or a key.
COUNT, NUMBER, SESSIONS, SESSION, RUNS, LENGTH, COST, KEY = range(8)
HEADER_BYTES = 8191
VERSION_1 = {"bytes": 8191, COUNT: (1, 1024), NUMBER: (0, 1023), SESSIONS: (0, 64), COST: (0, 1049600)}
VERSION_2 = {"bytes": 36863, COUNT: (1, 4096), NUMBER: (0, 4095), SESSIONS: (0, 64), COST: (0, 16781312)}
VERSION_3 = {"bytes": 127, COUNT: (1, 16777216), NUMBER: (0, 16777215), SESSIONS: (0, 65535), SESSION: (0, 65534),
             RUNS: (0, 16777215), LENGTH: (1, 16777215), COST: (0, 4294967295)}
RANGES = {1: VERSION_1, 2: VERSION_2, 3: VERSION_3}
HEADERS = {b"tcc-certificate 1": (1, "causal"), b"tcc-certificate 1 atomic": (1, "atomic"),
           b"tcc-certificate 2 causal": (2, "causal"), b"tcc-certificate 2 atomic": (2, "atomic"),
           b"tcc-certificate 3 causal": (3, "causal"), b"tcc-certificate 3 atomic": (3, "atomic")}
NAME = re.compile(rb"[A-Za-z0-9_.-]{1,32}")
DECIMAL = re.compile(rb"0|[1-9][0-9]*")
STEPS = {"S": (NUMBER, NUMBER), "R": (NUMBER, NUMBER, KEY)}
LINKS = dict(STEPS, D=(NUMBER, NUMBER, KEY, NUMBER, COUNT))
SIZES = {"order": (COUNT, SESSIONS), "cycle": (COUNT, COUNT, COST)}
LARGE_SIZES = {"order": (COUNT, SESSIONS, RUNS), "cycle": (COUNT, COUNT, COST)}


class Fault(Exception):
    """The first line of a text that no certificate has, and the kind of its fault."""


class Lines:
    """The lines of a text, one after the other."""

    def __init__(self, text):
        self.left, self.number, self.ranges = text, 0, None

    def fail(self, kind):
        raise Fault(self.number, kind)

    def next(self):
        self.number += 1
        line, feed, self.left = self.left.partition(b"\n")
        if len(line) > (self.ranges["bytes"] if self.ranges else HEADER_BYTES):
            self.fail("TooLarge")
        return line if feed else self.fail("Truncated")

    def value(self, word, what):
        """The value of a word: a key, or a number of some range."""
        if what == KEY:
            return word.decode() if NAME.fullmatch(word) else self.fail("Word")
        least, most = self.ranges[what]
        if not DECIMAL.fullmatch(word) or int(word) < least:
            self.fail("Number")
        return int(word) if int(word) <= most else self.fail("TooLarge")

    def values(self, words, wanted):
        if len(words) != len(wanted):
            self.fail("Count")
        return [self.value(word, what) for word, what in zip(words, wanted)]

    def form(self, **forms):
        """The first word of a line, and the values of the others by the form of lines that begin so."""
        first, *words = self.next().split(b" ")
        if first.decode("latin-1") not in forms:
            self.fail("Word")
        return [first.decode(), *self.values(words, forms[first.decode()])]

    def numbers(self, *wanted):
        """The values of a line that begins with no word."""
        line = self.next()
        return self.values(line.split(b" ") if line else [], wanted)


def read(text, versions=(1, 2)):
    """What a text says, or its first fault, for who takes these versions."""
    lines = Lines(text)
    version, level = HEADERS.get(lines.next(), (None, None))
    if version not in versions:
        lines.fail("Header")
    lines.ranges = RANGES[version]
    said = {"version": version, "level": level, **(large_claim(lines) if version == 3 else small_claim(lines, version, level))}
    if lines.left:
        raise Fault(lines.number + 1, "Trailing")
    return said


def small_claim(lines, version, level):
    """What versions 1 and 2 say after the first line."""
    kind, count, *rest = lines.form(**SIZES)
    said = {"kind": kind, "count": count}
    if kind == "order":
        said.update(sessions=rest[0], order=lines.numbers(*[NUMBER] * count))
        if level == "causal":
            lines.form(clocks=())
            said["clocks"] = [lines.numbers(*[NUMBER] * rest[0]) for _ in range(count)]
    else:
        said.update(cost=rest[1], links=[link_of(lines) for _ in range(rest[0])])
        lines.form(near=())
        said["near"] = [lines.numbers(*[COST] * count) for _ in range(count)]
        lines.form(far=())
        said["far"] = [lines.numbers(*[COST] * (count - lowest(version, s))) for s in range(count)]
    lines.form(end=())
    return said


def large_claim(lines):
    """The same of version 3."""
    kind, count, *rest = lines.form(**LARGE_SIZES)
    said = {"kind": kind, "count": count}
    if kind == "order":
        said.update(sessions=rest[0], runs=runs_of(lines, rest[1]))
        return said
    said.update(cost=rest[1], links=[link_of(lines) for _ in range(rest[0])], least=None)
    tail, *many = lines.form(least=(RUNS,), end=())
    if tail == "least":
        said["least"] = runs_of(lines, many[0])
    return said


def runs_of(lines, many):
    """So many runs, each a session and a length, and the last line."""
    runs = [tuple(lines.numbers(SESSION, LENGTH)) for _ in range(many)]
    lines.form(end=())
    return runs


def link_of(lines):
    link = lines.form(**LINKS)
    return link[:-1] + [[lines.form(**STEPS) for _ in range(link[-1])]] if link[0] == "D" else link


def lowest(version, start):
    """From which number on a row of `far` has distances."""
    return 0 if version == 1 else start
