"""What the files of records have that an earlier run left, and which values somebody read."""
import csv
import os
import re
from collections import Counter
from dataclasses import dataclass, field
from typing import Counter as Count, Dict, Iterable, Iterator, List, Optional, Set, Tuple

from tcc.common.appended import Appended, NoRecord, Path
from tcc.common.rows import NAME
from tcc.record.written import Written

# What a transaction wrote or read: a key and a value.
Pair = Tuple[str, int]
# A transaction before it has a label of its own: its session, and its place there.
Place = Tuple[str, int]
Operation = Tuple[str, str, int]
RECORD = re.compile(r"(%s),(?:(begin)|r,%s,[0-9]+|w,(%s),([0-9]+)|(commit|abort|unknown))\n" % ((NAME.pattern,) * 3))
# A line of the file beside: session, place, key and value of a write; when it was, and at which node.
PENDING_WRITE = re.compile(r"(%s),([0-9]+),(%s),([0-9]+)(?:,([0-9.]+),([^\n]*))?\n" % ((NAME.pattern,) * 2))
SEAL = "seal\n"
COMMITTED = b",commit\n"
ENDINGS = (COMMITTED, b",abort\n", b",unknown\n")
PENDING = ".pending"
NOTES = "transaction,node,time,note\n"


def text_of(session: str, operations: List[Operation], end: str) -> str:
    """The records of a transaction."""
    lines = ["%s,begin\n" % session, *("%s,%s,%s,%d\n" % (session, *one) for one in operations), "%s,%s\n" % (session, end)]
    return "".join(lines)


@dataclass
class UnderWay:
    """A transaction that hasn't ended: what it wrote so far, since when, and where. One that `is_noted` has annotations."""

    writes: List[Pair] = field(default_factory=list)
    time: float = 0.0
    node: str = ""
    is_noted: bool = False

    def text(self, session: str, end: str) -> str:
        """Its records, with an end."""
        return text_of(session, [("w", key, value) for key, value in self.writes], end)


@dataclass
class Known:
    """What the files have: how many transactions of each session, and the byte after the last whole one; by session and place
    those that haven't ended; and when the last thing was noted."""

    written: Written
    places: Count[str] = field(default_factory=Counter)
    end: int = 0
    unknown: Dict[Place, UnderWay] = field(default_factory=dict)
    sessions: Set[str] = field(default_factory=set)
    time: float = 0.0

    def has_write(self, key: str, value: int) -> None:
        if not self.written.has(key, value):
            self.written.add(key, value)

    def take_records(self, lines: Iterable[bytes], path: str) -> None:
        """Of the last transaction, where that isn't whole, it takes nothing but that its values were written."""
        begun: Dict[str, int] = {}
        at = last = 0
        for number, line in enumerate(lines, 1):
            at += len(line)
            text = line.decode("ascii", "replace")
            record = RECORD.fullmatch(text)
            if record is None and text != SEAL:
                if line.endswith(b"\n"):
                    raise NoRecord("%s, line %d is no record: nothing is recorded after it" % (path, number))
                break
            if record is not None:
                session, begin, key, value, end = record.groups()
                self.sessions.add(session)
                if begin:
                    begun[session] = number
                elif value:
                    self.has_write(key, int(value))
                elif end:
                    begun.pop(session, None)
                    self.places[session] += 1
                    last = number
            if not begun:
                self.end = at
        if begun and min(begun.values()) < last:
            raise NoRecord("%s: what begins in line %d doesn't end, and others after it do: nothing is recorded after them" % (
                path, min(begun.values())))

    def take_pending(self, lines: Iterable[bytes]) -> None:
        for write in filter(None, (PENDING_WRITE.fullmatch(line.decode("utf-8", "replace")) for line in lines)):
            session, place, key, value, time, node = write.groups()
            self.sessions.add(session)
            self.has_write(key, int(value))
            self.time = max(self.time, float(time or 0))
            if int(place) > self.places[session]:
                one = self.unknown.setdefault((session, int(place)), UnderWay())
                one.writes.append((key, int(value)))
                one.time, one.node = float(time or 0), node or ""

    def take_notes(self, notes: Appended) -> None:
        """The time of the last annotation, and which transactions of unknown outcome have one."""
        text = b"".join(notes.lines())
        size = text.rfind(b"\n") + 1
        whole = text[:size].decode("utf-8", "replace")
        if text and not whole.startswith(NOTES):
            raise NoRecord("%s: its first line isn't %s: annotations of another form are left alone" % (notes.path, NOTES.strip()))
        notes.cut(size)
        for row in csv.DictReader(whole.splitlines()):
            session, _, place = (row["transaction"] or "").rpartition("/")
            if place.isdecimal() and (session, int(place)) in self.unknown:
                self.unknown[session, int(place)].is_noted = True
            self.time = max(self.time, seconds(row["time"]))


def seconds(cell: Optional[str]) -> float:
    """The number of a cell, 0 if it has none."""
    try:
        return float(cell or 0)
    except ValueError:
        return 0.0


def lines_of(path: Path, size: Optional[int] = None) -> Iterator[bytes]:
    """The lines of a file, or those of its first bytes; of a last line that isn't whole its part."""
    with open(path, "rb") as file:
        for line in file:
            if size is not None:
                line = line[:size]
                size -= len(line)
            if not line:
                return
            yield line


def hint_of_pending(path: Path, read: Iterable[Pair]) -> str:
    """What to do where somebody read a value that is noted beside the records alone: its transaction hadn't ended when the recorder did.
    Empty where nobody did."""
    beside = os.fspath(path) + PENDING
    try:
        writes = [PENDING_WRITE.fullmatch(line.decode("utf-8", "replace")) for line in lines_of(beside)]
    except OSError:
        return ""
    noted = {(one.group(3), int(one.group(4))) for one in writes if one}
    if noted.isdisjoint(read):
        return ""
    return "%s notes who wrote what was read: transactions that hadn't ended when the recorder did. tcc-look -o whole.csv %s writes a history with them" % (
        beside, os.fspath(path))


def read_of(files: Iterable[Iterable[bytes]], wanted: Set[Pair]) -> Set[Pair]:
    """Which of these values committed transactions of some files read, each given by its lines."""
    found: Set[Pair] = set()
    texts = {b",r,%s,%d\n" % (key.encode(), value): (key, value) for key, value in wanted}
    for lines in files if texts else ():
        reads: Dict[bytes, List[Pair]] = {}  # of those that haven't ended
        for line in lines:
            at = line.find(b",")
            rest = line[at:]
            if rest in texts:
                reads.setdefault(line[:at], []).append(texts[rest])
            elif reads and rest in ENDINGS:
                mine = reads.pop(line[:at], [])
                found.update(mine if rest == COMMITTED else [])
    return found
