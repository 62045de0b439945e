"""Annotations of a history, in a file beside its records: what a reader wants to know about a transaction and `tcc` doesn't.

The file is CSV. Its first row names the columns:

  transaction  the label of a transaction, such as p2/104: its session, and its place there from 1; empty in the row of an event,
               which is something that happened meanwhile, such as a node that was paused
  node         the server that it was at
  time         when it ended, or when the event was, in seconds from the beginning of the run, as a decimal number
  index        the number of the operation that ended it, in the history from which the records were made
  line         the line of that operation
  note         a text; of an event what happened
  whole        of a slice of a history, the label of the transaction in the whole

Columns may be in any order; all but `transaction` may be missing, each cell may be empty, and a column that isn't named
here is passed over. A cell that a spreadsheet would take for a formula, such as =1+1, has an apostrophe before it.
"""
import csv
import math
import os
from dataclasses import dataclass, fields
from typing import Dict, Iterable, Iterator, List, Optional, Tuple, Union

from tcc.common.whole import written_whole

Path = Union[str, "os.PathLike[str]"]


# With these a formula of a spreadsheet begins.
FORMULA = ("=", "+", "-", "@")


class NoNotes(Exception):
    """A file that has no annotations."""


@dataclass(frozen=True)
class Note:
    """What is known of a transaction, each part as the file spells it; empty where nothing is."""

    node: str = ""
    time: str = ""
    index: str = ""
    line: str = ""
    note: str = ""
    whole: str = ""

    def text(self) -> str:
        """What a reader sees after a label, such as `at n2, 1.25 s, index 5123: a note`; empty where nothing is known."""
        parts = (("at %s", self.node), ("%s s", self.time), ("index %s", self.index), ("line %s", self.line),
                 ("%s of the whole", self.whole))
        said = ", ".join(form % part for form, part in parts if part)
        return ": ".join(part for part in (said, self.note) if part)


def cell(text: str) -> str:
    """A text as a cell has it."""
    return "'" + text if text.startswith(FORMULA) else text


def text_of(found: str) -> str:
    """The text of a cell."""
    return found[1:] if found.startswith("'") and found[1:].startswith(FORMULA) else found


@dataclass(frozen=True)
class Event:
    """Something that happened meanwhile, so many seconds after the beginning of the run; at a node, or at none."""

    what: str
    time: float
    node: str = ""

    def row(self) -> Tuple[str, Note]:
        return "", Note(node=self.node, time="%.6f" % self.time, note=self.what)


COLUMNS = tuple(field.name for field in fields(Note))


def rows_of(path: Path) -> Iterator[Tuple[str, Note]]:
    """The rows of a file, each with its label."""
    with open(path, encoding="utf-8-sig", newline="") as file:
        rows = csv.DictReader(file)
        if "transaction" not in (rows.fieldnames or ()):
            raise NoNotes("%s: the first row of annotations names the columns, and one of them is transaction" % path)
        for row in rows:
            yield row["transaction"], Note(**{name: text_of(row.get(name) or "") for name in COLUMNS})


def read_notes(path: Path) -> Dict[str, Note]:
    """The annotations of a file, by the labels of the transactions."""
    return {label: note for label, note in rows_of(path) if label}


def read_events(path: Path) -> List[Event]:
    """The events of a file in the order of their times; one without a time is passed over."""
    events = [Event(note.note, float(note.time), note.node) for label, note in rows_of(path) if not label and is_time(note.time)]
    return sorted(events, key=lambda one: one.time)


def is_time(cell: str) -> bool:
    try:
        return math.isfinite(float(cell))
    except ValueError:
        return False


def seconds_of(note: Note) -> Optional[float]:
    """The time of a transaction, where it has one."""
    return float(note.time) if is_time(note.time) else None


def write_notes(path: Path, notes: Iterable[Tuple[str, Note]]) -> None:
    """Writes the annotations of transactions, each with its label, in the columns that are in use."""
    listed = list(notes)
    used = [name for name in COLUMNS if any(getattr(note, name) for _, note in listed)]
    with written_whole(path) as file:
        write = csv.writer(file, lineterminator="\n")
        write.writerow(("transaction", *used))
        write.writerows((label, *(cell(getattr(note, name)) for name in used)) for label, note in listed)
