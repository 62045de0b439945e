"""Records as the scripts read them: the transactions, each with its rows and what it did."""
import csv
import re
from dataclasses import dataclass, field
from typing import Any, Dict, Iterable, List, NamedTuple, Optional, Set, TextIO, Tuple

from tcc.common.notes import NoNotes, read_notes

# The names of sessions and keys.
NAME = re.compile(r"[A-Za-z0-9_.-]{1,32}")
GREATEST_VALUE = 2**64 - 1
# An object of JSON.
Json = Dict[str, Any]


class Unfit(Exception):
    """What is given is no answer, or the history isn't that of the answer."""


class Operation(NamedTuple):
    """A read (`r`) or write (`w`) and its record: `row` counts records, `line` lines."""

    row: int
    line: int
    does: str
    key: str
    value: str


@dataclass
class Transaction:
    """A transaction of the history; its last row is 0 while it isn't finished. One of unknown outcome has what it wrote alone, and
    committed where a committed one read a value of it. Its note is what annotations say of it."""

    label: str
    first: int
    last: int = 0
    committed: bool = False
    operations: List[Operation] = field(default_factory=list)
    note: str = ""
    is_unknown: bool = False

    @property
    def session(self) -> str:
        return self.label.rpartition("/")[0]

    @property
    def place(self) -> int:
        return int(self.label.rpartition("/")[2])

    def rows(self) -> str:
        return "rows %d-%d" % (self.first, self.last)

    def written(self, key: str) -> Optional[Operation]:
        """Its last write of the key, which others see."""
        return next((one for one in reversed(self.operations) if one.does == "w" and one.key == key), None)

    def reads_of(self, key: str, value: str) -> List[Operation]:
        return [one for one in self.operations if one.does == "r" and one.key == key and one.value == value]


@dataclass(frozen=True)
class History:
    """The finished transactions by their labels, and the first row that is no record, where there is one."""

    transactions: Dict[str, Transaction]
    wrong_row: Optional[int]

    def find(self, label: str) -> Transaction:
        if label not in self.transactions:
            end = "" if self.wrong_row is None else ", whose row %d is no record" % self.wrong_row
            raise Unfit("%s isn't in the history%s: is it that of the answer?" % (label, end))
        return self.transactions[label]

    def annotate(self, path: str) -> None:
        """Takes what a file of annotations says of each transaction."""
        try:
            for label, note in read_notes(path).items():
                if label in self.transactions:
                    self.transactions[label].note = note.text()
        except NoNotes as error:
            raise Unfit(str(error)) from error

    def value_read(self, source: str, target: str, key: str) -> str:
        """The value of the key by which one transaction reads from another."""
        value = "0"
        if source != "init":
            written = self.find(source).written(key)
            if written is None:
                raise Unfit("%s doesn't write %s in the history: is it that of the answer?" % (source, key))
            value = written.value
        if not self.find(target).reads_of(key, value):
            raise Unfit("%s doesn't read %s from %s in the history: is it that of the answer?" % (target, key, source))
        return value

    def writes_of(self, wanted: Set[Tuple[str, str]]) -> Dict[Tuple[str, str], List[Tuple[str, Operation]]]:
        """The writes of these values, each a key and what was written there, with the labels of their transactions."""
        found: Dict[Tuple[str, str], List[Tuple[str, Operation]]] = {one: [] for one in wanted}
        for label, each in self.transactions.items():
            for one in each.operations:
                if one.does == "w" and (one.key, one.value) in found:
                    found[one.key, one.value].append((label, one))
        return found


def history_of(lines: Iterable[Tuple[int, List[str]]]) -> History:
    """The transactions up to the first row that is no record, as `tcc` reads them: of rows, each with its line; blank lines are
    no records."""
    finished: Dict[str, Transaction] = {}
    open_ones: Dict[str, Transaction] = {}
    places: Dict[str, int] = {}
    row, make = 0, tuple.__new__  # operations are many, and made this way in a third of the time
    texts: Dict[str, str] = {}  # keys, and what operations do, each once
    once = texts.setdefault
    for line, fields in lines:
        if not fields:
            continue
        row += 1
        session, count = fields[0], len(fields)
        if count == 4 and fields[1] in ("r", "w") and session in open_ones:
            at = row if line == row else line
            open_ones[session].operations.append(make(Operation, (row, at, once(fields[1], fields[1]), once(fields[2], fields[2]), fields[3])))
        elif count == 2 and fields[1] == "begin" and session not in open_ones:
            places[session] = places.get(session, 0) + 1
            open_ones[session] = Transaction("%s/%d" % (session, places[session]), row)
        elif count == 2 and fields[1] in ("commit", "abort", "unknown") and session in open_ones:
            done = open_ones.pop(session)
            done.last, done.committed, done.is_unknown = row, fields[1] == "commit", fields[1] == "unknown"
            finished[done.label] = done
        elif fields != ["seal"]:
            return settled(finished, row)
    return settled(finished, None)


def settled(finished: Dict[str, Transaction], wrong_row: Optional[int]) -> History:
    """The history, with those of unknown outcome settled."""
    unknown = [one for one in finished.values() if one.is_unknown]
    for one in unknown:
        one.operations = [each for each in one.operations if each.does == "w"]
    wanted = {(each.key, each.value) for one in unknown for each in one.operations}
    if wanted:
        seen = {(each.key, each.value) for one in finished.values() if one.committed for each in one.operations
                if each.does == "r" and (each.key, each.value) in wanted}
        for one in unknown:
            one.committed = any((each.key, each.value) in seen for each in one.operations)
    return History(finished, wrong_row)


def read_history(file: TextIO) -> History:
    """The transactions of a file of records."""
    reader = csv.reader(file)
    return history_of((reader.line_num, fields) for fields in reader)


def open_records(path: str) -> TextIO:
    """A file of records: a byte order mark is passed over, and what is no UTF-8 is no record."""
    return open(path, encoding="utf-8-sig", errors="replace", newline="")


def read_places(path: str) -> Dict[str, str]:
    """The table of a slice: to each label of it that of the whole history."""
    try:
        return {label: note.whole for label, note in read_notes(path).items() if note.whole}
    except NoNotes as error:
        raise Unfit(str(error)) from error
