"""The versions that a store gave to values, as they were noted: of each value one, and of each key no version of two values.

A store that numbers its writes anew after a crash breaks that. Then nothing says which of the two comes first, so these are doubts: how
many, and which came first. Whoever asks may judge by what was noted before the first doubt, or by no versions.
"""
import csv
import os
from typing import Callable, Dict, List, Mapping, NamedTuple, Tuple, Union

Path = Union[str, "os.PathLike[str]"]
COLUMNS = ["key", "value", "version"]
GREATEST_VERSION = 2**62 - 1
REFUSE, BEFORE, WITHOUT = "refuse", "before", "without"
WAYS = (REFUSE, BEFORE, WITHOUT)


class NoVersions(Exception):
    """A file that has no versions, or some that no order of writes has."""


class Doubt(NamedTuple):
    """A value with two versions, or a version of two values: how many values had their version before, key and values, and what it is."""

    before: int
    key: str
    values: Tuple[str, ...]
    said: str


class Versions(Dict[str, Dict[str, int]]):
    """The versions of each key's values, as the records spell them, the values in the order in which they were noted, and where."""

    def __init__(self) -> None:
        super().__init__()
        self.noted: List[Tuple[str, str, str]] = []
        self.doubts: List[Doubt] = []
        self._places: Dict[Tuple[str, str], int] = {}

    def note(self, key: str, value: str, version: int, where: str) -> None:
        """Takes the version of a value."""
        mine = self.setdefault(key, {})
        if value not in mine:
            mine[value] = version
            self.noted.append((key, value, where))
        elif mine[value] != version:
            self.doubts.append(Doubt(len(self.noted), key, (value,), "%s = %s has the versions %d and %d (%s)" % (
                key, value, mine[value], version, where)))

    def place(self, key: str, value: str) -> int:
        """How many values had a version before this one."""
        if len(self._places) < len(self.noted):
            self._places = {one[:2]: place for place, one in enumerate(self.noted)}
        return self._places[key, value]

    def without(self, key: str, value: str) -> "Versions":
        """The versions of all other values."""
        found = Versions()
        for one, other, where in self.noted:
            if (one, other) != (key, value):
                found.note(one, other, self[one][other], where)
        found.doubts = [one._replace(before=one.before - (one.before > self.place(key, value))) for one in self.doubts]
        return found

    def until(self, count: int) -> "Versions":
        """The versions of the first values."""
        found = Versions()
        for key, value, where in self.noted[:count]:
            found.note(key, value, self[key][value], where)
        return found


def versions_of(told: Mapping[str, Mapping[str, int]]) -> Versions:
    """Versions by key and value."""
    if isinstance(told, Versions):
        return told
    found = Versions()
    for key, every in told.items():
        for value, version in every.items():
            found.note(key, value, version, "")
    return found


def read_versions(path: Path) -> Versions:
    """The versions of a file, or of several put one after the other."""
    found = Versions()
    with open(path, encoding="utf-8-sig", newline="") as file:
        for number, row in enumerate(csv.reader(file), 1):
            if row and row != COLUMNS:
                where = "%s, line %d" % (os.fspath(path), number)
                if len(row) != 3 or not row[1].isdecimal() or not row[2].isdecimal() or not 1 <= int(row[2]) <= GREATEST_VERSION:
                    raise NoVersions("%s: a line has a key, a value and a version, which is a whole number from 1" % where)
                found.note(row[0], row[1], int(row[2]), where)
    return found


def refused(doubts: List[Doubt], said_of: Callable[[str, str], str]) -> NoVersions:
    """Why versions with doubts aren't judged, with what is said of the values of the first one."""
    first = min(doubts, key=lambda one: one.before)
    about = "".join(filter(None, (said_of(first.key, value) for value in first.values)))
    return NoVersions("%d values have two versions or share one. The first: %s%s. A store that numbers its writes anew, as after a crash, says "
                      "nothing of their order. --two-versions before judges by the %d versions that were noted before, --two-versions without by "
                      "none" % (len({(one.key, one.values[-1]) for one in doubts}), first.said, about, first.before))
