"""A second opinion on a store that numbers its writes: the stale reads, counted from records and versions by plain reckoning.

A read is stale if a write of its key with a greater version had been observed by the transaction that read it: by what its session did or
saw before, or by what it read itself. Each transaction's past is held as the greatest version of each key, so the cost is the number of
transactions times that of keys. It shares neither rules nor code with `tcc`.
"""
import csv
from dataclasses import dataclass, field
from typing import Dict, Iterable, Iterator, List, Sequence, Set, Tuple, Union
import os

Path = Union[str, "os.PathLike[str]"]
# A key and a value, as the records spell them.
Pair = Tuple[str, str]
# The greatest version of each key.
Past = Dict[str, int]


@dataclass
class Ended:
    """A transaction of the records: its label, what it read and wrote, and how it ended."""

    label: str
    reads: List[Pair] = field(default_factory=list)
    writes: List[Pair] = field(default_factory=list)
    end: str = ""

    def session(self) -> str:
        return self.label.rpartition("/")[0]


def transactions(paths: Sequence[Path]) -> Iterator[Ended]:
    """The transactions of some files of records, those of each session in its order."""
    under_way: Dict[str, Ended] = {}
    places: Dict[str, int] = {}
    for session, does, *pair in (row for path in paths for row in rows_of(path) if len(row) > 1):
        if does == "begin":
            places[session] = places.get(session, 0) + 1
            under_way[session] = Ended("%s/%d" % (session, places[session]))
        elif does in ("r", "w"):
            one = under_way[session]
            (one.reads if does == "r" else one.writes).append((pair[0], pair[1]))
        else:
            one = under_way.pop(session)
            one.end = does
            yield one


def rows_of(path: Path) -> Iterator[List[str]]:
    with open(path, encoding="ascii", newline="") as file:
        yield from csv.reader(file)


def versions_of(paths: Iterable[Path]) -> Dict[Pair, int]:
    return {(key, value): int(version) for path in paths for key, value, version in rows_of(path) if version != "version"}


class Circle(ValueError):
    """Transactions read from one another in a circle: no store can do that, so the records aren't true, or the store is broken."""


def stale_reads(records: Sequence[Path], versions: Sequence[Path]) -> Set[Tuple[str, str]]:
    """The stale reads, each the label of its transaction and its key."""
    version = versions_of(versions)
    waiting: Dict[str, List[Ended]] = {}
    for one in transactions(records):
        if one.end != "abort":
            waiting.setdefault(one.session(), []).append(one)
    for every in waiting.values():
        every.reverse()  # so that the next one is the last
    writers = {pair: one.label for every in waiting.values() for one in every for pair in one.writes}
    pasts: Dict[str, Past] = {}
    found: Set[Tuple[str, str]] = set()
    while any(waiting.values()):
        counted = sum(map(len, waiting.values()))
        for session, left in waiting.items():
            go_on(session, left, writers, version, pasts, found)
        if sum(map(len, waiting.values())) == counted:
            raise Circle("transactions read from one another in a circle: %s" % ", ".join(left[-1].label for left in waiting.values() if left))
    return found


def go_on(session: str, left: List[Ended], writers: Dict[Pair, str], version: Dict[Pair, int], pasts: Dict[str, Past],
          found: Set[Tuple[str, str]]) -> None:
    """Reckons the transactions of a session as far as those that they read from are reckoned; the past of a session has its name."""
    while left and all(writers[pair] in pasts for pair in left[-1].reads if pair in writers and pair not in left[-1].writes):
        one = left.pop()
        past = dict(pasts.get(session, {}))
        for pair in one.reads:
            for key, number in pasts.get(writers.get(pair, ""), {}).items():
                past[key] = max(past.get(key, 0), number)
        found.update((one.label, key) for key, value in one.reads
                     if (key, value) not in one.writes and (value == "0" or (key, value) in version)
                     and version.get((key, value), 0) < past.get(key, 0))
        for pair in one.writes:
            past[pair[0]] = max(past.get(pair[0], 0), version.get(pair, 0))
        pasts[one.label] = pasts[session] = past
