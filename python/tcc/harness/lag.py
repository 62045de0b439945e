"""Counts the reads that lag: older than the newest write of their key that had finished before they began.

Where the store numbers writes, a read lags if its version is less than the greatest one that some client had heard by then. Else it
lags if its write had finished before another write of the key began which had finished by then too; a key that reads as nothing lags
once any write of it has finished. A linearizable store has no such read. A store that is causally consistent may have many: without one, a
consistent answer says little, since each client saw the newest of everything. Each write and read costs O(1), and what several processes
noted is put into the order of time once.
"""
import json
import threading
from collections import Counter
from typing import Any, Counter as Count, Dict, Iterable, List, NamedTuple, Optional, TextIO, Tuple

from tcc.harness.store import Found

NEVER = float("-inf")


class Newest(NamedTuple):
    """Of the finished writes of a key: the latest time at which one began, and the greatest version."""

    begun: float = NEVER
    version: int = 0

    def with_write(self, begun: float, version: Optional[int]) -> "Newest":
        return Newest(max(self.begun, begun), max(self.version, version or 0))


class Times(NamedTuple):
    """When a write began and when it had finished; one that hasn't is later than all others."""

    begun: float = float("inf")
    ended: float = float("inf")


class Lag:
    """The reads of a round, how many lag, and both by node. Times are of one clock, in seconds. Clients share it; what it hears goes into a
    log too, if there is one."""

    def __init__(self, log: Optional[TextIO] = None) -> None:
        self.reads: Count[str] = Counter()
        self.late: Count[str] = Counter()
        self._log = log
        self._newest: Dict[str, Newest] = {}
        self._times: Dict[Tuple[str, int], Times] = {}
        self._lock = threading.Lock()

    def newest(self, key: str) -> Newest:
        """What has to be taken before a read of the key begins."""
        with self._lock:
            return self._newest.get(key, Newest())

    def wrote(self, key: str, value: int, begun: float, ended: float, version: Optional[int] = None) -> None:
        """A write has finished."""
        with self._lock:
            self._newest[key] = self._newest.get(key, Newest()).with_write(begun, version)
            self._times[key, value] = Times(begun, ended)
            self._write_log([ended, "wrote", key, value, begun, version])

    def read(self, node: str, key: str, found: Found, before: Newest, begun: float = 0.0) -> bool:
        """A read has returned, which began then; whether it lags, by what there was before it."""
        with self._lock:
            is_late = self._is_late(key, found, before)
            self.reads[node] += 1
            self.late[node] += is_late
            self._write_log([begun, "read", key, node, *found])
            return is_late

    def _is_late(self, key: str, found: Found, before: Newest) -> bool:
        if found.value is None:
            return before.begun > NEVER
        if found.version is not None and before.version:
            return found.version < before.version
        return self._times.get((key, found.value), Times()).ended < before.begun

    def is_older(self, key: str, one: Found, other: Found) -> bool:
        """Whether one of two states of a key was written before the other one: by versions, else where it had finished before the other began."""
        if one.value is None or other.value is None:
            return other.value is not None
        if one.version is not None and other.version is not None:
            return one.version < other.version
        with self._lock:
            return self._times.get((key, one.value), Times()).ended < self._times.get((key, other.value), Times(NEVER)).begun

    def _write_log(self, one: List[Any]) -> None:
        if self._log:
            self._log.write(json.dumps(one) + "\n")

    def count(self) -> int:
        with self._lock:
            return sum(self.late.values())

    def text(self) -> str:
        """Such as `12 of 31,000 reads were older than the newest finished write: 12 of 15,500 at n2`."""
        with self._lock:
            late, reads = Counter(self.late), Counter(self.reads)
        where = ["%s of %s at %s" % (with_commas(late[node]), with_commas(reads[node]), node) for node in sorted(late) if late[node] and node]
        said = "%s of %s reads were older than the newest finished write" % (with_commas(sum(late.values())), with_commas(sum(reads.values())))
        if not sum(late.values()):
            return said + ": nothing lagged, so a consistent answer says little"
        return said + (": " + ", ".join(where) if where else "")


def merged(logs: Iterable[str]) -> Lag:
    """What the logs of several processes of one machine say together."""
    events: List[List[Any]] = []
    for path in logs:
        with open(path, encoding="utf-8") as file:
            events.extend(map(json.loads, file))
    events.sort(key=lambda one: float(one[0]))
    whole = Lag()
    for time, what, key, *more in events:
        if what == "wrote":
            value, begun, version = more
            whole.wrote(key, value, begun, time, version)
        else:
            node, value, version = more
            whole.read(node, key, Found(value, version), whole.newest(key))
    return whole


def with_commas(number: int) -> str:
    return "{:,}".format(number)
