"""The committed transactions of a history with the reads that can be traced, as a graph, and shortest walks in it."""
from collections import deque
from heapq import heapify, heappop, heappush
from typing import Dict, List, NamedTuple, Optional, Set, Tuple

from tcc.common.rows import History, Operation, Transaction
from tcc.judging.answers import Link

INIT = -1


class Read(NamedTuple):
    """An external read and the index of the transaction that it reads from."""

    operation: Operation
    source: int


class Fault(NamedTuple):
    """An operation that can't be judged, and who wrote the value first, where that was looked for."""

    kind: str
    label: str
    operation: Operation
    writer: str


class Graph:
    """The committed transactions by number, sorted by session and place, with the reads that can be traced and their sources."""

    def __init__(self, history: History):
        committed = [one for one in history.transactions.values() if one.committed]
        self.transactions: List[Transaction] = sorted(committed, key=lambda one: (one.session, one.place))
        self.numbers = {one.label: number for number, one in enumerate(self.transactions)}
        self.sessions: List[int] = []
        self.names: List[str] = []
        self.begins: List[int] = []
        for number, one in enumerate(self.transactions):
            if not self.names or self.names[-1] != one.session:
                self.names.append(one.session)
                self.begins.append(number)
            self.sessions.append(len(self.names) - 1)
        self.faults: List[Fault] = []
        self.reads: List[List[Read]] = []
        self.writers: Dict[str, List[int]] = {}
        self._resolve(history)

    def _resolve(self, history: History) -> None:
        """Traces each external read to the transaction whose last write of the key it is, or notes why that can't be done."""
        first: Dict[Tuple[str, str], Transaction] = {}
        twice: Set[Tuple[str, str]] = set()
        for one in sorted(history.transactions.values(), key=lambda one: (one.session, one.place)):
            for each in one.operations:
                _, _, does, key, value = each
                if does == "w":
                    pair = key, value
                    if first.setdefault(pair, one) is not one or pair in twice:
                        twice.add(pair)
                        self.faults.append(Fault("Duplicate", one.label, each, first[pair].label))
        visible: Dict[Tuple[str, str], int] = {}
        for number, one in enumerate(self.transactions):
            last = {key: value for _, _, does, key, value in one.operations if does == "w"}
            for pair in last.items():
                self.writers.setdefault(pair[0], []).append(number)
                if pair not in twice:
                    visible[pair] = number
        for number, one in enumerate(self.transactions):
            own: Dict[str, str] = {}
            reads: List[Read] = []
            for each in one.operations:
                _, _, does, key, value = each
                if does == "w":
                    own[key] = value
                elif key in own:
                    if own[key] != value:
                        self.faults.append(Fault("BrokenInternal", one.label, each, one.label))
                elif value == "0":
                    reads.append(Read(each, INIT))
                else:
                    source = visible.get((key, value), number)
                    if source != number:
                        reads.append(Read(each, source))
                    else:
                        self._untraced(one, each, first.get((key, value)))
            self.reads.append(reads)

    def _untraced(self, one: Transaction, each: Operation, writer: Optional[Transaction]) -> None:
        """Notes why a read can't be traced to the first write of its value, unless that was only written twice."""
        if writer is None:
            self.faults.append(Fault("ThinAir", one.label, each, ""))
        elif not writer.committed or writer is one or is_overwritten(writer, each):
            kind = "Aborted" if not writer.committed else "Future" if writer is one else "Intermediate"
            self.faults.append(Fault(kind, one.label, each, writer.label))

    def before(self, number: int) -> Optional[int]:
        """The one before it in its session."""
        return None if number == self.begins[self.sessions[number]] else number - 1

    def order(self) -> List[int]:
        """The transactions, each after those that it follows or reads from, and else by rows; those on a cycle of pairs, and after
        one, are left out."""
        count = len(self.transactions)
        readers: List[List[int]] = [[] for _ in range(count)]
        waits = [0] * count
        for number, reads in enumerate(self.reads):
            sources = {read.source for read in reads if read.source != INIT}
            waits[number] = len(sources) + (self.before(number) is not None)
            for source in sources:
                readers[source].append(number)
        rows = [one.last for one in self.transactions]
        free = [(rows[number], number) for number in range(count) if waits[number] == 0]
        heapify(free)
        found: List[int] = []
        while free:
            _, number = heappop(free)
            found.append(number)
            behind = readers[number]
            if number + 1 < count and self.sessions[number + 1] == self.sessions[number]:
                behind = behind + [number + 1]
            for each in behind:
                waits[each] -= 1
                if waits[each] == 0:
                    heappush(free, (rows[each], each))
        return found

    def clocks(self, order: List[int], lanes: List[int]) -> List[List[int]]:
        """Of each transaction, for some sessions, the greatest number from which it is reached, or its own; -1 for none."""
        lane_of = {session: lane for lane, session in enumerate(lanes)}
        nothing = [-1] * len(lanes)
        rows: List[List[int]] = [nothing] * len(self.transactions)
        sessions, all_reads, begins = self.sessions, self.reads, self.begins
        lane_of_number = [lane_of.get(session, -1) for session in sessions]
        for number in order:
            row = rows[number - 1] if number != begins[sessions[number]] else nothing
            for read in all_reads[number]:
                source = read.source
                if source == INIT:
                    continue
                other = rows[source]
                if other is row or other is nothing:
                    continue
                lane = lane_of_number[source]
                if lane >= 0 and row[lane] >= source:
                    continue
                row = other if row is nothing else list(map(max, row, other))  # type: ignore[arg-type]
            lane = lane_of_number[number]
            if lane >= 0:
                row = list(row)
                row[lane] = number
            rows[number] = row
        return rows


def is_overwritten(writer: Transaction, read: Operation) -> bool:
    """Whether a transaction wrote over what was read of it."""
    values = [one.value for one in writer.operations if (one.does, one.key) == ("w", read.key)]
    return values.index(read.value) < len(values) - 1


def walk(graph: Graph, first: int, last: int) -> Optional[List[Link]]:
    """A shortest walk of pairs from one transaction to another, breadth first backwards; in a session any earlier one is one step."""
    onward: Dict[int, Tuple[int, str]] = {last: (last, "")}
    waiting = deque([last])
    while waiting and first not in onward:
        number = waiting.popleft()
        for read in graph.reads[number]:
            if read.source != INIT and read.source not in onward:
                onward[read.source] = number, read.operation.key
                waiting.append(read.source)
        before = number - 1
        while before >= graph.begins[graph.sessions[number]] and not (before in onward and onward[before][1] == ""):
            if before not in onward:
                onward[before] = number, ""
                waiting.append(before)
            before -= 1
    if first not in onward:
        return None
    steps: List[Link] = []
    number = first
    while number != last:
        behind, key = onward[number]
        ends = graph.transactions[number].label, graph.transactions[behind].label
        steps.append(Link("reads", *ends, key) if key else Link("session", *ends))
        number = behind
    return steps
