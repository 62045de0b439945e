"""Every contradicted read of a history, worked out with vector clocks, and the walks that show one.

A read of a key by C from A is contradicted where C had observed another write of the key, by B, and A is the initial state or B had
observed A. Then A can't be the last one before C. Each is an anomaly by itself; a history without any can have one of several
derived links. A read that can't be traced to a write is left out, and so is each of a value that was written twice: that takes
rules away, and adds none.

The transactions are sorted by their pairs (Kahn), else by rows. Of the writes of the key that are between A and C in that order
each is looked at, whether C had observed it, and it A. That is done by a search back where few transactions are between, and else
by the clocks of their sessions, 64 at a time, along the order. N transactions, S sessions: N*S/64 rows at most.
"""
import itertools
import json
import subprocess
from bisect import bisect_right
from dataclasses import dataclass
from typing import Callable, Dict, Iterator, List, NamedTuple, Optional, Set, Tuple

from tcc.common.rows import History, Operation, Transaction
from tcc.judging.answers import Link
from tcc.judging.graph import INIT, Fault, Graph, Read, walk
from tcc.judging.program import Program, no_answer

BLOCK = 64
SEARCHED = 2  # times the transactions: so many may be searched through before clocks are worked out
SURVEYED = (0, 1, 2)  # how `tcc survey` ends where it has judged: with nothing found, something, or reads at fault alone


@dataclass(frozen=True)
class Contradicted:
    """A contradicted read: who read, from whom, which other writer it had observed, and how that is usually called. What a transaction reads
    of a key from another is one read, however often it does so; the operation is the first."""

    reader: str
    operation: Operation
    source: str
    writer: str
    name: str
    rows: Tuple[int, ...] = ()


class _Candidate(NamedTuple):
    reader: int
    read: Read
    writers: List[int]


def _positions(graph: Graph, order: List[int]) -> List[int]:
    """Where in the order each transaction is; -1 for none."""
    position = [-1] * len(graph.transactions)
    for index, number in enumerate(order):
        position[number] = index
    return position


def _between(graph: Graph, order: List[int], position: List[int]) -> Iterator[_Candidate]:
    """The reads with writers of their key that are between source and reader in the order."""
    writers: Dict[str, List[Tuple[int, int]]] = {
        key: sorted((position[one], one) for one in every if position[one] >= 0) for key, every in graph.writers.items()}
    for reader in order:
        for read in graph.reads[reader]:
            every = writers.get(read.operation[3])
            if not every:
                continue
            begin = 0 if read.source == INIT else bisect_right(every, (position[read.source], len(position)))
            end = bisect_right(every, (position[reader], -1))
            if begin < end:
                yield _Candidate(reader, read, [one for _, one in every[begin:end]])


def _reached(graph: Graph, position: List[int], last: int, least: int) -> Set[int]:
    """The transactions from which one is reached, as far back as a place in the order."""
    found, waiting = {last}, [last]
    while waiting:
        number = waiting.pop()
        before = number - 1 if number != graph.begins[graph.sessions[number]] else INIT
        for one in (before, *(read.source for read in graph.reads[number])):
            if one != INIT and one not in found and position[one] >= least:
                found.add(one)
                waiting.append(one)
    return found


def _known(graph: Graph, order: List[int], position: List[int], found: List[_Candidate]) -> List[_Candidate]:
    """The candidates with those of their writers of which the reader knew: by a search back where that is short, else by clocks."""
    least = [min(position[one] for one in each.writers) for each in found]
    if sum(position[each.reader] - low for each, low in zip(found, least)) <= SEARCHED * len(order):
        near = ((each, _reached(graph, position, each.reader, low)) for each, low in zip(found, least))
        told = (_Candidate(each.reader, each.read, [one for one in each.writers if one in reached]) for each, reached in near)
        return [each for each in told if each.writers]
    return _known_by_clocks(graph, order, found)


def _known_by_clocks(graph: Graph, order: List[int], found: List[_Candidate]) -> List[_Candidate]:
    """The same by clocks."""
    kept: List[List[int]] = [[] for _ in found]
    lanes = sorted({graph.sessions[one] for each in found for one in each.writers})
    for first in range(0, len(lanes), BLOCK):
        block = lanes[first:first + BLOCK]
        rows, lane_of = graph.clocks(order, block), {session: lane for lane, session in enumerate(block)}
        for index, each in enumerate(found):
            row = rows[each.reader]
            for one in each.writers:
                lane = lane_of.get(graph.sessions[one], -1)
                if lane >= 0 and row[lane] >= one:
                    kept[index].append(one)
    return [_Candidate(each.reader, each.read, writers) for each, writers in zip(found, kept) if writers]


def _behind(graph: Graph, order: List[int], position: List[int], found: List[_Candidate]) -> List[_Candidate]:
    """The candidates with those of their writers that had observed the source; after the initial state all come."""
    far = sum(position[one] - position[each.read.source] for each in found if each.read.source != INIT for one in each.writers)
    if far > SEARCHED * len(order):
        return _behind_by_clocks(graph, order, found)
    told = (_Candidate(each.reader, each.read, [
        one for one in each.writers
        if each.read.source == INIT or each.read.source in _reached(graph, position, one, position[each.read.source])]) for each in found)
    return [each for each in told if each.writers]


def _behind_by_clocks(graph: Graph, order: List[int], found: List[_Candidate]) -> List[_Candidate]:
    """The same by clocks."""
    kept: List[List[int]] = [each.writers if each.read.source == INIT else [] for each in found]
    lanes = sorted({graph.sessions[each.read.source] for each in found if each.read.source != INIT})
    for first in range(0, len(lanes), BLOCK):
        block = lanes[first:first + BLOCK]
        rows, lane_of = graph.clocks(order, block), {session: lane for lane, session in enumerate(block)}
        for index, each in enumerate(found):
            lane = lane_of.get(graph.sessions[each.read.source], -1) if each.read.source != INIT else -1
            if lane >= 0:
                kept[index] = [one for one in each.writers if rows[one][lane] >= each.read.source]
    return [_Candidate(each.reader, each.read, writers) for each, writers in zip(found, kept) if writers]


def _known_at_once(graph: Graph, found: List[_Candidate]) -> List[_Candidate]:
    """The same where a reader has observed its session and those that it reads from, and nothing else."""
    def knows(one: int, other: int) -> bool:
        return graph.sessions[other] == graph.sessions[one] and other < one or any(
            read.source == other for read in graph.reads[one])

    told = (_Candidate(each.reader, each.read, [one for one in each.writers if knows(each.reader, one)]) for each in found)
    return [each for each in told if each.writers]


class Survey(NamedTuple):
    """What a survey found: contradicted reads, operations that can't be judged, how many reads there are, and whether pairs
    have a cycle, of which nothing is said."""

    contradicted: List[Contradicted]
    faults: List[Fault]
    reads: int
    circular: List[str]


def survey(history: History, level: str, doing: Callable[[str], None]) -> Tuple[Survey, Graph]:
    """The contradicted reads, by reader and operation."""
    doing("traces the reads")
    graph = Graph(history)
    order = graph.order()
    placed = set(order)
    circular = [one.label for number, one in enumerate(graph.transactions) if number not in placed]
    doing("looks for contradicted reads")
    position = _positions(graph, order)
    between = list(_between(graph, order, position))
    known = _known_at_once(graph, between) if level == "atomic" else _known(graph, order, position, between)
    found = _behind(graph, order, position, known)
    found.sort(key=lambda one: (one.reader, one.read.operation.row))
    names = Names(graph, found)
    told = []
    for one in found:
        if is_first(graph, one):
            name, writer = names.first(one)
            told.append(Contradicted(
                graph.transactions[one.reader].label, one.read.operation,
                "init" if one.read.source == INIT else graph.transactions[one.read.source].label,
                graph.transactions[writer].label, name,
                tuple(read.operation.row for read in graph.reads[one.reader]
                      if read.source == one.read.source and read.operation.key == one.read.operation.key)))
    reads = sum(len({(read.source, read.operation.key) for read in reads}) for reads in graph.reads)
    return Survey(told, graph.faults, reads, circular), graph


def is_first(graph: Graph, one: _Candidate) -> bool:
    """Whether a read is the first of its key from its source in its transaction."""
    return one.read == next(read for read in graph.reads[one.reader]
                            if read.source == one.read.source and read.operation.key == one.read.operation.key)


NAMES = ("read your writes", "fractured read", "monotonic reads", "monotonic writes", "writes follow reads", "causal chain")


class Names:
    """How contradicted reads are usually called: the first name that fits any writer that contradicts them."""

    def __init__(self, graph: Graph, found: List[_Candidate]):
        self.graph = graph
        self.readers: Dict[Tuple[int, str], List[int]] = {
            (writer, one.read.operation.key): [] for one in found for writer in one.writers}
        for number, reads in enumerate(graph.reads):
            for operation, source in reads:
                if (source, operation.key) in self.readers:
                    self.readers[source, operation.key].append(number)
        self.session = -1
        self.seen: Dict[int, int] = {}
        self.next = 0

    def _seen(self, reader: int) -> Dict[int, int]:
        """Of each session the greatest number that the reader's session read from directly, up to the reader; readers come in order."""
        session = self.graph.sessions[reader]
        if session != self.session or self.next > reader + 1:
            self.session, self.seen, self.next = session, {}, self.graph.begins[session]
        for number in range(self.next, reader + 1):
            for read in self.graph.reads[number]:
                if read.source != INIT:
                    other = self.graph.sessions[read.source]
                    self.seen[other] = max(self.seen.get(other, -1), read.source)
        self.next = reader + 1
        return self.seen

    def first(self, one: _Candidate) -> Tuple[str, int]:
        """The first name that fits any of the writers, and the least of these that it fits."""
        rank, writer = min((NAMES.index(self.name(one.reader, one.read, writer)), writer) for writer in one.writers)
        return NAMES[rank], writer

    def name(self, reader: int, read: Read, writer: int) -> str:
        """The first name that fits one writer."""
        sessions = self.graph.sessions
        if sessions[writer] == sessions[reader]:
            return "read your writes"
        if any(each.source == writer for each in self.graph.reads[reader]):
            return "fractured read"
        saw = self.readers.get((writer, read.operation.key), [])
        if any(sessions[one] == sessions[reader] and one < reader for one in saw):
            return "monotonic reads"
        seen = self._seen(reader)
        if seen.get(sessions[writer], -1) > writer:
            return "monotonic writes"
        if any(seen.get(sessions[one], -1) >= one for one in saw):
            return "writes follow reads"
        return "causal chain"


def cycle_of_read(graph: Graph, one: Contradicted) -> Optional[List[Link]]:
    """The anomaly that a contradicted read is: from its source to the other writer, and from there derived back."""
    reader, writer = graph.numbers[one.reader], graph.numbers[one.writer]
    if graph.sessions[reader] == graph.sessions[writer]:
        knew: Optional[List[Link]] = [Link("session", one.writer, one.reader)]
    else:
        knew = walk(graph, writer, reader)
    onward = [Link("session", "init", one.writer)] if one.source == "init" else walk(graph, graph.numbers[one.source], writer)
    if knew is None or onward is None:
        return None
    return [*onward, Link("derived", one.writer, one.source, one.operation.key, one.reader, tuple(knew))]


def surveyed(tcc: Program, history: History, records: Callable[[], bytes], doing: Callable[[str], None]) -> Survey:
    """A survey of a history, whose records these are, by the program where it has one and no pairs are on a circle."""
    if tcc.has_survey():
        doing("runs tcc survey")
        ended = subprocess.run(tcc.survey("-"), input=records(), capture_output=True, check=False)
        if ended.returncode not in SURVEYED:
            raise no_answer(ended)
        found = told_by_program(ended.stdout.decode(errors="replace"), history)
        if found is not None:
            return found
    return survey(history, tcc.level, doing)[0]


def told_by_program(text: str, history: History) -> Optional[Survey]:
    """What `tcc survey --json` printed of a history; none where that isn't a whole list, as of pairs on a circle."""
    *lines, last = [json.loads(line) for line in text.splitlines()] or [{}]
    if last.get("answer") != "survey":
        return None
    told = [one for one in lines if "contradicted" in one]
    reads = [same_reads(history.find(one["contradicted"]), one["op"]) for one in told]
    writes = history.writes_of({(one.key, one.value) for one, *_ in reads})
    sources = ["init" if one.value == "0" else writes[one.key, one.value][0][0] for one, *_ in reads]
    contradicted = [Contradicted(one["contradicted"], every[0], source, one["writer"], one["name"], tuple(each.row for each in every))
                    for one, every, source in zip(told, reads, sources)]
    faults = []
    for one in (one for line in lines for one in line.get("faults", ())):
        label = "%s/%d" % (one["session"], one["place"])
        faults.append(Fault(one["kind"], label, history.find(label).operations[one["op"] - 1], ""))
    return Survey(contradicted, faults, last["reads"], [])


def same_reads(reader: Transaction, first: int) -> List[Operation]:
    """The external reads of a transaction that read the same as its operation of this number, which is the first such."""
    _, _, _, key, value = reader.operations[first - 1]
    left = itertools.takewhile(lambda one: (one.does, one.key) != ("w", key), reader.operations[first - 1:])
    return [one for one in left if (one.does, one.key, one.value) == ("r", key, value)]
