"""What a survey of records says, by the definitions of docs/FORMATS.md and docs/MODEL.md, slowly."""
import json
from collections import Counter
from typing import Dict, Iterator, List, NamedTuple, Optional, Set, Tuple

NAMES = ("read your writes", "fractured read", "monotonic reads", "monotonic writes", "writes follow reads", "causal chain")


class Operation(NamedTuple):
    """A read or a write."""

    does: str
    key: str
    value: int


class Transaction(NamedTuple):
    """One that is finished."""

    session: str
    place: int
    committed: bool
    operations: List[Operation]

    @property
    def label(self) -> str:
        return "%s/%d" % (self.session, self.place)


class Fault(NamedTuple):
    """A read or write that can't be judged."""

    kind: str
    label: str
    number: int
    operation: Operation

    def line(self) -> str:
        return "%s %s op %d %s %d" % (self.kind, self.label, self.number, self.operation.key, self.operation.value)

    def members(self) -> Dict[str, object]:
        """The same as members of an object."""
        session, _, place = self.label.rpartition("/")
        return {"key": self.operation.key, "kind": self.kind, "op": self.number, "place": int(place), "session": session,
                "value": self.operation.value}


class Read(NamedTuple):
    """What a transaction reads of a key from another, and at which of its operations first."""

    key: str
    source: int
    number: int
    value: int


class Contradicted(NamedTuple):
    """A read, who reads, how that is usually called, and the least writer that contradicts it and is called so."""

    reader: int
    read: Read
    writer: int
    name: str


def transactions_of(records: str) -> List[Transaction]:
    """The finished transactions, by session name and place."""
    begun: Dict[str, List[Operation]] = {}
    finished: Dict[str, List[Transaction]] = {}
    for session, what, *rest in (line.split(",") for line in records.splitlines() if line != "seal"):
        if what == "begin":
            begun[session] = []
        elif what in ("commit", "abort"):
            those = finished.setdefault(session, [])
            those.append(Transaction(session, len(those) + 1, what == "commit", begun.pop(session)))
        else:
            begun[session].append(Operation(what, rest[0], int(rest[1])))
    return [one for session in sorted(finished) for one in finished[session]]


class History:
    """The committed transactions by number, their reads and visible writes, and what can't be judged."""

    def __init__(self, records: str):
        every = transactions_of(records)
        first: Dict[Tuple[str, int], Tuple[Transaction, int]] = {}
        for one in every:
            for number, (does, key, value) in enumerate(one.operations, 1):
                if does == "w":
                    first.setdefault((key, value), (one, number))
        self.transactions = [Transaction("", 0, True, [])] + [one for one in every if one.committed]
        self.numbers = {one.label: number for number, one in enumerate(self.transactions)}
        self.writes: List[Set[str]] = [{key for does, key, _ in one.operations if does == "w"} for one in self.transactions]
        self.faults = list(self._faults(every, first))
        self.at_fault = {(fault.label, fault.number) for fault in self.faults}
        self.twice = {(fault.operation.key, fault.operation.value) for fault in self.faults if fault.kind == "Duplicate"}
        self.reads = [self._reads(one, first) for one in self.transactions]

    def label(self, number: int) -> str:
        return self.transactions[number].label if number else "init"

    def _faults(self, every: List[Transaction], first: Dict[Tuple[str, int], Tuple[Transaction, int]]) -> Iterator[Fault]:
        for one in every:
            own: Dict[str, int] = {}
            for number, each in enumerate(one.operations, 1):
                kind = None
                if each.does == "w":
                    kind = None if first[each.key, each.value] == (one, number) else "Duplicate"
                    own[each.key] = each.value
                elif one.committed and each.key in own:
                    kind = None if own[each.key] == each.value else "BrokenInternal"
                elif one.committed and each.value:
                    kind = external_kind(one, each, first.get((each.key, each.value)))
                if kind:
                    yield Fault(kind, one.label, number, each)

    def _reads(self, one: Transaction, first: Dict[Tuple[str, int], Tuple[Transaction, int]]) -> List[Read]:
        """What of a transaction's reads is judged: external ones without a fault, of values that were written once."""
        own: Set[str] = set()
        reads: Dict[Tuple[str, int], Read] = {}
        for number, each in enumerate(one.operations, 1):
            if each.does == "w":
                own.add(each.key)
            elif each.key not in own and (one.label, number) not in self.at_fault and (each.key, each.value) not in self.twice:
                source = self.numbers[first[each.key, each.value][0].label] if each.value else 0
                reads.setdefault((each.key, source), Read(each.key, source, number, each.value))
        return sorted(reads.values(), key=lambda read: read.number)

    def all(self) -> range:
        return range(len(self.transactions))

    def is_session_pair(self, a: int, b: int) -> bool:
        return a != b and b != 0 and (a == 0 or (self.transactions[a].session == self.transactions[b].session and a < b))

    def is_read(self, a: int, b: int) -> bool:
        return any(read.source == a for read in self.reads[b])

    def reached(self) -> List[Set[int]]:
        """From each who is reached by one pair or more."""
        out = [{b for b in self.all() if self.is_session_pair(a, b) or self.is_read(a, b)} for a in self.all()]
        return [all_from(out, a) for a in self.all()]

    def contradicted(self, level: str) -> Optional[List[Contradicted]]:
        """All contradicted reads, or None where pairs are on a circle."""
        reach = self.reached()
        if any(number in reach[number] for number in self.all()):
            return None

        def knows(c: int, b: int) -> bool:
            return c in reach[b] if level == "causal" else self.is_session_pair(b, c) or self.is_read(b, c)

        found = []
        for c in self.all():
            for read in self.reads[c]:
                writers = [b for b in self.all() if b not in (0, read.source) and read.key in self.writes[b]
                           and knows(c, b) and b in reach[read.source]]
                if writers:
                    names = {b: self.name(c, read.key, b) for b in writers}
                    name = next(name for name in NAMES if name in names.values())
                    found.append(Contradicted(c, read, min(b for b in writers if names[b] == name), name))
        return found

    def is_circle(self, labels: List[str]) -> bool:
        """Whether each of these follows the next one in its session or reads from it, and the last one the first."""
        those = [self.numbers.get(label, 0) for label in labels]
        pairs = zip(those, those[1:] + those[:1])
        return 0 < len(those) == len(set(those)) and all(self.is_session_pair(b, c) or self.is_read(b, c) for c, b in pairs)

    def name(self, c: int, key: str, b: int) -> str:
        """The first name that fits c, a reader of the key, which didn't see the write of b."""
        up_to = [e for e in self.all() if e and (e == c or self.is_session_pair(e, c))]
        readers = [f for f in self.all() if any((read.key, read.source) == (key, b) for read in self.reads[f])]
        seen = [d for d in self.all() if any(self.is_read(d, e) for e in up_to)]
        fits = (self.is_session_pair(b, c), self.is_read(b, c), any(self.is_session_pair(e, c) for e in readers),
                any(self.is_session_pair(b, d) for d in seen),
                any(f == d or self.is_session_pair(f, d) for f in readers for d in seen), True)
        return NAMES[fits.index(True)]


def external_kind(one: Transaction, read: Operation, written: Optional[Tuple[Transaction, int]]) -> Optional[str]:
    """Why an external read of another value than the initial one can't be traced, if it can't."""
    if written is None:
        return "ThinAir"
    writer, number = written
    if writer is one:
        return "Future"
    if not writer.committed:
        return "Aborted"
    last = max(at for at, each in enumerate(writer.operations, 1) if (each.does, each.key) == ("w", read.key))
    return None if last == number else "Intermediate"


def all_from(out: List[Set[int]], start: int) -> Set[int]:
    """What is reached from a start by one pair or more."""
    reached: Set[int] = set()
    open_ones = list(out[start])
    while open_ones:
        one = open_ones.pop()
        if one not in reached:
            reached.add(one)
            open_ones += out[one]
    return reached


class Survey(NamedTuple):
    """What is printed: the contradicted reads, or None where pairs are on a circle, the faults, and how many reads are judged."""

    history: History
    contradicted: Optional[List[Contradicted]]

    def counts(self) -> List[Tuple[str, int]]:
        """How often each name occurs, by falling count."""
        counts = Counter(one.name for one in self.contradicted or ())
        return sorted(counts.items(), key=lambda pair: (-pair[1], NAMES.index(pair[0])))

    def reads(self) -> int:
        return sum(map(len, self.history.reads))

    def text(self) -> Iterator[str]:
        history, faults = self.history, self.history.faults
        for one in self.contradicted or ():
            yield "contradicted %s op %d %s %d: knew of %s, %s" % (
                history.label(one.reader), one.read.number, one.read.key, one.read.value, history.label(one.writer), one.name)
        if faults:
            yield "unresolved: %d faults" % len(faults)
        yield from (fault.line() for fault in faults)
        yield from ("%s: %d" % pair for pair in self.counts())
        yield "%d contradicted reads of %d, %d faults" % (len(self.contradicted or ()), self.reads(), len(faults))

    def json(self) -> Iterator[str]:
        history, faults = self.history, self.history.faults
        for one in self.contradicted or ():
            yield line_of({"contradicted": history.label(one.reader), "key": one.read.key, "name": one.name, "op": one.read.number,
                           "value": one.read.value, "writer": history.label(one.writer)})
        if faults:
            yield line_of({"answer": "unresolved", "faults": [fault.members() for fault in faults]})
        yield from (line_of({"count": count, "name": name}) for name, count in self.counts())
        yield line_of({"answer": "survey", "contradicted": len(self.contradicted or ()), "faults": len(faults), "reads": self.reads()})

    def status(self) -> int:
        if self.contradicted is None or self.contradicted:
            return 1
        return 2 if self.history.faults else 0


def line_of(value: Dict[str, object]) -> str:
    """A line of JSON, its keys in order."""
    return json.dumps(value, separators=(",", ":"), sort_keys=True)


def survey(records: str, level: str) -> Survey:
    """The survey of records."""
    history = History(records)
    return Survey(history, history.contradicted(level))
