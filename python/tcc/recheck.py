"""A second opinion about a certificate of `tcc`, in one file that shares nothing with it.

    python3 -m tcc.recheck [--large] HISTORY CERTIFICATE

It reads the records of HISTORY, and judges by the rules of docs/FORMATS.md whether CERTIFICATE is true of them. It needs neither the
program nor its toolchain nor the rest of this package, only Python 3.8 or later: this file may be copied alone, and read in an
evening. What it prints and its status are those of `tcc check`.

Nothing of it is proved. For N transactions of S sessions that read R times, and W writers of a key, an order costs about
N S + R (S + W) steps, and the tables of a cycle N (N + R) and R W. Of version 3, a claim that no cycle costs less takes, above a cost
of four, a breadth-first search from each transaction that a link leads back from.
"""
import argparse
import bisect
import csv
import heapq
import itertools
import os
import re
import sys
from operator import sub
from typing import Any, Dict, Iterable, Iterator, List, NamedTuple, NoReturn, Optional, Sequence, Set, Tuple

NAME = re.compile(r"[A-Za-z0-9_.-]{1,32}")
DECIMAL = re.compile(r"0|[1-9][0-9]*")
INIT = 0
Table = List[List[int]]
Place = Tuple[int, int]  # where a rule is broken; and any two transactions


class Ended(Exception):
    """The check ended before a certificate was accepted: what is printed, and the status."""

    def __init__(self, line: str, status: int) -> None:
        super().__init__(line)
        self.line, self.status = line, status


# Part 1: records.


class Limits(NamedTuple):
    sessions: int
    transactions: int
    keys: int
    seals: int
    bytes: int


SMALL = Limits(64, 4095, 1024, 256, 1 << 27)
LARGE = Limits(65535, 16777215, 16777216, 1 << 20, 1 << 34)
MOST_OPERATIONS = 256
MOST_VALUE = 2**64 - 1


class Operation(NamedTuple):
    is_write: bool
    key: str
    value: int


class Transaction(NamedTuple):
    committed: bool
    operations: List[Operation]


class Records:
    """What lawful records come to: the finished transactions of each session, and those that are under way or of unknown outcome."""

    def __init__(self, limits: Limits) -> None:
        self.limits, self.begun, self.seals = limits, 0, 0
        self.sessions: Set[str] = set()
        self.keys: Set[str] = set()
        self.finished: Dict[str, List[Transaction]] = {}
        self.under_way: Dict[str, List[Operation]] = {}
        self.unknown: Dict[str, List[Operation]] = {}

    def own_fault(self, fields: List[str]) -> Optional[str]:
        """The kind of fault that a record shows by itself."""
        if len(fields) not in (1, 2, 4):
            return "FieldCount"
        if len(fields) == 1:
            return None if fields == ["seal"] else "UnknownWord"
        if not NAME.fullmatch(fields[0]):
            return "BadSession"
        if fields[1] not in (("begin", "commit", "abort", "unknown") if len(fields) == 2 else ("r", "w")):
            return "UnknownWord"
        if len(fields) == 2:
            return None
        if not NAME.fullmatch(fields[2]):
            return "BadKey"
        if not DECIMAL.fullmatch(fields[3]) or len(fields[3]) > 20 or int(fields[3]) > MOST_VALUE:
            return "BadValue"
        return "WriteOfZero" if fields[1] == "w" and fields[3] == "0" else None

    def later_fault(self, fields: List[str]) -> Optional[str]:
        """The kind of fault of such a record after those before it."""
        if fields == ["seal"]:
            return "TooManySeals" if self.seals == self.limits.seals else None
        session, is_begin = fields[0], fields[1] == "begin"
        if session in self.unknown:
            return "SessionEnded"
        if not is_begin and session not in self.under_way:
            return "NotBegun"
        if is_begin and session in self.under_way:
            return "AlreadyBegun"
        if len(fields) == 4 and len(self.under_way[session]) == MOST_OPERATIONS:
            return "TooManyOps"
        if is_begin and session not in self.sessions and len(self.sessions) == self.limits.sessions:
            return "TooManySessions"
        if is_begin and self.begun == self.limits.transactions:
            return "TooManyTransactions"
        if len(fields) == 4 and fields[2] not in self.keys and len(self.keys) == self.limits.keys:
            return "TooManyKeys"
        return None

    def take(self, fields: List[str]) -> None:
        """Takes a record without fault."""
        session, word = (fields + [""])[:2]
        if fields == ["seal"]:
            self.seals += 1
        elif word == "begin":
            self.begun += 1
            self.sessions.add(session)
            self.under_way[session] = []
        elif word in ("r", "w"):
            self.keys.add(fields[2])
            self.under_way[session].append(Operation(word == "w", fields[2], int(fields[3])))
        elif word == "unknown":
            self.unknown[session] = [one for one in self.under_way.pop(session) if one.is_write]
        else:
            self.finished.setdefault(session, []).append(Transaction(word == "commit", self.under_way.pop(session)))

    def settle(self) -> None:
        """A transaction of unknown outcome committed, with its writes alone, where somebody who committed read one of them."""
        read = {(one.key, one.value) for every in self.finished.values() for each in every if each.committed
                for one in each.operations if not one.is_write}
        for session, writes in self.unknown.items():
            if any((one.key, one.value) in read for one in writes):
                self.finished.setdefault(session, []).append(Transaction(True, writes))


def lines_within(file: Iterable[str], most: int) -> Iterator[str]:
    """The lines of a file, up to the limit on bytes; where there are more, that is an error of reading."""
    for number, line in enumerate(file):
        most -= len(line)
        if most < 0:
            raise OSError("too many bytes")
        yield (line[3:] if number == 0 and line.startswith("\xef\xbb\xbf") else line).replace("\0", "?")


def read_records(number: int, limits: Limits) -> Dict[str, List[Transaction]]:
    """The finished transactions of each session, by its name, from an open file."""
    taken, row = Records(limits), 0
    csv.field_size_limit(sys.maxsize)
    try:
        with os.fdopen(number, encoding="latin-1", newline="") as file:
            for fields in filter(None, csv.reader(lines_within(file, limits.bytes))):
                row += 1
                fault = taken.own_fault(fields) or taken.later_fault(fields)
                if fault:
                    raise Ended("row %d: %s" % (row, fault), 4 if fault.startswith("TooMany") else 3)
                taken.take(fields)
    except OSError:
        raise Ended("row %d: Read" % (row + 1), 6) from None
    if taken.under_way:
        raise Ended("row %d: Unfinished %s" % (row, min(taken.under_way)), 3)
    taken.settle()
    return taken.finished


# Part 2: who read from whom.


class Written(NamedTuple):
    """The first write of a value at a key."""

    at: Tuple[str, int, int]  # session, place and operation, the last two from 1
    committed: bool
    is_last: bool  # of its transaction at the key


Writers = Dict[Tuple[str, int], Written]


def located(sessions: Dict[str, List[Transaction]]) -> Iterator[Tuple[str, int, Transaction]]:
    """All transactions by session and place."""
    for name in sorted(sessions):
        for place, each in enumerate(sessions[name], 1):
            yield name, place, each


def first_writes(sessions: Dict[str, List[Transaction]]) -> Writers:
    writers: Writers = {}
    for name, place, each in located(sessions):
        last = {one.key: op for op, one in enumerate(each.operations, 1) if one.is_write}
        for op, one in enumerate(each.operations, 1):
            if one.is_write:
                writers.setdefault((one.key, one.value), Written((name, place, op), each.committed, last[one.key] == op))
    return writers


def read_fault(one: Operation, own: Dict[str, int], at: Tuple[str, int], writer: Optional[Written]) -> Optional[str]:
    """The kind of fault of a committed transaction's read, with what that had written before it."""
    if one.key in own:
        return None if own[one.key] == one.value else "BrokenInternal"
    if one.value == 0:
        return None
    if writer is None:
        return "ThinAir"
    if not writer.committed:
        return "Aborted"
    if writer.at[:2] == at:
        return "Future"
    return None if writer.is_last else "Intermediate"


def faults(sessions: Dict[str, List[Transaction]], writers: Writers) -> Iterator[str]:
    """The lines of all operations that can't be judged."""
    for name, place, each in located(sessions):
        own: Dict[str, int] = {}
        for op, one in enumerate(each.operations, 1):
            writer, kind = writers.get((one.key, one.value)), None
            if one.is_write:
                kind = None if writer and writer.at == (name, place, op) else "Duplicate"
                own[one.key] = one.value
            elif each.committed:
                kind = read_fault(one, own, (name, place), writer)
            if kind:
                yield "%s %s/%d op %d %s %d" % (kind, name, place, op, one.key, one.value)


def external_reads(one: Transaction) -> Iterator[Operation]:
    """The reads of keys that the transaction hasn't written before."""
    own: Set[str] = set()
    for each in one.operations:
        if each.is_write:
            own.add(each.key)
        elif each.key not in own:
            yield each


class History:
    """What is judged. Transactions are numbered: 0 is `init`, then come the committed ones by session and place."""

    def __init__(self, sessions: Dict[str, List[Transaction]]) -> None:
        writers = first_writes(sessions)
        wrong = list(faults(sessions, writers))
        if wrong:
            raise Ended("\n".join(["unresolved: %d faults" % len(wrong), *wrong]), 2)
        self.sessions = len(sessions)
        self.is_small = self.sessions <= SMALL.sessions and sum(map(len, sessions.values())) <= SMALL.transactions
        committed = [each for each in located(sessions) if each[2].committed]
        self.count = len(committed) + 1
        names = {name: session for session, name in enumerate(sorted(sessions))}
        self.owner = [-1] + [names[name] for name, _, _ in committed]
        self.place = [0] + [place for _, place, _ in committed]
        self.writes: List[Set[str]] = [set()]
        self.writes += [{one.key for one in each.operations if one.is_write} for _, _, each in committed]
        number = {(name, place): t for t, (name, place, _) in enumerate(committed, 1)}
        self.reads: List[Set[Tuple[str, int]]] = [set()]
        self.reads += [{(one.key, number[writers[one.key, one.value].at[:2]] if one.value else INIT) for one in external_reads(each)}
                       for _, _, each in committed]
        self.sources = [{a for _, a in reads} for reads in self.reads]
        self.readers: Table = [[] for _ in range(self.count)]
        for a, c in self.read_pairs():
            self.readers[a].append(c)
        self.writers: Dict[str, List[int]] = {}
        for t, key in ((t, key) for t in range(self.count) for key in self.writes[t]):
            self.writers.setdefault(key, []).append(t)

    def span(self, session: int) -> range:
        """The numbers of a session's transactions."""
        return range(bisect.bisect_left(self.owner, session), bisect.bisect_right(self.owner, session))

    def is_session_pair(self, a: int, b: int) -> bool:
        return a < b and (a == INIT or self.owner[a] == self.owner[b])

    def is_pair(self, a: int, b: int) -> bool:
        return self.is_session_pair(a, b) or a in self.sources[b]

    def read_pairs(self) -> Iterator[Place]:
        return ((a, c) for c in range(self.count) for a in self.sources[c])

    def last_before(self, c: int) -> int:
        """The one before c in its session, or `init`."""
        return c - 1 if self.is_session_pair(c - 1, c) else INIT

    def contests(self) -> Iterator[Tuple[int, int, int]]:
        """All (b, a, c) where c reads a key from a, and b, another one, writes it too. (`init` as b is before a in any case.)"""
        return ((b, a, c) for c in range(self.count) for key, a in self.reads[c] for b in self.writers.get(key, ()) if b != a)


# Part 3: the text of a certificate.


class Link(NamedTuple):
    kind: str  # S, R or D
    start: int
    end: int
    key: str = ""
    reader: int = 0
    walk: Tuple[Any, ...] = ()  # of links

    def cost(self) -> int:
        return len(self.walk) + 1 if self.kind == "D" else 1


class Range(NamedTuple):
    least: int
    most: int


class Form(NamedTuple):
    """What numbers of each kind may be, and the bytes of a line after the first."""

    size: Range  # of transactions, links and steps
    number: Range  # of a transaction
    sessions: Range
    cost: Range
    bytes: int


FORMS = {1: Form(Range(1, 1024), Range(0, 1023), Range(0, 64), Range(0, 1049600), 8191),
         2: Form(Range(1, 4096), Range(0, 4095), Range(0, 64), Range(0, 16781312), 36863),
         3: Form(Range(1, 16777216), Range(0, 16777215), Range(0, 65535), Range(0, 4294967295), 127)}
SESSION, LENGTH = Range(0, 65534), Range(1, 16777215)  # of a run
KEY = Range(0, -1)  # marks a word that is no number
HEADERS = {"tcc-certificate 1": (1, "causal"), "tcc-certificate 1 atomic": (1, "atomic"),
           "tcc-certificate 2 causal": (2, "causal"), "tcc-certificate 2 atomic": (2, "atomic"),
           "tcc-certificate 3 causal": (3, "causal"), "tcc-certificate 3 atomic": (3, "atomic")}
FIRST_LINE = 8191
MOST_BYTES = 1 << 30
NUMBERS = re.compile(r"(?:0|[1-9][0-9]{0,9})(?: (?:0|[1-9][0-9]{0,9}))*")


class Text:
    """The lines of a certificate, one after the other, from an open file."""

    def __init__(self, number: int) -> None:
        self.row, self.left, self.most = 0, MOST_BYTES, FIRST_LINE
        try:
            self.file = os.fdopen(number, "rb")
        except OSError:
            self.row = 1
            self.fail("Read")

    def fail(self, kind: str) -> NoReturn:
        raise Ended("certificate line %d: %s" % (self.row, kind), 6 if kind == "Read" else 8)

    def bytes(self, most: int) -> bytes:
        """The next line with its line feed, cut after `most` bytes."""
        self.row += 1
        try:
            line = self.file.readline(min(most, self.left + 1))
        except OSError:
            self.fail("Read")
        if len(line) > self.left:
            self.fail("Read")
        self.left -= len(line)
        return line

    def line(self) -> str:
        line = self.bytes(self.most + 1)
        if not line.endswith(b"\n"):
            self.fail("TooLarge" if len(line) > self.most else "Truncated")
        return line[:-1].decode("latin-1")

    def value(self, word: str, kind: Range) -> Any:
        """A key, or a number in a range. Below a range is only 0."""
        if kind == KEY:
            return word if NAME.fullmatch(word) else self.fail("Word")
        if not DECIMAL.fullmatch(word) or (word == "0" and kind.least > 0):
            self.fail("Number")
        return int(word) if len(word) <= 10 and int(word) <= kind.most else self.fail("TooLarge")

    def values(self, words: Sequence[str], kinds: Sequence[Range]) -> List[Any]:
        if len(words) != len(kinds):
            self.fail("Count")
        return [self.value(word, kind) for word, kind in zip(words, kinds)]

    def numbers(self, kinds: Sequence[Range]) -> List[int]:
        """A line of numbers alone."""
        line = self.line()
        words = line.split(" ") if line else []
        if len(words) == len(kinds) and NUMBERS.fullmatch(line):
            numbers = list(map(int, words))
            if all(kind.least <= number <= kind.most for kind, number in zip(kinds, numbers)):
                return numbers
        return self.values(words, kinds)

    def form(self, **kinds: Sequence[Range]) -> Tuple[str, List[Any]]:
        """The first word of a line, one of these, and the values after it."""
        first, *words = self.line().split(" ")
        if first not in kinds:
            self.fail("Word")
        return first, self.values(words, kinds[first])

    def end(self) -> None:
        """That nothing comes after the line `end`."""
        if self.bytes(1):
            self.fail("Trailing")


class Claim:
    """What a certificate says; what its form has no place for is empty, and `runs` is None."""

    def __init__(self, text: Text, versions: Sequence[int]) -> None:
        self.version, self.level = HEADERS.get(text.line(), (0, ""))
        if self.version not in versions:
            text.fail("Header")
        self.form = FORMS[self.version]
        text.most = self.form.bytes
        self.sessions = self.cost = 0
        self.links: List[Link] = []
        self.order: List[int] = []
        self.clocks: Table = []
        self.near: Table = []
        self.far: Table = []
        self.runs: Optional[Table] = None
        size, runs = self.form.size, [self.form.number] * (self.version == 3)
        self.kind, (self.count, second, *third) = text.form(order=[size, self.form.sessions, *runs], cycle=[size, size, self.form.cost])
        if self.kind == "cycle":
            self.cost, self.links = third[0], [self.read_link(text) for _ in range(second)]
            self.read_proof(text)
        else:
            self.sessions = second
            self.read_order(text, *third)
        text.end()

    def read_order(self, text: Text, runs: int = 0) -> None:
        if self.version == 3:
            self.read_runs(text, runs)
            return
        self.order = text.numbers([self.form.number] * self.count)
        if self.level == "causal":
            text.form(clocks=())
            kinds = [self.form.number] * self.sessions
            self.clocks = [text.numbers(kinds) for _ in range(self.count)]
        text.form(end=())

    def read_runs(self, text: Text, count: int) -> None:
        self.runs = [text.numbers((SESSION, LENGTH)) for _ in range(count)]
        text.form(end=())

    def read_link(self, text: Text) -> Link:
        number, pair = self.form.number, [self.form.number, self.form.number]
        kind, values = text.form(S=pair, R=[*pair, KEY], D=[*pair, KEY, number, self.form.size])
        if kind != "D":
            return Link(kind, *values)
        steps = [text.form(S=pair, R=[*pair, KEY]) for _ in range(values[4])]
        start, end, key, reader, _ = values
        return Link(kind, start, end, key, reader, tuple(Link(step, *ends) for step, ends in steps))

    def read_proof(self, text: Text) -> None:
        """What shows that no cycle costs less: in versions 1 and 2 two tables, in version 3 runs, where that is claimed."""
        if self.version == 3:
            word, many = text.form(least=[self.form.number], end=())
            if word == "least":
                self.read_runs(text, many[0])
            return
        kinds = [self.form.cost] * self.count
        text.form(near=())
        self.near = [text.numbers(kinds) for _ in range(self.count)]
        text.form(far=())
        self.far = [text.numbers(kinds[s if self.version == 2 else 0:]) for s in range(self.count)]
        text.form(end=())


# Part 4: the rules. Each function yields rules in order, each with all the places where it is broken.

Rule = Tuple[int, Iterable[Place]]
NOWHERE = (0, 0)


def unless(kept: bool) -> List[Place]:
    return [] if kept else [NOWHERE]


def is_step(history: History, step: Link) -> bool:
    if step.kind == "S":
        return history.is_session_pair(step.start, step.end)
    return (step.key, step.start) in history.reads[step.end]


def is_link(history: History, level: str, link: Link) -> bool:
    if link.kind != "D":
        return is_step(history, link)
    begins, ends = [step.start for step in link.walk], [step.end for step in link.walk]
    return (link.start != link.end and (link.key, link.end) in history.reads[link.reader]
            and (link.start == INIT or link.key in history.writes[link.start])
            and begins + [link.reader] == [link.start] + ends and all(is_step(history, step) for step in link.walk)
            and (level == "causal" or len(link.walk) == 1))


def are_below(links: Iterable[Link], count: int) -> bool:
    return all(max(link.start, link.end, link.reader) < count and are_below(link.walk, count) for link in links)


def link_rule(history: History, claim: Claim) -> Rule:
    """Rule 2: the links are links, make a cycle, and cost what is claimed."""
    before = [link.end for link in claim.links[-1:] + claim.links[:-1]]
    wrong = [(i, 0) for i, (end, link) in enumerate(zip(before, claim.links), 1)
             if link.start != end or not is_link(history, claim.level, link)]
    return 2, wrong or unless(sum(link.cost() for link in claim.links) == claim.cost)


def columns(rows: Table, lowest: bool) -> Table:
    """Column v of a table has a number of each row s; where row s begins at its own number, of each s up to v."""
    made: Table = [[] for _ in rows]
    for s, row in enumerate(rows):
        for column, number in zip(made[s if lowest else 0:], row):
            column.append(number)
    return made


def above(column: List[int], other: List[int], more: int) -> List[int]:
    """The rows that both have, in which a number is greater than the other one and so much."""
    if max(map(sub, column, other), default=0) <= more:
        return []
    return [s for s, (number, least) in enumerate(zip(column, other)) if number > least + more]


def above_pairs(history: History, made: Table) -> Iterator[Place]:
    """Where column c has a number greater by two than that of a transaction from which a pair leads to c."""
    session: List[int] = []
    for c in range(1, history.count):
        if history.last_before(c) == INIT:
            session = made[INIT]  # and then in each row the least number of `init` and of the session before c
        yield from ((s, c) for least in [session, *(made[a] for a in history.sources[c])] for s in above(made[c], least, 1))
        session = [min(pair) for pair in zip(session, made[c])] + made[c][len(session):]


def derived_prices(history: History, near: Table, cost: int) -> Dict[Place, int]:
    """Derived links by both ends, and what the cheapest costs by a table, where that is less than what no number is above."""
    prices: Dict[Place, int] = {}
    for b, a, c in history.contests():
        prices[b, a] = min(1 + near[b][c], prices.get((b, a), cost))
    return {link: price for link, price in prices.items() if price < cost}


def cycle_rules(history: History, claim: Claim) -> Iterator[Rule]:
    """Rules 1 to 7 of versions 1 and 2."""
    cost, near = claim.cost, claim.near
    yield 1, unless(claim.count == history.count and are_below(claim.links, history.count) and history.is_small
                    and max(itertools.chain(*near, *claim.far)) <= cost)
    yield link_rule(history, claim)
    numbers = range(history.count)
    yield 3, ((a, c) for c in numbers for a in numbers if near[a][c] > 1 and history.is_pair(a, c))
    yield 4, above_pairs(history, columns(near, False)) if claim.level == "causal" else []
    lowest = claim.version == 2
    far = columns(claim.far, lowest)
    derived = derived_prices(history, near, cost)
    yield 5, itertools.chain(
        ((s, v) for v in numbers for s in range(v + 1 if lowest else history.count) if far[v][s] > 1 and history.is_pair(s, v)),
        ((s, v) for (s, v), price in derived.items() if s < len(far[v]) and far[v][s] > price))
    yield 6, itertools.chain(above_pairs(history, far),
                             ((s, v) for (u, v), price in derived.items() for s in above(far[v], far[u], price)))
    yield 7, ((s, s) for s in numbers if far[s][s] < cost)


def order_rules(history: History, claim: Claim) -> Iterator[Rule]:
    """Rules 1, 8 and 9 of versions 1 and 2."""
    clocks, owner, place = claim.clocks, history.owner, history.place
    yield 1, unless(claim.count == history.count and claim.sessions == history.sessions and history.is_small)
    yield 8, unless(sorted(claim.order) == list(range(history.count)) and keeps_pairs(history, claim))
    at = places(claim.order)
    yield 9, ((b, a) for b, a, c in history.contests() if at[b] > at[a]
              and (clocks[c][owner[b]] >= place[b] if clocks else history.is_pair(b, c)))


def places(order: List[int]) -> List[int]:
    """Where each transaction is in an order."""
    return [place for _, place in sorted((t, place) for place, t in enumerate(order))]


def keeps_pairs(history: History, claim: Claim) -> bool:
    """Whether each pair (b, c) is in order, no clock falls along it, and c's clock has b. In a session neighbours do for all."""
    at, clocks = places(claim.order), claim.clocks
    for c in range(1, history.count):
        for b in [history.last_before(c), *history.sources[c]]:
            if at[b] > at[c]:
                return False
            if clocks and any(x > y for x, y in zip(clocks[b], clocks[c])):
                return False
            if clocks and b != INIT and clocks[c][history.owner[b]] < history.place[b]:
                return False
    return True


def in_runs(history: History, runs: Table) -> Optional[List[int]]:
    """The order of runs; None where one is of no session, or a session's runs don't come to its transactions."""
    left = {session: history.span(session) for session in range(history.sessions)}
    order = [INIT]
    for session, length in runs:
        if length > len(left.get(session, ())):
            return None
        order += left[session][:length]
        left[session] = left[session][length:]
    return None if any(map(len, left.values())) else order


LANES = 64


def reasons(history: History, order: List[int]) -> Iterator[Tuple[int, int, int]]:
    """Those (b, a, c) of the contests where a walk of any length leads from b to c. The order keeps all pairs, so clocks can be made
    along it, of 64 sessions at a time: the last transaction of each from which a walk leads."""
    for first in range(0, history.sessions, LANES):
        clocks: Table = [[INIT] * LANES] * history.count
        for c in order[1:]:
            for b in {history.last_before(c), *history.sources[c]}:
                clocks[c] = [max(pair) for pair in zip(clocks[c], clocks[b])]
                if 0 <= history.owner[b] - first < LANES:
                    clocks[c][history.owner[b] - first] = max(b, clocks[c][history.owner[b] - first])
        low, high = history.span(first).start, history.span(min(first + LANES, history.sessions) - 1).stop
        for c in range(history.count):
            for key, a in history.reads[c]:
                writers = history.writers.get(key, [])
                for b in writers[bisect.bisect_left(writers, low):bisect.bisect_left(writers, high)]:
                    if b != a and b <= clocks[c][history.owner[b] - first]:
                        yield b, a, c


def runs_rules(history: History, claim: Claim) -> Iterator[Rule]:
    """Rules 1, 8 and 9 of version 3."""
    order = in_runs(history, claim.runs or [])
    yield 1, unless(claim.count == history.count and claim.sessions == history.sessions and order is not None)
    at = places(order or [])
    yield 8, ((a, c) for a, c in history.read_pairs() if at[a] > at[c])
    if claim.level == "causal":
        yield 9, ((b, a) for b, a, _ in reasons(history, order or []) if at[b] > at[a])
    else:
        yield 9, ((b, a) for b, a, c in history.contests() if at[b] > at[a] and history.is_pair(b, c))


MOST_JUDGED = 4  # up to this cost it is judged without an order that no cycle costs less
MOST_STEPS, MOST_MEMBERS, MOST_SWEPT = 64, 4096, 262144


def least_rules(history: History, claim: Claim) -> Iterator[Rule]:
    """Rules 1 to 7 of version 3."""
    cost, runs = claim.cost, claim.runs
    order = None if runs is None or cost <= MOST_JUDGED else in_runs(history, runs)
    yield 1, unless(claim.count == history.count and are_below(claim.links, history.count)
                    and (runs is None or (order is not None if cost > MOST_JUDGED else runs == [])))
    yield link_rule(history, claim)
    if runs is None:
        return
    is_pair = history.is_pair
    if cost in (3, 4):
        yield 3, ((a, c) for a, c in history.read_pairs()
                  if is_pair(c, a) or (cost == 4 and any(is_pair(c, d) for d in history.sources[a])))
    if cost == 4:
        yield 4, ((b, a) for b, a, c in history.contests() if is_pair(a, b) and is_pair(b, c))
    if order is not None:
        at = places(order)
        yield 5, ((a, c) for a, c in history.read_pairs() if at[a] > at[c])
        cheaper = Cheaper(history, order, cost, claim.level)
        yield 6, unless(cheaper.is_bounded())
        yield 7, unless(not cheaper.is_there())


class Cheaper:
    """Looks for a cycle that costs less than a claimed one, along an order that keeps all pairs. Through `init` the cheapest is a session
    pair and a derived link back. Any other has a closing: a derived link that leads back in the order, and not into `init`. It lies
    among the members, which the closings span and which are near them."""

    def __init__(self, history: History, order: List[int], cost: int, level: str) -> None:
        self.history, self.order, self.cost, self.level = history, order, cost, level
        self.at = places(order)
        self.into_init = cost  # or what the cheapest derived link into it costs
        self.closings: Dict[Place, int] = {}
        self.members: Set[int] = set()

    def is_bounded(self) -> bool:
        """Whether the counts of rule 6 are kept."""
        if self.cost > MOST_STEPS:
            return False
        history, at = self.history, self.at
        back = {(b, a) for b, a, _ in reasons(history, self.order) if at[b] > at[a]}
        from_init = {key for b, a, c in reasons(history, self.order) if a == INIT
                     for key, source in history.reads[c] if source == INIT and key in history.writes[b]}
        self.price({b for b, _ in back})
        aside = {(b, a) for b, a in back if a != INIT}
        stretches = merged([(at[a], at[b]) for b, a in aside])
        spanned = {self.order[place] for first, last in stretches for place in range(first, last + 1)}
        self.members = spanned & self.near()
        return (len({b for b, _ in aside}) <= MOST_SWEPT // self.cost
                and max(len({a for _, a in aside}), len(self.members), len(from_init)) <= MOST_MEMBERS)

    def price(self, begins: Set[int]) -> None:
        """What closings from these cost, and what the cheapest derived link into `init` does."""
        for b, a, price in ((b, a, price) for b in begins for a, price in self.derived(b).items()):
            if a == INIT:
                self.into_init = min(self.into_init, price)
            elif self.at[b] > self.at[a]:
                self.closings[b, a] = price

    def derived(self, b: int) -> Dict[int, int]:
        """To which transactions derived links lead from b, and what the cheapest costs, if a cycle with it can cost less."""
        prices: Dict[int, int] = {}
        for c, length in self.walks(b).items():
            for key, a in self.history.reads[c]:
                if a != b and key in self.history.writes[b]:
                    prices[a] = min(length + 1, prices.get(a, length + 1))
        return prices

    def walks(self, b: int) -> Dict[int, int]:
        """To which transactions walks of the level lead from b, and in how many steps at least: breadth first, so far as a derived link
        and one step more cost less than the claim. What comes later in a session is one step away, so it is looked at once."""
        steps: Dict[int, int] = {}
        looked_at: Dict[int, int] = {}
        level = [b]
        for length in range(1, self.cost - 2 if self.level == "causal" else 2):
            met: List[int] = []
            for t in level:
                owner = self.history.owner[t]
                stop = looked_at.get(owner, self.history.span(owner).stop)
                looked_at[owner] = min(stop, t + 1)
                met += {c for c in (*range(t + 1, stop), *self.history.readers[t]) if c not in steps}
                steps.update((c, length) for c in met if c not in steps)
            level = met
        return steps

    def near(self) -> Set[int]:
        """Those for which three costs come to less than the claim: forward to it from the end of a closing, onward from it to where one
        begins, and that one's price."""
        ends = {a for _, a in self.closings}
        first_end = {self.history.owner[a]: a for a in sorted(ends, reverse=True)}
        prices: Dict[int, int] = {}
        for (b, _), price in self.closings.items():
            prices[b] = min(price, prices.get(b, price))
        near = set()
        for first, last in merged([(self.at[a], self.at[b]) for b, a in self.closings]):
            onward = self.cost
            for v in self.order[last:first - 1:-1]:
                is_next = first_end.get(self.history.owner[v], v) < v or not ends.isdisjoint(self.history.sources[v])
                forward = 0 if v in ends else 1 if is_next else 2
                if forward + min(prices.get(v, onward), onward) < self.cost:
                    near.add(v)
                onward = min(onward, 1 + prices.get(v, onward))
        return near

    def is_there(self) -> bool:
        """Whether there is a cheaper cycle: a closing, and a route from its end to its beginning."""
        if 1 + self.into_init < self.cost:
            return True
        links = {u: {v: 1 for v in self.members if self.history.is_pair(u, v)} for u in self.members}
        for u in self.members:
            for a, price in self.derived(u).items():
                if a in self.members:
                    links[u][a] = min(price, links[u].get(a, price))
        routes = {a: shortest(links, a, self.cost) for _, a in self.closings if a in self.members}
        return any(routes.get(a, {}).get(b, self.cost) + price < self.cost for (b, a), price in self.closings.items())


def merged(stretches: List[Place]) -> List[Place]:
    """Stretches with those that meet made one."""
    made: List[Place] = []
    for first, last in sorted(stretches):
        if made and first <= made[-1][1]:
            made[-1] = made[-1][0], max(made[-1][1], last)
        else:
            made.append((first, last))
    return made


def shortest(links: Dict[int, Dict[int, int]], start: int, most: int) -> Dict[int, int]:
    """What is reached from a start for less than so much, and at which cost (Dijkstra)."""
    costs: Dict[int, int] = {}
    waiting = [(0, start)]
    while waiting:
        cost, at = heapq.heappop(waiting)
        if at not in costs:
            costs[at] = cost
            for end, more in links[at].items():
                if cost + more < most:
                    heapq.heappush(waiting, (cost + more, end))
    return costs


RULES = {("order", False): order_rules, ("cycle", False): cycle_rules, ("order", True): runs_rules, ("cycle", True): least_rules}


def verdict(history: History, claim: Claim) -> str:
    """The line about a certificate, by the first broken rule and its first place."""
    for rule, broken in RULES[claim.kind, claim.version == 3](history, claim):
        place = min(broken, default=None)
        if place is not None:
            raise Ended("rejected: rule %d at %d %d" % (rule, *place), 7)
    if claim.kind == "order":
        return "accepted: order"
    return "accepted: cycle, %d steps%s" % (claim.cost, ", least not claimed" if claim.version == 3 and claim.runs is None else "")


# Part 5: the command.


def checked(history: str, certificate: str, is_large: bool) -> Tuple[str, int]:
    """What `tcc check` of these files prints, and its status."""
    try:
        records, text = (os.open(path, os.O_RDONLY) for path in (history, certificate))
    except OSError as error:
        print("%s: %s" % (error.filename, error.strerror), file=sys.stderr)
        return "device", 6
    try:
        judged = History(read_records(records, LARGE if is_large else SMALL))
        return verdict(judged, Claim(Text(text), (1, 2, 3) if is_large else (1, 2))), 0
    except Ended as ended:
        return ended.line, ended.status


class Arguments(argparse.ArgumentParser):
    """A wrong command line ends with 64, as that of `tcc` does."""

    def error(self, message: str) -> NoReturn:
        self.exit(64, "%s%s: %s\n" % (self.format_usage(), self.prog, message))


def main() -> int:
    ask = Arguments(prog="tcc.recheck", description="Judges a certificate of tcc by its rules alone, without tcc.")
    ask.add_argument("--large", action="store_true", help="a history above the default limits, or a certificate of version 3")
    ask.add_argument("history", metavar="HISTORY", help="the records")
    ask.add_argument("certificate", metavar="CERTIFICATE", help="what tcc explain --certificate wrote about them")
    asked = ask.parse_args()
    line, status = checked(asked.history, asked.certificate, asked.large)
    print(line)
    return status


if __name__ == "__main__":
    sys.exit(main())
