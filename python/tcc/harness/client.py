"""A client of a round: it takes its turns at the nodes, and a recorder notes what it sees.

A client is one session over all its connections. Where one breaks, the session ends with it, unless the store promises to keep sessions
over connections; after an unknown outcome it ends in any case, which the recorder sees to.
"""
import contextlib
import random
import time
from dataclasses import dataclass
from typing import Callable, Collection, Dict, Iterator, NamedTuple, Optional, Sequence, Union

from tcc import Call, Recorder, Transaction
from tcc.harness.lag import Lag, Newest
from tcc.harness.store import Atomic, Connection, Found, Store

# So long a client waits before it connects again.
RECONNECT_SECONDS = 0.05


@dataclass(frozen=True)
class Pace:
    """How long a client waits, in seconds: after each turn, and after each statement of a transaction of several."""

    turn: float = 0.0
    statement: float = 0.002


class Before(NamedTuple):
    """When a read began, and the newest finished write of each of its keys by then."""

    begun: float
    newest: Dict[str, Newest]


class TurnOver(Exception):
    """The turn is over, and what it did so far is recorded: a connection broke, or the store refused a transaction."""


class Broken(TurnOver):
    """A connection broke, or there is none to be had."""


class Refused(TurnOver):
    """The store says that nothing of the transaction happened."""


class Client:
    """A client: its number, its share of chance, and its connections. `answered` counts the transactions that the store answered, `ended`
    those that are recorded, `refused` and `broken` the others, `late` the reads that lagged, and `went_back` those older than what the session
    itself had seen or written. `failed` says what nobody expected."""

    def __init__(self, store: Store, recorder: Recorder, number: int, lag: Lag, seed: int = 1, pace: Pace = Pace(), keeps_session: bool = False):
        self.store, self.recorder, self.number, self.lag, self.pace = store, recorder, number, lag, pace
        self.chance = random.Random("%d %d" % (seed, number))
        self.session = recorder.session("c%d" % number)
        self.keeps_session = keeps_session
        self.answered = self.ended = self.refused = self.broken = self.late = self.went_back = 0
        self.failed: Optional[str] = None
        self._open: Dict[str, Connection] = {}
        self._broke_in: Optional[str] = None  # the name of the session whose connection broke
        self._saw: Dict[str, Found] = {}  # the newest that this session saw or wrote
        self._saw_in = self.session.name

    def work(self, turn: Callable[["Client"], None], is_enough: Callable[["Client"], bool]) -> None:
        """Takes turns until it is enough, and lets its connections go."""
        try:
            while not is_enough(self):
                self.take(turn)
                time.sleep(self.pace.turn)
        finally:
            for node in list(self._open):
                self._close(node)

    def take(self, turn: Callable[["Client"], None]) -> bool:
        """Takes a turn; whether it came to its end."""
        try:
            turn(self)
            return True
        except Broken:
            time.sleep(RECONNECT_SECONDS)
            return False
        except TurnOver:
            return False

    # What a workload calls.

    def home(self) -> str:
        """The node of this client: the next one for the next client."""
        return self.store.nodes[self.number % len(self.store.nodes)]

    def some_node(self, but: Sequence[str] = ()) -> str:
        """Some node; another one than these where there is one."""
        return self.chance.choice([one for one in self.store.nodes if one not in but] or list(self.store.nodes))

    def do(self, node: str, reads: Sequence[str] = (), writes: Sequence[str] = ()) -> Dict[str, Found]:
        """Reads keys at a node and then writes others, as one transaction where the store does that, else one by one. Gives what it read."""
        if self.store.atomic is Atomic.TRANSACTION:
            return self._transaction(node, reads, writes)
        if self.store.atomic is Atomic.REQUEST and len(reads) + len(writes) > 1:
            return self._request(node, reads, writes)
        found = {key: self._read(node, key) for key in reads}
        for key in writes:
            self._write(node, key)
        return found

    def compare_and_set(self, node: str, key: str) -> bool:
        """Reads a key, and then writes it where it still has what was read; whether it does."""
        return self._swap(node, key, self._read(node, key))

    @contextlib.contextmanager
    def statements(self, node: str, reads: Sequence[str] = ()) -> Iterator["Statements"]:
        """A transaction of statements at a node, which commits at the end of the block; with the keys that it is going to read."""
        values: Dict[str, int] = {}
        before = self._before(reads)
        with self._at(node, values) as connection, self.session.transaction((Refused,)) as transaction:
            transaction.node = node
            one = Statements(self, connection, transaction, values)
            yield one
            begun = time.monotonic()
            transaction.committing()
            with self.asking(transaction):
                connection.commit()
        self._has_read(node, one.found, before)
        self._has_written(one.values, begun)

    # The transactions.

    def _read(self, node: str, key: str) -> Found:
        before = self._before([key])
        with self._at(node) as connection, self._call(node) as one:
            read = one.read(key)
            with self.asking(one):
                found = connection.read(key)
            read.returned(found.value, version=found.version)
        self._has_read(node, {key: found}, before)
        return found

    def _write(self, node: str, key: str) -> None:
        value = self.recorder.new_value()
        with self._at(node, [key]) as connection, self._call(node) as one:
            one.write(key, value)
            begun = time.monotonic()
            with self.asking(one):
                version = connection.write(key, value)
            note_version(one, version)
        self._has_written({key: value}, begun, version)

    def _swap(self, node: str, key: str, seen: Found) -> bool:
        value, before = self.recorder.new_value(), self._before([key])
        with self._at(node, [key]) as connection, self._call(node) as one:
            read, write = one.read(key), one.write(key, value)
            begun = time.monotonic()
            with self.asking(one):
                swap = connection.compare_and_set(key, seen, value)
            found = seen if swap.has_written else swap.found
            if found is not None:
                read.returned(found.value, version=found.version)
            if not swap.has_written:
                write.skipped()
            note_version(one, swap.version)
        self._has_read(node, {} if found is None else {key: found}, before)
        self._has_written({key: value} if swap.has_written else {}, begun, swap.version)
        return swap.has_written

    def _request(self, node: str, reads: Sequence[str], writes: Sequence[str]) -> Dict[str, Found]:
        values, before = {key: self.recorder.new_value() for key in writes}, self._before(reads)
        with self._at(node, writes) as connection, self._call(node) as one:
            asked = [one.read(key) for key in reads]
            for key, value in values.items():
                one.write(key, value)
            begun = time.monotonic()
            with self.asking(one):
                done = connection.request(reads, values)
            for read, each in zip(asked, done.found):
                read.returned(each.value, version=each.version)
            note_version(one, done.version)
        found = dict(zip(reads, done.found))
        self._has_read(node, found, before)
        self._has_written(values, begun, done.version)
        return found

    def _transaction(self, node: str, reads: Sequence[str], writes: Sequence[str]) -> Dict[str, Found]:
        with self.statements(node, reads) as one:
            for key in reads:
                one.read(key)
            for key in writes:
                one.write(key)
        return one.found

    @contextlib.contextmanager
    def _call(self, node: str) -> Iterator[Call]:
        with self.session.call((Refused,)) as one:
            one.node = node
            yield one

    @contextlib.contextmanager
    def asking(self, one: Union[Call, Transaction]) -> Iterator[None]:
        """What the store raises meanwhile ends the turn, and is noted; what a recorder raises is none of it."""
        try:
            yield
        except self.store.refused as error:
            one.note = said(error)
            raise Refused(one.note) from error
        except self.store.broken as error:
            one.note = said(error)
            raise Broken(one.note) from error

    # Connections.

    @contextlib.contextmanager
    def _at(self, node: str, writes: Collection[str] = ()) -> Iterator[Connection]:
        """The connection to a node, for one transaction; after one that broke the next is a new one."""
        connection, name = self.connection_to(node), self.session.name
        try:
            yield connection
        except Broken:
            self.ended += bool(writes)
            self._has_broken(node, name)
            raise
        except TurnOver:
            self.refused += 1
            self.ended += bool(writes)
            self._roll_back(node, connection)
            raise
        self.answered += 1
        self.ended += 1

    def connection_to(self, node: str) -> Connection:
        """The connection to a node. A new one begins a new session where the last one's connection broke, if that didn't end it already."""
        if node not in self._open:
            try:
                self._open[node] = self.store.connect(node)
            except self.store.broken as error:
                self.broken += 1
                raise Broken(said(error)) from error
            if self._broke_in == self.session.name:
                self.session.renew()
        return self._open[node]

    def _has_broken(self, node: str, session: str) -> None:
        """A connection of a session broke."""
        self.broken += 1
        self._close(node)
        if not self.keeps_session:
            self._broke_in = session

    def _roll_back(self, node: str, connection: Connection) -> None:
        if self.store.atomic is Atomic.TRANSACTION:
            try:
                connection.rollback()
            except self.store.broken as error:
                self._has_broken(node, self.session.name)
                raise Broken(said(error)) from error

    def _close(self, node: str) -> None:
        with contextlib.suppress(*self.store.broken):
            self._open.pop(node).close()

    # What lags.

    def _before(self, keys: Sequence[str]) -> Before:
        """What there is of keys that are about to be read."""
        begun = time.monotonic()
        return Before(begun, {key: self.lag.newest(key) for key in keys})

    def _has_read(self, node: str, found: Dict[str, Found], before: Before) -> None:
        for key, one in found.items():
            self.late += self.lag.read(node, key, one, before.newest[key], before.begun)
            self.went_back += self._sees(key, one)

    def _has_written(self, values: Dict[str, int], begun: float, version: Optional[int] = None) -> None:
        ended = time.monotonic()
        for key, value in values.items():
            self.lag.wrote(key, value, begun, ended, version)
            self._sees(key, Found(value, version))

    def _sees(self, key: str, found: Found) -> bool:
        """The session has seen or written this; whether it had seen something newer."""
        if self._saw_in != self.session.name:
            self._saw, self._saw_in = {}, self.session.name
        is_older = self.lag.is_older(key, found, self._saw.get(key, Found()))
        if not is_older:
            self._saw[key] = found
        return is_older


class Statements:
    """The statements of a transaction: what it `found` at the keys that it read first, and the `values` that it wrote."""

    def __init__(self, client: Client, connection: Connection, transaction: Transaction, values: Dict[str, int]):
        self.client, self.connection, self.transaction, self.values = client, connection, transaction, values
        self.found: Dict[str, Found] = {}

    def read(self, key: str) -> Found:
        with self.client.asking(self.transaction):
            found = self.connection.read(key)
        self.transaction.read(key, found.value, version=found.version)
        if key not in self.values:
            self.found.setdefault(key, found)
        time.sleep(self.client.pace.statement)
        return found

    def write(self, key: str) -> int:
        """Writes a new value."""
        value = self.client.recorder.new_value()
        self.transaction.write(key, value)
        self.values[key] = value
        with self.client.asking(self.transaction):
            self.connection.write(key, value)
        time.sleep(self.client.pace.statement)
        return value


def said(error: BaseException) -> str:
    """An error in a word or two: its type, and its number where it has one."""
    return " ".join([type(error).__name__, *(str(one) for one in error.args[:1] if isinstance(one, int))])


def note_version(one: Call, version: Optional[int]) -> None:
    if version is not None:
        one.versioned(version)
