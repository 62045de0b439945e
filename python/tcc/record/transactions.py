"""What one client does in a session: transactions, calls, and what is noted of them while they are under way."""
import abc
import contextlib
import operator
from typing import Any, ContextManager, Iterator, List, Optional, Set, Tuple, Type, TypeVar, Union

from tcc.common.appended import NoRecord
from tcc.common.rows import GREATEST_VALUE, NAME
from tcc.record.known import Operation

# What a transaction did, and how it ended.
Part = Tuple[List[Operation], str]
Refusals = Tuple[Type[BaseException], ...]
UNKNOWN = "unknown"
# What a session is called at first is shorter, so that there is room for a number after it.
STEM_LENGTH = 24
TWICE = "a write of %s = %d, which was written before: each value is written once at a key"


def checked_name(name: str) -> str:
    if not isinstance(name, str) or not NAME.fullmatch(name):
        raise NoRecord("%r is no name: 1 to 32 of A-Z, a-z, 0-9, _, . and -" % (name,))
    return name


def checked_value(value: Any, least: int, what: str) -> int:
    """A value as a whole number; of a text, a fraction or a truth value none is made."""
    with contextlib.suppress(TypeError):
        if not isinstance(value, bool) and least <= operator.index(value) <= GREATEST_VALUE:
            return operator.index(value)
    raise NoRecord("%s of %r: values are whole numbers of 64 bits, from %d" % (what, value, least))


def value_read(value: Optional[int]) -> int:
    return checked_value(0 if value is None else value, 0, "a read")


class Recording(abc.ABC):
    """What a session has of its recorder: names and values that nothing else has, and a place for what its transactions do."""

    @abc.abstractmethod
    def new_value(self) -> int:
        """A value that this recorder never gave before."""

    def session(self, name: str, node: str = "") -> "Session":
        """A new session: of that name, or where that one was used, of the next of NAME.2, NAME.3 and so on."""
        if len(checked_name(name)) > STEM_LENGTH:
            raise NoRecord("%s has more than %d bytes, so there is no room for a number after it" % (name, STEM_LENGTH))
        return Session(self, name, node)

    @abc.abstractmethod
    def _new_name(self, stem: str) -> str:
        """A name for a session, which nothing else has."""

    def _begin(self) -> None:
        """A transaction begins."""

    def _done(self) -> None:
        """It has ended, and was noted."""

    @abc.abstractmethod
    def _note_write(self, session: str, place: int, node: str, key: str, value: int) -> None:
        """A write is about to be sent; NoRecord where its value was written before."""

    @abc.abstractmethod
    def _note_version(self, key: str, value: int, version: int) -> None:
        """The store says the version of a value."""

    @abc.abstractmethod
    def _note_end(self, session: str, place: int, one: "Noted", parts: List[Part]) -> None:
        """A transaction has ended."""


def free_name(stem: str, taken: Set[str]) -> str:
    """The first of NAME, NAME.2, NAME.3 and so on that isn't taken; from here on it is."""
    name, number = stem, 1
    while name in taken:
        number += 1
        name = "%s.%d" % (stem, number)
    taken.add(name)
    return name


class Session:
    """What one client does over one connection; `name` is that of the records."""

    def __init__(self, recorder: Recording, stem: str, node: str):
        self._recorder, self._stem, self.node = recorder, stem, node
        self._is_in_one = False
        self.renew()

    def renew(self) -> None:
        """The client has a new connection: from here on it is a new session."""
        self.name = self._recorder._new_name(self._stem)
        self._place = 1

    def transaction(self, refused: Refusals = ()) -> "ContextManager[Transaction]":
        """A transaction, recorded when the block is left; what is raised goes on. `refused` is what the store raises where it says
        that nothing of the transaction happened."""
        return self._running(Transaction, refused)

    def call(self, refused: Refusals = ()) -> "ContextManager[Call]":
        """A transaction that is one request, as a put, a MULTI or a stored procedure; recorded when the block is left. By an
        exception its outcome is unknown, but for those of `refused`: there the store says that nothing of it happened, or it never
        left the client."""
        return self._running(Call, refused)

    @contextlib.contextmanager
    def _running(self, kind: "Type[One]", refused: Refusals) -> "Iterator[One]":
        if self._is_in_one:
            raise NoRecord("session %s is in a transaction" % self.name)
        self._recorder._begin()
        one = kind(self._recorder, self.name, self._place, self.node)
        self._is_in_one = True
        end = "abort"
        try:
            yield one
            end = "abort" if one.is_aborted else "commit"
        except refused as error:
            one.note = one.note or type(error).__name__
            raise
        except BaseException as error:
            end = "unknown" if one.is_committing else "abort"
            one.note = one.note or type(error).__name__
            raise
        finally:
            self._is_in_one = False
            one.is_over = True
            try:
                self._end(one, end)
            finally:
                self._recorder._done()

    def _end(self, one: "Noted", end: str) -> None:
        parts = list(one.parts(end))
        if not parts:
            return
        try:
            self._recorder._note_end(self.name, self._place, one, parts)
        finally:
            self._place += len(parts)
            if end == UNKNOWN or not one.is_recorded:
                self.renew()


class Noted:
    """A transaction under way, or a call. `node` and `note` go into the annotations."""

    def __init__(self, recorder: Recording, session: str, place: int, node: str):
        self._recorder, self._session, self._place = recorder, session, place
        self.node, self.note = node, ""
        self.is_committing = self.is_aborted = self.is_over = self.is_recorded = False

    def abort(self) -> None:
        """The client rolled it back, or the store says that nothing of it happened."""
        self.is_aborted = True

    def parts(self, end: str) -> Iterator[Part]:
        """What is recorded of it: of what didn't commit no reads, since they aren't judged, and nothing of what only read."""
        raise NotImplementedError

    def versioned(self, version: int) -> None:
        """The store says the version of all that this wrote, as etcd does by its revision."""
        self._check()
        for key, value in {one[1]: one[2] for one in self._written()}.items():
            self._version(key, value, version)

    def _written(self) -> Iterator[Operation]:
        """What it wrote."""
        raise NotImplementedError

    def _version(self, key: str, value: int, version: Optional[int]) -> None:
        if version is not None:
            self._recorder._note_version(key, value, checked_value(version, 1, "a version"))

    def _check(self) -> None:
        if self.is_over:
            raise NoRecord("a transaction of session %s has ended" % self._session)

    def _write(self, key: str, value: int) -> Operation:
        """Notes a write that is about to be sent."""
        self._check()
        number = checked_value(value, 1, "a write")
        self._recorder._note_write(self._session, self._place, self.node, checked_name(key), number)
        return "w", key, number


class Transaction(Noted):
    """A transaction under way, of requests of its own."""

    def __init__(self, recorder: Recording, session: str, place: int, node: str):
        super().__init__(recorder, session, place, node)
        self.operations: List[Operation] = []

    def read(self, key: str, value: Optional[int], version: Optional[int] = None) -> None:
        """A read has returned a value; None is 0, that of a key which was never written. The version is that which the store says
        that the value has: the greater, the later it was written at the key."""
        self._check()
        one = "r", checked_name(key), value_read(value)
        self._version(key, one[2], version)
        self.operations.append(one)

    def write(self, key: str, value: int, version: Optional[int] = None) -> None:
        """A value is about to be written: one that was never written at the key before; with its version, where the client gives it."""
        self.operations.append(self._write(key, value))
        self._version(key, value, version)

    def _written(self) -> Iterator[Operation]:
        return (one for one in self.operations if one[0] == "w")

    def committing(self) -> None:
        """The store is about to be asked to commit: what breaks from here on leaves the outcome unknown."""
        self.is_committing = True

    def parts(self, end: str) -> Iterator[Part]:
        kept = [one for one in self.operations if end == "commit" or one[0] == "w"]
        if kept or end == "commit":
            yield kept, end


class Read:
    """A read of a call, in its place among the operations."""

    def __init__(self, call: "Call", key: str):
        self._call, self.key = call, checked_name(key)
        self.value: Optional[int] = None

    def returned(self, value: Optional[int], version: Optional[int] = None) -> None:
        """The answer has the value; None is 0, that of a key which was never written. A read that never returned isn't recorded."""
        self._call._check()
        if self.value is not None:
            raise NoRecord("a read of %s returned before" % self.key)
        found = value_read(value)
        self._call._version(self.key, found, version)
        self.value = found

    def operations(self) -> Iterator[Operation]:
        if self.value is not None:
            yield "r", self.key, self.value


class Write:
    """A write of a call, in its place among the operations."""

    def __init__(self, call: "Call", operation: Operation):
        self._call, self.operation, self.is_skipped = call, operation, False

    def skipped(self) -> None:
        """The store says that it didn't do this write, as where a comparison failed; what else the call did happened."""
        self._call._check()
        self.is_skipped = True

    def operations(self) -> Iterator[Operation]:
        if not self.is_skipped:
            yield self.operation


class Call(Noted):
    """A transaction that is one request. Its operations are noted before it is sent, in the order in which the store does them,
    and what its reads returned once the answer is there."""

    def __init__(self, recorder: Recording, session: str, place: int, node: str):
        super().__init__(recorder, session, place, node)
        self.is_committing = True
        self._operations: List[Union[Read, Write]] = []

    def read(self, key: str) -> Read:
        """The request will read the key."""
        self._check()
        one = Read(self, key)
        self._operations.append(one)
        return one

    def write(self, key: str, value: int) -> Write:
        """The request will write a value: one that was never written at the key before."""
        one = Write(self, self._write(key, value))
        self._operations.append(one)
        return one

    def _written(self) -> Iterator[Operation]:
        return (one.operation for one in self._operations if isinstance(one, Write) and not one.is_skipped)

    def parts(self, end: str) -> Iterator[Part]:
        """What the store skipped is an aborted transaction, so that who reads it hears of it."""
        writes = [one for one in self._operations if isinstance(one, Write)]
        skipped = [one.operation for one in writes if one.is_skipped]
        if end == "commit":
            yield [each for one in self._operations for each in one.operations()], end
            if skipped:
                yield skipped, "abort"
        elif writes:
            yield [one.operation for one in writes], end


One = TypeVar("One", Transaction, Call)
