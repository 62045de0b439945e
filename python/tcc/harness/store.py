"""A store under test, as a harness sees it: its nodes, and what a client can do over a connection to one of them."""
import abc
import enum
from typing import Dict, NamedTuple, Optional, Sequence, Tuple, Type

Failures = Tuple[Type[BaseException], ...]


class Found(NamedTuple):
    """What a read returned: a value, or None for a key that was never written, and the version where the store numbers writes."""

    value: Optional[int] = None
    version: Optional[int] = None


class Done(NamedTuple):
    """What one request did: what each of its reads returned, and the version of what it wrote where the store says one."""

    found: Sequence[Found] = ()
    version: Optional[int] = None


class Swap(NamedTuple):
    """How a compare-and-set ended: whether it wrote, the version of that, and what the key had where the store says so."""

    has_written: bool
    version: Optional[int] = None
    found: Optional[Found] = None


class Atomic(enum.Enum):
    """What a store does at one moment, or not at all."""

    OPERATION = "a read or a write"
    REQUEST = "reads and writes of one request: Connection.request"
    TRANSACTION = "reads and writes one after the other, up to Connection.commit"


class Connection(abc.ABC):
    """A connection of one client to one node. It tries nothing twice. After an error of `Store.broken` it is closed."""

    @abc.abstractmethod
    def read(self, key: str) -> Found:
        """What a key has."""

    @abc.abstractmethod
    def write(self, key: str, value: int) -> Optional[int]:
        """Writes a value: the version, where the store says one."""

    def compare_and_set(self, key: str, seen: Found, value: int) -> Swap:
        """Writes a value where the key still has what was seen."""
        raise NotImplementedError("this store has no compare-and-set")

    def request(self, reads: Sequence[str], writes: Dict[str, int]) -> Done:
        """Reads keys and writes others, at one moment. For `Atomic.REQUEST`."""
        raise NotImplementedError("this store has no requests of several keys")

    def commit(self) -> None:
        """Commits what was read and written since the last commit. For `Atomic.TRANSACTION`."""
        raise NotImplementedError("this store has no transactions")

    def rollback(self) -> None:
        """Drops what was written since the last commit, after the store refused something."""

    def close(self) -> None:
        """Lets the connection go; what that raises of `Store.broken` is passed over."""


class Store(abc.ABC):
    """The store under test.

    nodes    the names of its nodes
    broken   what is raised where a connection breaks, is refused, or gives no answer in time: the outcome is unknown
    refused  what is raised where the store says that nothing of a transaction happened
    atomic   what it does at one moment
    """

    nodes: Sequence[str] = ("n0",)
    broken: Failures = (OSError,)
    refused: Failures = ()
    atomic: Atomic = Atomic.OPERATION

    @abc.abstractmethod
    def connect(self, node: str) -> Connection:
        """A new connection to a node."""
