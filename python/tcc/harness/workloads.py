"""Workloads: what a client does in its turns. A workload is whatever can be called with a client, so a function of one's own is one too."""
from dataclasses import dataclass
from typing import Callable, List, Optional, Sequence, Tuple

from tcc.harness.client import Client

Workload = Callable[[Client], None]
# Where a client works; for reads after writes the node of these is known.
Place = Callable[[Client], str]
PlaceAfter = Callable[[Client, str], str]


def home(client: Client, after: str = "") -> str:
    """Each client keeps to a node of its own."""
    return client.home()


def anywhere(client: Client, after: str = "") -> str:
    """At some node."""
    return client.some_node()


def elsewhere(client: Client, after: str) -> str:
    """At another node than the writes before, where there is one."""
    return client.some_node([after])


def same(client: Client, after: str) -> str:
    """At the node of the writes before."""
    return after


def at(node: str) -> Callable[..., str]:
    """Always at that node."""
    return lambda client, after="": node


@dataclass(frozen=True)
class Keys:
    """So many keys, k0 and on. Of these `hot` are taken with that share of chance, by default all alike. Few hot keys are read soon after
    they are written, so that what lags shows; cold ones are read long after, so that what was lost shows."""

    count: int = 8
    hot: int = 0
    share: float = 0.8
    prefix: str = ""

    def some(self, client: Client) -> str:
        is_hot = 0 < self.hot < self.count and client.chance.random() < self.share
        first, last = (0, self.hot) if is_hot else (self.hot if 0 < self.hot < self.count else 0, self.count)
        return "%sk%d" % (self.prefix, client.chance.randrange(first, last))

    def up_to(self, client: Client, most: int, but: Sequence[str] = ()) -> List[str]:
        """Some keys in order, of those that aren't these: one at least where there is one, and at most so many."""
        return sorted({self.some(client) for _ in range(most)} - set(but))


@dataclass(frozen=True)
class WriteThenRead:
    """Writes keys, which may have been read before in the same transaction, and right after reads all of them at another place, with another
    key beside. Nothing shows sooner that a node lags."""

    keys: Keys = Keys()
    write_at: Place = anywhere
    read_at: PlaceAfter = elsewhere
    most: int = 1
    reads_before: int = 0
    beside: int = 1

    def __call__(self, client: Client) -> None:
        node = self.write_at(client)
        reads, writes = self.keys.up_to(client, self.reads_before), self.keys.up_to(client, self.most)
        client.do(node, reads, writes)
        client.do(self.read_at(client, node), sorted({*reads, *writes, *self.keys.up_to(client, self.beside)}))


@dataclass(frozen=True)
class Mixed:
    """Reads some keys at a place, and with a share of chance writes others in the same transaction, or where they overlap maybe the same."""

    keys: Keys = Keys()
    place: Place = anywhere
    share_of_writes: float = 0.4
    most: int = 2
    overlaps: bool = False

    def __call__(self, client: Client) -> None:
        writes = self.keys.up_to(client, self.most) if client.chance.random() < self.share_of_writes else []
        client.do(self.place(client), self.keys.up_to(client, self.most, but=[] if self.overlaps else writes), writes)


@dataclass(frozen=True)
class ReadUntilNew:
    """Writes a key, and reads it at another place again and again, until it has what was written or something newer, but at most so often.
    So each read that lags is recorded, and the first one that doesn't."""

    keys: Keys = Keys()
    write_at: Place = anywhere
    read_at: PlaceAfter = elsewhere
    most_reads: int = 20

    def __call__(self, client: Client) -> None:
        key, node = self.keys.some(client), self.write_at(client)
        client.do(node, [], [key])
        reading = self.read_at(client, node)
        for _ in range(self.most_reads):
            late = client.late
            client.do(reading, [key])
            if client.late == late:
                return


@dataclass(frozen=True)
class Swaps:
    """Reads a key and writes it where it still has what was read: a compare-and-set."""

    keys: Keys = Keys()
    place: Place = anywhere

    def __call__(self, client: Client) -> None:
        client.compare_and_set(self.place(client), self.keys.some(client))


@dataclass(frozen=True)
class OneOf:
    """One of some workloads in each turn, each with a weight."""

    workloads: Sequence[Tuple[float, Workload]]

    def __call__(self, client: Client) -> None:
        weights = [weight for weight, _ in self.workloads]
        chosen: Optional[Workload] = client.chance.choices([one for _, one in self.workloads], weights)[0]
        if chosen:
            chosen(client)
