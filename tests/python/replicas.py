"""A store in memory with three replicas, each of which lags on demand; over sockets too, for clients of other processes.

All writes go into one log, at whichever node. A node answers reads from the log without its last `late[node]` writes. The version of a write
is its place in the log. Over a socket a line asks and a line answers: `GET k` has value and version, `SET k v` the version, `CAS k seen v`
whether it wrote and the version; 0 is nothing.
"""
import contextlib
import socketserver
import threading
from typing import Dict, Iterator, List, Optional, Tuple

from tcc.harness import Connection, Found, Store, Swap

NODES = ("n0", "n1", "n2")


class Replicas:
    """The log, and how many of its last writes each node lacks."""

    def __init__(self, **late: int):
        self.lock = threading.Lock()
        self.log: List[Tuple[str, int]] = []
        self.late: Dict[str, int] = late
        self.down: Dict[str, str] = {}  # what a node does in place of answering, once: "before" or "after" it has done it

    def read(self, node: str, key: str) -> Found:
        with self.lock:
            seen = self.log[:max(0, len(self.log) - self.late.get(node, 0))]
            for place in range(len(seen), 0, -1):
                if seen[place - 1][0] == key:
                    return Found(seen[place - 1][1], place)
            return Found()

    def write(self, key: str, value: int) -> int:
        with self.lock:
            self.log.append((key, value))
            return len(self.log)

    def swap(self, key: str, seen: Optional[int], value: int) -> Swap:
        """At the newest state, whatever a node shows."""
        with self.lock:
            newest = next((value for one, value in reversed(self.log) if one == key), None)
            if newest != seen:
                return Swap(False)
            self.log.append((key, value))
            return Swap(True, len(self.log))


class Local(Connection):
    """A connection without a socket."""

    def __init__(self, replicas: Replicas, node: str):
        self.replicas, self.node = replicas, node

    @contextlib.contextmanager
    def call(self) -> Iterator[None]:
        """Where the node is down once, it breaks before it did something or after that."""
        how = self.replicas.down.pop(self.node, None)
        if how == "before":
            raise ConnectionResetError("before")
        if how == "refused":
            raise PermissionError("refused")
        yield
        if how == "after":
            raise ConnectionResetError("after")

    def read(self, key: str) -> Found:
        with self.call():
            return self.replicas.read(self.node, key)

    def write(self, key: str, value: int) -> int:
        with self.call():
            return self.replicas.write(key, value)

    def compare_and_set(self, key: str, seen: Found, value: int) -> Swap:
        with self.call():
            return self.replicas.swap(key, seen.value, value)


class Memory(Store):
    """The store in this process."""

    nodes = NODES
    broken = (ConnectionResetError,)
    refused = (PermissionError,)

    def __init__(self, **late: int):
        self.replicas = Replicas(**late)
        self.connects = 0

    def connect(self, node: str) -> Local:
        self.connects += 1
        return Local(self.replicas, node)


class Server(socketserver.ThreadingTCPServer):
    """A node of the replicas, over sockets."""

    allow_reuse_address = daemon_threads = True

    def __init__(self, replicas: Replicas, node: str):
        self.replicas, self.node = replicas, node
        super().__init__(("127.0.0.1", 0), Handler)


class Handler(socketserver.StreamRequestHandler):
    def handle(self) -> None:
        with contextlib.suppress(OSError):
            for line in self.rfile:
                self.wfile.write(b"%s\n" % self.answer(*line.decode().split()).encode())

    def answer(self, does: str, key: str, *more: str) -> str:
        replicas, node = self.server.replicas, self.server.node
        if does == "GET":
            found = replicas.read(node, key)
            return "%d %d" % (found.value or 0, found.version or 0)
        if does == "SET":
            return str(replicas.write(key, int(more[0])))
        swap = replicas.swap(key, int(more[0]) or None, int(more[1]))
        return "%d %d" % (swap.has_written, swap.version or 0)


@contextlib.contextmanager
def served(replicas: Replicas) -> Iterator[List[int]]:
    """The ports of the nodes, which answer meanwhile."""
    with contextlib.ExitStack() as held:
        servers = [held.enter_context(Server(replicas, node)) for node in NODES]
        for one in servers:
            threading.Thread(target=one.serve_forever, daemon=True).start()
            held.callback(one.shutdown)
        yield [one.server_address[1] for one in servers]
