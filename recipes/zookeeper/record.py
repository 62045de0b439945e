#!/usr/bin/env python3
"""Records what clients of a ZooKeeper see, with the transaction ids that it tells, for `tcc explain`.

Starts three nodes of its own on the loopback, in a new folder. A node answers reads from what it has, which may be old, and writes go
through the leader. Where a client works is said by --place:

  home   at one node, another one for the next client: ZooKeeper promises a client that it never goes back there
  split  it writes at some node, and then reads the same key at another: nobody promises anything across them

With --reads sync a client asks its node to catch up with the leader before each read. The version of what is read or written is its
mzxid, the id of the transaction that wrote it.

Meanwhile, where that is asked for, --stop and --kill stop a node for a second (SIGSTOP), or kill it (SIGKILL) and start it again, one
after the other. A request that isn't answered in time is of unknown outcome. The clients work for --seconds, and on until all troubles
have happened and each has done --at-least transactions; with --until-stale also until a client read something older than what it had
seen, for which nodes are stopped too. A round that doesn't come so far wasn't played: the status is 75.

Standard output has the records, standard error what was done, and what lagged. The nodes are killed in the end, whatever comes. Needs
ZooKeeper, Java and the library Kazoo (in Debian zookeeper, default-jre-headless and python3-kazoo), and the package in python/.
"""
import argparse
import contextlib
import logging
import pathlib
import shutil
import sys
from dataclasses import dataclass, field
from typing import Any, Callable, Dict, List

sys.path.insert(0, str(pathlib.Path(__file__).resolve().parents[2] / "python"))
from tcc.common.words import command_line  # noqa: E402
from tcc.harness import (LOOPBACK, Connection, Found, Keys, NoServer, OneOf, Server, Store, Swap, Swaps, WriteThenRead, anywhere, elsewhere,  # noqa: E402
                         home, pause, ports_of, recipe, running, same, wait_for, wait_until)

EXAMPLE = """example: clients that write at one node and read at another, and the reads that are stale
  $ record.py --place split -o records.csv --versions versions.csv --notes notes.csv --stale stale.txt
  $ tcc-versions records.csv versions.csv -o versioned.csv
  $ tcc explain --large versioned.csv
"""
NODES = ("n0", "n1", "n2")
JAR = pathlib.Path("/usr/share/java/zookeeper.jar")
# Each but the tick is multiplied by --patience.
ANSWER_SECONDS, START_SECONDS, TICK_MILLISECONDS = 2.0, 60.0, 200
CONFIGURATION = """tickTime=%d
initLimit=100
syncLimit=50
dataDir=%s
clientPort=%d
clientPortAddress=127.0.0.1
admin.enableServer=false
maxClientCnxns=0
"""


def is_there() -> bool:
    return JAR.exists() and shutil.which("java") is not None


class Session(Connection):
    """A session of ZooKeeper at one node, which tries nothing twice."""

    def __init__(self, port: int, seconds: float, has_sync: bool):
        from kazoo.client import KazooClient
        from kazoo.retry import KazooRetry
        self.seconds, self.has_sync = seconds, has_sync
        self.stats: Dict[str, Any] = {}
        self.zookeeper = KazooClient("%s:%d" % (LOOPBACK, port), timeout=2 * seconds, command_retry=KazooRetry(max_tries=0),
                                     connection_retry=KazooRetry(max_tries=0))
        try:
            self.zookeeper.start(seconds)
        except BaseException:
            self.close()
            raise

    def ask(self, what: Callable[..., Any], *given: Any) -> Any:
        """The answer of a request, in time."""
        return what(*given).get(timeout=self.seconds)

    def read(self, key: str) -> Found:
        from kazoo.exceptions import NoNodeError
        with contextlib.suppress(NoNodeError):
            if self.has_sync:
                self.ask(self.zookeeper.sync_async, "/" + key)
            value, self.stats[key] = self.ask(self.zookeeper.get_async, "/" + key)
            return Found(int(value), self.stats[key].mzxid) if value else Found()
        return Found()

    def write(self, key: str, value: int) -> int:
        return int(self.ask(self.zookeeper.set_async, "/" + key, b"%d" % value).mzxid)

    def compare_and_set(self, key: str, seen: Found, value: int) -> Swap:
        """Where the node has the version that was seen; ZooKeeper compares its count of writes."""
        from kazoo.exceptions import BadVersionError
        count = self.stats[key].version if key in self.stats else 0
        try:
            return Swap(True, int(self.ask(self.zookeeper.set_async, "/" + key, b"%d" % value, count).mzxid))
        except BadVersionError:
            return Swap(False)

    def close(self) -> None:
        self.zookeeper.stop()
        self.zookeeper.close()


@dataclass
class Nodes(Store):
    """Three nodes, each with its ports for clients, for the group, and for elections."""

    folder: pathlib.Path
    patience: int
    has_sync: bool = False
    ports: Dict[str, List[int]] = field(default_factory=lambda: ports_of(NODES, 3))

    nodes = NODES

    @property
    def broken(self):
        from kazoo.exceptions import KazooException
        from kazoo.handlers.threading import KazooTimeoutError
        return KazooException, KazooTimeoutError, OSError

    def connect(self, node: str) -> Session:
        return Session(self.ports[node][0], ANSWER_SECONDS * self.patience, self.has_sync)

    def server(self, number: int, node: str) -> Server:
        data, configuration = self.folder / node, self.folder / (node + ".cfg")
        data.mkdir()
        (data / "myid").write_text("%d\n" % (number + 1))
        group = "".join("server.%d=%s:%d:%d\n" % (each + 1, LOOPBACK, *self.ports[other][1:]) for each, other in enumerate(NODES))
        configuration.write_text(CONFIGURATION % (TICK_MILLISECONDS * self.patience, data, self.ports[node][0]) + group)
        return Server(node, ["java", "-Xmx128m", "-XX:+UseSerialGC", "-XX:TieredStopAtLevel=1", "-Dzookeeper.forceSync=no", "-cp",
                             str(JAR), "org.apache.zookeeper.server.quorum.QuorumPeerMain", str(configuration)], log=str(self.folder / (node + ".log")))

    def wait_for(self, server: Server) -> None:
        wait_for(self, server.node, START_SECONDS * self.patience, server)

    def make(self, keys: Keys) -> None:
        """Makes the znodes of all keys, with nothing in them, and waits until they are at each node."""
        def made() -> bool:
            with contextlib.closing(self.connect(NODES[0])) as one:
                for number in range(keys.count):
                    one.zookeeper.ensure_path("/k%d" % number)
                return True

        def is_in_step(node: str) -> bool:
            with contextlib.closing(self.connect(node)) as one:
                return one.zookeeper.exists("/k%d" % (keys.count - 1)) is not None

        seconds = START_SECONDS * self.patience
        wait_until(made, self.broken, seconds, "no keys could be made")
        for node in NODES:
            wait_until(lambda node=node: is_in_step(node), self.broken, seconds, "%s wasn't in step" % node)


def turn_of(keys: Keys, place: str) -> OneOf:
    """What a client does in a turn: mostly a write and a read, now and then a compare-and-set."""
    write_at, read_at = (home, same) if place == "home" else (anywhere, elsewhere)
    return OneOf([(4, WriteThenRead(keys, write_at, read_at)), (1, Swaps(keys, write_at))])


def recorded(asked: argparse.Namespace, folder: str) -> recipe.Played:
    """Starts the nodes, lets the clients work, stops the nodes."""
    import kazoo.client  # noqa: F401
    logging.getLogger("kazoo").setLevel(logging.CRITICAL)  # the harness counts what breaks
    if not is_there():
        raise NoServer("no ZooKeeper, or no java (in Debian zookeeper and default-jre-headless)")
    nodes = Nodes(pathlib.Path(folder), asked.patience, asked.reads == "sync")
    servers = [nodes.server(number, node) for number, node in enumerate(NODES)]
    with running(servers, nodes.wait_for):
        nodes.make(Keys(asked.keys))
        return recipe.played(asked, folder, nodes, lambda keys: turn_of(keys, asked.place), recipe.troubles_of(asked, servers, nodes.wait_for),
                             [pause(one) for one in servers if asked.until_stale], keeps_session=asked.keep_sessions)


def main() -> int:
    ask = command_line(__doc__, EXAMPLE)
    ask.add_argument("--place", choices=("home", "split"), default="split", help="where clients work, by default split")
    ask.add_argument("--reads", choices=("local", "sync"), default="local", help="by default local")
    recipe.add_troubles(ask, stop="stops a node N times", kill="kills a node N times")
    recipe.add_versions(ask)
    recipe.add_keep_sessions(ask)
    return recipe.recorded(recorded, recipe.arguments(ask, transactions=None), "Kazoo", "python3-kazoo")


if __name__ == "__main__":
    sys.exit(main())
