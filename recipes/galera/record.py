#!/usr/bin/env python3
"""Records what clients of a MariaDB cluster with Galera see, for `tcc explain`.

Starts a cluster of three nodes of its own on the loopback, in a new folder, or takes the one that `cluster.py start` started.
Each transaction reads some keys and then writes others, at the level of isolation that --isolation says. Where a client
works is said by --place:

  home   at one node, another one for the next client
  split  it writes at n0, and then reads the same keys at n2
  any    each transaction at some node

A client has one session, whichever nodes it works at. With --sync-wait 1 a node waits, before a transaction reads, until it
has what the group had committed by then (wsrep_sync_wait), which promises that a session sees what it did at another node;
with --sync-wait 0 nobody promises that.

Meanwhile, where that is asked for: --stop and --kill stop a node for three seconds (SIGSTOP), or kill it (SIGKILL) and start it
again, one node after the other; --crash kills all at once. Then --lag has n2 apply nothing for a while, again and again.
A transaction that the cluster refuses is noted as aborted, and so is one that broke off before its COMMIT was sent; one that
broke off in its COMMIT is of unknown outcome.

Standard output has the records, standard error what was done, and what lagged. The nodes of an own cluster are stopped and their folder goes
in the end, whatever comes. Needs what cluster.py needs.
"""
import argparse
import contextlib
import pathlib
import signal
import sys
import tempfile
from dataclasses import dataclass
from typing import Any, Iterator, List

HERE = pathlib.Path(__file__).resolve().parent
sys.path[:0] = [str(HERE), str(HERE.parents[1] / "python")]
import cluster  # noqa: E402
from cluster import NODES, Cluster  # noqa: E402
from tcc.harness import Atomic, Keys, Mixed, Store, Trouble, Workload, WriteThenRead, anywhere, at, home, in_turns, recipe  # noqa: E402
from tcc.harness.sql import Registers, Sql  # noqa: E402
from tcc.common.words import command_line, count_within  # noqa: E402

EXAMPLE = """example: clients that read at another node than they wrote at, and the rows of what they saw
  $ record.py --place split --notes notes.csv > records.csv
  $ tcc explain --json < records.csv > answer.json
  $ picture.py answer.json --history records.csv --notes notes.csv --text
"""
LEVELS = {"read-committed": "READ-COMMITTED", "repeatable-read": "REPEATABLE-READ", "serializable": "SERIALIZABLE"}
PLACES = ("home", "split", "any")
REGISTERS = Registers("SELECT value FROM tcc.registers WHERE name = %s",
                       "INSERT INTO tcc.registers VALUES (%s, %s) ON DUPLICATE KEY UPDATE value = VALUES(value)")
# With these numbers a node says that nothing of the transaction happened: a row that changed, a wait that took too long, and a
# deadlock, which it says too where the group refuses a COMMIT.
REFUSED = (1020, 1205, 1213)
ANSWER_SECONDS = 10
STOPPED_SECONDS = 3


class Refused(Exception):
    """The cluster says that nothing of the transaction happened."""


class Nodes(Store):
    """The nodes of a cluster as clients see them."""

    nodes = tuple("n%d" % number for number in range(NODES))
    atomic = Atomic.TRANSACTION
    refused = (Refused,)

    def __init__(self, driver: Any, cluster: Cluster, asked: argparse.Namespace):
        self.driver, self.cluster, self.broken = driver, cluster, (driver.Error, OSError)
        self.setting = "SET SESSION wsrep_sync_wait = %d, tx_isolation = '%s', innodb_lock_wait_timeout = 5" % (
            asked.sync_wait, LEVELS[asked.isolation])

    def connect(self, node: str) -> Sql:
        server = self.cluster.connect(self.nodes.index(node), autocommit=False, connect_timeout=ANSWER_SECONDS, read_timeout=ANSWER_SECONDS,
                                      write_timeout=ANSWER_SECONDS, init_command=self.setting)
        return Sql(server, REGISTERS, lambda: refusals(self.driver))


def turn_of(keys: Keys, where: str) -> Workload:
    """What a client does in a turn, by where it works."""
    if where == "split":
        return WriteThenRead(keys, at("n0"), at("n%d" % (NODES - 1)), most=2, reads_before=2, beside=0)
    return Mixed(keys, home if where == "home" else anywhere, share_of_writes=0.5, overlaps=True)


@contextlib.contextmanager
def refusals(driver: Any) -> Iterator[None]:
    """What the cluster says of a transaction that it refuses is raised as such."""
    try:
        yield
    except driver.Error as error:
        if error.args and error.args[0] in REFUSED:
            raise Refused(*error.args) from error
        raise


@dataclass
class Lag:
    """The last node applies nothing for a while; the connection that has it so is open meanwhile."""

    nodes: Cluster
    server: Any = None

    def begin(self) -> None:
        self.server = self.nodes.connect(NODES - 1)
        self.ask("SET GLOBAL wsrep_desync = ON", "FLUSH TABLES WITH READ LOCK")

    def end(self) -> None:
        with contextlib.closing(self.server):
            self.ask("UNLOCK TABLES", "SET GLOBAL wsrep_desync = OFF")

    def ask(self, *statements: str) -> None:
        with self.server.cursor() as cursor:
            for statement in statements:
                cursor.execute(statement)


def stopped(nodes: Cluster, number: int) -> Trouble:
    """A node is stopped, and then goes on."""
    def go_on() -> None:
        nodes.nodes[number].send(signal.SIGCONT)
        nodes.wait_for_all()

    return Trouble("pause", "n%d" % number, lambda: nodes.nodes[number].send(signal.SIGSTOP), go_on, STOPPED_SECONDS)


def killed(nodes: Cluster, number: int) -> Trouble:
    """A node is killed, and started again."""
    return Trouble("kill", "n%d" % number, lambda: nodes.kill(number), lambda: nodes.restart(number), 0.0)


def crashed(nodes: Cluster, number: int) -> Trouble:
    """All nodes are killed at once."""
    return Trouble("crash", "", lambda: None, nodes.crash, 0.0)


def troubles_of(nodes: Cluster, asked: argparse.Namespace) -> List[Trouble]:
    """Those that are asked for, one after the other, each at the next node."""
    kinds = [[trouble(nodes, turn % NODES) for turn in range(times)]
             for trouble, times in ((stopped, asked.stop), (killed, asked.kill), (crashed, asked.crash))]
    return in_turns(kinds)


@contextlib.contextmanager
def nodes_of(asked: argparse.Namespace) -> Iterator[Cluster]:
    """The cluster that was named, or one of its own."""
    if asked.cluster:
        yield Cluster.of(asked.cluster)
        return
    with tempfile.TemporaryDirectory() as name, contextlib.ExitStack() as held:
        folder = pathlib.Path(name)
        folder.chmod(0o755)
        held.callback(cluster.stop, folder)
        yield cluster.started(folder, cluster.started_as(asked))


def recorded(asked: argparse.Namespace, folder: str) -> recipe.Played:
    """Lets the clients work at the nodes."""
    import pymysql
    with nodes_of(asked) as nodes:
        lag = Lag(nodes)
        lags = [Trouble("lag", "n%d" % (NODES - 1), lag.begin, lag.end, asked.lag / 1000)] if asked.lag else []
        return recipe.played(asked, folder, Nodes(pymysql, nodes, asked), lambda keys: turn_of(keys, asked.place), troubles_of(nodes, asked), lags,
                             prefix=asked.prefix, keeps_session=asked.keep_sessions)


def main() -> int:
    ask = command_line(__doc__, EXAMPLE)
    ask.add_argument("--place", choices=PLACES, default="split", help="where clients work, by default split")
    ask.add_argument("--sync-wait", type=count_within(0, 15), default=0, metavar="N", help="wsrep_sync_wait, 0 to 15, by default 0")
    ask.add_argument("--isolation", choices=tuple(LEVELS), default="repeatable-read", help="by default repeatable-read")
    ask.add_argument("--lag", type=count_within(0, 10000), default=0, metavar="MS",
                     help="n2 applies nothing for so many milliseconds, again and again")
    recipe.add_troubles(ask, stop="stops a node N times", kill="kills a node N times", crash="kills all nodes N times")
    ask.add_argument("--cluster", type=lambda word: pathlib.Path(word).resolve(), metavar="FOLDER",
                     help="the cluster that cluster.py started there, in place of an own one")
    ask.add_argument("--prefix", default="", metavar="TEXT", help="what the names of keys begin with, another for each round")
    cluster.add_user(ask)
    recipe.add_keep_sessions(ask)
    return recipe.recorded(recorded, recipe.arguments(ask), "PyMySQL", "python3-pymysql")


if __name__ == "__main__":
    sys.exit(main())
