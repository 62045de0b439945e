#!/usr/bin/env python3
"""Records what clients of a Redis see, for `tcc explain`.

Starts two servers of its own on the loopback, a primary and a replica that follows it, and clients that take turns of two
transactions: one writes a key at the primary, the next reads that key and another one, each in a MULTI. With `--read-at
primary` the second one reads at the primary, so every client sees all that it wrote. With `--read-at replica` it reads at
the replica, whose link to the primary is held for the first turns: so clients don't see what they wrote themselves.

Standard output has the records, standard error what was done, and what lagged. Both servers are stopped in the end, whatever comes.

Needs redis-server on the path and the library redis-py (in Debian the packages redis-server and python3-redis), and the
package in python/.
"""
import argparse
import contextlib
import pathlib
import shutil
import sys
from typing import Callable, Dict, Optional, Sequence

sys.path.insert(0, str(pathlib.Path(__file__).resolve().parents[2] / "python"))
from tcc.harness import (LOOPBACK, Atomic, Client, Connection, Done, Found, Link, NoServer, Server, Store, WriteThenRead, at, free_port, recipe,  # noqa: E402
                         wait_until)
from tcc.common.words import command_line  # noqa: E402

EXAMPLE = """example: clients that read at a replica, and the rows of what they saw
  $ record.py --read-at replica > records.csv
  $ tcc explain --json < records.csv > answer.json
  $ picture.py answer.json --history records.csv --text
"""
START_SECONDS = 60
ANSWER_SECONDS = 5
# So many turns of each client the link is held for.
HELD_TURNS = 10


class Multi(Connection):
    """A connection that is used for one session alone, and does nothing twice; what is more than one step is a MULTI."""

    def __init__(self, port: int):
        from redis import Redis
        from redis.backoff import NoBackoff
        from redis.retry import Retry
        self.redis = Redis(LOOPBACK, port, single_connection_client=True, socket_timeout=ANSWER_SECONDS, retry=Retry(NoBackoff(), 0))

    def read(self, key: str) -> Found:
        return self.request([key], {}).found[0]

    def write(self, key: str, value: int) -> Optional[int]:
        return self.request([], {key: value}).version

    def request(self, reads: Sequence[str], writes: Dict[str, int]) -> Done:
        with self.redis.pipeline(transaction=True) as steps:
            for key in reads:
                steps.get(key)
            for key, value in writes.items():
                steps.set(key, value)
            return Done([Found(int(value)) if value else Found() for value in steps.execute()[:len(reads)]])

    def close(self) -> None:
        self.redis.close()


class Servers(Store):
    """The primary, and the replica that is read at."""

    atomic = Atomic.REQUEST

    def __init__(self, **ports: int):
        import redis.exceptions
        self.ports, self.nodes, self.broken = ports, tuple(ports), (redis.exceptions.RedisError,)

    def connect(self, node: str) -> Multi:
        return Multi(self.ports[node])

    def wait_for(self, node: str, is_so: Callable[..., bool], otherwise: str) -> None:
        """Waits until the server answers what is wanted."""
        def answers() -> bool:
            with contextlib.closing(self.connect(node)) as one:
                return is_so(one.redis)
        wait_until(answers, self.broken, START_SECONDS, otherwise)


def start(held: contextlib.ExitStack, folder: pathlib.Path, node: str, *words: str) -> int:
    """Starts a server in an empty folder of its own, to be stopped with `held`, and gives its port."""
    port = free_port()
    (folder / node).mkdir()
    server = Server(node, ["redis-server", "--port", str(port), "--bind", LOOPBACK, "--dir", str(folder / node), "--save", "", "--appendonly", "no",
                           "--repl-diskless-sync", "yes", "--repl-diskless-sync-delay", "0", *words])
    held.callback(server.start().end)
    return port


def freed_after(link: Link, turns: int, workload: WriteThenRead) -> Callable[[Client], None]:
    """The workload; the link is held until there were so many turns."""
    link.hold()
    left = iter(range(turns))

    def turn(client: Client) -> None:
        workload(client)
        if next(left, None) is None:
            link.let_go()
    return turn


def recorded(asked: argparse.Namespace, folder: str) -> recipe.Played:
    """Starts the servers, lets the clients work, stops the servers."""
    if not shutil.which("redis-server"):
        raise NoServer("no redis-server on the path")
    with contextlib.ExitStack() as held:
        primary = start(held, pathlib.Path(folder), "primary")
        Servers(primary=primary).wait_for("primary", lambda server: server.ping(), "the primary didn't answer")
        link = Link(primary)
        store = Servers(primary=primary, replica=start(held, pathlib.Path(folder), "replica", "--replicaof", "%s %d" % (LOOPBACK, link.open(held))))
        store.wait_for("replica", lambda server: server.info("replication")["master_link_status"] == "up", "the replica didn't follow")
        turns = HELD_TURNS * asked.clients if asked.read_at == "replica" else 0
        return recipe.played(asked, folder, store, lambda keys: freed_after(link, turns, WriteThenRead(keys, at("primary"), at(asked.read_at))),
                             keeps_session=asked.keep_sessions)


def main() -> int:
    ask = command_line(__doc__, EXAMPLE)
    ask.add_argument("--read-at", choices=("primary", "replica"), default="replica", help="where is read; by default the replica")
    recipe.add_keep_sessions(ask)
    return recipe.recorded(recorded, recipe.arguments(ask), "redis-py", "python3-redis")


if __name__ == "__main__":
    sys.exit(main())
