#!/usr/bin/env python3
"""Records what clients of an etcd see, with the revisions that it tells, for `tcc explain`.

Starts three nodes of its own on the loopback. A client has one session over all nodes: each of its transactions goes to some node, and
writes a key and reads another one, or reads two keys. With --reads serializable a transaction that only reads is answered by that node
from what it has, which may be old; with --reads linearizable by what the group has. Each read tells the revision of the write that it
saw, and each write its own, so that the order of a key's writes is known.

Meanwhile, where that is asked for: --stop and --kill stop a node for a second (SIGSTOP), or kill it (SIGKILL) and start it again, one
after the other; --move has another node lead. A request that isn't answered in time is of unknown outcome.

The clients work for --seconds, and on until all troubles have happened and each has done --at-least transactions; with --until-stale
also until a client read something older than what its session had seen, for which nodes are stopped too. A round that doesn't come so
far, as on a busy machine, wasn't played: the status is 75. Played again with --patience it has more time for everything.

Writes the records into the file of -o, the versions into that of --versions, and into that of --stale which reads are stale by etcd's
own revisions: those older than a write of the key that their client had observed, by its session or by what it read. This is reckoned from
the answers alone, beside `tcc`. The nodes are stopped and their folders go in the end, whatever comes. Needs etcd on the path (in Debian
the package etcd-server), and the package in python/.
"""
import argparse
import base64
import http.client
import json
import pathlib
import shutil
import sys
from dataclasses import dataclass, field, replace
from typing import Any, Dict, List, Optional, Sequence

sys.path.insert(0, str(pathlib.Path(__file__).resolve().parents[2] / "python"))
from tcc.harness import (LOOPBACK, Atomic, Connection, Done, Found, Mixed, NoServer, Server, Store, Trouble, pause, ports_of, recipe, running,  # noqa: E402
                         wait_for, wait_until)
from tcc.common.words import command_line  # noqa: E402

EXAMPLE = """example: clients that read at any node from what it has, and the reads that are stale
  $ record.py -o records.csv --versions versions.csv --notes notes.csv --stale stale.txt
  $ tcc-versions records.csv versions.csv -o versioned.csv
  $ tcc explain --large versioned.csv
"""
NODES = ("n0", "n1", "n2")
# Each is multiplied by --patience.
ANSWER_SECONDS, START_SECONDS, HEARTBEAT_MILLISECONDS = 1.0, 30.0, 50


def coded(text: str) -> str:
    return base64.b64encode(text.encode()).decode()


class Gateway(Connection):
    """A connection to a node, over its gateway for JSON."""

    def __init__(self, port: int, seconds: float, is_serializable: bool):
        self.http, self.is_serializable = http.client.HTTPConnection(LOOPBACK, port, timeout=seconds), is_serializable

    def ask(self, path: str, body: Dict[str, Any]) -> Dict[str, Any]:
        """The answer; an error of the system where there is none."""
        try:
            self.http.request("POST", "/v3/" + path, json.dumps(body))
            answer = self.http.getresponse()
            told = json.loads(answer.read())
        except (http.client.HTTPException, ValueError) as error:
            raise OSError(str(error)) from error
        if answer.status != 200:
            raise OSError("status %d" % answer.status)
        return dict(told)

    def read(self, key: str) -> Found:
        return self.request([key], {}).found[0]

    def write(self, key: str, value: int) -> Optional[int]:
        return self.request([], {key: value}).version

    def request(self, reads: Sequence[str], writes: Dict[str, int]) -> Done:
        """Writes and reads in one transaction; its revision is the version of what it wrote."""
        steps: List[Dict[str, Any]] = [{"request_put": {"key": coded(key), "value": coded(str(value))}} for key, value in writes.items()]
        steps += [{"request_range": {"key": coded(key), "serializable": self.is_serializable and not writes}} for key in reads]
        told = self.ask("kv/txn", {"success": steps})
        try:
            found = [self.found(one["response_range"]) for one in told["responses"][len(writes):]]
            return Done(found, int(told["header"]["revision"]) if writes else None)
        except (KeyError, ValueError) as error:
            raise OSError("an answer of another form: %s" % told) from error

    def found(self, told: Dict[str, Any]) -> Found:
        values = told.get("kvs", [])
        return Found(int(base64.b64decode(values[0]["value"])), int(values[0]["mod_revision"])) if values else Found()

    def close(self) -> None:
        self.http.close()


@dataclass
class Nodes(Store):
    """Three nodes, each with its ports for clients and for the others."""

    patience: int
    is_serializable: bool
    ports: Dict[str, List[int]] = field(default_factory=lambda: ports_of(NODES, 2))

    nodes = NODES
    atomic = Atomic.REQUEST

    def connect(self, node: str) -> Gateway:
        return Gateway(self.ports[node][0], ANSWER_SECONDS * self.patience, self.is_serializable)

    def server(self, node: str, folder: pathlib.Path) -> Server:
        client, peer = ("http://%s:%d" % (LOOPBACK, port) for port in self.ports[node])
        group = ",".join("%s=http://%s:%d" % (each, LOOPBACK, self.ports[each][1]) for each in NODES)
        heartbeat = HEARTBEAT_MILLISECONDS * self.patience
        return Server(node, ["etcd", "--name", node, "--data-dir", str(folder / node), "--listen-client-urls", client, "--advertise-client-urls", client,
                             "--listen-peer-urls", peer, "--initial-advertise-peer-urls", peer, "--initial-cluster", group,
                             "--heartbeat-interval", str(heartbeat), "--election-timeout", str(10 * heartbeat)])

    def wait_for(self, server: Server) -> None:
        """Waits until a node is in step with the group."""
        wait_for(replace(self, is_serializable=False), server.node, START_SECONDS * self.patience, server)

    def moves(self) -> bool:
        """Has the node after the one that leads lead; while they elect one, nobody does."""
        every = {node: self.connect(node) for node in NODES}
        told = [one.ask("maintenance/status", {}) for one in every.values()]
        members = [one["header"]["member_id"] for one in told]
        leader = members.index(told[0]["leader"])
        every[NODES[leader]].ask("maintenance/transfer-leadership", {"targetID": members[(leader + 1) % len(NODES)]})
        return True

    def moved(self) -> Trouble:
        """Another node leads."""
        seconds = START_SECONDS * self.patience
        return Trouble("move-leader", "", lambda: wait_until(self.moves, (OSError, KeyError, ValueError), seconds, "leadership couldn't be moved"), seconds=0)


def recorded(asked: argparse.Namespace, folder: str) -> recipe.Played:
    """Starts the nodes, lets the clients work, stops the nodes."""
    if not shutil.which("etcd"):
        raise NoServer("no etcd on the path (in Debian the package etcd-server)")
    nodes = Nodes(asked.patience, asked.reads == "serializable")
    servers = [nodes.server(node, pathlib.Path(folder)) for node in NODES]
    with running(servers, nodes.wait_for):
        troubles = recipe.troubles_of(asked, servers, nodes.wait_for, move=[nodes.moved() for _ in range(asked.move)])
        return recipe.played(asked, folder, nodes, Mixed, troubles, [pause(one) for one in servers if asked.until_stale], keeps_session=True)


def main() -> int:
    ask = command_line(__doc__, EXAMPLE)
    ask.add_argument("--reads", choices=("serializable", "linearizable"), default="serializable", help="by default serializable")
    recipe.add_troubles(ask, stop="stops a node N times", kill="kills a node N times", move="has another node lead N times")
    recipe.add_versions(ask)
    return recipe.recorded(recorded, recipe.arguments(ask, transactions=None))


if __name__ == "__main__":
    sys.exit(main())
