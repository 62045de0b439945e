#!/usr/bin/env python3
"""Records what clients of a NATS JetStream key-value bucket see, with the sequence numbers that it tells, for `tcc explain`.

Starts three nodes of its own on the loopback, in a new folder, and a bucket with a replica at each. A write is acknowledged once most
replicas have it. With --reads direct the node that a client asks answers from its own replica, which may be old, as clients of NATS do
by default; with --reads leader the leader of the bucket answers. Clients write a key at some node, and then read it at another. The
version of what is read or written is its sequence number.

Meanwhile, where that is asked for, --stop and --kill stop a node for a second (SIGSTOP), or kill it (SIGKILL) and start it again, one
after the other. A request that isn't answered in time is of unknown outcome. The clients work for --seconds, and on until all troubles
have happened and each has done --at-least transactions; with --until-stale also until a client read something older than what it had
seen, for which nodes are stopped too. A round that doesn't come so far wasn't played: the status is 75.

Standard output has the records, standard error what was done, and what lagged. The nodes are killed in the end, whatever comes. Needs
nats-server on the path (in Debian the package nats-server), and the package in python/.
"""
import argparse
import base64
import contextlib
import json
import pathlib
import secrets
import shutil
import socket
import sys
from dataclasses import dataclass, field, replace
from typing import Any, Dict, List, NamedTuple

sys.path.insert(0, str(pathlib.Path(__file__).resolve().parents[2] / "python"))
from tcc.common.words import command_line  # noqa: E402
from tcc.harness import (LOOPBACK, Connection, Found, Keys, NoServer, OneOf, Server, Store, Swap, Swaps, WriteThenRead, anywhere, elsewhere,  # noqa: E402
                         pause, ports_of, recipe, running, wait_until)

EXAMPLE = """example: clients that read at any replica, and the reads that are stale
  $ record.py -o records.csv --versions versions.csv --notes notes.csv --stale stale.txt
  $ tcc-versions records.csv versions.csv -o versioned.csv
  $ tcc explain --large versioned.csv
"""
NODES = ("n0", "n1", "n2")
# Each is multiplied by --patience.
ANSWER_SECONDS, START_SECONDS = 2.0, 60.0
STREAM, SUBJECT = "KV_tcc", "$KV.tcc."
BUCKET = {"name": STREAM, "subjects": [SUBJECT + ">"], "num_replicas": len(NODES), "max_msgs_per_subject": 1, "discard": "new", "storage": "file",
          "allow_direct": True, "allow_rollup_hdrs": True, "deny_delete": True}
EXPECTED = "Nats-Expected-Last-Subject-Sequence"
NOT_FOUND, WRONG_SEQUENCE = 10037, 10071
CONFIGURATION = """server_name: %s
listen: 127.0.0.1:%d
jetstream { store_dir: "%s", max_mem: 64M, max_file: 1G }
cluster { name: tcc, listen: 127.0.0.1:%d, no_advertise: true, routes: [%s] }
"""


class Refusal(Exception):
    """An answer that says why not, with NATS' number of that."""


class Message(NamedTuple):
    """An answer: its headers, and what it has."""

    headers: Dict[str, str]
    data: bytes


class Line(Connection):
    """A connection to a node, over NATS' own protocol of text."""

    def __init__(self, port: int, seconds: float, is_direct: bool):
        self.is_direct, self.asked, self.inbox = is_direct, 0, "_INBOX." + secrets.token_hex(12)
        self.socket = socket.create_connection((LOOPBACK, port), timeout=seconds)
        self.lines = self.socket.makefile("rwb")
        self.lines.readline()
        told = json.dumps({"verbose": False, "headers": True, "no_responders": True})
        self.send(b"CONNECT %s\r\nSUB %s.* 1\r\n" % (told.encode(), self.inbox.encode()))

    def send(self, text: bytes) -> None:
        self.lines.write(text)
        self.lines.flush()

    def answer_to(self, subject: str, data: bytes = b"", **headers: str) -> Message:
        """The answer to a message."""
        self.asked += 1
        answer = "%s.%d" % (self.inbox, self.asked)
        head = "NATS/1.0\r\n%s\r\n" % "".join("%s: %s\r\n" % (name.replace("_", "-"), value) for name, value in headers.items())
        self.send(b"HPUB %s %s %d %d\r\n%s%s\r\n" % (subject.encode(), answer.encode(), len(head), len(head) + len(data), head.encode(), data))
        while True:
            kind, *words = self.lines.readline().decode().split() or [""]
            if kind == "PING":
                self.send(b"PONG\r\n")
            elif kind in ("MSG", "HMSG"):
                size = int(words[-1])
                found = self.lines.read(size + 2)[:size]
                if words[0] == answer:
                    return message(found, int(words[-2]) if kind == "HMSG" else 0)
            elif kind not in ("+OK", "PONG", "INFO"):
                raise OSError("the node answered %s" % " ".join([kind, *words]))

    def ask(self, subject: str, what: Any, **headers: str) -> Dict[str, Any]:
        """The answer in JSON; an error of the system where no node is there to answer."""
        found = self.answer_to(subject, what if isinstance(what, bytes) else json.dumps(what).encode(), **headers)
        if not found.data:
            raise OSError("no answer: %s" % found.headers)
        told: Dict[str, Any] = json.loads(found.data)
        if "error" in told:
            raise (Refusal if told["error"].get("err_code") in (NOT_FOUND, WRONG_SEQUENCE) else OSError)(told["error"].get("err_code"), str(told["error"]))
        return told

    def read(self, key: str) -> Found:
        if self.is_direct:
            found = self.answer_to("$JS.API.DIRECT.GET.%s.%s%s" % (STREAM, SUBJECT, key))
            if "Nats-Sequence" in found.headers:
                return Found(int(found.data), int(found.headers["Nats-Sequence"]))
            if found.headers.get("status", "").startswith("404"):
                return Found()
            raise OSError("no answer: %s" % found.headers)
        with contextlib.suppress(Refusal):
            told = self.ask("$JS.API.STREAM.MSG.GET." + STREAM, {"last_by_subj": SUBJECT + key})["message"]
            return Found(int(base64.b64decode(told["data"])), int(told["seq"]))
        return Found()

    def write(self, key: str, value: int) -> int:
        return int(self.ask(SUBJECT + key, b"%d" % value)["seq"])

    def compare_and_set(self, key: str, seen: Found, value: int) -> Swap:
        with contextlib.suppress(Refusal):
            return Swap(True, int(self.ask(SUBJECT + key, b"%d" % value, **{EXPECTED: str(seen.version or 0)})["seq"]))
        return Swap(False)

    def close(self) -> None:
        self.socket.close()


def message(found: bytes, headers: int) -> Message:
    """A message whose first bytes are headers; the first line of these may have a status."""
    lines = found[:headers].decode().split("\r\n")
    named = dict(line.split(": ", 1) if ": " in line else (line.rstrip(":"), "") for line in lines[1:] if line)
    return Message({**named, "status": lines[0].partition(" ")[2]}, found[headers:])


@dataclass
class Nodes(Store):
    """Three nodes, each with its ports for clients and for the group."""

    folder: pathlib.Path
    patience: int
    is_direct: bool
    ports: Dict[str, List[int]] = field(default_factory=lambda: ports_of(NODES, 2))

    nodes = NODES

    def connect(self, node: str) -> Line:
        return Line(self.ports[node][0], ANSWER_SECONDS * self.patience, self.is_direct)

    def server(self, node: str) -> Server:
        configuration = self.folder / (node + ".conf")
        group = ", ".join("nats://%s:%d" % (LOOPBACK, self.ports[other][1]) for other in NODES if other != node)
        configuration.write_text(CONFIGURATION % (node, self.ports[node][0], self.folder / node, self.ports[node][1], group))
        return Server(node, ["nats-server", "-c", str(configuration)], log=str(self.folder / (node + ".log")))

    def made(self) -> bool:
        """Makes the bucket, which may be there."""
        with contextlib.closing(self.connect(NODES[0])) as one:
            one.ask("$JS.API.STREAM.CREATE." + STREAM, BUCKET)
        return True

    def wait_for(self, server: Server) -> None:
        """Waits until a node is in step with the group, so far as it says so: it finds the bucket's leader, and has it at its replica."""
        def answers() -> bool:
            server.check()
            for is_direct in (False, True):
                with contextlib.closing(replace(self, is_direct=is_direct).connect(server.node)) as one:
                    one.read("ready")
            return True

        wait_until(answers, (OSError, ValueError), START_SECONDS * self.patience, "%s didn't answer" % server.node)


def turn_of(keys: Keys) -> OneOf:
    """What a client does in a turn: mostly a write and a read elsewhere, now and then a compare-and-set."""
    return OneOf([(4, WriteThenRead(keys, anywhere, elsewhere)), (1, Swaps(keys, anywhere))])


def recorded(asked: argparse.Namespace, folder: str) -> recipe.Played:
    """Starts the nodes, lets the clients work, stops the nodes."""
    if not shutil.which("nats-server"):
        raise NoServer("no nats-server on the path (in Debian the package nats-server)")
    nodes = Nodes(pathlib.Path(folder), asked.patience, asked.reads == "direct")
    servers = [nodes.server(node) for node in NODES]
    with running(servers, lambda server: None):
        wait_until(nodes.made, (OSError, ValueError), START_SECONDS * asked.patience, "no bucket could be made")
        for server in servers:
            nodes.wait_for(server)
        return recipe.played(asked, folder, nodes, turn_of, recipe.troubles_of(asked, servers, nodes.wait_for),
                             [pause(one) for one in servers if asked.until_stale], keeps_session=True)


def main() -> int:
    ask = command_line(__doc__, EXAMPLE)
    ask.add_argument("--reads", choices=("direct", "leader"), default="direct", help="by default direct")
    recipe.add_troubles(ask, stop="stops a node N times", kill="kills a node N times")
    recipe.add_versions(ask)
    return recipe.recorded(recorded, recipe.arguments(ask, transactions=None))


if __name__ == "__main__":
    sys.exit(main())
