#!/usr/bin/env python3
"""Records what clients of a PostgreSQL see, for `tcc explain`.

Starts a server of its own on the loopback, in a new folder, and clients whose transactions are several statements each: reads
of some keys and writes of others, at the level of isolation that --isolation says. With `--read-at replica` there is a
streaming replica too, which applies what the primary did half a second later: each transaction that writes is then followed
by one that reads the same keys at the replica. With `--kill N` a client's backend is ended N times while they work. In the end a
client's transaction reads two keys, which another client writes between, and the replica is read while it applies nothing: so
what a level or a place lets happen doesn't go by luck.

A transaction that the server refuses (a conflict of two writers) is noted as aborted, and so is one that broke off before its
COMMIT was sent; one that broke off in its COMMIT is of unknown outcome. Then the client goes on in a new session with a
connection of its own, as after any broken connection; with --keep-sessions in the one that it has, if no outcome is unknown.

Standard output has the records, standard error what was done, and what lagged. The servers are stopped and their folder goes in the end,
whatever comes. Where the script runs as root, the servers run as the user of --user, since PostgreSQL doesn't run as root;
that needs Python 3.9.

Needs PostgreSQL's programs (in Debian the package postgresql; they are looked for on the path and in /usr/lib/postgresql) and
the library psycopg2 (python3-psycopg2), and the package in python/.
"""
import argparse
import contextlib
import glob
import os
import pathlib
import pwd
import secrets
import shutil
import signal
import subprocess
import sys
import tempfile
from dataclasses import dataclass, field
from typing import Dict, List, Optional

sys.path.insert(0, str(pathlib.Path(__file__).resolve().parents[2] / "python"))
from tcc.harness import (LOOPBACK, Atomic, Client, Keys, Mixed, NoServer, Server, Store, Trouble, TurnOver, Workload, WriteThenRead, at,  # noqa: E402
                         free_port, recipe, wait_until)
from tcc.harness.sql import Registers, Sql  # noqa: E402
from tcc.common.words import command_line, count_within  # noqa: E402

EXAMPLE = """example: reads of two states within one transaction, and the rows of what they saw
  $ record.py --isolation read-committed > records.csv
  $ tcc explain --json < records.csv > answer.json
  $ picture.py answer.json --history records.csv --text
"""
START_SECONDS = 120
STOP_SECONDS = 20
DELAY_MILLISECONDS = 500
LEVELS = {"read-committed": "READ COMMITTED", "repeatable-read": "REPEATABLE READ", "serializable": "SERIALIZABLE"}
REGISTERS = Registers("SELECT value FROM registers WHERE key = %s",
                       "INSERT INTO registers VALUES (%s, %s) ON CONFLICT (key) DO UPDATE SET value = excluded.value")
KILL = "SELECT pg_terminate_backend(pid) FROM pg_stat_activity WHERE application_name = 'client' ORDER BY random() LIMIT 1"


def program(name: str) -> str:
    """The path of one of PostgreSQL's programs: that on the path, else the newest of Debian's packages."""
    paths = glob.glob("/usr/lib/postgresql/*/bin/" + name)
    found = shutil.which(name) or max(paths, key=lambda path: float(path.split("/")[4]), default=None)
    if not found:
        raise NoServer("no %s on the path or in /usr/lib/postgresql" % name)
    return found


@dataclass
class Host:
    """Where the servers run: a folder, the user whose it is where that is another than the script's, and a password."""

    folder: pathlib.Path
    user: Optional[str]
    password: str = field(default_factory=lambda: secrets.token_hex(16))

    def where(self) -> Dict[str, object]:
        """What a program is started with. Before Python 3.9 none can be started as another user."""
        variables = {"PATH": os.environ.get("PATH", ""), "LC_ALL": "C", "PGPASSWORD": self.password}
        return {"cwd": self.folder, "env": variables, **({"user": self.user} if self.user else {})}

    def run(self, name: str, *words: str) -> None:
        """Runs one of PostgreSQL's programs to its end."""
        done = subprocess.run([program(name), *words], capture_output=True, timeout=START_SECONDS, check=False, **self.where())
        if done.returncode != 0:
            raise NoServer("%s: %s" % (name, done.stderr.decode(errors="replace").strip()))

    def start(self, held: contextlib.ExitStack, data: str, *settings: str) -> int:
        """Starts a server on a folder of data, to be stopped with `held`, and gives its port."""
        port = free_port()
        words = ["listen_addresses=" + LOOPBACK, "port=%d" % port, "unix_socket_directories=", "fsync=off", *settings]
        command = [program("postgres"), "-D", data, *(part for word in words for part in ("-c", word))]
        server = Server(data, command, more=self.where()).start()
        held.callback(server.end, signal.SIGQUIT, STOP_SECONDS)  # stopped at once, whoever is connected
        return port

    def connect(self, driver, port: int, name: str):
        return driver.connect(host=LOOPBACK, port=port, dbname="postgres", user="tcc", password=self.password,
                              application_name=name, connect_timeout=START_SECONDS)

    def wait_for(self, driver, port: int, what: str) -> None:
        def answered() -> bool:
            with contextlib.closing(self.connect(driver, port, "waiting")) as server, server.cursor() as cursor:
                cursor.execute("SELECT count(*) FROM registers" if what == "replica" else "SELECT 1")
                return True
        wait_until(answered, (driver.OperationalError,), START_SECONDS, "the %s didn't answer" % what)


def start_primary(driver, host: Host, held: contextlib.ExitStack, clients: int) -> int:
    """A new server with the table of registers, and its port; it has room for so many clients."""
    secret = host.folder / "password"
    secret.write_text(host.password + "\n")
    if host.user:
        shutil.chown(secret, host.user)
    secret.chmod(0o600)
    host.run("initdb", "-D", "primary", "-U", "tcc", "-A", "scram-sha-256", "--pwfile", str(secret), "--no-sync", "-E", "UTF8")
    port = host.start(held, "primary", "wal_level=replica", "max_wal_senders=4", "max_connections=%d" % (clients + 20))
    host.wait_for(driver, port, "primary")
    with contextlib.closing(host.connect(driver, port, "making")) as server:
        with server, server.cursor() as cursor:
            cursor.execute("CREATE TABLE registers (key text PRIMARY KEY, value bigint NOT NULL)")
    return port


def start_replica(driver, host: Host, held: contextlib.ExitStack, primary: int, asked: argparse.Namespace) -> int:
    """A replica that follows the primary with the delay that is asked for, and its port."""
    host.run("pg_basebackup", "-D", "replica", "-h", LOOPBACK, "-p", str(primary), "-U", "tcc", "-R", "-X", "stream",
             "-c", "fast", "--no-sync")
    port = host.start(held, "replica", "hot_standby=on", "recovery_min_apply_delay=%dms" % asked.delay,
                      "max_connections=%d" % (asked.clients + 20))
    host.wait_for(driver, port, "replica")
    return port


class Servers(Store):
    """The primary and the replica, if there is one, at a level of isolation; a replica, which is only read, has no SERIALIZABLE."""

    atomic = Atomic.TRANSACTION

    def __init__(self, driver, host: Host, level: str, **ports: int):
        self.driver, self.host, self.ports, self.nodes = driver, host, ports, tuple(ports)
        self.levels = {"primary": level, "replica": "repeatable-read" if level == "serializable" else level}
        self.broken = driver.OperationalError, driver.InterfaceError
        self.refused = (driver.extensions.TransactionRollbackError,)

    def connect(self, node: str) -> Sql:
        server = self.host.connect(self.driver, self.ports[node], "client")
        server.set_session(isolation_level=LEVELS[self.levels[node]])
        return Sql(server, REGISTERS)

    def end(self, clients: List[Client]) -> None:
        """What a level or a place lets happen, without luck."""
        if len(clients) > 1:
            self.read_two_states(*clients[:2])
        if "replica" in self.ports:
            self.read_behind(clients[0])

    def read_two_states(self, one: Client, other: Client) -> None:
        """One reads two keys in a transaction, and between these the other one, which has read the first, writes both."""
        with contextlib.suppress(TurnOver), one.statements("primary", ["k0", "k1"]) as reading:
            reading.read("k0")
            other.do("primary", ["k0"], ["k0", "k1"])
            reading.read("k1")

    def read_behind(self, client: Client) -> None:
        """The replica, once it has all, applies nothing more; a client writes a key that it has read, and reads it there."""
        with contextlib.closing(self.host.connect(self.driver, self.ports["primary"], "asking")) as primary, \
                contextlib.closing(self.host.connect(self.driver, self.ports["replica"], "pausing")) as replica:
            primary.autocommit = replica.autocommit = True
            there = first_cell(primary, "SELECT pg_current_wal_lsn()")
            wait_until(lambda: first_cell(replica, "SELECT pg_last_wal_replay_lsn() >= %s::pg_lsn", there), (), START_SECONDS,
                       "the replica wasn't in step")
            first_cell(replica, "SELECT pg_wal_replay_pause()")
            client.do("primary", ["k0"], ["k0"])
            client.do("replica", ["k0"])
            first_cell(replica, "SELECT pg_wal_replay_resume()")


def first_cell(server, statement: str, *given: str):
    with server.cursor() as cursor:
        cursor.execute(statement, given)
        return cursor.fetchone()[0]


def ended_backend(servers: Servers) -> Trouble:
    """The backend of some client is ended."""
    def end() -> None:
        with contextlib.closing(servers.host.connect(servers.driver, servers.ports["primary"], "killing")) as server:
            server.autocommit = True
            with server.cursor() as cursor:
                cursor.execute(KILL)

    return Trouble("end-backend", "primary", end, seconds=0)


def turn_of(keys: Keys, has_replica: bool) -> Workload:
    """Reads of some keys, and then writes; of a replica then reads of the same keys there."""
    if has_replica:
        return WriteThenRead(keys, at("primary"), at("replica"), most=2, reads_before=2, beside=0)
    return Mixed(keys, at("primary"), share_of_writes=1.0, overlaps=True)


def recorded(asked: argparse.Namespace, folder: str) -> recipe.Played:
    """Starts the servers, lets the clients work, stops the servers."""
    import psycopg2
    import psycopg2.extensions
    with contextlib.ExitStack() as held:
        own = pathlib.Path(held.enter_context(tempfile.TemporaryDirectory()))
        user = asked.user if os.geteuid() == 0 else None
        if user:
            shutil.chown(own, user)
        host = Host(own, user)
        ports = {"primary": start_primary(psycopg2, host, held, asked.clients)}
        if asked.read_at == "replica":
            ports["replica"] = start_replica(psycopg2, host, held, ports["primary"], asked)
        servers = Servers(psycopg2, host, asked.isolation, **ports)
        return recipe.played(asked, folder, servers, lambda keys: turn_of(keys, "replica" in ports), [ended_backend(servers)] * asked.kill,
                             ending=servers.end, keeps_session=asked.keep_sessions)


def is_user(name: str) -> bool:
    try:
        return pwd.getpwnam(name).pw_uid != 0
    except KeyError:
        return False


def main() -> int:
    ask = command_line(__doc__, EXAMPLE)
    ask.add_argument("--isolation", choices=tuple(LEVELS), default="read-committed", help="by default read-committed")
    ask.add_argument("--read-at", choices=("primary", "replica"), default="primary", help="where is read; by default the primary")
    ask.add_argument("--delay", type=count_within(0, 60000), default=DELAY_MILLISECONDS, metavar="MS",
                     help="how much later the replica applies what was done, in milliseconds, by default %d" % DELAY_MILLISECONDS)
    ask.add_argument("--kill", type=count_within(0, 1000), default=0, metavar="N", help="ends the backend of a client N times")
    ask.add_argument("--user", default="postgres" if is_user("postgres") else "nobody", metavar="NAME",
                     help="as whom the servers run where the script runs as root; by default postgres, or else nobody")
    recipe.add_keep_sessions(ask)
    return recipe.recorded(recorded, recipe.arguments(ask), "psycopg2", "python3-psycopg2")


if __name__ == "__main__":
    sys.exit(main())
