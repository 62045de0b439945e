#!/usr/bin/env python3
"""Starts and stops a cluster of three MariaDB servers with Galera on the loopback, in a folder of its own.

    cluster.py start FOLDER
    cluster.py stop FOLDER

The servers are n0, n1 and n2, each in a folder of its name with its socket, `socket`; clients have no port, and no password is
asked of the user who started them. They run as the user of --user where the script runs as root, which needs Python 3.9. What
runs is found by the files `pid` there, and is ended by these numbers alone. No service of the system is touched.

Needs MariaDB's server with Galera, and rsync, on the path or in /usr/sbin (in Debian the packages mariadb-server, galera-4 and
rsync), and the library PyMySQL (python3-pymysql); and the package in python/.
"""
import argparse
import contextlib
import json
import os
import pathlib
import pwd
import re
import shutil
import signal
import subprocess
import sys
import time
from dataclasses import dataclass, field
from typing import Any, Dict, List, Optional, Tuple

sys.path.insert(0, str(pathlib.Path(__file__).resolve().parents[2] / "python"))
from tcc.harness import LOOPBACK, NoServer, free_ports, wait_until  # noqa: E402
from tcc.harness.recipe import UNPLAYED  # noqa: E402
from tcc.common.words import command_line  # noqa: E402

EXAMPLE = """example: two rounds of clients on one cluster
  $ cluster.py start /tmp/galera
  $ record.py --cluster /tmp/galera --place split --prefix a. > stale.csv
  $ record.py --cluster /tmp/galera --place split --prefix b. --sync-wait 1 > fresh.csv
  $ cluster.py stop /tmp/galera
"""
NODES = 3
# Where Debian and others have the library of Galera.
PROVIDERS = ("/usr/lib/galera/libgalera_smm.so", "/usr/lib64/galera-4/libgalera_smm.so", "/usr/lib64/galera/libgalera_smm.so")
PATH = os.pathsep.join((os.environ.get("PATH", ""), "/usr/sbin", "/usr/bin"))
PROGRAMS = ("mariadbd", "mariadb-install-db", "rsync")
# How often a node writes what was committed to its files; what none of them had written is lost where all are killed.
FLUSH_SECONDS = 5
START_SECONDS = 180
STOP_SECONDS = 60
SCHEMA = (
    "CREATE DATABASE tcc",
    "CREATE TABLE tcc.registers (name VARCHAR(32) CHARACTER SET ascii COLLATE ascii_bin PRIMARY KEY, value BIGINT NOT NULL)")
# What belongs to one node, or to one run of it.
OWN_FILES = ("gvwstate.dat", "galera.cache", "socket", "pid", "log.err")
POSITION = re.compile(r"Recovered position: *(\S+:-?\d+)")


def provider() -> Optional[str]:
    return next((path for path in PROVIDERS if os.path.exists(path)), None)


def is_there() -> bool:
    """Whether all programs are."""
    return provider() is not None and all(shutil.which(name, path=PATH) for name in PROGRAMS)


def is_user(name: str) -> bool:
    try:
        return pwd.getpwnam(name).pw_uid != 0
    except KeyError:
        return False


@dataclass
class Node:
    """A server: its folder, and its ports for the group, for what it missed, and for a whole copy."""

    folder: pathlib.Path
    ports: List[int]

    def socket(self) -> str:
        return str(self.folder / "socket")

    def pid(self) -> Optional[int]:
        """The number of its process, none where it doesn't run."""
        with contextlib.suppress(OSError, ValueError):
            number = int((self.folder / "pid").read_text())
            with contextlib.suppress(ChildProcessError):
                os.waitpid(number, os.WNOHANG)
            words = pathlib.Path("/proc/%d/cmdline" % number).read_bytes().split(b"\0")
            if os.fsencode("--datadir=%s" % self.folder) in words:
                return number
        return None

    def send(self, what: int) -> None:
        number = self.pid()
        if number is not None:
            os.kill(number, what)

    def end(self, how: int) -> None:
        """Ends it, also one that is stopped, and waits until it has."""
        self.send(how)
        self.send(signal.SIGCONT)
        wait_until(lambda: self.pid() is None, (), STOP_SECONDS, "%s didn't end" % self.folder)

    def log(self) -> str:
        """The last line of its log."""
        with contextlib.suppress(OSError):
            return ((self.folder / "log.err").read_text(errors="replace").splitlines() or [""])[-1]
        return ""


@dataclass
class Cluster:
    """Three nodes in a folder, and as whom they run where that isn't who runs this."""

    folder: pathlib.Path
    user: Optional[str]
    nodes: List[Node] = field(default_factory=list)

    @staticmethod
    def of(folder: pathlib.Path) -> "Cluster":
        """The cluster that was started in a folder."""
        try:
            told = json.loads((folder / "cluster.json").read_text())
            nodes = [Node(folder / ("n%d" % number), ports) for number, ports in enumerate(told["ports"])]
            return Cluster(folder, told["user"], nodes)
        except (OSError, ValueError, KeyError) as error:
            raise NoServer("no cluster was started in %s" % folder) from error

    @staticmethod
    def new(folder: pathlib.Path, user: Optional[str]) -> "Cluster":
        """A cluster in an empty folder, with a table of registers; it isn't started."""
        ports = free_ports(3 * NODES)
        split = [ports[3 * number:3 * number + 3] for number in range(NODES)]
        folder.mkdir(parents=True, exist_ok=True)
        (folder / "cluster.json").write_text(json.dumps({"user": user, "ports": split}))
        one = Cluster.of(folder)
        one.make()
        return one

    def where(self) -> Dict[str, Any]:
        """What a program is started with. Before Python 3.9 none can be started as another user."""
        variables = {"PATH": PATH, "LC_ALL": "C", "HOME": str(self.folder), "TMPDIR": str(self.folder)}
        return {"cwd": self.folder, "env": variables, "stdin": subprocess.DEVNULL, "stdout": subprocess.DEVNULL,
                "stderr": subprocess.DEVNULL, **({"user": self.user, "group": self.user} if self.user else {})}

    def make(self) -> None:
        """Makes the first node, and with its data the others, so that none needs a whole copy. A position in the history of the
        group is written by a server that ends, and by nothing else."""
        if self.user:
            shutil.chown(self.folder, self.user, self.user)
        first = self.nodes[0]
        me = pwd.getpwuid(os.geteuid()).pw_name
        words = ["mariadb-install-db", "--no-defaults", "--datadir=%s" % first.folder, "--auth-root-authentication-method=socket",
                 "--auth-root-socket-user=%s" % me, "--skip-test-db", "--skip-name-resolve", "--skip-log-bin",
                 "--innodb-log-file-size=16M", "--innodb-flush-method=nosync"]
        made = subprocess.run([shutil.which(words[0], path=PATH) or words[0], *words[1:]], check=False, **self.where())
        if made.returncode != 0:
            raise NoServer("%s: status %d" % (words[0], made.returncode))
        self.spawn(0, "--wsrep-new-cluster")
        self.wait_for(0, 1)
        with contextlib.closing(self.connect(0)) as server, server.cursor() as cursor:
            for statement in SCHEMA:
                cursor.execute(statement)
        first.end(signal.SIGTERM)
        for node in self.nodes[1:]:
            shutil.copytree(first.folder, node.folder, ignore=shutil.ignore_patterns(*OWN_FILES))
            if self.user:
                for path in (node.folder, *node.folder.rglob("*")):
                    shutil.chown(path, self.user, self.user)

    def words(self, number: int) -> List[str]:
        """The command line of a node."""
        node = self.nodes[number]
        group, missed, copied = node.ports
        options = ["base_host=" + LOOPBACK, "base_port=%d" % group, "gmcast.listen_addr=tcp://%s:%d" % (LOOPBACK, group),
                   "ist.recv_addr=%s:%d" % (LOOPBACK, missed), "gcache.size=128M", "pc.recovery=false",
                   "evs.keepalive_period=PT0.5S", "evs.suspect_timeout=PT2S", "evs.inactive_timeout=PT15S"]
        group_of_all = ",".join("%s:%d" % (LOOPBACK, one.ports[0]) for one in self.nodes)
        return [shutil.which("mariadbd", path=PATH) or "mariadbd", "--no-defaults", "--datadir=%s" % node.folder,
                "--socket=" + node.socket(), "--skip-networking", "--pid-file=%s" % (node.folder / "pid"),
                "--log-error=%s" % (node.folder / "log.err"), "--skip-name-resolve", "--binlog-format=ROW",
                "--innodb-autoinc-lock-mode=2", "--innodb-flush-log-at-trx-commit=0",
                "--innodb-flush-log-at-timeout=%d" % FLUSH_SECONDS, "--innodb-flush-method=nosync",
                "--innodb-buffer-pool-size=64M", "--innodb-log-file-size=16M", "--max-connections=4200",
                "--wsrep-on=ON", "--wsrep-provider=%s" % provider(), "--wsrep-cluster-name=tcc",
                "--wsrep-cluster-address=gcomm://" + group_of_all, "--wsrep-node-name=n%d" % number,
                "--wsrep-node-address=" + LOOPBACK, "--wsrep-sst-method=rsync",
                "--wsrep-sst-receive-address=%s:%d" % (LOOPBACK, copied), "--wsrep-provider-options=" + ";".join(options)]

    def spawn(self, number: int, *more: str) -> None:
        (self.nodes[number].folder / "pid").unlink(missing_ok=True)
        subprocess.Popen([*self.words(number), *more], start_new_session=True, **self.where())

    def connect(self, number: int, **more: Any) -> Any:
        import pymysql
        return pymysql.connect(unix_socket=self.nodes[number].socket(), user=pwd.getpwuid(os.geteuid()).pw_name, **more)

    def states(self, number: int) -> Tuple[str, int]:
        """What a node says of itself, and how many nodes it sees."""
        with contextlib.closing(self.connect(number, connect_timeout=5, read_timeout=5)) as server, server.cursor() as cursor:
            cursor.execute("SHOW STATUS WHERE Variable_name IN ('wsrep_local_state_comment', 'wsrep_cluster_size')")
            found = {name.lower(): value for name, value in cursor.fetchall()}
            return found["wsrep_local_state_comment"], int(found["wsrep_cluster_size"])

    def wait_for(self, number: int, least: int, seconds: float = START_SECONDS) -> None:
        """Waits until a node is in step with a group of at least so many."""
        import pymysql

        def is_synced() -> bool:
            state, size = self.states(number)
            return state == "Synced" and size >= least

        try:
            wait_until(is_synced, (pymysql.Error, OSError, KeyError), seconds, "n%d wasn't in step" % number)
        except NoServer as error:
            raise NoServer("%s: %s" % (error, self.nodes[number].log())) from error

    def wait_for_all(self) -> None:
        """Waits until all are in step; a second one that goes away before that would take the majority along."""
        for number in range(NODES):
            self.wait_for(number, NODES)

    def start(self) -> None:
        """Starts the nodes one after the other: of two that join at once each waits for the other."""
        self.spawn(0, "--wsrep-new-cluster")
        self.wait_for(0, 1)
        for number in range(1, NODES):
            self.spawn(number)
            self.wait_for(number, number + 1)

    def stop(self) -> None:
        for node in self.nodes:
            node.end(signal.SIGKILL)

    def kill(self, number: int) -> None:
        self.nodes[number].end(signal.SIGKILL)

    def restart(self, number: int) -> None:
        """Starts a node that was killed, once the others know that it is gone; who joins before that splits the group."""
        import pymysql

        def is_noticed() -> bool:
            return all(self.states(other)[1] < NODES for other in range(NODES) if other != number)

        wait_until(is_noticed, (pymysql.Error, OSError, KeyError), START_SECONDS, "the end of n%d wasn't noticed" % number)
        self.spawn(number, "--wsrep-start-position=" + self.position(number))
        self.wait_for_all()

    def position(self, number: int) -> str:
        """How far a node came in the history of the group: its name, and a number."""
        log = self.nodes[number].folder / "recovered.err"
        words = [*self.words(number), "--wsrep-recover", "--log-error=%s" % log]
        subprocess.run(words, check=False, timeout=START_SECONDS, **self.where())
        found = POSITION.findall(log.read_text(errors="replace"))
        log.unlink()
        if not found:
            raise NoServer("n%d doesn't know how far it came" % number)
        return str(found[-1])

    def crash(self) -> None:
        """Kills all nodes, and starts them again from the one that came furthest; what none of them had written is lost."""
        self.stop()
        positions = [self.position(number) for number in range(NODES)]
        first = max(range(NODES), key=lambda number: int(positions[number].rpartition(":")[2]))
        state = self.nodes[first].folder / "grastate.dat"
        state.write_text(state.read_text().replace("safe_to_bootstrap: 0", "safe_to_bootstrap: 1"))
        self.spawn(first, "--wsrep-new-cluster", "--wsrep-start-position=" + positions[first])
        self.wait_for(first, 1)
        for joined, number in enumerate((one for one in range(NODES) if one != first), 2):
            self.spawn(number, "--wsrep-start-position=" + positions[number])
            self.wait_for(number, joined)


def started(folder: pathlib.Path, user: Optional[str]) -> Cluster:
    """A new cluster in an empty folder, which runs; where it doesn't come to that, nothing runs."""
    if not is_there():
        raise NoServer("no mariadbd with Galera and rsync (in Debian the packages mariadb-server, galera-4 and rsync)")
    with contextlib.ExitStack() as held:
        held.callback(stop, folder)
        one = Cluster.new(folder, user)
        one.start()
        held.pop_all()
        return one


def stop(folder: pathlib.Path) -> None:
    """Stops what runs in a folder, if a cluster was made there."""
    if (folder / "cluster.json").exists():
        Cluster.of(folder).stop()


def add_user(ask: argparse.ArgumentParser) -> None:
    ask.add_argument("--user", default="mysql" if is_user("mysql") else "nobody", metavar="NAME",
                     help="as whom the servers run where the script runs as root; by default mysql, or else nobody")


def started_as(asked: argparse.Namespace) -> Optional[str]:
    """As whom servers run, where that isn't who runs this."""
    return str(asked.user) if os.geteuid() == 0 else None


def main() -> int:
    signal.signal(signal.SIGTERM, lambda *_: sys.exit(1))
    ask = command_line(__doc__, EXAMPLE)
    ask.add_argument("what", choices=("start", "stop"))
    ask.add_argument("folder", type=lambda word: pathlib.Path(word).resolve(), help="a folder that isn't there yet, or is empty")
    add_user(ask)
    asked = ask.parse_args()
    try:
        if asked.what == "stop":
            stop(asked.folder)
            return 0
        if asked.folder.exists() and any(asked.folder.iterdir()):
            raise NoServer("%s isn't empty" % asked.folder)
        begun = time.monotonic()
        started(asked.folder, started_as(asked))
        print("cluster.py: three nodes in %s after %.1f s" % (asked.folder, time.monotonic() - begun), file=sys.stderr)
    except ImportError:
        print("cluster.py: no PyMySQL; in Debian the package python3-pymysql has it, for /usr/bin/python3", file=sys.stderr)
        return 1
    except (NoServer, OSError, subprocess.SubprocessError) as error:
        print("cluster.py: %s" % error, file=sys.stderr)
        return 1 if isinstance(error, OSError) else UNPLAYED
    return 0


if __name__ == "__main__":
    sys.exit(main())
