#!/usr/bin/env python3
"""Shows `tcc` on a real cluster: clients of MariaDB with Galera that write at one node and read at another, and clients that
keep to one.

cluster.py starts and stops the three nodes. Who reads at another node sees stale values there, which applies what it was sent a
little later: its answer has to be an anomaly. With wsrep_sync_wait, which promises causal reads, it has to be an order, and so
it has where each client keeps to one node. Then the status is 0, else 1. Where the servers or PyMySQL aren't there, the status
is 77.
"""
import pathlib
import signal
import subprocess
import sys
import tempfile
from typing import Dict, List

HERE = pathlib.Path(__file__).resolve().parent
sys.path[:0] = [str(HERE), str(HERE.parent)]
import cluster  # noqa: E402
from shown import TURN, TURNS, UNPLAYED, WITHOUT_SERVER, Demo, python_with  # noqa: E402

LIBRARY = "pymysql"
EXPECTED = {"no-wait": "anomaly", "sync-wait": "consistent", "one-node": "consistent"}
ROUNDS = {
    "no-wait": ["--place", "split", "--lag", "200", "--at-least", "40"],
    "sync-wait": ["--place", "split", "--lag", "200", "--sync-wait", "1", "--at-least", "40"],
    "one-node": ["--place", "home", "--lag", "200", "--at-least", "40"],
}


def is_expected(found: Dict[str, dict]) -> bool:
    """Whether each round has the answer that it has to have."""
    return {name: one["answer"] for name, one in found.items()} == EXPECTED


def demo(folder: pathlib.Path) -> Demo:
    """What is shown on the cluster in a folder."""
    return Demo(
        about=__doc__,
        recorder=HERE / "record.py",
        library=LIBRARY,
        needs="MariaDB with Galera and rsync, or no PyMySQL (in Debian mariadb-server, galera-4, rsync and python3-pymysql)",
        rounds={name: ["--cluster", str(folder), "--prefix", "%s.%s." % (name, TURN), *words] for name, words in ROUNDS.items()},
        is_expected=is_expected,
        said="reads at another node are stale, with wsrep_sync_wait none is, and who keeps to one node sees none")


def shown_on_cluster(python: str, folder: pathlib.Path) -> int:
    """Shows it on a cluster that runs meanwhile; the exit status. A round that is played again there has other keys."""
    def command(what: str) -> List[str]:
        return [python, str(HERE / "cluster.py"), what, str(folder)]

    try:
        begun = subprocess.run(command("start"), check=False)
        return demo(folder).run(True) if begun.returncode == 0 else begun.returncode
    finally:
        subprocess.run(command("stop"), check=False)


def shown_in_turns(python: str) -> int:
    """Shows it, on a new cluster where one didn't come up in time; the exit status."""
    for _ in range(TURNS):
        with tempfile.TemporaryDirectory() as name:
            folder = pathlib.Path(name)
            folder.chmod(0o755)
            status = shown_on_cluster(python, folder)
        if status != UNPLAYED:
            return status
    print("demo.py: no cluster came up in %d turns" % TURNS, file=sys.stderr)
    return WITHOUT_SERVER


def main() -> int:
    signal.signal(signal.SIGTERM, lambda *_: sys.exit(1))
    python = python_with(LIBRARY)
    if python is None or not cluster.is_there() or {"-h", "--help"} & set(sys.argv):
        return demo(pathlib.Path("FOLDER")).run(False)
    return shown_in_turns(python)


if __name__ == "__main__":
    sys.exit(main())
