#!/usr/bin/env python3
"""Shows `tcc` on a real etcd of three nodes, with the revisions that it tells.

record.py starts and stops the nodes, and reckons from etcd's own revisions which reads are stale. Clients that have each node answer
from what it has (serializable reads) see old values: the answer has to be an anomaly, and the reads that `tcc survey` lists for the
history with versions have to be those, no more and no less. With linearizable reads there are none, though nodes are stopped and
killed and the leader is moved: that has to be consistent. Then the status is 0, else 1. A round that can't be played, as where a node
doesn't come up in time or no read is stale, is played again with more time. Where etcd isn't there, or a round was never played, the
status is 77: nothing was shown.
"""
import pathlib
import shutil
import signal
import sys

HERE = pathlib.Path(__file__).resolve().parent
sys.path.insert(0, str(HERE.parent))
from shown import VersionedDemo  # noqa: E402

TROUBLE = ["--stop", "2", "--kill", "1", "--move", "2"]
CLIENTS = ["--clients", "6", "--keys", "6", "--at-least", "35"]
STALE = ["--reads", "serializable", "--until-stale", *CLIENTS]
DEMO = VersionedDemo(
    about=__doc__,
    recorder=HERE / "record.py",
    needs="etcd on the path (in Debian the package etcd-server)",
    rounds={"serializable": [*STALE, "--seconds", "5"], "troubled": [*STALE, "--seconds", "9", *TROUBLE],
            "linearizable": ["--reads", "linearizable", *CLIENTS, "--seconds", "9", *TROUBLE]},
    kept=["linearizable"],
    said="serializable reads are stale just where etcd's revisions say so; linearizable ones never are")

if __name__ == "__main__":
    signal.signal(signal.SIGTERM, lambda *_: sys.exit(1))
    sys.exit(DEMO.run(shutil.which("etcd") is not None))
