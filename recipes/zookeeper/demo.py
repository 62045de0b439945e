#!/usr/bin/env python3
"""Shows `tcc` on a real ZooKeeper of three nodes, with the transaction ids that it tells.

record.py starts and stops the nodes, and reckons from ZooKeeper's own ids which reads are stale. Who writes at one node and reads at
another sees old values there: the answer has to be an anomaly, and the reads that `tcc survey` lists for the history with versions
have to be those, no more and no less. With a sync before each read there are none, and none where each client keeps to a node, though
nodes are stopped and killed: that has to be consistent. Then the status is 0, else 1. A round that can't be played is played again with
more time. Where ZooKeeper, Java or Kazoo isn't there, or a round was never played, the status is 77: nothing was shown.
"""
import pathlib
import signal
import sys

HERE = pathlib.Path(__file__).resolve().parent
sys.path[:0] = [str(HERE), str(HERE.parent)]
import record  # noqa: E402
from shown import VersionedDemo  # noqa: E402

DEMO = VersionedDemo(
    about=__doc__,
    recorder=HERE / "record.py",
    library="kazoo",
    needs="ZooKeeper or Java, or no Kazoo (in Debian zookeeper, default-jre-headless and python3-kazoo)",
    rounds={"split": ["--place", "split", "--until-stale", "--at-least", "20", "--seconds", "5"],
            "sync": ["--place", "split", "--reads", "sync", "--at-least", "20", "--seconds", "5"],
            "home": ["--place", "home", "--at-least", "20", "--seconds", "8", "--stop", "2", "--kill", "1"]},
    kept=["sync", "home"],
    said="reads at another node are stale, with a sync none is, and who keeps to one node sees none")

if __name__ == "__main__":
    signal.signal(signal.SIGTERM, lambda *_: sys.exit(1))
    sys.exit(DEMO.run(record.is_there()))
