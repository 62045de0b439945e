#!/usr/bin/env python3
"""Shows `tcc` on a real NATS of three nodes, at a key-value bucket of JetStream, with the sequence numbers that it tells.

record.py starts and stops the nodes, and reckons from the sequence numbers which reads are stale. Clients whose reads any replica
answers (direct gets, as clients of NATS ask for) see old values: the answer has to be an anomaly, and the reads that `tcc survey` lists
for the history with versions have to be those, no more and no less. Where the bucket's leader answers there are none: that has to be
consistent. Then the status is 0, else 1. A round that can't be played is played again with more time. Where nats-server isn't there, or a
round was never played, the status is 77: nothing was shown.
"""
import pathlib
import shutil
import signal
import sys

HERE = pathlib.Path(__file__).resolve().parent
sys.path.insert(0, str(HERE.parent))
from shown import VersionedDemo  # noqa: E402

DEMO = VersionedDemo(
    about=__doc__,
    recorder=HERE / "record.py",
    needs="nats-server on the path (in Debian the package nats-server)",
    rounds={"direct": ["--reads", "direct", "--until-stale", "--at-least", "20", "--seconds", "5"],
            "leader": ["--reads", "leader", "--at-least", "20", "--seconds", "5"]},
    kept=["leader"],
    said="direct reads are stale just where the sequence numbers say so; those of the leader never are")

if __name__ == "__main__":
    signal.signal(signal.SIGTERM, lambda *_: sys.exit(1))
    sys.exit(DEMO.run(shutil.which("nats-server") is not None))
