#!/usr/bin/env python3
"""Shows `tcc` on real servers: clients of a Redis that read at the primary, then clients that read at a lagging replica.

record.py starts and stops the servers. While its clients work, `tcc watch` answers for what they have done so far, and each answer is
shown as it comes, an anomaly in full. Then `tcc explain` answers for all: first an order has to come, then a stale read of three steps,
the least that there is. The status is 0 where that is so, else 1. Where redis-server or redis-py isn't there, it is 77.
"""
import pathlib
import shutil
import sys
from typing import Dict

# The clients go slowly, so that there is something to watch.
ROUND = ["--at-least", "20", "--pause", "20"]
HERE = pathlib.Path(__file__).resolve().parent
sys.path.insert(0, str(HERE.parent))
from shown import Demo  # noqa: E402


def is_expected(found: Dict[str, dict]) -> bool:
    """Whether the primary alone is consistent, and the replica gives a stale read of the fewest steps."""
    primary, replica = found["primary"], found["replica"]
    return primary["answer"] == "consistent" and replica["answer"] == "anomaly" and replica["steps"] == 3


DEMO = Demo(
    about=__doc__,
    recorder=HERE / "record.py",
    library="redis",
    needs="redis-server on the path, or no redis-py (in Debian redis-server and python3-redis)",
    rounds={place: ["--read-at", place, *ROUND] for place in ("primary", "replica")},
    is_expected=is_expected,
    said="the primary alone is consistent, the lagging replica gives a stale read",
    watched=True)

if __name__ == "__main__":
    sys.exit(DEMO.run(shutil.which("redis-server") is not None))
