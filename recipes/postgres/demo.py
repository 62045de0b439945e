#!/usr/bin/env python3
"""Shows `tcc` on a real PostgreSQL: clients at READ COMMITTED, at REPEATABLE READ, and with reads at a replica that lags.

record.py starts and stops the servers. READ COMMITTED lets each statement see another state, so its answer has to be an anomaly;
REPEATABLE READ an order; reads at the replica an anomaly. Then the status is 0, else 1. Where PostgreSQL or psycopg2 isn't
there, the status is 77.
"""
import glob
import pathlib
import shutil
import sys
from typing import Dict

HERE = pathlib.Path(__file__).resolve().parent
sys.path.insert(0, str(HERE.parent))
from shown import Demo  # noqa: E402

EXPECTED = {"read-committed": "anomaly", "repeatable-read": "consistent", "replica": "anomaly"}


def is_expected(found: Dict[str, dict]) -> bool:
    """Whether each round has the answer that it has to have."""
    return {name: one["answer"] for name, one in found.items()} == EXPECTED


DEMO = Demo(
    about=__doc__,
    recorder=HERE / "record.py",
    library="psycopg2",
    needs="PostgreSQL, or no psycopg2 (in Debian postgresql and python3-psycopg2)",
    rounds={
        "read-committed": ["--isolation", "read-committed", "--at-least", "20"],
        "repeatable-read": ["--isolation", "repeatable-read", "--at-least", "20"],
        "replica": ["--isolation", "repeatable-read", "--read-at", "replica", "--at-least", "20"],
    },
    is_expected=is_expected,
    said="READ COMMITTED and the lagging replica give an anomaly, REPEATABLE READ is consistent")

if __name__ == "__main__":
    sys.exit(DEMO.run(bool(shutil.which("postgres") or glob.glob("/usr/lib/postgresql/*/bin/postgres"))))
