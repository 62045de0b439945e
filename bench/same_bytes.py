#!/usr/bin/env python3
"""Runs the built `tcc` on the largest anomalies by many workers, and compares all bytes with those of one worker.

    same_bytes.py [--runs N] [--transactions N] [--only NAME ..] [--tcc PATH]

Each history is explained once by one worker, and then N times in all, by 4 and by 32 workers in turn: standard output,
status and certificate have to be the same each time. Each difference is one line; the last line is `N passed, M failed`,
a run a pass. 200 runs of the largest histories take long; `--transactions` makes smaller ones.
"""
import argparse
import hashlib
import os
import pathlib
import subprocess
import sys
import tempfile

from histories import text_of

TOP = pathlib.Path(__file__).resolve().parent.parent
sys.path.insert(0, str(TOP / "tests"))
from counted import status_of  # noqa: E402
import limits  # noqa: E402

ANOMALY = 1
KINDS = ["stale-reads", "stale-reads-of-few-keys", "stale-reads-in-one-session", "ring-of-long-links"]


def bytes_of(tcc, history, workers, folder):
    """Standard output, status and a digest of the certificate, None where there is none."""
    certificate = pathlib.Path(folder, "certificate")
    certificate.unlink(missing_ok=True)
    with open(history, "rb") as records:
        run = subprocess.run([tcc, "explain", "--workers", str(workers), "--certificate", certificate], stdin=records,
                             stdout=subprocess.PIPE)
    return {"standard output": run.stdout, "status": run.returncode,
            "certificate": hashlib.sha256(certificate.read_bytes()).hexdigest() if certificate.exists() else None}


def compared(tcc, kind, history, runs, folder):
    """The run by one worker and those by many, each with what is wrong, or None."""
    first = bytes_of(tcc, history, 1, folder)
    print("%s: %s" % (kind, first["standard output"].split(b"\n")[0].decode()), flush=True)
    yield "%s, 1 worker" % kind, None if first["status"] == ANOMALY else "status %d of an anomaly" % first["status"]
    for run in range(runs):
        workers = (4, 32)[run % 2]
        got = bytes_of(tcc, history, workers, folder)
        others = [part for part in first if got[part] != first[part]]
        yield "%s, %d workers, run %d" % (kind, workers, run), "another %s" % " and ".join(others) if others else None


def outcomes(tcc, kinds, transactions, runs):
    """All runs on histories of these kinds, each with what is wrong, or None."""
    with tempfile.TemporaryDirectory() as folder:
        for kind in kinds:
            history = pathlib.Path(folder, "history.csv")
            history.write_text(text_of(kind, transactions))
            yield from compared(tcc, kind, history, runs, folder)


def main():
    ask = argparse.ArgumentParser(description="Compares the bytes of many workers with those of one.")
    ask.add_argument("--runs", type=int, default=200, help="runs on each history, by default 200")
    ask.add_argument("--transactions", type=int, help="of each history, by default as many as a small one may have")
    ask.add_argument("--only", nargs="+", choices=KINDS, default=KINDS, help="these histories alone")
    ask.add_argument("--tcc", default=str(TOP / "crates" / "tcc" / "out" / "tcc"), help="another program than the built one")
    asked = ask.parse_args()
    tcc = os.path.abspath(asked.tcc)
    transactions = asked.transactions or limits.asked(tcc)["default"]["transactions"]
    return status_of(outcomes(tcc, asked.only, transactions, asked.runs))


if __name__ == "__main__":
    sys.exit(main())
