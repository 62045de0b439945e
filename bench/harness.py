#!/usr/bin/env python3
"""What a small history costs inside a test harness: a run of the program for each, a program that stays, and a batch.

    harness.py [--tcc PATH] [--sizes N ..] [--histories N]

For each size it draws so many consistent histories of eight sessions, from fixed seeds, and has each judged by a run of `tcc explain`,
by a request of one `tcc serve`, and by one `tcc batch` over their files. A way that the program hasn't is passed over by name. It prints
milliseconds a history by the clock, one line a size. The ways take turns, and each is asked once before it is measured.
"""
import argparse
import contextlib
import pathlib
import subprocess
import sys
import tempfile
import time
from typing import Callable, Dict, List, Optional

from histories import Store

TOP = pathlib.Path(__file__).resolve().parent.parent
sys.path.insert(0, str(TOP / "python"))
from tcc.judging.requests import Asked, Request, Resident, Runs  # noqa: E402

SESSIONS, KEYS, LAG, OPERATIONS = 8, 16, 4, "rwrw"
Way = Callable[[List[bytes]], None]


def history(seed: int, transactions: int) -> bytes:
    """The records of a consistent history."""
    store = Store(seed, keys=KEYS, lag=LAG)
    lines = [line for number in range(transactions) for line in store.transaction("s%d" % (number % SESSIONS), OPERATIONS)]
    return ("\n".join(lines) + "\n").encode()


def ask_each(asked: Asked, texts: List[bytes]) -> None:
    for text in texts:
        asked.ask(Request("explain", text)).checked()


def batch(tcc: str, folder: pathlib.Path, texts: List[bytes]) -> float:
    """Writes the files, then has them judged: milliseconds a history, without the writing."""
    with tempfile.TemporaryDirectory(dir=folder) as made:
        for number, text in enumerate(texts):
            pathlib.Path(made, "%06d.csv" % number).write_bytes(text)
        began = time.perf_counter()
        subprocess.run([tcc, "batch", made], stdout=subprocess.DEVNULL, check=True)
        return (time.perf_counter() - began) * 1000 / len(texts)


def has(tcc: str, command: str) -> bool:
    """Whether the program has a command."""
    return subprocess.run([tcc, command, "--help"], stdout=subprocess.DEVNULL, stderr=subprocess.DEVNULL, check=False).returncode == 0


def timed(way: Way, texts: List[bytes]) -> float:
    """Milliseconds a history."""
    way(texts[:1])
    began = time.perf_counter()
    way(texts)
    return (time.perf_counter() - began) * 1000 / len(texts)


def line(tcc: str, size: int, count: int, folder: pathlib.Path) -> str:
    """What each way takes at a size."""
    texts = [history(seed, size) for seed in range(count)]
    found: Dict[str, Optional[float]] = {"spawned": timed(lambda some: ask_each(Runs(tcc), some), texts), "resident": None, "batch": None}
    if has(tcc, "serve"):
        resident = Resident(tcc)
        with contextlib.closing(resident):
            found["resident"] = timed(lambda some: ask_each(resident, some), texts)
    if has(tcc, "batch"):
        found["batch"] = batch(tcc, folder, texts)
    return "%6d transactions: %s" % (size, ", ".join("%s %s" % (name, "not there" if spent is None else "%.3f ms" % spent)
                                                     for name, spent in found.items()))


def main() -> None:
    reader = argparse.ArgumentParser(description="What a small history costs inside a test harness.")
    reader.add_argument("--tcc", default=str(TOP / "crates/tcc/out/tcc"), help="the program")
    reader.add_argument("--sizes", type=int, nargs="+", default=[2, 10, 50, 200, 1000], help="transactions of a history")
    reader.add_argument("--histories", type=int, default=300, help="how many of each size")
    asked = reader.parse_args()
    with tempfile.TemporaryDirectory(prefix="tcc-harness-") as folder:
        for size in asked.sizes:
            print(line(asked.tcc, size, asked.histories, pathlib.Path(folder)), flush=True)


if __name__ == "__main__":
    main()
