#!/usr/bin/env python3
"""What the import of a Jepsen history costs, and a report of it.

    imports.py [--tcc PATH] [--transactions N ..] [--reports N ..]

Writes histories of twenty clients, from a fixed seed, as Jepsen does: an invoke and an ok for each transaction, of eight operations
on a thirtieth as many keys. Of each size and form it prints, in a line, how large the history is and what `recipes/jepsen.py` takes
of processor time and memory; of each size of --reports the same of `recipes/report.py`, where the last tenth has a few stale reads.
Without --tcc there are no reports.
"""
import argparse
import os
import pathlib
import random
import subprocess
import sys
import tempfile
from typing import Dict, Iterator, List, Tuple

TOP = pathlib.Path(__file__).resolve().parent.parent
CLIENTS, OPERATIONS, KEYS, STALE = 20, 8, 30, 0.002
FORMS = ("registers, EDN", "registers, JSON", "lists, EDN")
Steps = List[Tuple[str, int, object]]


def told(kind: str, client: int, steps: Steps, index: int, form: str) -> str:
    """A line of a history."""
    if form.endswith("JSON"):
        value = ",".join('["%s",%d,%s]' % (does, key, "null" if what is None else what) for does, key, what in steps)
        return '{"type":"%s","f":"txn","value":[%s],"time":%d,"process":%d,"index":%d}\n' % (kind, value, 50000 * index, client, index)
    words = {list: lambda what: "[%s]" % " ".join(map(str, what)), int: str, type(None): lambda what: "nil"}
    value = " ".join("[:%s %d %s]" % (does, key, words[type(what)](what)) for does, key, what in steps)
    return "{:type :%s, :f :txn, :value [%s], :time %d, :process %d, :index %d}\n" % (kind, value, 50000 * index, client, index)


def history(count: int, form: str, stale: float = 0.0) -> Iterator[str]:
    """The lines of a history of so many transactions; so many of the last tenth of reads are of the value before the newest."""
    pick, keys, has_lists = random.Random(count), max(count // KEYS, 8), form.startswith("lists")
    values: Dict[int, List[int]] = {}
    for number in range(count):
        asked: Steps = []
        done: Steps = []
        for _ in range(OPERATIONS):
            key = min(max(number * keys // count + pick.randrange(-3, 4), 0), keys - 1)
            mine = values.setdefault(key, [])
            if pick.random() < 0.5:
                behind = 2 if number > 0.9 * count and len(mine) > 1 and pick.random() < stale else 1
                asked.append(("r", key, None))
                done.append(("r", key, list(mine) if has_lists else mine[-behind] if mine else None))
            else:
                mine.append(len(mine) + 1)
                asked.append(("append" if has_lists else "w", key, mine[-1]))
                done.append(asked[-1])
        yield told("invoke", number % CLIENTS, asked, 2 * number, form)
        yield told("ok", number % CLIENTS, done, 2 * number + 1, form)


def measured(words: List[str]) -> str:
    """What a command takes."""
    with subprocess.Popen(words, stdout=subprocess.DEVNULL, stderr=subprocess.DEVNULL) as process:
        _, status, used = os.wait4(process.pid, 0)
        process.returncode = os.waitstatus_to_exitcode(status)
    return "%.1f s, %d MB, status %d" % (used.ru_utime + used.ru_stime, used.ru_maxrss // 1000, process.returncode)


def main() -> int:
    ask = argparse.ArgumentParser(description=__doc__, formatter_class=argparse.RawDescriptionHelpFormatter)
    ask.add_argument("--tcc", help="the program, for reports")
    ask.add_argument("--transactions", type=int, nargs="*", default=[100000])
    ask.add_argument("--reports", type=int, nargs="*", default=[20000, 100000])
    asked = ask.parse_args()
    runs = [(count, form, 0.0) for count in asked.transactions for form in FORMS]
    reports = [(count, FORMS[0], STALE) for count in (asked.reports if asked.tcc else ())]
    with tempfile.TemporaryDirectory() as folder:
        path = pathlib.Path(folder, "history")
        for count, form, stale in runs + reports:
            with open(path, "w", encoding="ascii") as out:
                out.writelines(history(count, form, stale))
            words = [sys.executable, str(TOP / "recipes/jepsen.py"), str(path)]
            if stale:
                words = [sys.executable, str(TOP / "recipes/report.py"), str(path), "-o", os.path.join(folder, "page.html"), "--tcc", asked.tcc]
            print("%d transactions, %s, %d MB: %s %s" % (count, form, path.stat().st_size // 1000000, "report" if stale else "import",
                                                         measured(words)), flush=True)
    return 0


if __name__ == "__main__":
    sys.exit(main())
