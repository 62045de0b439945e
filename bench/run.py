#!/usr/bin/env python3
"""Measures the built `tcc`, stage by stage, on the histories of histories.py, and how its cost grows with their size.

    run.py [--kinds KIND ..] [--sizes N ..] [--runs N] [--tcc PATH] [--keep FOLDER]

A line for each history has medians of milliseconds by `tcc_bench_stages`. First comes what csv alone needs for the records, reading
them, and reading them into a snapshot. Then come, each without the stages before it, resolving the snapshot, building its graph,
and looking for the order. So do distances and prices, of which `tcc explain --certificate` has need only where there is no order. At last comes
its rest, which is the search, the tables, the text and the certificate, and the whole of it, with its peak memory. Where a kind has
several sizes, a line below each but the first says by how much each cell is greater than that of the size before. All programs take
turns. Builds what isn't built. Peak memory is never below that of this script, about 15 MB.
"""
import argparse
import os
import pathlib
import statistics
import subprocess
import sys
import tempfile
import time

from histories import KINDS

HERE = pathlib.Path(__file__).resolve().parent
TOP = HERE.parent
STAGES = ("csv", "rows", "snapshot", "resolve", "graph", "order", "near", "derive")
HEAD = ("history", "records", "csv", "rows", "snapshot", "resolve", "graph", "order", "near", "derive", "rest", "tcc ms",
        "peak MB", "status", "answer")
GROWING = range(1, 13)


def built(crate):
    """The program of a crate, built where there is none yet."""
    program = TOP / "crates" / crate / "out" / crate
    if not program.exists():
        subprocess.run(["rt", "run", "--", "--help"], cwd=TOP / "crates" / crate, stdin=subprocess.DEVNULL,
                       stdout=subprocess.DEVNULL)
    if not program.exists():
        sys.exit("%s is not built" % program)
    return str(program)


def measured(words, history, answer):
    """Seconds, megabytes and exit status of one run; its output goes to the file `answer`."""
    with open(history, "rb") as given, open(answer, "wb") as out:
        files = [(os.POSIX_SPAWN_DUP2, given.fileno(), 0), (os.POSIX_SPAWN_DUP2, out.fileno(), 1)]
        begin = time.perf_counter()
        child = os.posix_spawn(words[0], words, os.environ, file_actions=files)
        _, status, used = os.wait4(child, 0)
        seconds = time.perf_counter() - begin
    return seconds, used.ru_maxrss / 1000, os.waitstatus_to_exitcode(status)


def seconds_of(program, stage, history, answer):
    """Seconds of one run up to a stage; one that fails ends all, as it has not come so far."""
    seconds, _, status = measured([program, stage], history, answer)
    if status != 0:
        sys.exit("%s: the stage %s ended with status %d" % (history.name, stage, status))
    return seconds


def row(programs, history, runs, answer):
    """The cells of one history's line, medians over the runs, each program in turn: its name, then numbers up to the peak
    memory, then words."""
    times, explained = [[] for _ in STAGES], []
    for _ in range(runs):
        for stage, seconds in zip(STAGES, times):
            seconds.append(seconds_of(programs["tcc_bench_stages"], stage, history, answer))
            if stage == "csv":
                records = int(answer.read_text())
        explained.append(measured([programs["tcc"], "explain", "--certificate", os.devnull], history, answer))
    with open(answer) as text:
        first = text.readline().strip()
    alone, rows, snapshot, resolve, graph, order, near, derive = map(statistics.median, times)
    wall, peak = (statistics.median(run[i] for run in explained) for i in (0, 1))
    statuses = sorted({run[2] for run in explained})
    tables = 0 if statuses == [0] else derive - graph
    own = [snapshot, resolve - snapshot, graph - resolve, order - graph, near - graph, derive - near, wall - order - tables]
    cells = [history.stem, records] + [max(seconds, 0) * 1000 for seconds in [alone, rows] + own + [wall]]
    return cells + [peak, "/".join(map(str, statuses)), first[:40]]


def shown(cells):
    """A line as words."""
    return [cell if isinstance(cell, str) else "%d" % cell if isinstance(cell, int) else "%.1f" % cell for cell in cells]


def growth(before, now):
    """By how much each number of a line is greater than that of the line before, where that is a millisecond at least."""
    return ["  times"] + ["x%.1f" % (now[i] / before[i]) if before[i] >= 1 else "" for i in GROWING] + ["", ""]


def lines_of(programs, folder, asked, answer):
    """The lines of all histories, and of how they grow."""
    for kind in asked.kinds:
        before = None
        for size in sorted(asked.sizes):
            now = row(programs, folder / ("%s-%d.csv" % (kind, size)), asked.runs, answer)
            yield shown(now)
            if before:
                yield growth(before, now)
            before = now


def main():
    ask = argparse.ArgumentParser(description="Measures tcc, stage by stage.")
    ask.add_argument("--kinds", nargs="+", choices=list(KINDS), default=list(KINDS), metavar="KIND", help="these alone")
    ask.add_argument("--sizes", nargs="+", type=int, default=[1023], metavar="N", help="so many transactions, by default 1023")
    ask.add_argument("--runs", type=int, default=9, help="runs of each program on each history, by default 9")
    ask.add_argument("--tcc", help="another program than the built one")
    ask.add_argument("--keep", type=pathlib.Path, help="a folder for the histories, which stay there")
    asked = ask.parse_args()
    programs = {"tcc_bench_stages": built("tcc_bench_stages"), "tcc": os.path.abspath(asked.tcc) if asked.tcc else built("tcc")}
    with tempfile.TemporaryDirectory() as temporary:
        folder = asked.keep or pathlib.Path(temporary)
        folder.mkdir(parents=True, exist_ok=True)
        # in a process of its own: what this script holds would count as memory of what it starts
        subprocess.run([sys.executable, HERE / "histories.py", folder, "--kinds", *asked.kinds,
                        "--sizes", *map(str, asked.sizes)], check=True)
        table = [list(HEAD)] + list(lines_of(programs, folder, asked, pathlib.Path(temporary, "answer")))
    widths = [max(len(line[i]) for line in table) for i in range(len(HEAD))]
    for line in table:
        cells = [cell.rjust(width) for cell, width in zip(line, widths)]
        print("  ".join([line[0].ljust(widths[0])] + cells[1:-1] + [line[-1]]))


if __name__ == "__main__":
    main()
