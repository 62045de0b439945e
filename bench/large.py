#!/usr/bin/env python3
"""Measures how histories within the large limits are decided, stage by stage.

    large.py [--kinds KIND ..] [--sizes N ..] [--sessions N ..] [--stages PATH] [--keep FOLDER] [--beside COMMAND]

Each history has transactions of 8 operations, of which about half are reads. A session reads a prefix of one log of writes that is
up to 1,000 transactions late, and none that is shorter than one that it read before. At a time 64 sessions work at a time, and
where there are more a session ends and another begins. Kinds:

    causal   consistent; a key for 10 transactions
    jepsen   consistent; 16 keys at a time, each written 32 times before another takes its place
    stale    causal, with a read near the end of a value that its session knows as overwritten
    loose    five places, at each of which a transaction shows by itself, some much later than its effects: many anomalies

A line for each history has the processor seconds of reading, resolving, building the graph, deciding whether there is an order, and
looking for a cycle. From the graph on it has those of a survey. Each is by `tcc_bench_stages` and without those before it. Then
come the peak memory, how many steps the cycle has, and how many reads are contradicted. With --beside another program decides the same
records, which come on its standard input: its processor seconds, how many times as long the stages up to the order take, and its peak
memory. By default histories of 10,000 and 100,000 transactions; one of 1,000,000 takes minutes and gigabytes.
"""
import argparse
import bisect
import collections
import itertools
import os
import pathlib
import random
import shlex
import sys
import tempfile

from run import built

KINDS = ("causal", "jepsen", "stale", "loose")
# Each stage, with the one that it goes on from.
STAGES = {"large-snapshot": None, "large-resolve": "large-snapshot", "large-graph": "large-resolve", "large-order": "large-graph",
          "large-cycle": "large-order", "large-survey": "large-graph"}
OPERATIONS, LATE, AT_A_TIME, KEYS_AT_A_TIME, WRITES_A_KEY = 8, 1000, 64, 16, 32
# At another place a transaction shows so many transactions later, or, one in so many, much later.
SOON, MUCH_LATER, ONE_IN = 100, 600, 50
PLACES = 5


class Log:
    """Who wrote what, in one order, and what each session has read of it."""

    def __init__(self, kind, count, sessions):
        self.random = random.Random("%s-%d-%d" % (kind, count, sessions))
        self.kind, self.count, self.sessions = kind, count, sessions
        self.keys = list(range(KEYS_AT_A_TIME if kind == "jepsen" else max(1, count // 10)))
        self.fresh = len(self.keys)
        self.positions, self.values = {}, {}  # of each key: where in the order it was written, and what
        self.seen = {}

    def value(self, key, length):
        """The value of a key after so many transactions."""
        before = bisect.bisect_right(self.positions.get(key, ()), length)
        return self.values[key][before - 1] if before else 0

    def write(self, key, position):
        """The next value of a key, written by the transaction at this position of the order."""
        values = self.values.setdefault(key, [])
        values.append(len(values) + 1)
        self.positions.setdefault(key, []).append(position)
        if self.kind == "jepsen" and len(values) == WRITES_A_KEY:
            self.keys[self.keys.index(key)] = self.fresh
            self.fresh += 1
        return values[-1]

    def operation(self, own, known, position):
        """An operation at some key, as two fields and the value; `own` has what the transaction wrote."""
        key = self.random.choice(self.keys)
        if self.random.random() < 0.5:
            own[key] = self.write(key, position)
            return "w,k%d,%d" % (key, own[key])
        return "r,k%d,%d" % (key, own[key] if key in own else self.value(key, known))

    def transaction(self, session, position):
        """The records of a transaction."""
        known = max(self.seen.get(session, 0), position - 1 - self.random.randrange(LATE))
        self.seen[session] = position
        own = {}
        inside = [self.operation(own, known, position) for _ in range(OPERATIONS)]
        return records(session, inside)

    def session(self, position):
        """One of the sessions that work at this time."""
        born = min(self.sessions, AT_A_TIME)
        first = (self.sessions - born) * position // self.count
        return "s%05d" % (first + self.random.randrange(born))


class Places(Log):
    """The same, but each session has a place, at which the writes of each transaction show together, in any order of these."""

    def __init__(self, kind, count, sessions):
        super().__init__(kind, count, sessions)
        self.shown = [{} for _ in range(PLACES)]  # of each key: where in the order its newest write is, and what it is
        self.coming = [(collections.deque(), collections.deque()) for _ in range(PLACES)]  # soon, and much later
        self.place, self.written = 0, []

    def value(self, key, length):
        return self.shown[self.place].get(key, (0, 0))[1]

    def write(self, key, position):
        value = super().write(key, position)
        self.written.append((key, (position, value)))
        return value

    def transaction(self, session, position):
        self.place, self.written = int(session[1:]) % PLACES, []
        for coming in self.coming[self.place]:
            while coming and coming[0][0] <= position:
                self.show(coming.popleft()[1])
        said = super().transaction(session, position)
        self.show(self.written)
        for place in range(PLACES):
            if place != self.place:
                is_late = self.random.randrange(ONE_IN) == 0
                self.coming[place][is_late].append((position + (MUCH_LATER if is_late else SOON), self.written))
        return said

    def show(self, written):
        """Shows writes at the place, where no newer ones are seen."""
        shown = self.shown[self.place]
        for key, newest in written:
            shown[key] = max(shown.get(key, (0, 0)), newest)


def records(session, inside):
    """The records of a transaction with these operations."""
    return "".join("%s,%s\n" % (session, record) for record in ["begin", *inside, "commit"])


def write_history(path, kind, count, sessions):
    """Writes a history of so many transactions to a file."""
    log = (Places if kind == "loose" else Log)(kind, count, sessions)
    with open(path, "w") as out:
        for position in range(1, count + 1):
            out.write(log.transaction(log.session(position), position))
            if kind == "stale" and position == count * 97 // 100:
                for inside in (["w,stale,1"], ["w,stale,2"]):
                    out.write(records("stale-writer", inside))
                for inside in (["r,stale,2"], ["r,stale,1"]):
                    out.write(records("stale-reader", inside))


def spent(words, history, answer):
    """Processor seconds, megabytes and exit status of one run; its output goes to the file `answer`."""
    with open(history, "rb") as given, open(answer, "wb") as out:
        files = [(os.POSIX_SPAWN_DUP2, given.fileno(), 0), (os.POSIX_SPAWN_DUP2, out.fileno(), 1)]
        child = os.posix_spawn(words[0], words, os.environ, file_actions=files)
        _, status, used = os.wait4(child, 0)
    return used.ru_utime + used.ru_stime, used.ru_maxrss / 1000, os.waitstatus_to_exitcode(status)


def row(stages, beside, path, answer):
    """Processor seconds of each stage, the peak memory, and what the last two say; and what another program takes, if there is one."""
    taken, said, peak = {None: 0}, {}, 0
    for stage in STAGES:
        taken[stage], memory, status = spent([stages, stage], path, answer)
        if status != 0:
            sys.exit("%s: the stage %s ended with status %d" % (path.name, stage, status))
        said[stage], peak = answer.read_text().strip(), max(peak, memory)
    seconds = ["%.2f" % max(0, taken[stage] - taken[before]) for stage, before in STAGES.items()]
    cells = seconds + ["%.0f" % peak, said["large-cycle"], said["large-survey"]]
    if beside:
        other, memory, _ = spent(beside, path, answer)
        cells += ["%.2f" % other, "%.1f" % (taken["large-order"] / max(other, 0.01)), "%.0f" % memory]
    return cells


def histories(asked, temporary, write):
    """The file of each history that is asked for, once it is written; it is gone when the next one is asked for, unless it is kept."""
    folder = asked.keep or pathlib.Path(temporary)
    folder.mkdir(parents=True, exist_ok=True)
    for kind, size, sessions in itertools.product(asked.kinds, asked.sizes, asked.sessions):
        path = folder / ("%s-%d-%d.csv" % (kind, size, sessions))
        write(path, kind, size, sessions)
        yield path
        if not asked.keep:
            path.unlink()


def main():
    ask = argparse.ArgumentParser(description="Measures how large histories are decided.")
    ask.add_argument("--kinds", nargs="+", choices=KINDS, default=KINDS, metavar="KIND", help="these alone")
    ask.add_argument("--sizes", nargs="+", type=int, default=[10_000, 100_000], metavar="N", help="so many transactions")
    ask.add_argument("--sessions", nargs="+", type=int, default=[64, 512, 4094], metavar="N", help="so many sessions")
    ask.add_argument("--stages", help="another program than the built one")
    ask.add_argument("--keep", type=pathlib.Path, help="a folder for the histories, which stay there")
    ask.add_argument("--beside", default="", metavar="COMMAND", help="another program that decides the records of its standard input")
    asked = ask.parse_args()
    beside = shlex.split(asked.beside)
    stages = os.path.abspath(asked.stages) if asked.stages else built("tcc_bench_stages")
    print("history  read  resolve  graph  order  cycle  survey  MB  steps  contradicted" + ("  beside  times  MB" if beside else ""))
    with tempfile.TemporaryDirectory() as temporary:
        for path in histories(asked, temporary, write_history):
            print(path.stem, *row(stages, beside, path, pathlib.Path(temporary, "answer")), sep="  ", flush=True)


if __name__ == "__main__":
    main()
