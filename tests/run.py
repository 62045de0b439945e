#!/usr/bin/env python3
"""All tests: the merge gate, which proves everything from nothing, and then what asks something of what it built. The mutants, which
the check must refuse, begin beside the gate, each crate's once it is proved: a gate leaves processors free where one crate waits for
another. After it come the rows, by 32 workers, and those with an anomaly by two as well. Then come the seals of
a history that grows, random ones watched, small histories decided as large ones, what a long run shows at a terminal, and random
histories surveyed. So do the altered certificates, the refused allocations and the hostile records. Last come the scripts of recipes/
on stored inputs, the package of python/ as pip installs it, and what the documents name.

    run.py [--minutes N]

Where a machine stops a run after a time, --minutes says when the last check of a mutant begins. Those that are left are named.
The scripts run side by side, and the output of each is shown when it ends; those that measure time run last and alone.
A table says where the time went (`spent.py`). What wasn't tried, and why, is listed after it, and then what failed, as a log may
keep its end alone. The last line is `N passed, M failed`, the sum of all; the status is 0 only where all passed.
"""
import argparse
import concurrent.futures
import contextlib
import pathlib
import re
import subprocess
import sys
import tempfile
import time

from machine import processors
from spent import Watch, table, waited

TOP = pathlib.Path(__file__).resolve().parent.parent
GATE = ["rt", "ci"]
MUTANTS = "wrong/run.py --beside-gate"
ON_THE_PROGRAM = ("rows/run.py --workers 32", "certificates/run.py", "memory/run.py",
                  "rows/run.py --workers 2 --searched", "rows/run.py --checker", "recipes/run.py", "large/run.py", "survey/run.py",
                  "python/run.py", "docs/run.py", "seals/run.py", "watch/run.py", "rows/numbers.py", "rows/filled.py", "rows/options.py",
                  "rows/commands.py", "rows/advice.py", "certificates/rechecked.py", "wrong/trial.py", "scheduled.py")
# (these go by time, and by a terminal)
ALONE = ("large/watched.py", "hostile/run.py")
CLOSING = re.compile(r"(\d+) passed, (\d+) failed$")
# What a script prints of that which it couldn't try.
UNTRIED = re.compile(r": (?:passed over: |NOT TRIED)")
# So much of what failed is shown again: lines of each command, and characters of each line.
AGAIN, WIDE = 12, 300


class Counts:
    """How many passed and how many failed so far, and by command what time it took."""

    def __init__(self):
        self.passed = self.failed = 0
        self.spent = {}
        self.wrong = []
        self.untried = []

    def add(self, command, status, lines):
        """Adds what a command came to, by the two numbers of the last of its lines.

        A command that ends with a status other than 0, or has no such line, has failed at least once.
        """
        self.untried += ["%s: %s" % (name_of(command), line[:WIDE]) for line in lines if UNTRIED.search(line)]
        lines = lines[-AGAIN:]
        closing = CLOSING.search(lines[-1] if lines else "")
        passed, failed = map(int, closing.groups()) if closing else (0, 0)
        if failed == 0 and (status != 0 or not closing):
            print("%s: no success: status %d" % (" ".join(command), status))
            failed = 1
        if failed:
            self.wrong += ["== " + name_of(command), *(line[:WIDE] for line in lines)]
        self.passed, self.failed = self.passed + passed, self.failed + failed

    def run(self, command, beside=None):
        """Runs a command, shows what it prints as it comes, to one that runs beside it too, and adds what it came to."""
        lines, began = [], time.time()
        with subprocess.Popen(command, cwd=TOP, stdout=subprocess.PIPE, text=True, errors="replace") as running:
            for line in running.stdout:
                sys.stdout.write(line)
                sys.stdout.flush()
                if beside:
                    beside.take(line)
                if line.strip():
                    lines.append(line.strip())
            self.spent[name_of(command)] = waited(running, began)
        self.add(command, running.returncode, lines)

    def run_side_by_side(self, commands, lanes, beside):
        """Runs commands, so many at a time, with one that runs already, and shows and adds each when it ends."""
        with concurrent.futures.ThreadPoolExecutor(lanes) as pool:
            running = {pool.submit(beside.output): beside.command, **{pool.submit(output_of, command): command for command in commands}}
            for ended in concurrent.futures.as_completed(running):
                status, text, self.spent[name_of(running[ended])] = ended.result()
                print("== %s\n%s" % (name_of(running[ended]), text), end="", flush=True)
                self.add(running[ended], status, text.strip().splitlines())


class Beside:
    """A command that runs beside another one, and takes its lines."""

    def __init__(self, command):
        self.command, self.began = command, time.time()
        self.log = tempfile.TemporaryFile("w+", errors="replace")
        self.running = subprocess.Popen(command, cwd=TOP, stdin=subprocess.PIPE, stdout=self.log, text=True)

    def take(self, line):
        with contextlib.suppress(BrokenPipeError):
            self.running.stdin.write(line)
            self.running.stdin.flush()

    def stop(self):
        self.running.kill()
        self.output()

    def output(self):
        """Lets it come to its end: its status, what it prints, and what time it took."""
        with contextlib.suppress(BrokenPipeError):
            self.running.stdin.close()
        spent = waited(self.running, self.began)
        with self.log:
            self.log.seek(0)
            return self.running.returncode, self.log.read(), spent


def output_of(command):
    """The status of a command, what it prints, and what time it took."""
    began = time.time()
    with subprocess.Popen(command, cwd=TOP, stdout=subprocess.PIPE, text=True, errors="replace") as running:
        text = running.stdout.read()
        spent = waited(running, began)
    return running.returncode, text, spent


def name_of(command):
    """What the table calls a command."""
    return " ".join(command[1:]).replace("tests/", "", 1) if command[0] == sys.executable else " ".join(command)


def of_script(test):
    """The command that runs a script of this folder."""
    script, *words = test.split()
    return [sys.executable, "tests/" + script, *words]


def main():
    reader = argparse.ArgumentParser(description="Runs all tests.")
    reader.add_argument("--minutes", help="no check of a mutant begins later than that")
    minutes = reader.parse_args().minutes
    counts = Counts()
    with Watch() as watch:
        mutants = Beside(of_script(MUTANTS + (" --minutes " + minutes if minutes else "")))
        counts.run(GATE, mutants)
        if counts.failed:
            mutants.stop()
            print("the rows were not run: the gate comes first")
        else:
            # (the mutants take each processor that the other scripts leave)
            counts.run_side_by_side(map(of_script, ON_THE_PROGRAM), processors() + 1, mutants)
            for test in ALONE:
                counts.run(of_script(test))
    whole = counts.spent.pop(name_of(GATE))
    untried = ["not tried: %d" % len(counts.untried), *counts.untried]
    print("\n".join([*table(watch, whole, counts.spent), *untried, *counts.wrong]))
    print("%d passed, %d failed" % (counts.passed, counts.failed), flush=True)
    return 1 if counts.failed else 0


if __name__ == "__main__":
    sys.exit(main())
