#!/usr/bin/env python3
"""Measures what certificates of histories within the large limits cost: to write them with an answer, and to check them.

    certificates.py [--tcc PATH] [--beside PATH] [--kinds KIND ..] [--sizes N ..] [--sessions N ..] [--level LEVEL] [--keep FOLDER]

The histories are those of large.py: `causal`, `stale` and `loose`. A line for each has the processor seconds and the megabytes at
the most of `tcc explain --large` alone, of the same with `--certificate`, and of `tcc check --large`. It also has the bytes of the
certificate's text, and what the check says. With --beside the same of another program's `write < HISTORY > CERTIFICATE` and `check
HISTORY CERTIFICATE`, and how many times its processor time the check of `tcc` takes. By default histories of 100,000 transactions;
one of 1,000,000 takes minutes and gigabytes.
"""
import argparse
import os
import pathlib
import subprocess
import sys
import tempfile

import large
from run import built

HERE = pathlib.Path(__file__).resolve().parent
JUDGED = (0, 1)
WRITTEN = "import sys, large; large.write_history(sys.argv[1], sys.argv[2], int(sys.argv[3]), int(sys.argv[4]))"


class Costs:
    """Runs programs on a history, in a folder of their own."""

    def __init__(self, folder, history):
        self.folder, self.history = folder, str(history)

    def spent(self, words, given=os.devnull, answer="answer"):
        """Processor seconds and megabytes of a run that has to give an answer."""
        seconds, megabytes, status = large.spent(words, given, self.folder / answer)
        if status not in JUDGED:
            sys.exit("%s: status %d of %s" % (self.history, status, " ".join(words)))
        return seconds, megabytes

    def of_tcc(self, tcc, level):
        """The cells of `tcc`, and the seconds of its check."""
        certificate = str(self.folder / "certificate")
        explain = [tcc, "explain", "--large", "--quiet", "--level", level]
        alone = self.spent([*explain, self.history])
        written = self.spent([*explain, "--certificate", certificate, self.history])
        size = os.path.getsize(certificate)
        checked = self.spent([tcc, "check", "--large", self.history, certificate])
        said = (self.folder / "answer").read_text().strip()
        return [*figures(alone), *figures(written), str(size), *figures(checked), said], checked[0]

    def of_other(self, other, level):
        """The same of another program."""
        level_words = ["--level", level] if level != "causal" else []
        written = self.spent([other, "write", *level_words], self.history, "certificate-beside")
        certificate = str(self.folder / "certificate-beside")
        checked = self.spent([other, "check", self.history, certificate])
        return [*figures(written), str(os.path.getsize(certificate)), *figures(checked)], checked[0]


def figures(spent):
    return "%.2f" % spent[0], "%.0f" % spent[1]


def write_apart(path, kind, size, sessions):
    """Writes the history in a process of its own: what this script holds would count as memory of what it starts."""
    subprocess.run([sys.executable, "-c", WRITTEN, path, kind, str(size), str(sessions)], cwd=HERE, check=True)


def line_of(asked, folder, history):
    """The cells of a history's line."""
    costs = Costs(folder, history)
    cells, seconds = costs.of_tcc(asked.tcc, asked.level)
    if asked.beside:
        others, beside = costs.of_other(asked.beside, asked.level)
        cells += others + ["x%.1f" % (seconds / max(beside, 0.01))]
    return [history.stem, *cells]


def main():
    ask = argparse.ArgumentParser(description="Measures what certificates of large histories cost.")
    ask.add_argument("--tcc", type=os.path.abspath, help="another program than the built one")
    ask.add_argument("--beside", type=os.path.abspath, metavar="PATH", help="a program to compare with")
    ask.add_argument("--kinds", nargs="+", choices=large.KINDS, default=("causal", "stale", "loose"), metavar="KIND", help="these alone")
    ask.add_argument("--sizes", nargs="+", type=int, default=[100_000], metavar="N", help="so many transactions")
    ask.add_argument("--sessions", nargs="+", type=int, default=[64, 512, 4094], metavar="N", help="so many sessions")
    ask.add_argument("--level", choices=("causal", "atomic"), default="causal", help="by default causal")
    ask.add_argument("--keep", type=pathlib.Path, help="a folder for the histories, which stay there")
    asked = ask.parse_args()
    asked.tcc = asked.tcc or built("tcc")
    print("history  explain s  MB  with certificate s  MB  bytes  check s  MB  said", end="")
    print("  beside: write s  MB  bytes  check s  MB  check" if asked.beside else "")
    with tempfile.TemporaryDirectory() as temporary:
        for path in large.histories(asked, temporary, write_apart):
            print(*line_of(asked, pathlib.Path(temporary), path), sep="  ", flush=True)


if __name__ == "__main__":
    main()
