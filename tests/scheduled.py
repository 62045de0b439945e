#!/usr/bin/env python3
"""Tests `build.py`: which crate begins next, and by how many jobs, in a small repository worked out by hand; and builds of a repository
whose `rt` is a script, where one fails and none does. It tests which crates waited for which by `spent.py` too. The last line is
`N passed, M failed`.
"""
import os
import pathlib
import subprocess
import sys
import tempfile
from typing import Dict, Iterator

TOP = pathlib.Path(__file__).resolve().parent.parent
sys.path.insert(0, str(TOP / "tests"))
from build import Start, next_start, with_chains  # noqa: E402
from counted import Outcome, status_of  # noqa: E402
from spent import Spent, waited_for  # noqa: E402

# d rests on c, c on b; a and e rest on nothing, and top on a, d and e.
BELOW = {"a": [], "b": [], "e": [], "c": ["b"], "d": ["c"], "top": ["a", "d", "e"]}
WORK = {"a": 30, "b": 20, "e": 10, "c": 20, "d": 20, "top": 10}
CRATES = with_chains(BELOW, WORK)
# (what is done, what runs, how many jobs may begin, what begins)
CHOICES = (
    ("nothing is free", set(), {}, 0, None),
    ("the longest chain begins, by a second job where others wait for it", set(), {}, 4, Start("b", 2)),
    ("then the next one that may", set(), {"b": 2}, 2, Start("a", 1)),
    ("with the last processor the last that may", set(), {"b": 2, "a": 1}, 1, Start("e", 1)),
    ("what waits doesn't begin", {"a", "e"}, {"b": 2}, 2, None),
    ("alone it takes all", {"a", "e", "b"}, {}, 4, Start("c", 4)),
    ("one job alone is one job", {"a", "e", "b"}, {}, 1, Start("c", 1)),
    ("the last", {"a", "e", "b", "c", "d"}, {}, 8, Start("top", 4)),
    ("nothing is left", set(BELOW), {}, 4, None),
)
# The proofs of four real crates: that of the graph waited for that of the reads, which ended after the base. One is none of ours.
ENDED = {"outside": Spent(9.0, 0.0, 99.0), "tcc_base": Spent(9.0, 0.0, 9.0), "tcc_txn": Spent(4.0, 0.0, 4.0), "tcc_reads": Spent(8.0, 4.0, 12.0),
         "tcc_graph": Spent(6.0, 12.0, 18.0)}
CHAINS = {"a": 40, "b": 70, "e": 20, "c": 50, "d": 30, "top": 10}
STAND_IN = """#!/bin/sh
echo "$(basename "$PWD")" >> "$LOG"
case "$1 $(basename "$PWD")" in
"lib $FAILS") echo "one goal is open"; exit 1 ;;
"run top") shift; while [ "$1" != -- ]; do shift; done; shift; echo "ran $*" ;;
esac
"""


def made(folder: pathlib.Path) -> Dict[str, str]:
    """Makes the repository, and gives the environment in which `rt` is a script."""
    (folder / "bin").mkdir()
    (folder / "bin/rt").write_text(STAND_IN)
    (folder / "bin/rt").chmod(0o755)
    (folder / "crates.txt").write_text("".join("%s: %s std\n" % (name, " ".join(below)) for name, below in BELOW.items()))
    for name in BELOW:
        (folder / "crates" / name / "src").mkdir(parents=True)
        (folder / "crates" / name / "src" / ("main.rt" if name == "top" else "lib.rt")).write_text("\n")
    (folder / "crates/top/args").write_text("one\ntwo\n")
    (folder / "crates/top/stdout").write_text("ran one two\n")
    return {**os.environ, "PATH": "%s:%s" % (folder / "bin", os.environ["PATH"]), "LOG": str(folder / "log"), "FAILS": "",
            "XDG_CACHE_HOME": str(folder / "cache")}


def builds() -> Iterator[Outcome]:
    """What builds of the repository come to."""
    with tempfile.TemporaryDirectory() as name:
        folder = pathlib.Path(name)
        environment = made(folder)

        def run(fails: str, *words: str) -> "subprocess.CompletedProcess[str]":
            (folder / "log").write_text("")
            command = [sys.executable, str(TOP / "tests/build.py"), "--jobs", "2", "--memory", "0.001", "--top", name, *words]
            return subprocess.run(command, env={**environment, "FAILS": fails}, capture_output=True, text=True)

        done, order = run("", "top"), (folder / "log").read_text().split()
        yield "a build that succeeds", None if done.returncode == 0 else "status %d: %s" % (done.returncode, done.stdout + done.stderr)
        yield "each crate once", None if sorted(order) == sorted(BELOW) else "proved %s" % order
        early = [one for at, one in enumerate(order) for it in BELOW[one] if it not in order[:at]]
        yield "no crate before one that it names", None if not early else "proved too early: %s" % early
        yield "a line each", None if done.stdout.count("\n") == len(BELOW) else done.stdout
        done = run("c", "top")
        wrong = done.returncode != 1 or "one goal is open" not in done.stdout or "c: not proved" not in done.stdout
        yield "a crate that isn't proved", done.stdout if wrong else None
        yield "what rests on it isn't begun", None if "top" not in (folder / "log").read_text().split() else "top was begun"
        (folder / "crates/top/stdout").write_text("ran two\n")
        yield "another output than what is stored", None if run("", "top").returncode == 1 else "it is accepted"
        yield "words of its own", None if run("", "top", "three").returncode == 0 else "they are refused"
        (folder / "log").write_text("")
        yield "a crate below alone", None if run("", "c").returncode == 0 and (folder / "log").read_text().split() == ["b", "c"] else "others began"


def outcomes() -> Iterator[Outcome]:
    found = {name: one.chain for name, one in CRATES.items()}
    yield "chains", None if found == CHAINS else "are %s, wanted %s" % (found, CHAINS)
    for what, done, running, free, wanted in CHOICES:
        got = next_start(CRATES, set(done), dict(running), free)
        yield what, None if got == wanted else "is %s, wanted %s" % (got, wanted)
    chain = waited_for(ENDED)
    yield "which waited for which", None if chain == ["tcc_graph", "tcc_reads", "tcc_txn"] else "is %s" % chain
    yield "of nothing no chain", None if waited_for({}) == [] else "there is one"
    yield from builds()


if __name__ == "__main__":
    sys.exit(status_of(outcomes()))
