#!/usr/bin/env python3
"""Runs the merge gate, or another command, and reports where its time goes: by crate its proofs, its tests and its mutants, in
minutes of processor time, the longest chain of crates, and by phase the processor time and the clock.

    gate.py [--save FILE] [COMMAND..]

COMMAND is `rt ci` if none is given; `make build` is another. `make test` ends with the same table, and with its scripts.
"""
import argparse
import pathlib
import subprocess
import sys
import time

TOP = pathlib.Path(__file__).resolve().parent.parent
sys.path.insert(0, str(TOP / "tests"))
from spent import Watch, table, waited  # noqa: E402


def main():
    reader = argparse.ArgumentParser(description=__doc__, formatter_class=argparse.RawDescriptionHelpFormatter)
    reader.add_argument("--save", metavar="FILE", help="write the table to this file too")
    reader.add_argument("command", nargs=argparse.REMAINDER)
    asked = reader.parse_args()
    command = asked.command[1:] if asked.command[:1] == ["--"] else asked.command
    with Watch() as watch:
        running = subprocess.Popen(command or ["rt", "ci"], cwd=TOP)
        whole = waited(running, time.time())
    lines = [*table(watch, whole, {}), "status %d" % running.returncode]
    print("\n".join(lines))
    if asked.save:
        pathlib.Path(asked.save).write_text("\n".join(lines) + "\n")
    return running.returncode


if __name__ == "__main__":
    sys.exit(main())
