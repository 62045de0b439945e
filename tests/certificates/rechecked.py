#!/usr/bin/env python3
"""Asks the second opinion, `python3 -m tcc.recheck`, about every certificate of tests/rows and of the examples.

    rechecked.py [--tcc PATH] [--only TEXT]

Of each run of `check` in tests/rows/cases that has no other concern than two files, the line and the status have to be those that the
case wants of `tcc check`. Of each history in examples/ and at each level it has to say of the program's certificate what the program
says, and of one that is there what `tcc check` does.

Each difference is one line; the last line is `N passed, M failed`.
"""
import argparse
import concurrent.futures
import contextlib
import io
import os
import pathlib
import subprocess
import sys
import tempfile

TOP = pathlib.Path(__file__).resolve().parent.parent.parent
sys.path[:0] = [str(TOP / "tests" / "rows"), str(TOP / "tests"), str(TOP / "python" / "tcc")]
import recheck  # noqa: E402  (which needs nothing else of its package)
import run as rows  # noqa: E402
from counted import status_of  # noqa: E402
from machine import processors  # noqa: E402

EXAMPLES = TOP / "examples"
# What a run has that is about streams, and not about two files.
STREAMS = {"input", "input_from", "typed", "closed", "output_to", "errors_to", "taken", "watched"}


def is_judged(run):
    """Whether a run of `check` is about two files alone."""
    words = run["arguments"][1:]
    return (run["status"] != rows.COMMAND_LINE and not STREAMS & set(run) and all(isinstance(word, str) for word in words)
            and len(words) - words.count("--large") == 2 and "--help" not in words and run.get("output") != "some")


def of_row(named):
    """The name of a run, and what is otherwise than wanted, or None."""
    name, run = named
    if isinstance(run, str):
        return name, run
    words = run["arguments"][1:]
    with tempfile.TemporaryDirectory() as folder:
        for file, parts in run["files"].items():
            if "@" + file in words:
                pathlib.Path(folder, file).write_bytes(rows.text(parts))
        with contextlib.redirect_stderr(io.StringIO()):
            line, status = recheck.checked(*(rows.path_of(word, folder) for word in words if word != "--large"), "--large" in words)
    wanted = rows.text(run.get("output", [])).decode(), run["status"]
    return name, None if wanted == (line + "\n", status) else "wanted %.200r, got %.200r" % (wanted, (line, status))


def of_example(tcc, path, level):
    """What is otherwise than the program says of the certificate that it writes, or None."""
    with tempfile.NamedTemporaryFile() as file:
        answer = subprocess.run([tcc, "explain", "--level", level, "--certificate", file.name, path], capture_output=True, text=True, check=False)
        if answer.returncode > 1:
            return None
        checked = subprocess.run([tcc, "check", path, file.name], capture_output=True, text=True, check=False)
        line, status = recheck.checked(str(path), file.name, False)
    return None if (line + "\n", status) == (checked.stdout, checked.returncode) else "wanted %r, got %r" % (checked.stdout, line)


def outcomes(tcc, only):
    runs = [(name, run) for path in sorted(rows.CASES.glob("*.json")) for name, run in rows.picked_runs(path, rows.of_check)
            if only in name and (isinstance(run, str) or is_judged(run))]
    with concurrent.futures.ProcessPoolExecutor(processors()) as pool:
        yield from pool.map(of_row, runs)
    for path in sorted(EXAMPLES.glob("*.csv")):
        for level in ("causal", "atomic"):
            name = "%s at %s" % (path.stem, level)
            if only in name:
                yield name, of_example(tcc, path, level)
    for path in sorted(EXAMPLES.glob("*.certificate")):
        if only in path.name:
            line, status = recheck.checked(str(path.with_suffix(".csv")), str(path), False)
            yield path.name, None if status == 0 else line


def main():
    ask = argparse.ArgumentParser(description="Asks the second opinion about all certificates of the rows and examples.")
    ask.add_argument("--tcc", default=str(TOP / "crates" / "tcc" / "out" / "tcc"), help="another program than the built one")
    ask.add_argument("--only", default="", help="only what holds this text in its name")
    asked = ask.parse_args()
    return status_of(outcomes(os.path.abspath(asked.tcc), asked.only))


if __name__ == "__main__":
    sys.exit(main())
