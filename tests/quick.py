#!/usr/bin/env python3
"""A quick look at what no proof covers: the rows, the package, the scripts of recipes/ and the documents, side by side.

    quick.py [--tcc PATH | --trial]

It asks the built program. With --trial it first makes a trial build of the sources, which proves nothing and is some 100 times
slower; then large rows are left out, and of the documents their words alone are asked. What isn't tried is said. The last line is
`N passed, M failed`; only `make test` tries everything.
"""
import argparse
import concurrent.futures
import contextlib
import os
import pathlib
import subprocess
import sys
import tempfile
import time
from typing import List, Optional, Tuple

TOP = pathlib.Path(__file__).resolve().parent.parent
sys.path.insert(0, str(TOP / "tests"))
from machine import processors  # noqa: E402
from run import CLOSING  # noqa: E402

SCRIPTS = ("rows/run.py", "python/run.py", "recipes/run.py", "docs/run.py")
ON_A_TRIAL = ("rows/run.py --small 4000", "python/run.py", "recipes/run.py")
WITHOUT_A_PROGRAM = ("docs/plain.py",)
# Any file of fewer bytes is not a program.
PROGRAM_BYTES = 1_000_000


def executable_below(folder: pathlib.Path) -> Optional[pathlib.Path]:
    """The largest file below a folder, if it is large enough for a program."""
    sizes = []
    for path in folder.rglob("*"):
        with contextlib.suppress(OSError):
            sizes.append((path.stat().st_size, path))
    size, found = max(sizes, default=(0, None))
    return found if size > PROGRAM_BYTES else None


def trial_program(folder: pathlib.Path) -> pathlib.Path:
    """Makes a trial build, and keeps its executable, which the toolchain removes once it has run."""
    program, work = folder / "tcc", folder / "work"
    work.mkdir()
    running = subprocess.Popen(["rt", "try", "--", "limits"], cwd=TOP / "crates/tcc", env={**os.environ, "TMPDIR": str(work)},
                               stdin=subprocess.DEVNULL, stdout=subprocess.PIPE, stderr=subprocess.STDOUT, text=True, errors="replace")
    while running.poll() is None:
        found = executable_below(work)
        with contextlib.suppress(OSError):
            if found and not (program.exists() and program.samefile(found)):
                program.unlink(missing_ok=True)
                os.link(found, program)
        time.sleep(0.05)
    if running.returncode or not program.exists():
        raise SystemExit("there is no trial build:\n%s" % running.communicate()[0])
    program.chmod(0o755)
    return program


def result_of(command: List[str]) -> Tuple[List[str], int, str]:
    """What a script came to: its status, and what it prints."""
    done = subprocess.run(command, cwd=TOP, stdin=subprocess.DEVNULL, stdout=subprocess.PIPE, stderr=subprocess.STDOUT, text=True, errors="replace")
    return command, done.returncode, done.stdout


def counted(command: List[str], status: int, text: str) -> Tuple[int, int]:
    """How many passed and how many failed; a script that doesn't say so has failed once."""
    closing = CLOSING.search(text.strip())
    passed, failed = map(int, closing.groups()) if closing else (0, 0)
    print("== %s\n%s" % (" ".join(command[1:]), text), end="", flush=True)
    return passed, max(failed, int(status != 0 or not closing))


def main() -> int:
    reader = argparse.ArgumentParser(description="Tries the rows, the package, the scripts and the documents.")
    reader.add_argument("--tcc", default=str(TOP / "crates/tcc/out/tcc"), metavar="PATH", help="the program, by default the built one")
    reader.add_argument("--trial", action="store_true", help="make a trial build of the sources, and ask that")
    asked = reader.parse_args()
    with tempfile.TemporaryDirectory() as name:
        tcc = str(trial_program(pathlib.Path(name))) if asked.trial else asked.tcc
        commands = [["tests/" + word for word in one.split()[:1]] + one.split()[1:] + ["--tcc", tcc] for one in (ON_A_TRIAL if asked.trial else SCRIPTS)]
        commands += [["tests/" + one] for one in WITHOUT_A_PROGRAM if asked.trial]
        with concurrent.futures.ThreadPoolExecutor(processors()) as pool:
            results = [counted(*one) for one in pool.map(result_of, [[sys.executable, *one] for one in commands])]
    if asked.trial:
        print("not tried: large rows, and what documents show of the program: this is a trial build")
    print("%d passed, %d failed" % (sum(one[0] for one in results), sum(one[1] for one in results)))
    return 1 if any(one[1] for one in results) else 0


if __name__ == "__main__":
    sys.exit(main())
