#!/usr/bin/env python3
"""What `tcc explain` says to do with a folder, a history in EDN and a compressed one, on standard error.

    advice.py [--tcc PATH]

A file of records is passed over, whatever its name. Each difference is one line; the last line is `N passed, M failed`.
"""
import pathlib
import subprocess
import sys
import tempfile
from typing import Iterator, List

TOP = pathlib.Path(__file__).resolve().parent.parent.parent
sys.path.insert(0, str(TOP / "tests"))
from arguments import ask_for_tcc  # noqa: E402
from counted import Outcome, status_of  # noqa: E402

FILES = {
    "history.edn": (b"{:type :invoke, :f :read}\n", 3, "it is no file of records: recipes/jepsen.py makes one of a history in EDN"),
    "records.csv.gz": (b"\x1f\x8b\x08\x00", 3, "it is compressed: pipe what 'gunzip -c' writes into tcc"),
    "folder": (None, 6, "it is a folder: name a file of it, or let tcc-fleet judge each"),
    "records.edn": (b"a,begin\na,commit\n", 0, None),
}


def outcomes(tcc: List[str]) -> Iterator[Outcome]:
    tcc = [str(pathlib.Path(tcc[0]).resolve()), *tcc[1:]]
    with tempfile.TemporaryDirectory() as made:
        for name, (text, status, advice) in FILES.items():
            path = pathlib.Path(made, name)
            if text is None:
                path.mkdir()
            else:
                path.write_bytes(text)
            ran = subprocess.run([*tcc, "explain", name], cwd=made, capture_output=True, timeout=120, check=False)
            wanted = [] if advice is None else ["%s: %s" % (name, advice)]
            # (after all else comes the word for a file that fails)
            last = [line for line in ran.stderr.decode("utf-8", "replace").splitlines() if line != "device"][-1:]
            yield name, None if (ran.returncode, last) == (status, wanted) else "status %d, %r" % (ran.returncode, ran.stderr)


if __name__ == "__main__":
    sys.exit(status_of(outcomes(ask_for_tcc(__doc__).parse_args().tcc)))
