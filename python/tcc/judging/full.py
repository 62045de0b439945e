"""Starts `tcc explain --full`, which says all about an answer in one line of JSON, and ends with its status.

docs/FORMATS.md says what the line has, and docs/full.schema.json is its schema. The status is 127 where there is no such program.
"""
import argparse
import subprocess
import sys
from typing import List

from tcc.common.inputs import why_no_records
from tcc.common.words import command_line
from tcc.judging.program import NoAnswer
from tcc.judging.runner import LEVELS, program

EXAMPLE = """example: a transaction that reads what nobody wrote
  $ printf 'a,begin\\na,r,x,7\\na,commit\\n' > records.csv
  $ full.py records.csv
  {"answer":"unresolved","faults":[{"key":"x","kind":"ThinAir","name":null,"op":1,"place":1,"row":2,"session":"a","value":7}],..
"""
NO_PROGRAM, NOT_READ = 127, 3


def words_of(asked: argparse.Namespace) -> List[str]:
    """The words after the program's path."""
    words = ["explain", "--full", "--level", asked.level, *(["--large"] if asked.large else [])]
    for name in ("workers", "require"):
        words += ["--" + name, str(getattr(asked, name))] if getattr(asked, name) else []
    return [*words, "--", asked.records]


def arguments() -> argparse.Namespace:
    ask = command_line(__doc__, EXAMPLE)
    ask.add_argument("records", metavar="RECORDS", help="the file of the records")
    ask.add_argument("--level", choices=LEVELS, default="causal", help="by default causal")
    ask.add_argument("--large", action="store_true", help="takes the large limits")
    ask.add_argument("--workers", type=int, metavar="N", help="so many threads search for an anomaly")
    ask.add_argument("--require", type=int, default=1, metavar="N", help="fewer transactions than these are status 3, by default 1")
    ask.add_argument("--tcc", metavar="PATH", help="the program, by default what the variable TCC names, or else the one on the path")
    return ask.parse_args()


def main() -> int:
    asked = arguments()
    why = why_no_records(asked.records)
    if why:
        print("full.py: %s" % why, file=sys.stderr)
        return NOT_READ
    try:
        tcc = program(asked.tcc)
    except NoAnswer as error:
        print(error, file=sys.stderr)
        return NO_PROGRAM
    status = subprocess.run([tcc, *words_of(asked)], check=False).returncode
    return status if status >= 0 else 128 - status


if __name__ == "__main__":
    sys.exit(main())
