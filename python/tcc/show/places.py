"""Says which transactions of the whole history those of a slice are: annotations with the columns `transaction` and `whole`.

`tcc explain --large --slice PATH` writes records in which a session's transactions are counted anew, so that p1/187 may be p1/1
there. This script takes the answer that the same run printed, with --json, and the slice, and prints the table, which picture.py,
all.py and report.py take with --places.
"""
import argparse
import csv
import sys
from typing import Dict, Iterator, Tuple

from tcc.common.progress import INTERRUPTED
from tcc.common.rows import History, Json, Unfit, open_records, read_history
from tcc.common.words import command_line
from tcc.judging.answers import columns, cycle_of, read_answer, transactions_of

EXAMPLE = """example: the answer speaks of p1/187 and of p2/9 alone, so they are the first ones of the slice
  $ tcc explain --large --json --slice slice.csv records.csv > answer.json
  $ places.py answer.json slice.csv
  transaction,whole
  p1/1,p1/187
  p2/1,p2/9
"""


def places(answer: Json, slice_of_it: History) -> Iterator[Tuple[str, str]]:
    """The slice's labels, each with that of the whole; the slice has of each session the transactions of the cycle, in order."""
    if answer["answer"] != "anomaly":
        raise Unfit("the answer is %s: only an anomaly has a slice" % answer["answer"])
    whole = {session: labels for session, labels in columns(transactions_of(cycle_of(answer))).items()}
    small = columns(slice_of_it.transactions)
    if {name: len(labels) for name, labels in whole.items()} != {name: len(labels) for name, labels in small.items()}:
        raise Unfit("the slice hasn't the transactions of the answer: are they of one run?")
    for session, labels in small.items():
        yield from zip(labels, whole[session])


def table(answer: Json, slice_of_it: History) -> Dict[str, str]:
    return dict(places(answer, slice_of_it))


def arguments() -> argparse.Namespace:
    ask = command_line(__doc__, EXAMPLE)
    ask.add_argument("answer", metavar="ANSWER", help="the file of the answer in JSON")
    ask.add_argument("slice", metavar="SLICE", help="the file of the slice that the run wrote")
    return ask.parse_args()


def main() -> int:
    asked = arguments()
    try:
        with open(asked.answer, encoding="utf-8") as lines:
            answer, _ = read_answer(lines)
        with open_records(asked.slice) as file:
            small = read_history(file)
        csv.writer(sys.stdout, lineterminator="\n").writerows([("transaction", "whole"), *places(answer, small)])
        sys.stdout.flush()
    except KeyboardInterrupt:
        print("places.py: interrupted", file=sys.stderr)
        return INTERRUPTED
    except (Unfit, OSError, ValueError, KeyError, TypeError, csv.Error) as error:
        print("places.py: %s" % error, file=sys.stderr)
        return 1
    return 0


if __name__ == "__main__":
    sys.exit(main())
