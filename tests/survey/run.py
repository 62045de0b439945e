#!/usr/bin/env python3
"""Random histories, surveyed, against a slow survey by the definitions.

    run.py [--tcc PATH] [--count N] [--seed N]

A read of x from a by c is contradicted by another writer b of x where b reaches c and a reaches b by a walk of pairs; b at `atomic`
by one pair. `tcc survey` lists such reads, each with its name, and what can't be judged, or names transactions in a circle of
pairs; `definition.py` follows all walks instead. Most histories are small, some have more sessions than one block or two have room
for, and are surveyed with --large; in some, operations are altered, so that reads can't be judged.

Each difference is one line; the last line is `N passed, M failed`.
"""
import argparse
import pathlib
import random
import re
import subprocess
import sys
from typing import Iterator, List, Optional

TOP = pathlib.Path(__file__).resolve().parent.parent.parent
sys.path.insert(0, str(TOP / "tests"))
from compared import first_difference, shown  # noqa: E402
from counted import Outcome, status_of  # noqa: E402
from definition import Survey, line_of, survey  # noqa: E402
from drawn import history_of, small_history, text_of  # noqa: E402

LEVELS = ("causal", "atomic")
SECONDS = 60
LABEL = re.compile(r"[A-Za-z0-9_.-]+/[0-9]+")


def random_records(dice: random.Random) -> str:
    """Mostly a small history, else of more sessions than one block or two have room for; one in three of them altered."""
    if dice.random() < 0.9:
        history = small_history(dice)
    else:
        sessions = dice.randrange(60, 140)
        history = history_of(dice, sessions, dice.randrange(sessions, 2 * sessions))
    records = text_of(history)
    return records if dice.random() < 0.7 else altered(records, dice)


def altered(records: str, dice: random.Random) -> str:
    """The records with transactions that are aborted, reads of other values, writes that are written over at once, and operations
    that have changed places."""
    lines = [line.split(",") for line in records.splitlines()]
    values = sorted({line[3] for line in lines if len(line) == 4} | {"99999"})
    for index in reversed(range(len(lines))):
        line, luck = lines[index], dice.random()
        if line[1] == "commit" and luck < 0.15:
            line[1] = "abort"
        elif line[1] == "r" and luck < 0.1:
            line[3] = dice.choice(values)
        elif line[1] == "w" and luck < 0.1:
            lines.insert(index + 1, [*line[:3], line[3] + "0"])
        elif line[1] == "w" and luck < 0.2:
            lines.insert(index, [line[0], "r", *line[2:]])
        elif line[1] == "w" and luck < 0.25:
            line[3] = dice.choice([value for value in values if value != "0"])
    return "".join(",".join(line) + "\n" for line in lines)


def wrong_in(wanted: Survey, form: List[str], said: bytes) -> Optional[str]:
    """What is wrong with the lines of a survey, or None."""
    if wanted.contradicted is not None:
        lines = wanted.json() if form else wanted.text()
        return first_difference("output", "".join(line + "\n" for line in lines).encode(), said)
    labels = LABEL.findall(said.decode(errors="replace"))
    line = line_of({"answer": "circular", "transactions": labels}) if form else "circular: %s" % " ".join(labels)
    return None if said == (line + "\n").encode() and wanted.history.is_circle(labels) else "no circle: %s" % shown(said)


def outcomes(tcc: str, count: int, seed: int) -> Iterator[Outcome]:
    """Each survey, with what is wrong, or None."""
    dice = random.Random(seed)
    for number in range(count):
        records = random_records(dice)
        large = ["--large"] if len({line.split(",")[0] for line in records.splitlines()}) > 64 or dice.random() < 0.3 else []
        for level in LEVELS:
            wanted = survey(records, level)
            for form in ([], ["--json"]):
                run = subprocess.run([tcc, "survey", *large, *form, "--level", level], input=records.encode(), stdout=subprocess.PIPE,
                                     stderr=subprocess.DEVNULL, timeout=SECONDS, check=False)
                wrong = wrong_in(wanted, form, run.stdout)
                if run.returncode != wanted.status():
                    wrong = "status %d, wanted %d" % (run.returncode, wanted.status())
                yield " ".join(["history %d at %s" % (number, level), *form]), wrong


def main() -> int:
    ask = argparse.ArgumentParser(description="Random histories, surveyed, against a slow survey by the definitions.")
    ask.add_argument("--tcc", default=str(TOP / "crates/tcc/out/tcc"), help="another program than the built one")
    ask.add_argument("--count", type=int, default=400, metavar="N", help="so many histories")
    ask.add_argument("--seed", type=int, default=1, metavar="N", help="of the histories")
    asked = ask.parse_args()
    return status_of(outcomes(asked.tcc, asked.count, asked.seed))


if __name__ == "__main__":
    sys.exit(main())
