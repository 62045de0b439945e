#!/usr/bin/env python3
"""Checks certificates, right ones and altered ones, against a slow test of the text and the rules.

    run.py [--tcc PATH] [--count N] [--seed N]

Of small examples each digit of a text is replaced by each other digit, and the text is cut after each byte but the last. So it is
of the texts that the program writes in version 2, and of the same claims in versions 1 and 3. Of random histories orders and cycles
of version 3 are made by the definitions (`claims.py`), claimed as they are and with numbers altered and lines changed. What `tcc
check`, or `tcc check --large`, has to answer of each is worked out from docs/FORMATS.md and docs/MODEL.md alone (`texts.py`,
`definitions.py`, `rules.py`); and what `tcc explain --large` writes of these histories, past the small limits, has to be the text
that is worked out of an order, and accepted of a cycle.

The same is asked of `python3 -m tcc.recheck`, which shares nothing with the program, about each of these texts.

Each difference is one line; the last line is `N passed, M failed`.
"""
import argparse
import concurrent.futures
import os
import pathlib
import random
import subprocess
import sys
import tempfile

TOP = pathlib.Path(__file__).resolve().parent.parent.parent
sys.path[:0] = [str(TOP / "tests"), str(TOP / "python" / "tcc")]
import limits  # noqa: E402
import recheck  # noqa: E402  (which needs nothing else of its package)
from claims import altered, claims, order_text, own_claim, runs_of  # noqa: E402
from counted import status_of  # noqa: E402
from machine import processors  # noqa: E402
from definitions import History  # noqa: E402
from drawn import small_history, text_of  # noqa: E402
from rules import outcome  # noqa: E402
from texts import read  # noqa: E402

EXAMPLES = TOP / "examples"
STALE, FORK, CONFLICT, CROSSED = ((EXAMPLES / (name + ".csv")).read_text()
                                  for name in ("stale-read", "long-fork", "conflicting-writes", "causality-cycle"))
# What a/1 writes reaches c/1 by way of b/1, and c/2 reads the initial value: a walk of three steps, and 20 lines.
RELAYED = (EXAMPLES / "causal-chain-missed.csv").read_text()
# Records, the level of the answer, and the version of the certificate.
ASKED = [
    (STALE, "causal", 1),
    (STALE, "causal", 2),
    (STALE, "causal", 3),
    (STALE, "atomic", 2),
    (FORK, "causal", 2),
    (FORK, "atomic", 1),
    (FORK, "atomic", 3),
    (CONFLICT, "causal", 1),
    (CONFLICT, "causal", 3),
    (CONFLICT, "atomic", 2),
    (CROSSED, "causal", 2),
    (CROSSED, "causal", 3),
    (RELAYED, "causal", 2),
    (RELAYED, "causal", 3),
    (RELAYED, "atomic", 2),
    (RELAYED, "atomic", 3),
]
FIRST_LINES = {"causal": b"tcc-certificate 1", "atomic": b"tcc-certificate 1 atomic"}
LEVELS = ("causal", "atomic")
SMALL, ANY = (1, 2), (1, 2, 3)
ALTERED = 8


def many_sessions(tcc):
    """Sessions of aborted transactions alone, of no other weight: before and after all others, and more than a small history has."""
    half = limits.asked(tcc)["default"]["sessions"] // 2 + 1
    return "".join("%s%d,begin\n%s%d,abort\n" % (2 * (name, number)) for name in "0z" for number in range(half))


def written(tcc, records, level, folder, *more):
    """What the program answers, and the certificate that it writes."""
    path = os.path.join(folder, "written")
    run = subprocess.run([tcc, "explain", *more, "--level", level, "--certificate", path], input=records.encode(),
                         stdout=subprocess.PIPE, timeout=300, check=False)
    return run.stdout.decode(), pathlib.Path(path).read_bytes()


def in_version_1(history, level, text):
    """The same claim in version 1, whose `far` has the costs of all routes."""
    said, lines = read(text), text.split(b"\n")
    lines[0] = FIRST_LINES[level]
    if said["kind"] == "cycle":
        costs, least = history.costs(level), said["cost"]
        rows = lines.index(b"far") + 1
        for s in history.all():
            row = (min(costs.get((s, v), least), least) for v in history.all())
            lines[rows + s] = " ".join(map(str, row)).encode()
    return b"\n".join(lines)


def with_each_digit(text):
    """The text, all texts with another digit, and its fronts, each with what was done."""
    yield "as it is", text
    for at, byte in enumerate(text):
        digit = text[at:at + 1]
        if digit.isdigit():
            for other in b"0123456789".replace(digit, b""):
                yield "%c for %s at byte %d" % (other, digit.decode(), at), text[:at] + bytes([other]) + text[at + 1:]
    for length in range(len(text)):
        yield "cut after %d bytes" % length, text[:length]


class Judge:
    """The program's check, beside the slow one, of texts about one history."""

    def __init__(self, tcc, records, versions, folder, pool):
        self.words = [tcc, "check", *(["--large"] if versions == ANY else [])]
        self.history, self.versions, self.folder, self.pool = History(records), versions, folder, pool
        with tempfile.NamedTemporaryFile("w", dir=folder, delete=False) as file:
            file.write(records)
        self.records, self.path = records, file.name

    def answers(self, text):
        """What the program says of a certificate, and what the second opinion does: their lines and statuses."""
        with tempfile.NamedTemporaryFile(dir=self.folder, buffering=0) as file:
            file.write(text)
            run = subprocess.run([*self.words, self.path, file.name], capture_output=True, timeout=300, check=False)
            line, status = recheck.checked(self.path, file.name, self.versions == ANY)
        return (run.stdout.decode(errors="backslashreplace"), run.returncode), (line + "\n", status)

    def differences(self, cases):
        """For each text what was done to it, and what is wrong with the program's answer, or None."""
        cases = list(cases)
        for (what, text), answers in zip(cases, self.pool.map(self.answers, (text for _, text in cases))):
            wanted = outcome(self.history, text, self.versions)
            if what == "as it is" and wanted[1] != 0:
                yield what, "no certificate was written, but %r" % text
            else:
                yield what, None if answers == (wanted, wanted) else "wanted %r, got %r and rechecked %r, of %r" % (wanted, *answers, text)


def with_digits(tcc, folder, pool):
    """The altered texts of the examples."""
    for records, level, version in ASKED:
        records += many_sessions(tcc) if version == 3 else ""
        judge = Judge(tcc, records, ANY if version == 3 else SMALL, folder, pool)
        text = own_claim(judge.history, level) if version == 3 else written(tcc, records, level, folder)[1]
        if version == 1:
            text = in_version_1(judge.history, level, text)
        for what, wrong in judge.differences(with_each_digit(text)):
            yield "version %d, %s: %s" % (version, level, what), wrong


def of_random(tcc, number, dice, folder, pool):
    """The claims of a random history, as they are and altered, and what is written of it past the small limits."""
    records = text_of(small_history(dice, 10))
    if dice.random() < 0.5:
        records += many_sessions(tcc)
    judge = Judge(tcc, records, ANY, folder, pool)
    for level in LEVELS:
        cases = [("%s, %s" % (what, done), other) for what, text in claims(judge.history, level, dice)
                 for done, other in [("as claimed", text), *altered(text, ALTERED, dice)]]
        yield from (("history %d, %s: %s" % (number, level, what), wrong) for what, wrong in judge.differences(cases))
        yield "history %d, %s: written" % (number, level), wrongly_written(tcc, judge, level, folder)


def wrongly_written(tcc, judge, level, folder):
    """What is wrong with what is written of a history past the small limits, or None."""
    records = judge.records + ("" if many_sessions(tcc) in judge.records else many_sessions(tcc))
    past = Judge(tcc, records, ANY, folder, judge.pool)
    answer, text = written(tcc, records, level, folder, "--large")
    order, least = past.history.first_order(level), past.history.least_cost(level)
    if (order is None) == (least is None):
        return "by the definitions there are an order and a cycle, or neither"
    if order is not None:
        return None if text == order_text(past.history, level, runs_of(past.history, order)) else "of an order: %r" % text
    wanted = outcome(past.history, text, ANY)
    claimed = ["accepted: cycle, %d steps\n" % least] + ["accepted: cycle, %d steps, least not claimed\n" % least] * (least > 4)
    is_right = answer.startswith("anomaly: %d steps, " % least) and wanted[0] in claimed
    return None if wanted[1] == 0 and is_right and past.answers(text) == (wanted, wanted) else "of a cycle: %r" % text


def outcomes(tcc, count, seed):
    """What was done to each certificate, each with what is wrong, or None."""
    with tempfile.TemporaryDirectory() as folder, concurrent.futures.ThreadPoolExecutor(processors()) as pool:
        yield from with_digits(tcc, folder, pool)
        dice = random.Random(seed)
        for number in range(count):
            yield from of_random(tcc, number, dice, folder, pool)


def main():
    ask = argparse.ArgumentParser(description="Checks certificates, right ones and altered ones.")
    ask.add_argument("--tcc", default=str(TOP / "crates" / "tcc" / "out" / "tcc"), help="another program than the built one")
    ask.add_argument("--count", type=int, default=100, metavar="N", help="so many random histories")
    ask.add_argument("--seed", type=int, default=1, metavar="N", help="of the random histories")
    asked = ask.parse_args()
    return status_of(outcomes(os.path.abspath(asked.tcc), asked.count, asked.seed))


if __name__ == "__main__":
    sys.exit(main())
