#!/usr/bin/env python3
"""Seals while a history grows: each answer of one run is that of the records up to its seal as an input of their own.

    run.py [--tcc PATH]

The input has 100 seals. First writes go from session to session, each answered by an order. Then a session reads a value that is
gone by the first of these writes, over a chain of 18 reads: an anomaly of 20 steps. Readers at earlier positions of the chain make
it cheaper by one step each, down to 3, and each such answer is followed by four more. These are at a seal with nothing new, at one
where a read can't be traced, and at one where it can. The last is at one after a session that sorts first, so that all transactions
have other numbers. Both levels; with a certificate, whose tables are searched anew at each seal, 1, 2 and 32 workers; without; and with
`--large --quiet`, where a watch answers until the first anomaly.

Each difference is one line; the last line is `N passed, M failed`.
"""
import os
import pathlib
import subprocess
import sys

TOP = pathlib.Path(__file__).resolve().parent.parent.parent
sys.path.insert(0, str(TOP / "tests"))
from arguments import status_on_tcc  # noqa: E402

SECONDS = 120
CHAIN = 19
LEVELS = ("causal", "atomic")
WORKERS = ("1", "2", "32")
FIRST_COST, LAST_COST = 20, 3


def transaction(session, *operations):
    """The records of a transaction, each operation as `r KEY VALUE` or `w KEY VALUE`."""
    inside = ["%s,%s" % (session, operation.replace(" ", ",")) for operation in operations]
    return ["%s,begin" % session, *inside, "%s,commit" % session]


def link(position):
    """The session at this position of the chain reads what the one before it wrote, and writes its own."""
    return transaction("p%02d" % position, *(["r v%d 1" % (position - 1)] if position > 1 else []), "w v%d 1" % position)


def stale_reader(position):
    """A session that knows the chain up to this position, and reads the value before the first write."""
    return transaction("q%02d" % position, "r v%d 1" % position, "r v1 0")


def parts():
    """The records before each seal since the one before it, and what the causal answer begins with."""
    for position in range(1, 11):
        yield link(position), "consistent: %d transactions" % position
    rest = [record for position in range(11, CHAIN) for record in link(position)]
    for cost in range(FIRST_COST, LAST_COST - 1, -1):
        least = "anomaly: %d steps, stale-initial-read" % cost
        yield rest + stale_reader(cost - 2), least
        yield [], least
        yield transaction("t", "r k%d 1" % cost), "unresolved: 1 faults"
        yield transaction("u", "w k%d 1" % cost), least
        yield transaction("a%02d" % cost), least
        rest = []


def explained(tcc, options, records):
    """What a run prints, and its status."""
    done = subprocess.run(tcc + ["explain", *options], input="".join(record + "\n" for record in records).encode(),
                          stdout=subprocess.PIPE, timeout=SECONDS, check=False)
    return done.stdout.decode(), done.returncode


def alone(tcc, level, sealed):
    """The text for the records up to each seal, as an input of their own, and the status of the last."""
    so_far, texts = [], []
    for records, _ in sealed:
        so_far += records
        said, status = explained(tcc, ["--level", level], so_far)
        texts.append(said)
    return texts, status


def differences(got, texts):
    """For each of the texts whether it comes next in what was printed; None where it does."""
    at = 0
    for number, text in enumerate(texts, 1):
        yield None if text and got.startswith(text, at) else "answer %d isn't that of its records alone" % number
        at += len(text)
    yield None if at == len(got) else "%d characters, wanted %d" % (len(got), at)


def beginnings(texts, sealed):
    """Whether each of the texts begins as the definitions say."""
    for number, (text, (_, begins)) in enumerate(zip(texts, sealed), 1):
        yield None if text.startswith(begins) else "answer %d: wanted %s, got %s" % (number, begins, text.split("\n")[0])


def without_orders(text):
    """The text but for the lines of orders."""
    return "".join(line for line in text.splitlines(keepends=True) if not line.startswith("order: "))


def outcomes(tcc, sealed):
    """What was compared, each with what is wrong, or None."""
    whole = [record for records, _ in sealed for record in [*records, "seal"]]
    for level in LEVELS:
        texts, status = alone(tcc, level, sealed)
        if level == "causal":
            yield from (("alone", wrong) for wrong in beginnings(texts, sealed))
        for more in ([], ["--large", "--quiet"], *(["--workers", workers, "--certificate", os.devnull] for workers in WORKERS)):
            options = ["--level", level, *more]
            got, status_got = explained(tcc, options, whole)
            which = " ".join(options)
            wanted = map(without_orders, texts) if "--quiet" in more else texts
            yield from ((which, wrong) for wrong in differences(got, wanted))
            yield which, None if status_got == status else "status %d, alone %d" % (status_got, status)


def main():
    return status_on_tcc("Seals while a history grows.", lambda tcc: outcomes(tcc, list(parts())))


if __name__ == "__main__":
    sys.exit(main())
