#!/usr/bin/env python3
"""Small histories, decided as large ones are. That is the same first order as `tcc explain` gives, and an anomaly exactly where it
gives one, of at least as many steps. It has as many where the answer calls it a least one, which it has to be up to four steps, and
wherever a least one has three at most.

    run.py [--tcc PATH] [--stages PATH] [--kinds KIND ..] [--sizes N ..] [--count N] [--seed N]

`tcc explain` is asked for a certificate: by its tables a small history has its own way to the answer.

The histories are those of bench/histories.py, by default of 255 and 1,023 transactions, each at both levels. `tcc_bench_stages` decides
them as large ones (`large-answer`). The line before the last says of how many anomalies the cycle found has as few steps
as the least: of those sizes it has to be all, of others it may be fewer.

`tcc explain --large` is given each history with an anomaly too, with so many sessions more that it is a large one. They neither read
nor write, so it has to say the same, link for link.

So it has to of random histories of two to eight sessions, beside so many sessions whose transactions were aborted. What it prints has
to be the same, byte for byte, but for the count of sessions. Enough of these histories have to be anomalies, and some of them of five
steps or more.

Each difference is one line; the last line is `N passed, M failed`.
"""
import argparse
import json
import os
import pathlib
import random
import subprocess
import sys
import tempfile

TOP = pathlib.Path(__file__).resolve().parent.parent.parent
sys.path[:0] = [str(TOP / "bench"), str(TOP / "tests")]
import drawn  # noqa: E402
import limits  # noqa: E402
from compared import first_difference  # noqa: E402
from histories import KINDS, text_of  # noqa: E402

LEVELS = ("causal", "atomic")
SECONDS = 600
# Of these sizes each cycle that is found is a least one.
LEAST_SIZES = (255, 1023)
# Up to so many steps what is decided is the first anomaly.
FIRST_STEPS = 3
# So many random histories take some 20 seconds. Each is judged at both levels: of these answers one part has to be anomalies, and
# another part anomalies of at least so many steps.
COUNT = 2000
ANOMALIES, DEAR, DEAR_STEPS = 0.5, 0.01, 5
# Without a certificate a small history is answered as a large one is.
AS_SMALL = ["--certificate", os.devnull]


def printed(words, history):
    """What a program prints for a history, with its status."""
    with open(history, "rb") as records:
        run = subprocess.run(words, stdin=records, stdout=subprocess.PIPE, text=True, timeout=SECONDS)
    return run.returncode, run.stdout.strip()


def numbers_of(labels):
    """The numbers of an order's labels: `init` first, then by session name in byte order and by place."""
    def place_of(label):
        session, _, place = label.rpartition("/")
        return session.encode(), int(place)
    numbers = {label: number for number, label in enumerate(sorted((each for each in labels if each != "init"), key=place_of), 1)}
    numbers["init"] = 0
    return [numbers[label] for label in labels]


def small_answer(tcc, history, level):
    """What `tcc explain` decides: an order's numbers, or how many steps a least cycle has, and what is printed of it."""
    status, text = printed([tcc, "explain", "--json", "--level", level, *AS_SMALL], history)
    answer = json.loads(text)
    if status == 0:
        return "order", numbers_of(answer["order"])
    return "cycle", answer["steps"], text


def sessions_above(tcc):
    """How many sessions are above the default limit, whatever others there are."""
    return limits.asked(tcc)["default"]["sessions"] + 1


def with_more_sessions(tcc, records, end="commit"):
    """The same records, and after them those of sessions that neither read nor write."""
    return records + "".join("zzz%02d,begin\nzzz%02d,%s\n" % (number, number, end) for number in range(sessions_above(tcc)))


def answered(tcc, words, level, records):
    """The status and what `tcc explain` prints as JSON for these records."""
    run = subprocess.run([tcc, "explain", "--json", "--level", level, *words], input=records.encode(), stdout=subprocess.PIPE, timeout=SECONDS)
    return run.returncode, run.stdout


def random_differences(tcc, count, seed):
    """Of random histories, each at both levels: the name, the steps of an anomaly or 0, and what is wrong or None. Aborted transactions
    are in no order and in no link, so of a large history only the count of sessions differs."""
    dice = random.Random(seed)
    for number in range(count):
        draw = (drawn.history_of, drawn.late_history)[number % 2]
        history = draw(dice, dice.randrange(2, 9), dice.randrange(4, 41))
        records, sessions = drawn.text_of(history), len({one.session for one in history})
        for level in LEVELS:
            status, small = answered(tcc, AS_SMALL, level, records)
            got, large = answered(tcc, ["--large"], level, with_more_sessions(tcc, records, "abort"))
            wanted = small.replace(b'"sessions":%d,' % sessions, b'"sessions":%d,' % (sessions + sessions_above(tcc)))
            wrong = first_difference("answer", wanted, large) or (None if status == got else "status %d, and %d as a large one" % (status, got))
            steps = json.loads(small)["steps"] if status == 1 else 0
            yield "random history %d at %s" % (number, level), steps, wrong if status in (0, 1) else "status %d" % status


def random_outcomes(tcc, count, seed):
    """The same by name, with what is wrong or None. After all comes whether there were enough anomalies among them."""
    found = []
    for name, steps, wrong in random_differences(tcc, count, seed):
        found.append(steps)
        yield name, wrong
    anomalies, dear = sum(steps > 0 for steps in found), sum(steps >= DEAR_STEPS for steps in found)
    enough = anomalies >= int(ANOMALIES * len(found)) and dear >= int(DEAR * len(found))
    few = "%d anomalies in %d answers, %d of them of %d steps or more" % (anomalies, len(found), dear, DEAR_STEPS)
    yield "random histories", None if enough else few


def large_answer(stages, history, level):
    """The same as a large history, and of a cycle whether it is called a least one."""
    _, text = printed([stages, "large-answer"] + ([level] if level == "atomic" else []), history)
    word, _, rest = text.partition(" ")
    numbers = [int(number) for number in rest.split()]
    return ("order", numbers) if word == "order" else ("cycle", (numbers or [0])[0], word == "least")


def difference(small, large):
    """What is wrong, or nothing."""
    if small[0] != large[0]:
        return "%s, and %s as a large one" % (small[0], large[0])
    if small[0] == "order" and small[1] != large[1]:
        return "another first order"
    if small[0] == "cycle" and large[1] < small[1]:
        return "a least cycle of %d steps, and one of %d" % (small[1], large[1])
    if small[0] == "cycle" and large[2] and large[1] > small[1]:
        return "a least cycle of %d steps, and one of %d is said to be least" % (small[1], large[1])
    if small[0] == "cycle" and not large[2] and (large[1] <= 4 or small[1] <= FIRST_STEPS):
        return "a least cycle of %d steps, and one of %d isn't said to be least" % (small[1], large[1])
    return None


def main():
    ask = argparse.ArgumentParser(description="Small histories, decided as large ones are.")
    ask.add_argument("--tcc", default=str(TOP / "crates/tcc/out/tcc"), help="another program than the built one")
    ask.add_argument("--stages", default=str(TOP / "crates/tcc_bench_stages/out/tcc_bench_stages"), help="the same of its stages")
    ask.add_argument("--kinds", nargs="+", choices=list(KINDS), default=list(KINDS), metavar="KIND", help="these alone")
    ask.add_argument("--sizes", nargs="+", type=int, default=list(LEAST_SIZES), metavar="N", help="so many transactions")
    ask.add_argument("--count", type=int, default=COUNT, metavar="N", help="so many random histories")
    ask.add_argument("--seed", type=int, default=1, metavar="N", help="of these")
    asked = ask.parse_args()
    passed = failed = anomalies = least = firsts = 0
    with tempfile.TemporaryDirectory() as folder:
        history = pathlib.Path(folder, "history.csv")
        for kind in asked.kinds:
            for size in asked.sizes:
                history.write_text(text_of(kind, size))
                more = pathlib.Path(folder, "more.csv")
                more.write_text(with_more_sessions(asked.tcc, text_of(kind, size)))
                for level in LEVELS:
                    small, large = small_answer(asked.tcc, history, level), large_answer(asked.stages, history, level)
                    wrong = difference(small, large)
                    if small[0] == "cycle":
                        first = printed([asked.tcc, "explain", "--large", "--json", "--level", level], more)[1]
                        firsts, wrong = firsts + 1, wrong or (None if first == small[2] else "another anomaly with more sessions")
                    if small[0] == large[0] == "cycle":
                        anomalies, least = anomalies + 1, least + (small[1] == large[1])
                        if small[1] != large[1]:
                            longer = "%d steps for %d" % (large[1], small[1])
                            if size in LEAST_SIZES:
                                wrong = wrong or longer
                            else:
                                print("%s-%d at %s: %s" % (kind, size, level, longer))
                    passed, failed = passed + (not wrong), failed + bool(wrong)
                    if wrong:
                        print("%s-%d at %s: %s" % (kind, size, level, wrong))
    for name, wrong in random_outcomes(asked.tcc, asked.count, asked.seed):
        passed, failed = passed + (not wrong), failed + bool(wrong)
        if wrong:
            print("%s: %s" % (name, wrong))
    print("%d of %d anomalies have as few steps as the least, %d are the first in a large history too" % (least, anomalies, firsts))
    print("%d passed, %d failed" % (passed, failed))
    return 1 if failed else 0


if __name__ == "__main__":
    sys.exit(main())
