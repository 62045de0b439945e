#!/usr/bin/env python3
"""Runs `tcc survey`, `tcc check` and `tcc watch` with each choice of their options, as `options.py` does of `tcc explain`.

    commands.py [--tcc PATH]

The histories are those of `options.py`, and one whose stale read is known by a walk of three pairs: an anomaly at `causal` alone. `watch`
has some with seals too. `check` has certificates of versions 2 and 3 at both levels for each history, and some that claim what isn't so.
Output, standard error and status are worked out by hand from docs/FORMATS.md, and have to be the same. Each difference is one line; the
last line is `N passed, M failed`.
"""
import concurrent.futures
import pathlib
import subprocess
import sys
import tempfile
from typing import Dict, Iterable, Iterator, List, NamedTuple, Optional, Sequence, Tuple

TOP = pathlib.Path(__file__).resolve().parent.parent.parent
sys.path.insert(0, str(TOP / "tests"))
from arguments import status_on_tcc  # noqa: E402
from compared import first_difference, shown  # noqa: E402
from counted import Outcome  # noqa: E402
from machine import processors  # noqa: E402
from options import CYCLE, HISTORIES, LINKS, MANY, STALE, History, Wanted, empty, line, of_read, of_row, options_of, too_many  # noqa: E402

SECONDS = 120
LEVELS = ("causal", "atomic")
# c has observed a's write by way of b, and then reads the initial value.
CHAIN = (TOP / "examples/causal-chain-missed.csv").read_text()
CHAIN_LINES = """session init -> a/1
derived a/1 -> init by x, read by c/2
  reads a/1 -> b/1 by x
  reads b/1 -> c/1 by y
  session c/1 -> c/2
  against init -> c/2 by x
"""
CHAIN_WALK = [{"from": "a/1", "key": "x", "kind": "reads", "to": "b/1"}, {"from": "b/1", "key": "y", "kind": "reads", "to": "c/1"},
              {"from": "c/1", "kind": "session", "to": "c/2"}]
CHAIN_CYCLE = [CYCLE[0], {"from": "a/1", "key": "x", "kind": "derived", "reader": "c/2", "to": "init", "walk": CHAIN_WALK}]
KNOWN = {**HISTORIES, "chain": History(CHAIN, 4, 3), "chain, large": History(CHAIN + empty(MANY[:62]), 66, 65, row=too_many(136, "s62"))}


class Told(NamedTuple):
    """An answer, or another part of what is printed: the text, the object of its JSON, and the status if it is the last."""

    text: str
    members: Dict[str, object]
    status: int


def printed(asked: Dict[str, Optional[str]], parts: Iterable[Told], notes: str = "") -> Wanted:
    """What a run prints of these parts. The status is that of the last."""
    listed = list(parts)
    return Wanted(listed[-1].status, "".join(line(one.members) if "--json" in asked else one.text for one in listed), notes)


def row_of(asked: Dict[str, Optional[str]], history: History) -> Optional[Tuple[int, str, str]]:
    """The record that has a fault, if there is one: that of a 65th session has none with --large."""
    return history.row if "--large" not in asked or history.sessions < 65 else None


def level_of(asked: Dict[str, Optional[str]]) -> str:
    return asked.get("--level") or "causal"


# survey: the external reads of each history that can be traced
READS = {"consistent": 1, "stale": 1, "stale, large": 1, "chain": 3, "chain, large": 3}


def contradicted(reader: str, name: str) -> List[Told]:
    """A read of the initial x, the first operation of its reader, which had observed a/1; and the count of its name."""
    members: Dict[str, object] = {"contradicted": reader, "key": "x", "name": name, "op": 1, "value": 0, "writer": "a/1"}
    return [Told("contradicted %s op 1 x 0: knew of a/1, %s\n" % (reader, name), members, 1),
            Told("%s: 1\n" % name, {"count": 1, "name": name}, 1)]


def surveyed(asked: Dict[str, Optional[str]], name: str, history: History) -> Wanted:
    """What a survey is to do. At `atomic` a walk of three pairs contradicts nothing."""
    row = row_of(asked, history)
    if row:
        return of_row(asked, row)
    kind = name.split(",")[0]
    found: List[Told] = []
    if kind == "stale":
        found = contradicted("a/2", "read your writes")
    elif kind == "chain" and level_of(asked) == "causal":
        found = contradicted("c/2", "writes follow reads")
    counts = (1 if found else 0, READS.get(name, 0), 1 if history.read else 0)
    status = 1 if counts[0] else 2 if counts[2] else 0
    members = dict(zip(("contradicted", "reads", "faults"), counts), answer="survey")
    last = Told("%d contradicted reads of %d, %d faults\n" % counts, members, status)
    if history.read:
        faults = of_read(asked, history)
        whole = printed(asked, [last])
        return Wanted(status, faults.output + whole.output, faults.notes)
    return printed(asked, [*found, last], "" if status else "no read is contradicted, which is no answer: ask tcc explain\n")


# watch: histories with seals, and the answers at each level
def consistent(transactions: int, sessions: int) -> Told:
    return Told("consistent: %d transactions, %d sessions\n" % (transactions, sessions),
                {"answer": "consistent", "sessions": sessions, "transactions": transactions}, 0)


def still(transactions: int, sessions: int) -> Told:
    return Told("anomaly: still, %d transactions, %d sessions\n" % (transactions, sessions),
                {"answer": "anomaly", "sessions": sessions, "still": True, "transactions": transactions}, 1)


FIRST = Told("anomaly: 3 steps, stale-initial-read\n" + "".join(LINKS),
             {"answer": "anomaly", "cycle": CYCLE, "shape": "stale-initial-read", "steps": 3}, 1)
CHAIN_FIRST = Told("anomaly: 5 steps, stale-initial-read\n" + CHAIN_LINES,
                   {"answer": "anomaly", "cycle": CHAIN_CYCLE, "shape": "stale-initial-read", "steps": 5}, 1)


def sealed(records: str) -> str:
    """The records with a seal after each transaction."""
    return records.replace("commit\n", "commit\nseal\n")


# Records, and their answers at `causal` and at `atomic`.
GROWN = [consistent(1, 1), consistent(2, 2), consistent(3, 3)]
MANY_SEEN = [consistent(number, number) for number in range(1, 65)]
SEALED = {
    "stale, sealed": (sealed(STALE + empty(["b"])), *[[consistent(1, 1), FIRST, still(3, 2)]] * 2),
    "stale at once, sealed": (STALE + "seal\n" + empty(["b"]), *[[FIRST, still(3, 2)]] * 2),
    "chain, sealed": (sealed(CHAIN + empty(["d"])), [*GROWN, CHAIN_FIRST, still(5, 4)], [*GROWN, consistent(4, 3), consistent(5, 4)]),
    "large, sealed": (sealed(empty(MANY[:64]) + STALE), *[[*MANY_SEEN, consistent(65, 65), FIRST]] * 2),
}


def watched(asked: Dict[str, Optional[str]], name: str, history: History) -> Wanted:
    """What a watch is to do, which takes up to the large limits always."""
    if name in SEALED:
        return printed(asked, SEALED[name][1 + LEVELS.index(level_of(asked))])
    if history.row and history.sessions < 65:
        return of_row(asked, history.row)
    if history.read:
        return of_read(asked, history)
    if history.anomaly:
        return printed(asked, [FIRST])
    is_chain = name.startswith("chain") and level_of(asked) == "causal"
    return printed(asked, [CHAIN_FIRST if is_chain else consistent(history.transactions, history.sessions)])


# check: certificates
class Claim(NamedTuple):
    """A certificate, and its verdict where none of the options says otherwise."""

    version: int
    level: str
    text: str
    verdict: str

    def name(self) -> str:
        return "version %d, %s, %s" % (self.version, self.level, self.verdict)


ORDER, CYCLE_OF_3, CYCLE_OF_5 = "accepted: order", "accepted: cycle, 3 steps", "accepted: cycle, 5 steps"
# How many transactions each session has, by the first word of a history's name; with 65 sessions the others have one each.
COUNTS = {"consistent": [1, 1], "nothing": [], "stale": [2], "chain": [1, 1, 2]}
# By the same, the places from which each transaction is reached, a column for each session.
CLOCKS = {"consistent": "0 0\n0 0\n1 0\n", "nothing": "\n", "chain": "0 0 0\n0 0 0\n1 0 0\n1 1 0\n1 1 1\n"}
STALE_LINKS = "S 0 1\nD 1 0 x 2 1\nS 1 2\n"
CHAIN_LINKS = "S 0 1\nD 1 0 x 4 3\nR 1 2 x\nR 2 3 y\nS 3 4\n"


def counts_of(name: str) -> List[int]:
    """How many transactions each session of a history has."""
    kind, _, large = name.partition(", ")
    if not large:
        return COUNTS[kind]
    return [1] * 65 if kind == "consistent" else COUNTS[kind] + [1] * (65 - len(COUNTS[kind]))


def rows(size: int, first: int, least: int, near: Dict[Tuple[int, int], int]) -> str:
    """A table of least lengths, in which `init` is one from all others, and `least` is where a pair has none. Row n begins at
    n where `first` is 1, and else at 0."""
    return "".join(" ".join(str(near.get((s, v), 1 if s == 0 < v else least)) for v in range(first * s, size)) + "\n" for s in range(size))


def cycle_of(name: str, level: str, verdict: str) -> Iterator[Claim]:
    """The certificates of a stale read, in both versions."""
    counts, head = counts_of(name), "tcc-certificate %d %s\ncycle %d 2 %d\n%s"
    size, is_stale = 1 + sum(counts), name.startswith("stale")
    steps, links = (3, STALE_LINKS) if is_stale else (5, CHAIN_LINKS)
    near = {(1, 2): 1} if is_stale else {(1, 2): 1, (1, 3): 2, (1, 4): 3, (2, 3): 1, (2, 4): 2, (3, 4): 1}
    tables = "near\n%sfar\n%s" % (rows(size, 0, steps, near), rows(size, 1, steps, near))
    least = "least 0\n" if is_stale else "least %d\n" % len(counts) + runs_of(counts)
    yield Claim(2, level, head % (2, level, size, steps, links) + tables + "end\n", verdict)
    yield Claim(3, level, head % (3, level, size, steps, links) + least + "end\n", verdict)
    if verdict.startswith("accepted"):
        yield Claim(3, level, head % (3, level, size, steps, links) + "end\n", verdict + ", least not claimed")


def runs_of(counts: Sequence[int]) -> str:
    """The runs of an order that has one session after the other."""
    return "".join("%d %d\n" % each for each in enumerate(counts))


def order_of(name: str, level: str, verdict: str) -> Iterator[Claim]:
    """The certificates of an order that has one session after the other, of version 2 where that has room for so many sessions."""
    counts = counts_of(name)
    size, sessions = 1 + sum(counts), len(counts)
    if sessions < 65:
        clocks = "clocks\n" + CLOCKS[name] if level == "causal" else ""
        numbers = " ".join(map(str, range(size)))
        yield Claim(2, level, "tcc-certificate 2 %s\norder %d %d\n%s\n%send\n" % (level, size, sessions, numbers, clocks), verdict)
    text = "tcc-certificate 3 %s\norder %d %d %d\n%send\n" % (level, size, sessions, sessions, runs_of(counts))
    yield Claim(3, level, text, verdict)


def claims_of(name: str, history: History) -> Iterator[Claim]:
    """The certificates that are tried on a history."""
    yield Claim(0, "no level", "no certificate\n", "certificate line 1: Header")
    if name.startswith("chain"):
        yield from cycle_of(name, "causal", CYCLE_OF_5)
        yield from order_of(name, "atomic", ORDER)
        # the read of the initial value is against the order, and the walk has too many steps for that level
        yield from order_of(name, "causal", "rejected: rule 9 at 1 0")
        yield from cycle_of(name, "atomic", "rejected: rule 2 at 2 0")
        return
    for level in LEVELS:
        if history.anomaly:
            yield from cycle_of(name, level, CYCLE_OF_3)
            yield from order_of("nothing", level, "rejected: rule 1 at 0 0")
        elif history.order is not None:
            yield from order_of(name, level, ORDER)
            yield from cycle_of("chain", level, "rejected: rule 1 at 0 0")
        else:
            yield from order_of("nothing", level, "never judged")


def checked(asked: Dict[str, Optional[str]], history: History, claim: Claim) -> Wanted:
    """What a check is to do. Version 3 and more than 64 sessions are for --large, and version 2 has at most 64."""
    row = row_of(asked, history)
    if row:
        return of_row(asked, row)
    if history.read:
        return of_read(asked, history)
    verdict = claim.verdict
    if claim.version == 3 and "--large" not in asked:
        verdict = "certificate line 1: Header"
    elif claim.version == 2 and history.sessions == 65:
        verdict = "rejected: rule 1 at 0 0"
    return Wanted(8 if verdict.startswith("certificate") else 7 if verdict.startswith("rejected") else 0, verdict + "\n")


class Run(NamedTuple):
    """The name of a run, its words, the records, a certificate if it has one, and what it is to do."""

    name: str
    words: List[str]
    records: str
    certificate: Optional[str]
    wanted: Wanted


def runs() -> Iterator[Run]:
    """Each command with each history and each choice of its options."""
    levels = [["--level", level] for level in LEVELS]
    every = [[*level, *form] for level in ([], *levels) for form in ([], ["--json"])]
    for name, history in KNOWN.items():
        for words in every:
            for asked in (words, [*words, "--large"]):
                yield Run(name, ["survey", *asked], history.records, None, surveyed(options_of(asked), name, history))
            yield Run(name, ["watch", *words], history.records, None, watched(options_of(words), name, history))
        for claim in claims_of(name, history):
            for words in ([], ["--large"]):
                called = "%s, %s" % (name, claim.name())
                yield Run(called, ["check", *words], history.records, claim.text, checked(options_of(words), history, claim))
    for name, (records, *_) in SEALED.items():
        for words in every:
            yield Run(name, ["watch", *words], records, None, watched(options_of(words), name, History(records, 0, 0)))


def wrong_with(tcc: List[str], run: Run) -> Optional[str]:
    """What a run does otherwise than wanted, or None."""
    with tempfile.TemporaryDirectory() as made:
        folder = pathlib.Path(made)
        (folder / "records").write_text(run.records)
        files = ["records"]
        if run.certificate is not None:
            (folder / "certificate").write_text(run.certificate)
            files.append("certificate")
        done = subprocess.run([*tcc, *run.words, *files], cwd=folder, capture_output=True, timeout=SECONDS)
        if done.returncode != run.wanted.status:
            return "status %d, output %s, standard error %s" % (done.returncode, shown(done.stdout), shown(done.stderr))
        return first_difference("output", run.wanted.output.encode(), done.stdout) \
            or first_difference("standard error", run.wanted.notes.encode(), done.stderr)


def outcomes(tcc: List[str]) -> Iterator[Outcome]:
    """What is wrong with each run, or None."""
    every = list(runs())
    with concurrent.futures.ThreadPoolExecutor(processors()) as pool:
        names = ("%s: %s" % (run.name, " ".join(run.words)) for run in every)
        yield from zip(names, pool.map(lambda run: wrong_with(tcc, run), every))


def main() -> int:
    return status_on_tcc("Runs a built tcc with each choice of the options of survey, check and watch.", outcomes)


if __name__ == "__main__":
    sys.exit(main())
