#!/usr/bin/env python3
"""Runs `tcc explain` with every option and every other one beside it, with `--large` and without.

    options.py [--tcc PATH]

The histories are small ones and such of 65 sessions, which `--large` alone takes: consistent, anomalies, reads at fault, records at
fault. What each option does is a rule below, as docs/FORMATS.md has it: to what is printed, what is noted on standard error, the status,
and the files. A certificate has to be accepted by `tcc check`, and a slice is compared byte by byte. Each difference is one line; the last
line is `N passed, M failed`.
"""
import concurrent.futures
import itertools
import json
import pathlib
import subprocess
import sys
import tempfile
from typing import Dict, Iterator, List, NamedTuple, Optional, Sequence, Tuple

TOP = pathlib.Path(__file__).resolve().parent.parent.parent
sys.path.insert(0, str(TOP / "tests"))
from arguments import status_on_tcc  # noqa: E402
from compared import first_difference, shown  # noqa: E402
from counted import Outcome  # noqa: E402
from limits import of_answer  # noqa: E402
from machine import processors  # noqa: E402

STALE = "a,begin\na,w,x,1\na,commit\na,begin\na,r,x,0\na,commit\n"
LINKS = ["session init -> a/1\n", "derived a/1 -> init by x, read by a/2\n  session a/1 -> a/2\n  against init -> a/2 by x\n"]
WALK = [{"from": "a/1", "kind": "session", "to": "a/2"}]
DERIVED = {"from": "a/1", "key": "x", "kind": "derived", "reader": "a/2", "to": "init"}
CYCLE = [{"from": "init", "kind": "session", "to": "a/1"}, {**DERIVED, "walk": WALK}]
CYCLE_IN_FULL = [CYCLE[0], {**DERIVED, "walk": WALK, "missed": 2, "read": 5, "value": 0, "written": None}]
MANY = ["s%02d" % i for i in range(1, 66)]
LIMITS = {large: of_answer(large) for large in (False, True)}
VERSION = "0.1.0"
ASKS = [["--level", "atomic"], ["--workers", "3"], ["--json"], ["--quiet"], ["--full"], ["--require", "ENOUGH"], ["--require", "MORE"],
        ["--certificate", "certificate"], ["--slice", "slice"]]


class History(NamedTuple):
    """Records, and what is so of them where no option says more."""

    records: str
    transactions: int
    sessions: int
    order: Optional[List[str]] = None
    anomaly: bool = False
    read: Optional[str] = None
    row: Optional[Tuple[int, str, str]] = None


class Wanted(NamedTuple):
    """What a run is to print, note, end with and leave."""

    status: int
    output: str
    notes: str = ""
    certificate: bool = False
    slice: str = ""


def empty(sessions: Sequence[str]) -> str:
    """A transaction without an operation of each session."""
    return "".join("%s,begin\n%s,commit\n" % (one, one) for one in sessions)


def too_many(row: int, session: str) -> Tuple[int, str, str]:
    """The fault of the record that begins the first transaction of a 65th session."""
    return row, "TooManySessions", '"%s,begin": at most 64 sessions, see --large' % session


HISTORIES = {
    "consistent": History("a,begin\na,w,x,1\na,commit\nb,begin\nb,r,x,1\nb,commit\n", 2, 2, order=["a/1", "b/1"]),
    "nothing": History("", 0, 0, order=[]),
    "stale": History(STALE, 2, 1, anomaly=True),
    "unresolved": History("a,begin\na,r,x,5\na,commit\n", 1, 1, read="a"),
    "fault": History("a,commit\n", 0, 0, row=(1, "NotBegun", '"a,commit": expected begin first, since no transaction of the session is begun')),
    "consistent, large": History(empty(MANY), 65, 65, order=[one + "/1" for one in MANY], row=too_many(129, "s65")),
    "stale, large": History(STALE + empty(MANY[:64]), 66, 65, anomaly=True, row=too_many(133, "s64")),
    "unresolved, large": History("t,begin\nt,r,x,5\nt,commit\n" + empty(MANY[:64]), 65, 65, read="t", row=too_many(130, "s64")),
}


def line(value: object) -> str:
    """A line of JSON: the compact text, whose keys are in byte order."""
    return json.dumps(value, sort_keys=True, separators=(",", ":")) + "\n"


def full_line(asked: Dict[str, Optional[str]], status: int, members: Dict[str, object]) -> str:
    """The line of --full with what it has in every case."""
    large = "--large" in asked
    always = {"large": large, "level": asked.get("--level", "causal"), "limits": LIMITS[large], "status": status, "version": VERSION}
    return line({**always, **members})


def refused(asked: Dict[str, Optional[str]]) -> Optional[str]:
    """What of the options doesn't go together, by the texts of the program, or None."""
    if "--quiet" in asked and "--json" in asked:
        return "'--quiet' can't be used with '--json', which has the order in its one line"
    if "--full" in asked and {"--quiet", "--certificate", "--slice"} & set(asked):
        return "'--full' can't be used with '--quiet', '--certificate' or '--slice'"
    return None


def of_row(asked: Dict[str, Optional[str]], row: Tuple[int, str, str]) -> Wanted:
    """A record has a fault."""
    number, kind, mending = row
    status = 4 if kind.startswith("TooMany") else 3
    fault = {"answer": "row", "kind": kind, "row": number}
    note = "row %d: %s\n" % (number, mending)
    if "--full" in asked:
        return Wanted(status, full_line(asked, status, {"answer": "none", "fault": fault}), note)
    return Wanted(status, line(fault) if "--json" in asked else "row %d: %s\n" % (number, kind), note)


def of_read(asked: Dict[str, Optional[str]], history: History) -> Wanted:
    """A read has no source: the first operation of the first transaction of this session reads 5 at x."""
    told = "ThinAir %s/1 op 1 x 5" % history.read
    note = told + ": nobody wrote it\n"
    fault = {"key": "x", "kind": "ThinAir", "op": 1, "place": 1, "session": history.read, "value": 5}
    if "--full" in asked:
        faults = [{**fault, "name": None, "row": 2}]
        counts = {"sessions": history.sessions, "transactions": history.transactions}
        return Wanted(2, full_line(asked, 2, {"answer": "unresolved", "faults": faults, **counts}), note)
    return Wanted(2, line({"answer": "unresolved", "faults": [fault]}) if "--json" in asked else "unresolved: 1 faults\n%s\n" % told, note)


def of_anomaly(asked: Dict[str, Optional[str]], history: History) -> Wanted:
    """The stale read of three steps."""
    shape: Dict[str, object] = {"answer": "anomaly", "shape": "stale-initial-read", "steps": 3}
    if "--full" in asked:
        counts = {"sessions": history.sessions, "transactions": history.transactions}
        return Wanted(1, full_line(asked, 1, {**shape, "cycle": CYCLE_IN_FULL, "least": True, **counts}))
    text = line({**shape, "cycle": CYCLE}) if "--json" in asked else "anomaly: 3 steps, stale-initial-read\n" + "".join(LINKS)
    return Wanted(1, text, certificate="--certificate" in asked, slice=STALE if "--slice" in asked else "")


def of_order(asked: Dict[str, Optional[str]], history: History, order: List[str]) -> Wanted:
    """An order, which is no success where more transactions are required."""
    required = int(asked.get("--require") or 0)
    status, note = (0, "") if history.transactions >= required else (3, "--require %d: only %d transactions\n" % (required, history.transactions))
    object_ = {"answer": "consistent", "order": ["init", *order], "sessions": history.sessions, "transactions": history.transactions}
    text = "consistent: %d transactions, %d sessions\n" % (history.transactions, history.sessions)
    if "--full" in asked:
        text = full_line(asked, status, object_)
    elif "--json" in asked:
        text = line(object_)
    elif "--quiet" not in asked:
        text += " ".join(["order: init", *order]) + "\n"
    return Wanted(status, text, note, certificate="--certificate" in asked)


def wanted(asked: Dict[str, Optional[str]], history: History) -> Wanted:
    """What a run with these options is to do. The rows of histories of 65 sessions are a fault without --large or --slice."""
    if history.row and (not {"--large", "--slice"} & set(asked) or history.sessions < 65):
        return of_row(asked, history.row)
    if history.read:
        return of_read(asked, history)
    return of_order(asked, history, history.order) if history.order is not None else of_anomaly(asked, history)


def left(folder: pathlib.Path, name: str) -> Optional[bytes]:
    """What a file has, or None where it isn't there."""
    return (folder / name).read_bytes() if (folder / name).exists() else None


def unlike(asked: Dict[str, Optional[str]], folder: pathlib.Path, name: str, text: bytes) -> Optional[str]:
    """What is wrong with a file that has to hold this text where its option is given, and else not to be there; or None."""
    got = left(folder, name)
    if "--" + name not in asked:
        return None if got is None else "%s was made" % name
    return "%s wasn't made" % name if got is None else first_difference(name, text, got)


def unaccepted(tcc: List[str], asked: Dict[str, Optional[str]], folder: pathlib.Path, history: History) -> Optional[str]:
    """What is wrong with the certificate of an answer, or None."""
    large = ["--large"] if {"--large", "--slice"} & set(asked) else []
    certificate = left(folder, "certificate") or b""
    first = "tcc-certificate %d %s\n" % (3 if history.sessions == 65 else 2, asked.get("--level", "causal"))
    if not certificate.startswith(first.encode()):
        return "certificate: %s" % shown(certificate)
    done = subprocess.run([*tcc, "check", *large, folder / "records", folder / "certificate"], capture_output=True, timeout=120)
    told = b"accepted: cycle, 3 steps\n" if history.anomaly else b"accepted: order\n"
    return first_difference("check", told, done.stdout + done.stderr)


def wrong_with(tcc: List[str], words: Sequence[str], history: History) -> Optional[str]:
    """What a run with these options does otherwise than wanted, or None."""
    asked = options_of(words)
    with tempfile.TemporaryDirectory() as made:
        folder = pathlib.Path(made)
        (folder / "records").write_text(history.records)
        done = subprocess.run([*tcc, "explain", *words, "records"], cwd=folder, capture_output=True, timeout=120)
        refusal = refused(asked)
        if refusal:
            notes = "error: %s\n\nFor more information, try 'tcc explain --help'.\n" % refusal
            return (None if done.returncode == 64 else "status %d" % done.returncode) or first_difference("output", b"", done.stdout) \
                or first_difference("standard error", notes.encode(), done.stderr) or unlike({}, folder, "certificate", b"") \
                or unlike({}, folder, "slice", b"")
        ends = wanted(asked, history)
        if done.returncode != ends.status:
            return "status %d, output %s, standard error %s" % (done.returncode, shown(done.stdout), shown(done.stderr))
        return first_difference("output", ends.output.encode(), done.stdout) \
            or first_difference("standard error", ends.notes.encode(), done.stderr) \
            or (unaccepted(tcc, asked, folder, history) if ends.certificate else unlike(asked, folder, "certificate", b"")) \
            or unlike(asked, folder, "slice", ends.slice.encode())


def options_of(words: Sequence[str]) -> Dict[str, Optional[str]]:
    """The options among words, with their values."""
    found: Dict[str, Optional[str]] = {}
    for word in words:
        if word.startswith("--"):
            last = word
            found[word] = None
        else:
            found[last] = word
    return found


def words_of(chosen: Sequence[List[str]], large: bool, history: History) -> List[str]:
    """The words of some options. Enough transactions are as many as the history has, one more is too many."""
    number = {"ENOUGH": str(max(history.transactions, 1)), "MORE": str(history.transactions + 1)}
    return [number.get(word, word) for option in chosen for word in option] + (["--large"] if large else [])


def runs() -> Iterator[Tuple[str, List[str], History]]:
    """Each history with each option, each two, and none."""
    for name, history in HISTORIES.items():
        for chosen in itertools.chain([()], itertools.combinations(ASKS, 1), itertools.combinations(ASKS, 2)):
            if len({option[0] for option in chosen}) == len(chosen):
                for large in (False, True):
                    words = words_of(chosen, large, history)
                    yield "%s: %s" % (name, " ".join(words)), words, history


def outcomes(tcc: List[str]) -> Iterator[Outcome]:
    """What is wrong with each run, or None."""
    every = list(runs())
    with concurrent.futures.ThreadPoolExecutor(processors()) as pool:
        yield from zip((name for name, _, _ in every), pool.map(lambda run: wrong_with(tcc, run[1], run[2]), every))


def main() -> int:
    return status_on_tcc("Runs a built tcc with each two options.", outcomes)


if __name__ == "__main__":
    sys.exit(main())
