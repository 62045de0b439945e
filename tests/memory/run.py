#!/usr/bin/env python3
"""Refuses each allocation of the built programs in turn: the answers stay, or in place of one of them and all
after it stands the line `memory`, status 5.

    run.py [--tcc PATH] [--recorders PATH]

Where a transaction of the recorders is refused it is recorded again, and they say so on standard error. In one thread, where the
allocations of all runs are the same, each recorder's last one has to be among these, with all answers.

Two workers share the allocations out anew in each run: there the refusals go on until so many runs in a row as CALM says had
no allocation left to refuse. A thread that is refused changes no answer. An order by several workers has to start threads.

Needs a C compiler on the path (`cc` or `clang`); where there is none it says so and has failed. Each difference is one
line; the last line is `N passed, M failed`, a run a refused allocation.
"""
import argparse
import json
import os
import pathlib
import shutil
import subprocess
import sys
import tempfile
from dataclasses import dataclass
from typing import Dict, List

HERE = pathlib.Path(__file__).resolve().parent
TOP = HERE.parent.parent
sys.path.insert(0, str(TOP / "tests"))
from counted import status_of  # noqa: E402
from limits import of_answer, of_program  # noqa: E402

MEMORY = b"memory\n"
JSON_MEMORY = b'{"answer":"memory"}\n'
MOST = 10000
CALM = 3
STALE_READ = b"""anomaly: 3 steps, stale-initial-read
session init -> a/1
derived a/1 -> init by x, read by a/2
  session a/1 -> a/2
  against init -> a/2 by x
"""
CONFLICT = b"""anomaly: 4 steps, conflict-cycle
derived a/1 -> b/1 by x, read by c/1
  reads a/1 -> c/1 by x
  against b/1 -> c/1 by x
derived b/1 -> a/1 by x, read by c/1
  reads b/1 -> c/1 by x
  against a/1 -> c/1 by x
"""
STALE_READ_JSON = b"""{"answer":"anomaly","cycle":[{"from":"init","kind":"session","to":"a/1"},\
{"from":"a/1","key":"x","kind":"derived","reader":"a/2","to":"init","walk":[{"from":"a/1","kind":"session","to":"a/2"}]}],\
"shape":"stale-initial-read","steps":3}
"""
ABORTED_READ_JSON = b"""{"answer":"unresolved","faults":[\
{"key":"x","kind":"Aborted","op":1,"place":1,"session":"b","value":1},\
{"key":"z","kind":"ThinAir","op":2,"place":1,"session":"b","value":7}]}
"""
TWO_STALE_READS = b"""a,begin
a,w,x,1
a,commit
a,begin
a,r,x,0
a,commit
b,begin
b,w,y,1
b,commit
b,begin
b,r,y,0
b,commit
"""
EXAMPLES = TOP / "examples"
STALE, FORK = EXAMPLES / "stale-read.csv", EXAMPLES / "long-fork.csv"
STALE_CERTIFICATE = EXAMPLES / "stale-read.certificate"
FORK_ORDER = b"consistent: 4 transactions, 4 sessions\norder: init a/1 b/1 c/1 d/1\n"
SEALED_FIRST = b"consistent: 2 transactions, 1 sessions\n"
SEALED_ORDER = SEALED_FIRST + b"order: init a/1 a/2\n"
SEALED_CYCLE = b"""anomaly: 4 steps, stale-initial-read
session init -> a/1
derived a/1 -> init by x, read by b/1
  session a/1 -> a/2
  reads a/2 -> b/1 by y
  against init -> b/1 by x
"""
SEALED_ORDER_JSON = b"""{"answer":"consistent","order":["init","a/1","a/2"],"sessions":1,"transactions":2}
"""
SEALED_CYCLE_JSON = b"""{"answer":"anomaly","cycle":[{"from":"init","kind":"session","to":"a/1"},\
{"from":"a/1","key":"x","kind":"derived","reader":"b/1","to":"init","walk":[{"from":"a/1","kind":"session","to":"a/2"},\
{"from":"a/2","key":"y","kind":"reads","to":"b/1"}]}],"shape":"stale-initial-read","steps":4}
"""
FORK_CERTIFICATE = b"""tcc-certificate 1
order 5 4
0 1 2 3 4
clocks
0 0 0 0
0 0 0 0
0 0 0 0
1 0 0 0
0 1 0 0
end
"""
# A record with a fault, whatever its fields are.
THREE_FIELDS = b"a,b,c\n"
LARGE_ORDER = b"tcc-certificate 3 causal\norder 5 4 4\n0 1\n1 1\n2 1\n3 1\nend\n"
LARGE_CYCLE = b"tcc-certificate 3 causal\ncycle 3 2 3\nS 0 1\nD 1 0 x 2 1\nS 1 2\nleast 0\nend\n"
# More sessions than a small history has, all but a few of aborted transactions alone.
ABORTED = b"".join(b"s%d,begin\ns%d,abort\n" % (number, number) for number in range(64))
PAST = STALE.read_bytes() + ABORTED
# A stale read that is known by a walk of three steps, in so many sessions.
FIVE = (EXAMPLES / "causal-chain-missed.csv").read_bytes() + ABORTED
FIVE_STEPS = b"""anomaly: 5 steps, stale-initial-read
session init -> a/1
derived a/1 -> init by x, read by c/2
  reads a/1 -> b/1 by x
  reads b/1 -> c/1 by y
  session c/1 -> c/2
  against init -> c/2 by x
"""
FIVE_CERTIFICATE = b"""tcc-certificate 3 causal
cycle 5 2 5
S 0 1
D 1 0 x 4 3
R 1 2 x
R 2 3 y
S 3 4
least 3
0 1
1 1
2 2
end
"""
SURVEYED = [b"contradicted a/2 op 1 x 0: knew of a/1, read your writes\n", b"read your writes: 1\n", b"1 contradicted reads of 1, 0 faults\n"]
SURVEYED_FAULTS = [b"unresolved: 2 faults\nAborted b/1 op 1 x 1\nThinAir b/1 op 2 z 7\n", b"0 contradicted reads of 0, 2 faults\n"]
SURVEYED_JSON = [b'{"contradicted":"a/2","key":"x","name":"read your writes","op":1,"value":0,"writer":"a/1"}\n',
                 b'{"count":1,"name":"read your writes"}\n', b'{"answer":"survey","contradicted":1,"faults":0,"reads":1}\n']
SMALL_LIMITS, LARGE_LIMITS, ALL_LIMITS = (json.dumps(one, separators=(",", ":")).encode() for one in (of_answer(False), of_answer(True), of_program()))


def full(form, large=False):
    """The line of `--full`, with the limits in the place of LIMITS and whether they are the large ones in that of LARGE."""
    return form.replace(b"LIMITS", LARGE_LIMITS if large else SMALL_LIMITS).replace(b"LARGE", b"true" if large else b"false") + b"\n"


FULL_MEMORY = b'{"answer":"none","fault":{"answer":"memory"},"large":LARGE,"level":"causal","limits":LIMITS,"status":5,"version":"0.1.0"}'
FULL_ORDER = b'{"answer":"consistent","large":LARGE,"level":"causal","limits":LIMITS,"order":["init","a/1","b/1","c/1","d/1"],"sessions":4,\
"status":0,"transactions":4,"version":"0.1.0"}'
FULL_SESSION = b'{"from":"init","kind":"session","to":"a/1"}'
FULL_DERIVED = b'{"from":"a/1","key":"x","kind":"derived","missed":2,"read":5,"reader":"a/2","to":"init","value":0,\
"walk":[{"from":"a/1","kind":"session","to":"a/2"}],"written":null}'
FULL_STALE = b'{"answer":"anomaly","cycle":[' + FULL_SESSION + b"," + FULL_DERIVED + b'],"large":LARGE,"least":true,"level":"causal",\
"limits":LIMITS,"sessions":1,"shape":"stale-initial-read","status":1,"steps":3,"transactions":2,"version":"0.1.0"}'
# The same in a history of more sessions than a small one has.
LARGE_FULL_STALE = FULL_STALE.replace(b'"sessions":1', b'"sessions":65')
FULL_FAULTS = b'{"answer":"unresolved","faults":[\
{"key":"x","kind":"Aborted","name":"G1a","op":1,"place":1,"row":5,"session":"b","value":1},\
{"key":"z","kind":"ThinAir","name":null,"op":2,"place":1,"row":6,"session":"b","value":7}],"large":LARGE,"level":"causal",\
"limits":LIMITS,"sessions":2,"status":2,"transactions":1,"version":"0.1.0"}'
FULL_ROW = b'{"answer":"none","fault":{"answer":"row","kind":"FieldCount","row":1},"large":LARGE,"level":"causal","limits":LIMITS,\
"status":3,"version":"0.1.0"}'
# Twelve seals, and then a stale read.
OFTEN = b"".join(b"a,begin\na,w,x,%d\na,commit\nseal\n" % number for number in range(1, 13)) + b"a,begin\na,r,x,0\na,commit\n"
OFTEN_ANSWERS = [b"consistent: %d transactions, 1 sessions\n" % number for number in range(1, 13)]
OFTEN_ANSWERS.append(b"anomaly: 3 steps, stale-initial-read\nsession init -> a/1\nderived a/1 -> init by x, read by a/13\n"
                     b"  session a/1 -> a/13\n  against init -> a/13 by x\n")
# The limits as a table: what each is of, its key, and in which object it is.
LIMITED = (("sessions", "sessions"), ("transactions", "transactions"), ("operations of a transaction", "operations"), ("keys", "keys"),
           ("seals", "seals"), ("bytes", "bytes"), ("bytes of a name", "name_bytes"), ("workers", "workers"))


def limits_table():
    """The table of `tcc limits`."""
    known = of_program()
    most = [[{**known, **known[which]}[key] for which in ("default", "large")] for _, key in LIMITED]
    lines = ["%-28s%12d%14d\n" % (about, *both) for (about, _), both in zip(LIMITED, most)]
    return ("%-28s%12s%14s\n" % ("at most", "by default", "with --large") + "".join(lines)).encode()


# Sessions in three blocks of 64 at most, each reading from the one before, which three workers order by a thread for each block: two
# beside the first.
BLOCKS = b"".join(b"s%03d,begin\ns%03d,r,x,%d\ns%03d,w,x,%d\ns%03d,commit\n" % (number, number, number - 1, number, number, number)
                  for number in range(1, 130))
FILES = {"certificate": FORK_CERTIFICATE, "blocks": BLOCKS, "two-stale-reads": TWO_STALE_READS, "large-order": LARGE_ORDER, "large-cycle": LARGE_CYCLE,
         "past": PAST, "often": OFTEN, "five": FIVE, "five-certificate": FIVE_CERTIFICATE, "three-fields": THREE_FIELDS}
# The file of standard input, or none; the words after `tcc`, the answers, and the status. `@NAME` is one of these files.
ANSWERS = [
    (STALE, ["explain"], STALE_READ, 1),
    (EXAMPLES / "conflicting-writes.csv", ["explain"], CONFLICT, 1),
    (FORK, ["explain"], FORK_ORDER, 0),
    (EXAMPLES / "aborted-read.csv", ["explain"], b"unresolved: 2 faults\nAborted b/1 op 1 x 1\nThinAir b/1 op 2 z 7\n", 2),
    (STALE, ["explain", "--json"], STALE_READ_JSON, 1),
    (EXAMPLES / "aborted-read.csv", ["explain", "--json"], ABORTED_READ_JSON, 2),
    (EXAMPLES / "sealed.csv", ["explain"], [SEALED_ORDER, SEALED_CYCLE], 1),
    (EXAMPLES / "sealed.csv", ["explain", "--json"], [SEALED_ORDER_JSON, SEALED_CYCLE_JSON], 1),
    (STALE, ["explain", "--large"], STALE_READ, 1),
    (EXAMPLES / "sealed.csv", ["explain", "--large"], [SEALED_ORDER, SEALED_CYCLE], 1),
    (FORK, ["explain", "--large", "--slice", "/dev/null"], FORK_ORDER, 0),
    (None, ["check", STALE, STALE_CERTIFICATE], b"accepted: cycle, 3 steps\n", 0),
    (None, ["check", FORK, "@certificate"], b"accepted: order\n", 0),
    (None, ["check", FORK, STALE_CERTIFICATE], b"rejected: rule 1 at 0 0\n", 7),
    (None, ["check", FORK, FORK], b"certificate line 1: Header\n", 8),
    (None, ["check", EXAMPLES / "intermediate-read.csv", "@certificate"],
     b"unresolved: 1 faults\nIntermediate b/1 op 1 x 1\n", 2),
    (None, ["check", "@three-fields", "@certificate"], b"row 1: FieldCount\n", 3),
    (None, ["check", "--large", STALE, "@large-cycle"], b"accepted: cycle, 3 steps\n", 0),
    (None, ["check", "--large", FORK, "@large-order"], b"accepted: order\n", 0),
    (None, ["check", "--large", FORK, "@certificate"], b"accepted: order\n", 0),
    (None, ["check", "--large", FORK, "@large-cycle"], b"rejected: rule 1 at 0 0\n", 7),
    # after the answer its certificate takes memory, in whose place the line may come
    ("@past", ["explain", "--large", "--certificate", "/dev/null"], [STALE_READ, b""], 1),
    # a least cycle that is looked for among the walks, its slice, its certificate, and the check of that
    ("@five", ["explain", "--large"], FIVE_STEPS, 1),
    ("@five", ["explain", "--large", "--slice", "/dev/null"], [FIVE_STEPS, b""], 1),
    ("@five", ["explain", "--large", "--certificate", "/dev/null"], [FIVE_STEPS, b""], 1),
    (None, ["check", "--large", "@five", "@five-certificate"], b"accepted: cycle, 5 steps\n", 0),
    (EXAMPLES / "sealed.csv", ["watch"], [SEALED_FIRST, SEALED_CYCLE], 1),
    # at the last of many seals a watch answers
    ("@often", ["explain", "--large", "--quiet"], OFTEN_ANSWERS, 1),
    (STALE, ["survey"], SURVEYED, 1),
    (EXAMPLES / "aborted-read.csv", ["survey", "--large"], SURVEYED_FAULTS, 2),
    (STALE, ["survey", "--json"], SURVEYED_JSON, 1),
    (EXAMPLES / "causality-cycle.csv", ["survey"], b"circular: a/1 b/1\n", 1),
    (STALE, ["explain", "--full"], full(FULL_STALE), 1),
    (FORK, ["explain", "--full", "--large"], full(FULL_ORDER, True), 0),
    (EXAMPLES / "aborted-read.csv", ["explain", "--full"], full(FULL_FAULTS), 2),
    ("@three-fields", ["explain", "--full"], full(FULL_ROW), 3),
    ("@past", ["explain", "--full", "--large"], full(LARGE_FULL_STALE, True), 1),
    (None, ["limits"], limits_table(), 0),
    (None, ["limits", "--json"], ALL_LIMITS + b"\n", 0),
]
# The same, by one worker and by two.
SEARCHES = [(STALE, STALE_READ, 1), (FORK, FORK_ORDER, 0), ("@two-stale-reads", STALE_READ, 1)]
ANSWERS += [(given, ["explain", "--workers", workers], said, status)
            for workers in ("1", "2") for given, said, status in SEARCHES]
# An order by three workers, and how many threads have to start beside the first.
ORDERED, BESIDE_FIRST = ("@blocks", ["explain", "--large", "--quiet", "--workers", "3"], [b"consistent: 129 transactions, 129 sessions\n"], 0), 2
# What the recorders answer one after another, and what they say of the last transaction of each of them.
SAID = (TOP / "crates" / "tcc_recorders" / "stdout").read_bytes()
ANOMALY, END = SAID.index(b"anomaly"), SAID.rindex(b"consistent")
RECORDED = [SAID[:ANOMALY], SAID[ANOMALY:END], SAID[END:]]
AGAIN = [b"recorded again: %s\n" % last for last in (b"alice/1", b"bob/1", b"carol/3", b"dave/1")]


@dataclass(frozen=True)
class Run:
    """A command line, the file of standard input, and what is answered where memory is there, with the status."""

    words: List[str]
    given: str
    answers: List[bytes]
    status: int

    def name(self):
        return " ".join(self.words)

    def ample(self):
        """Output and status where nothing is refused."""
        return b"".join(self.answers), self.status

    def cut_off(self, line):
        """What is said where memory is refused: some answers, and then the line, with status 5."""
        return [(b"".join(self.answers[:stand]) + line, 5) for stand in range(len(self.answers))]

    def shares_work(self):
        """Whether two workers do the work of this command line."""
        return "--workers" in self.words and self.words[self.words.index("--workers") + 1] != "1"


@dataclass(frozen=True)
class Shim:
    """The library that refuses what a variable of the environment names, and the file that it makes where it did."""

    library: pathlib.Path
    mark: pathlib.Path

    def answer(self, run: Run, refused: Dict[str, str]):
        """Output and status of a run, its standard error, and whether anything was refused."""
        self.mark.unlink(missing_ok=True)
        environment = {**os.environ, "LD_PRELOAD": str(self.library), "REFUSED": str(self.mark), **refused}
        with open(run.given, "rb") as records:
            done = subprocess.run(run.words, stdin=records, capture_output=True, env=environment, timeout=60, check=False)
        return (done.stdout, done.returncode), done.stderr, self.mark.exists()


def refusals(run, shim):
    """For each allocation of a run, what is answered where it is refused, whether that is right, and standard error.

    Before the words of the command line are read it is the line `memory`, as nobody knows yet that JSON is wanted;
    from the first line of JSON on, that one. With `--full` that is an object, or the shortest line where it has no room either.
    """
    json = run.cut_off(JSON_MEMORY) if {"--json", "--full"} & set(run.words) else []
    if "--full" in run.words:
        json += run.cut_off(full(FULL_MEMORY, "--large" in run.words))
    lines = [(MEMORY, 5)] + json if json else run.cut_off(MEMORY)
    left = CALM if run.shares_work() else 1
    calm = 0
    for number in range(1, MOST):
        got, said, refused = shim.answer(run, {"REFUSE": str(number)})
        if got in json:
            lines = json
        is_ample = got == run.ample()
        yield number, got, is_ample or (refused and got in lines), said if is_ample else b""
        calm = 0 if refused else calm + 1
        if calm == left:
            break
    else:
        yield MOST, "no end", False, b""


def refused_threads(run, shim):
    """For each thread of a run, from 1, and for all together, by 0, what is answered where it can't be had."""
    for number in range(MOST):
        got, _, refused = shim.answer(run, {"REFUSE_THREAD": str(number)})
        yield number, got
        if not refused:
            break


def outcomes_of_order(run, shim):
    """Each thread of an order that is refused, and whether enough threads are there to be refused."""
    answers = list(refused_threads(run, shim))
    for number, got in answers:
        yield "%s, thread %d refused" % (run.name(), number), None if got == run.ample() else "got %r" % (got,)
    # (the first answer is that without any, the last one that without a thread that isn't there)
    started = len(answers) - 2
    yield "%s, threads" % run.name(), None if started >= BESIDE_FIRST else "only %d threads start" % started


def outcomes_of(run, shim):
    """Each refusal in runs of this command line, with what is wrong, or None."""
    unsaid = set(AGAIN if "alone" in run.words else [])
    for number, got, is_right, said in refusals(run, shim):
        unsaid.discard(said)
        yield "%s, allocation %d refused" % (run.name(), number), None if is_right else "got %r" % (got,)
    for line in sorted(unsaid):
        yield run.name(), "never said %r" % line
    for number, got in refused_threads(run, shim) if run.shares_work() else ():
        yield "%s, thread %d refused" % (run.name(), number), None if got == run.ample() else "got %r" % (got,)


def run_of(tcc, folder, given, words, answers, status):
    """A run whose files, which the words name, lie in the folder."""
    placed = [str(word).replace("@", folder + "/") for word in [given or os.devnull, *words]]
    return Run([tcc, *placed[1:]], placed[0], answers if isinstance(answers, list) else [answers], status)


def runs(tcc, recorders, folder):
    """All of which each allocation is refused."""
    for one in ANSWERS:
        yield run_of(tcc, folder, *one)
    yield Run([recorders], os.devnull, RECORDED, 0)
    yield Run([recorders, "alone"], os.devnull, RECORDED, 0)


def outcomes(tcc, recorders):
    """All refusals, each with what is wrong, or None."""
    compiler = shutil.which("cc") or shutil.which("clang")
    if not compiler:
        yield "C compiler", "no cc and no clang on the path: refused memory can't be tested"
        return
    with tempfile.TemporaryDirectory() as folder:
        for name, text in FILES.items():
            pathlib.Path(folder, name).write_bytes(text)
        shim = Shim(pathlib.Path(folder, "refuse.so"), pathlib.Path(folder, "refused"))
        subprocess.run([compiler, "-shared", "-fPIC", "-O1", "-o", shim.library, HERE / "refuse.c", "-ldl"], check=True)
        yield from outcomes_of_order(run_of(tcc, folder, *ORDERED), shim)
        for run in runs(tcc, recorders, folder):
            yield from outcomes_of(run, shim)


def main():
    ask = argparse.ArgumentParser(description="Refuses each allocation of tcc in turn.")
    ask.add_argument("--tcc", default=str(TOP / "crates" / "tcc" / "out" / "tcc"), help="another program than the built one")
    ask.add_argument("--recorders", default=str(TOP / "crates" / "tcc_recorders" / "out" / "tcc_recorders"), help="the same")
    asked = ask.parse_args()
    return status_of(outcomes(os.path.abspath(asked.tcc), os.path.abspath(asked.recorders)))


if __name__ == "__main__":
    sys.exit(main())
