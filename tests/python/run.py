#!/usr/bin/env python3
"""Tests the package of python/ as it is once pip has installed it, from the folder and without a network.

    run.py [--tcc PATH]

Into a new folder: what is asked of it is asked of what is there. Its types are checked by mypy and its style by ruff, pytest runs its
fixtures, and calls and rounds go to an etcd and a Redis. Before that it asks that no pattern of it is slow (`patterns.py`). Where
pip, mypy, ruff, pytest, Hypothesis, Dask.distributed, etcd or redis-server isn't there, what needs it is passed over, which is said. Each
difference is one line; the last line is `N passed, M failed`.
"""
import importlib
import json
import os
import pathlib
import runpy
import shutil
import signal
import subprocess
import sys
import tempfile
import threading
import xml.etree.ElementTree as xml
from typing import Callable, Dict, Iterator, List, Optional

sys.path.insert(0, str(pathlib.Path(__file__).resolve().parent.parent))
import calls  # noqa: E402
import converted  # noqa: E402
import harnessed  # noqa: E402
import fleets  # noqa: E402
import imports  # noqa: E402
import judged  # noqa: E402
import looks  # noqa: E402
import losses  # noqa: E402
import patterns  # noqa: E402
import nodes  # noqa: E402
import reported  # noqa: E402
import several  # noqa: E402
import stores  # noqa: E402
import versioned  # noqa: E402
import watches  # noqa: E402
import working  # noqa: E402
from arguments import status_on_tcc  # noqa: E402
from counted import Outcome, guarded  # noqa: E402
from helpers import SECONDS, TOP, Broken, Refused, differs, ended, raises, run  # noqa: E402
from limits import asked  # noqa: E402

PACKAGE = TOP / "python"
COMMANDS = ["tcc-all", "tcc-convert", "tcc-edn", "tcc-fleet", "tcc-full", "tcc-jepsen", "tcc-join", "tcc-look", "tcc-picture", "tcc-places", "tcc-report",
            "tcc-sessions", "tcc-settle", "tcc-shrink", "tcc-versions", "tcc-watch"]
# What `python3 -m tcc.NAME` starts.
MODULES = ["all", "edn", "full", "jepsen", "looking", "picture", "places", "report", "sessions", "settling", "versions"]
# What readers of annotations take from the package by this path.
PATHS = {"tcc.notes": ["Event", "Note", "read_events", "read_notes", "write_notes"]}
MOST_LINES = 400
WHOLE = ["recheck.py"]  # one file by design: somebody copies it alone
THREADS, TURNS = 8, 40
# A process that is killed while a transaction of its is in its COMMIT, and another one hasn't come so far.
DYING = """
import os, signal, sys
from tcc import Recorder
recorder = Recorder(sys.argv[1])
one, other = recorder.session("a"), recorder.session("b")
with one.transaction() as first:
    first.write("x", 5000)
with one.transaction() as second:
    second.read("x", 5000)
    second.write("x", 9000)
    second.write("y", 9001)
    second.committing()
    with other.transaction() as third:
        third.write("z", 9002)
        os.kill(os.getpid(), signal.SIGKILL)
"""
TESTED = """
def test_kept(tcc_recorder, assert_causal):
    record(tcc_recorder, 5000)
    assert assert_causal(tcc_recorder).transactions == 2

def test_broken(tcc_recorder, assert_causal):
    record(tcc_recorder, None)
    assert_causal(tcc_recorder)

def test_untraced(tcc_recorder, assert_causal):
    record(tcc_recorder, 7)
    assert_causal(tcc_recorder)

def test_nothing(tcc_recorder, assert_causal):
    assert_causal(tcc_recorder)

def test_no_records(tmp_path, assert_causal):
    path = tmp_path / "records.csv"
    path.write_text("a,begin\\n")
    assert_causal(path)

def test_watched(watched_recorder):
    import time
    record(watched_recorder, None)
    session = watched_recorder.session("b")
    for _ in range(100000):
        with session.transaction() as one:
            one.write("y", watched_recorder.new_value())
        time.sleep(0.001)
    raise AssertionError("not stopped")

def test_watched_in_a_thread(watched_recorder):
    import threading
    client = threading.Thread(target=test_watched, args=(watched_recorder,))
    client.start()
    client.join()

def test_watched_at_the_end(watched_recorder):
    record(watched_recorder, None)

def test_watched_untraced(watched_recorder):
    record(watched_recorder, 7)

def test_watched_alone(watched_recorder):
    record(watched_recorder, 5000)

def test_watched_kept(watched_recorder, assert_causal):
    record(watched_recorder, 5000)
    assert assert_causal(watched_recorder).transactions == 2

def record(recorder, value):
    session = recorder.session("a")
    with session.transaction() as one:
        one.write("x", 5000)
    with session.transaction() as one:
        one.read("x", value)
"""
# What pytest's report says of each test, and what is in its message.
REPORTED = {"test_kept": None, "test_broken": "anomaly: 3 steps, stale-initial-read", "test_untraced": "ThinAir a/2 op 1 x 7",
            "test_nothing": "only 0 transactions", "test_no_records": "the input ends: expected commit", "test_watched": "anomaly: 3 steps, stale-initial-read",
            "test_watched_in_a_thread": "anomaly: 3 steps, stale-initial-read", "test_watched_at_the_end": "anomaly: 3 steps, stale-initial-read",
            "test_watched_untraced": "ThinAir a/2 op 1 x 7", "test_watched_alone": None, "test_watched_kept": None}


# The rounds of recipes/ci/test_causal.py, by their folders: the records of each, and what its failure says.
ROUNDS = {
    "kept": {"one": ("a,begin\na,w,x,1\na,commit\n", None)},
    "mixed": {
        "kept": ("a,begin\na,w,x,1\na,commit\n", None),
        "stale": ("a,begin\na,w,x,1\na,commit\na,begin\na,r,x,0\na,commit\n", "the store broke its promise"),
        "untraced": ("a,begin\na,r,x,7\na,commit\n", "ThinAir a/1 op 1 x 7"),
        "wrong": ("a,begin\na,q,x,7\n", "expected r or w"),
        "empty": ("", "tcc ended with 3"),
    },
    "none": {},
}


def installed(folder: str) -> Optional[str]:
    """Installs the package into a folder; what went wrong."""
    words = [sys.executable, "-m", "pip", "install", "--quiet", "--no-index", "--no-deps", "--disable-pip-version-check",
             "--root-user-action=ignore", "--target", folder, str(PACKAGE)]
    done = subprocess.run(words, capture_output=True, text=True, timeout=SECONDS, check=False)
    return None if done.returncode == 0 else "status %d, %s" % (done.returncode, done.stderr[-300:])


def python_with(module: str) -> Optional[str]:
    """The Python that has a module: this one, or that of Debian's packages."""
    for python in (sys.executable, "/usr/bin/python3"):
        if shutil.which(python) and subprocess.run([python, "-c", "import " + module], capture_output=True, check=False).returncode == 0:
            return python
    return None


def ends(folder: pathlib.Path) -> Iterator[Outcome]:
    """Each way in which a transaction can end, and what is recorded of it."""
    from tcc import Recorder
    path = folder / "ends.csv"
    with Recorder(path, notes=folder / "ends.notes") as recorder:
        a, b = recorder.session("a", node="n0"), recorder.session("b")
        ended(a, [("r", "x", None), ("w", "x", 1)], None, True)
        ended(a, [("w", "x", 2)], Refused(), True)                   # refused in its COMMIT: an abort, without what it read
        ended(a, [("r", "x", 1), ("w", "x", 3)], Broken(), False)    # broke before its COMMIT: an abort
        ended(a, [("r", "x", 1)], Broken(), False)                   # only read and broke: left out
        ended(a, [("r", "x", 1), ("w", "x", 4)], Broken(), True)     # unknown, and read below
        ended(a, [("w", "x", 5)], Broken(), True)                    # unknown, and nobody read it
        ended(a, [("w", "y", 6)], None, True)
        a.renew()
        ended(a, [("r", "y", 6)], None, False)
        with b.transaction() as one:
            one.write("z", 7)
            one.abort()
        ended(b, [("r", "x", 4)], None, True)
    wanted = ["a,begin", "a,r,x,0", "a,w,x,1", "a,commit", "a,begin", "a,w,x,2", "a,abort", "a,begin", "a,w,x,3", "a,abort",
              "a,begin", "a,w,x,4", "a,unknown", "a.2,begin", "a.2,w,x,5", "a.2,unknown",
              "a.3,begin", "a.3,w,y,6", "a.3,commit", "a.4,begin", "a.4,r,y,6", "a.4,commit",
              "b,begin", "b,w,z,7", "b,abort", "b,begin", "b,r,x,4", "b,commit"]
    yield differs("records of each end", wanted, path.read_text().split())
    yield differs("file beside", False, os.path.exists(str(path) + ".pending"))
    notes = [line.split(",") for line in (folder / "ends.notes").read_text().splitlines()]
    wanted = [["transaction", "node", "note"], ["a/1", "n0", ""], ["a/2", "n0", "abort: Refused"], ["a/3", "n0", "abort: Broken"],
              ["a/4", "n0", "unknown: Broken"], ["a.2/1", "n0", "unknown: Broken"], ["a.3/1", "n0", ""], ["a.4/1", "n0", ""],
              ["b/1", "", "abort"], ["b/2", "", ""]]
    yield differs("annotations", wanted, [[label, node, note] for label, node, _, note in notes])


def refusals(folder: pathlib.Path) -> Iterator[Outcome]:
    """What can't be recorded is refused before anything is noted, and so is who comes second."""
    from tcc import Busy, NoRecord, Recorder
    path = folder / "refused.csv"
    with Recorder(path) as recorder:
        yield "a second recorder of a file", raises(Busy, lambda: Recorder(path))
        yield "a name with a comma", raises(NoRecord, lambda: recorder.session("a,b"))
        yield "a name without room", raises(NoRecord, lambda: recorder.session("a" * 25))
        session = recorder.session("a")
        with session.transaction() as one:
            yield "a write of 0", raises(NoRecord, lambda: one.write("x", 0))
            yield "a write of 2^64", raises(NoRecord, lambda: one.write("x", 2**64))
            yield "a read of -1", raises(NoRecord, lambda: one.read("x", -1))
            yield "a key with a space", raises(NoRecord, lambda: one.write("x y", 1))
            yield "a transaction in a transaction", raises(NoRecord, lambda: session.transaction().__enter__())
    yield differs("records of nothing", "a,begin\na,commit\n", path.read_text())
    yield "a closed recorder", raises(NoRecord, lambda: ended(recorder.session("late"), [("w", "x", 1)], None, True))
    other = folder / "other.csv"
    other.write_text("name,age\nann,5\n")
    yield "a file of something else", raises(NoRecord, lambda: Recorder(other))
    yield differs("its text", "name,age\nann,5\n", other.read_text())


def crash(folder: pathlib.Path, library: str) -> Iterator[Outcome]:
    """A process is killed in a COMMIT: what was under way is known, a run that goes on after it ends it by what is read."""
    from tcc import Recorder
    path = folder / "crash.csv"
    done = run([sys.executable, "-c", DYING, str(path)], library)
    yield differs("status of the process", -signal.SIGKILL, done.returncode)
    first = ["a,begin", "a,w,x,5000", "a,commit"]
    yield differs("records that a killed process leaves", first, path.read_text().split())
    with open(path, "a", encoding="ascii") as file:
        file.write("b,begin\nb,r,x,50")  # as where the disk was full
    with Recorder(path) as recorder:
        session = recorder.session("a")
        yield differs("the session behind it", "a.2", session.name)
        yield differs("a value after it", False, recorder.new_value() in (5000, 9000, 9001, 9002))
        with session.transaction() as one:
            one.read("y", 9001)
    second = ["a.2,begin", "a.2,r,y,9001", "a.2,commit", "a,begin", "a,w,x,9000", "a,w,y,9001", "a,unknown", "b,begin", "b,w,z,9002", "b,unknown"]
    yield differs("records behind it", first + second, path.read_text().split())
    alone = folder / "alone.csv"
    run([sys.executable, "-c", DYING, str(alone)], library)
    settled = run([sys.executable, os.path.join(library, "bin/tcc-settle"), str(alone)], library)
    yield differs("tcc-settle", (0, "tcc-settle: of unknown outcome 0 read, so committed, 2 unread, so aborted\n"),
                  (settled.returncode, settled.stderr))
    wanted = first + ["a,begin", "a,w,x,9000", "a,w,y,9001", "a,abort", "b,begin", "b,w,z,9002", "b,abort"]
    yield differs("records that tcc-settle ends", wanted, alone.read_text().split())
    missing = run([sys.executable, os.path.join(library, "bin/tcc-settle"), str(folder / "missing.csv")], library)
    yield differs("tcc-settle of no file", 1, missing.returncode)


def threads(folder: pathlib.Path, tcc: List[str]) -> Iterator[Outcome]:
    """Threads that share a recorder and a map: each transaction is whole in the file, and `tcc` finds an order."""
    from tcc import Consistent, Recorder, explain
    path, values, lock = folder / "threads.csv", {}, threading.Lock()

    def work(recorder) -> None:
        session = recorder.session("c")
        for turn in range(TURNS):
            with session.transaction() as one, lock:
                key = "k%d" % (turn % 5)
                one.read(key, values.get(key))
                value = recorder.new_value()
                one.write(key, value)
                values[key] = value

    with Recorder(path, number=3) as recorder:
        working = [threading.Thread(target=work, args=(recorder,)) for _ in range(THREADS)]
        for thread in working:
            thread.start()
        for thread in working:
            thread.join()
    answer = explain(path, tcc=tcc[-1], require=THREADS * TURNS)
    yield differs("answer for threads", (Consistent, THREADS * TURNS, THREADS), (type(answer), answer.transactions, answer.sessions))


def answers(folder: pathlib.Path, tcc: List[str]) -> Iterator[Outcome]:
    """Typed answers: they say what `tcc` prints, and what is none is raised with its status."""
    from tcc import Anomaly, Fault, NoAnswer, Step, Unresolved, explain
    answer = explain(TOP / "examples/stale-read.csv", tcc=tcc[-1])
    step = Step("session", "a/1", "a/2")
    wanted = Anomaly("stale-initial-read", 3, (
        Step("session", "init", "a/1"), Step("derived", "a/1", "init", "x", "a/2", (step,))))
    yield differs("an anomaly", wanted, answer)
    thin = folder / "thin.csv"
    thin.write_text("a,begin\na,r,x,7\na,commit\n")
    answer = explain(thin, tcc=tcc[-1])
    yield differs("an unresolved answer", Unresolved((Fault("ThinAir", "a", 1, 1, "x", 7),)), answer)
    padded, small = folder / "padded.csv", folder / "slice.csv"
    padded.write_text("".join("b,begin\nb,w,y,%d\nb,commit\n" % value for value in range(1, 6)) + (TOP / "examples/stale-read.csv").read_text())
    yield differs("an anomaly with a slice", wanted, explain(padded, tcc=tcc[-1], slice=small))
    yield differs("its slice", ["a,begin", "a,w,x,1", "a,commit", "a,begin", "a,r,x,0", "a,commit"], small.read_text().split())
    small.write_text("what was there\n")
    explain(thin, tcc=tcc[-1], slice=small)
    yield differs("a slice of no anomaly", "", small.read_text())
    for path in [*sorted((TOP / "examples").glob("*.csv")), thin]:
        done = subprocess.run([*tcc, "explain", str(path)], capture_output=True, text=True, timeout=SECONDS, check=False)
        printed = done.stdout[:done.stdout.rindex(done.stdout.splitlines()[-1])] + done.stdout.splitlines()[-1]
        try:
            text = explain(path, tcc=tcc[-1], require=0).text()
        except NoAnswer as error:
            yield differs("status of %s" % path.name, done.returncode, error.status)
        else:
            yield "text of %s" % path.name, None if (printed + "\n").endswith(text) else "wanted the end of %r, got %r" % (printed, text)
    empty = folder / "empty.csv"
    empty.write_text("")
    for name, path, more, status in (("no records", empty, {}, 3), ("no file", folder / "none.csv", {}, 6),
                                     ("no program", thin, {"tcc": folder / "none"}, None)):
        try:
            explain(path, **{"tcc": tcc[-1], **more})
            yield name, "an answer"
        except NoAnswer as error:
            yield differs(name, status, error.status)


def commands(folder: pathlib.Path, library: str, tcc: List[str]) -> Iterator[Outcome]:
    """The commands: each says what it is, and together they lead from a history of Jepsen to its anomalies."""
    told = sorted(path.name for path in pathlib.Path(library, "bin").iterdir())
    yield differs("commands", COMMANDS, told)
    for name in COMMANDS:
        done = run([sys.executable, os.path.join(library, "bin", name), "--help"], library)
        yield "help of " + name, None if done.returncode == 0 and "usage: " + name in done.stdout else done.stderr[-300:]
        yield differs("a wrong word for " + name, 64, run([sys.executable, os.path.join(library, "bin", name), "--none"], library).returncode)
    for name in MODULES:
        done = run([sys.executable, "-m", "tcc." + name, "--help"], library)
        yield "help of tcc." + name, None if done.returncode == 0 and "usage: %s.py" % name in done.stdout else done.stderr[-300:]
    for name, wanted in PATHS.items():
        module = importlib.import_module(name)
        yield differs("what %s lacks" % name, [], [one for one in wanted if not hasattr(module, one)])
    history, records = folder / "history.edn", folder / "jepsen.csv"
    history.write_text("{:type :ok :process 1 :f :txn :value [[:w :x 5]]}\n{:type :ok :process 1 :f :txn :value [[:r :x nil]]}\n")
    done = run([sys.executable, os.path.join(library, "bin/tcc-jepsen"), str(history)], library)
    records.write_text(done.stdout)
    yield differs("records of tcc-jepsen", ["p1,begin", "p1,w,x,5", "p1,commit", "p1,begin", "p1,r,x,0", "p1,commit"], done.stdout.split())
    done = run([sys.executable, os.path.join(library, "bin/tcc-all"), "--tcc", os.path.abspath(tcc[-1]), str(records)], library)
    yield "anomalies of tcc-all", None if "read your writes" in done.stdout else done.stdout + done.stderr
    page = folder / "report.html"
    done = run([sys.executable, os.path.join(library, "bin/tcc-report"), "--tcc", os.path.abspath(tcc[-1]), str(records), "-o", str(page)], library)
    yield "page of tcc-report", None if page.exists() and "read your writes" in page.read_text() else done.stdout + done.stderr


def types() -> Iterator[Outcome]:
    if not shutil.which("mypy"):
        print("types: passed over: no mypy on the path")
        return
    words = ["mypy", "--strict", "--ignore-missing-imports", "--cache-dir", os.devnull, "tcc", "backend/wheels.py"]
    done = subprocess.run(words, cwd=PACKAGE, capture_output=True, text=True, timeout=SECONDS, check=False)
    yield "mypy --strict", None if done.returncode == 0 else done.stdout[-500:]


def style() -> Iterator[Outcome]:
    """What ruff says of the sources, by the rules that pyproject.toml names; and no file has more lines than one reads in a go."""
    for path in sorted(one for one in PACKAGE.rglob("*.py") if one.name not in WHOLE):
        lines = path.read_text().count("\n")
        yield "lines of %s" % path.relative_to(PACKAGE), None if lines < MOST_LINES else "%d, and at most %d" % (lines, MOST_LINES - 1)
    if not shutil.which("ruff"):
        print("style: passed over: no ruff on the path")
        return
    done = subprocess.run(["ruff", "check", "--no-cache", "tcc", "backend"], cwd=PACKAGE, capture_output=True, text=True, timeout=SECONDS, check=False)
    yield "ruff check", None if done.returncode == 0 else done.stdout[-500:]


def fixtures(folder: pathlib.Path, library: str, tcc: List[str]) -> Iterator[Outcome]:
    """The fixtures: a test passes where the store kept its promise, and fails where it broke it and where nothing was judged."""
    python = python_with("pytest")
    if python is None:
        print("fixtures: passed over: no pytest")
        return
    (folder / "test_store.py").write_text(TESTED)
    report = folder / "report.xml"
    done = run([python, "-m", "pytest", "-q", "-p", "no:cacheprovider", "--tcc", os.path.abspath(tcc[-1]), "--junit-xml", str(report),
                "test_store.py"], library, cwd=folder)
    yield differs("status of pytest", 1, done.returncode)
    cases = {one.get("name"): failure_of(one) for one in xml.parse(report).iter("testcase")} if report.exists() else {}
    yield differs("tests", sorted(REPORTED), sorted(cases))
    for name, message in REPORTED.items():
        said = cases.get(name)
        yield name, None if (message is None) == (said is None) and (message or "") in (said or "") else "it says %r" % said
    done = run([python, "-m", "pytest", "-q", "-p", "no:cacheprovider", "--tcc", str(folder / "none"), "-k", "test_watched_alone", "test_store.py"],
               library, cwd=folder)
    yield "a watch without a program", None if done.returncode == 1 and "there is no program" in done.stdout else done.stdout[-500:]


def rounds(folder: pathlib.Path, library: str, tcc: List[str]) -> Iterator[Outcome]:
    """The pytest file of recipes/ci: a round for each file, each with its end in the report."""
    python = python_with("pytest")
    if python is None:
        return
    for name, text in ROUNDS.items():
        (folder / name).mkdir()
        for round_name, (records, _) in text.items():
            (folder / name / (round_name + ".csv")).write_text(records)
        report = folder / name / "report.xml"
        words = [python, "-m", "pytest", "-q", "-p", "no:cacheprovider", "--junit-xml", str(report), str(TOP / "recipes/ci/test_causal.py")]
        done = run(words, library, more={"TCC": os.path.abspath(tcc[-1]), "ROUNDS": str(folder / name)}, cwd=folder)
        yield differs("rounds %s: status of pytest" % name, 0 if name == "kept" else 1, done.returncode)
        cases = {one.get("name"): failure_of(one) for one in xml.parse(report).iter("testcase")} if report.exists() else {}
        for round_name, (_, message) in text.items():
            said = cases.get("test_round[%s]" % round_name, "no such test")
            yield "round %s" % round_name, None if (said is None) == (message is None) and (message or "") in (said or "") else "it says %r" % said
    yield "rounds none: has_rounds", None if "no records" in (cases.get("test_has_rounds") or "") else str(cases)


def failure_of(case) -> Optional[str]:
    """What a test's report says of its failure; none where it passed."""
    failures = [*case.iter("failure"), *case.iter("error")]
    return "".join(one.get("message", "") + (one.text or "") for one in failures) if failures else None


def same_version(tcc: List[str]) -> Iterator[Outcome]:
    """The package has the version of the program."""
    shown = subprocess.run([*tcc, "--version"], capture_output=True, text=True, timeout=SECONDS, check=False).stdout.split()
    text = (PACKAGE / "pyproject.toml").read_text()
    yield "version", None if shown and 'version = "%s"' % shown[-1] in text else "the program's is %s" % shown


def same_limits(tcc: List[str]) -> Iterator[Outcome]:
    """The package has the limits of the program, by the names of its constants."""
    known = runpy.run_path(str(PACKAGE / "tcc/common/limits.py"))
    told = asked(*tcc)
    wanted = {"MAX_NAME_BYTES": told["name_bytes"], "MAX_OPERATIONS": told["default"]["operations"], "MAX_WORKERS": told["workers"]}
    for name, which in (("MAX", "default"), ("LARGE", "large")):
        others = {key: value for key, value in told[which].items() if key != "operations"}
        wanted.update(("%s_%s" % (name, "INPUT_BYTES" if key == "bytes" else key.upper()), value) for key, value in others.items())
        table = {key: told[which][key] for key in ("sessions", "transactions", "keys")}
        yield differs("limits of the package, %s" % which, {**table, "operations in a transaction": told[which]["operations"]}, known[which.upper()])
    yield differs("limits of the package", wanted, {name: value for name, value in known.items() if isinstance(value, int)})


def outcomes(tcc: List[str]) -> Iterator[Outcome]:
    sys.path.insert(0, str(PACKAGE))
    yield from patterns.outcomes()
    for name in [name for name in sys.modules if name.partition(".")[0] == "tcc"]:
        del sys.modules[name]
    sys.path.remove(str(PACKAGE))
    yield from types()
    yield from style()
    yield from same_version(tcc)
    yield from guarded("limits of the package", same_limits(tcc))
    if subprocess.run([sys.executable, "-m", "pip", "--version"], capture_output=True, check=False).returncode:
        print("the package: passed over: no pip")
        return
    with tempfile.TemporaryDirectory() as name:
        folder, library = pathlib.Path(name), os.path.join(name, "library")
        wrong = installed(library)
        yield "pip install", wrong
        if wrong:
            return
        sys.path.insert(0, library)
        import tcc as package
        yield "what is imported", None if package.__file__.startswith(library) else package.__file__
        parts = {"ends": ends(folder), "refusals": refusals(folder), "crash": crash(folder, library), "threads": threads(folder, tcc),
                 "losses": losses.outcomes(folder, library, tcc), "working": working.outcomes(folder, library, tcc),
                 "calls": calls.outcomes(folder, tcc), "looks": looks.outcomes(folder, library, tcc),
                 "watches": watches.outcomes(folder, library, tcc), "harness": harnessed.outcomes(folder, tcc),
                 "several": several.outcomes(folder, library, tcc), "nodes": nodes.outcomes(folder, library, tcc),
                 "reported": reported.outcomes(folder, library, tcc), "converted": converted.outcomes(folder, library), "imports": imports.outcomes(),
                 "fleets": fleets.outcomes(folder, library, tcc, python_with("distributed")),
                 "judged": judged.outcomes(folder, library, tcc, python_with("pytest"), python_with("hypothesis")),
                 "versions": versioned.outcomes(folder, library, tcc), "stores": stores.outcomes(folder, tcc), "answers": answers(folder, tcc), "commands": commands(folder, library, tcc),
                 "fixtures": fixtures(folder, library, tcc), "rounds": rounds(folder, library, tcc)}
        for about, part in parts.items():
            yield from guarded(about, part)


def main() -> int:
    return status_on_tcc("Tests the package of python/.", outcomes)


if __name__ == "__main__":
    sys.exit(main())
