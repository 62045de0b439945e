"""`tcc-fleet`: histories judged by workers of Dask.distributed, with a scheduler and two workers on the loopback, of which one is killed."""
import contextlib
import gzip
import json
import os
import pathlib
import signal
import subprocess
import sys
import time
import xml.etree.ElementTree as xml
from typing import Any, Dict, Iterator, List, Optional

from counted import Outcome
from helpers import SECONDS, differs, run

STALE = "a,begin\na,w,x,5\na,commit\na,begin\na,r,x,0\na,commit\n"
KEPT = "a,begin\na,w,x,5\na,commit\nb,begin\nb,r,x,5\nb,commit\n"
THIN = "a,begin\na,r,x,7\na,commit\n"
ABORTED = "a,begin\na,w,x,7\na,abort\nb,begin\nb,r,x,7\nb,commit\n"
WRONG = "a,begin\na,q,x,7\n"
# Each kind of history, the status of its answer, and the answer.
KINDS = (("stale", STALE, 1, "anomaly"), ("kept", KEPT, 0, "consistent"), ("thin", THIN, 2, "unresolved"), ("aborted", ABORTED, 2, "unresolved"),
         ("wrong", WRONG, 3, "none"), ("empty", "", 3, "none"))
ROUNDS = 4  # of each kind
# A program that takes its time, so that a worker is killed while it has work.
SLOW = "#!/bin/sh\n[ \"$1\" = serve ] && exit 64\nsleep 0.3\nexec %s \"$@\"\n"


def histories(folder: pathlib.Path) -> Dict[str, tuple]:
    """Histories of each kind in folders, some packed, with files beside them that aren't any; what is wanted of each."""
    wanted: Dict[str, tuple] = {}
    for number in range(ROUNDS):
        mine = folder / ("round-%d" % number)
        mine.mkdir(parents=True)
        (mine / "notes.csv").write_text("transaction,node,time,note\na/1,n1,0.5,\n")
        (mine / "readme.txt").write_text("a,begin\n")
        for name, text, status, answer in KINDS:
            path = mine / (name + ".csv.gz") if number == 1 else mine / (name + ".csv")
            path.write_bytes(gzip.compress(text.encode()) if number == 1 else text.encode())
            wanted[str(path)] = (answer, status)
    return wanted


def results_of(path: pathlib.Path) -> List[Dict[str, Any]]:
    return [json.loads(line) for line in path.read_text().splitlines()] if path.exists() else []


@contextlib.contextmanager
def cluster(folder: pathlib.Path, library: str, python: str) -> Iterator[tuple]:
    """The address of a scheduler, and two workers, each a process without a nanny that would start it again."""
    known = folder / "scheduler.json"
    variables = {**os.environ, "PYTHONPATH": library, "PYTHONDONTWRITEBYTECODE": "1"}
    quiet = {"env": variables, "cwd": folder, "stdout": subprocess.DEVNULL, "stderr": subprocess.DEVNULL}
    with contextlib.ExitStack() as held:
        def start(*words: str) -> "subprocess.Popen[bytes]":
            running = subprocess.Popen([python, "-m", *words], **quiet)
            held.callback(ended, running)
            return running

        start("distributed.cli.dask_scheduler", "--host", "127.0.0.1", "--port", "0", "--no-dashboard", "--no-show", "--scheduler-file", str(known))
        until = time.monotonic() + SECONDS
        while not known.exists() and time.monotonic() < until:
            time.sleep(0.1)
        workers = [start("distributed.cli.dask_worker", "--scheduler-file", str(known), "--no-nanny", "--nthreads", "1", "--no-dashboard")
                   for _ in range(2)]
        yield json.loads(known.read_text())["address"], workers


def ended(running: "subprocess.Popen[bytes]") -> None:
    running.kill()
    running.wait()


def told(path: pathlib.Path) -> Dict[str, tuple]:
    """What the results say of each file; a second line of a file is named."""
    found: Dict[str, tuple] = {}
    for one in results_of(path):
        name = one["file"] if one["file"] not in found else one["file"] + ", twice"
        found[name] = (one["answer"], one["status"])
    return found


def killed(folder: pathlib.Path, library: str, tcc: str, python: str) -> Iterator[Outcome]:
    """One of two workers is killed in the middle: each history is in the results once, with its answer."""
    wanted = histories(folder / "rounds")
    results, slow = folder / "results.jsonl", folder / "slow"
    slow.write_text(SLOW % tcc)
    slow.chmod(0o755)
    command = [python, "-m", "tcc.fleet.command", str(folder / "rounds"), "--resume", str(results), "--junit", str(folder / "junit.xml"),
               "--keep", str(folder / "failures")]
    with cluster(folder, library, python) as (address, workers):
        words = [*command, "--scheduler", address, "--tcc", str(slow)]
        fleet = subprocess.Popen(words, env={**os.environ, "PYTHONPATH": library}, stdout=subprocess.PIPE, stderr=subprocess.PIPE, text=True)
        until = time.monotonic() + SECONDS
        while len(results_of(results)) < 5 and fleet.poll() is None and time.monotonic() < until:
            time.sleep(0.05)
        before = len(results_of(results))
        os.kill(workers[0].pid, signal.SIGKILL)
        said = fleet.communicate(timeout=SECONDS)
    yield "a worker was killed in the middle", None if 5 <= before < len(wanted) else "after %d results: %s" % (before, said[1][-600:])
    yield differs("results", wanted, told(results))
    yield differs("status", 1, fleet.returncode)
    summary = "tcc-fleet: %d consistent, %d broken, %d unresolved, %d not judged; %d files aren't histories" % (
        ROUNDS, 2 * ROUNDS, ROUNDS, 2 * ROUNDS, ROUNDS)
    yield "summary", None if summary in said[1] else said[1][-600:]
    yield from kept(folder, tcc)
    yield from resumed(folder, library, command, wanted)


def kept(folder: pathlib.Path, tcc: str) -> Iterator[Outcome]:
    """What is kept of failures: certificates that `tcc check` accepts, slices, answers; and the report."""
    mine = sorted((folder / "failures").rglob("answer.json"))
    yield differs("failures that are kept", sorted("%s.csv%s" % (name, ".gz" if number == 1 else "") for number in range(ROUNDS)
                                                   for name in ("stale", "aborted")), sorted(one.parent.name for one in mine))
    for one in mine:
        if one.parent.name.startswith("stale"):
            done = subprocess.run([tcc, "check", str(one.parent / "slice.csv"), str(one.parent / "certificate.txt")], capture_output=True,
                                  text=True, timeout=SECONDS, check=False)
            yield differs("its certificate", "accepted: cycle, 3 steps", done.stdout.strip())
    suite = xml.parse(folder / "junit.xml").getroot()
    yield differs("the report", (str(6 * ROUNDS), str(2 * ROUNDS), str(3 * ROUNDS)), tuple(suite.get(name) for name in ("tests", "failures", "errors")))
    messages = {one.get("message") for one in suite.iter("failure")}
    yield differs("what its failures say", {"anomaly: 3 steps, stale-initial-read", "unresolved: 1 faults, first Aborted b/1 op 1"}, messages)


def resumed(folder: pathlib.Path, library: str, command: List[str], wanted: Dict[str, tuple]) -> Iterator[Outcome]:
    """What the results have isn't judged again: there the program isn't asked. What they lack is, and what was cut."""
    results = folder / "results.jsonl"
    lines = results.read_text().splitlines(True)
    again = run([*command, "--workers", "1", "--tcc", "/nowhere"], library)
    yield differs("all were judged", (1, lines), (again.returncode, results.read_text().splitlines(True)))
    first, second = (json.loads(line)["file"] for line in lines[:2])
    results.write_text("".join(lines[2:]) + lines[0][:20])
    again = run([*command, "--workers", "1", "--tcc", "/nowhere"], library)
    yield differs("two without a program", {**wanted, first: ("none", None), second: ("none", None)}, told(results))
    other = run([*command, "--level", "atomic"], library)
    yield "results of another level", None if other.returncode == 3 and "at another level than atomic" in other.stderr else other.stderr[-300:]


def on_this_machine(folder: pathlib.Path, library: str, tcc: str, python: str) -> Iterator[Outcome]:
    """Without a scheduler it starts one; what had no program is judged again, and what has another size."""
    results = folder / "local.jsonl"
    path = folder / "one.csv"
    path.write_text(KEPT)
    words = [python, "-m", "tcc.fleet.command", str(path), "--workers", "1", "--resume", str(results)]
    done = run([*words, "--tcc", "/nowhere"], library)
    yield differs("without a program", (3, {str(path): ("none", None)}), (done.returncode, told(results)))
    done = run([*words, "--tcc", tcc], library)
    yield differs("with one", (0, {str(path): ("consistent", 0)}), (done.returncode, told(results)))
    path.write_text(STALE + KEPT.replace("a,", "c,").replace(",x,", ",y,"))
    done = run([*words, "--tcc", tcc], library)
    yield differs("another history of that name", (1, {str(path): ("anomaly", 1)}), (done.returncode, told(results)))
    results.write_text("{}\n")
    done = run([*words, "--tcc", tcc], library)
    yield "a file of something else", None if done.returncode == 3 and "line 1 is no result" in done.stderr else done.stderr[-300:]


def without_dask(folder: pathlib.Path, library: str) -> Iterator[Outcome]:
    """Where the library isn't there, that is said."""
    path = folder / "without.csv"
    path.write_text(KEPT)
    hidden = folder / "hidden"
    hidden.mkdir()
    (hidden / "distributed.py").write_text("raise ImportError\n")
    done = run([sys.executable, "-m", "tcc.fleet.command", str(path)], library + os.pathsep + str(hidden))
    yield "no Dask.distributed", None if done.returncode == 127 and "the package python3-distributed has it" in done.stderr else done.stderr[-300:]


def extras(library: str) -> Iterator[Outcome]:
    """The package says what it needs for what."""
    text = next(pathlib.Path(library).glob("*.dist-info/METADATA")).read_text()
    for name, needs in (("fleet", "distributed"), ("strategies", "hypothesis")):
        lines = "Provides-Extra: %s\nRequires-Dist: %s; extra == \"%s\"\n" % (name, needs, name)
        yield "the extra " + name, None if lines in text else text[:600]


def outcomes(folder: pathlib.Path, library: str, tcc: List[str], python: Optional[str]) -> Iterator[Outcome]:
    mine = folder / "fleet"
    mine.mkdir()
    yield from extras(library)
    yield from without_dask(mine, library)
    if python is None:
        print("fleets: passed over: no Dask.distributed")
        return
    program = os.path.abspath(tcc[-1])
    yield from killed(mine, library, program, python)
    yield from on_this_machine(mine, library, program, python)
