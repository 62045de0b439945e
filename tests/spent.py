"""Where the time of a run goes: by crate its proofs, its tests and its mutants, and by phase the processor minutes and the clock.

The processes of a run have a mark in their environment. The kernel counts their processor time, so other work on the machine
hardly changes it; the time by the clock it does.
"""
import collections
import os
import subprocess
import threading
import time
import uuid
from typing import Dict, Iterator, List, NamedTuple, Optional, Tuple

from crates import TOP, stands_on

TICKS = os.sysconf("SC_CLK_TCK")
EVERY = 0.2
MARK = "TCC_MARK"
# What the columns of the table count; edits are those mutants that `rt ci` tries.
KINDS = {"proofs": ("proofs",), "tests": ("tests",), "mutants": ("edits", "mutants")}
PHASES = (*KINDS, "programs", "scripts")


class Spent(NamedTuple):
    """Seconds of processor time, and from when to when by the clock."""
    seconds: float
    begin: float
    end: float


def joined(parts: List[Spent]) -> Spent:
    """What several took together."""
    return Spent(sum(one.seconds for one in parts), min((one.begin for one in parts), default=0.0),
                 max((one.end for one in parts), default=0.0))


def waited(running: subprocess.Popen, began: float) -> Spent:
    """Waits for a process that was begun then, and gives what it and all that it waited for took."""
    _, status, used = os.wait4(running.pid, 0)
    running.returncode = os.waitstatus_to_exitcode(status)
    return Spent(used.ru_utime + used.ru_stime, began, time.time())


def text_of(path: str) -> bytes:
    """What a file of the kernel has; nothing where its process has ended."""
    try:
        with open(path, "rb") as it:
            return it.read()
    except OSError:
        return b""


def kind_of(process: str) -> Optional[Tuple[str, str]]:
    """The crate that a process works on, and the phase; nothing where it is no work on a crate."""
    words = text_of("/proc/%s/cmdline" % process).split(b"\0")
    if b"--crate-name" not in words:
        return None
    crate = words[words.index(b"--crate-name") + 1].decode()
    if b"--test" in words:
        return crate, "tests"
    if b"--crate-checked" in words:
        return crate, "programs"
    try:
        here = os.path.basename(os.readlink("/proc/%s/cwd" % process))
    except OSError:
        here = ""
    return crate, "edits" if here.startswith("rt-edit") else "mutants" if here.startswith("tcc-wrong") else "proofs"


class Watch:
    """Looks again and again at the processes that have the mark, and keeps what each has used. What starts within is marked."""

    def __init__(self) -> None:
        self.value, self.ended = uuid.uuid4().hex, threading.Event()
        self.known: Dict[Tuple[str, bytes], bool] = {}
        self.used: Dict[Tuple[str, bytes], Tuple[Optional[Tuple[str, str]], Spent]] = {}
        self.watching = threading.Thread(target=self.watch, daemon=True)

    def __enter__(self) -> "Watch":
        self.began = time.time()
        os.environ[MARK] = self.value
        self.watching.start()
        return self

    def __exit__(self, *_: object) -> None:
        del os.environ[MARK]
        self.ended.set()
        self.watching.join()
        self.took = time.time() - self.began

    def look(self) -> None:
        """Adds what runs now; a process that was seen before, the number and the start being the same, is taken anew."""
        mark, now = ("%s=%s" % (MARK, self.value)).encode(), time.time()
        for process in filter(str.isdigit, os.listdir("/proc")):
            stat = text_of("/proc/%s/stat" % process).rpartition(b") ")[2].split()
            if not stat:
                continue
            key = process, stat[19]
            if key not in self.known:
                self.known[key] = mark in text_of("/proc/%s/environ" % process)
            if self.known[key]:
                kind, before = self.used.get(key, (None, Spent(0, now, now)))
                self.used[key] = kind or kind_of(process), Spent((int(stat[11]) + int(stat[12])) / TICKS, before.begin, now)

    def watch(self) -> None:
        while not self.ended.wait(EVERY):
            self.look()

    def by_kind(self) -> Dict[Tuple[str, str], Spent]:
        """What each crate took in each phase."""
        found = collections.defaultdict(list)
        for kind, spent in self.used.values():
            if kind:
                found[kind].append(spent)
        return {kind: joined(parts) for kind, parts in found.items()}


def phases(watch: Watch, whole: Spent, scripts: Dict[str, Spent]) -> Dict[str, Spent]:
    """What each phase took: of the gate or a build, which took so much as a whole, and of scripts."""
    of_gate = collections.defaultdict(list)
    for (_, phase), spent in watch.by_kind().items():
        # (what tries mutants beside the gate is a script)
        if phase != "mutants" and spent.begin < whole.end:
            of_gate["mutants" if phase == "edits" else phase].append(spent)
    seen = sum(spent.seconds for parts in of_gate.values() for spent in parts)
    # (what was seen too late, and what works on no crate, links, runs or starts what does)
    of_gate["programs"].append(Spent(max(whole.seconds - seen, 0.0), whole.end, whole.end))
    for name, spent in scripts.items():
        of_gate["mutants" if name.startswith("wrong/") else "scripts"].append(spent)
    return {phase: joined(parts) for phase, parts in of_gate.items()}


def mutants_of(crate: str) -> int:
    """How many mutants a crate has."""
    return sum(1 for folder in ("wrong", "must-fail") for _ in (TOP / "crates" / crate / folder).glob("*.edit"))


def chain(seconds: Dict[str, float]) -> Tuple[float, List[str]]:
    """The crates whose proofs take longest one after the other."""
    best: Dict[str, Tuple[float, List[str]]] = {}
    for crate, libraries in stands_on().items():
        before = max((best[one] for one in libraries if one in best), default=(0.0, []))
        best[crate] = before[0] + seconds[crate], before[1] + [crate]
    return max(best.values())


def waited_for(proofs: Dict[str, Spent]) -> List[str]:
    """The crates that ended this run so late, the last first: each waited for the one after it, which of those that it names ended last.

    A crate that isn't of the repository is passed over; the gate proves some of its own.
    """
    libraries, found = stands_on(), []
    name = max((one for one in proofs if one in libraries), key=lambda one: proofs[one].end, default=None)
    while name is not None:
        found.append(name)
        name = max((one for one in libraries[name] if one in proofs), key=lambda one: proofs[one].end, default=None)
    return found


def waits(proofs: Dict[str, Spent], began: float) -> Iterator[str]:
    """The lines of that chain, lowest first, each with the minutes at which its proof began and ended."""
    for name in reversed(waited_for(proofs)):
        yield "%-28s %8.1f %8.1f" % (name, (proofs[name].begin - began) / 60, (proofs[name].end - began) / 60)


def by_crate(watch: Watch) -> Iterator[str]:
    """The lines of the crates, of the longest chain of their proofs, and of the chain that others waited for in this run."""
    found = watch.by_kind()
    seconds = {(crate, kind): sum(found[crate, one].seconds for one in parts if (crate, one) in found)
               for crate in stands_on() for kind, parts in KINDS.items()}
    yield "%-28s %8s %8s %8s %8s %8s" % ("processor minutes", *KINDS, "all", "tried")
    for crate in stands_on():
        parts = [seconds[crate, kind] / 60 for kind in KINDS]
        if sum(parts):
            number = mutants_of(crate) if seconds[crate, "mutants"] else ""
            yield "%-28s %8.1f %8.1f %8.1f %8.1f %8s" % (crate, *parts, sum(parts), number)
    longest = chain({crate: seconds[crate, "proofs"] for crate in stands_on()})
    yield "longest chain of proofs: %.1f: %s" % (longest[0] / 60, " ".join(longest[1]))
    yield ""
    yield "%-28s %8s %8s" % ("each waited for the one before", "from", "to")
    yield from waits({crate: spent for (crate, kind), spent in found.items() if kind == "proofs"}, watch.began)


def line(name: str, spent: Spent, began: float) -> str:
    return "%-34s %10.1f %10.1f %8.1f" % (name, spent.seconds / 60, (spent.begin - began) / 60, (spent.end - began) / 60)


def table(watch: Watch, whole: Spent, scripts: Dict[str, Spent]) -> List[str]:
    """The lines of crates, scripts and phases."""
    lines = [*by_crate(watch), "", "%-34s %10s %10s %8s" % ("minutes", "processor", "from", "to")]
    lines += [line(name, spent, watch.began) for name, spent in scripts.items()]
    found = phases(watch, whole, scripts)
    lines += [line(phase, found[phase], watch.began) for phase in PHASES if phase in found]
    return [*lines, line("all", joined([whole, *scripts.values()]), watch.began)]
