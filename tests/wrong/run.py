#!/usr/bin/env python3
"""Tries the mutants of the crates: the check has to refuse each.

    run.py [--after-gate|--beside-gate] [--minutes N] [--lanes N] [--anew] [--kept FOLDER] [--top FOLDER] [CRATE ..]

A mutant is a body of a function with a planted mistake, in a file crates/CRATE/wrong/NAME.edit: a line `why:`, which names the clause that
refuses it, a line `file:`, and pairs of lines `old:` and `new:`. Each old text is once in its file.

One check tries as many mutants as there are functions with one. A round of a crate has one mutant of a function at most, all of
them in one copy, and checks these functions alone with what they call (`rattle check --only`). The obligations of a function are
stated over the contracts of what it calls, never over bodies, so no other mutant changes them. A mutant counts as refused only
where its own function fails by itself: an obligation isn't proved, or a file of its own proof doesn't fit. That the function
calls one that isn't proved doesn't count. Where a round doesn't compile, the mutants in whose bodies the errors are leave it, and
the others are tried again. A round in which a function without a mutant fails by itself counts for nothing. What a round says
nothing of is tried alone, with the whole crate. So is each that isn't in the body of one function, and each that neither its round
refuses nor one of those that are left: there no mutant of what a function calls is refused any more. One that is refused alone, and
only since a proof names what it took away, is refused by its proof alone. That shows nothing of the contract: such mutants are
counted apart and named at the end, and each wants another form, or a row or a test.

Each crate has to be proved. With --after-gate `rt ci` has just passed on these sources: its libraries serve as they are. With
--beside-gate it runs, and what it prints comes on standard input: a crate's turn comes once it is proved, one crate at a time, on
what the gate leaves of processors and memory, and those that are left come where the input ends. Else `rt lib` proves what
changed. What was refused is kept on this machine, as `rt ci` keeps what it passed: by sums of all that the
answer rests on, so that any checkout here finds it; --anew tries all again. With --minutes no check begins later than that; what is
left is named, and counts neither as passed nor as failed. The last line is `N passed, M failed`.
"""
import argparse
import concurrent.futures
import functools
import hashlib
import importlib.machinery
import json
import os
import pathlib
import re
import resource
import shutil
import signal
import subprocess
import sys
import tempfile
import threading
import time
import types
from typing import Dict, Iterable, Iterator, List, NamedTuple, Optional, Set, Tuple

TOP = pathlib.Path(__file__).resolve().parent.parent.parent
sys.path.insert(0, str(TOP / "tests"))
from counted import Outcome, status_of  # noqa: E402
from crates import stands_on  # noqa: E402
from judging import is_by_proof_alone, judged, judged_alone  # noqa: E402
from machine import free_memory, processors  # noqa: E402
from mutants import PARTS, Mutant, Unusable, places_of, rounds_of  # noqa: E402

# What a check takes at most, in bytes.
MEMORY = 2_200_000_000
# So much is left to the gate while it runs.
GATES_MEMORY = 3_000_000_000
PROVED = re.compile(r"rt: (\w+) (?:proved$|is kept: )")
# So many sums of a crate's refused mutants are kept at most, the newest.
SUMS = 2_000
# What a sum that is kept ends with where the mutant was refused by its proof alone.
BY_PROOF = " by proof"
UNKNOWN = "has no function `"
SAYING = threading.Lock()


def say(text: str) -> None:
    with SAYING:
        print(text, flush=True)


class Killed(Exception):
    """A check was killed, most likely since memory was short."""


class Unproved(Exception):
    """Why the crate or a library below it isn't there."""


@functools.lru_cache(maxsize=None)
def kit() -> pathlib.Path:
    """The folder of the toolchain."""
    return pathlib.Path(subprocess.run(["rt", "doc"], capture_output=True, text=True, check=True).stdout.strip()).parent


@functools.lru_cache(maxsize=None)
def words_of_kit(top: pathlib.Path) -> Dict[str, List[str]]:
    """By crate the words with which the toolchain's own command has it checked; none where that can't be asked."""
    try:
        loader = importlib.machinery.SourceFileLoader("rtlib", str(kit() / "bin/rtlib.py"))
        rtlib = types.ModuleType(loader.name)
        rtlib.__file__ = loader.path
        sys.modules[loader.name] = rtlib
        loader.exec_module(rtlib)
        return {one.name: one.words(["--jobs", "1"], keeps=False) for one in rtlib.crates_below(str(top)) if not one.is_program}
    except (ImportError, OSError, AttributeError, TypeError, SystemExit):
        return {}


class Repository:
    """The crates of a repository, and the libraries that represent them in a check."""

    def __init__(self, top: pathlib.Path):
        self.top, self.libraries = top, stands_on(top)

    def folder(self, crate: str) -> pathlib.Path:
        return self.top / "crates" / crate

    def own(self, crate: str) -> List[str]:
        """The libraries of the repository that a crate names."""
        return [one for one in self.libraries[crate] if one in self.libraries]

    @functools.lru_cache(maxsize=None)
    def below(self, crate: str) -> Tuple[str, ...]:
        """All libraries of the repository that a crate rests on."""
        return tuple(dict.fromkeys(it for one in self.own(crate) for it in (*self.below(one), one)))

    def library(self, crate: str) -> pathlib.Path:
        return self.folder(crate) / "out" / "rlib" / (crate + ".rlib")

    def build(self, crate: str, after_gate: bool) -> None:
        """Has the crate proved, and its library and those below be there.

        `rt ci` leaves libraries without a stamp, which fit one another alone.
        """
        all_of = [*self.below(crate), crate]
        from_gate = [self.library(one).is_dir() and not self.library(one).with_name("stamp").exists() for one in all_of]
        if not (after_gate and all(from_gate)):
            done = subprocess.run(["rt", "lib"], cwd=self.folder(crate), stdin=subprocess.DEVNULL, stdout=subprocess.PIPE,
                                  stderr=subprocess.STDOUT, text=True, errors="replace")
            if done.returncode:
                raise Unproved("rt lib ended with status %d: %s" % (done.returncode, done.stdout[-300:].strip()))

    def words(self, crate: str) -> List[str]:
        """The command that checks a crate, in a folder that has a copy of it: as the toolchain has it, where that says so."""
        words = [str(kit() / "bin/rattle"), "check"]
        if crate in words_of_kit(self.top):
            return [*words, *words_of_kit(self.top)[crate]]
        words += ["--crate-name", crate, "src/lib.rt"]
        for one in ("std", *(it for it in self.libraries[crate] if it not in self.libraries)):
            words += ["--extern", "%s=%s" % (one, kit() / "rlibs" / (one + ".rlib"))]
        words += ["-L", "dependency=%s" % (kit() / "rlibs")]
        for one in self.own(crate):
            words += ["--extern", "%s=%s" % (one, self.library(one))]
        for one in self.below(crate):
            words += ["-L", "dependency=%s" % self.library(one).parent]
        words += ["--antt-project", str(kit() / "rattle/logic/antt-project.json"), "--logic-built", str(kit() / "logic_built")]
        return words + ["--links", crate + "=", "--jobs", "1"]

    def sum_of(self, crate: str) -> str:
        """A sum of all that a check of the crate rests on, but for its mutants."""
        found = hashlib.sha256(self.sum_of_kit().encode())
        for one in (*self.below(crate), crate):
            found.update(repr((one, self.libraries[one])).encode())
            for path in sorted(it for part in PARTS for it in (self.folder(one) / part).rglob("*") if it.is_file()):
                found.update(repr((str(path.relative_to(self.top)), path.read_bytes())).encode())
        return found.hexdigest()

    @functools.lru_cache(maxsize=None)
    def sum_of_kit(self) -> str:
        """A sum of the toolchain and of these scripts."""
        scripts = [pathlib.Path(__file__).with_name(one).read_bytes() for one in ("judging.py", "mutants.py", "run.py")]
        version = subprocess.run(["rt", "version"], capture_output=True, check=True).stdout
        return hashlib.sha256(repr((version, (kit() / "WHAT").read_bytes(), scripts)).encode()).hexdigest()

    def cost(self, crate: str) -> int:
        """How much a check of the crate has to do, roughly, by lines."""
        lines = {one: sum(path.read_bytes().count(b"\n") for path in (self.folder(one) / "src").rglob("*.rt"))
                 for one in (*self.below(crate), crate)}
        return lines[crate] + sum(lines.values()) // 20


class Check(NamedTuple):
    """How a check ended, and what it said."""
    status: int
    lines: List[str]


class Trial:
    """The mutants of a crate, and what is found of them: by name why one isn't refused, or None."""

    def __init__(self, repository: Repository, crate: str, end: Optional[float]):
        self.repository, self.crate, self.end = repository, crate, end
        self.mutants: List[Mutant] = []
        self.found: Dict[str, Optional[str]] = {}
        self.by_proof: Set[str] = set()
        self.kept = self.checks = 0
        self.seconds = 0.0
        for path in sorted((repository.folder(crate) / "wrong").iterdir()):
            try:
                self.mutants.append(Mutant(path))
            except (Unusable, OSError, UnicodeDecodeError) as error:
                self.found["%s/%s" % (crate, path.name)] = "BAD: %s" % error

    def count(self) -> int:
        return len(self.found) + len(self.untried())

    def untried(self) -> List[Mutant]:
        return [one for one in self.mutants if one.name not in self.found]

    def is_late(self) -> bool:
        return self.end is not None and time.time() > self.end

    def check(self, mutants: List[Mutant], only: List[str], work: pathlib.Path) -> Check:
        """Checks a copy of the crate with these mutants, over the work that is kept, and keeps there what it proved."""
        with tempfile.TemporaryDirectory(prefix="tcc-wrong-") as name:
            copy = pathlib.Path(name)
            for part in PARTS:
                if (self.repository.folder(self.crate) / part).is_dir():
                    shutil.copytree(self.repository.folder(self.crate) / part, copy / part)
            for one in mutants:
                one.write(copy)
            asked = [word for function in only for word in ("--only", function)]
            words = [*self.repository.words(self.crate), "--incremental", str(work), *asked]
            with tempfile.TemporaryFile("w+", errors="replace") as log:
                running = subprocess.Popen(words, cwd=copy, stdin=subprocess.DEVNULL, stdout=log, stderr=subprocess.STDOUT)
                _, status, used = os.wait4(running.pid, 0)
                running.returncode = os.waitstatus_to_exitcode(status)
                log.seek(0)
                lines = log.read().rstrip("\n").split("\n")
        self.checks, self.seconds = self.checks + 1, self.seconds + used.ru_utime + used.ru_stime
        if running.returncode == -signal.SIGKILL:
            raise Killed()
        return Check(running.returncode, lines)

    def run(self, after_gate: bool) -> None:
        """Tries all mutants of which nothing is known yet."""
        left = self.untried()
        if not left or self.is_late():
            return
        if not (self.repository.folder(self.crate) / "src/lib.rt").is_file():
            self.found.update((one.name, "BAD: mutants are tried in libraries alone") for one in left)
            return
        try:
            self.repository.build(self.crate, after_gate)
        except Unproved as error:
            self.found.update((one.name, "NOT TRIED: %s" % error) for one in left)
            return
        with tempfile.TemporaryDirectory(prefix="tcc-kept-") as name:
            work = pathlib.Path(name, "work")
            work.mkdir()
            rounds, alone = rounds_of(left)
            # (a function waits for the proofs of those that it calls, which a mutant of the same round may lack)
            for _ in range(2):
                waiting: List[Mutant] = []
                for one in rounds:
                    unread, unrefused = ([], []) if self.is_late() else self.round(one, work)
                    alone, waiting = alone + unread, waiting + unrefused
                rounds, _of_none = rounds_of(waiting)
            for one in alone + waiting:
                if not self.is_late():
                    self.alone(one, work)

    def round(self, mutants: List[Mutant], work: pathlib.Path) -> Tuple[List[Mutant], List[Mutant]]:
        """Tries one mutant for each of several functions. It gives those of which the round says nothing, and those that it doesn't refuse."""
        tried, done = mutants, Check(0, [""])
        while tried:
            done = self.check(tried, sorted(one.function for one in tried), work)
            unread = self.unread(tried, done)
            if not unread:
                break
            tried = [one for one in tried if one not in unread]
        said = judged(done.lines, {one.function for one in tried})
        if said.fault:
            say("%s: a round counts for nothing, its mutants are tried alone: %s" % (self.crate, said.fault[:300]))
            return mutants, []
        for one in tried:
            if one.function in said.refused:
                self.found[one.name] = None
                say("%s: refused: %s" % (one.name, said.refused[one.function][:160]))
        return [one for one in mutants if one not in tried], [one for one in tried if one.name not in self.found]

    def unread(self, tried: List[Mutant], done: Check) -> List[Mutant]:
        """The mutants for which a check of some didn't begin: their functions have nothing to prove, or don't compile."""
        if done.status == 2:
            return [one for one in tried if UNKNOWN + one.function + "`" in "\n".join(done.lines)]
        places = places_of(done.lines, self.repository.folder(self.crate))
        return [one for one in tried if one.function in places]

    def alone(self, mutant: Mutant, work: pathlib.Path) -> None:
        """Tries one mutant with the whole crate, over links to the work that is kept."""
        own = work.with_name("own")
        shutil.copytree(work, own, copy_function=os.link)
        try:
            done = self.check([mutant], [], own)
        finally:
            shutil.rmtree(own)
        wrong = judged_alone(done.status, done.lines, {pair.file for pair in mutant.pairs})
        self.found[mutant.name] = wrong
        if wrong:
            return
        if is_by_proof_alone(done.lines):
            self.by_proof.add(mutant.name)
            say("%s: refused by its proof alone" % mutant.name)
        else:
            say("%s: refused, alone" % mutant.name)


class Memory:
    """What was refused before, by crate and sums, in a folder."""

    def __init__(self, folder: pathlib.Path, anew: bool):
        self.folder, self.anew = folder, anew

    def sums(self, trial: Trial) -> Dict[str, str]:
        """By name of a mutant the sum of all that its answer rests on."""
        sum_of_crate = trial.repository.sum_of(trial.crate)
        return {one.name: hashlib.sha256((sum_of_crate + repr(one.pairs)).encode()).hexdigest() for one in trial.mutants}

    def read(self, trial: Trial) -> None:
        """Takes what is kept of the same sums."""
        kept = set([] if self.anew else self.refused(trial))
        for name, key in self.sums(trial).items():
            if {key, key + BY_PROOF} & kept:
                trial.found[name] = None
                trial.kept += 1
            if key + BY_PROOF in kept:
                trial.by_proof.add(name)

    def refused(self, trial: Trial) -> List[str]:
        """The sums that are kept of a crate, the newest first; none where the file can't be read."""
        try:
            kept = json.loads((self.folder / (trial.crate + ".json")).read_text())
        except (OSError, ValueError):
            return []
        return [one for one in kept if isinstance(one, str)] if isinstance(kept, list) else []

    def write(self, trial: Trial, before: Dict[str, str]) -> None:
        """Keeps the sums of what was refused, if they are what they were before."""
        if self.sums(trial) != before:
            return
        new = [key + (BY_PROOF if name in trial.by_proof else "") for name, key in before.items() if trial.found.get(name, "") is None]
        try:
            self.folder.mkdir(parents=True, exist_ok=True)
            half = self.folder / ("%s.%d" % (trial.crate, os.getpid()))
            half.write_text(json.dumps(list(dict.fromkeys([*new, *self.refused(trial)]))[:SUMS]))
            half.replace(self.folder / (trial.crate + ".json"))
        except OSError as error:
            say("%s: what was refused can't be kept: %s" % (trial.crate, error))


class Gate:
    """The crates that a gate has proved so far, by what it prints."""

    def __init__(self, lines: Iterable[str]):
        self.proved: Set[str] = set()
        self.is_over, self.changed = False, threading.Condition()
        threading.Thread(target=self.read, args=(lines,), daemon=True).start()

    def read(self, lines: Iterable[str]) -> None:
        for line in lines:
            found = PROVED.match(line)
            if found:
                self.note(found[1])
        self.note(None)

    def note(self, crate: Optional[str]) -> None:
        """Takes note of one more crate, or of the end."""
        with self.changed:
            if crate is None:
                self.is_over = True
            else:
                self.proved.add(crate)
            self.changed.notify()

    def first(self, trials: List[Trial]) -> Optional[Trial]:
        """The first of some trials that has its libraries, once there are any, and memory for it; none once the gate is over."""
        with self.changed:
            while not self.is_over:
                ready = [one for one in trials if self.proved.issuperset((*one.repository.below(one.crate), one.crate))]
                if ready and free_memory() > MEMORY + GATES_MEMORY:
                    return ready[0]
                self.changed.wait(timeout=10 if ready else None)
        return None


def folder_of(top: pathlib.Path) -> pathlib.Path:
    """Where sums of what was refused are kept: for this repository the user's cache, and for another one a folder of its own."""
    if top != TOP:
        return top / "out/wrong"
    try:
        cache = os.environ.get("XDG_CACHE_HOME") or pathlib.Path.home() / ".cache"
    except RuntimeError:
        return top / "out/wrong"
    return pathlib.Path(cache, "tcc/wrong")


def tried(trial: Trial, memory: Memory, after_gate: bool) -> Trial:
    """Tries the mutants of a crate that aren't known to be refused."""
    before = memory.sums(trial)
    trial.run(after_gate)
    memory.write(trial, before)
    say("== %s: %d mutants, %d of them refused in an earlier run; %d checks, %.0f s of processor time"
        % (trial.crate, trial.count(), trial.kept, trial.checks, trial.seconds))
    if trial.untried():
        say("%s: NOT TRIED for want of time: %s" % (trial.crate, " ".join(one.path.stem for one in trial.untried())))
    return trial


def ended_beside(trials: List[Trial], memory: Memory, gate: Gate) -> Iterator[Trial]:
    """The trials that end while a gate runs, one at a time."""
    left = list(trials)
    while True:
        one = gate.first(left)
        if one is None:
            return
        left.remove(one)
        try:
            yield tried(one, memory, True)
        except Killed:
            say("%s: a check was killed, most likely for memory: once more, after the gate" % one.crate)


def ended(trials: List[Trial], memory: Memory, after_gate: bool, lanes: int) -> Iterator[Trial]:
    """The trials as they end, the dearest begun first. One whose check was killed is begun again after all others, by itself."""
    again = []
    with concurrent.futures.ThreadPoolExecutor(lanes) as pool:
        running = {pool.submit(tried, one, memory, after_gate): one for one in trials}
        for one in concurrent.futures.as_completed(running):
            try:
                yield one.result()
            except Killed:
                say("%s: a check was killed, most likely for memory: once more, after the others" % running[one].crate)
                again.append(running[one])
    for one in again:
        try:
            yield tried(one, memory, after_gate)
        except Killed:
            one.found.update((it.name, "NOT TRIED: its check was killed") for it in one.mutants if it.name not in one.found)
            yield one


def outcomes(asked: argparse.Namespace) -> Iterator[Outcome]:
    """What each mutant came to."""
    began, repository = time.time(), Repository(asked.top.resolve())
    memory = Memory(asked.kept or folder_of(repository.top), asked.anew)
    end = None if asked.minutes is None else began + 60 * asked.minutes
    trials = [Trial(repository, one, end) for one in repository.libraries
              if (repository.folder(one) / "wrong").is_dir() and (not asked.crates or one in asked.crates)]
    for one in sorted(set(asked.crates) - {it.crate for it in trials}):
        yield one, "it has no mutants"
    for one in trials:
        memory.read(one)
    trials.sort(key=lambda one: -repository.cost(one.crate))
    done = []
    for one in ended_beside(trials, memory, Gate(sys.stdin)) if asked.beside_gate else ():
        done.append(one)
        yield from sorted(one.found.items())
    lanes = asked.lanes or max(min(processors(), int(0.85 * free_memory()) // MEMORY), 1)
    for one in ended([it for it in trials if it not in done], memory, asked.after_gate or asked.beside_gate, lanes):
        yield from sorted(one.found.items())
    by_proof = sorted(name for one in trials for name in one.by_proof)
    print("%d refused by their proof alone: %s" % (len(by_proof), ", ".join(by_proof) or "none"))
    used = resource.getrusage(resource.RUSAGE_CHILDREN)
    print("%d mutants of %d crates, %d of them refused in an earlier run, %d not tried for want of time"
          % (sum(one.count() for one in trials), len(trials), sum(one.kept for one in trials), sum(len(one.untried()) for one in trials)))
    print("%d checks, %.1f minutes of processor time, %.1f by the clock"
          % (sum(one.checks for one in trials), (used.ru_utime + used.ru_stime) / 60, (time.time() - began) / 60))


def main() -> int:
    reader = argparse.ArgumentParser(description="Tries the mutants of the crates: the check has to refuse each.")
    reader.add_argument("--after-gate", action="store_true", help="`rt ci` has just passed on these sources")
    reader.add_argument("--beside-gate", action="store_true", help="`rt ci` runs on these sources, and prints to standard input")
    reader.add_argument("--minutes", type=float, help="no check begins later than that")
    reader.add_argument("--lanes", type=int, help="so many crates at a time, by default by processors and memory")
    reader.add_argument("--anew", action="store_true", help="also those that an earlier run refused")
    reader.add_argument("--kept", type=pathlib.Path, metavar="FOLDER", help="where sums of what was refused are kept, by default the user's cache")
    reader.add_argument("--top", type=pathlib.Path, default=TOP, metavar="FOLDER", help="another repository than this one")
    reader.add_argument("crates", nargs="*", metavar="CRATE", help="these crates alone")
    asked = reader.parse_args()
    if asked.after_gate or asked.beside_gate:
        # (what runs beside then has limits of time)
        os.nice(10)
    return status_of(outcomes(asked))


if __name__ == "__main__":
    sys.exit(main())
