#!/usr/bin/env python3
"""Proves a program and all crates that it rests on, several side by side, then builds it and runs it once.

    build.py [--jobs N] [--memory GB] [--top FOLDER] [CRATE [WORD ..]]

The crate is tcc if none is given. The words are those of the program's run; without any it runs on its stored records, and has to
print what is stored. A crate begins once all that it names are proved: the one with the longest chain of crates above it first. Its
proof gets several jobs where its chain is what the others will wait for, or where nothing else can take the processors. Any other
gets one. A job begins only where the machine has memory for it. What was proved before and hasn't changed is not proved again. One
line a crate says how long it took by the clock, and when it ended. The status is 0 only where all is proved.

It is list scheduling by the critical path (Graham; Hu). With n crates each choice takes n steps.

Two commands of the toolchain in one checkout wait for each other wherever they need the same crate. So each proof has a copy of the
crates of its own, in the user's cache, and the toolchain gives it the libraries that were built of the same sources in another copy.
The wanted crate is built in its own place.
"""
import argparse
import concurrent.futures
import hashlib
import os
import pathlib
import queue
import shutil
import subprocess
import sys
import time
from typing import Dict, NamedTuple, Optional, Sequence, Set

TOP = pathlib.Path(__file__).resolve().parent.parent
sys.path.insert(0, str(TOP / "tests"))
from crates import stands_on  # noqa: E402
from machine import free_memory, processors  # noqa: E402

# What a job takes at most, in bytes.
MEMORY = 2_700_000_000
# A proof by more jobs than that is hardly faster.
MOST_JOBS = 4
# The folders of a crate's sources.
PARTS = ("src", "specs", "proofs")
# What a crate costs beside its own lines, in lines: its libraries are read first.
READING = 600


class Crate(NamedTuple):
    """A crate: those of the repository that it names, how much is to be proved, and how much on the longest chain from it up, in lines."""
    below: Sequence[str]
    work: int
    chain: int


class Start(NamedTuple):
    """A crate that begins next, and by how many jobs."""
    crate: str
    jobs: int


def work_of(folder: pathlib.Path) -> int:
    """How much a crate has to prove, in lines."""
    files = [path for part in PARTS for end in ("rt", "antt") for path in (folder / part).rglob("*." + end)]
    return READING + sum(path.read_bytes().count(b"\n") for path in files)


def with_chains(below: Dict[str, Sequence[str]], work: Dict[str, int]) -> Dict[str, Crate]:
    """The crates, lowest first, each with the longest chain of work that begins with it."""
    chains: Dict[str, int] = {}
    for name in reversed(list(below)):
        chains[name] = work[name] + max((chains[one] for one in chains if name in below[one]), default=0)
    return {name: Crate(below[name], work[name], chains[name]) for name in below}


def crates_of(top: pathlib.Path, wanted: str) -> Dict[str, Crate]:
    """The wanted crate and all that it rests on, lowest first."""
    libraries = stands_on(top)
    if wanted not in libraries:
        raise SystemExit("crates.txt lists no crate %s" % wanted)
    needed, left = set(), [wanted]
    while left:
        name = left.pop()
        if name not in needed:
            needed.add(name)
            left += [one for one in libraries[name] if one in libraries]
    below = {name: [one for one in libraries[name] if one in libraries] for name in libraries if name in needed}
    return with_chains(below, {name: work_of(top / "crates" / name) for name in below})


def next_start(crates: Dict[str, Crate], done: Set[str], running: Dict[str, int], free: int) -> Optional[Start]:
    """What begins next where so many jobs may begin, if anything does: of what may, the crate with the longest chain."""
    ready = [name for name in crates if name not in done and name not in running and done.issuperset(crates[name].below)]
    if not ready or free < 1:
        return None
    name = max(ready, key=lambda one: crates[one].chain)
    left = [one for key, one in crates.items() if key not in done]
    # (no chain is longer, and all others could be done before it is)
    is_longest = crates[name].chain == max(one.chain for one in left)
    is_critical = is_longest and crates[name].chain * (free + sum(running.values())) > sum(one.work for one in left)
    spare = free - (len(ready) - 1)
    return Start(name, max(1, min(free, MOST_JOBS, max(2, spare) if is_critical else spare)))


class Program:
    """How the wanted crate, a program, is run once it is proved."""

    def __init__(self, folder: pathlib.Path, words: Sequence[str]):
        self.folder = folder
        self.words = list(words) or self.stored("args").splitlines()
        self.wanted = None if words else self.stored("stdout")

    def stored(self, name: str) -> str:
        """What a file beside the sources holds; nothing where it isn't there."""
        path = self.folder / name
        return path.read_text() if path.is_file() else ""

    def build(self, jobs: int) -> Optional[str]:
        """Proves it, builds it and runs it; why that failed, if it did."""
        command = ["rt", "run", "--jobs", str(jobs), "--", *self.words]
        done = subprocess.run(command, cwd=self.folder, input=self.stored("stdin"), stdout=subprocess.PIPE, stderr=subprocess.PIPE,
                              text=True, errors="replace")
        if done.returncode:
            return done.stderr + done.stdout
        if self.wanted is not None and done.stdout != self.wanted:
            return "it printed this, which is not what is stored:\n" + done.stdout
        return None


class Lanes:
    """Copies of the crates, each for one proof at a time."""

    def __init__(self, top: pathlib.Path, count: int):
        self.free: "queue.SimpleQueue[pathlib.Path]" = queue.SimpleQueue()
        for number in range(count):
            lane = folder_of(top) / str(number)
            (lane / "crates").mkdir(parents=True, exist_ok=True)
            shutil.copyfile(top / "crates.txt", lane / "crates.txt")
            for name in stands_on(top):
                copy_sources(top / "crates" / name, lane / "crates" / name)
            self.free.put(lane)

    def prove(self, crate: str, jobs: int) -> Optional[str]:
        """Proves a library in a copy; why that failed, if it did."""
        lane = self.free.get()
        try:
            return build_library(lane / "crates" / crate, jobs)
        finally:
            self.free.put(lane)


def folder_of(top: pathlib.Path) -> pathlib.Path:
    """Where the copies of a repository are."""
    cache = os.environ.get("XDG_CACHE_HOME") or pathlib.Path.home() / ".cache"
    return pathlib.Path(cache, "tcc/lanes", hashlib.sha256(str(top).encode()).hexdigest()[:12])


def copy_sources(crate: pathlib.Path, to: pathlib.Path) -> None:
    """Puts the sources of a crate in place of those of its copy, whose kept work stays."""
    for part in PARTS:
        shutil.rmtree(to / part, ignore_errors=True)
        if (crate / part).is_dir():
            shutil.copytree(crate / part, to / part)


def build_library(folder: pathlib.Path, jobs: int) -> Optional[str]:
    """Proves a library; why that failed, if it did."""
    done = subprocess.run(["rt", "lib", "--jobs", str(jobs)], cwd=folder, stdin=subprocess.DEVNULL, stdout=subprocess.PIPE,
                          stderr=subprocess.STDOUT, text=True, errors="replace")
    return done.stdout if done.returncode else None


class Build:
    """A build that goes on: what is done, what runs by how many jobs, and since when."""

    def __init__(self, top: pathlib.Path, wanted: str, words: Sequence[str], jobs: int, memory: int):
        self.crates, self.wanted, self.folder = crates_of(top, wanted), wanted, top / "crates" / wanted
        self.program = Program(self.folder, words) if (self.folder / "src/main.rt").is_file() else None
        self.jobs, self.memory = jobs, memory
        self.lanes = Lanes(top, min(jobs, len(self.crates) - 1))
        self.done: Set[str] = set()
        self.running: Dict[str, int] = {}
        self.since: Dict[str, float] = {}
        self.futures: Dict["concurrent.futures.Future[Optional[str]]", str] = {}
        self.began = time.time()

    def prove(self, start: Start) -> Optional[str]:
        """Proves one crate; why that failed, if it did."""
        if start.crate != self.wanted:
            return self.lanes.prove(start.crate, start.jobs)
        return self.program.build(start.jobs) if self.program else build_library(self.folder, start.jobs)

    def begin(self, pool: concurrent.futures.ThreadPoolExecutor) -> None:
        """Begins what may begin now."""
        fits = free_memory() // self.memory
        free = min(self.jobs - sum(self.running.values()), fits if self.running else max(fits, 1))
        start = next_start(self.crates, self.done, self.running, free)
        while start is not None:
            self.running[start.crate], self.since[start.crate] = start.jobs, time.time()
            self.futures[pool.submit(self.prove, start)] = start.crate
            free -= start.jobs
            start = next_start(self.crates, self.done, self.running, free)

    def end(self, future: "concurrent.futures.Future[Optional[str]]") -> bool:
        """Notes that a proof came to its end, and says whether it succeeded."""
        name, wrong, now = self.futures.pop(future), future.result(), time.time()
        jobs = self.running.pop(name)
        if wrong is not None:
            print("%s\n%s: not proved" % (wrong.rstrip(), name), flush=True)
            return False
        print("%-24s %5.0f s by %d job%s, at minute %.1f"
              % (name, now - self.since[name], jobs, "s" * (jobs > 1), (now - self.began) / 60), flush=True)
        self.done.add(name)
        return True

    def run(self) -> int:
        """Proves all, and gives the status."""
        with concurrent.futures.ThreadPoolExecutor(self.jobs) as pool:
            while len(self.done) < len(self.crates):
                self.begin(pool)
                ended, _ = concurrent.futures.wait(self.futures, return_when=concurrent.futures.FIRST_COMPLETED)
                if not all([self.end(future) for future in ended]):
                    return 1
        return 0


def main() -> int:
    reader = argparse.ArgumentParser(description="Proves a program and the crates that it rests on, and runs it.")
    reader.add_argument("--jobs", type=int, default=processors(), help="so many jobs side by side, by default as many as there are processors")
    reader.add_argument("--memory", type=float, default=MEMORY / 1e9, metavar="GB", help="what a job takes at most")
    reader.add_argument("--top", type=pathlib.Path, default=TOP, metavar="FOLDER", help="another repository than this one")
    reader.add_argument("crate", nargs="?", default="tcc")
    reader.add_argument("words", nargs="*", metavar="WORD", help="the words of the program's run")
    asked = reader.parse_args()
    return Build(asked.top.resolve(), asked.crate, asked.words, max(asked.jobs, 1), int(asked.memory * 1e9)).run()


if __name__ == "__main__":
    sys.exit(main())
