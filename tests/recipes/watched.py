"""The demo of Redis shows the answers of `tcc watch` while its clients work. Here a stand-in is in the place of Redis, so that this is
asked everywhere: a module `redis` (stand_in/redis.py), and a `redis-server` that does nothing. Clients only go on once an answer was seen.
"""
import os
import pathlib
import re
import subprocess
import sys
import tempfile
from typing import Dict, Iterator, List, Optional, Tuple

from counted import Outcome

HERE = pathlib.Path(__file__).resolve().parent
RECIPES = HERE.parent.parent / "recipes/redis"
SECONDS = 1800
TRANSACTIONS, SESSIONS = 800, 4
# What a recorder says in the end, by how many reads lag; at the replica nobody sees its own writes soon.
RECORDED = {"primary": r"record.py: %d transactions; 0 of unknown outcome\nrecord.py: 0 of [0-9,]+ reads were older than the newest finished write: "
                       r"nothing lagged, so a consistent answer says little\n",
            "replica": r"record.py: %d transactions; 0 of unknown outcome\nrecord.py: [1-9][0-9]* of [0-9,]+ reads were older than the newest finished "
                       r"write: .* at replica\nrecord.py: [1-9][0-9]* reads were older than what their own client had seen\n"}
CONSISTENT = re.compile(r"tcc watch, [0-9.]+ s: consistent: ([0-9]+) transactions, ([0-9]+) sessions\n")
# At the replica nobody sees its own first write.
ANOMALY = re.compile(r"tcc watch, [0-9.]+ s: anomaly: 3 steps, stale-initial-read\nsession init -> (c[1-4])/1\n"
                     r"derived \1/1 -> init by (k[0-7]), read by \1/2\n  session \1/1 -> \1/2\n  against init -> \1/2 by \2\n")


def variables(folder: pathlib.Path) -> Dict[str, str]:
    """Those with which the stand-in is found."""
    server = folder / "redis-server"
    server.write_text("#!/bin/sh\nexec sleep %d\n" % SECONDS)
    server.chmod(0o755)
    return {**os.environ, "PATH": "%s:%s" % (folder, os.environ["PATH"]), "PYTHONPATH": str(HERE / "stand_in"),
            "PYTHONDONTWRITEBYTECODE": "1", "STAND_IN_GOES_ON": str(folder / "goes-on")}


def shown(words: List[str], folder: pathlib.Path) -> Tuple[int, List[str]]:
    """What a demo shows, on both streams as it comes, and its status. While its recorder works, clients go on once an answer is shown."""
    goes_on, lines = folder / "goes-on", []
    with subprocess.Popen(words, stdin=subprocess.DEVNULL, stdout=subprocess.PIPE, stderr=subprocess.STDOUT, env=variables(folder),
                          text=True) as running:
        for line in running.stdout:
            lines.append(line)
            if line.startswith("tcc watch"):
                goes_on.touch()
            elif line.startswith("$ tcc explain <") and goes_on.exists():
                goes_on.unlink()
        return running.wait(), lines


def meanwhile(lines: List[str], place: str) -> str:
    """What is shown from the recorder's command to the next one."""
    text = "".join(lines)
    found = re.search(r"\$ \S+ record\.py --read-at %s [^\n]*\n(.*?)^\$ tcc explain <" % place, text, re.DOTALL | re.MULTILINE)
    return found.group(1) if found else "no such round in %r" % text


def of_primary(text: str) -> Optional[str]:
    """What is wrong with the answers for the primary: each is one line, with more transactions than before, and the last has all."""
    said = re.search(RECORDED["primary"] % TRANSACTIONS + "$", text)
    answers = text[:said.start() if said else None].splitlines(keepends=True)
    counts = [tuple(map(int, found.groups())) for found in map(CONSISTENT.fullmatch, answers) if found]
    grow = all(one[0] < other[0] for one, other in zip(counts, counts[1:]))
    is_right = len(counts) == len(answers) > 1 and grow and counts[-1] == (TRANSACTIONS, SESSIONS) and said
    return None if is_right else text


def of_replica(text: str) -> Optional[str]:
    """What is wrong with those for the replica: the anomaly in full, and nothing after it."""
    found = ANOMALY.match(text)
    return None if found and re.fullmatch(RECORDED["replica"] % TRANSACTIONS, text[found.end():]) else text


def demo(tcc: List[str]) -> Iterator[Outcome]:
    with tempfile.TemporaryDirectory() as name:
        folder = pathlib.Path(name)
        words = [sys.executable, str(RECIPES / "demo.py"), "--tcc", tcc[-1], "--reports", str(folder / "reports")]
        status, lines = shown(words, folder)
        pages = len(list((folder / "reports").glob("*.html")))
        yield "demo at a stand-in for Redis", None if (status, pages) == (0, 1) else "status %d, %d reports, %r" % (status, pages, lines)
        yield "answers while clients of the primary work", of_primary(meanwhile(lines, "primary"))
        yield "answers while clients of the replica work", of_replica(meanwhile(lines, "replica"))


def without_program() -> Iterator[Outcome]:
    """Where `tcc` isn't there, a recorder that is to be watched says so, and records."""
    with tempfile.TemporaryDirectory() as name:
        folder = pathlib.Path(name)
        words = [sys.executable, str(RECIPES / "record.py"), "--read-at", "primary", "--transactions", "20", "--watch", "--tcc", str(folder / "tcc")]
        done = subprocess.run(words, env=variables(folder), capture_output=True, text=True, timeout=SECONDS, check=False)
        ends = done.stdout.splitlines().count("c1,commit")
        yield "a recorder without a watch", None if (done.returncode, ends) == (0, 20) else "status %d, %d, %s" % (done.returncode, ends, done.stderr)
        said = re.fullmatch(r"tcc watch, [0-9.]+ s: there is no program %s[^\n]*\n%s" % (folder / "tcc", RECORDED["primary"] % 80), done.stderr)
        yield "what it says", None if said else repr(done.stderr)


def outcomes(tcc: List[str]) -> Iterator[Outcome]:
    yield from demo(tcc)
    yield from without_program()
