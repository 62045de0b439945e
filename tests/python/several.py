"""Several recorders of one store, whose unknown outcomes are read by one another: put together, they accuse no store that keeps its
promise. What an older recorder left open, tcc-settle ends."""
import contextlib
import os
import pathlib
import random
import shutil
import subprocess
import sys
import threading
from typing import Iterator, List

from counted import Outcome
from helpers import SECONDS, Broken, differs, ended, raises, run
from looks import Store

# A process that dies in its COMMIT.
DYING = """
import os, sys
from tcc import Recorder
recorder = Recorder(sys.argv[1], number=1)
session = recorder.session("a")
with session.transaction() as one:
    one.write("x", 5)
with session.transaction() as one:
    one.write("y", 6)
    one.write("z", 7)
    one.committing()
    os._exit(0)
"""


def status(tcc: List[str], *paths: pathlib.Path) -> int:
    """The status of `tcc explain` for files put one after the other."""
    text = b"".join(path.read_bytes() for path in paths)
    return subprocess.run([*tcc, "explain", "--large", "--require", "1"], input=text, capture_output=True, timeout=SECONDS,
                          check=False).returncode


def least(folder: pathlib.Path, tcc: List[str]) -> Iterator[Outcome]:
    """A put times out, and a client of the other recorder reads it."""
    from tcc import Recorder
    first, second = folder / "least.a.csv", folder / "least.b.csv"
    with Recorder(first) as a, Recorder(second, number=1) as b:
        session = a.session("a")
        ended(session, [("w", "x", 1)], Broken(), True)
        ended(session, [("w", "x", 2)], Broken(), True)
        ended(b.session("b"), [("r", "x", 1)], None, True)
        yield differs("unknown outcomes of both", [2, 0], [a.close(), b.close()])
    wanted = ["a,begin", "a,w,x,1", "a,unknown", "a.2,begin", "a.2,w,x,2", "a.2,unknown"]
    yield differs("records of it", (wanted, ["b,begin", "b,r,x,1", "b,commit"]), (first.read_text().split(), second.read_text().split()))
    yield differs("files beside", [False, False], [os.path.exists(str(path) + ".pending") for path in (first, second)])
    yield differs("the answer for both", 0, status(tcc, first, second))


def dead(folder: pathlib.Path, library: str, tcc: List[str]) -> Iterator[Outcome]:
    """A process dies, another one reads what it wrote; both are settled, and where one is missing, nothing is. Opened again, what it left
    is of unknown outcome."""
    from tcc import Recorder
    paths = [folder / "dead.a.csv", folder / "dead.b.csv"]
    run([sys.executable, "-c", DYING, str(paths[0])], library)
    with Recorder(paths[1]) as recorder:
        ended(recorder.session("b"), [("r", "x", 5), ("r", "z", 7)], None, True)
    words, again = [sys.executable, os.path.join(library, "bin/tcc-settle")], folder / "dead.again.csv"
    for end in ("", ".pending"):
        shutil.copy(str(paths[0]) + end, str(again) + end)
    Recorder(again).close()
    yield differs("records of the dead process, opened again", ["a,begin", "a,w,x,5", "a,commit", "a,begin", "a,w,y,6", "a,w,z,7", "a,unknown"],
                  again.read_text().split())
    before = paths[0].read_text()
    yield differs("tcc-settle where a file is missing", 1, run([*words, str(paths[0]), str(folder / "missing.csv")], library).returncode)
    with Recorder(paths[1]):
        yield differs("tcc-settle where one is recorded into", 1, run([*words, *map(str, paths)], library).returncode)
    yield differs("the records meanwhile", (before, True), (paths[0].read_text(), os.path.exists(str(paths[0]) + ".pending")))
    yield differs("tcc-settle of a dead process and another", 0, run([*words, *map(str, paths)], library).returncode)
    yield differs("records of the dead process", ["a,begin", "a,w,x,5", "a,commit", "a,begin", "a,w,y,6", "a,w,z,7", "a,commit"],
                  paths[0].read_text().split())
    yield differs("the answer for it", 0, status(tcc, *paths))


def settled(folder: pathlib.Path, library: str) -> Iterator[Outcome]:
    """What one process left open: two whose values one transaction read, one that only an aborted transaction read, one that nobody
    read."""
    path = folder / "settled.csv"
    read = "r,begin\nr,r,x,5\nr,r,y,6\nr,commit\nq,begin\nq,r,z,7\nq,abort\n"
    path.write_text(read)
    (folder / "settled.csv.pending").write_text("".join("%s,1,%s,%d,0.5,n0\n" % one for one in (("a", "x", 5), ("b", "y", 6), ("c", "z", 7), ("d", "x", 8))))
    done = run([sys.executable, os.path.join(library, "bin/tcc-settle"), str(path)], library)
    said = "tcc-settle: of unknown outcome 2 read, so committed, 2 unread, so aborted\n"
    yield differs("tcc-settle of two that were read", (0, said), (done.returncode, done.stderr))
    wanted = read + "".join("%s,begin\n%s,w,%s,%d\n%s,%s\n" % (one[0], *one[:3], one[0], one[3]) for one in (
        ("a", "x", 5, "commit"), ("b", "y", 6, "commit"), ("c", "z", 7, "abort"), ("d", "x", 8, "abort")))
    yield differs("records of two that were read", wanted.split(), path.read_text().split())


def settled_by_others(folder: pathlib.Path, library: str) -> Iterator[Outcome]:
    """Two that dead processes left open, each of which a client of another file read."""
    paths = [folder / ("others.%d.csv" % number) for number in range(3)]
    for path, text in zip(paths, ("a,begin\na,r,y,6\na,commit\n", "b,begin\nb,commit\n", "c,begin\nc,r,x,5\nc,commit\n")):
        path.write_text(text)
    (folder / "others.0.csv.pending").write_text("a,2,x,5,0.5,\n")
    (folder / "others.1.csv.pending").write_text("b,2,y,6,0.5,\n")
    done = run([sys.executable, os.path.join(library, "bin/tcc-settle"), *map(str, paths)], library)
    said = "tcc-settle: of unknown outcome 2 read, so committed, 0 unread, so aborted\n"
    yield differs("tcc-settle of two that other files read", (0, said), (done.returncode, done.stderr))
    wanted = [["a,begin", "a,r,y,6", "a,commit", "a,begin", "a,w,x,5", "a,commit"], ["b,begin", "b,commit", "b,begin", "b,w,y,6", "b,commit"],
              ["c,begin", "c,r,x,5", "c,commit"]]
    yield differs("records of two that other files read", wanted, [path.read_text().split() for path in paths])


def work(store: Store, recorder, number: int) -> None:
    """Swaps and reads; one answer in four gets lost, of what happened and of what didn't."""
    chance, session = random.Random(number), recorder.session("c%d.%d" % (recorder.number, number))
    for _ in range(20):
        keys = chance.sample(["x", "y", "z"], 2)
        with contextlib.suppress(Broken), session.call() as one:
            value, old, beside = recorder.new_value(), one.read(keys[0]), one.read(keys[1])
            one.write(keys[0], value)
            how = chance.choice(("told",) * 6 + ("lost", "not done"))
            with store.lock:
                found = [store.values.get(key) for key in keys]
                if how != "not done":
                    store.values[keys[0]] = value
            if how != "told":
                raise Broken
            old.returned(found[0])
            beside.returned(found[1])


def at_work(folder: pathlib.Path, tcc: List[str]) -> Iterator[Outcome]:
    """Three recorders at work: put together, there is an order, and somebody read what another recorder hadn't observed."""
    from tcc import NoRecord, Recorder
    store, paths = Store(), [folder / ("three%d.csv" % number) for number in range(3)]
    recorders = [Recorder(path, number=number) for number, path in enumerate(paths)]
    threads = [threading.Thread(target=work, args=(store, one, number)) for one in recorders for number in range(3)]
    for thread in threads:
        thread.start()
    for thread in threads:
        thread.join()
    counts = [one.close() for one in recorders]
    yield "three recorders: unknown outcomes", None if all(counts) else str(counts)
    yield differs("the answer for three recorders", 0, status(tcc, *paths))
    yield "a recorder that was closed", raises(NoRecord, lambda: ended(recorders[0].session("d"), [("w", "x", 1)], None, True))
    yield differs("closed again", counts, [one.close() for one in recorders])


def outcomes(folder: pathlib.Path, library: str, tcc: List[str]) -> Iterator[Outcome]:
    yield from least(folder, tcc)
    yield from dead(folder, library, tcc)
    yield from settled(folder, library)
    yield from settled_by_others(folder, library)
    yield from at_work(folder, tcc)
