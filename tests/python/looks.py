"""Looks at what was recorded so far, while clients work: of one recorder, of several, of other processes; and seals."""
import contextlib
import io
import os
import pathlib
import random
import subprocess
import sys
import threading
import time
from typing import Iterator, List

from counted import Outcome
from helpers import SECONDS, Broken, differs, ended, raises, run

# A process that records until it is told to end: each transaction is read by the next one.
WORKING = """
import sys
from tcc import Recorder
with Recorder(sys.argv[1], number=2) as recorder:
    session, last = recorder.session("p"), None
    for turn in range(1000000):
        with session.transaction() as one:
            one.read("p", last)
            value = recorder.new_value()
            one.write("p", value)
            if turn == 50:
                print("works", flush=True)
            if turn >= 50 and turn % 50 == 0 and not sys.stdin.readline():
                break
        last = value
"""


class Store:
    """A map whose transactions happen whole, at a moment; what the client hears of it is another thing."""

    def __init__(self):
        self.values, self.lock = {}, threading.Lock()


def work(store: Store, recorder, number: int, turns: int) -> None:
    """Reads a key and writes another one. An answer may get lost, and between the moment and the end of the transaction time passes."""
    chance = random.Random(number)
    session = recorder.session("c%d.%d" % (recorder.number, number))
    for _ in range(turns):
        with contextlib.suppress(Broken), session.transaction() as one:
            keys = chance.sample(["x", "y", "z"], 2)
            value = recorder.new_value()
            one.write(keys[0], value)
            one.committing()
            how = chance.choice(("told",) * 10 + ("lost", "not done"))
            with store.lock:
                found = store.values.get(keys[1])
                if how != "not done":
                    store.values[keys[0]] = value
            if how != "told":
                raise Broken
            time.sleep(0.01)
            one.read(keys[1], found)


def under_way(folder: pathlib.Path, tcc: List[str]) -> Iterator[Outcome]:
    """A transaction that is under way is of unknown outcome: where it was read it counts as committed, else as aborted."""
    from tcc import Consistent, Recorder, Unresolved
    path, copy = folder / "way.csv", folder / "way-copy.csv"
    with Recorder(path) as recorder:
        yield differs("a look at nothing", (Consistent, 0), kind(recorder.look(tcc=tcc[-1])))
        a, b, c = (recorder.session(name) for name in "abc")
        ended(c, [("w", "z", 9)], Broken(), True)
        with a.transaction() as one:
            one.write("x", 1)
            ended(b, [("r", "x", 1)], None, True)
            yield differs("a look at what is under way, and was read", (Consistent, 2), kind(recorder.look(tcc=tcc[-1])))
            one.write("y", 2)
            recorder.snapshot(copy)
            one.abort()
        wanted = ["c,begin", "c,w,z,9", "c,unknown", "b,begin", "b,r,x,1", "b,commit", "a,begin", "a,w,x,1", "a,w,y,2", "a,unknown"]
        yield differs("a copy of it", wanted, copy.read_text().split())
        answer = recorder.look(tcc=tcc[-1], level="atomic")
        yield differs("a look once it aborted", (Unresolved, "Aborted"), (type(answer), answer.faults[0].kind))
        with contextlib.suppress(OSError):
            recorder.snapshot(folder / "no-folder" / "copy.csv")
    yield differs("files that looks leave", ["way-copy.csv", "way.csv"], sorted(name for name in os.listdir(folder) if name.startswith("way")))


def ended_between(folder: pathlib.Path) -> Iterator[Outcome]:
    """A transaction ended between the look at the records and that at what is noted beside, and its session goes on: each has a session that
    ends with it."""
    from tcc import snapshot
    path, copy = folder / "between.csv", folder / "between-copy.csv"
    path.write_text("a,begin\na,w,x,1\na,commit\nlook-1,begin\nlook-1,commit\n")
    pathlib.Path(str(path) + ".pending").write_text("a,1,x,1,0.1,\na,2,x,2,0.2,\na,3,x,3,0.3,\na,3,y,4,0.4,\n")
    snapshot([path], copy)
    wanted = ["a,begin", "a,w,x,1", "a,commit", "look-1,begin", "look-1,commit", "look-2,begin", "look-2,w,x,2", "look-2,unknown",
              "a,begin", "a,w,x,3", "a,w,y,4", "a,unknown"]
    yield differs("a copy of what ended between", wanted, copy.read_text().split())


def in_blocks(folder: pathlib.Path) -> Iterator[Outcome]:
    """A copy of records that are longer than a block, up to the last byte that counts; with a seal, which is left out."""
    from tcc import snapshot
    from tcc.watch import looking
    path, copy, kept = folder / "blocks.csv", folder / "blocks-copy.csv", looking.BLOCK
    text = "".join("a,begin\na,w,x,%d\na,commit\n" % number for number in range(1, 9))
    for about, more in (("", ""), (" with a seal", "seal\nb,begin\nb,r,x,8\nb,commit\n")):
        path.write_text(text + more + "c,begin\nc,w")
        looking.BLOCK = 16
        try:
            snapshot([path], copy)
        finally:
            looking.BLOCK = kept
        yield differs("a copy in blocks" + about, (text + more).replace("seal\n", "").split(), copy.read_text().split())


def joins(folder: pathlib.Path) -> Iterator[Outcome]:
    """Several files as one history: part after part between seals; none of sessions of one name, of files out of step, or without an end."""
    from tcc import NoRecord
    from tcc.watch.looking import joined

    def told(*texts: str) -> str:
        paths = [folder / ("joined.%d.csv" % number) for number in range(len(texts))]
        for path, text in zip(paths, texts):
            path.write_text(text)
        out = io.StringIO()
        joined(paths, out)
        return out.getvalue()

    a, b, c = ("{0},begin\n{0},commit\n".format(name) for name in "abc")
    yield differs("files that are joined", a + c + "seal\n" + b + "seal\n" + c, told(a + "seal\n" + b + "seal\n", c + "seal\nseal\n" + c))
    yield "files out of step", raises(NoRecord, lambda: told(a + "seal\n", b + "seal\n", c))
    yield "sessions of one name in two files", raises(NoRecord, lambda: told(a + b, c + b))


def kind(answer):
    return type(answer), answer.transactions


def several(folder: pathlib.Path, tcc: List[str]) -> Iterator[Outcome]:
    """Two recorders of one store, whose clients read one another's values: a look at both is true, at each moment."""
    from tcc import Consistent, NoRecord, Recorder, Unresolved, look, snapshot
    store, paths = Store(), [folder / "two.a.csv", folder / "two.b.csv"]
    with Recorder(paths[0], number=0) as first, Recorder(paths[1], number=1) as second:
        working = [threading.Thread(target=work, args=(store, one, number, 60)) for one in (first, second) for number in range(2)]
        for thread in working:
            thread.start()
        wrong, looks = [], 0
        while looks < 3 or any(thread.is_alive() for thread in working):
            for sources in ([first, second], [second, paths[0]], paths):
                answer = look(sources, tcc=tcc[-1])
                looks += 1
                if not isinstance(answer, Consistent):
                    wrong.append((sources, answer.text()[:300]))
        snapshot([first, second], folder / "two.csv")
        alone = look([first], tcc=tcc[-1])
    yield "looks at two recorders", str(wrong[0]) if wrong else None
    yield differs("a look at one of them alone", Unresolved, type(alone))
    done = subprocess.run([*tcc, "explain", "--large", "--require", "30", str(folder / "two.csv")], capture_output=True, timeout=SECONDS, check=False)
    yield differs("the answer for a copy of both", 0, done.returncode)
    for name in "cd":
        with Recorder(folder / ("same.%s.csv" % name)) as one:
            ended(one.session("s"), [("r", "x", None)], None, True)
    yield "two sessions of one name", raises(NoRecord, lambda: look([folder / "same.c.csv", folder / "same.d.csv"], tcc=tcc[-1]))


def of_another_process(folder: pathlib.Path, library: str, tcc: List[str]) -> Iterator[Outcome]:
    """A look at the file of another process, by the package and by the command."""
    from tcc import Consistent, look
    path = folder / "other-process.csv"
    variables = {**os.environ, "PYTHONPATH": library, "PYTHONDONTWRITEBYTECODE": "1"}
    with subprocess.Popen([sys.executable, "-c", WORKING, str(path)], env=variables, stdin=subprocess.PIPE, stdout=subprocess.PIPE, text=True) as other:
        other.stdout.readline()
        answer = look([path], tcc=tcc[-1])
        told = run([sys.executable, os.path.join(library, "bin/tcc-look"), "--tcc", os.path.abspath(tcc[-1]), str(path)], library)
        other.stdin.write("go on\n" * 4)
        other.stdin.flush()
        for _ in range(2):
            answers = isinstance(look([path], tcc=tcc[-1]), Consistent)
        other.stdin.close()
    yield differs("a look at another process", (Consistent, 50), kind(answer))
    yield differs("tcc-look", (0, "consistent: 50 transactions, 1 sessions\n"), (told.returncode, told.stdout))
    yield differs("looks while it works", True, answers)
    yield differs("a look at its end", Consistent, type(look([path], tcc=tcc[-1])))
    stale = folder / "look-stale.csv"
    stale.write_text("a,begin\na,w,x,1\na,commit\na,begin\na,r,x,0\na,commit\na,begin\na,w,x")
    for words, wanted in (([str(stale)], 1), ([str(folder / "no.csv")], 6), (["--tcc", str(folder / "no"), str(stale)], 127)):
        told = run([sys.executable, os.path.join(library, "bin/tcc-look"), "--tcc", os.path.abspath(tcc[-1]), *words], library)
        yield differs("status of tcc-look %s" % words[-1], wanted, told.returncode)


def asked(folder: pathlib.Path, tcc: List[str]) -> Iterator[Outcome]:
    """A thread asks meanwhile: it tells the first answer and the one that is another, asks no more than it has to, and ends at once."""
    from tcc import Anomaly, Asking, Consistent, NoAnswer, Recorder
    told: list = []
    with Recorder(folder / "asked.csv", ask=Asking(told.append, least=100, tcc=tcc[-1])) as recorder:
        session = recorder.session("a")
        for _ in range(100):
            ended(session, [("w", "x", recorder.new_value())], None, True)
            time.sleep(0.005)
        wait(lambda: told)
        before = list(told)
        ended(session, [("r", "x", None)], None, True)
        for _ in range(60):
            ended(session, [("w", "y", recorder.new_value())], None, True)
        wait(lambda: len(told) > 1)
        looks = recorder._looking.looks
    yield differs("what is told", ([Consistent], [Consistent, Anomaly]), ([type(one) for one in before], [type(one) for one in told]))
    yield "how often is asked", None if 1 <= looks - 1 <= 24 else "%d times" % looks
    for name, program in (("no program", folder / "no-program"), ("a program that fails", "/bin/false")):
        told = []
        with Recorder(folder / (name.replace(" ", "-") + ".csv"), ask=Asking(told.append, least=1, tcc=program)) as recorder:
            ended(recorder.session("a"), [("w", "x", 1)], None, True)
            wait(lambda: told)
        yield differs("what is told with " + name, [NoAnswer], [type(one) for one in told])
    slow = folder / "slow.sh"
    slow.write_text("#!/bin/sh\nexec sleep 3000\n")
    slow.chmod(0o755)
    told = []
    with Recorder(folder / "slow.csv", ask=Asking(told.append, least=1, tcc=slow)) as recorder:
        ended(recorder.session("a"), [("w", "x", 1)], None, True)
        wait(lambda: recorder._looking._running is not None)
        begun = time.monotonic()
    took = time.monotonic() - begun
    yield "an end while an answer is worked out", None if took < 600 and not told else "%.1f s, %s" % (took, told)


def wait(what) -> None:
    until = time.monotonic() + SECONDS
    while not what() and time.monotonic() < until:
        time.sleep(0.05)


def seals(folder: pathlib.Path, library: str, tcc: List[str]) -> Iterator[Outcome]:
    """A seal waits for what is under way, and none begins meanwhile; of several recorders seals are in step, and each has an answer."""
    from tcc import Recorder, seal
    path = folder / "sealed.csv"
    with Recorder(path) as recorder:
        a, b, c = (recorder.session(name) for name in "abc")
        ended(a, [("w", "x", 1)], Broken(), True)
        ended(a, [("w", "y", 2)], Broken(), True)
        ended(b, [("r", "x", 1)], None, True)
        with c.transaction() as one:
            one.write("z", 3)
            yield differs("a seal while a transaction is under way", False, recorder.seal(0.05))
            sealing = threading.Thread(target=recorder.seal, args=(SECONDS,))
            sealing.start()
            wait(lambda: recorder._is_held)
            late = threading.Thread(target=ended, args=(b, [("r", "z", 3)], None, True))
            late.start()
            time.sleep(0.1)
        sealing.join()
        late.join()
        ended(b, [("r", "y", 2)], None, True)
        yield differs("a seal once it has ended", True, recorder.seal(SECONDS))
    wanted = ["a,begin", "a,w,x,1", "a,unknown", "a.2,begin", "a.2,w,y,2", "a.2,unknown", "b,begin", "b,r,x,1", "b,commit",
              "c,begin", "c,w,z,3", "c,commit", "seal", "b,begin", "b,r,z,3", "b,commit", "b,begin", "b,r,y,2", "b,commit", "seal"]
    yield differs("records with seals", wanted, path.read_text().split())
    with Recorder(path) as again:
        ended(again.session("d"), [("r", "y", 2)], None, True)
    yield differs("records after seals", wanted + ["d,begin", "d,r,y,2", "d,commit"], path.read_text().split())
    yield differs("the answers at seals", ["consistent"] * 3, heads(tcc, path))
    store, paths = Store(), [folder / "step.a.csv", folder / "step.b.csv"]
    with Recorder(paths[0], number=5) as first, Recorder(paths[1], number=6) as second:
        working = [threading.Thread(target=work, args=(store, one, number, 30)) for one in (first, second) for number in range(2)]
        for thread in working:
            thread.start()
        made = []
        for _ in range(2):
            time.sleep(0.1)
            made.append(seal([second, first], SECONDS))
        for thread in working:
            thread.join()
    yield differs("seals of two recorders at work", [True] * 2, made)
    both = folder / "step.csv"
    words = [sys.executable, os.path.join(library, "bin/tcc-join"), "-o", str(both)]
    yield differs("tcc-join", 0, run([*words, *map(str, paths)], library).returncode)
    yield differs("the answers at seals of two", ["consistent"] * 2, heads(tcc, both)[:2])
    both.write_text("stays\n")
    unsealed = folder / "unsealed.csv"
    unsealed.write_text("e,begin\ne,commit\n")
    done = run([*words, str(paths[0]), str(unsealed)], library)
    yield differs("tcc-join of files out of step", (6, "stays\n"), (done.returncode, both.read_text()))


def heads(tcc: List[str], path: pathlib.Path) -> List[str]:
    """The first word of each answer."""
    done = subprocess.run([*tcc, "explain", "--large", "--quiet", str(path)], capture_output=True, text=True, timeout=SECONDS, check=False)
    return [line.split(":")[0] for line in done.stdout.splitlines() if line and not line.startswith(" ")]


def outcomes(folder: pathlib.Path, library: str, tcc: List[str]) -> Iterator[Outcome]:
    for part in (ended_between(folder), in_blocks(folder), joins(folder), under_way(folder, tcc), several(folder, tcc), of_another_process(folder, library, tcc), asked(folder, tcc),
                 seals(folder, library, tcc)):
        yield from part
