"""Transactions that are one request: each way in which one can end, the order of its operations, and comparisons."""
import contextlib
import pathlib
import random
import subprocess
import threading
from typing import Iterator, List

from counted import Outcome
from helpers import SECONDS, Broken, Refused, differs, raises


def ends(folder: pathlib.Path, tcc: List[str]) -> Iterator[Outcome]:
    """An answer, a refusal, a time-out of a request that writes and of one that reads, and what comes after each."""
    from tcc import Recorder
    path = folder / "calls.csv"
    with Recorder(path, notes=folder / "calls.notes") as recorder:
        a, b = recorder.session("a"), recorder.session("b", node="n1")
        with a.call() as one:
            old = one.read("x")
            one.write("x", 1)
            new = one.read("x")
            never = one.read("y")
            old.returned(None)
            new.returned(1)
        yield differs("a read that didn't return", None, never.value)
        for writes, how, refused in (((2,), Refused, (Refused,)), ((3,), Broken, (Refused,)), ((4,), Broken, ()), ((), Broken, ())):
            with contextlib.suppress(Refused, Broken), a.call(refused=refused) as one:
                seen = one.read("x")
                for value in writes:
                    one.write("x", value)
                if 4 in writes:
                    seen.returned(1)  # what came with an answer that broke off
                raise how
        with a.call() as one:
            one.write("z", 5)
            one.abort()
        with b.call() as one:
            one.read("x").returned(3)
        name = a.name
    yield differs("the session after two time-outs that wrote", "a.3", name)
    wanted = ["a,begin", "a,r,x,0", "a,w,x,1", "a,r,x,1", "a,commit", "a,begin", "a,w,x,2", "a,abort",
              "a,begin", "a,w,x,3", "a,unknown", "a.2,begin", "a.2,w,x,4", "a.2,unknown",
              "a.3,begin", "a.3,w,z,5", "a.3,abort", "b,begin", "b,r,x,3", "b,commit"]
    yield differs("records of calls", wanted, path.read_text().split())
    yield differs("the answer for calls", 0, status(tcc, path))
    with Recorder(folder / "late.csv") as recorder:
        session = recorder.session("a")
        with session.call() as one:
            read, write = one.read("x"), one.write("x", 1)
            read.returned(0)
            from tcc import NoRecord
            yield "a read that returns twice", raises(NoRecord, lambda: read.returned(0))
            yield "a value that is none", raises(NoRecord, lambda: one.read("y").returned("5"))
            yield "a key that is none", raises(NoRecord, lambda: one.read("a b"))
            yield "a value of a call twice", raises(NoRecord, lambda: one.write("x", 1))
            yield "a call in a call", raises(NoRecord, lambda: session.call().__enter__())
        for name, what in (("a read", lambda: one.read("x")), ("a return", lambda: one.read("z").returned(1)), ("a skip", write.skipped)):
            yield name + " after the call", raises(NoRecord, what)


def compared(folder: pathlib.Path, tcc: List[str]) -> Iterator[Outcome]:
    """Compare-and-put: where the comparison fails its write didn't happen, and who reads it hears so."""
    from tcc import Recorder
    for read_at_last, wanted in ((6, 0), (8, 2)):
        path = folder / ("compared%d.csv" % read_at_last)
        with Recorder(path, notes=folder / "compared.notes") as recorder:
            a, b = recorder.session("a"), recorder.session("b")
            for value, held, found in ((6, True, None), (8, False, 6)):
                with a.call() as one:
                    seen, put = one.read("x"), one.write("x", value)
                    seen.returned(found)
                    if not held:
                        put.skipped()
            with a.call() as one:
                one.read("x").returned(6)
            with b.call() as one:
                one.read("x").returned(read_at_last)
        records = ["a,begin", "a,r,x,0", "a,w,x,6", "a,commit", "a,begin", "a,r,x,6", "a,commit", "a,begin", "a,w,x,8", "a,abort",
                   "a,begin", "a,r,x,6", "a,commit", "b,begin", "b,r,x,%d" % read_at_last, "b,commit"]
        yield differs("records of comparisons", records, path.read_text().split())
        labels = [line.split(",")[0] for line in (folder / "compared.notes").read_text().splitlines()[1:]][-5:]
        yield differs("annotations of comparisons", ["a/1", "a/2", "a/3", "a/4", "b/1"], labels)
        answered = subprocess.run([*tcc, "explain", str(path)], capture_output=True, text=True, timeout=SECONDS, check=False)
        yield differs("a read of %d after a comparison that failed" % read_at_last, (wanted, wanted == 2),
                      (answered.returncode, "Aborted b/1 op 1 x 8" in answered.stdout))


def status(tcc: List[str], path: pathlib.Path, *more: str) -> int:
    return subprocess.run([*tcc, "explain", *more, str(path)], capture_output=True, timeout=SECONDS, check=False).returncode


class Server:
    """A map that does requests whole: swaps, comparisons and reads of several keys. Its answer may get lost, and so may a request,
    or it comes to the map later on."""

    def __init__(self, chance: random.Random):
        self.chance, self.values, self.lock, self.late = chance, {}, threading.Lock(), []

    def ask(self, does):
        with self.lock:
            if self.late and self.chance.random() < 0.2:
                self.late.pop()(self.values)
            how = self.chance.choice(["answer"] * 8 + ["lost", "answer lost", "late"])
            if how == "late":
                self.late.append(does)
            answer = does(self.values) if how in ("answer", "answer lost") else None
        if how != "answer":
            raise Broken
        return answer


def swap(key: str, value: int):
    def does(values):
        old, values[key] = values.get(key), value
        return old

    return does


def compare(key: str, expected, value: int):
    def does(values):
        found = values.get(key)
        if found == expected:
            values[key] = value
        return found

    return does


def work(server: Server, recorder, number: int, chance: random.Random) -> None:
    session = recorder.session("c%d" % number)
    for _ in range(60):
        keys = chance.sample(["x", "y", "z"], 2)
        with contextlib.suppress(Broken), session.call() as one:
            kind = chance.choice(("swap", "compare", "both"))
            if kind == "both":
                reads = [one.read(key) for key in keys]
                for read, found in zip(reads, server.ask(lambda values, keys=keys: [values.get(key) for key in keys])):
                    read.returned(found)
                continue
            value, expected = recorder.new_value(), server.values.get(keys[0])
            old, put = one.read(keys[0]), one.write(keys[0], value)
            found = server.ask(swap(keys[0], value) if kind == "swap" else compare(keys[0], expected, value))
            old.returned(found)
            if kind == "compare" and found != expected:
                put.skipped()


def at_work(folder: pathlib.Path, tcc: List[str]) -> Iterator[Outcome]:
    """Threads with such requests, whose answers get lost: a store that does each whole, and at most once, is never accused."""
    from tcc import Recorder
    for seed in range(4):
        path, server = folder / ("work%d.csv" % seed), Server(random.Random(seed))
        with Recorder(path, number=seed) as recorder:
            threads = [threading.Thread(target=work, args=(server, recorder, number, random.Random(10 * seed + number))) for number in range(4)]
            for thread in threads:
                thread.start()
            for thread in threads:
                thread.join()
        yield differs("the answer for requests whose answers get lost", 0, status(tcc, path, "--large", "--require", "60"))


def outcomes(folder: pathlib.Path, tcc: List[str]) -> Iterator[Outcome]:
    yield from ends(folder, tcc)
    yield from compared(folder, tcc)
    yield from at_work(folder, tcc)
