"""What a recorder refuses, and what it keeps where something fails: a disk that is full, a process that dies, a fork."""
import contextlib
import os
import pathlib
import resource
import subprocess
import sys
import threading
from typing import Iterator, List

from counted import Outcome
from helpers import SECONDS, Broken, differs, ended, raises, run

# A process whose disk is full as it ends its records.
FULL = """
import resource, sys
from tcc import Recorder
recorder = Recorder(sys.argv[1])
session = recorder.session("a")
try:
    with session.transaction() as one:
        one.write("x", 5)
        one.committing()
        resource.setrlimit(resource.RLIMIT_FSIZE, (4, resource.RLIM_INFINITY))
        raise KeyError
except (KeyError, OSError):
    pass
recorder.close()
"""


@contextlib.contextmanager
def full(bytes_left: int, path: pathlib.Path) -> Iterator[None]:
    """No file grows past the size of this one by more than these bytes: what is more is written in part, and then fails."""
    _, most = resource.getrlimit(resource.RLIMIT_FSIZE)
    resource.setrlimit(resource.RLIMIT_FSIZE, (path.stat().st_size + bytes_left, most))
    try:
        yield
    finally:
        resource.setrlimit(resource.RLIMIT_FSIZE, (most, most))


def fails(what) -> bool:
    """Whether it raises an error of the system."""
    try:
        what()
    except OSError:
        return True
    return False


def texts(path: pathlib.Path) -> List[str]:
    return path.read_text().split()


def status(tcc: List[str], path: pathlib.Path) -> int:
    return subprocess.run([*tcc, "explain", "--require", "1", str(path)], capture_output=True, timeout=SECONDS, check=False).returncode


def full_disk(folder: pathlib.Path, tcc: List[str]) -> Iterator[Outcome]:
    """A transaction that committed, and whose records can't be written: it is kept, its place isn't given again, and the answer is
    that of a store that keeps its promise."""
    from tcc import Recorder
    for left in (0, 1, 8, 30):  # nothing is written, a part of a line, a whole line, most of it
        path = folder / ("full%d.csv" % left)
        recorder = Recorder(path, notes=folder / ("full%d.notes" % left))
        a, b = recorder.session("a"), recorder.session("b", node="n1")
        ended(a, [("r", "k%d" % number, None) for number in range(9)] + [("w", "x", 1)], None, True)
        with full(left, path):
            failed = fails(lambda: ended(a, [("r", "x", 1), ("r", "x", 1), ("w", "x", 2), ("w", "z", 3)], None, True))
        yield differs("a disk with %d bytes left" % left, (True, "a.2"), (failed, a.name))
        ended(b, [("r", "x", 2)], None, True)
        ended(a, [("w", "x", 4)], None, True)
        yield differs("what is in doubt at the end", 1, recorder.close())
        wanted = ["a,begin", *("a,r,k%d,0" % number for number in range(9)), "a,w,x,1", "a,commit", "b,begin", "b,r,x,2", "b,commit",
                  "a.2,begin", "a.2,w,x,4", "a.2,commit", "a,begin", "a,w,x,2", "a,w,z,3", "a,unknown"]
        yield differs("records of a disk with %d bytes left" % left, wanted, texts(path))
        yield differs("the answer for it", 0, status(tcc, path))
        labels = [line.split(",")[0] for line in (folder / ("full%d.notes" % left)).read_text().splitlines()[1:]]
        yield differs("the annotations of it", ["a/1", "b/1", "a.2/1", "a/2"], labels)


def full_at_the_end(folder: pathlib.Path, library: str) -> Iterator[Outcome]:
    """Nothing is dropped before it is on the disk: `close` fails, and can be asked again, also by another process."""
    from tcc import Recorder
    path = folder / "full-end.csv"
    recorder = Recorder(path)
    session = recorder.session("a")
    ended(session, [("r", "k%d" % number, None) for number in range(9)], None, True)
    before = texts(path)
    with full(0, path):
        yield differs("a transaction without room", True, fails(lambda: ended(session, [("w", "x", 1)], None, True)))
    with full(10, path):
        yield differs("an end without room", True, fails(recorder.close))
    yield differs("what it leaves", (before, True), (texts(path), os.path.exists(str(path) + ".pending")))
    yield differs("an end with room", 1, recorder.close())
    yield differs("its records", before + ["a,begin", "a,w,x,1", "a,unknown"], texts(path))
    other = folder / "full-dead.csv"
    done = run([sys.executable, "-c", FULL, str(other)], library)
    yield differs("a process whose end fails", (1, ""), (done.returncode, other.read_text()))
    with Recorder(other) as again:
        ended(again.session("b"), [("r", "x", 5)], None, True)
    yield differs("the records of it", ["b,begin", "b,r,x,5", "b,commit", "a,begin", "a,w,x,5", "a,unknown"], texts(other))


def torn(folder: pathlib.Path) -> Iterator[Outcome]:
    """An append fails, and what it left can't be cut off at once: the next one cuts it off."""
    from tcc import Recorder
    path, cut = folder / "torn.csv", os.ftruncate
    with Recorder(path) as recorder:
        session = recorder.session("a")
        ended(session, [("r", "k%d" % number, None) for number in range(9)], None, True)
        before = texts(path)

        def refused(file: int, length: int) -> None:
            raise OSError(5, "no cut")

        os.ftruncate = refused
        try:
            with full(10, path):
                failed = fails(lambda: ended(session, [("w", "x", 1)], None, True))
        finally:
            os.ftruncate = cut
        yield differs("an append that fails, and no cut", (True, "a,begin\na,"), (failed, path.read_text()[-10:]))
        ended(session, [("r", "x", 1)], None, True)
        yield differs("records after a part that stayed", before + ["a.2,begin", "a.2,r,x,1", "a.2,commit"], texts(path))
    yield differs("records in the end", before + ["a.2,begin", "a.2,r,x,1", "a.2,commit", "a,begin", "a,w,x,1", "a,unknown"], texts(path))


def unnoted(folder: pathlib.Path) -> Iterator[Outcome]:
    """A write that can't be noted never goes to the store: nothing is recorded of it, and its value may be written later."""
    from tcc import Recorder
    path = folder / "unnoted.csv"
    recorder = Recorder(path)
    session = recorder.session("a")
    ended(session, [("w", "x", 1)], None, True)
    with full(0, pathlib.Path(str(path) + ".pending")):
        failed = fails(lambda: ended(session, [("w", "x", 2)], None, True))
    yield differs("a write without room, and its session", (True, "a"), (failed, session.name))
    ended(session, [("w", "x", 2)], None, True)
    yield differs("what is in doubt of it", 0, recorder.close())
    yield differs("records of a write without room", ["a,begin", "a,w,x,1", "a,commit", "a,begin", "a,w,x,2", "a,commit"], texts(path))


def sealed(folder: pathlib.Path) -> Iterator[Outcome]:
    """A seal after a transaction whose records couldn't be written: it is before the seal, of unknown outcome, and only there. Where a seal
    can't be written, nothing of it is there, and the next one has all."""
    from tcc import Recorder, seal
    path, other = folder / "sealed-full.csv", folder / "sealed-other.csv"
    with Recorder(path) as recorder, Recorder(other, number=1) as second:
        session = recorder.session("a")
        ended(second.session("b"), [("r", "x", None)], None, True)
        ended(session, [("r", "k%d" % number, None) for number in range(20)], None, True)
        before, beside = texts(path), texts(other)
        with full(0, path):
            failed = [fails(lambda: ended(session, [("w", "x", 1)], None, True)), fails(lambda: seal([second, recorder], SECONDS))]
        yield differs("a transaction before a seal, and a seal, without room", [True, True], failed)
        yield differs("what it leaves of two", (before, beside), (texts(path), texts(other)))
        last = max((recorder, second), key=id)  # of the two the one whose seal is written after that of the other
        append, last._records.append = last._records.append, lambda text: (_ for _ in ()).throw(OSError(28, "full"))
        yield differs("a second seal without room", True, fails(lambda: seal([second, recorder], SECONDS)))
        last._records.append = append
        yield differs("what that leaves of two", (before, beside), (texts(path), texts(other)))
        yield differs("a seal with room", True, seal([second, recorder], SECONDS))
        ended(session, [("r", "x", 1)], None, True)
        counts = [recorder.close(), second.close()]
    wanted = before + ["a,begin", "a,w,x,1", "a,unknown", "seal", "a.2,begin", "a.2,r,x,1", "a.2,commit"]
    yield differs("records of a seal after what failed", (wanted, beside + ["seal"], [1, 0]), (texts(path), texts(other), counts))


def short_writes(folder: pathlib.Path) -> Iterator[Outcome]:
    """The system takes a few bytes at a time."""
    from tcc import Recorder
    path, write = folder / "short.csv", os.write
    os.write = lambda file, data: write(file, bytes(data[:5]))
    try:
        with Recorder(path) as recorder:
            ended(recorder.session("a"), [("w", "x", 5000), ("r", "x", 5000)], None, True)
            ended(recorder.session("b"), [("w", "x", 6000)], Broken(), True)
    finally:
        os.write = write
    yield differs("records by short writes", ["a,begin", "a,w,x,5000", "a,r,x,5000", "a,commit", "b,begin", "b,w,x,6000", "b,unknown"], texts(path))


def notes_fail(folder: pathlib.Path) -> Iterator[Outcome]:
    """Annotations can't be written: the transaction is in the records, and the next one has a place of its own."""
    from tcc import Recorder
    path = folder / "notes-fail.csv"
    with Recorder(path, notes=folder / "notes-fail.notes") as recorder:
        session = recorder.session("a")
        append, recorder._notes.append = recorder._notes.append, lambda text: (_ for _ in ()).throw(OSError(28, "full"))
        yield differs("annotations that fail", True, fails(lambda: ended(session, [("w", "x", 1)], None, True)))
        recorder._notes.append = append
        ended(session, [("w", "x", 2)], None, True)
    yield differs("records beside them", ["a,begin", "a,w,x,1", "a,commit", "a,begin", "a,w,x,2", "a,commit"], texts(path))
    yield differs("annotations after them", "a/2", (folder / "notes-fail.notes").read_text().splitlines()[-1].split(",")[0])


def reopened(folder: pathlib.Path) -> Iterator[Outcome]:
    """A file that is gone on with: what it has stays, and no value is given or taken twice."""
    from tcc import NoRecord, Recorder
    path = folder / "reopened.csv"
    text = "a,begin\na,w,x,40960\na,w,x,4096\na,commit\nb,begin\nb,w,y,8192\nb,w,y,7\nb,abort\n"
    path.write_text(text)
    with Recorder(path) as recorder:
        value = recorder.new_value()
        yield differs("a value after the greatest, which isn't the last", True, value > 40960)
        session = recorder.session("a")
        with session.transaction() as one:
            for key, old in (("x", 40960), ("x", 4096), ("y", 8192), ("y", 7)):
                yield "a value of an earlier run, %s %d" % (key, old), raises(NoRecord, lambda key=key, old=old: one.write(key, old))
            one.write("y", 4096)  # at another key it is none that was written
            one.write("x", value)
    wanted = text.split() + ["a.2,begin", "a.2,w,y,4096", "a.2,w,x,%d" % value, "a.2,commit"]
    yield differs("records whose last one aborted", wanted, texts(path))
    unknown = folder / "unknown.csv"
    text = "a,begin\na,w,x,4096\na,commit\nb,begin\nb,w,x,8192\nb,unknown\n"
    unknown.write_text(text)
    with Recorder(unknown) as recorder:
        ended(recorder.session("b"), [("r", "x", 8192)], None, True)
    yield differs("records whose last one is of unknown outcome", text.split() + ["b.2,begin", "b.2,r,x,8192", "b.2,commit"], texts(unknown))
    noted = folder / "noted-beside.csv"
    noted.write_text("a,begin\na,w,x,4096\na,commit\n")
    (folder / "noted-beside.csv.pending").write_text("a,1,x,4096,0.1,\nb,1,x,81920,0.2,\nb,1,y,12288,0.3,\n")
    with Recorder(noted) as recorder:
        value = recorder.new_value()
        yield differs("a value after the greatest of what was under way", True, value > 81920)
        with recorder.session("c").transaction() as one:
            for key, old in (("x", 81920), ("y", 12288)):
                yield "a value of what was under way, %s %d" % (key, old), raises(NoRecord, lambda key=key, old=old: one.write(key, old))
            one.write("x", 12288)  # at another key it is none that was written
    wanted = ["a,begin", "a,w,x,4096", "a,commit", "c,begin", "c,w,x,12288", "c,commit", "b,begin", "b,w,x,81920", "b,w,y,12288", "b,unknown"]
    yield differs("records after what was under way", wanted, texts(noted))
    many = folder / "many.csv"
    given = set()
    for _ in range(3):
        with Recorder(many, number=7) as recorder:
            session = recorder.session("a")
            for _ in range(20):
                value = recorder.new_value()
                given.add(value)
                ended(session, [("w", "x", value)], Broken(), True)
    yield differs("values of three runs", 60, len(given))
    far = folder / "far.csv"
    far.write_text("a,begin\na,w,x,%d\na,w,x,%d\na,commit\n" % (2**64 - 4096, 2**64 - 1))
    with Recorder(far) as recorder:
        yield differs("a value after the greatest of all", True, 0 < recorder.new_value() < 2**64 - 4096)


def unfinished(folder: pathlib.Path) -> Iterator[Outcome]:
    """A file in which a transaction doesn't end, and others after it do, is none of a recorder, and stays as it is."""
    from tcc import NoRecord, Recorder
    path = folder / "unfinished.csv"
    text = "a,begin\na,w,x,1\nb,begin\nb,r,x,1\nb,commit\n"
    path.write_text(text)
    yield "a transaction without an end", raises(NoRecord, lambda: Recorder(path))
    yield differs("the text of it", text, path.read_text())
    path.write_text("a,begin\nb,begin\nb,w,x,1\na,r,x,1\na,commit\nb,commit\nseal\nc,begin\nc,w,x,2\n")
    with Recorder(path) as recorder:
        yield "a value of what was cut off", raises(NoRecord, lambda: ended(recorder.session("d"), [("w", "x", 2)], None, True))
    yield differs("side by side, and a seal", 7, len(texts(path)))


def values(folder: pathlib.Path) -> Iterator[Outcome]:
    """What no value is, the greatest one, and a value that is written twice."""
    from tcc import NoRecord, Recorder
    path, greatest = folder / "values.csv", 2**64 - 1
    with Recorder(path) as recorder:
        session = recorder.session("a")
        with session.transaction() as one:
            for wrong in ("12", b"12", 1.9, 1.0, True, -1, 2**64, [], float("nan")):
                yield "a read of %r" % (wrong,), raises(NoRecord, lambda wrong=wrong: one.read("x", wrong))
                yield "a write of %r" % (wrong,), raises(NoRecord, lambda wrong=wrong: one.write("x", wrong))
            yield "a write of None", raises(NoRecord, lambda: one.write("x", None))
            yield "a key that is no text", raises(NoRecord, lambda: one.read(7, 7))
            one.write("x", greatest)
            one.read("x", greatest)
            yield "a value twice", raises(NoRecord, lambda: one.write("x", greatest))
            mine = recorder.new_value()
            one.write("x", mine)
            one.write("y", mine)  # at another key
            for key in "xy":
                yield "a value of the recorder twice, at %s" % key, raises(NoRecord, lambda key=key: one.write(key, mine))
            far = 4096 * 300000  # far ahead of what the recorder gave
            for key in "xy":
                one.write(key, far)
            for key in "xy":
                yield "a value far ahead twice, at %s" % key, raises(NoRecord, lambda key=key: one.write(key, far))
            yield differs("a value after one far ahead", True, recorder.new_value() > far)
        yield "a read after its transaction", raises(NoRecord, lambda: one.read("x", 1))
        yield "a write after its transaction", raises(NoRecord, lambda: one.write("x", 1))
        ended(session, [("w", "x", 3)], Broken(), False)
        yield "a value of what aborted", raises(NoRecord, lambda: ended(session, [("w", "x", 3)], None, True))
    wanted = ["a,begin", "a,w,x,%d" % greatest, "a,r,x,%d" % greatest, "a,w,x,%d" % mine, "a,w,y,%d" % mine,
              "a,w,x,%d" % far, "a,w,y,%d" % far, "a,commit", "a,begin", "a,w,x,3", "a,abort"]
    yield differs("records of the greatest value", wanted, texts(path))


def outcomes_in_doubt(folder: pathlib.Path) -> Iterator[Outcome]:
    """Two unknown outcomes that were both read, one that only an aborted transaction read; and what was rolled back in the end."""
    from tcc import Recorder
    path = folder / "doubt.csv"
    with Recorder(path) as recorder:
        a, b, c = (recorder.session(name) for name in "abc")
        ended(a, [("w", "x", 1)], Broken(), True)
        ended(b, [("w", "x", 2), ("w", "y", 3)], Broken(), True)
        ended(c, [("r", "x", 1)], None, True)
        ended(c, [("r", "y", 3)], None, True)
        with c.transaction() as one:
            one.write("z", 4)
            one.committing()
            one.abort()
        counts = recorder.close()
    wanted = ["a,begin", "a,w,x,1", "a,unknown", "b,begin", "b,w,x,2", "b,w,y,3", "b,unknown",
              "c,begin", "c,r,x,1", "c,commit", "c,begin", "c,r,y,3", "c,commit", "c,begin", "c,w,z,4", "c,abort"]
    yield differs("two unknown outcomes that were read", (wanted, 2), (texts(path), counts))
    other = folder / "doubt-aborted.csv"
    other.write_text("r,begin\nr,r,x,1\nr,abort\n")
    with Recorder(other) as recorder:
        ended(recorder.session("a"), [("w", "x", 1)], Broken(), True)
        yield differs("read by what aborted", 1, recorder.close())


def closed_meanwhile(folder: pathlib.Path) -> Iterator[Outcome]:
    """A recorder that is closed while a transaction is under way: what was read of it committed."""
    from tcc import NoRecord, Recorder
    path = folder / "meanwhile.csv"
    recorder = Recorder(path)
    a, b = recorder.session("a"), recorder.session("b")

    def late() -> None:
        with a.transaction() as one:
            one.write("x", 1)
            ended(b, [("r", "x", 1)], None, True)
            recorder.close()

    yield "an end after the end of the records", raises(NoRecord, late)
    yield differs("records of what was under way", ["b,begin", "b,r,x,1", "b,commit", "a,begin", "a,w,x,1", "a,unknown"], texts(path))


def forked(folder: pathlib.Path) -> Iterator[Outcome]:
    """A recorder that was carried over a fork records nothing there, and takes nothing from the process that opened it."""
    from tcc import NoRecord, Recorder
    path = folder / "forked.csv"
    recorder = Recorder(path)
    session = recorder.session("a")
    child = os.fork()
    if child == 0:
        refused = [raises(NoRecord, what) for what in (recorder.new_value, lambda: recorder.session("b"),
                                                       lambda: ended(session, [("w", "x", 1)], None, True))]
        recorder.close()
        os._exit(0 if not any(refused) and os.path.exists(str(path) + ".pending") else 1)
    yield differs("what a fork is refused", 0, os.waitpid(child, 0)[1])
    ended(session, [("w", "x", 1)], None, True)
    holding, told = os.pipe()
    child = os.fork()
    if child == 0:
        os.close(told)
        os.read(holding, 1)
        os._exit(0)
    recorder.close()
    yield differs("records beside a fork", ["a,begin", "a,w,x,1", "a,commit"], texts(path))
    try:
        Recorder(path).close()
        again = None
    except Exception as error:
        again = str(error)
    yield "the file again, while the fork is alive", again
    os.close(told)
    os.waitpid(child, 0)


def links(folder: pathlib.Path) -> Iterator[Outcome]:
    """A file beside that is a symbolic link, and files that are one."""
    from tcc import NoRecord, Recorder
    held = folder / "held.txt"
    held.write_text("mine\n")
    path = folder / "linked.csv"
    os.symlink(held, str(path) + ".pending")
    yield "a file beside that is a link", raises(NoRecord, lambda: Recorder(path))
    yield differs("what the link names", "mine\n", held.read_text())
    one = folder / "one.csv"
    yield "records and annotations in one file", raises(NoRecord, lambda: Recorder(one, notes=one))
    yield "annotations in the file beside", raises(NoRecord, lambda: Recorder(one, notes=str(one) + ".pending"))
    yield "annotations of another form", raises(NoRecord, lambda: Recorder(one, notes=held))
    yield differs("a file of another form", "mine\n", held.read_text())
    yield "records in no regular file", raises(NoRecord, lambda: Recorder(os.devnull))
    with Recorder(one):
        pass


def annotations(folder: pathlib.Path, library: str) -> Iterator[Outcome]:
    """Each annotation is of its own transaction; the time goes on after a restart; what a dead process left has node and time."""
    from tcc import Recorder
    from tcc.common.notes import read_notes
    path, notes = folder / "noted.csv", folder / "noted.notes"
    with Recorder(path, notes=notes) as recorder:
        session = recorder.session("a", node="n0")
        for number in range(1, 5):
            with session.transaction() as one:
                one.node = "=n%d" % number
                one.write("x", number)
    found = read_notes(notes)
    yield differs("nodes", ["=n1", "=n2", "=n3", "=n4"], [found["a/%d" % number].node for number in range(1, 5)])
    yield differs("a node that isn't a formula", "a/1,'=n1,", notes.read_text().splitlines()[1][:9])
    moved = folder / "moved.notes"
    with Recorder(folder / "moved.csv", notes=moved) as recorder:
        session = recorder.session("a")
        for number, node in enumerate(("n1", "n2", "", "n1"), 1):
            session.node = node  # the client has turned to another node
            ended(session, [("w", "x", number)], None, True)
    yield differs("nodes of a client that turns to others", ["n1", "n2", "", "n1"], [read_notes(moved)["a/%d" % place].node for place in range(1, 5)])
    os.utime(notes, (1e9, 1e9))  # as if the first run had been long ago
    dying = "\n".join(("import os, sys", "from tcc import Recorder", "recorder = Recorder(sys.argv[1], notes=sys.argv[2])",
                       "session = recorder.session('b', node='n, 5')", "with session.transaction() as one:",
                       "    one.write('x', 9)", "    os._exit(0)"))
    run([sys.executable, "-c", dying, str(path), str(notes)], library)
    with Recorder(path, notes=notes) as recorder:
        ended(recorder.session("c"), [("r", "x", 9)], None, True)
    found = read_notes(notes)
    settled = found["b/1"]
    yield differs("of a dead process: node and note", ("n, 5", "unknown: the recorder was closed before it ended"), (settled.node, settled.note))
    times = [float(found[label].time) for label in ("a/1", "a/4", "b/1", "c/1")]
    yield "times", None if times == sorted(times) and times[1] < 1000 < times[2] < times[3] < times[2] + 100 else str(times)
    yield differs("each annotation once", 6 + 1, len(notes.read_text().splitlines()))


def busy_threads(folder: pathlib.Path, tcc: List[str]) -> Iterator[Outcome]:
    """Threads whose transactions end in all ways, at a store that keeps its promise: whatever is in doubt, there is an order."""
    import random

    from tcc import Recorder
    path, values, lock = folder / "busy.csv", {}, threading.Lock()

    def work(recorder, number: int) -> None:
        chance = random.Random(number)
        session = recorder.session("c%d" % number)
        for _ in range(30):
            with contextlib.suppress(Broken), session.transaction() as one, lock:
                how = chance.choice(("commit", "commit", "before", "lost", "done"))
                keys = chance.sample(["x", "y", "z"], 2)
                one.read(keys[0], values.get(keys[0]))
                value = recorder.new_value()
                one.write(keys[1], value)
                if how == "before":
                    raise Broken
                one.committing()
                if how != "lost":
                    values[keys[1]] = value
                if how != "commit":
                    raise Broken

    with Recorder(path) as recorder:
        working = [threading.Thread(target=work, args=(recorder, number)) for number in range(3)]
        for thread in working:
            thread.start()
        for thread in working:
            thread.join()
    done = subprocess.run([*tcc, "explain", "--large", "--require", "20", str(path)], capture_output=True, timeout=SECONDS, check=False)
    yield differs("the answer for transactions that end in all ways", 0, done.returncode)


def outcomes(folder: pathlib.Path, library: str, tcc: List[str]) -> Iterator[Outcome]:
    for part in (full_disk(folder, tcc), full_at_the_end(folder, library), torn(folder), unnoted(folder), sealed(folder), short_writes(folder), notes_fail(folder), reopened(folder),
                 unfinished(folder), values(folder), outcomes_in_doubt(folder), closed_meanwhile(folder), forked(folder), links(folder),
                 annotations(folder, library), busy_threads(folder, tcc)):
        yield from part
