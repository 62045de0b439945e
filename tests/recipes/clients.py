"""The clients that the documents show, and the one that recorders use: their connections are cut at every call.

A store of one map counts the calls of its connections, those that open one too. At the calls of `cuts` a connection breaks before
the call was done or after it, or the store refuses the transaction; a connection that broke takes what it hasn't committed with it.
Whatever was cut, the whole work has to be done, and what is recorded as committed or aborted has to be what happened. Names of
sessions are used one after the other, and `tcc` has to find an order.
"""
import contextlib
import importlib.util
import io
import pathlib
import subprocess
import sys
import tempfile
import time
import types
from typing import Dict, Iterator, List, Set, Tuple

TOP = pathlib.Path(__file__).resolve().parent.parent.parent
sys.path.insert(0, str(TOP / "tests"))
sys.path.insert(0, str(TOP / "python"))
from counted import Outcome  # noqa: E402
from tcc import Recorder, harness  # noqa: E402
from tcc.harness import client as harness_client  # noqa: E402

SECONDS = 1800
WORK = [(["x"], ["x", "y"]), (["x", "y"], []), ([], ["y"]), (["z"], ["x"])]
LAST = "read z"
KINDS = ("before", "behind", "refused")


class Refused(Exception):
    """The store refuses a transaction."""


class Server:
    """The map, what was committed, and at which calls what happens."""

    def __init__(self, cuts: Dict[int, str], refusal: type = Refused):
        self.cuts, self.refusal = cuts, refusal
        self.calls: List[str] = []
        self.opened = 0
        self.values: Dict[str, int] = {}
        self.committed: Set[Tuple[str, int]] = set()

    @contextlib.contextmanager
    def call(self, what: str) -> Iterator[None]:
        self.calls.append(what)
        cut = self.cuts.get(len(self.calls))
        if cut == "before":
            raise ConnectionResetError()
        if cut == "refused":
            raise self.refusal()
        yield
        if cut == "behind":
            raise ConnectionResetError()

    def connect(self) -> "Connection":
        with self.call("connect"):
            pass
        self.opened += 1
        return Connection(self)

    def loses_all(self) -> None:
        """Every write is lost, those that were committed too."""
        self.values.clear()


class Connection:
    """A connection, with what its transaction has written so far; after a cut nothing may be asked of it."""

    def __init__(self, server: Server):
        self.server, self.pending, self.is_cut = server, {}, False

    @contextlib.contextmanager
    def call(self, what: str) -> Iterator[None]:
        assert not self.is_cut, "a call over a connection that broke"
        try:
            with self.server.call(what):
                yield
        except ConnectionResetError:
            self.is_cut = True
            raise
        except self.server.refusal:
            self.pending.clear()
            raise

    def read(self, key: str):
        with self.call("read " + key):
            return self.pending.get(key, self.server.values.get(key))

    def write(self, key: str, value: int) -> None:
        with self.call("write " + key):
            self.pending[key] = value

    def commit(self) -> None:
        with self.call("commit"):
            self.server.values.update(self.pending)
            self.server.committed.update(self.pending.items())
            self.pending.clear()

    def close(self) -> None:
        self.pending.clear()


def example() -> dict:
    """The names that the client to copy defines; what waits there doesn't wait here."""
    names: dict = {}
    exec((TOP / "examples/client.py").read_text(), names)
    names["time"] = types.SimpleNamespace(monotonic=time.monotonic, sleep=lambda _: None)
    return names


# What a client noted: session, operations, and how it ended.
Done = List[Tuple[str, List[Tuple[str, str, int]], str]]


def documented(cuts: Dict[int, str], keeps: bool) -> Tuple[Server, Done]:
    """What the client to copy notes, and after it another one that reads all."""
    names, done = example(), []
    server, until = Server(cuts, names["Refused"]), time.monotonic() + SECONDS
    names["client"](1, server.connect, WORK, done, until, keeps)
    server.cuts = {}
    names["client"](2, server.connect, [(["x", "y"], [])], done, until, keeps)
    return server, done


class Cut(harness.Connection):
    """A connection of the harness over one to the map."""

    def __init__(self, one: Connection):
        self.one = one

    def read(self, key: str) -> harness.Found:
        return harness.Found(self.one.read(key))

    def write(self, key: str, value: int) -> None:
        self.one.write(key, value)

    def commit(self) -> None:
        self.one.commit()

    def rollback(self) -> None:
        """What was refused is gone already."""

    def close(self) -> None:
        self.one.close()


class Store(harness.Store):
    """The map as a store of the harness."""

    atomic, refused = harness.Atomic.TRANSACTION, (Refused,)

    def __init__(self, server: Server):
        self.server = server

    def connect(self, node: str) -> Cut:
        return Cut(self.server.connect())

def recorded(cuts: Dict[int, str], keeps: bool) -> Tuple[Server, Done]:
    """What a client of the harness notes, and after it another one that reads all."""
    harness_client.RECONNECT_SECONDS = 0.0
    server, pace = Server(cuts), harness.Pace(statement=0.0)
    with tempfile.TemporaryDirectory() as folder:
        path = pathlib.Path(folder, "records.csv")
        with Recorder(path) as recorder:
            for number, work in ((1, WORK), (2, [(["x", "y"], [])])):
                left = iter(work)
                client = harness.Client(Store(server), recorder, number, harness.Lag(), pace=pace, keeps_session=keeps)

                def turn(one: harness.Client, left=left) -> None:
                    one.connection_to("n0")  # one that is refused uses up no work
                    one.do("n0", *next(left, (["x"], [])))

                client.work(turn, lambda one: one.ended >= len(work))
                server.cuts = {}
        return server, noted(path)


def noted(path: pathlib.Path) -> Done:
    """The transactions of a file, as a client notes them."""
    done: Done = []
    for session, does, *pair in (line.split(",") for line in path.read_text().split()):
        if does == "begin":
            steps: List[Tuple[str, str, int]] = []
        elif pair:
            steps.append((does, pair[0], int(pair[1])))
        else:
            done.append((session, steps, does))
    return done


def untrue(server: Server, done: Done, keeps: bool) -> Iterator[str]:
    """What of the notes isn't what happened."""
    for session, steps, end in done:
        writes = {(key, value) for does, key, value in steps if does == "w"}
        if end != "unknown" and writes and (end == "commit") != (writes <= server.committed):
            yield "%s of %s: noted as %s" % (sorted(writes), session, end)
        if end != "commit" and len(writes) != len(steps):
            yield "a read of a transaction that didn't commit is noted"
    mine = [(session, end) for session, _, end in done if session.startswith("c1")]
    last = int((mine[-1][0].split(".") + ["1"])[1])
    unknown = sum(end == "unknown" for _, end in mine[:-1])
    if last != (1 + unknown if keeps else server.opened - 1):
        yield "%d connections, sessions and ends %s" % (server.opened, mine)
    if LAST not in server.calls or not done[-1][0].startswith("c2"):
        yield "the work wasn't done"


def answer(done: Done, tcc: List[str]) -> int:
    """The status of `tcc explain` for what was noted, once it is settled."""
    out = io.StringIO()
    example()["write_records"](done, out)
    asked = subprocess.run([*tcc, "explain", "--require", "1"], input=out.getvalue().encode(), capture_output=True,
                           timeout=SECONDS, check=False)
    return asked.returncode


def cut_everywhere(client, tcc: List[str]) -> Iterator[str]:
    """What goes wrong where a client's connections are cut at every call, at one and at three in a row."""
    whole, _ = client({}, False)
    for keeps in (False, True):
        for first in range(1, len(whole.calls) + 1):
            for cuts in [{first: kind} for kind in KINDS] + [dict.fromkeys(range(first, first + 3), kind) for kind in KINDS[:2]]:
                if cuts == {1: "refused"}:
                    continue  # a connection that opens is no transaction
                server, done = client(cuts, keeps)
                wrong = next(untrue(server, done, keeps), None)
                status = 0 if wrong else answer(done, tcc)
                if wrong or status:
                    yield "cut %s, sessions %s: %s" % (cuts, "kept" if keeps else "new", wrong or "status %d" % status)


def lost(keeps: bool) -> Done:
    """What the client to copy notes where all commits are lost while it works."""
    names, done = example(), []
    server = Server({6: "before"}, names["Refused"])  # a connection and two transactions of two calls are before it

    def connect():
        if server.opened:
            server.loses_all()
        return server.connect()

    work = [([], ["x"]), ([], ["y"]), (["x"], []), (["x"], [])]
    names["client"](1, connect, work, done, time.monotonic() + SECONDS, keeps)
    return done


def as_shown() -> Iterator[Outcome]:
    """The client to copy: what it writes is what it saw, with each way in which a commit may end."""
    names, done, out = example(), [], io.StringIO()
    # The second transaction is refused in its COMMIT, the third breaks before it, the fourth breaks in it and happened.
    server = Server({6: "refused", 8: "before", 12: "behind"}, names["Refused"])
    work = [([], ["x"]), (["x"], ["y"]), (["x"], ["z"]), ([], ["x", "z"]), (["z"], [])]
    names["client"](1, server.connect, work, done, time.monotonic() + SECONDS)
    names["client"](2, server.connect, [(["x", "y", "z"], [])], done, time.monotonic() + SECONDS)
    # One that nobody read: a write of w that breaks in its COMMIT.
    server = Server({3: "behind"}, names["Refused"])
    names["client"](3, server.connect, [([], ["w"])], done, time.monotonic() + SECONDS)
    names["write_records"](done, out)
    wanted = ["c1.1,begin", "c1.1,w,x,65", "c1.1,commit", "c1.1,begin", "c1.1,w,y,129", "c1.1,abort",
              "c1.1,begin", "c1.1,w,z,193", "c1.1,abort", "c1.2,begin", "c1.2,w,x,257", "c1.2,w,z,321", "c1.2,unknown",
              "c1.3,begin", "c1.3,r,z,321", "c1.3,commit", "c2.1,begin", "c2.1,r,x,257", "c2.1,r,y,0", "c2.1,r,z,321", "c2.1,commit",
              "c3.1,begin", "c3.1,w,w,67", "c3.1,unknown"]
    yield "client to copy", None if out.getvalue().split() == wanted else "wrote %s" % out.getvalue().split()


def annotated() -> Iterator[Outcome]:
    """Annotations are read as they were written."""
    from tcc.common.notes import Note, read_notes, write_notes
    wanted = {"c1/1": Note("n0", "0.500000"), "c2/1": Note(), "c1/2": Note("n2", "1.250000", note="a, b")}
    with tempfile.TemporaryDirectory() as folder:
        path = pathlib.Path(folder, "notes.csv")
        write_notes(path, wanted.items())
        text, read = path.read_text(), read_notes(path)
    yield "annotations", None if text == 'transaction,node,time,note\nc1/1,n0,0.500000,\nc2/1,,,\nc1/2,n2,1.250000,"a, b"\n' else "wrote %r" % text
    yield "annotations, read", None if read == wanted else "read %s" % read
    said = [one.text() for one in read.values()]
    yield "annotations, said", None if said == ["at n0, 0.500000 s", "", "at n2, 1.250000 s: a, b"] else str(said)


def refused_by_a_cluster() -> Iterator[Outcome]:
    """What a node of Galera says of a transaction that it refuses, and what it says of one whose connection broke."""
    sys.path.insert(0, str(TOP / "recipes/galera"))
    spec = importlib.util.spec_from_file_location("galera_record", TOP / "recipes/galera/record.py")
    record = importlib.util.module_from_spec(spec)
    sys.modules[spec.name] = record
    spec.loader.exec_module(record)
    driver = types.SimpleNamespace(Error=type("Error", (Exception,), {}))
    for number, wanted in ((1213, "Refused"), (1205, "Refused"), (2013, "Error"), (1047, "Error")):
        got = "nothing"
        try:
            with record.refusals(driver):
                raise driver.Error(number, "why")
        except Exception as error:
            got = type(error).__name__
        yield "error %d of a node" % number, None if got == wanted else got


def outcomes(tcc: List[str]) -> Iterator[Outcome]:
    yield from as_shown()
    yield from refused_by_a_cluster()
    yield from annotated()
    for name, client in (("client to copy", documented), ("clients of recorders", recorded)):
        yield "%s, cut at every call" % name, next(cut_everywhere(client, tcc), None)
    for keeps, wanted in ((False, 0), (True, 1)):
        status = answer(lost(keeps), tcc)
        name = "commits that are lost, sessions %s" % ("kept" if keeps else "new")
        yield name, None if status == wanted else "status %d" % status
