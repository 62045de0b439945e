"""The calls of `examples/one_request.py`, at an etcd, a Redis and SQLite; and rounds at an etcd that is stopped and killed.

Where etcd or redis-server isn't on the path, what needs it is passed over, which is said. Both are started on the loopback, in a
folder of the test's own.
"""
import base64
import contextlib
import json
import os
import pathlib
import shutil
import signal
import socket
import sqlite3
import subprocess
import threading
import time
import types
import urllib.error
import urllib.request
from typing import Any, Dict, Iterator, List

from counted import Outcome
from helpers import SECONDS, TOP, differs

LOOPBACK = "127.0.0.1"
# What clients of a round wait for an answer, so that some outcomes are unknown; elsewhere a server has the time that it takes.
ANSWER_SECONDS = 0.3
# A round is over after so many seconds and so many unknown outcomes, or wasn't played after the longest time; a server that doesn't
# come up in time is started anew, so often in all.
WORK_SECONDS, LEAST_UNKNOWN, LONGEST_SECONDS, START_SECONDS, TURNS = 5.0, 4, 120.0, 120.0, 3


def shown(name: str) -> Any:
    """A function of the example."""
    names: dict = {}
    exec((TOP / "examples/one_request.py").read_text(), names)
    return names[name]


def free_port() -> int:
    with socket.create_server((LOOPBACK, 0)) as one:
        return one.getsockname()[1]


class Server:
    """A server that can be killed and started again with what it has on its disk."""

    def __init__(self, words: List[str], folder: pathlib.Path):
        self.words, self.folder = words, folder
        folder.mkdir()
        self.start()

    def start(self) -> None:
        self.running = subprocess.Popen(self.words, cwd=self.folder, stdin=subprocess.DEVNULL, stdout=subprocess.DEVNULL,
                                        stderr=subprocess.DEVNULL)

    def kill(self) -> None:
        self.running.kill()
        self.running.wait()


class Unplayed(Exception):
    """A server didn't come up, or a round didn't come far enough, on this machine."""


def waited(server: Server, what) -> None:
    """Waits until a server answers."""
    until = time.monotonic() + START_SECONDS
    while True:
        try:
            what()
            return
        except OSError as error:
            if time.monotonic() > until or server.running.poll() is not None:
                raise Unplayed("%s didn't come up: %s" % (server.words[0], error)) from error
            time.sleep(0.05)


def in_turns(name: str, play, folder: pathlib.Path) -> Iterator[Outcome]:
    """The outcomes of what is played again, in a folder of its own, where it couldn't be played; passed over where it never could."""
    for turn in range(1, TURNS + 1):
        place = folder / ("%s.%d" % (name, turn))
        place.mkdir()
        try:
            yield from list(play(place))
            return
        except Unplayed as error:
            print("%s: turn %d of %d: %s" % (name, turn, TURNS, error))
    print("%s: passed over: it couldn't be played here" % name)


class Range:
    """What a comparison of the library etcd3 is made of."""

    def __init__(self, target: str, key: str):
        self.told = {"target": target, "key": coded(key)}

    def __eq__(self, value) -> Dict[str, Any]:
        return {**self.told, "version": value} if self.told["target"] == "VERSION" else {**self.told, "value": coded(value)}


def coded(text: str) -> str:
    return base64.b64encode(text.encode()).decode()


class Etcd:
    """What the library etcd3 has of transactions, over etcd's gateway for JSON."""

    transactions = types.SimpleNamespace(
        version=lambda key: Range("VERSION", key), value=lambda key: Range("VALUE", key),
        get=lambda key: {"request_range": {"key": coded(key)}},
        put=lambda key, value: {"request_put": {"key": coded(key), "value": coded(value)}})

    def __init__(self, port: int, seconds: float = SECONDS):
        self.url, self.seconds = "http://%s:%d/v3/kv/txn" % (LOOPBACK, port), seconds

    def transaction(self, compare=(), success=(), failure=()):
        body = json.dumps({"compare": list(compare), "success": list(success), "failure": list(failure)}).encode()
        try:
            with urllib.request.urlopen(self.url, body, timeout=self.seconds) as answer:
                told = json.load(answer)
        except (urllib.error.URLError, ValueError) as error:
            raise OSError(str(error)) from error
        ranges = [[(base64.b64decode(one["value"]), one) for one in each["response_range"].get("kvs", [])] if "response_range" in each
                  else each for each in told.get("responses", [])]
        return told.get("succeeded", False), ranges


class Redis:
    """What redis-py has of MULTI, over a socket."""

    def __init__(self, port: int):
        self.file = socket.create_connection((LOOPBACK, port), timeout=SECONDS).makefile("rwb")

    def ask(self, *words: str) -> Any:
        self.file.write(b"*%d\r\n" % len(words) + b"".join(b"$%d\r\n%s\r\n" % (len(word), word.encode()) for word in words))
        self.file.flush()
        return self.answer()

    def answer(self) -> Any:
        line = self.file.readline()
        kind, rest = line[:1], line[1:].strip()
        if kind == b"*":
            return [self.answer() for _ in range(int(rest))]
        if kind == b"$":
            return None if rest == b"-1" else self.file.read(int(rest) + 2)[:-2]
        if kind != b"+":
            raise OSError("the server answered %r" % line)
        return rest

    @contextlib.contextmanager
    def pipeline(self, transaction: bool) -> Iterator["Steps"]:
        yield Steps(self)


class Steps:
    def __init__(self, server: Redis):
        self.server, self.steps = server, []

    def get(self, key: str) -> "Steps":
        self.steps.append(("GET", key))
        return self

    def set(self, key: str, value: int) -> "Steps":
        self.steps.append(("SET", key, str(value)))
        return self

    def execute(self) -> list:
        self.server.ask("MULTI")
        for step in self.steps:
            self.server.ask(*step)
        return self.server.ask("EXEC")


@contextlib.contextmanager
def etcd(folder: pathlib.Path) -> Iterator[Any]:
    """An etcd of one node, and its port."""
    port, other = free_port(), free_port()
    urls = ["http://%s:%d" % (LOOPBACK, each) for each in (port, other)]
    one = Server(["etcd", "--data-dir", "data", "--listen-client-urls", urls[0], "--advertise-client-urls", urls[0],
                  "--listen-peer-urls", urls[1], "--initial-advertise-peer-urls", urls[1], "--initial-cluster", "default=" + urls[1],
                  "--log-level", "error"], folder)
    try:
        waited(one, lambda: Etcd(port, 1.0).transaction())
        yield one, port
    finally:
        one.kill()


def comparisons(name: str, folder: pathlib.Path, tcc: List[str], asked) -> Iterator[Outcome]:
    """A comparison that holds on nothing, one that fails, one that holds; `asked` says of each whether it did."""
    from tcc import Recorder
    path = folder / (name + ".csv")
    with Recorder(path) as recorder:
        session = recorder.session("a")
        first, second, third = (recorder.new_value() for _ in range(3))
        held = [asked(session, "x", None, first), asked(session, "x", third, second), asked(session, "x", first, third)]
    yield differs("comparisons of " + name, [True, False, True], held)
    records = path.read_text().split()
    shows = name == "etcd"
    wanted = ["a,begin", "a,r,x,0", "a,w,x,%d" % first, "a,commit", "a,begin", *(["a,r,x,%d" % first] if shows else []), "a,commit",
              "a,begin", "a,w,x,%d" % second, "a,abort", "a,begin", "a,r,x,%d" % first, "a,w,x,%d" % third, "a,commit"]
    yield differs("records of comparisons of " + name, wanted, records)
    yield differs("the answer for them", 0, status(tcc, path))


def status(tcc: List[str], *paths: pathlib.Path) -> int:
    """The status of `tcc explain` for the records of some files, one after the other."""
    text = b"".join(path.read_bytes() for path in paths)
    return subprocess.run([*tcc, "explain", "--large", "--require", "1"], input=text, capture_output=True, timeout=SECONDS,
                          check=False).returncode


def of_sql(folder: pathlib.Path, tcc: List[str]) -> Iterator[Outcome]:
    compare_and_set = shown("compare_and_set")
    with contextlib.closing(sqlite3.connect(":memory:", isolation_level=None)) as database:
        database.execute("CREATE TABLE registers (key TEXT PRIMARY KEY, value INTEGER)")

        def asked(session, key, expected, value):
            if expected is None:  # the row has to be there
                with session.call() as one:
                    one.read(key).returned(None)
                    one.write(key, value)
                    database.execute("INSERT INTO registers VALUES (?, ?)", (key, value))
                return True
            cursor = database.cursor()
            adapted = types.SimpleNamespace(execute=lambda text, values: told(cursor.execute(text.replace("%s", "?"), values)))

            def told(done):
                adapted.rowcount = done.rowcount

            return compare_and_set(session, adapted, key, expected, value)

        yield from comparisons("SQLite", folder, tcc, asked)


def of_redis(folder: pathlib.Path, tcc: List[str]) -> Iterator[Outcome]:
    from tcc import Recorder
    port, path = free_port(), folder / "redis.csv"
    one = Server(["redis-server", "--port", str(port), "--bind", LOOPBACK, "--save", "", "--appendonly", "no"], folder / "redis")
    try:
        waited(one, lambda: Redis(port).ask("PING"))
        with Recorder(path) as recorder:
            session = recorder.session("a")
            values = [recorder.new_value() for _ in range(2)]
            had = [shown("swap")(session, Redis(port), "x", value, "y") for value in values]
    finally:
        one.kill()
    yield differs("what a MULTI gave", [0, values[0]], had)
    wanted = ["a,begin", "a,r,x,0", "a,w,x,%d" % values[0], "a,r,y,0", "a,commit",
              "a,begin", "a,r,x,%d" % values[0], "a,w,x,%d" % values[1], "a,r,y,0", "a,commit"]
    yield differs("records of MULTI", wanted, path.read_text().split())


def client(etcd_at: Etcd, recorder, number: int, over: threading.Event) -> None:
    """Swaps and reads, over a connection of its own for each call; after what is unknown a new session."""
    do, session, turn = etcd_at.transactions, recorder.session("c%d.%d" % (recorder.number, number)), 0
    while not over.is_set():
        turn += 1
        keys = ["k%d" % ((turn * (number + 3) + each) % 6) for each in range(2)]
        try:
            with session.call() as one:
                old = one.read(keys[0])
                value = recorder.new_value()
                one.write(keys[0], value)
                beside = one.read(keys[1])
                _, answers = etcd_at.transaction(success=[do.get(keys[0]), do.put(keys[0], str(value)), do.get(keys[1])])
                for read, found in ((old, answers[0]), (beside, answers[2])):
                    read.returned(int(found[0][0]) if found else None)
        except OSError:
            time.sleep(0.01)


def trouble(server: Server, turn: int) -> None:
    """The server is stopped for longer than clients wait, so that what they gave up happens later, or killed and started again."""
    if turn % 3 == 0:
        server.kill()
        server.start()
    else:
        server.running.send_signal(signal.SIGSTOP)
        time.sleep(1.5 * ANSWER_SECONDS)
        server.running.send_signal(signal.SIGCONT)


def committed(recorders: list) -> int:
    return sum(pathlib.Path(one.path).read_text().count(",commit\n") for one in recorders)


def played(folder: pathlib.Path, recorders: list) -> None:
    """A round of four clients for each recorder, at an etcd in trouble, until some outcomes are unknown and some transactions committed."""
    over = threading.Event()
    with etcd(folder) as (server, port):
        etcd_at, begun, turn = Etcd(port, ANSWER_SECONDS), time.monotonic(), 0
        working = [threading.Thread(target=client, args=(etcd_at, one, number, over)) for one in recorders for number in range(4)]
        for thread in working:
            thread.start()
        try:
            while time.monotonic() < begun + WORK_SECONDS or sum(one.unknown for one in recorders) < LEAST_UNKNOWN or committed(recorders) < 10:
                if time.monotonic() > begun + LONGEST_SECONDS:
                    raise Unplayed("too few transactions in %d seconds" % LONGEST_SECONDS)
                time.sleep(0.4)
                turn += 1
                trouble(server, turn)
        finally:
            over.set()
            for thread in working:
                thread.join()


def calls_of_etcd(folder: pathlib.Path, tcc: List[str]) -> Iterator[Outcome]:
    with etcd(folder / "etcd") as (_, port):
        compare_and_put = shown("compare_and_put")
        yield from comparisons("etcd", folder, tcc, lambda session, *told: compare_and_put(session, Etcd(port), *told))


def round_at_etcd(folder: pathlib.Path, tcc: List[str], recorders: int) -> Iterator[Outcome]:
    """A round of so many recorders, whose records make one history."""
    from tcc import Recorder
    with contextlib.ExitStack() as held:
        every = [held.enter_context(Recorder(folder / ("round.%d.csv" % number), number=number)) for number in range(recorders)]
        played(folder / "etcd", every)
        unknown = sum(one.close() for one in every)
    paths = [pathlib.Path(one.path) for one in every]
    name = "a round of %d recorders at an etcd that is stopped and killed" % recorders
    yield name, None if unknown >= LEAST_UNKNOWN else "only %d of unknown outcome" % unknown
    yield differs("the answer for " + name, 0, status(tcc, *paths))
    print("%s: %d transactions, %d of unknown outcome" % (name, sum(each.read_text().count("begin") for each in paths), unknown))


def outcomes(folder: pathlib.Path, tcc: List[str]) -> Iterator[Outcome]:
    yield from of_sql(folder, tcc)
    if shutil.which("redis-server"):
        yield from in_turns("calls of a Redis", lambda place: of_redis(place, tcc), folder)
    else:
        print("calls of a Redis: passed over: no redis-server on the path")
    if not shutil.which("etcd"):
        print("calls of an etcd: passed over: no etcd on the path")
        return
    yield from in_turns("calls of an etcd", lambda place: calls_of_etcd(place, tcc), folder)
    for recorders in (1, 2):
        yield from in_turns("round of %d" % recorders, lambda place, many=recorders: round_at_etcd(place, tcc, many), folder)
