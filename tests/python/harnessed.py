"""The harness, at a store in memory whose replicas lag on demand: what lags is counted, sessions end where they have to, troubles happen,
rounds come to their goal or say why not, and several processes have one watch."""
import contextlib
import os
import pathlib
import random
import re
import signal
import threading
import types
from typing import Dict, Iterator, List, Tuple

from counted import Outcome
from helpers import TOP, differs, raises

# Records and versions of two keys, and which reads are stale by versions, by hand. b/1 has observed y = 2, and by it x = 2 of version 2;
# c/1 reads x = 1, having observed nothing newer; c/2 has observed x = 3 of version 3 by z, so x = 1 is stale; d/1 reads nothing, and has
# observed nothing; d/2 has observed x = 3, and reads y as nothing, of which a had written a version before.
RECORDS = """a,begin|a,w,x,1|a,commit|a,begin|a,w,x,2|a,w,y,2|a,commit|b,begin|b,r,y,2|b,r,x,1|b,commit|c,begin|c,r,x,1|c,commit
a,begin|a,w,x,3|a,commit|a,begin|a,w,z,1|a,commit|c,begin|c,r,z,1|c,r,x,1|c,commit|d,begin|d,r,x,0|d,commit|d,begin|d,r,x,3|d,r,y,0|d,commit
e,begin|e,w,x,9|e,abort|f,begin|f,w,x,4|f,unknown|g,begin|g,r,x,4|g,commit|g,begin|g,r,x,3|g,commit"""
# The same of another history: b reads the older x after it read y of who knew the newer x, and then x as nothing; and z of an unknown outcome,
# of which the version is known by the read.
OTHER = """a,begin|a,w,x,1|a,commit|c,begin|c,w,x,2|c,commit|c,begin|c,w,y,3|c,commit|b,begin|b,r,y,3|b,commit|b,begin|b,r,x,1|b,r,y,3|b,commit
b,begin|b,r,x,0|b,commit|a,begin|a,r,x,1|a,r,y,0|a,commit|d,begin|d,w,z,5|d,unknown|d.2,begin|d.2,w,z,6|d.2,commit
b,begin|b,r,z,6|b,commit|b,begin|b,r,z,5|b,commit"""
OTHER_VERSIONS, OTHER_STALE = "key,value,version\nx,1,2\nx,2,3\ny,3,4\nz,6,9\nz,5,7\n", {("b/2", "x"), ("b/3", "x"), ("b/5", "z")}
VERSIONS = "key,value,version\nx,1,1\nx,2,2\ny,2,2\nx,3,3\nz,1,4\nx,4,5\n"
STALE = {("b/1", "x"), ("c/2", "x"), ("d/2", "y"), ("g/2", "x")}


def lag() -> Iterator[Outcome]:
    """Of two writes of x, each with begin, end and version, and a read that begins at a time, whether it lags; by hand from the definition."""
    from tcc.harness import Found, Lag
    apart, beside = ((1, 0.0, 1.0), (2, 2.0, 3.0)), ((1, 0.0, 2.5), (2, 2.0, 3.0))
    for name, writes, begun, value, is_late in (
            ("the newest", apart, 4.0, 2, False), ("the older one", apart, 4.0, 1, True),
            ("the older one, before the newer has finished", apart, 2.5, 1, False), ("the older one, while the newer begins", apart, 1.5, 1, False),
            ("nothing", apart, 4.0, None, True), ("nothing, before any has finished", apart, 0.5, None, False),
            ("one of two side by side", beside, 4.0, 1, False), ("one that never finished", apart, 4.0, 7, False)):
        heard = Lag()
        for written, first, last in (one for one in writes if one[2] < begun):
            heard.wrote("x", written, first, last)
        yield differs("a read that returns %s lags" % name, is_late, heard.read("n0", "x", Found(value), heard.newest("x")))
    heard = Lag()
    heard.wrote("x", 1, 0.0, 2.5, 8)
    heard.wrote("x", 2, 2.0, 3.0, 5)
    versioned = [heard.read(node, "x", Found(*found), heard.newest("x")) for node, found in (("n0", (1, 8)), ("n1", (2, 5)), ("n1", (9, 9)))]
    yield differs("reads that lag by versions", [False, True, False], versioned)
    wanted = "1 of 3 reads were older than the newest finished write: 1 of 2 at n1"
    yield differs("what is said of lag", wanted, heard.text())
    heard = Lag()
    heard.reads["n0"] = 31000
    yield differs("what is said of none", "0 of 31,000 reads were older than the newest finished write: nothing lagged, so a consistent answer says little",
                  heard.text())


def second_opinion(folder: pathlib.Path) -> Iterator[Outcome]:
    from tcc.harness import Circle, stale_reads
    records, versions = folder / "opinion.csv", folder / "opinion.versions"
    records.write_text(RECORDS.replace("|", "\n") + "\n")
    versions.write_text(VERSIONS)
    yield differs("stale reads by versions", STALE, stale_reads([records], [versions]))
    halves = [folder / "opinion.0.csv", folder / "opinion.1.csv"]
    lines = records.read_text().splitlines(keepends=True)
    for path, mine in zip(halves, ("ab", "cdefg")):
        path.write_text("".join(line for line in lines if line[0] in mine))
    yield differs("stale reads by versions, of two files", STALE, stale_reads(halves, [versions]))
    records.write_text(OTHER.replace("|", "\n") + "\n")
    versions.write_text(OTHER_VERSIONS)
    yield differs("stale reads by other versions", OTHER_STALE, stale_reads([records], [versions]))
    records.write_text("a,begin\na,r,x,2\na,w,y,1\na,commit\nb,begin\nb,r,y,1\nb,w,x,2\nb,commit\n")
    yield "reads in a circle", raises(Circle, lambda: stale_reads([records], [versions]))


def client_of(folder: pathlib.Path, name: str, store, keeps_session: bool = False):
    """A client at a store, and its recorder."""
    from tcc import Recorder
    from tcc.harness import Client, Lag
    recorder = Recorder(folder / (name + ".csv"), notes=folder / (name + ".notes"), versions=folder / (name + ".versions"))
    return Client(store, recorder, 1, Lag(), keeps_session=keeps_session), recorder


def clients(folder: pathlib.Path) -> Iterator[Outcome]:
    """Sessions, and what is recorded, where a connection breaks before a write was done, after it, in a read, or is refused."""
    from replicas import Memory
    for keeps in (False, True):
        store = Memory()
        client, recorder = client_of(folder, "client-%s" % keeps, store, keeps)
        for how, does in ((None, "w"), ("refused", "w"), ("before", "r"), (None, "r"), ("after", "w"), (None, "r"), ("before", "w"), (None, "r")):
            if how:
                store.replicas.down["n0"] = how
            client.take(lambda one, does=does: one.do("n0", ["x"] if does == "r" else [], ["x"] if does == "w" else []))
        recorder.close()
        one, two, three = ("c1", "c1", "c1.2") if keeps else ("c1", "c1.2", "c1.3")
        last = "c1.3" if keeps else "c1.4"
        wanted = [one + ",begin", one + ",w,x,4096", one + ",commit", one + ",begin", one + ",w,x,8192", one + ",abort",
                  two + ",begin", two + ",r,x,4096", two + ",commit", two + ",begin", two + ",w,x,12288", two + ",unknown",
                  three + ",begin", three + ",r,x,12288", three + ",commit", three + ",begin", three + ",w,x,16384", three + ",unknown",
                  last + ",begin", last + ",r,x,12288", last + ",commit"]
        name = "a client, sessions %s: " % ("kept" if keeps else "new")
        yield differs(name + "records", wanted, (folder / ("client-%s.csv" % keeps)).read_text().split())
        yield differs(name + "counts", (4, 7, 1, 3), (client.answered, client.ended, client.refused, client.broken))
        yield differs(name + "connections", 4, store.connects)


def workloads(folder: pathlib.Path) -> Iterator[Outcome]:
    """What each workload does at the store, by its records."""
    from replicas import Memory
    from tcc.harness import Keys, Mixed, OneOf, ReadUntilNew, Swaps, WriteThenRead, at, elsewhere, same
    key = Keys(1)
    store = Memory(n1=2)
    client, recorder = client_of(folder, "workloads", store)
    WriteThenRead(key, at("n0"), at("n1"))(client)                           # a write, and a read that lags
    WriteThenRead(key, at("n0"), same)(client)                               # a write, and one that doesn't
    Swaps(key, at("n0"))(client)                                             # read, and written where it still has that
    Swaps(key, at("n1"))(client)                                             # the same of a node that lags: not written
    ReadUntilNew(key, at("n0"), at("n1"), most_reads=3)(client)              # a write, and three reads that lag
    Mixed(key, at("n2"), share_of_writes=1.0)(client)                        # its one key is written, so none is left to read
    OneOf([(0, ReadUntilNew(key)), (1, Mixed(key, at("n2"), 0.0))])(client)  # a read
    recorder.close()
    steps = [line[3:] for line in (folder / "workloads.csv").read_text().split() if line[3:4] in "rw"]
    wanted = ["w,k0,4096", "r,k0,0", "w,k0,8192", "r,k0,8192", "r,k0,8192", "r,k0,8192", "w,k0,12288", "r,k0,4096", "w,k0,16384", "w,k0,20480",
              "r,k0,8192", "r,k0,8192", "r,k0,8192", "w,k0,24576", "r,k0,24576"]
    yield differs("what workloads do", wanted, steps)
    yield differs("which of it lags", (5, {"n0": 3, "n1": 5, "n2": 1}), (client.late, dict(client.lag.reads)))
    ends = [line for line in (folder / "workloads.csv").read_text().split() if line.endswith("abort")]
    yield differs("what a comparison left out", ["c1,abort"], ends)
    nodes = [line.split(",")[1] for line in (folder / "workloads.notes").read_text().splitlines()[1:]]
    yield differs("at which nodes", ["n0", "n1", "n0", "n0", "n0", "n0", "n1", "n1", "n1", "n0", "n1", "n1", "n1", "n2", "n2"], nodes)
    alike = types.SimpleNamespace(chance=random.Random(1), some_node=lambda but: sorted({"n0", "n1"} - set(but))[0])
    found = [Keys(10, hot=2, share=0.8, prefix="p.").some(alike) for _ in range(10000)]
    hot = sum(one in ("p.k0", "p.k1") for one in found)
    yield "hot keys", None if 7800 < hot < 8200 and set(found) == {"p.k%d" % one for one in range(10)} else str(hot)
    yield differs("another node", ["n1", "n0"], [elsewhere(alike, node) for node in ("n0", "n1")])


def state(pid: int) -> str:
    """The state of a process, as T where it is stopped."""
    return pathlib.Path("/proc/%d/stat" % pid).read_text().rpartition(")")[2].split()[0]


def troubles(folder: pathlib.Path) -> Iterator[Outcome]:
    """Each trouble at a process: what it is while the trouble lasts, and after it; and their annotations."""
    from tcc import Recorder
    from tcc.harness import NoServer, Server, Troubles, by_command, kill, pause, pause_pid, restart
    from tcc.common.notes import read_events
    seen: List[Tuple[str, str]] = []
    server = Server("n1", ["sleep", "600"]).start()
    first = server.running

    def looked(one):
        """The trouble, with a look at the process once it has begun."""
        begin = one.begin

        def begun() -> None:
            begin()
            until = threading.Event()
            for _ in range(200):
                if first.poll() is not None or state(first.pid) == "T":
                    break
                until.wait(0.01)
            seen.append((one.name, "ended" if first.poll() is not None else state(first.pid)))

        one.begin = begun
        return one

    mark = folder / "mark"
    every = [looked(pause(server, 0.01)), looked(pause_pid("n1", first.pid, 0.01)), looked(by_command("stop", "n1", "kill -STOP %d" % first.pid,
             ["kill", "-CONT", str(first.pid)], 0.01)), looked(kill(server, 0.01)), restart(server, ready=mark.touch)]
    with Recorder(folder / "troubles.csv", notes=folder / "troubles.notes") as recorder:
        with Troubles(recorder, every, gap=0.0) as playing:
            yield "all troubles happen", None if playing.has_happened.wait(60) else repr(playing.failed)
        with Troubles(recorder, [by_command("cut", "n2", "false")], gap=0.0) as failing:
            failing._thread.join()
        yield differs("a trouble whose command fails", (NoServer, "false: status 1, ", False),
                      (type(failing.failed), str(failing.failed), failing.has_happened.is_set()))
    yield differs("what a process is in a trouble", [("pause", "T"), ("pause", "T"), ("stop", "T"), ("kill", "ended")], seen)
    yield differs("the process after them", (-signal.SIGKILL, None, True), (first.returncode, server.running.poll(), mark.exists()))
    server.end()
    yield differs("a server that is asked to end", -signal.SIGTERM, server.running.returncode)
    said = [(one.what, one.node) for one in read_events(folder / "troubles.notes")]
    wanted = [("%s-%s n1" % (when, name), "n1") for name in ("pause", "pause", "stop", "kill", "restart") for when in ("start", "stop")]
    yield differs("annotations of troubles", wanted + [("start-cut n2", "n2"), ("stop-cut n2", "n2")], said)


def linked() -> Iterator[Outcome]:
    """Nothing comes over a link that is cut, and all of it once that is over."""
    from replicas import Replicas, served
    from tcc.harness import Link, cut
    import socket
    with served(Replicas()) as ports, contextlib.ExitStack() as held:
        link = Link(ports[0])
        with socket.create_connection(("127.0.0.1", link.open(held)), timeout=600) as one:
            one.sendall(b"SET x 5\n")
            before = one.recv(100)
            trouble = cut("n0", [link])
            trouble.begin()
            one.sendall(b"GET x\n")
            one.settimeout(0.2)
            with contextlib.suppress(socket.timeout):
                yield "a link that is cut", repr(one.recv(100))
            trouble.end()
            one.settimeout(600)
            yield differs("a link", (b"1\n", b"5 1\n"), (before, one.recv(100)))


def rounds(folder: pathlib.Path, tcc: List[str]) -> Iterator[Outcome]:
    """Rounds whose store is in step, and whose store lags: the files, the summary, the answer; and what isn't reached is said."""
    from replicas import Memory
    from tcc import Anomaly, BrokenPromise, Consistent
    from tcc.harness import Goal, Keys, NoServer, Plan, Trouble, Unplayed, WriteThenRead, at, play
    from tcc.watch.watching import stopping
    workload = WriteThenRead(Keys(4), at("n0"), at("n1"))

    def plan(name: str, **more) -> Plan:
        return Plan(folder / name, **{"goal": Goal(seconds=0.2, most=50, least=50, longest=600), "tcc": tcc[-1], **more})

    fresh = play(Memory(), workload, plan("fresh"))
    yield differs("a round in step", (0, set(), Consistent), (fresh.lag.count(), fresh.stale(), type(fresh.explain())))
    yield differs("its files", ["notes.csv", "records.csv", "versions.csv"], sorted(os.listdir(folder / "fresh")))
    text = (folder / "fresh/records.csv").read_text()
    yield differs("its transactions", (text.count("begin"), 0), (fresh.worked.transactions, fresh.worked.unknown))
    late = play(Memory(n1=3), workload, plan("late", goal=Goal(seconds=0.1, lags=5, longest=600)))
    answer = late.explain()
    yield "a round that lags", None if late.lag.count() >= 5 and late.stale() and isinstance(answer, Anomaly) else "\n".join(late.summary())
    yield differs("what it says", 4, len(late.summary()))
    for name, goal, store, said in (
            ("lags", Goal(seconds=0.1, lags=1, longest=0.2), Memory(), "0 reads lagged, and not 1 within"),
            ("reads that went back", Goal(seconds=0.1, went_back=1, longest=0.2), Memory(), "0 reads were older than what their client had seen, and not 1"),
            ("answered", Goal(seconds=0.1, most=2, answered=10**6, longest=60), Memory(), r"\d+ transactions were answered, and not 1000000 within"),
            ("least", Goal(seconds=0.1, least=10**6, longest=0.2), Memory(), r"a client did \d+ transactions, and not 1000000 within")):
        why = ""
        try:
            play(store, workload, plan("unplayed-" + name, goal=goal))
        except Unplayed as error:
            why = str(error)
        yield "a round that doesn't come to its goal of " + name, None if re.match(said, why) else repr(why)

    def fails() -> None:
        raise NoServer("no such node")

    yield "a round whose trouble fails", raises(NoServer, lambda: play(Memory(), workload, plan("failing", troubles=[Trouble("cut", "n0", fails)])))
    odd = play(Memory(), lambda client: client.do("n0", ["no key"]), plan("odd", goal=Goal(seconds=5)))
    yield "a workload that fails", None if len(odd.worked.failures) == 4 and "NoRecord" in odd.summary()[0] else str(odd.summary())
    goes_on = Goal(seconds=300, longest=300)
    yield "a round that is watched", raises(BrokenPromise, lambda: play(Memory(n1=3), workload, plan("watched", goal=goes_on, watch=stopping(tcc[-1]))))
    ended: List[int] = []
    play(Memory(), workload, plan("ending", ending=lambda every: ended.extend(one.number for one in every)))
    yield differs("what clients do in the end", [1, 2, 3, 4], ended)


def documented() -> Dict[str, object]:
    """What the example of the harness defines."""
    names: Dict[str, object] = {}
    exec((TOP / "examples/own_store.py").read_text(), names)
    return names


def processes(folder: pathlib.Path, tcc: List[str]) -> Iterator[Outcome]:
    """Clients of several processes at the store of the example: one history, one count of what lags, one watch, one line of time."""
    from replicas import Replicas, served
    from tcc import BrokenPromise, Consistent
    from tcc.harness import Goal, Keys, Plan, WriteThenRead, at, play
    from tcc.common.notes import read_events, read_notes
    from tcc.watch.watching import stopping
    mine, workload = documented()["Mine"], WriteThenRead(Keys(4), at("n0"), at("n1"))
    with served(Replicas()) as ports:
        played = play(mine(ports), workload, Plan(folder / "processes", Goal(seconds=0.3, least=20, longest=600), clients=2, processes=3, 
                                                  watch=stopping(tcc[-1]), tcc=tcc[-1]))
        answer = played.explain()
    yield differs("a round of several processes", (Consistent, 6, 0, set(), []),
                  (type(answer), answer.sessions, played.lag.count(), played.stale(), played.worked.failures))
    records, notes, _ = played.join()
    text = pathlib.Path(records).read_text()
    yield differs("its transactions", (text.count("begin"), len(read_notes(notes))), (played.worked.transactions, played.worked.transactions))
    yield differs("its reads", text.count(",r,"), sum(played.lag.reads.values()))
    yield differs("its clocks", 4, len(read_events(notes)))
    times = [float(one.time) for one in read_notes(notes).values()]
    yield "times of several processes", None if times == sorted(times) and times[0] >= 0 else str(times[:5])
    with served(Replicas(n1=3)) as ports:
        plan = Plan(folder / "stopped", Goal(seconds=300), clients=2, processes=2, watch=stopping(tcc[-1]))
        yield "one watch over several processes", raises(BrokenPromise, lambda: play(mine(ports), workload, plan))
    with served(Replicas(n1=3)) as ports:
        played = play(mine(ports), workload, Plan(folder / "lagging", Goal(seconds=0.3, lags=3, longest=600), clients=1, processes=2))
    yield "what lags in several processes", None if played.lag.count() >= 3 else played.lag.text()
    dying = Plan(folder / "dying", Goal(seconds=60), clients=1, processes=2)
    with served(Replicas()) as ports:
        played = play(mine(ports), lambda client: os._exit(7) if client.number == 2 else client.do("n0", ["k0"]), dying)
    yield differs("a process that dies", ["process 2 ended early, with status 7"], played.worked.failures)


def clocks(folder: pathlib.Path) -> Iterator[Outcome]:
    """Annotations of two recorders, one of which began 2.5 seconds later; one without the time of day can't be put beside another."""
    from tcc.harness import joined_notes
    from tcc.common.notes import NoNotes
    one, other, out = (folder / ("clock-%s.csv" % name) for name in ("one", "other", "out"))
    one.write_text("transaction,node,time,note\n,,1.0,clock 2026-12-01T12:00:01.000000+00:00\na/1,n0,3.0,\n,n1,0.5,start-pause n1\n")
    other.write_text("transaction,node,time,note\n,,0.0,clock 2026-12-01T12:00:02.500000+00:00\nb/1,n1,0.25,unknown: OSError\n")
    joined_notes([one, other], out)
    wanted = ["transaction,node,time,note", ",n1,0.500000,start-pause n1", ",,1.000000,clock 2026-12-01T12:00:01.000000+00:00",
              ",,2.500000,clock 2026-12-01T12:00:02.500000+00:00", "b/1,n1,2.750000,unknown: OSError", "a/1,n0,3.000000,"]
    yield differs("annotations of two recorders", wanted, out.read_text().splitlines())
    other.write_text("transaction,time\nb/1,0.25\n")
    yield "annotations without the time of day", raises(NoNotes, lambda: joined_notes([one, other], out))


def outcomes(folder: pathlib.Path, tcc: List[str]) -> Iterator[Outcome]:
    yield from lag()
    yield from second_opinion(folder)
    yield from clients(folder)
    yield from workloads(folder)
    yield from troubles(folder)
    yield from linked()
    yield from clocks(folder)
    yield from rounds(folder, tcc)
    yield from processes(folder, tcc)
