"""Events among annotations, and one recording that is judged by client and by node."""
import pathlib
import sys
from typing import Iterator, List

from counted import Outcome
from helpers import differs, ended, raises, run


def events(folder: pathlib.Path) -> Iterator[Outcome]:
    """What happened meanwhile, beside what transactions have."""
    from tcc import NoRecord, Recorder
    from tcc.common.notes import Event, read_events, read_notes
    path = folder / "events.notes"
    with Recorder(folder / "events.csv", notes=path) as recorder:
        recorder.event("start-pause n1", node="n1")
        ended(recorder.session("a", node="n0"), [("w", "x", 1)], None, True)
        recorder.event('=cut, "all"')
    with Recorder(folder / "events.csv", notes=path) as recorder:
        recorder.event("stop-pause n1")
    found = read_events(path)
    wanted = [("start-pause n1", "n1"), ('=cut, "all"', ""), ("stop-pause n1", "")]
    yield differs("events", wanted, [(one.what, one.node) for one in found])
    times = [one.time for one in found]
    yield "times of events", None if times == sorted(times) and 0 <= times[0] and times[2] < 100 else str(times)
    yield differs("transactions beside events", ["a/1"], list(read_notes(path)))
    with Recorder(folder / "no-events.csv") as recorder:
        yield "an event without annotations", raises(NoRecord, lambda: recorder.event("cut"))
    path.write_text("node,transaction,note,time\nn1,,late,2.5\n,a/1,,1\n,,early,0.5\n,,never,\n,,nan,nan\n")
    yield differs("events of another order", [Event("early", 0.5), Event("late", 2.5, "n1")], read_events(path))


def spelled(folder: pathlib.Path) -> Iterator[Outcome]:
    """No cell begins as a formula does, and each is read as it was; an apostrophe of somebody's own stays."""
    from tcc import Recorder
    from tcc.common.notes import Note, read_events, read_notes, write_notes
    path, texts = folder / "spelled.notes", ["=1+1", "+1", "-1", "@a", "'a", "''=a", 'a "b", c']
    with Recorder(folder / "spelled.csv", notes=path) as recorder:
        for text in texts:
            recorder.event(text)
    yield differs("events that look like formulas", texts, [one.what for one in read_events(path)])
    write_notes(path, [("a/%d" % place, Note(node=text, note=text)) for place, text in enumerate(texts, 1)])
    yield differs("annotations that look like formulas", [(text, text) for text in texts], [(one.node, one.note) for one in read_notes(path).values()])
    raw = [line.split(",")[1][0] for line in path.read_text().splitlines()[1:5]]
    yield differs("how their cells begin", ["'"] * 4, raw)


def ways(folder: pathlib.Path, library: str, tcc: List[str]) -> Iterator[Outcome]:
    """A client writes at one node, and doesn't see it at the next: an anomaly of the client's session, and none of each node's."""
    from tcc import Anomaly, Consistent, Recorder, explain
    from tcc.common.notes import read_notes
    path, notes = folder / "nodes.csv", folder / "nodes.notes"
    with Recorder(path, notes=notes) as recorder:
        session = recorder.session("c")
        other = recorder.session("c.n0", node="n0")  # a name that the other one would have
        for node, does, value in (("n0", "w", 1), ("n1", "r", None), ("n0", "r", 1), ("", "r", 1)):
            with session.transaction() as one:
                one.node = node
                one.read("x", value) if does == "r" else one.write("x", value)
        ended(other, [("r", "x", 1)], None, True)
    yield differs("by client", Anomaly, type(explain(path, tcc=tcc[-1])))
    answer = explain(path, tcc=tcc[-1], sessions="node", notes=notes)
    yield differs("by node", (Consistent, 5, 4), (type(answer), answer.transactions, answer.sessions))
    split, split_notes = folder / "split.csv", folder / "split.notes"
    words = [sys.executable, library + "/bin/tcc-sessions", str(path), str(notes), "-o", str(split), "--notes-output", str(split_notes)]
    yield differs("tcc-sessions", 0, run(words, library).returncode)
    wanted = ["c.n0-2,begin", "c.n0-2,w,x,1", "c.n0-2,commit", "c.n1,begin", "c.n1,r,x,0", "c.n1,commit", "c.n0-2,begin", "c.n0-2,r,x,1",
              "c.n0-2,commit", "c,begin", "c,r,x,1", "c,commit", "c.n0.n0,begin", "c.n0.n0,r,x,1", "c.n0.n0,commit"]
    yield differs("records by node", wanted, split.read_text().split())
    nodes = {label: note.node for label, note in read_notes(split_notes).items()}
    yield differs("annotations by node", {"c.n0-2/1": "n0", "c.n1/1": "n1", "c.n0-2/2": "n0", "c/1": "", "c.n0.n0/1": "n0"}, nodes)
    yield "by something else", raises(ValueError, lambda: explain(path, tcc=tcc[-1], sessions="key"))
    yield "by node without annotations", raises(ValueError, lambda: explain(path, tcc=tcc[-1], sessions="node"))
    yield differs("tcc-sessions of no records", 1, run([*words[:2], str(notes), str(notes), "-o", str(split)], library).returncode)


def outcomes(folder: pathlib.Path, library: str, tcc: List[str]) -> Iterator[Outcome]:
    yield from events(folder)
    yield from spelled(folder)
    yield from ways(folder, library, tcc)
