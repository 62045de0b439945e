"""A recorder that `tcc watch` follows: which answers come, when and how it ends, and that a client is stopped."""
import contextlib
import io
import json
import os
import pathlib
import re
import signal
import subprocess
import sys
import threading
import time
from typing import Iterator, List

from counted import Outcome
from helpers import SECONDS, differs, ended, raises


def wait(what) -> None:
    until = time.monotonic() + SECONDS
    while not what() and time.monotonic() < until:
        time.sleep(0.05)


# Programs that end in place of `tcc watch`: what they do, their status, and what has to be said of them.
ENDING = {
    "answers once": ("for line in sys.stdin:\n    if line == 'seal\\n':\n        break\n"
                     "print('{\"answer\":\"consistent\",\"sessions\":1,\"transactions\":16}', flush=True)\n"
                     "sys.stdin.readline()\nprint('{\"answer\":\"memory\"}', flush=True)\nsys.stderr.write('no room left\\n')\nsys.exit(5)",
                     5, 'tcc watch ended with 5: memory; no room left'),
    "reads nothing": ("sys.stderr.write('no such level\\n')\nsys.exit(2)", 2, "tcc watch ended with 2: no such level"),
    "has ended": ("print('{\"answer\":\"memory\"}')\nsys.exit(5)", 5, 'tcc watch ended with 5: memory'),
    "is killed": ("sys.stdin.readline()\nos.kill(os.getpid(), signal.SIGKILL)", -9, "tcc watch ended with -9: it said nothing"),
}


def writes(recorder, session, count: int) -> None:
    for _ in range(count):
        ended(session, [("w", "y", recorder.new_value())], None, True)


def told(folder: pathlib.Path, tcc: List[str]) -> Iterator[Outcome]:
    """The first answer comes, and the one that is another: not one that a transaction under way makes unresolved for a while."""
    from tcc import Anomaly, Asking, Consistent, Recorder
    said: list = []
    path = folder / "watched-told.csv"
    with Recorder(path, watch=Asking(said.append, growth=0.05, tcc=tcc[-1])) as recorder:
        one, other, early = (recorder.session(name) for name in "abc")
        writes(recorder, one, 40)
        wait(lambda: said)
        first = list(said)
        recorder.seal()
        with other.transaction() as way:
            way.write("x", 7)
            ended(early, [("r", "x", 7)], None, True)
            before = recorder._watching.answers
            writes(recorder, one, 40)
            wait(lambda: recorder._watching.answers > before)
            way.committing()
        writes(recorder, one, 40)
        ended(other, [("r", "x", None)], None, True)
        writes(recorder, one, 40)
        wait(lambda: recorder.broken)
        answers = recorder._watching.answers
        broken = recorder.broken
    yield differs("what a watch tells", ([Consistent], [Consistent, Anomaly]), ([type(one) for one in first], [type(one) for one in said]))
    yield differs("what a watch found", (Anomaly, 3), (type(broken), broken.steps if broken else None))
    yield "how often a watch answers", None if 3 <= answers <= 20 else "%d times" % answers


def stopped(folder: pathlib.Path, tcc: List[str]) -> Iterator[Outcome]:
    """The first transaction that begins after the anomaly was found is none."""
    from tcc import BrokenPromise, Recorder
    from tcc.watch.watching import stopping
    caught = None
    with Recorder(folder / "watched-stopped.csv", watch=stopping(tcc[-1])) as recorder:
        session = recorder.session("a")
        ended(session, [("w", "x", 1)], None, True)
        ended(session, [("r", "x", None)], None, True)
        writes(recorder, session, 20)
        wait(lambda: recorder.broken)
        try:
            writes(recorder, session, 1)
        except BrokenPromise as error:
            caught = error
    yield "a client that is stopped", None if caught and str(caught).startswith("anomaly: 3 steps") else repr(caught)


def without(folder: pathlib.Path) -> Iterator[Outcome]:
    """No program, and one that fails: the answer says so, and the test goes on."""
    from tcc import Asking, NoAnswer, Recorder
    for name, program in (("no program", folder / "no-program"), ("a program that fails", "/bin/false")):
        said: list = []
        with Recorder(folder / ("watched-" + name.replace(" ", "-") + ".csv"), watch=Asking(said.append, tcc=program)) as recorder:
            writes(recorder, recorder.session("a"), 20)
            wait(lambda: said)
            writes(recorder, recorder.session("a"), 20)
        yield differs("what a watch tells with " + name, [NoAnswer], [type(one) for one in said])


def written(path: pathlib.Path, text: str) -> pathlib.Path:
    """A program of that text."""
    path.write_text("#!%s\nimport os, signal, sys, time\n%s\n" % (sys.executable, text))
    path.chmod(0o755)
    return path


def dying(folder: pathlib.Path) -> Iterator[Outcome]:
    """A program that ends too early: what is heard has its status and what it said, and the test goes on or stops."""
    from tcc import Asking, NoAnswer, Recorder
    from tcc.watch.watching import stopping
    for number, (name, (text, status, why)) in enumerate(ENDING.items()):
        said: list = []
        program = written(folder / ("dying-%d" % number), text)
        with Recorder(folder / ("dying-%d.csv" % number), watch=Asking(said.append, tcc=program)) as recorder:
            session = recorder.session("a")
            if name == "has ended":
                wait(lambda: recorder._watching._running and recorder._watching._running.poll() is not None)
            writes(recorder, session, 20)
            wait(lambda: said)
            writes(recorder, session, 40)
            wait(lambda: recorder.unjudged)
            found = recorder.unjudged
        yield differs("a program that %s" % name, (NoAnswer, status, why), (type(said[-1]), found.status, str(found)) if found else said)
        stopped_by = "not stopped"
        with contextlib.suppress(NoAnswer), Recorder(folder / ("stopping-%d.csv" % number), watch=stopping(program)) as recorder:
            session = recorder.session("a")
            try:
                for _ in range(6000):
                    writes(recorder, session, 1)
                    time.sleep(0.01)
            except NoAnswer as error:
                stopped_by = str(error)
        yield differs("a client whose watch %s" % name, why, stopped_by)


def at_the_end(folder: pathlib.Path, tcc: List[str]) -> Iterator[Outcome]:
    """However few transactions there were, the last answer is for all of them."""
    from tcc import Anomaly, Asking, BrokenPromise, Consistent, NoAnswer, NoRecord, Recorder, Unresolved
    from tcc.watch.watching import stopping
    for name, value, kind, raised in (("kept", 5, Consistent, None), ("stale", None, Anomaly, BrokenPromise), ("untraced", 7, Unresolved, NoAnswer)):
        said: list = []
        asking = {"told": Asking(said.append, tcc=tcc[-1]), "stopped": stopping(tcc[-1])}
        for way, watch in asking.items():
            caught = None
            try:
                with Recorder(folder / ("end-%s-%s.csv" % (name, way)), watch=watch) as recorder:
                    session = recorder.session("a")
                    ended(session, [("w", "x", 5)], None, True)
                    ended(session, [("r", "x", value)], None, True)
            except (BrokenPromise, NoAnswer) as error:
                caught = type(error)
            yield differs("the end of a block, %s, %s" % (name, way), raised if way == "stopped" else None, caught)
        yield differs("the last answer, %s" % name, [kind], [type(one) for one in said])
    del said[:]
    recorder = Recorder(folder / "end-way.csv", watch=Asking(said.append, tcc=tcc[-1]))
    with contextlib.suppress(NoRecord), recorder.session("a").transaction() as way:
        way.write("x", 5)
        ended(recorder.session("b"), [("r", "x", 5)], None, True)
        recorder.close()
    yield differs("the last answer, with one under way that was read", ["consistent: 2 transactions, 2 sessions\n"], [one.text() for one in said])


def heard(folder: pathlib.Path, tcc: List[str]) -> Iterator[Outcome]:
    """Who leaves the block hears of a broken promise once, also where the thread of a client heard of it before."""
    from tcc import BrokenPromise, Recorder
    from tcc.watch.watching import stopping
    for name, wanted in (("client", ["client", "end"]), ("same", ["same"])):
        caught: List[str] = []

        def work(recorder) -> None:
            session = recorder.session("a")
            try:
                ended(session, [("w", "x", 5)], None, True)
                ended(session, [("r", "x", None)], None, True)
                writes(recorder, session, 20)
                wait(lambda: recorder.broken)
                writes(recorder, session, 1)
            except BrokenPromise:
                caught.append(name)

        try:
            with Recorder(folder / ("heard-%s.csv" % name), watch=stopping(tcc[-1])) as recorder:
                if name == "client":
                    thread = threading.Thread(target=work, args=(recorder,))
                    thread.start()
                    thread.join()
                else:
                    work(recorder)
        except BrokenPromise:
            caught.append("end")
        yield differs("who hears of a broken promise, %s" % name, wanted, caught)


def every(folder: pathlib.Path, tcc: List[str]) -> Iterator[Outcome]:
    """Who wants every answer gets each: the counts of all seals, and of the end, where there is more by then."""
    from tcc import Asking, Recorder
    for more, last in ((2, [50]), (0, [])):
        said: list = []
        with Recorder(folder / ("every-%d.csv" % more), watch=Asking(said.append, tcc=tcc[-1], every=True)) as recorder:
            session = recorder.session("a")
            for count in (16, 32, 48):
                writes(recorder, session, 16)
                wait(lambda: said and said[-1].transactions == count)
            writes(recorder, session, more)
        yield differs("every answer, and %d transactions" % more, [16, 32, 48, *last], [one.transactions for one in said])


def left(folder: pathlib.Path) -> Iterator[Outcome]:
    """A block that an exception leaves waits for no answer of a program that gives none."""
    from tcc import Asking, Recorder
    begun = time.monotonic()
    with contextlib.suppress(KeyError):
        with Recorder(folder / "left.csv", watch=Asking(lambda told: None, tcc=written(folder / "sleeping", "time.sleep(600)"))) as recorder:
            writes(recorder, recorder.session("a"), 20)
            raise KeyError
    yield "a block that is left", None if time.monotonic() - begun < 300 else "it took %d seconds" % (time.monotonic() - begun)


def several(folder: pathlib.Path, tcc: List[str]) -> Iterator[Outcome]:
    """Two recorders of one store, and the file of one that has ended."""
    from tcc import Anomaly, Asking, Consistent, Recorder, Watching
    paths = [folder / ("watched-two.%d.csv" % number) for number in range(3)]
    with Recorder(paths[2], number=2) as old:
        ended(old.session("c"), [("w", "z", 1)], None, True)
    said: list = []
    with Recorder(paths[0], number=0) as first, Recorder(paths[1], number=1) as second:
        with Watching([first, second, paths[2]], Asking(said.append, tcc=tcc[-1])) as watching:
            one, other = first.session("a"), second.session("b")
            ended(one, [("w", "x", 5), ("r", "z", 1)], None, True)
            ended(other, [("r", "x", 5)], None, True)
            writes(first, one, 20)
            wait(lambda: said)
            ended(other, [("r", "x", None)], None, True)
            writes(second, other, 20)
            wait(lambda: watching.broken)
    yield differs("what a watch of two tells", [Consistent, Anomaly], [type(one) for one in said])


def together(folder: pathlib.Path, tcc: List[str]) -> Iterator[Outcome]:
    """Two recorders, each with a watch over the files of both, one of which isn't there when the other begins: each reads what the other
    wrote, and closes while the other one goes on. Then one reads an old value, and both are stopped."""
    from tcc import BrokenPromise, Recorder
    paths = [folder / ("together.%d.csv" % number) for number in range(2)]
    with stopping_at(tcc):
        first = Recorder(paths[0], number=0, watch=paths)
        one = first.session("a")
        ended(one, [("w", "x", 5)], None, True)
        second = Recorder(paths[1], number=1, watch=[str(path) for path in paths])
        other = second.session("b")
        ended(other, [("r", "x", 5), ("w", "y", 6)], None, True)
        writes(first, one, 40)
        wait(lambda: first._watching.answers)
        with other.transaction() as way:
            way.write("z", 7)
            ended(one, [("r", "y", 6), ("r", "z", 7)], None, True)
            yield differs("the first of two that closes, while another has something under way", (0, None, None), (first.close(), first.broken, first.unjudged))
            way.committing()
        writes(second, other, 40)
        yield differs("the last of two that closes", (0, None, None), (second.close(), second.broken, second.unjudged))
        heard = []
        with contextlib.suppress(BrokenPromise), Recorder(paths[0], number=0, watch=paths) as first:
            second = Recorder(paths[1], number=1, watch=paths)
            ended(second.session("b"), [("r", "x", 5), ("r", "y", 6), ("r", "x", None)], None, True)
            writes(second, second.session("c"), 40)
            wait(lambda: first.broken)
            with contextlib.suppress(BrokenPromise):
                second.close()
                heard.append("the second closed")
            writes(first, first.session("c"), 1)
            heard.append("the first went on")
    yield differs("two recorders whose store breaks its promise", [], heard)


@contextlib.contextmanager
def stopping_at(tcc: List[str]) -> Iterator[None]:
    """Meanwhile a watch that nobody names a program to takes this one."""
    kept = os.environ.get("TCC")
    os.environ["TCC"] = os.path.abspath(tcc[-1])
    try:
        yield
    finally:
        os.environ.pop("TCC")
        if kept is not None:
            os.environ["TCC"] = kept


def awaited(folder: pathlib.Path, tcc: List[str]) -> Iterator[Outcome]:
    """A watch over a file that comes later follows it; over one that never comes it judges nothing, and says so."""
    from tcc import Asking, Consistent, NoAnswer, Recorder, Watching
    path, said = folder / "awaited.csv", []
    with Watching([path], Asking(said.append, tcc=tcc[-1])) as watching:
        time.sleep(0.3)
        with Recorder(path) as recorder:
            writes(recorder, recorder.session("a"), 20)
    yield differs("a watch over a file that comes later", ([Consistent], 20), ([type(one) for one in said], said[-1].transactions))
    said.clear()
    with Watching([folder / "never.csv"], Asking(said.append, tcc=tcc[-1])) as watching:
        pass
    yield differs("a watch over one that never comes", ([NoAnswer], "tcc watch: %s never came" % (folder / "never.csv")),
                  ([type(one) for one in said], str(watching.failed)))


def closed(folder: pathlib.Path, tcc: List[str]) -> Iterator[Outcome]:
    """What isn't judged is raised by `close` too, once in a thread, and says what to do where other processes record."""
    from tcc import BrokenPromise, NoAnswer, Recorder
    with stopping_at(tcc):
        recorder = Recorder(folder / "closed.csv", watch=True)
        ended(recorder.session("a"), [("r", "x", 7)], None, True)
        why = ""
        try:
            recorder.close()
        except NoAnswer as error:
            why = str(error)
        yield "close of what isn't judged", None if "ThinAir a/1 op 1 x 7" in why and "watch=[PATH, ..], or watch=FOLDER" in why else repr(why)
        yield differs("close of it again", 0, recorder.close())
        recorder = Recorder(folder / "closed-broken.csv", watch=True)
        ended(recorder.session("a"), [("w", "x", 5)], None, True)
        ended(recorder.session("a"), [("r", "x", 5), ("r", "x", None)], None, True)
        yield "close of a broken promise", raises(BrokenPromise, recorder.close)
        caught = None
        try:
            with Recorder(folder / "closed-left.csv", watch=True) as recorder:
                ended(recorder.session("a"), [("r", "x", 7)], None, True)
                raise KeyError("mine")
        except KeyError as error:
            caught = error
        yield differs("a block that an exception leaves", "'mine'", str(caught))


def shared(folder: pathlib.Path, tcc: List[str]) -> Iterator[Outcome]:
    """Recorders announce themselves in a folder, before somebody watches it and after that. All are stopped; where nobody watches, or
    nobody does any more, `close` says so."""
    from tcc import Anomaly, Asking, BrokenPromise, Consistent, NoAnswer, NoRecord, Recorder, Watching
    run, said = folder / "shared", []
    first = Recorder(folder / "shared.0.csv", number=0, watch=run)
    one = first.session("a")
    ended(one, [("w", "x", 5)], None, True)
    with Watching(run, Asking(said.append, tcc=tcc[-1])) as watching:
        second = Recorder(folder / "shared.1.csv", number=1, watch=str(run))
        other = second.session("b")
        ended(other, [("r", "x", 5)], None, True)
        writes(first, one, 40)
        wait(lambda: said)
        ended(other, [("r", "x", None)], None, True)
        writes(second, other, 40)
        wait(lambda: watching.broken)
        wait(lambda: (run / "found").exists())
        for name, recorder, session in (("first", first, one), ("second", second, other)):
            yield "the %s recorder of a folder" % name, raises(BrokenPromise, lambda: ended(session, [("w", "q", 1)], None, True))
            yield "what it found", None if recorder.broken == watching.broken else repr(recorder.broken)
    with contextlib.suppress(BrokenPromise):
        first.close()
    with contextlib.suppress(BrokenPromise):
        second.close()
    yield differs("what a watch of a folder tells", [Consistent, Anomaly], [type(each) for each in said])
    yield "a folder of an earlier run", raises(NoRecord, lambda: Watching(run, Asking(said.append, tcc=tcc[-1])).start())
    (run / "found").unlink()
    yield "one of which nothing was found", raises(NoRecord, lambda: Watching(run, Asking(said.append, tcc=tcc[-1])).start())
    (run / "watched").write_text("{}")  # as a watch leaves it that was killed
    with Watching(run, Asking(said.append, tcc=tcc[-1])) as again:
        wait(lambda: again.broken)
    yield differs("a watch that was killed, begun again", watching.broken, again.broken)
    said.pop()
    alone = Recorder(folder / "shared.2.csv", watch=folder / "nobody")
    ended(alone.session("a"), [("w", "x", 5)], None, True)
    yield "a folder that nobody watches", raises(NoAnswer, alone.close)
    late = Recorder(folder / "shared.3.csv", watch=folder / "over")
    ended(late.session("a"), [("w", "x", 5)], None, True)
    said.clear()
    with Watching(folder / "over", Asking(said.append, tcc=tcc[-1])):
        pass
    yield differs("a watch that ends first", [1], [each.transactions for each in said])
    yield differs("what was judged by then", 0, late.close())
    late = Recorder(folder / "shared.3.csv", watch=folder / "over")
    ended(late.session("a"), [("w", "x", 6)], None, True)
    yield "records after that", raises(NoAnswer, late.close)
    said.clear()
    with Watching(folder / "empty", Asking(said.append, tcc=tcc[-1])):
        pass
    yield differs("a folder in which nobody announced himself", ["tcc watch: a recorder in %s never came" % (folder / "empty")], [str(each) for each in said])


def commanded(folder: pathlib.Path, library: str, tcc: List[str]) -> Iterator[Outcome]:
    """The command: each signal ends it with the answer for what came, an anomaly ends it by itself; where nothing comes it says so."""
    from tcc import Recorder
    script = "import sys; from tcc.watch import following; following.QUIET_SECONDS = 0.5; sys.exit(following.main())"

    def begun(*words: str) -> "subprocess.Popen[str]":
        variables = {**os.environ, "PYTHONPATH": library, "PYTHONDONTWRITEBYTECODE": "1", "TCC": os.path.abspath(tcc[-1])}
        return subprocess.Popen([sys.executable, "-c", script, *words], stdout=subprocess.PIPE, stderr=subprocess.PIPE, text=True, env=variables)

    for what in (signal.SIGTERM, signal.SIGINT):
        path = folder / ("commanded-%d.csv" % what)
        running = begun(str(path))
        with Recorder(path) as recorder:
            writes(recorder, recorder.session("a"), 20)
            lines = [running.stdout.readline()]
            while "nothing new for 0 s; 20 transactions so far" not in lines[-1] and lines[-1]:
                lines.append(running.stdout.readline())
            writes(recorder, recorder.session("a"), 1)
        running.send_signal(what)
        rest, errors = running.communicate(timeout=SECONDS)
        said = [line.split(" ", 1)[1] for line in [*lines, *rest.splitlines(keepends=True)] if "nothing new" not in line]
        wanted = ["consistent: 20 transactions, 1 sessions\n", "consistent: 21 transactions, 2 sessions\n"]
        yield differs("a watch that signal %d ends" % what, (0, wanted, ""), (running.returncode, said, errors))
        yield "its times", None if all(re.fullmatch(r"[0-9]{2}:[0-9]{2}:[0-9]{2}", line.split(" ")[0]) for line in lines) else str(lines)
    run, path = folder / "commanded", folder / "commanded-broken.csv"
    run.mkdir()
    running = begun(str(run))
    with contextlib.suppress(Exception), Recorder(path, watch=run) as recorder:
        session = recorder.session("a")
        ended(session, [("w", "x", 5)], None, True)
        ended(session, [("r", "x", None)], None, True)
        writes(recorder, session, 20)
        wait(lambda: (run / "found").exists())
    out, errors = running.communicate(timeout=SECONDS)
    yield differs("a watch that finds an anomaly", (1, "anomaly: 3 steps, stale-initial-read", ""), (running.returncode, out.splitlines()[0].split(" ", 1)[1], errors))
    for about, words, statuses, said in (("a folder and a file", [str(run), str(path)], (64,), "a folder is watched alone"),
                                         ("a folder of an earlier run", [str(run)], (6,), "each run needs a folder of its own")):
        running = begun(*words)
        _, errors = running.communicate(timeout=SECONDS)
        yield "tcc-watch of " + about, None if running.returncode in statuses and said in errors else "%d, %s" % (running.returncode, errors)
    running = begun(str(folder / "commanded-never.csv"))
    running.stdout.readline()  # that nothing came
    running.terminate()
    _, errors = running.communicate(timeout=SECONDS)
    yield differs("tcc-watch of a file that never comes", (6, True), (running.returncode, "commanded-never.csv never came" in errors))


def in_json(folder: pathlib.Path, library: str, tcc: List[str]) -> Iterator[Outcome]:
    """With `--json` each line of the command says which seal it answers, for how many records, when, and how many bytes come after; so does the
    last one, and one that nothing came."""
    from tcc import Recorder
    script = "import sys; from tcc.watch import following; following.QUIET_SECONDS = 0.5; sys.exit(following.main())"
    variables = {**os.environ, "PYTHONPATH": library, "PYTHONDONTWRITEBYTECODE": "1", "TCC": os.path.abspath(tcc[-1])}
    path = folder / "commanded.json.csv"
    running = subprocess.Popen([sys.executable, "-c", script, "--json", str(path)], stdout=subprocess.PIPE, stderr=subprocess.PIPE, text=True, env=variables)
    with Recorder(path) as recorder:
        session = recorder.session("a")
        writes(recorder, session, 20)
        lines = [running.stdout.readline()]
        while "quiet" not in lines[-1] and lines[-1]:
            lines.append(running.stdout.readline())
        ended(session, [("r", "k", 7)], None, True)
    running.terminate()
    rest, _ = running.communicate(timeout=SECONDS)
    told = [json.loads(line) for line in [*lines, *rest.splitlines()]]
    told = [one for at, one in enumerate(told) if one["answer"] != "quiet" or at + 1 == len(lines)]
    times = [re.fullmatch(r"[0-9]{4}-[0-9]{2}-[0-9]{2}T[0-9]{2}:[0-9]{2}:[0-9]{2}[+-][0-9]{4}", one.pop("time")) for one in told]
    yield "times in JSON", None if all(times) else str(told)
    first = {"answer": "consistent", "transactions": 20, "sessions": 1, "seal": 1, "record": 60, "behind": 0}
    yield differs("answers in JSON", [first, {"answer": "quiet", "transactions": 20, "seal": 1, "record": 60, "behind": 0}], told[:2])
    yield differs("the last one in JSON", (2, "unresolved", 2, 63, 0), (running.returncode, *(told[-1][name] for name in ("answer", "seal", "record", "behind"))))


def passed_on(folder: pathlib.Path) -> Iterator[Outcome]:
    """What a watch passes on: whole transactions alone, each once, and no seals of the file."""
    from tcc import Asking, Watching
    path, sent = folder / "passed-on.csv", io.BytesIO()
    watching = Watching([path], Asking(lambda told: None))
    first, second, third = ("%s,begin\n%s,w,x,%d\n%s,commit\n" % (name, name, number, name) for number, name in enumerate("abc", 1))
    for text, wanted, count in ((first + "b,beg", first, 1), (first + "b,begin\nb,w,x,2\n", first, 1), (first + second + "seal\n", first + second, 2),
                                (first + second + "seal\n" + third.replace("commit", "unknown"), first + second + third.replace("commit", "unknown"), 3)):
        path.write_text(text)
        watching._pass_on(sent)
        yield differs("what is passed on of %d bytes" % len(text), (wanted, count), (sent.getvalue().decode(), watching._count))
        whole = len(wanted) + (5 if "seal" in text else 0)
        yield differs("how far that is", {"seal": 0, "record": wanted.count("\n"), "behind": len(text) - whole}, watching.state())


def taken() -> Iterator[Outcome]:
    """Which answer is the last, and which are passed to who asked: the first of a kind, and none that is unresolved for reads that may be traced later."""
    from tcc import Anomaly, Asking, Consistent, Unresolved, Watching
    from tcc.watch.watching import answer_in
    fault = {"key": "x", "op": 1, "place": 1, "session": "a", "value": 7}
    consistent = {"answer": "consistent", "transactions": 1, "sessions": 1}
    anomaly = {"answer": "anomaly", "shape": "stale-initial-read", "steps": 3, "cycle": []}
    thin, aborted = ({"answer": "unresolved", "faults": [{**fault, "kind": kind}]} for kind in ("ThinAir", "Aborted"))
    for about, lines, wanted, kinds in (
            ("an anomaly", [consistent, thin, consistent, anomaly], [False, False, False, True], [Consistent, Anomaly]),
            ("an aborted read", [thin, aborted], [False, True], [Unresolved]),
            ("no answer", [consistent, {"answer": "memory"}], [False, None], [Consistent])):
        said: list = []
        watching = Watching([], Asking(said.append))
        found = [answer_in(json.dumps(line).encode() + b"\n") for line in lines]
        ends = [watching._is_done(one) if one else None for one in found]
        yield differs("answers up to " + about, (wanted, kinds, about != "no answer"), (ends, [type(one) for one in said], watching.broken is not None))


def outcomes(folder: pathlib.Path, library: str, tcc: List[str]) -> Iterator[Outcome]:
    yield from passed_on(folder)
    yield from taken()
    yield from told(folder, tcc)
    yield from stopped(folder, tcc)
    yield from without(folder)
    yield from dying(folder)
    yield from at_the_end(folder, tcc)
    yield from heard(folder, tcc)
    yield from every(folder, tcc)
    yield from left(folder)
    yield from several(folder, tcc)
    yield from together(folder, tcc)
    yield from awaited(folder, tcc)
    yield from closed(folder, tcc)
    yield from shared(folder, tcc)
    yield from commanded(folder, library, tcc)
    yield from in_json(folder, library, tcc)
