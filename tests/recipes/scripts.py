"""What the scripts of recipes/ do that no case can show. That is on a history of random operations by either way of reading, when
they are interrupted, at a terminal, and in the lines of RECORDING that answer for a large history."""
import array
import fcntl
import importlib.util
import io
import json
import os
import pathlib
import pty
import random
import re
import select
import signal
import subprocess
import sys
import tempfile
import termios
import time
from collections import Counter
from typing import Callable, Dict, Iterator, List, Optional, Tuple

from counted import Outcome

TOP = pathlib.Path(__file__).resolve().parent.parent.parent
RECIPES = TOP / "recipes"
SECONDS = 1800
INTERRUPTED = 130
sys.path.insert(0, str(TOP / "python"))


def random_history(seed: int, is_edn: bool, appends: bool) -> bytes:
    """Operations of clients that read and write at random, with all outcomes, unusual spellings and lines of the nemesis."""
    pick = random.Random(seed)
    keys = [":x", "y", '"z"', "7", '"7"', ":a/b", "{:k 1}"] if is_edn else ['"x"', '"y"', "7", '"7"', '"a b"', "true", "[1]"]
    nil = "nil" if is_edn else "null"
    values = ["5", "6", "+8N", "0", "-3", ":v", '"w"', "1.5", "true"] if is_edn else ["5", "6", "0", "-3", '"v"', "1.5", "true"]
    lines, counter, process = [], 10, list(range(4))
    for _ in range(400):
        client = pick.randrange(4)
        steps, done = [], []
        for _ in range(pick.randrange(5)):
            key, counter = pick.choice(keys), counter + 1
            if pick.random() < 0.5:
                read = pick.choice(values + [nil, str(pick.randrange(10, counter + 1))])
                if appends:
                    read = "[%s]" % (" " if is_edn else ",").join(str(pick.randrange(10, 30)) for _ in range(pick.randrange(4)))
                steps.append(("r", key, nil))
                done.append(("r", key, read))
            else:
                steps.append(("append" if appends else "w", key, str(counter)))
                done.append(steps[-1])
        kind = pick.choice(["ok"] * 8 + ["fail", "info"])
        for told, each in (("invoke", steps), (kind, done if kind == "ok" else steps)):
            if is_edn:
                value = " ".join("[:%s %s %s]" % one for one in each)
                fields = [":type :" + told, ":f :txn", ":value [%s]" % value, ":process %d" % process[client], ":time %d" % len(lines)]
                pick.shuffle(fields)
                lines.append("{%s%s}" % (", ".join(fields), ', :error [:x "y"]' if told in ("fail", "info") else ""))
            else:
                value = ",".join('["%s",%s,%s]' % one for one in each)
                lines.append('{"type":"%s","f":"txn","value":[%s],"process":%d,"index":%d}' % (told, value, process[client], len(lines)))
        if kind == "info":
            process[client] += 4
            lines.append("{:type :info, :process :nemesis, :f :kill, :value nil}" if is_edn
                         else '{"type":"info","process":"nemesis","f":"kill","value":null}')
    return "".join(line + "\n" for line in lines).encode()


def both_ways() -> Iterator[Outcome]:
    """The usual lines and the reader of any line give the same records, table and map."""
    from tcc.imports import jepsen
    from tcc.imports.imported import Imported
    from tcc.common.progress import Doing

    def told(text: bytes, is_usual: bool) -> List[object]:
        into = Imported({"null"})
        if not is_usual:
            into.usual = lambda line, found: False  # type: ignore[assignment,method-assign]
            into.usual_object = lambda line, value: False  # type: ignore[assignment,method-assign]
        jepsen.imported(jepsen.Reading(io.BytesIO(text), into, Doing(""), ""), True)
        return [list(each) for each in (into.records(), into.table(), into.places(), into.notes(True), into.warnings(), into.summary())]

    for seed in range(12):
        for is_edn in (False, True):
            text = random_history(seed, is_edn, seed % 3 == 0)
            yield "both ways of reading, %d%s" % (seed, " of EDN" if is_edn else ""), (
                None if told(text, True) == told(text, False) else "they differ")


def random_value(pick: random.Random, depth: int) -> str:
    """A value of EDN, of each kind there is."""
    if depth and pick.random() < 0.4:
        inner = [random_value(pick, depth - 1) for _ in range(pick.randrange(4))]
        if pick.random() < 0.3:
            return "{%s}" % ", ".join(":k%d %s" % pair for pair in enumerate(inner))
        return pick.choice(["[%s]", "(%s)", "#{%s}", "[ %s ]", "[%s #_ (7 8)]"]) % pick.choice([" ", ",", "  ", " ; [\n"]).join(inner)
    return pick.choice(["nil", "true", ":a/b", "sym", "-1N", "+8", "1.5M", "2/3", "1e3", '"a \\"b\\" ;["', "\\a", "\\newline", "\\u0041", "#inst \"x\"",
                        "^:m [1]", "#my/tag {:a 1}", "#_ :gone 5", "1001 1002 1003".split()[pick.randrange(3)], "%d" % pick.randrange(10**9)])


def random_edn() -> Iterator[Outcome]:
    """Of 100,000 operations with fields of any value of EDN each is read, and of lines that something is wrong with each ends with its
    line, in seconds."""
    from tcc.imports import jepsen
    from tcc.imports.imported import Imported
    from tcc.imports.operations import Untold
    from tcc.common.progress import Doing

    def told(text: str) -> Imported:
        return jepsen.imported(jepsen.Reading(io.BytesIO(text.encode()), Imported({"null"}), Doing(""), ""), True)

    pick, lines = random.Random(5), []
    for number in range(100000):
        fields = [":type :ok", ":process %d" % (number % 9), ":f :txn", ":value [[:w %d %d] [:r :x nil]]" % (number % 50, number + 1)]
        fields += [":e%d %s" % (each, random_value(pick, 2)) for each in range(pick.randrange(3))]
        pick.shuffle(fields)
        lines.append("{%s}" % pick.choice([", ", " ", ",", "\n"]).join(fields))
    begun = time.process_time()
    count, took = len(told("\n".join(lines)).texts), time.process_time() - begun
    yield "random EDN, 100,000 operations", None if count == len(lines) and took < 120 else "%d read in %.1f s" % (count, took)
    begun, wrong, ended = time.process_time(), None, 0
    for line in lines[:5000]:
        at = pick.randrange(len(line))
        cut = line[:at] + pick.choice(["", "]", "{", '"', "\\", "#", "9" * 5000, ":type :fail ", "\x00", "^", "##NaN"]) + line[at + pick.randrange(3):]
        try:
            told(cut)
        except Untold as error:
            ended += 1
            wrong = wrong or (None if re.match(r"line [1-9]", str(error)) else str(error))
        except Exception as error:  # pylint: disable=broad-except
            wrong = wrong or "%r of %r" % (error, cut[:200])
    took = time.process_time() - begun
    yield "random EDN with faults", wrong or (None if ended > 1000 and took < 240 else "%d faults in %.1f s" % (ended, took))


def lines_of_edn_py() -> Iterator[Outcome]:
    """What edn.py makes of EDN gives the records that the EDN itself gives."""
    for seed in range(4):
        text = random_history(seed, True, False)
        with tempfile.TemporaryDirectory() as folder:
            def records(given: bytes) -> bytes:
                words = [sys.executable, str(RECIPES / "jepsen.py"), "--table", os.path.join(folder, "names.csv")]
                return subprocess.run(words, input=given, capture_output=True, timeout=SECONDS, check=True).stdout
            lines = subprocess.run([sys.executable, str(RECIPES / "edn.py")], input=text, capture_output=True, timeout=SECONDS, check=True)
            yield "records by way of edn.py, %d" % seed, None if records(text) == records(lines.stdout) else "they differ"


def random_records(seed: int) -> str:
    """A few transactions of up to four sessions on two keys, one after the other, that read some write before, or the initial value."""
    pick = random.Random(seed)
    lines, written = [], {"x": [0], "y": [0]}
    for number in range(pick.randrange(2, 14)):
        name = "s%d" % pick.randrange(4)
        lines.append(name + ",begin")
        own = set()
        for _ in range(pick.randrange(1, 4)):
            key = pick.choice("xy")
            if pick.random() < 0.5 and key not in own:
                lines.append("%s,r,%s,%d" % (name, key, pick.choice(written[key])))
            else:
                written[key].append(len(lines) + 1)
                own.add(key)
                lines.append("%s,w,%s,%d" % (name, key, written[key][-1]))
        lines.append(name + (",commit" if pick.random() < 0.9 else ",abort"))
    return "".join(line + "\n" for line in lines)


def contradicted_by_definition(history, level: str) -> List[Tuple[str, int, str, str, str]]:
    """The reads by C from A, each with its row, that a write by B contradicts: C is reached from B, at `atomic` by one pair, and B
    from A, or A is `init`. Each has the first name that fits any such B, and the least B that this fits."""
    from tcc.judging.contradicted import NAMES
    from tcc.judging.graph import Graph
    graph = Graph(history)
    count = len(graph.transactions)
    pair = [[one != other and graph.sessions[one] == graph.sessions[other] and one < other
             or any(read.source == one for read in graph.reads[other]) for other in range(count)] for one in range(count)]
    reached = [list(row) for row in pair]
    for middle in range(count):
        for one in range(count):
            for other in range(count):
                reached[one][other] = reached[one][other] or reached[one][middle] and reached[middle][other]
    known = reached if level == "causal" else pair
    label = [one.label for one in graph.transactions]
    found = []
    for reader in range(count):
        for read in graph.reads[reader]:
            by = [one for one in graph.writers.get(read.operation.key, []) if one not in (reader, read.source) and known[one][reader]
                  and (read.source < 0 or reached[read.source][one])]
            if by:
                rank, writer = min((rank_of_name(graph, reader, read.operation.key, one), one) for one in by)
                found.append((label[reader], read.operation.row, "init" if read.source < 0 else label[read.source], label[writer],
                              NAMES[rank]))
    return found


def rank_of_name(graph: "Graph", reader: int, key: str, writer: int) -> int:
    """Which is the first usual name that fits a reader of a key and a writer of it, slowly."""
    every, sessions = range(len(graph.transactions)), graph.sessions
    saw = [one for one in every if any(read.source == writer and read.operation.key == key for read in graph.reads[one])]
    heard = {read.source for one in every if sessions[one] == sessions[reader] and one <= reader
             for read in graph.reads[one] if read.source >= 0}
    return (sessions[writer] == sessions[reader] and writer < reader,
            any(read.source == writer for read in graph.reads[reader]),
            any(sessions[one] == sessions[reader] and one < reader for one in saw),
            any(sessions[one] == sessions[writer] and one > writer for one in heard),
            any(sessions[one] == sessions[other] and one <= other for one in saw for other in heard),
            True).index(True)


def contradicted_reads() -> Iterator[Outcome]:
    """The list of contradicted reads is that of the definition, at both levels, by searches and by clocks."""
    from tcc.judging import contradicted
    from tcc.common.rows import read_history
    searched, told = contradicted.SEARCHED, 0
    for way in (0, searched):
        contradicted.SEARCHED = way
        for level in ("causal", "atomic"):
            wrong = None
            for seed in range(400):
                history = read_history(io.StringIO(random_records(seed)))
                found, graph = contradicted.survey(history, level, lambda what: None)
                got = [(one.reader, row, one.source, one.writer, one.name) for one in found.contradicted for row in one.rows]
                got.sort(key=lambda one: (one[0].rpartition("/")[0], int(one[0].rpartition("/")[2]), one[1]))
                told += len(got)
                if got != contradicted_by_definition(history, level):
                    wrong = wrong or "seed %d: %s" % (seed, got)
                for one in found.contradicted if level == "causal" else ():
                    cycle = contradicted.cycle_of_read(graph, one)
                    if not cycle or cycle[-1].kind != "derived" or cycle[-1].walk[-1].target != one.reader:
                        wrong = wrong or "seed %d: no walks for %s" % (seed, one)
            yield "contradicted reads, %s, %s" % (level, "by searches" if way else "by clocks"), wrong
    contradicted.SEARCHED = searched
    yield "contradicted reads are there", None if told > 1000 else "only %d" % told


def surveys_in_python() -> Iterator[Outcome]:
    """The package's survey is that of tests/survey/definition.py, on its random histories: of more sessions than a block has room for, of
    reads after own writes, of operations that can't be judged. Blocks of one session too, by searches and by clocks."""
    from tcc.judging import contradicted
    from tcc.common.rows import read_history
    definition, drawn = (module_of(TOP / "tests/survey" / name) for name in ("definition.py", "run.py"))
    kept, counts = (contradicted.SEARCHED, contradicted.BLOCK), Counter()
    dice, wrong = random.Random(7), None
    for number in range(300):
        records, level = with_own_reads(drawn.random_records(dice), dice), ("causal", "atomic")[number % 2]
        wanted = definition.survey(records, level)
        counts.update({"sessions": len({one.session for one in wanted.history.transactions}) > 65, "faults": bool(wanted.history.faults),
                       "own": "BrokenInternal" in {one.kind for one in wanted.history.faults}, "circular": wanted.contradicted is None})
        for contradicted.SEARCHED, contradicted.BLOCK in (kept, (0, kept[1]), (0, 1)):
            wrong = wrong or difference(wanted, contradicted.survey(read_history(io.StringIO(records)), level, lambda what: None)[0], number)
    contradicted.SEARCHED, contradicted.BLOCK = kept
    yield "surveys in Python", wrong
    yield "histories for them", None if min(counts[one] for one in ("sessions", "faults", "own", "circular")) > 3 else str(counts)


def with_own_reads(records: str, dice: random.Random) -> str:
    """The records with reads of what the transaction wrote itself: mostly of the last value, else of what it had written before, or of
    nothing."""
    lines: List[str] = []
    wrote: Dict[Tuple[str, str], List[str]] = {}
    for line in records.splitlines():
        lines.append(line)
        session, what, *rest = line.split(",")
        if what == "begin":
            wrote = {pair: values for pair, values in wrote.items() if pair[0] != session}
        elif what == "w":
            values = wrote.setdefault((session, rest[0]), [])
            values.append(rest[1])
            if dice.random() < 0.2:
                lines.append("%s,r,%s,%s" % (session, rest[0], values[-1] if dice.random() < 0.8 else dice.choice(["0", values[0]])))
    return "".join(line + "\n" for line in lines)


def module_of(path: pathlib.Path):
    """A module of another folder of tests, by a name of its own."""
    sys.path.insert(0, str(path.parent))  # for what it imports
    spec = importlib.util.spec_from_file_location("%s_%s" % (path.parent.name, path.stem), path)
    assert spec and spec.loader
    module = importlib.util.module_from_spec(spec)
    sys.modules[spec.name] = module
    spec.loader.exec_module(module)
    sys.path.remove(str(path.parent))
    return module


def difference(wanted, got, number: int) -> Optional[str]:
    """Where the package's survey of a history isn't that of the definition."""
    history = wanted.history
    faults = sorted((one.kind, one.label, one.operation.key, str(one.operation.value)) for one in history.faults)
    found = sorted((one.kind, one.label, one.operation.key, one.operation.value) for one in got.faults)
    if faults != found or (wanted.contradicted is None) != bool(got.circular):
        return "history %d: wanted the faults %s, got %s" % (number, faults, found)
    told = [(history.label(one.reader), one.read.key, str(one.read.value), history.label(one.read.source), history.label(one.writer), one.name)
            for one in wanted.contradicted or ()]
    listed = [(one.reader, one.operation.key, one.operation.value, one.source, one.writer, one.name) for one in got.contradicted]
    if wanted.contradicted is not None and (sorted(told) != sorted(listed) or wanted.reads() != got.reads):
        return "history %d: wanted %s of %d, got %s of %d" % (number, told, wanted.reads(), listed, got.reads)
    return None


def interrupted(words: List[str], given: bytes, wanted: bytes, is_at_it: Callable[["subprocess.Popen[bytes]"], bool]) -> Optional[str]:
    """What a script that is interrupted, once it is at its work, does otherwise than it should: it says what it has, without a
    traceback."""
    signal.signal(signal.SIGINT, signal.default_int_handler)  # a shell has what it starts in the background ignore it
    with subprocess.Popen(words, stdin=subprocess.PIPE, stdout=subprocess.PIPE, stderr=subprocess.STDOUT) as script:
        assert script.stdin and script.stdout
        script.stdin.write(given)
        script.stdin.flush()
        waited(lambda: is_at_it(script))
        time.sleep(0.2)
        script.send_signal(signal.SIGINT)
        said = script.stdout.read()
        status = script.wait(SECONDS)
    if status != INTERRUPTED or wanted not in said or b"Traceback" in said:
        return "status %d, %r" % (status, said)
    return None


def waited(is_so: Callable[[], bool]) -> None:
    """Waits until something is so."""
    until = time.monotonic() + SECONDS
    while not is_so() and time.monotonic() < until:
        time.sleep(0.05)


def has_read(script: "subprocess.Popen[bytes]") -> bool:
    """Whether it has taken all that it was given so far."""
    assert script.stdin
    left = array.array("i", [0])
    fcntl.ioctl(script.stdin, termios.FIONREAD, left)
    return left[0] == 0


def interruptions(tcc: List[str]) -> Iterator[Outcome]:
    def script(name: str, *more: str) -> List[str]:
        return [sys.executable, str(RECIPES / name), *more]

    line = b'{"type":"ok","process":1,"f":"txn","value":[]}\n'
    yield "jepsen.py interrupted", interrupted(script("jepsen.py"), line, b"there are no records", has_read)
    yield "edn.py interrupted", interrupted(script("edn.py"), b"{:a 1}\n", b"edn.py: interrupted", has_read)
    yield "picture.py interrupted", interrupted(script("picture.py"), b"{", b"picture.py: interrupted", has_read)
    with tempfile.TemporaryDirectory() as folder:
        slow, records, begun = (pathlib.Path(folder, name) for name in ("tcc", "records.csv", "begun"))
        slow.write_text("#!/bin/sh\ntest \"$1\" = explain && { : > '%s'; exec sleep 3000; }\nexec %s \"$@\"\n" % (begun, os.path.abspath(tcc[-1])))
        slow.chmod(0o755)
        records.write_text((TOP / "examples/stale-read.csv").read_text())
        page = os.path.join(folder, "page.html")

        def asks(_: "subprocess.Popen[bytes]") -> bool:
            return begun.exists()

        said = interrupted(script("report.py", "--tcc", str(slow), "-o", page, str(records)), b"", b"no page was written", asks)
        yield "report.py interrupted", said or ("there is a page" if os.path.exists(page) else None)
        begun.unlink(missing_ok=True)
        yield "all.py interrupted", interrupted(script("all.py", "--tcc", str(slow), str(records)), b"",
                                                b"interrupted behind 1 anomalies\nread your writes: 1\n", asks)


def many_faults() -> Iterator[Outcome]:
    """The list of an answer with thousands of faults, each with the write that it is about, takes no minutes."""
    count = 3000
    aborted = ["a,begin\na,w,k%d,%d\na,abort\n" % (number % 50, number + 1) for number in range(count)]
    read = ["b,begin\nb,r,k%d,%d\nb,commit\n" % (number % 50, number + 1) for number in range(count)]
    faults = [{"key": "k%d" % (number % 50), "kind": "Aborted", "op": 1, "place": number + 1, "session": "b", "value": number + 1}
              for number in range(count)]
    with tempfile.TemporaryDirectory() as folder:
        records, answer = pathlib.Path(folder, "records.csv"), pathlib.Path(folder, "answer.json")
        records.write_text("".join(aborted + read))
        answer.write_text(json.dumps({"answer": "unresolved", "faults": faults}) + "\n")
        done = subprocess.run([sys.executable, str(RECIPES / "picture.py"), str(answer), "--history", str(records), "--text"],
                              capture_output=True, timeout=SECONDS, check=False)
    last = b"Aborted b/3000 op 1 k49 3000, row 17999: a/3000 op 1 wrote it, in a transaction that aborted, row 8999\n"
    yield "a list of many faults", None if done.returncode == 0 and last in done.stdout else "%r" % (done.stdout[:200] + done.stderr)


def by_survey(tcc: List[str]) -> Iterator[Outcome]:
    """Where the program has `tcc survey`, the contradicted reads and their names are those that it prints."""
    with tempfile.TemporaryDirectory() as folder:
        program, page = pathlib.Path(folder, "tcc"), pathlib.Path(folder, "page.html")
        found = {"contradicted": "a/2", "key": "x", "name": "causal chain", "op": 1, "value": 0, "writer": "a/1"}
        last = {"answer": "survey", "contradicted": 1, "faults": 0, "reads": 1}
        program.write_text("#!/bin/sh\ncase \"$*\" in\n'survey --help') ;;\nsurvey*) cat > /dev/null < /dev/null; echo '%s'; echo '%s'; "
                           "exit 1 ;;\n*) exec %s \"$@\" ;;\nesac\n" % (json.dumps(found), json.dumps(last), os.path.abspath(tcc[-1])))
        program.chmod(0o755)
        records = pathlib.Path(folder, "records.csv")  # the read that is reported is done twice
        records.write_text("a,begin\na,w,x,1\na,commit\na,begin\na,r,x,0\na,r,x,0\na,w,x,2\na,r,x,2\na,commit\n")
        done = subprocess.run([sys.executable, str(RECIPES / "all.py"), "--tcc", str(program), str(records)], capture_output=True,
                              timeout=SECONDS, check=False)
        wanted = b"1: causal chain: a/2 read x = 0 from init, rows 5, 6; it knew of a/1\nconsistent behind 2 struck reads"
        yield "all.py by the program's survey", None if done.stdout.startswith(wanted) else "%r" % (done.stdout + done.stderr)
        done = subprocess.run([sys.executable, str(RECIPES / "report.py"), "--tcc", str(program), str(records), "-o", str(page)],
                              capture_output=True, timeout=SECONDS, check=False)
        has_it = done.returncode == 1 and all(word in page.read_text() for word in ("is a theorem about it", "tcc survey --level causal"))
        yield "report.py by the program's survey", None if has_it else "%r" % (done.stdout + done.stderr)


def at_terminal() -> Iterator[Outcome]:
    """After two seconds a script says at a terminal what it does, and takes that away before it ends."""
    mine, its = pty.openpty()
    with subprocess.Popen([sys.executable, str(RECIPES / "jepsen.py")], stdin=subprocess.PIPE, stdout=subprocess.PIPE, stderr=its) as script:
        os.close(its)
        assert script.stdin
        waited(lambda: bool(select.select([mine], [], [], 0)[0]))
        script.stdin.close()
        script.wait(SECONDS)
    said = b""
    while select.select([mine], [], [], 0.2)[0]:
        try:
            said += os.read(mine, 4096)
        except OSError:
            break
    os.close(mine)
    found = re.fullmatch(rb"(\r\x1b\[Kreads [a-z ]+, [0-9]+ s)+\r\x1b\[Kjepsen.py: 0 committed.*", said, re.DOTALL)
    yield "what is said at a terminal", None if found else "%r" % said


def lines_of_recording(tcc: List[str]) -> Iterator[Outcome]:
    """The lines of RECORDING that answer for a large history: their status is that of the whole history's answer."""
    blocks = re.findall("```sh\n(.*?)```", (TOP / "docs/RECORDING.md").read_text(), re.DOTALL)
    lines = next(block for block in blocks if "--slice" in block)
    wanted: Dict[str, Tuple[int, bytes]] = {
        "examples/stale-read.csv": (1, b"accepted: cycle, 3 steps"), "examples/long-fork.csv": (0, b"accepted: order"),
        "examples/aborted-read.csv": (2, b""), "": (3, b"")}
    for name, (status, said) in wanted.items():
        with tempfile.TemporaryDirectory() as folder:
            pathlib.Path(folder, "tcc").symlink_to(os.path.abspath(tcc[-1]))
            pathlib.Path(folder, "recipes").symlink_to(RECIPES)
            pathlib.Path(folder, "records.csv").write_bytes((TOP / name).read_bytes() if name else b"")
            path = folder + os.pathsep + os.environ["PATH"]
            done = subprocess.run(["bash", "-c", lines], cwd=folder, capture_output=True, timeout=SECONDS, check=False,
                                  env={**os.environ, "PATH": path})
            is_so = done.returncode == status and said in done.stdout and (b"accepted" in done.stdout) == (status in (0, 1))
            yield "lines of RECORDING, %s" % (name or "no records"), None if is_so else "status %d, %r" % (
                done.returncode, done.stdout + done.stderr)


def outcomes(tcc: List[str]) -> Iterator[Outcome]:
    yield from both_ways()
    yield from random_edn()
    yield from lines_of_edn_py()
    yield from contradicted_reads()
    yield from surveys_in_python()
    yield from interruptions(tcc)
    yield from many_faults()
    yield from by_survey(tcc)
    yield from at_terminal()
    yield from lines_of_recording(tcc)
