"""Versions: what a recorder keeps of them, the records that say their order, and the reads that they contradict, beside a slow checker of
the definition by all orders."""
import io
import itertools
import json
import os
import pathlib
import random
import subprocess
import sys
from typing import Dict, Iterator, List, NamedTuple, Optional, Set, Tuple

from counted import Outcome
from helpers import SECONDS, differs, raises, run

# Two writes of x of which neither client had observed the other; c reads the later one, and then the earlier one.
RECORDS = ["a,begin", "a,w,x,1", "a,commit", "b,begin", "b,w,x,2", "b,commit", "c,begin", "c,r,x,2", "c,commit", "c,begin", "c,r,x,1", "c,commit"]
OBSERVED = ["o.1,begin", "o.1,r,x,1", "o.1,commit", "o.1,begin", "o.1,r,x,2", "o.1,commit"]


def recorded(folder: pathlib.Path, library: str, tcc: List[str]) -> Iterator[Outcome]:
    """What a recorder keeps, and the answers without versions and with them."""
    from tcc import Anomaly, Consistent, NoAnswer, NoRecord, Recorder, explain
    from tcc.judging.noted_versions import NoVersions, read_versions
    from tcc.judging.versions import write_versioned
    path, versions = folder / "versioned.csv", folder / "versioned.versions"
    with Recorder(path, versions=versions) as recorder:
        a, b, c = (recorder.session(name) for name in "abc")
        with a.transaction() as one:
            one.write("x", 1)
            one.committing()
            one.versioned(10)
        with b.call() as one:
            one.write("x", 2)
            one.versioned(20)
        with c.transaction() as one:
            one.read("x", 2, version=20)
        with c.call() as one:
            one.read("x").returned(1, version=10)
            yield "a version that is none", raises(NoRecord, lambda: one.read("y").returned(None, version=0))
    yield differs("records beside versions", RECORDS, path.read_text().split())
    yield differs("versions", ["key,value,version", "x,1,10", "x,2,20"], versions.read_text().split())
    yield differs("the answer without versions", Consistent, type(explain(path, tcc=tcc[-1])))
    # b/1 is the later one of x by its version; c/1 read it, so c/2 had observed it, and reads a/1's.
    wanted = "\n".join(["anomaly: 4 steps, overwritten-read", "version a/1 -> b/1 by x", "derived b/1 -> a/1 by x, read by c/2", "  reads b/1 -> c/1 by x",
                        "  session c/1 -> c/2", "  against a/1 -> c/2 by x", ""])
    answer = explain(path, tcc=tcc[-1], versions=versions)
    yield differs("the answer with versions", (Anomaly, wanted), (type(answer), answer.text()))
    with Recorder(path, versions=versions) as recorder:
        with recorder.session("d").transaction() as one:
            one.read("x", 2, version=20)
            one.read("y", None, version=7)  # of what was never written none is kept
            one.write("z", 5, version=3)
    yield differs("versions after a restart", ["key,value,version", "x,1,10", "x,2,20", "z,5,3"], versions.read_text().split())
    out = folder / "versioned-judged.csv"
    yield from listed(folder, path, versions, library, tcc)
    words = [sys.executable, os.path.join(library, "bin/tcc-versions"), str(path), str(versions), "-o", str(out)]
    done = run(words, library)
    yield differs("tcc-versions", (1, "c/2 read x = 1, version 10, and knew of version 20 by b/1\n"), (done.returncode, done.stdout))
    wanted = [*RECORDS[:5], "b,w,x.v20,1", *RECORDS[5:11], "c,r,x.v20,0", "c,commit",
              "d,begin", "d,r,x,2", "d,r,y,0", "d,w,z,5", "d,commit", *OBSERVED]
    yield differs("records with versions", wanted, out.read_text().split())
    versions.write_text("key,value,version\nx,1,20\nx,2,10\n")
    answer = explain(path, tcc=tcc[-1], versions=versions, require=5)
    got = (answer.transactions, answer.sessions, sorted(answer.order)) if isinstance(answer, Consistent) else answer
    yield differs("the answer where the first one read is the older", (5, 4, ["a/1", "b/1", "c/1", "c/2", "d/1", "init"]), got)
    yield "more transactions than there are, without observers", raises(NoAnswer, lambda: explain(path, tcc=tcc[-1], versions=versions, require=6))
    for about, text in (("a line that is none", "x,1\n"), ("a version of 0", "x,1,0\n"),
                        ("a text", "x,1,a\n")):
        versions.write_text(text)
        yield about, raises(NoVersions, lambda: read_versions(versions))
    versions.write_text("x,1,5\nx,2,5\n")
    yield "one version of two values", raises(NoVersions, lambda: write_versioned(path, versions, out))
    yield differs("tcc-versions of one version of two values", 3, run(words, library).returncode)
    yield "an answer with such versions", raises(NoAnswer, lambda: explain(path, tcc=tcc[-1], versions=versions))
    yield from doubtful(folder, path, tcc)
    yield "a file of another form", raises(NoRecord, lambda: Recorder(folder / "more.csv", versions=path))
    with Recorder(folder / "no-versions.csv") as recorder:
        with recorder.session("a").transaction() as one:
            yield "a version without a file", raises(NoRecord, lambda: one.read("x", 1, version=1))


def listed(folder: pathlib.Path, path: pathlib.Path, versions: pathlib.Path, library: str, tcc: List[str]) -> Iterator[Outcome]:
    """A survey with versions speaks of the records' own keys, and has each read once, as have `tcc-all` and `tcc-look`. The records are
    `RECORDS`, and d/1, which reads x and y and writes z."""
    from tcc import NoAnswer, explain, survey
    found, notes = survey(path, tcc=tcc[-1], versions=versions), folder / "listed.notes"
    text = "contradicted c/2 op 1 x 1: knew of b/1, monotonic reads, by versions\nmonotonic reads: 1\n1 contradicted reads of 4, 0 faults\n"
    yield differs("a survey with versions", text, found.text())
    wanted = [{"contradicted": "c/2", "key": "x", "name": "monotonic reads", "op": 1, "value": 1, "versions": True, "writer": "b/1"},
              {"count": 1, "name": "monotonic reads"}, {"answer": "survey", "contradicted": 1, "faults": 0, "reads": 4}]
    yield differs("and as JSON", wanted, [json.loads(line) for line in found.json().splitlines()])
    yield differs("a survey without versions", "0 contradicted reads of 4, 0 faults\n", survey(path, tcc=tcc[-1]).text())
    links = [("version", "x"), ("derived", "x")]
    told = json.loads(explain(path, tcc=tcc[-1], versions=versions).json())
    yield differs("JSON of an answer with versions", (links, 4), ([(one["kind"], one["key"]) for one in told["cycle"]], told["steps"]))
    both = folder / "both.csv"  # e/2 read the initial x, though it had read b/1; by its time it was before c/2
    both.write_text("".join(line + "\n" for line in [*RECORDS, "e,begin", "e,r,x,2", "e,commit", "e,begin", "e,r,x,0", "e,r,x,0", "e,commit"]))
    for about, times, first in (("no times", {}, ("c/2", 11, "row")), ("times", {"c/2": "2.5", "e/2": "1.5"}, ("e/2", 17, "time")),
                                ("one time", {"e/2": "1.5"}, ("c/2", 11, "row"))):
        notes.write_text("transaction,time\n" + "".join("%s,%s\n" % pair for pair in times.items()))
        one, by = survey(both, tcc=tcc[-1], versions=versions, notes=notes).first() or (None, "")
        yield differs("the first contradicted read, %s" % about, first, (one and one.reader, one and one.row, by))
    command = [sys.executable, os.path.join(library, "bin/tcc-all"), "--tcc", os.path.abspath(tcc[-1]), "--versions", str(versions), str(both)]
    lines = ["1: monotonic reads: c/2 read x = 1 from a/1, row 11; it knew of b/1", "2: monotonic reads: e/2 read x = 0 from init, rows 17, 18; it knew of b/1",
             "consistent behind 3 struck reads: 6 transactions, 4 sessions", "monotonic reads: 2"]
    yield differs("tcc-all with versions", lines, run(command, library).stdout.splitlines())
    crossed, numbers = folder / "crossed.csv", folder / "crossed.versions"
    crossed.write_text("a,begin\na,w,x,1\na,commit\na,begin\na,w,x,2\na,commit\n")
    numbers.write_text("x,2,10\nx,1,20\n")
    lines = ["1: 2 steps, versions-out-of-order: by its version a/2 comes before a/1 at x", "consistent without 1 versions: 2 transactions, 1 sessions",
             "versions out of order: 1"]
    yield differs("tcc-all of versions that a session contradicts", lines, run([*command[:-2], str(numbers), str(crossed)], library).stdout.splitlines())
    command = [sys.executable, os.path.join(library, "bin/tcc-look"), "--tcc", os.path.abspath(tcc[-1]), str(path)]
    torn = folder / "torn.versions"  # its last line isn't whole yet
    torn.write_text(versions.read_text() + "x,1,")
    for words, status in (([], 0), (["--versions", str(versions)], 1), (["--versions", str(torn)], 1), (["--versions", str(torn), "--versions", str(numbers)], 6)):
        done = run([*command, *words], library)
        yield differs("tcc-look %s" % " ".join(words), status, done.returncode)
        yield differs("keys of tcc-look", False, "x.v" in done.stdout or "o.1" in done.stdout)
    numbers.write_text("x,0,1\nx,1,0\n")
    yield "a survey with versions that are none", raises(NoAnswer, lambda: survey(path, tcc=tcc[-1], versions=numbers))


def counted() -> Iterator[Outcome]:
    """A survey counts names from the most frequent on, then in the order of names; where reads are on a circle it has that and what can't be
    judged, and so it is a breach."""
    from tcc import ContradictedRead, Fault, Surveyed
    from tcc.judging.survey import surveyed
    def read(name: str) -> ContradictedRead:
        return ContradictedRead("a/2", 1, "x", 1, "a/1", name, 5)
    names = ["monotonic reads", "causal chain", "fractured read", "causal chain"]
    found = Surveyed(tuple(map(read, names)), (), 9)
    yield differs("names of a survey", [("causal chain", 2), ("fractured read", 1), ("monotonic reads", 1)], found.counts())
    fault = {"kind": "ThinAir", "session": "a", "place": 1, "op": 2, "key": "y", "value": 7}
    lines = [{"answer": "unresolved", "faults": [fault]}, {"answer": "circular", "transactions": ["a/1", "b/1"]}]
    circle = surveyed("".join(json.dumps(line) + "\n" for line in lines), None, None, {})
    yield differs("a survey of a circle", (Surveyed((), (Fault(**fault),), 0, ("a/1", "b/1")), True, [True, False]), (circle, circle.is_any(), [
        found.is_any(), Surveyed((), (Fault(**fault),), 0).is_any()]))
    yield differs("its text", "unresolved: 1 faults\nThinAir a/1 op 2 y 7\ncircular: a/1 b/1\n", circle.text())
    yield differs("its JSON", lines, [json.loads(line) for line in circle.json().splitlines()])


def doubtful(folder: pathlib.Path, path: pathlib.Path, tcc: List[str]) -> Iterator[Outcome]:
    """A value with two versions, or two values with one, as of a store that numbers anew: how many there are, the first of them with who wrote
    and read it and where, and the answers by what was noted before it, and by no versions. By the first two lines c/2 is stale."""
    from tcc import Anomaly, Consistent, NoAnswer, explain
    versions, notes = folder / "doubtful.versions", folder / "doubtful.notes"
    notes.write_text("transaction,node\na/1,n1\nc/2,n2\n")
    first = "x = 1 has the versions 10 and 30 (%s, line %%d); a/1 at n1 wrote 1, and c/2 at n2 read it" % versions
    for about, text, count, said, before in (
            ("two versions of a value", "x,1,10\nx,2,20\nx,1,30\nx,1,40\nx,2,5\n", 2, first % 3, 2),
            ("and before it another value", "x,1,10\nx,1,30\nx,2,20\n", 1, first % 2, 1),
            ("one version of two values", "z,5,3\nx,1,10\nx,2,10\n", 1, "x = 1 and x = 2 have the same version 10; a/1 at n1 wrote 1, and c/2 at n2 "
             "read it; b/1 wrote 2, and c/1, d/1 read it", 2)):
        versions.write_text(text)
        try:
            got = str(explain(path, tcc=tcc[-1], versions=versions, notes=notes))
        except NoAnswer as error:
            got = str(error)
        wanted = "%d values have two versions or share one. The first: %s. A store" % (count, said)
        yield about, None if got.startswith(wanted) and "by the %d versions" % before in got else "wanted %s.., got %s" % (wanted, got)
        answers = [type(explain(path, tcc=tcc[-1], versions=versions, two_versions=way)) for way in ("before", "without")]
        yield differs(about + ": the answers", [Anomaly if about == "two versions of a value" else Consistent, Consistent], answers)


def retold(folder: pathlib.Path) -> Iterator[Outcome]:
    """A version that comes again is kept once; another one of the same value is kept too, so that the file is refused."""
    from tcc import Recorder
    from tcc.judging.noted_versions import read_versions
    versions = folder / "retold.versions"
    with Recorder(folder / "retold.csv", versions=versions) as recorder:
        session = recorder.session("a")
        for version in (10, 10, 11):
            with session.transaction() as one:
                one.read("x", 1, version=version)
    yield differs("versions that come again", ["key,value,version", "x,1,10", "x,1,11"], versions.read_text().split())
    doubts = [(one.before, one.key, one.values) for one in read_versions(versions).doubts]
    yield differs("two versions of a value that was read", [(1, "x", ("1",))], doubts)


def neighbours() -> Iterator[Outcome]:
    """A read of a version of which the next one was known is older; one of the greatest isn't."""
    from tcc.common.rows import read_history
    from tcc.judging.versions import Versioned
    text = "".join(line + "\n" for line in RECORDS)
    for told, wanted in (({"1": 1, "2": 2}, [("c/2", "1", "b/1")]), ({"1": 2, "2": 1}, []), ({"1": 7, "2": 8}, [("c/2", "1", "b/1")])):
        stale = Versioned(read_history(io.StringIO(text)), {"x": told}).stale
        yield differs("older by %s" % told, wanted, [(one.reader, one.operation.value, one.writer) for one in stale])


def told_apart() -> Iterator[Outcome]:
    """A reader of two older writes of a key has a line for each, by rows; and of a key one version may be left out."""
    from tcc.common.rows import read_history
    from tcc.judging.answers import Link
    from tcc.judging.contradicted import Contradicted
    from tcc.judging.noted_versions import Versions
    from tcc.judging.versions import Versioned
    # c/1 read the write of d; c/2 reads that of b, and then that of a, which is older than that of b too.
    text = "".join("{0},begin\n{0},w,x,{1}\n{0},commit\n".format(*pair) for pair in (("a", 1), ("b", 2), ("d", 3)))
    text += "c,begin\nc,r,x,3\nc,commit\nc,begin\nc,r,x,2\nc,r,x,1\nc,commit\n"
    one = Versioned(read_history(io.StringIO(text)), {"x": {"1": 10, "2": 20, "3": 30}})
    list(one.records())
    yield differs("older reads, each by its own writer", [("2", "d/1"), ("1", "b/1")], [(each.operation.value, each.writer) for each in one.stale])
    walk = (Link("reads", "b/1", "c/2", "x"),)
    cycle = [Link("session", "init", "b/1"), Link("derived", "b/1", "init", "x.v20", "c/2", walk)]
    yield differs("what the mark of the second says", [Link("version", "a/1", "b/1", "x"), Link("derived", "b/1", "a/1", "x", "c/2", walk)], one.moved(cycle))
    first = Contradicted("c/1", one.history.find("c/1").operations[0], "d/1", "b/1", "causal chain", (11,))
    listed = [first, one.stale[1]]
    yield differs("older reads beside others, each once and by rows", [11, 14, 15], [each.operation.row for each in one.with_stale(listed)])
    versions = Versions()
    for key, value, version in (("x", "1", 10), ("x", "2", 20), ("y", "1", 5), ("y", "1", 6), ("z", "3", 1), ("z", "3", 2)):
        versions.note(key, value, version, "")
    for about, key, value, left, places in (("the first", "x", "1", {"x": {"2": 20}, "y": {"1": 5}, "z": {"3": 1}}, [2, 3]),
                                            ("the third", "y", "1", {"x": {"1": 10, "2": 20}, "z": {"3": 1}}, [2, 3]),
                                            ("the last", "z", "3", {"x": {"1": 10, "2": 20}, "y": {"1": 5}}, [3, 3])):
        found = versions.without(key, value)
        yield differs("versions without %s, and doubts" % about, (left, places), (dict(found), [each.before for each in found.doubts]))


def apart() -> Iterator[Outcome]:
    """Observers and marks have names that nothing in the history has: here a client is called as the first observer, and a key as the mark."""
    from tcc.common.rows import read_history
    from tcc.judging.versions import Versioned
    text = "".join(("o.1" + line[1:] if line[0] == "c" else line) + "\n" for line in RECORDS)
    text = text.replace("b,w,x,2\n", "b,w,x,2\nb,w,x.v20,9\n")
    one = Versioned(read_history(io.StringIO(text)), {"x": {"1": 10, "2": 20}})
    got = "".join(one.records()).split()
    named = (len(one.observers), len(one.marks), {"o.1", "x.v20"} & {*one.observers, *one.marks})
    yield differs("observers and marks, and which have another's name", (1, 1, set()), named)
    observer, mark = next(iter(one.observers)), next(iter(one.marks))
    wanted = ["a,begin", "a,w,x,1", "a,commit", "b,begin", "b,w,x,2", "b,w,x.v20,9", "b,w,%s,1" % mark, "b,commit", "o.1,begin", "o.1,r,x,2", "o.1,commit",
              "o.1,begin", "o.1,r,x,1", "o.1,r,%s,0" % mark, "o.1,commit", *(line.replace("o.1", observer) for line in OBSERVED)]
    yield differs("records with them", wanted, got)


class Txn(NamedTuple):
    """A transaction: its session, the keys and values that it reads, and those that it writes."""

    session: str
    reads: Dict[str, int]
    writes: Dict[str, int]


def history(pick: random.Random, count: int) -> Tuple[List[Txn], Dict[str, Dict[int, int]]]:
    """Transactions one after the other that read any write before them, and versions: most in that order, some in another, some none."""
    found: List[Txn] = []
    written: Dict[str, List[int]] = {"x": [0], "y": [0]}
    for number in range(1, count + 1):
        reads = {key: pick.choice(written[key][-3:] if pick.random() < 0.8 else written[key]) for key in "xy" if pick.random() < 0.4}
        writes = {key: number for key in "xy" if pick.random() < 0.45}
        found.append(Txn("s%d" % pick.randrange(3), reads, writes))
        for key in writes:
            written[key].append(number)
    versions: Dict[str, Dict[int, int]] = {}
    for key, values in written.items():
        order = values[1:]
        if len(order) > 1 and pick.random() < 0.4:
            at = pick.randrange(len(order) - 1)
            order[at], order[at + 1] = order[at + 1], order[at]
        step = 1 if count % 2 else 3  # neighbours, and versions that other keys share
        versions[key] = {value: step * place for place, value in enumerate(order, 1) if pick.random() < 0.9}
    return found, versions


class Slow:
    """The definition."""

    def __init__(self, every: List[Txn], versions: Dict[str, Dict[int, int]]):
        self.every, self.versions, count = every, versions, len(every)
        self.source = {(number, key): value - 1 for number, one in enumerate(every) for key, value in one.reads.items()}
        pair = [[one < other and every[one].session == every[other].session or one in (self.source.get((other, key)) for key in "xy")
                 for other in range(count)] for one in range(count)]
        self.direct = [list(row) for row in pair]
        for middle, one, other in itertools.product(range(count), repeat=3):
            pair[one][other] |= pair[one][middle] and pair[middle][other]
        self.reaches = pair
        self.label = ["%s/%d" % (one.session, sum(each.session == one.session for each in every[:number + 1])) for number, one in enumerate(every)]

    def writers(self, key: str) -> List[int]:
        return [number for number, one in enumerate(self.every) if key in one.writes]

    def version(self, key: str, number: int) -> Optional[int]:
        return 0 if number < 0 else self.versions[key].get(self.every[number].writes[key])

    def contradicted(self, is_by_versions: bool, is_atomic: bool = False) -> Set[Tuple[str, str]]:
        """The reads, of which the reader knew a write that is newer: by what reached it, or by its version. At `atomic` a reader has observed its
        session and of those that it reads from, and of nothing else."""
        knows = self.direct if is_atomic else self.reaches
        found = set()
        for (reader, key), source in self.source.items():
            mine = self.version(key, source)
            for other in self.writers(key):
                if other in (reader, source) or not knows[other][reader]:
                    continue
                its = self.version(key, other)
                if is_by_versions and mine is not None and its is not None and its > mine or not is_by_versions and (
                        source < 0 or self.reaches[source][other]):
                    found.add((self.label[reader], key))
        return found

    def has_order(self) -> bool:
        """Whether some order of all holds sessions and reads, explains each read, and has the writes of each key by their versions."""
        count = len(self.every)
        for order in itertools.permutations(range(count)):
            at = {number: place for place, number in enumerate(order)}
            if any(self.reaches[one][other] and at[one] > at[other] for one in range(count) for other in range(count)):
                continue
            by_version = all(at[one] < at[other] for key in "xy" for one in self.writers(key) for other in self.writers(key)
                             if (self.version(key, one) or 10**9) < (self.version(key, other) or 0))
            if by_version and all(at[other] < at.get(source, -1) for (reader, key), source in self.source.items() for other in self.writers(key)
                                  if other not in (reader, source) and self.reaches[other][reader]):
                return True
        return False


def text_of(every: List[Txn]) -> str:
    lines = []
    for one in every:
        lines += ["begin", *("r,%s,%d" % pair for pair in one.reads.items()), *("w,%s,%d" % pair for pair in one.writes.items()), "commit"]
        lines = [line if line.startswith("s") else "%s,%s" % (one.session, line) for line in lines]
    return "".join(line + "\n" for line in lines)


def asked(tcc: List[str], words: List[str], records: str) -> "subprocess.CompletedProcess[str]":
    return subprocess.run([*tcc, *words], input=records, capture_output=True, text=True, timeout=SECONDS, check=False)


def by_definition(folder: pathlib.Path, tcc: List[str], count: int) -> Iterator[Outcome]:
    """Random histories: there is an answer `consistent` exactly where there is an order, and the contradicted reads are those of the
    definition, as they are worked out, as `tcc survey` lists them, and, each once, as the package does."""
    from tcc import survey
    from tcc.common.rows import read_history
    from tcc.judging.versions import Versioned
    wrong, good, bad, by_versions = None, 0, 0, 0
    for seed in range(count):
        every, versions = history(random.Random(seed), 3 + seed % 4)
        slow = Slow(every, versions)
        spelled = {key: {str(value): version for value, version in each.items()} for key, each in versions.items()}
        told, at_once = (Versioned(read_history(io.StringIO(text_of(every))), spelled, level) for level in ("causal", "atomic"))
        records = "".join(told.records())
        status, has_order = asked(tcc, ["explain", "--quiet"], records).returncode, slow.has_order()
        good, bad = good + has_order, bad + (not has_order)
        if status != (0 if has_order else 1):
            wrong = wrong or "seed %d: status %d, and there is %s order" % (seed, status, "an" if has_order else "no")
        stale, plain = slow.contradicted(True), slow.contradicted(False)
        by_versions += len(stale - plain)
        got = {(one.reader, one.operation.key) for one in told.stale}
        got_at_once = {(one.reader, one.operation.key) for one in at_once.stale}
        if got_at_once != slow.contradicted(True, True):
            wrong = wrong or "seed %d, at atomic: got %s" % (seed, got_at_once)
        if got != stale:
            wrong = wrong or "seed %d: wanted %s, got %s" % (seed, stale, got)
        *lines, _ = [json.loads(line) for line in asked(tcc, ["survey", "--json"], records).stdout.splitlines()]
        listed = {(one["contradicted"], told.marks.get(one["key"], one["key"])) for one in lines
                  if "contradicted" in one and not told.is_made(one["contradicted"])}
        if listed != stale | plain:
            wrong = wrong or "seed %d: survey lists %s, and not %s" % (seed, listed, stale | plain)
        path, beside = folder / "random.csv", folder / "random.versions"
        path.write_text(text_of(every))
        beside.write_text("".join("%s,%d,%d\n" % (key, *pair) for key, each in versions.items() for pair in each.items()))
        mine = survey(path, tcc=tcc[-1], versions=beside)
        if sorted((one.reader, one.key) for one in mine.contradicted) != sorted(stale | plain):
            wrong = wrong or "seed %d: the package's survey lists %s" % (seed, mine.text())
        wrong = wrong or next(("seed %d: no walks for %s" % (seed, one) for one in told.stale if not told.cycle_of(one)), None)
    yield "histories with versions", wrong or (None if min(good, bad) > count // 10 and by_versions > count // 20 else "only %d, %d, %d" % (
        good, bad, by_versions))


def outcomes(folder: pathlib.Path, library: str, tcc: List[str]) -> Iterator[Outcome]:
    yield from recorded(folder, library, tcc)
    yield from counted()
    yield from retold(folder)
    yield from neighbours()
    yield from told_apart()
    yield from apart()
    yield from by_definition(folder, tcc, 150)
