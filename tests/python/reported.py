"""What a page says of a run: the first contradicted read, what happened meanwhile, the picture of a slice, charts and tables, and which
limits a history needs. Beside these, names that two sessions by node could have in common, how much a client does, which program is run
and how its status is passed on."""
import html
import io
import json
import os
import pathlib
import re
import stat
import sys
from typing import Iterator, List

from counted import Outcome
from helpers import differs, run

# Of each session the second transaction doesn't see its first; that of b comes first.
STALE = ("b,begin\nb,w,x,1\nb,commit\na,begin\na,w,y,2\na,commit\nb,begin\nb,r,x,0\nb,commit\n"
         "a,begin\na,r,y,0\na,commit\n")
# In the whole a/2 wrote what a/3 doesn't see, in the slice a/1 and a/2.
WHOLE = "a,begin\na,w,z,5\na,commit\na,begin\na,w,x,1\na,commit\na,begin\na,r,x,0\na,commit\n"
SLICE = "a,begin\na,w,x,1\na,commit\na,begin\na,r,x,0\na,commit\n"
# A program that accepts, and whose answer for a slice this is.
PROGRAM = """#!/bin/sh
case "$1" in
check) echo 'accepted: cycle, 3 steps' ;;
*) echo '%s'; exit 1 ;;
esac
"""
ANOMALY = ('{"answer":"anomaly","cycle":[{"from":"init","kind":"session","to":"a/%d"},{"from":"a/%d","key":"x","kind":"derived","reader":"a/%d",'
           '"to":"init","walk":[{"from":"a/%d","kind":"session","to":"a/%d"}]}],"shape":"stale-initial-read","steps":3}')


def findings(records: str, **more):
    """What a page of some records tells, before anything was asked."""
    from tcc.judging.program import Program
    from tcc.show.findings import Findings
    from tcc.common.rows import read_history
    return Findings("records.csv", Program("tcc", is_large=True), read_history(io.StringIO(records)), {}, {"answer": "anomaly"}, [], **more)


def first() -> Iterator[Outcome]:
    """The first contradicted read is that of the first row, whatever its label."""
    from tcc.common.notes import Note
    from tcc.judging.contradicted import survey
    from tcc.show.overview import first_of
    told = findings(STALE)
    told.found, told.graph = survey(told.history, "causal", lambda what: None)
    yield differs("contradicted reads by label", ["a/2", "b/2"], [one.reader for one in told.contradicted])
    yield differs("the first one by rows", "by row: row 8, in b/2", first_of(told))
    told.notes = {"a/2": Note(time="2.5"), "b/2": Note(time="3")}
    yield differs("the first one by time", "by time: 2.500 s, row 11, in a/2", first_of(told))
    told.notes = {"a/2": Note(time="2.5"), "b/2": Note(node="n1")}
    yield differs("the first one where one has no time", "by row: row 8, in b/2", first_of(told))


def as_told(folder: pathlib.Path) -> Iterator[Outcome]:
    """The operations of the transactions that are shown, as the history has them: by the lines of their invokes and of what ended them; a long
    one is cut, and of a history in one line, or of records, there are none."""
    from tcc.common.progress import Doing
    from tcc.imports.imported import Imported
    from tcc.imports.jepsen import Reading, imported
    from tcc.show.operations import MOST_LETTERS, operations
    one = '{:type :%s, :f :txn, :value [[:%s x %s]], :process %d}'
    ops = [one % ("invoke", "w", 1, 0), one % ("invoke", "w", 2, 1), one % ("ok", "w", 2, 1), one % ("ok", "w", 1, 0), one % ("ok", "r", 1, 1),
           "{:type :ok, :f :txn, :value [[:w y 1] [:r x %s]], :process 2, :note \"%s\"}" % (2, "o" * MOST_LETTERS)]
    for about, text, wanted in (
            ("a history of one operation", ops[4].replace(":process 1", ":process 0") + "\n", ["p0/1", "line 1: " + ops[4].replace(":process 1", ":process 0")]),
            ("a history", "\n".join(ops) + "\n", ["p0/1", "line 1: " + ops[0], "line 4: " + ops[3], "p1/2", "line 5: " + ops[4], "p2/1", "line 6: " + ops[5][:MOST_LETTERS] + " .."]),
            ("a history in one line", "[%s]" % " ".join(ops[1:4:2]), [])):
        path = folder / "told.edn"
        path.write_text(text)
        with open(path, "rb") as file:
            read = imported(Reading(file, Imported({"null"}), Doing("reads"), "told.edn"), True)
        told = findings("", imported=read, path=str(path))
        told.notes = dict(read.notes(False))
        page = "".join(operations(told, ["init", "p0/1", "p1/2", "p2/1"]))
        got = [html.unescape(line) for line in re.findall(r"(?<=<dt>)[^<]*|(?<=<pre>)[^<]*", page)]
        yield differs("operations as %s has them" % about, "\n".join(wanted), "\n".join(got))
    yield differs("operations of records", "", "".join(operations(findings(STALE), ["a/1"])))


def meanwhile() -> Iterator[Outcome]:
    """What began and ended, each by its name, and its node where it has one; of two lines of the nemesis the first."""
    from tcc.imports.collected import Nemesis
    from tcc.imports.imported import Imported
    from tcc.common.notes import Event
    from tcc.show.overview import spans
    events = [("start-partition", 1), ("kill n1", 2), ("kill n2", 2.25), ("pause n1", 2.5), ("start n1", 3), ("resume n1", 3.5), ("stop-partition", 4),
              ("partition", 5), ("heal", 6), ("start", 7), ("bump", 7.5), ("stop", 8), ("bump", 9), ("start n2", 10)]
    told = findings("", events=[Event(what, float(time)) for what, time in events])
    wanted = [("start-partition", 1, 4), ("kill n1", 2, 3), ("kill n2", 2.25, 10), ("pause n1", 2.5, 3.5), ("partition", 5, 6), ("start", 7, 8),
              ("bump", 7.5, None), ("bump", 9, None)]
    yield differs("events from their beginning to their end", wanted, [(one.what, one.begin, one.end) for one in spans(told, 0)])
    lines = [("start-partition", 1), ("start-partition", 2), ("bump", 3), ("bump", 4), ("bump", 5), ("bump", 6), ("stop-partition", 7), ("stop-partition", 8),
             ("start-partition", 9), ("start-partition", 10), ("heal", None), ("heal", 12), ("heal", 13)]
    imported = Imported({"null"}, nemesis=[Nemesis(line, None, None if time is None else (100 + time) * 10**9, "info", what, "null")
                                           for line, (what, time) in enumerate(lines, 1)])
    wanted = [("start-partition", 1, 7), ("bump", 3, None), ("bump", 5, None), ("start-partition", 9, 12)]
    found = [(one.what, one.begin, one.end) for one in spans(findings("", imported=imported), 100 * 10**9)]
    yield differs("lines of the nemesis", wanted, found)


def sliced(folder: pathlib.Path) -> Iterator[Outcome]:
    """The picture of a slice has the labels of the whole, those of walks too."""
    from tcc.judging.answers import cycle_of
    from tcc.judging.program import Program
    from tcc.common.progress import Doing
    from tcc.show.gathering import Work, certify
    place = folder / "sliced"
    place.mkdir()
    program = place / "program"
    program.write_text(PROGRAM % (ANOMALY % (1, 1, 2, 1, 2)))
    program.chmod(program.stat().st_mode | stat.S_IXUSR)
    for name, text in (("records.csv", WHOLE), ("slice.csv", SLICE), ("certificate.txt", "")):
        (place / name).write_text(text)
    told = findings(WHOLE)
    told.tcc, told.answer = Program(str(program), is_large=True), json.loads(ANOMALY % (2, 2, 3, 2, 3))
    wanted = cycle_of(told.answer)
    certify(told, Work(place, Doing("")))
    yield differs("the cycle of a slice", (wanted, True, "accepted: cycle, 3 steps"), (told.cycle, told.is_of_slice, told.check))


def limits() -> Iterator[Outcome]:
    """A history past any of the default limits needs --large, and none at them."""
    from tcc.common.limits import MAX_KEYS, MAX_SESSIONS, MAX_TRANSACTIONS
    from tcc.show.findings import is_large
    from tcc.common.rows import read_history

    def needs(sessions: int, transactions: int, keys: int) -> bool:
        lines = ["s%d,begin\ns%d,commit\n" % (number, number) for number in range(sessions - 1)]
        lines += ["z,begin\n%sz,commit\n" % "".join("z,r,k%d,0\n" % key for key in range(first, min(first + 256, keys))) for first in range(0, keys, 256)]
        lines += ["z,begin\nz,commit\n"] * (transactions - len(lines))
        return is_large(read_history(io.StringIO("".join(lines))))

    for counts, wanted in (((MAX_SESSIONS, MAX_TRANSACTIONS, MAX_KEYS), False), ((MAX_SESSIONS + 1, 200, 1), True),
                           ((MAX_SESSIONS, MAX_TRANSACTIONS + 1, 1), True), ((2, 200, MAX_KEYS + 1), True)):
        yield differs("--large for %d sessions, %d transactions and %d keys" % counts, wanted, needs(*counts))


def drawn() -> Iterator[Outcome]:
    """A chart's bars have each place once, that at the end too, and its mark is at the first; a table says how many it leaves out."""
    from tcc.show.chart import Course, chart
    from tcc.show.page import counts
    text = chart(Course(10.0, "s", [8.0, 2.0, 10.0], [5.0, 8.5]), 920, 10)
    wanted = ["2 s to 3 s: 1 contradicted", "5 s to 6 s: 0 contradicted, 1 not judged", "8 s to 9 s: 1 contradicted, 1 not judged",
              "9 s to 10 s: 1 contradicted"]
    yield differs("bars of a chart", wanted, re.findall("<title>(.*?)</title>", text))
    yield differs("the first place of a chart", ["213.6"], re.findall('class="first" d="M([0-9.]+) ', text))  # of 868 from 40 on the fifth part
    table = counts("By name", [("a", "", 5), ("b", "about b", 3), ("c", "", 2), ("d", "", 1)], 2, "names")
    yield differs("a table of two of four", ["5", "3", "3"], re.findall(r'<td class="count">([0-9]+)</td>', table))
    yield "what it leaves out", None if "and 2 names more" in table else table


def programs() -> Iterator[Outcome]:
    """The program that is named comes before that of the variable TCC, and this before that on the path."""
    from tcc.judging.program import program_at
    from tcc.judging.runner import program
    kept = os.environ.get("TCC")
    os.environ["TCC"] = "/bin/false"
    try:
        found = [find(path) for find in (program_at, program) for path in ("/bin/true", None)]
    finally:
        os.environ.pop("TCC")
        if kept is not None:
            os.environ["TCC"] = kept
    yield differs("which program is run", ["/bin/true", "/bin/false"] * 2, found)


def in_full(folder: pathlib.Path) -> Iterator[Outcome]:
    """Which words `tcc-full` passes on, and that its status is the program's; 128 and the signal where that was killed."""
    from tcc.judging import full
    one, kept = folder / "full-program", sys.argv
    one.write_text('#!/bin/sh\necho "$@" > "$0.words"\nread -r status < "$0.status"\ntest "$status" = killed && kill -9 $$\nexit "$status"\n')
    one.chmod(0o755)
    try:
        for status, wanted in (*((str(number), number) for number in range(7)), ("killed", 137)):
            (folder / "full-program.status").write_text(status + "\n")
            sys.argv = ["tcc-full", "--tcc", str(one), "records.csv"]
            yield differs("tcc-full of a program that ends with %s" % status, wanted, full.main())
        yield differs("its words", "explain --full --level causal --require 1 -- records.csv\n", (folder / "full-program.words").read_text())
        (folder / "full-program.status").write_text("0\n")
        sys.argv = ["tcc-full", "--tcc", str(one), "--level", "atomic", "--large", "--workers", "3", "--require", "7", "records.csv"]
        full.main()
        yield differs("all its words", "explain --full --level atomic --large --workers 3 --require 7 -- records.csv\n",
                      (folder / "full-program.words").read_text())
    finally:
        sys.argv = kept


def long_names(folder: pathlib.Path) -> Iterator[Outcome]:
    """Two nodes whose names are cut to one: their sessions have names that differ, and are no longer than a name may be."""
    from tcc.record.sessions import write_by_node
    records, notes, out = (folder / ("long-names." + end) for end in ("csv", "notes", "out"))
    client, nodes = "a" * 30, ("east", "east2", "west")
    records.write_text("".join("%s,begin\n%s,commit\n" % (client, client) for _ in nodes))
    notes.write_text("transaction,node\n" + "".join("%s/%d,%s\n" % (client, place, node) for place, node in enumerate(nodes, 1)))
    write_by_node(records, notes, out)
    wanted = [client + ".e", client + "-2", client + ".w"]
    yield differs("names that are cut", wanted, [line.split(",")[0] for line in out.read_text().splitlines() if line.endswith("begin")])


def pending(folder: pathlib.Path, library: str, tcc: List[str]) -> Iterator[Outcome]:
    """A value that is noted beside the records alone was written by what hadn't ended when the recorder did, which is said; of others, and
    where the recorder was closed, nothing is."""
    from tcc import Recorder
    from tcc.record.known import hint_of_pending
    path = folder / "left.csv"
    recorder = Recorder(path)
    with recorder.session("a").transaction() as one:
        one.write("x", 5)
        said = [bool(hint_of_pending(path, pairs)) for pairs in ({("x", 5), ("y", 1)}, {("x", 6)}, {("y", 5)}, set())]
        hint = hint_of_pending(path, {("x", 5)})
    recorder.close()
    yield differs("whether what nobody wrote is noted beside the records", ([True, False, False, False], False),
                  (said, bool(hint_of_pending(path, {("x", 5)}))))
    other = folder / "left-open.csv"
    other.write_text("b,begin\nb,r,x,5\nb,commit\n")
    (folder / "left-open.csv.pending").write_text("a,1,x,5\n")
    done = run([sys.executable, os.path.join(library, "bin/tcc-all"), "--tcc", os.path.abspath(tcc[-1]), str(other)], library)
    yield "what tcc-all says", None if done.returncode == 2 and "tcc-look -o whole.csv %s" % other in done.stdout else done.stdout + done.stderr
    yield "what to do about it", None if hint.endswith("tcc-look -o whole.csv %s writes a history with them" % path) and str(path) + ".pending" in hint else hint


def no_records(folder: pathlib.Path) -> Iterator[Outcome]:
    """What is no file of records is named, with what to do: a history of Jepsen, a packed file, a folder, a text in the place of a path. And
    what `tcc` says in JSON in the place of an answer is shown in words."""
    from tcc import NoAnswer, explain
    from tcc.common.inputs import why_no_records
    from tcc.judging.program import plain_end, why_none
    for name, content in (("history.edn", b"{:type :ok, :process 0, :f :txn, :value []}\n"), ("history.json", b'[{"type":"ok"}]'),
                          ("records.csv.gz", b"\x1f\x8b\x08"), ("history.txt", b"0 :invoke :txn [[:r 1 nil]]\n"), ("records.zip", b"PK\x03\x04")):
        (folder / name).write_bytes(content)
    for given, wanted in ((folder / "history.edn", "tcc-jepsen %s > records.csv makes records" % (folder / "history.edn")),
                          (folder / "history.json", "tcc-report %s a page" % (folder / "history.json")), (folder / "records.csv.gz", "gunzip it first"),
                          (folder / "history.txt", "history.edn beside it is the history"), (folder / "records.zip", "it is a zip archive: unpack it first"),
                          (folder, "is a folder: tcc-join -o records.csv %s/*.csv makes one history" % folder),
                          ("a,begin\na,commit\n", "a text, and no path"), (b"a,begin\n", "judge(..), which takes them in memory")):
        try:
            said = str(explain(given, tcc=sys.executable))
        except NoAnswer as error:
            said = str(error)
        yield "what %r is" % given, None if wanted in said else said
    pipe = folder / "pipe"
    os.mkfifo(pipe)
    yield differs("a pipe, which nobody reads here", None, why_no_records(pipe))
    for line, wanted in (('{"answer":"row","kind":"FieldCount","row":2}', "row 2: FieldCount"),
                         ('{"answer":"row","kind":"Unfinished","row":2,"session":"a"}', "row 2: Unfinished a"), ('{"answer":"memory"}', "memory"),
                         ("tcc: what", "tcc: what"), ("", ""), ("[1]", "[1]")):
        yield differs("in words, %s" % line, wanted, plain_end(line))
    row = '{"answer":"row","kind":"FieldCount","row":2}'
    for line, errors, said in ((row, "row 2: \"a\": expected a record\n", ["row 2: \"a\": expected a record"]), (row, "", ["row 2: FieldCount"]),
                               ("device", "none.csv: No such file\ndevice\n", ["none.csv: No such file"]), ("device", "device\n", ["device"]), ("memory", "no room\n", ["memory", "no room"]),
                               ('{"answer":"memory"}', "\n", ["memory"]), ('{"answer":"consistent"}', "--require 2: only 1 transactions", ["--require 2: only 1 transactions"])):
        yield differs("why there is no answer, %s, %r" % (line, errors), said, why_none(line, errors))


def commands_of_others(folder: pathlib.Path, library: str) -> Iterator[Outcome]:
    """Commands that take records say what to do with a history of Jepsen, and what is wrong with a path that `judge` is given."""
    from tcc import NoAnswer, judge
    history = str(folder / "history.edn")
    for words in (["tcc-versions", history, history, "-o", "out.csv"], ["tcc-look", history], ["tcc-join", history, "-o", "out.csv"],
                  ["tcc-sessions", history, history, "-o", "out.csv"], ["tcc-settle", history], ["tcc-shrink", history], ["tcc-all", history]):
        done = run([sys.executable, os.path.join(library, "bin", words[0]), *words[1:]], library, cwd=folder)
        yield "%s of a history of Jepsen" % words[0], None if done.returncode in (1, 3, 6) and "tcc-jepsen" in done.stderr else done.stderr
    for path in (history, folder / "history.edn"):
        try:
            judge(path, tcc=sys.executable)
            said = "an answer"
        except NoAnswer as error:
            said = str(error)
        yield differs("a path in the place of records, %r" % path, "%s is a path, and no records: explain(..) judges a file" % history, said)


def outcomes(folder: pathlib.Path, library: str, tcc: List[str]) -> Iterator[Outcome]:
    for part in (first(), as_told(folder), meanwhile(), sliced(folder), limits(), drawn(), programs(), in_full(folder), long_names(folder), pending(folder, library, tcc), no_records(folder),
                 commands_of_others(folder, library)):
        yield from part
