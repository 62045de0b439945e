"""What is made of histories by an import, and of records: in which line something is wrong, the parts of a transaction that reads too much,
unknown outcomes, and the contradicted reads of many sessions."""
import io
from collections import Counter
from typing import Iterator, List, Optional, Tuple

from counted import Outcome
from helpers import differs


def failure(text: str) -> Optional[str]:
    """Why a history can't be imported."""
    from tcc.imports import jepsen
    from tcc.imports.imported import Imported
    from tcc.imports.operations import Untold
    from tcc.common.progress import Doing
    try:
        jepsen.imported(jepsen.Reading(io.BytesIO(text.encode()), Imported({"null"}), Doing(""), ""), True)
    except Untold as error:
        return str(error)
    return None


def far_lines() -> Iterator[Outcome]:
    """A fault far from the beginning is named by its line, in each form: what follows is read some lines at a time."""
    usual = "{:type :ok, :process 1, :f :txn, :value [[:w :x %d]]}\n"
    unusual = "{:type :ok, :process 1, :f :txn, :more #{1}\n :value [[:w :x %d]]}\n"  # in two lines
    lines = '{"type":"ok","process":1,"f":"txn","value":[["w","x",%d]]}\n'
    for about, line, wrong, count, wanted in (
            ("usual EDN", usual, '{:type :bad, :process 1, :f :txn, :value []}', 186, 'line 187: the type is "bad", none of invoke, ok, fail, info'),
            ("EDN of two lines a map", unusual, "{:type :ok :process}", 400, "line 801: no EDN: a map with a key that has no value"),
            ("EDN with a comment", "; why\n" + usual, "{:a ##NaN}", 100, "line 201: no EDN: ##NaN is no number of JSON"),
            ("JSON", lines, '{"type":"bad","process":1,"f":"txn","value":[]}', 186, 'line 187: the type is "bad", none of invoke, ok, fail, info')):
        text = "".join(line % number for number in range(1, count + 1)) + wrong + "\n" + line % 10**6
        yield differs("a fault far away in " + about, wanted, failure(text))
        yield differs("none in " + about, None, failure(text.replace(wrong, "")))


def parts() -> Iterator[Outcome]:
    """A list with elements of so many sessions needs as many reads: what one transaction has no room for is in companions of its session,
    each read once, and these represent it."""
    from tcc.imports.list_history import APPEND, LIST, OK, Step, Transaction
    from tcc.imports.lists import Lists
    for count, wanted in ((255, [256]), (256, [256, 1]), (600, [256, 256, 88, 1])):
        every = [Transaction(number, OK, number + 1, 0, [Step(APPEND, "k", str(number + 1))]) for number in range(count)]
        text = "".join(" %d" % (number + 1) for number in range(count))
        every.append(Transaction(count, OK, count + 1, 10**6, [Step(LIST, "k", text)]))
        lists = Lists(every, ["p%d" % number for number in range(count)] + ["reader"])
        lines = "".join(lists.records()).splitlines()
        mine = "\n".join(line.partition(",")[2] for line in lines if line.startswith("reader,"))
        sizes = [len(part.split("\n")) - 2 for part in mine.replace("commit\nbegin", "commit\n\nbegin").split("\n\n")]
        reads = [line for line in mine.split("\n") if line.startswith("r,k.")]
        yield differs("reads of %d sessions" % count, (wanted, count, count), (sizes, len(reads), len(set(reads))))
        yield differs("what represents the reader of %d" % count, {"reader/1"}, {lists.real("reader/%d" % place) for place in range(1, len(wanted) + 1)})


def elements() -> Iterator[Outcome]:
    """The elements of lists, however they are spelled, and whichever list was read before."""
    from tcc.imports.imported import Imported
    from tcc.imports.jepsen import Reading, imported
    from tcc.common.progress import Doing
    for spelled, wanted in ((["1 2 3", "1 ", "1 2", "1,2", "1  2", " 1 2", ""], [" 1 2 3", " 1", " 1 2", " 1 2", " 1 2", " 1 2", ""]),
                            (["1", "12", "12 3", "12 34", "12 34 5,6"], [" 1", " 12", " 12 3", " 12 34", " 12 34 5 6"]),
                            (["+1 2", "1 2", "1 02"], [" 1 2", " 1 2", " 1 2"])):
        text = "".join("{:type :ok, :f :txn, :value [[:r x [%s]]], :process 0}\n" % each for each in spelled)
        text = "{:type :ok, :f :txn, :value [[:append x 1]], :process 1}\n" + text
        read = imported(Reading(io.BytesIO(text.encode()), Imported({"null"}), Doing(""), ""), True)
        yield differs("elements of %s" % spelled, wanted, [one.steps[0].value for one in read.of_lists.transactions[1:]])
    text = "{:type :ok, :f :txn, :value [[:append x 1]], :process 1}\n" + "".join(
        "{:type :ok, :f :txn, :value [[:r x [%s]]], :process 0}\n" % each for each in (":a", "*0", ":a *0"))
    read = imported(Reading(io.BytesIO(text.encode()), Imported({"null"}), Doing(""), ""), True)
    first, second, both = (one.steps[0].value for one in read.of_lists.transactions[1:])
    yield differs("a symbol that is spelled as a mark", (True, first + second), (first != second, both))


def wrong_by_themselves() -> Iterator[Outcome]:
    """What lists show by themselves, though most are the beginning of one that was read before: an element that its reader appends only later,
    one whose name another one begins with, and one appended twice, after which its transaction's last one is another."""
    from tcc.imports.list_history import APPEND, LIST, OK, Fault, Step, Transaction
    from tcc.imports.lists import Lists

    def one_step(does: str, value: str) -> List[Step]:
        return [Step(does, "k", value)]

    def history(*every: List[Tuple[str, str]]) -> Lists:
        made = [Transaction(number, OK, number + 1, 0, [Step(does, "k", value) for does, value in steps]) for number, steps in enumerate(every)]
        return Lists(made, ["s%d" % number for number in range(len(every))])

    one, two = [(APPEND, "1")], [(LIST, " 1 2")]
    for about, every, faults, records in (
            ("an element that its reader appends later", [one, two, [(LIST, " 1 2"), (APPEND, "2")]], [Fault("Future", 2, 0, "2")], ["s1,r,k,2"]),
            ("a list that begins as an element does", [[(APPEND, "12")], [(LIST, " 12")], [(LIST, " 1")]], [Fault("ThinAir", 2, 0, "1")], ["s1,r,k,12"]),
            ("an element that was appended twice", [[(APPEND, "1"), (APPEND, "2")], [(APPEND, "2")], [(LIST, " 1")]], [Fault("Duplicate", 1, 0, "2")],
             ["s0,w,k,1", "s2,r,k,1"]),
            ("one that nobody appended, within a transaction's", [[(APPEND, "1"), (APPEND, "3")], [(LIST, " 1 9 3")]], [Fault("ThinAir", 1, 0, "9")],
             ["s0,w,k,3", "s1,r,k,3"])):
        lists = history(*every)
        lines = "".join(lists.records()).split()
        yield differs(about, (faults, []), (lists.faults, [line for line in records if line not in lines]))
    # s0 appends 1 and then 2; who reads 1 alone lacks the next one of s0, which may have begun before.
    appends = [Transaction(0, OK, 1, 0, one_step(APPEND, "1")), Transaction(0, OK, 2, 0, one_step(APPEND, "2"))]
    lists = Lists([*appends, Transaction(1, OK, 3, 0, one_step(LIST, " 1 2")), Transaction(2, OK, 4, 0, one_step(LIST, " 1"))], ["s0", "s1", "s2"])
    yield differs("what a list lacks", ["s2,r,k.2,0"], [line for line in "".join(lists.records()).split() if line.endswith(",0")])
    lists = history(one, [(APPEND, "2"), (APPEND, "3")], [(LIST, " 1 2 3")])
    list(lists.records())
    yield differs("observers where who read it says the order of those who appended", {}, lists.observers)


def apart() -> Iterator[Outcome]:
    """What is made for a history of lists has names that nothing in the history has, also where that has names as these are: sessions that
    say in which order elements were appended, that what nobody read came last, and that something is wrong; and registers of elements."""
    from tcc.imports.list_history import APPEND, LIST, OK, READ, Step, Transaction
    from tcc.imports.lists import Lists
    names, end = ["o.1", "u.1", "f.1", "d", "c"], 10**6
    appends = [Transaction(number, OK, number + 1, 0, [Step(APPEND, "k", element)]) for number, element in enumerate("1239")]
    for about, text, is_log, made in (("order", " 1 2 3", False, 1), ("order, and in a log the end", " 1 2 3", True, 2),
                                      ("a list with an element twice", " 1 2 3 3", False, 1)):
        every = [*appends, Transaction(4, OK, 5, end, [Step(LIST, "k", text)])]
        lines = "".join(Lists(every, names, is_log).records(with_faults=True)).splitlines()
        begun = Counter(line.partition(",")[0] for line in lines if line.endswith(",begin"))
        yield differs("transactions of each session, of " + about, {name: 1 for name in names}, {name: begun[name] for name in names})
        yield differs("sessions that are made, of " + about, made, len(set(begun) - set(names)))
    keys = {"k", "k.1", "e-0", "f.1"}
    every = [Transaction(0, OK, 1, 0, [Step(APPEND, "k", "1")]), Transaction(1, OK, 2, 0, [Step(READ, key, "0") for key in sorted(keys - {"k"})]),
             Transaction(2, OK, 3, end, [Step(LIST, "k", " 1")]), Transaction(2, OK, 4, end, [Step(LIST, "k", " 1 1")])]
    lists = Lists(every, ["a", "b", "c"])
    lines = "".join(lists.records(with_faults=True)).splitlines()
    wrong = {line.split(",")[2] for line in lines if line[0] not in "abc" and line.count(",") == 3}
    yield differs("registers of elements", (1, set()), (len(lists.registers()), keys & lists.registers()))
    every = [Transaction(0, OK, 1, 0, [Step(APPEND, "f", "1")]), Transaction(1, OK, 2, end, [Step(LIST, "f", " 1")]),
             Transaction(2, OK, 3, end, [Step(LIST, "f", " 1 1")])]
    again = Lists(every, ["a", "b", "c"])
    made = {line.split(",")[2] for line in "".join(again.records(with_faults=True)).splitlines() if line[0] not in "abc" and line.count(",") == 3}
    yield differs("a register that is called as what is wrong", ({"f.1"}, set()), (again.registers(), made & again.registers()))
    yield differs("keys of what is wrong", (1, set()), (len(wrong), wrong & (keys | lists.registers())))


def initial() -> Iterator[Outcome]:
    """Nobody writes or appends the initial value."""
    form = "{:type :ok, :process 1, :f :txn, :value [[:%s :x %s]]}"
    for does in ("w", "append"):
        yield differs("%s of nil" % does, "line 1: a write of null, which is the initial value", failure(form % (does, "nil")))
        yield differs("%s of 5" % does, None, failure(form % (does, "5")))


def annotated() -> Iterator[Outcome]:
    """The node, time, index and line of each transaction are its own. Times of a clock count from the least one, others are as they are."""
    from tcc.imports import jepsen
    from tcc.imports.imported import Imported
    from tcc.common.progress import Doing
    edn = "{:type :ok, :f :txn, :value [[:w :x %d]], :process 0, :time %d, :index %d%s}\n"
    json = '{"type":"ok","f":"txn","value":[["w","x",%d]],"process":0,"time":%d,"index":%d%s}\n'
    invoke = "{:type :invoke, :f :txn, :value [[:w :x 1]], :process 0, :time 1, :index 3, :node \"n9\"}\n"
    for about, line, node, clock, first in (("EDN", edn, ', :node "%s"', 0, ""), ("EDN with an invoke", edn, ', :node "%s"', 0, invoke),
                                            ("unusual EDN", edn, ', :more #{1}, :node "%s"', 0, ""), ("JSON", json, ',"node":"%s"', 17 * 10**17, "")):
        text = first + "".join(line % (number, clock + time * 10**9, 4 + number, node % place if place else "")
                               for number, (time, place) in enumerate(((2, "n1"), (1, ""), (5, "n3")), 1))
        reading = jepsen.Reading(io.BytesIO(text.encode()), Imported({"null"}), Doing(""), "")
        got = [(label, one.node, one.time, one.index, int(one.line)) for label, one in jepsen.imported(reading, True).notes(False)]
        begun, lines = 1 if clock else 0, 1 if first else 0
        wanted = [("p0/1", "n1", "%d.000000" % (2 - begun), "5", 1 + lines), ("p0/2", "", "%d.000000" % (1 - begun), "6", 2 + lines),
                  ("p0/3", "n3", "%d.000000" % (5 - begun), "7", 3 + lines)]
        yield differs("annotations of " + about, wanted, got)


def unknowns() -> Iterator[Outcome]:
    """Records of unknown outcome: they committed where a committed transaction read of them, not an aborted one; what they read says
    nothing."""
    from tcc.common.rows import read_history
    told = [("a", ["w,x,1"], "unknown"), ("b", ["r,y,0", "w,x,2"], "unknown"), ("c", ["r,x,1"], "commit"), ("d", ["r,x,2"], "abort"),
            ("e", ["w,z,3"], "unknown"), ("f", ["r,z,3", "w,u,4", "w,v,5"], "unknown"), ("g", ["r,v,5"], "commit")]
    text = "".join("{0},begin\n{1}{0},{2}\n".format(name, "".join("%s,%s\n" % (name, each) for each in does), end) for name, does, end in told)
    history = read_history(io.StringIO(text))
    yield differs("which committed", ["a/1", "c/1", "f/1", "g/1"], [label for label, one in history.transactions.items() if one.committed])
    wanted = {"a/1": ["w x 1"], "b/1": ["w x 2"], "e/1": ["w z 3"], "f/1": ["w u 4", "w v 5"]}
    yield differs("what they did", wanted, {label: ["%s %s %s" % (one.does, one.key, one.value) for one in each.operations]
                                            for label, each in history.transactions.items() if each.is_unknown})


def many_sessions() -> Iterator[Outcome]:
    """Reads of 130 sessions that as many others wrote over: each is contradicted, by searches and by clocks. A walk is a shortest one: in a
    session any earlier transaction is one step away."""
    from tcc.judging import contradicted
    from tcc.judging.graph import walk
    from tcc.common.rows import read_history
    count, kept = 130, contradicted.SEARCHED
    text = "".join("s{0},begin\ns{0},w,x{0},1\ns{0},commit\nt{0},begin\nt{0},r,x{0},1\nt{0},w,x{0},2\nt{0},commit\n".format(number) for number in range(count))
    for value in (2, 1):
        text += "r,begin\n" + "".join("r,x%d,%d\n" % (number, value) for number in range(count)).replace("r,x", "r,r,x") + "r,commit\nr,begin\nr,commit\n"
    wanted = [("r/3", "x%d" % number, "s%d/1" % number, "t%d/1" % number, "monotonic reads") for number in range(count)]
    for about, contradicted.SEARCHED in (("searches", 10**9), ("clocks", 0)):
        found, graph = contradicted.survey(read_history(io.StringIO(text)), "causal", lambda what: None)
        got = [(one.reader, one.operation.key, one.source, one.writer, one.name) for one in found.contradicted]
        yield differs("contradicted reads of many sessions, by " + about, (wanted, 3 * count), (got, found.reads))
    contradicted.SEARCHED = kept
    steps = walk(graph, graph.numbers["s7/1"], graph.numbers["r/4"])
    yield differs("a walk", [("reads", "s7/1", "r/3"), ("session", "r/3", "r/4")], [(one.kind, one.source, one.target) for one in steps])
    steps = walk(graph, graph.numbers["r/1"], graph.numbers["r/4"])
    yield differs("a walk in a session", [("session", "r/1", "r/4")], [(one.kind, one.source, one.target) for one in steps])


def outcomes() -> Iterator[Outcome]:
    yield from initial()
    yield from annotated()
    yield from unknowns()
    yield from many_sessions()
    yield from far_lines()
    yield from parts()
    yield from elements()
    yield from wrong_by_themselves()
    yield from apart()
