"""Draws an answer of `tcc explain --json` as a graph for Graphviz, or tells where its transactions are in the records.

Of an anomaly the picture has the transactions that it speaks of, each session a column, and its links:

  thick line     the order in a session
  dashed line    the second transaction reads what the first one wrote, with the key
  double line    derived: the first transaction has to come before the second, with the key and the reason

Links of the cycle are numbered, `1.` and so on; a link marked `[2]` is one of the steps by which link 2 is derived, and one
marked `[against 2]` is the read that it contradicts. Of an order the picture has all its transactions, numbered, each
below those before it.

A walk of more than 8 steps is one dotted line, `30 steps`. Of an anomaly of more than 40 steps the links of the cycle are drawn
alone, without their reasons.

With --history FILE, the records that the answer is for, each transaction also has its rows (records counted from 1, as `tcc`
counts them) and its operations, and each read its value. Of more than 12 operations only those at the answer's keys are
drawn, and the others counted.

With --text, and --history, nothing is drawn: the transactions are listed with their rows and operations, and the faults of
an answer that is `unresolved`, each with the row of the write that it is about.
"""
import argparse
import csv
import sys
from dataclasses import dataclass, field
from typing import Dict, Iterable, Iterator, List, Optional, TextIO, Tuple

from tcc.common.kinds import OWN, WRITTEN
from tcc.common.progress import Doing, status_of
from tcc.common.rows import History, Json, Operation, Transaction, Unfit, open_records, read_history, read_places
from tcc.common.words import add_files, command_line
from tcc.judging.answers import Link, anomaly_head, columns, cycle_of, key, label, order_head, place, read_answer, transactions_of
from tcc.show.terms import Terms

EXAMPLE = """example: draw the anomaly of a history, then show the records that it speaks of
  $ tcc explain --json < examples/stale-read.csv > answer.json
  $ picture.py answer.json --history examples/stale-read.csv | dot -Tsvg > answer.svg
  $ picture.py answer.json --history examples/stale-read.csv --text
  anomaly: 3 steps, stale-initial-read
  a wrote x = 1 in a/1 and read x = nil in a/2 (row 5).
  init writes 0 at every key
  a/1 committed, rows 1-3
    row 2: w x 1
  a/2 committed, rows 4-6
    row 5: r x 0
"""
LEGEND = ("thick: order in a session", "dashed: reads", "double: derived, has to stand before",
          "1. link 1 of the cycle; [1] a reason of link 1")
LEGEND_OF_WALKS = "dotted: so many steps in a session and by reads"
STYLES = {
    "walk": 'penwidth=2.5, style=dotted',
    "session": 'penwidth=2.5',
    "reads": 'style=dashed, color="#0b5394", fontcolor="#0b5394"',
    "derived": 'color="#a61c00:invis:#a61c00"',
}
NOTE = 'shape=note, fontname="sans-serif", fontsize=10, color="#a61c00", fontcolor="#a61c00"'
MOST_DRAWN = 12
# The transactions of an order that is drawn: of 2,000 a picture takes `dot` a second, and it doesn't get through 100,000.
MOST_ORDERED = 2000
# The steps of a walk that are drawn one by one, and of an anomaly whose links are drawn with their reasons.
MOST_WALKED, MOST_STEPS = 8, 40


def drawn_walk(one: Link) -> Tuple[Link, ...]:
    """The lines for the walk of a derived link: its steps, or one for all."""
    if len(one.walk) <= MOST_WALKED:
        return one.walk
    return (Link("walk", one.source, one.reader, walk=one.walk),)


@dataclass
class Marks:
    """How often and where a link is used: its numbers in the cycle, and what it is a reason of."""

    numbers: List[str] = field(default_factory=list)
    reasons: List[str] = field(default_factory=list)


def marked(cycle: List[Link], with_reasons: bool) -> Dict[Link, Marks]:
    """Each link and, where reasons are wanted, what represents its reason, once, with its marks, in the order of the answer."""
    found: Dict[Link, Marks] = {}
    for number, one in enumerate(cycle, 1):
        found.setdefault(one, Marks()).numbers.append("%d." % number)
        if one.kind == "derived" and with_reasons:
            for step in drawn_walk(one):
                found.setdefault(step, Marks()).reasons.append("[%d]" % number)
            found.setdefault(one.against(), Marks()).reasons.append("[against %d]" % number)
    return found


def link_text(one: Link, history: Optional[History], with_reasons: bool) -> List[str]:
    """What a picture says of a link, in lines."""
    if one.kind == "session":
        return ["session"]
    if one.kind == "walk":
        return ["%d steps" % len(one.walk)]
    if one.kind == "reads":
        return ["reads %s" % one.key + (" = %s" % history.value_read(one.source, one.target, one.key) if history else "")]
    by = "" if with_reasons else " by %d steps" % len(one.walk)
    return ["before %s by %s:" % (one.target, one.key),
            "%s knows of %s%s," % (one.reader, one.source, by),
            "and reads %s from %s" % (one.key, one.target)]


def escaped(note: str) -> str:
    """A note of somebody's own, as a line of Graphviz has it."""
    return " ".join(note.split()).replace("\\", "\\\\").replace('"', '\\"')


def quoted(lines: Iterable[str]) -> str:
    """A text of Graphviz, each line to the left; labels, keys and words of the project need no escapes."""
    return '"%s"' % "".join(line + r"\l" for line in lines)


def drawn_operations(one: Transaction, keys: Iterable[str]) -> Iterator[str]:
    few = len(one.operations) <= MOST_DRAWN
    shown = [operation for operation in one.operations if few or operation.key in keys]
    for operation in shown:
        yield "%s %s %s" % (operation.does, operation.key, operation.value)
    if len(shown) < len(one.operations):
        yield "and %d at other keys" % (len(one.operations) - len(shown))


def node(name: str, title: str, history: Optional[History], keys: Iterable[str]) -> str:
    lines = [title]
    if name == "init":
        lines.append("0 at every key")
    elif history:
        one = history.find(name)
        lines += [one.rows(), *([escaped(one.note)] if one.note else []), *drawn_operations(one, keys)]
    return '"%s" [label=%s];' % (name, quoted(lines))


def head(session: str) -> str:
    return "session " + session


def column(session: str, labels: List[str], nodes: Dict[str, str]) -> Iterator[str]:
    """A session's transactions under its head, which shows its name."""
    yield '  subgraph "cluster %s" {' % session
    yield '    label=""; color=gray; node [group="%s"];' % session
    yield '    "%s" [shape=plaintext, fontname="sans-serif"];' % head(session)
    for name in labels:
        yield "    " + nodes[name]
    yield "  }"


def graph(title: Iterable[str], nodes: Dict[str, str], below: Iterable[Tuple[str, str]], edges: Iterable[str]) -> Iterator[str]:
    """The text for Graphviz: sessions as columns, the second of each pair in `below` under the first, and the edges."""
    sessions = columns(nodes)
    yield "digraph answer {"
    yield ('  graph [label=%s, labeljust=l, fontname="sans-serif", fontsize=11, bgcolor=white, nodesep=0.5, newrank=true];'
           % quoted(title))
    yield '  node [shape=box, fontname="monospace", fontsize=11, margin="0.15,0.08"];'
    yield '  edge [fontname="sans-serif", fontsize=10];'
    if "init" in nodes:
        yield "  " + nodes["init"]
    for session, labels in sessions.items():
        yield from column(session, labels, nodes)
    yield "  { rank=same; %s }" % " ".join('"%s";' % head(session) for session in sessions)
    heads = [("init", head(session)) for session in sessions if "init" in nodes]
    firsts = [(head(session), labels[0]) for session, labels in sessions.items()]
    for upper, lower in [*heads, *firsts, *below]:
        yield '  "%s" -> "%s" [style=invis];' % (upper, lower)
    for edge in edges:
        yield "  " + edge
    yield "}"


def edges(one: Link, marks: Marks, text: List[str]) -> Iterator[str]:
    """A link's line; that of a derived one leads by way of a note with its reason. A text keeps off its line."""
    first, *others = text
    lines = [" ".join([*marks.numbers, first, *marks.reasons]), *others]
    if one.kind != "derived":
        beside = quoted("  %s  " % line for line in lines)
        yield '"%s" -> "%s" [label=%s, %s];' % (one.source, one.target, beside, STYLES[one.kind])
        return
    note = "link " + marks.numbers[0]
    yield '"%s" [label=%s, %s];' % (note, quoted(lines), NOTE)
    yield '"%s" -> "%s" [%s, arrowhead=none];' % (one.source, note, STYLES[one.kind])
    yield '"%s" -> "%s" [%s, arrowhead=empty, constraint=false];' % (note, one.target, STYLES[one.kind])


def draw_anomaly(answer: Json, links_of_cycle: List[Link], history: Optional[History]) -> Iterator[str]:
    with_reasons = answer["steps"] <= MOST_STEPS
    links = marked(links_of_cycle, with_reasons)
    labels = {name for one in links for name in (one.source, one.target)}
    keys = {one.key for one in links}
    nodes = {name: node(name, name, history, keys) for name in labels}
    below = [pair for session in columns(labels).values() for pair in zip(session, session[1:])]
    drawn = (line for one, marks in links.items() for line in edges(one, marks, link_text(one, history, with_reasons)))
    legend = [*LEGEND, *([LEGEND_OF_WALKS] if any(one.kind == "walk" for one in links) else [])]
    told = list(Terms(history).sentences(links_of_cycle)) if history else []
    return graph([anomaly_head(answer), *told, *legend], nodes, below, drawn)


def draw_order(answer: Json, history: Optional[History]) -> Iterator[str]:
    order = [label(one) for one in answer["order"]]
    if len(order) > MOST_ORDERED:
        raise Unfit("an order of %d transactions has no picture: at most %d are drawn; --text lists them" % (
            len(order), MOST_ORDERED))
    nodes = {name: node(name, "%d: %s" % (number, name), history, ()) for number, name in enumerate(order)}
    return graph([order_head(answer)], nodes, zip(order, order[1:]), ())


def listed(name: str, history: History) -> Iterator[str]:
    """A transaction with its rows and operations."""
    if name == "init":
        yield "init writes 0 at every key"
        return
    one = history.find(name)
    yield ", ".join(filter(None, ("%s %s" % (name, "committed" if one.committed else "aborted"), one.rows(), " ".join(one.note.split()))))
    for operation in one.operations:
        line = "" if operation.line == operation.row else " (line %d)" % operation.line
        yield "  row %d%s: %s %s %s" % (operation.row, line, operation.does, operation.key, operation.value)


def list_answer(answer: Json, links: List[Link], history: History) -> Iterator[str]:
    """The text of --text: what the answer is, and the transactions that it speaks of."""
    kind = answer["answer"]
    if kind == "anomaly":
        yield anomaly_head(answer)
        yield from Terms(history).sentences(links)
        names = transactions_of(links)
    elif kind == "consistent":
        yield order_head(answer)
        names = [label(one) for one in answer["order"]]
    else:
        yield "unresolved: %d faults" % len(answer["faults"])
        writes = history.writes_of({(fault["key"], str(fault["value"])) for fault in answer["faults"]})
        yield from (fault_text(fault, history, writes) for fault in answer["faults"])
        names = list(dict.fromkeys(map(fault_label, answer["faults"])))
    for name in names:
        yield from listed(name, history)


def fault_label(fault: Json) -> str:
    return label("%s/%d" % (fault["session"], fault["place"]))


Writes = Dict[Tuple[str, str], List[Tuple[str, Operation]]]


def fault_text(fault: Json, history: History, writes: Writes) -> str:
    """The line of a fault, as `tcc` has it, with the row of its operation, and the write that it is about."""
    name = fault_label(fault)
    row = fault_operation(fault, history.find(name)).row
    return "%s %s op %d %s %d, row %d: %s" % (
        fault["kind"], name, fault["op"], key(fault["key"]), fault["value"], row, write_text(fault, name, history, writes))


def fault_operation(fault: Json, one: Transaction) -> Operation:
    if not 1 <= fault["op"] <= len(one.operations):
        raise Unfit("%s has no operation %d in the history: is it that of the answer?" % (one.label, fault["op"]))
    operation: Operation = one.operations[fault["op"] - 1]
    return operation


def write_text(fault: Json, name: str, history: History, writes: Writes) -> str:
    """Which write a fault of the transaction is about, with its row."""
    if fault["kind"] == "ThinAir":
        return "nobody wrote it"
    if fault["kind"] in OWN:
        before = history.find(name).operations[: fault["op"] - 1]
        told, found = OWN[fault["kind"]], [(name, one) for one in reversed(before) if (one.does, one.key) == ("w", fault["key"])]
    else:
        but = fault_operation(fault, history.find(name))
        told, found = WRITTEN[fault["kind"]], [each for each in writes[fault["key"], str(fault["value"])] if each[1] != but]
    if not found:
        raise Unfit("nobody writes what %s is about in the history: is it that of the answer?" % name)
    writer, write = found[0] if fault["kind"] in OWN else min(found, key=lambda each: (place(each[0]), each[1].row))
    op = history.find(writer).operations.index(write) + 1
    return "%s op %d %s, row %d" % (writer, op, told, write.row)


def shown(answer: Json, history: Optional[History], places: Dict[str, str], as_text: bool) -> Iterator[str]:
    links = cycle_of(answer, places) if answer["answer"] == "anomaly" else []
    if places and answer["answer"] != "anomaly":
        raise Unfit("a table of places is for an anomaly of a slice")
    if as_text and history is not None:
        return list_answer(answer, links, history)
    if answer["answer"] == "unresolved":
        raise Unfit("what is unresolved has no picture; --text lists its faults")
    return draw_anomaly(answer, links, history) if links else draw_order(answer, history)


def arguments() -> argparse.Namespace:
    ask = command_line(__doc__, EXAMPLE)
    ask.add_argument("answer", nargs="?", metavar="ANSWER", help="the file of the answer, by default standard input")
    add_files(ask, history="the records that the answer is for; of a slice with --places, those of the whole history",
              places="the table that places.py makes of a slice: its transactions are called as in the whole history",
              notes="annotations of the history: node, time, index and note of each transaction")
    ask.add_argument("--answer", dest="number", metavar="N", type=int, help="takes answer N, from 1; by default the last")
    ask.add_argument("--text", action="store_true", help="lists the transactions with their rows, in place of a picture")
    asked = ask.parse_args()
    if not asked.history and (asked.text or asked.notes):
        ask.error("--%s needs --history" % ("text" if asked.text else "notes"))
    return asked


def run(asked: argparse.Namespace, doing: Doing, out: TextIO) -> None:
    with open(asked.answer, encoding="utf-8") if asked.answer else sys.stdin as lines:
        answer, answers = read_answer(lines, asked.number)
    if asked.number is None and answers > 1:
        doing.say("picture.py: the last of %d answers; --answer N takes another" % answers, sys.stderr)
    history, places = None, {}
    if asked.history:
        doing.now("reads the history")
        with open_records(asked.history) as file:
            history = read_history(file)
        if asked.notes:
            history.annotate(asked.notes)
    if asked.places:
        places = read_places(asked.places)
    doing.now("lists the transactions" if asked.text else "makes the picture")
    try:
        text = "".join(line + "\n" for line in shown(answer, history, places, asked.text))
    except (KeyError, TypeError, AttributeError, IndexError) as error:
        raise Unfit("no answer of tcc explain --json: %s is missing or is something else" % error) from error
    doing.clear()
    out.write(text)
    out.flush()


def main() -> int:
    asked = arguments()
    return status_of("picture.py", "reads the answer", lambda doing: run(asked, doing, sys.stdout), "interrupted: nothing was printed",
                     (Unfit, OSError, ValueError, csv.Error))


if __name__ == "__main__":
    sys.exit(main())
