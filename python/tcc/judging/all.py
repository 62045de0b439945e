"""Lists the anomalies of a history, each with its usual name and the read at which it shows.

First `tcc survey` lists all contradicted reads: those that one other write contradicts, of which the reader knew. (Where a circle of
reads keeps it from that, this script lists them, with vector clocks.) They are struck from the records, and then `tcc explain` is
asked again and again for an anomaly of what is left: the reads that its derived links contradict are struck together (of a cycle
without one, all reads of it), until what is left is consistent, or so many were found as --most says. So no two of these
anomalies have such a read in common. A struck read only takes rules away: what is found later is an anomaly of the whole
history too. What struck reads alone would have shown stays unseen; see docs/RECORDING.md.

Each anomaly has a line; in the end there is a line for each name with how many there were.

  read your writes      a session doesn't see what it wrote itself
  monotonic reads       a session read a write of the key, and then an older one
  monotonic writes      of two writes of a session the second is seen, and the first isn't
  writes follow reads   a write is seen, and what its session had read before it isn't
  fractured read        of a transaction's writes one is seen, and another isn't
  causal chain          what is known by a longer chain of sessions and reads isn't seen
  divergent writes      two sessions see two writes of a key in opposite orders
  circular reads        transactions that read from one another in a circle (G1c)

A read that no promise lets be is an anomaly by itself:

  aborted read (G1a)        a value whose transaction aborted
  intermediate read (G1b)   a value that its transaction wrote over before it committed
  internal                  not the transaction's own last write of the key
  future read               a value that the transaction wrote only later

Where reads are unresolved what needs them can't be judged. With --strike-faults the reads at fault are left out, and the rest is
judged; of a value that was written twice, each later write and all its reads.

Records `seal` are left out. The status is 0 where nothing was found, 1 where there is an anomaly, 2 where reads are
unresolved, 3 where nothing was found in fewer transactions than --require says, 130 where it was interrupted, and that of `tcc`
where its input or its run is at fault. With --versions an anomaly may be of versions and sessions alone, in which no read is wrong: a
version of it is left out then, and the rest is judged.
"""
import argparse
import csv
import gc
import io
import json
import sys
from collections import Counter
from dataclasses import dataclass, field
from typing import Counter as Count, Dict, Iterator, List, NamedTuple, Optional, Set, TextIO

from tcc.common.kinds import VIOLATIONS
from tcc.common.inputs import why_no_records
from tcc.common.notes import NoNotes, Note, read_notes
from tcc.common.progress import INTERRUPTED, Doing, status_of
from tcc.common.rows import History, Json, Operation, Transaction, Unfit, history_of, read_places
from tcc.common.words import add_tcc, command_line, count, count_within
from tcc.judging.answers import OUT_OF_ORDER, Link, cycle_of, usual_name
from tcc.judging.contradicted import Survey, surveyed
from tcc.judging.graph import Fault
from tcc.judging.noted_versions import REFUSE, NoVersions, Versions, read_versions
from tcc.judging.program import NoAnswer, Program, program_at
from tcc.judging.runner import answer_of, of_history
from tcc.judging.versions import Versioned, add_two_versions
from tcc.record.known import hint_of_pending

EXAMPLE = """example: session a doesn't see its own write, and b sees one write of a transaction and not the other
  $ cat records.csv
  a,begin
  a,w,x,1
  a,w,y,2
  a,commit
  a,begin
  a,r,x,0
  a,commit
  b,begin
  b,r,x,1
  b,r,y,0
  b,commit
  $ all.py records.csv
  1: read your writes: a/2 read x = 0 from init, row 6; it knew of a/1
  2: fractured read: b/1 read y = 0 from init, row 10; it knew of a/1
  consistent behind 2 struck reads: 3 transactions, 2 sessions
  fractured read: 1
  read your writes: 1
"""
UNRESOLVED, TOO_FEW, UNREAD = 2, 3, 6
MOST = 10


class Struck(NamedTuple):
    """What a transaction read from another: the key, the value and its rows."""

    reader: str
    source: str
    key: str
    value: str
    rows: List[int]


@dataclass
class Records:
    """The records, their transactions, finished or not, and the rows that were struck."""

    rows: List[List[str]]
    transactions: Dict[str, Transaction]
    struck: Set[int] = field(default_factory=set)

    def left(self, label: str) -> List[Operation]:
        """What of a transaction isn't struck."""
        one = self.transactions.get(label)
        return [each for each in one.operations if each.row not in self.struck] if one else []

    def history(self) -> History:
        """What isn't struck."""
        return History({label: Transaction(label, one.first, one.last, one.committed, self.left(label))
                        for label, one in self.transactions.items()}, None)

    def text(self) -> bytes:
        """The records without what is struck, and without seals."""
        out = io.StringIO()
        write = csv.writer(out, lineterminator="\n")
        write.writerows(row for number, row in enumerate(self.rows, 1) if number not in self.struck and row != ["seal"])
        return out.getvalue().encode("utf-8", "surrogateescape")


def read_records(file: TextIO) -> Records:
    """All rows; where one is no record, `tcc` will say so."""
    rows = [fields for fields in csv.reader(file) if fields]
    return Records(rows, history_of((number, row) for number, row in enumerate(rows, 1)).transactions)


def reads_of(cycle: List[Link]) -> List[Link]:
    """The reads that the derived links contradict; of a cycle without one, those that it reads by."""
    found = [one.against() for one in cycle if one.kind == "derived"]
    return list(dict.fromkeys(found or [one for one in cycle if one.kind == "reads"]))


def strike(records: Records, read: Link) -> Struck:
    """Strikes the read, however often its transaction did it."""
    written = [one.value for one in records.left(read.source) if (one.does, one.key) == ("w", read.key)]
    value = written[-1] if written else "0"
    rows = [one.row for one in records.left(read.target) if (one.does, one.key, one.value) == ("r", read.key, value)]
    if not rows:
        raise NoAnswer("%s doesn't read %s from %s in the records" % (read.target, read.key, read.source), 1)
    records.struck.update(rows)
    return Struck(read.target, read.source, read.key, value, rows)


def in_history(answer: Json, versioned: Versioned) -> Json:
    """An answer for records with versions as one for the history."""
    told: Json = json.loads(of_history(answer_of(json.dumps(answer)), versioned).json())
    return told


def faulty_rows(records: Records, faults: List[Fault]) -> Set[int]:
    """The rows of the reads at fault; of a value that was written twice, of its later writes and all its reads."""
    twice = {(fault.operation.key, fault.operation.value) for fault in faults if fault.kind == "Duplicate"}
    return {fault.operation.row for fault in faults} | {
        one.row for every in records.transactions.values() for one in every.operations if one.does == "r" and (one.key, one.value) in twice}


@dataclass
class Search:
    """What was found so far."""

    tcc: Program
    records: Records
    places: Dict[str, str]
    notes: Dict[str, Note]
    strikes_faults: bool
    doing: Doing
    required: int = 1
    versions: Optional[Versions] = None
    two_versions: str = REFUSE
    path: str = ""  # of the records, where they are a file
    left_out: int = 0  # versions that sessions contradict
    is_short: bool = False
    names: "Count[str]" = field(default_factory=Counter)
    found: int = 0
    struck: int = 0
    last: str = ""

    def named(self, label: str) -> str:
        """A label as the whole history has it."""
        return self.places.get(label, label)

    def read_text(self, one: Struck) -> str:
        note = self.notes[self.named(one.reader)].text() if self.named(one.reader) in self.notes else ""
        return "%s read %s = %s from %s, row%s %s%s" % (
            self.named(one.reader), one.key, one.value, self.named(one.source), "s" if len(one.rows) > 1 else "",
            ", ".join(map(str, one.rows)), " (%s)" % note if note else "")

    def answer(self) -> Json:
        """The answer for what is left."""
        self.doing.now("asks for an answer behind %d anomalies" % self.found)
        versioned = self.versioned()
        answer = self.tcc.answer(self.records.text() if versioned is None else "".join(versioned.records()).encode())
        self.last = answer["answer"]
        return answer if versioned is None else in_history(answer, versioned)

    def surveyed(self) -> Survey:
        """The contradicted reads of what is left, and what of it can't be judged."""
        found, versioned = surveyed(self.tcc, self.records.history(), self.records.text, self.doing.now), self.versioned()
        return found if versioned is None else found._replace(contradicted=versioned.with_stale(found.contradicted))

    def versioned(self) -> Optional[Versioned]:
        """What is left with its versions, where there are some."""
        return None if self.versions is None else Versioned(
            self.records.history(), self.versions, self.tcc.level, self.two_versions, self.notes)

    def lines(self, most: int) -> Iterator[str]:
        """A line for each contradicted read, up to so many, then for each anomaly of what is left, and in the end for that."""
        found = self.surveyed()
        yield from self.violations(found.faults, most)
        if found.faults and self.strikes_faults:
            self.records.struck |= faulty_rows(self.records, found.faults)
            yield "left out: %d operations at fault" % len(self.records.struck)
            found = self.surveyed()
        yield from self.contradicted(found, most)
        answer = self.answer()
        while answer["answer"] == "anomaly" and self.found < most:
            cycle = cycle_of(answer)
            yield self.anomaly(answer, cycle)
            if usual_name(cycle) == "circular reads":  # what was after the circle wasn't looked at
                yield from self.contradicted(self.surveyed(), most)
            answer = self.answer()
        yield from self.end(answer)

    def violations(self, faults: List[Fault], most: int) -> Iterator[str]:
        """A line for each read that no promise lets be, up to so many; they stay where they are."""
        more = 0
        for one in (one for one in faults if one.kind in VIOLATIONS):
            self.found += 1
            self.names[VIOLATIONS[one.kind]] += 1
            if self.found <= most:
                yield "%d: %s: %s read %s = %s, row %d" % (
                    self.found, VIOLATIONS[one.kind], self.named(one.label), one.operation.key, one.operation.value, one.operation.row)
            else:
                more += 1
        if more:
            yield "and %d such reads more; --most N shows N" % more

    def contradicted(self, found: Survey, most: int) -> Iterator[str]:
        """A line for each contradicted read, up to so many; all are struck."""
        more = 0
        for one in found.contradicted:
            rows = list(one.rows)
            self.records.struck.update(rows)
            self.struck += len(rows)
            self.found += 1
            self.names[one.name] += 1
            if self.found <= most:
                read = self.read_text(Struck(one.reader, one.source, one.operation.key, one.operation.value, rows))
                yield "%d: %s: %s; it knew of %s" % (self.found, one.name, read, self.named(one.writer))
            else:
                more += 1
        if more:
            yield "and %d contradicted reads more; --most N shows N" % more

    def anomaly(self, answer: Json, cycle: List[Link]) -> str:
        """The line of an anomaly, all whose reads are struck."""
        reads = sorted((strike(self.records, read) for read in reads_of(cycle)), key=lambda one: one.rows)
        name = usual_name(cycle)
        self.found += 1
        if not reads:
            return self.out_of_order(answer, [one for one in cycle if one.kind == "version"])
        self.struck += sum(len(one.rows) for one in reads)
        self.names[name or "no usual name"] += 1
        head = "%d: %d steps, %s" % (self.found, answer["steps"], answer["shape"])
        return "%s: %s" % (", ".join(filter(None, [head, name])), "; ".join(map(self.read_text, reads)))

    def out_of_order(self, answer: Json, links: List[Link]) -> str:
        """The line of an anomaly of sessions and versions alone; the version of the later write of each link is left out from here on."""
        self.names[OUT_OF_ORDER] += 1
        said = []
        for one in links:
            written = self.records.transactions[one.target].written(one.key)
            if self.versions is not None and written is not None:
                said.append("by its version %s comes before %s at %s" % (self.named(one.source), self.named(one.target), one.key))
                self.versions = self.versions.without(one.key, written.value)
                self.left_out += 1
        return "%d: %d steps, %s: %s" % (self.found, answer["steps"], answer["shape"], "; ".join(said))

    def end(self, answer: Json) -> Iterator[str]:
        behind = " behind %d struck reads" % self.struck if self.struck else ""
        behind += " without %d versions" % self.left_out if self.left_out else ""
        if answer["answer"] == "consistent" and not self.found and answer["transactions"] < self.required:
            self.is_short = True
            yield "nothing was judged: %d transactions, and --require %d" % (answer["transactions"], self.required)
        elif answer["answer"] == "consistent":
            yield "consistent%s: %d transactions, %d sessions" % (behind, answer["transactions"], answer["sessions"])
        elif answer["answer"] == "unresolved":
            yield "unresolved%s: %d faults; --strike-faults leaves them out" % (behind, len(answer["faults"]))
            hint = hint_of_pending(self.path, {(one["key"], one["value"]) for one in answer["faults"]}) if self.path else ""
            if hint:
                yield hint
        else:
            yield "there are more%s; --most N shows N" % behind
        yield from self.counts()

    def counts(self) -> Iterator[str]:
        return ("%s: %d" % pair for pair in sorted(self.names.items()))

    def status(self) -> int:
        return 1 if self.found else UNRESOLVED if self.last == "unresolved" else TOO_FEW if self.is_short else 0


def arguments() -> argparse.Namespace:
    ask = command_line(__doc__, EXAMPLE)
    ask.add_argument("records", nargs="?", metavar="RECORDS", help="the file of the records, by default standard input")
    ask.add_argument("--most", type=count, default=MOST, metavar="N", help="shows at most so many anomalies, by default %d" % MOST)
    ask.add_argument("--level", choices=("causal", "atomic"), default="causal", help="by default causal")
    ask.add_argument("--large", action="store_true", help="takes the larger limits of tcc")
    ask.add_argument("--workers", type=count, metavar="N", help="so many threads search for an anomaly")
    ask.add_argument("--strike-faults", action="store_true", help="leaves out reads that can't be resolved, and judges the rest")
    ask.add_argument("--require", type=count_within(0, 10**9), metavar="N", default=1, help="status 3 where nothing was found in fewer transactions; "
                     "by default 1")
    ask.add_argument("--places", metavar="FILE", help="the records are a slice, and FILE is the table that places.py makes of it: "
                     "labels are those of the whole history, rows those of the slice")
    ask.add_argument("--notes", metavar="FILE", help="annotations: node, time, index and note of each transaction; those of a slice by "
                     "the labels of the whole history")
    ask.add_argument("--versions", metavar="FILE", help="versions of the records, lines key,value,version: reads that they contradict are listed too")
    add_two_versions(ask)
    add_tcc(ask)
    return ask.parse_args()


def run(asked: argparse.Namespace, doing: Doing, out: TextIO) -> int:
    why = why_no_records(asked.records) if asked.records else None
    if why:
        raise Unfit(why)
    given, closes = (asked.records, True) if asked.records else (sys.stdin.fileno(), False)
    with open(given, encoding="utf-8-sig", errors="surrogateescape", newline="", closefd=closes) as file:
        records = read_records(file)
    places = {}
    if asked.places:
        places = read_places(asked.places)
    tcc = Program(program_at(asked.tcc), asked.level, asked.large, asked.workers)
    notes = read_notes(asked.notes) if asked.notes else {}
    versions = read_versions(asked.versions) if asked.versions else None
    search = Search(tcc, records, places, notes, asked.strike_faults, doing, asked.require, versions, asked.two_versions, asked.records or "")
    try:
        for line in search.lines(asked.most):
            doing.say(line, out)
    except KeyboardInterrupt:
        doing.say("interrupted behind %d anomalies" % search.found, out)
        for line in search.counts():
            doing.say(line, out)
        return INTERRUPTED
    return search.status()


def main() -> int:
    asked = arguments()
    gc.disable()  # nothing here is held in a circle, and of millions of operations the collector takes a third of the time
    return status_of("all.py", "reads the records", lambda doing: run(asked, doing, sys.stdout), "interrupted while it read the records",
                     (NoAnswer, Unfit, NoNotes, NoVersions, OSError, csv.Error, ValueError), UNREAD)


if __name__ == "__main__":
    sys.exit(main())
