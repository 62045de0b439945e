"""Versions: a store that numbers the writes of a key says which of two writes came first, and records can say so too.

Causal consistency by itself leaves the order of two writes open where neither client had observed the other. So a read of the older one by
somebody who had observed both may be explained by putting the newer one first. Where the store tells versions, as etcd does by its
mod_revision, it isn't: the history has to have an order in which the writes of each key are in the order of their versions.

Versions lie in a file beside the records: lines of CSV, `key,value,version`, a greater number for a later write of the key. The
history with versions is the records and

  observers  of each key a session of its own, o.N, that reads its values in the order of their versions, a transaction each: there is
             an order of the history that has the versions' exactly where there is one with the observers
  marks      where a read is older, by versions, than a write that its reader had observed, a register K.vN, N being that write's version,
             which its writer writes and the reader reads as nothing: so `tcc survey` counts these reads

docs/MODEL.md has the proof.
"""
import argparse
import contextlib
import gc
import os
import sys
import tempfile
from dataclasses import dataclass, field
from typing import Dict, Iterator, List, Mapping, NamedTuple, Optional, Tuple

from tcc.common.inputs import check_records
from tcc.common.limits import MAX_NAME_BYTES, MAX_OPERATIONS
from tcc.common.notes import NoNotes, Note, read_notes
from tcc.common.rows import History, open_records, read_history
from tcc.common.whole import written_whole
from tcc.common.words import Arguments
from tcc.imports.lacking import Appended, Lacking
from tcc.imports.lists import unused
from tcc.judging.answers import Link
from tcc.judging.contradicted import Contradicted, Names, _Candidate, _known_at_once, _known_by_clocks, _positions, is_first
from tcc.judging.graph import INIT, Graph, walk
from tcc.judging.noted_versions import BEFORE, REFUSE, WAYS, Doubt, NoVersions, Path, Versions, read_versions, refused, versions_of

OBSERVER, MARK = "o.%d", "%s.v%d"
MOST_NAMED = 4  # of those who wrote or read a value


class Written(NamedTuple):
    """The last write of a key by a committed transaction: its version, the transaction's number, and the value."""

    version: int
    number: int
    value: str


@dataclass
class Versioned:
    """A history whose writes have versions: which reads these contradict, and the records that say all of it. What is done where a value
    has two versions, or two values have one, is one of `WAYS`."""

    history: History
    told: Mapping[str, Mapping[str, int]]
    level: str = "causal"
    doubtful: str = REFUSE
    notes: Mapping[str, Note] = field(default_factory=dict)
    doubts: int = 0
    observers: Dict[str, str] = field(default_factory=dict)  # the key of each observer's session
    marks: Dict[str, str] = field(default_factory=dict)  # the key of each mark
    stale: List[Contradicted] = field(default_factory=list)
    made: int = 0  # the transactions of observers, once the records are written

    def __post_init__(self) -> None:
        self.graph = Graph(self.history)
        self.versions = versions_of(self.told)
        self.writes = self._settled_writes()
        self._stale = self._older()
        names = Names(self.graph, self._stale)
        label = [one.label for one in self.graph.transactions]
        for one in self._stale:
            name, writer = names.first(one)
            rows = tuple(each.operation.row for each in self.graph.reads[one.reader]
                         if each.source == one.read.source and each.operation.key == one.read.operation.key)
            source = "init" if one.read.source == INIT else label[one.read.source]
            self.stale.append(Contradicted(label[one.reader], one.read.operation, source, label[writer], name, rows))

    def version(self, key: str, label: str) -> Optional[int]:
        """The version of what a transaction wrote last at a key."""
        written = None if label == "init" else self.history.find(label).written(key)
        return None if written is None else self.versions.get(key, {}).get(written.value)

    def said_of_doubts(self) -> str:
        """How many doubts there are, and by which versions was judged all the same."""
        by = "by the %d versions that were noted before the first of them" % len(self.versions.noted) if self.doubtful == BEFORE else "without versions"
        return "%d values have two versions or share one: judged %s" % (self.doubts, by)

    def _settled_writes(self) -> Dict[str, List[Written]]:
        """The writes of each key by version, where there is no doubt, or `doubtful` says what to do about it."""
        writes = self._writes()
        doubts = self.versions.doubts + [one for key, every in writes.items() for one in self._shared(key, every)]
        self.doubts = len(doubts)
        if not doubts:
            return writes
        if self.doubtful == REFUSE:
            raise refused(doubts, self._said_of)
        self.versions = self.versions.until(min(one.before for one in doubts) if self.doubtful == BEFORE else 0)
        return self._writes()

    def _shared(self, key: str, every: List[Written]) -> Iterator[Doubt]:
        """The versions of a key that two values have."""
        for one, other in zip(every, every[1:]):
            if one.version == other.version:
                places = [self.versions.place(key, each.value) for each in (one, other)]
                yield Doubt(max(places), key, (one.value, other.value), "%s = %s and %s = %s have the same version %d" % (
                    key, one.value, key, other.value, one.version))

    def _said_of(self, key: str, value: str) -> str:
        """Who wrote a value and who read it, with the nodes that annotations name."""
        def named(does: str) -> List[str]:
            every = [label for label, one in self.history.transactions.items()
                     if any((each.does, each.key, each.value) == (does, key, value) for each in one.operations)]
            return [label + (" at " + self.notes[label].node if label in self.notes and self.notes[label].node else "") for label in every[:MOST_NAMED]]
        wrote, read = named("w"), named("r")
        return "; %s wrote %s%s" % (", ".join(wrote) or "nobody", value, ", and %s read it" % ", ".join(read) if read else "")

    def _writes(self) -> Dict[str, List[Written]]:
        """Of each key the writes that have a version, in the order of these."""
        twice = {(one.operation.key, one.operation.value) for one in self.graph.faults if one.kind == "Duplicate"}
        found: Dict[str, List[Written]] = {}
        for key, writers in self.graph.writers.items():
            told = self.versions.get(key, {})
            every: List[Written] = []
            for number in writers:
                last = self.graph.transactions[number].written(key)
                if last is not None and last.value in told and (key, last.value) not in twice:
                    every.append(Written(told[last.value], number, last.value))
            found[key] = sorted(every)
        return found

    # Reads that are older than what their readers had observed.

    def _older(self) -> List[_Candidate]:
        """The reads of a write of which the reader knew one with a greater version; a transaction's of a key from one write once."""
        graph = self.graph
        order = graph.order()
        position = _positions(graph, order)
        lacking = {key: Lacking(self._by_session(every), position) for key, every in self.writes.items()}
        found: List[_Candidate] = []
        for number in order:
            for read in graph.reads[number]:
                key = read.operation.key
                at = 0 if read.source == INIT else self.versions.get(key, {}).get(read.operation.value)
                if key in lacking and at is not None and is_first(graph, _Candidate(number, read, [])):
                    later = lacking[key].first_ones(at, position[number])  # of each session the first: who had observed a later one had observed it
                    writers = [one.number for one in later if one.number != number and 0 <= position[one.number] < position[number]]
                    if writers:
                        found.append(_Candidate(number, read, writers))
        known = _known_at_once(graph, found) if self.level == "atomic" else _known_by_clocks(graph, order, found)
        return sorted(known, key=lambda one: (one.reader, one.read.operation.row))

    def _by_session(self, every: List[Written]) -> Dict[int, Appended]:
        """The writes of a key by their sessions, in the order of each."""
        by: Dict[int, List[Written]] = {}
        for one in sorted(every, key=lambda one: one.number):
            by.setdefault(self.graph.sessions[one.number], []).append(one)
        return {session: Appended([one.value for one in mine], [one.number for one in mine], [one.version for one in mine])
                for session, mine in by.items()}

    # The records.

    def records(self) -> Iterator[str]:
        """The records with marks, and then the observers."""
        taken = {one.session for one in self.history.transactions.values()}
        more = self._marked()
        for one in sorted(self.history.transactions.values(), key=lambda one: one.last):
            beside = more.get(one.label, [])
            if len(one.operations) + len(beside) > MAX_OPERATIONS:
                beside = [each for each in beside if each[0] == "w"][:MAX_OPERATIONS - len(one.operations)]
            lines = ["%s,%s,%s" % (each.does, each.key, each.value) for each in one.operations] + beside
            end = "unknown" if one.is_unknown else "commit" if one.committed else "abort"
            yield "%s,begin\n%s%s,%s\n" % (one.session, "".join("%s,%s\n" % (one.session, each) for each in lines), one.session, end)
        for key, every in self.writes.items():
            chain = self._chain(key, every)
            if chain:
                name = unused(OBSERVER % (len(self.observers) + 1), taken)
                self.observers[name] = key
                self.made += len(chain)
                yield "".join("{0},begin\n{0},r,{1},{2}\n{0},commit\n".format(name, key, value) for value in chain)

    def _marked(self) -> Dict[str, List[str]]:
        """The marks that transactions read and write, by their labels."""
        taken = {each.key for one in self.history.transactions.values() for each in one.operations}
        names: Dict[Tuple[str, int], str] = {}
        more: Dict[str, List[str]] = {}
        for one in self.stale:
            key, version = one.operation.key, self.version(one.operation.key, one.writer)
            if version is None:
                continue
            name = names.get((key, version))
            if name is None:
                name = MARK % (key, version)
                name = unused(name if len(name) <= MAX_NAME_BYTES else "v-%d" % len(names), taken)
                taken.add(name)
                names[key, version], self.marks[name] = name, key
            for label, line in ((one.writer, "w,%s,1" % name), (one.reader, "r,%s,0" % name)):
                if line not in more.setdefault(label, []):
                    more[label].append(line)
        return more

    def _chain(self, key: str, every: List[Written]) -> List[str]:
        """The values of a key that an observer reads: neighbours of which no session and no read says which came first."""
        found: List[str] = []
        last = ""
        for one, other in zip(every, every[1:]):
            if not self._is_given(key, one.number, other.number):
                found += [one.value, other.value] if last != one.value else [other.value]
                last = other.value
        return found

    def _is_given(self, key: str, one: int, other: int) -> bool:
        sessions = self.graph.sessions
        return sessions[one] == sessions[other] and one < other or any(
            read.source == one and read.operation.key == key for read in self.graph.reads[other])

    # What an anomaly of these records says of the history.

    def is_made(self, label: str) -> bool:
        """Whether it is the transaction of an observer."""
        return label.rpartition("/")[0] in self.observers

    def moved(self, cycle: List[Link]) -> List[Link]:
        """Links of these records as links of the history: where versions alone say what came first, links of the kind `version`."""
        found: List[Link] = []
        for one in cycle:
            if one.kind != "derived":
                found.append(one)
            elif self.is_made(one.reader):
                real = [step for step in one.walk if not self.is_made(step.target)]
                last = real[-1].target if real else one.source
                found += [*real, Link("version", last, one.target, one.key)]
            elif one.key in self.marks:
                key = self.marks[one.key]
                read = next(each for each in self.stale if (each.reader, each.operation.key, each.writer) == (one.reader, key, one.source))
                if read.source != "init":
                    found = [each for each in found if (each.source, each.target) != ("init", one.source)]
                    found.append(Link("version", read.source, one.source, key))
                found.append(Link("derived", one.source, read.source, key, one.reader, one.walk))
            else:
                found.append(one)
        return found

    def with_stale(self, listed: List[Contradicted]) -> List[Contradicted]:
        """The contradicted reads, and beside them those that are by versions alone; each read once, by rows."""
        known = {(one.reader, one.operation.row) for one in listed}
        more = [one for one in self.stale if (one.reader, one.operation.row) not in known]
        return sorted([*listed, *more], key=lambda one: one.operation.row)

    def is_plain(self, one: Contradicted) -> bool:
        """Whether a read is contradicted without versions too."""
        graph = self.graph
        return one.source == "init" or walk(graph, graph.numbers[one.source], graph.numbers[one.writer]) is not None

    def cycle_of(self, one: Contradicted) -> Optional[List[Link]]:
        """The anomaly that a read is which versions contradict."""
        graph = self.graph
        knew = walk(graph, graph.numbers[one.writer], graph.numbers[one.reader])
        if knew is None:
            return None
        first = Link("session", "init", one.writer) if one.source == "init" else Link("version", one.source, one.writer, one.operation.key)
        return [first, Link("derived", one.writer, one.source, one.operation.key, one.reader, tuple(knew))]


def add_two_versions(ask: argparse.ArgumentParser) -> None:
    """The option that says what is done where a value has two versions, or two values have one."""
    ask.add_argument("--two-versions", choices=WAYS, default=REFUSE, help="where a value has two versions, or two values have one: nothing is judged, "
                     "which is the default, or only by the versions that were noted before, or without versions")


def versioned_of(records: Path, versions: Path, level: str = "causal", doubtful: str = REFUSE, notes: Optional[Path] = None) -> Versioned:
    """The history of a file of records, with versions."""
    with open_records(os.fspath(records)) as file:
        history = read_history(file)
    if history.wrong_row is not None:
        raise NoVersions("%s, row %d is no record" % (os.fspath(records), history.wrong_row))
    return Versioned(history, read_versions(versions), level, doubtful, read_notes(notes) if notes else {})


def write_versioned(records: Path, versions: Path, out: Path, level: str = "causal", doubtful: str = REFUSE,
                    notes: Optional[Path] = None) -> Versioned:
    """Writes the history with versions."""
    told = versioned_of(records, versions, level, doubtful, notes)
    with written_whole(out) as file:
        file.writelines(told.records())
    return told


@contextlib.contextmanager
def judged_with(versions: Optional[Path], records: Path, level: str, doubtful: str = REFUSE,
                notes: Optional[Path] = None) -> Iterator[Tuple[Path, Optional[Versioned]]]:
    """The file that is judged: that of the records, or one with versions, and what these say."""
    if versions is None:
        yield records, None
        return
    with tempfile.TemporaryDirectory(prefix="tcc-versions-") as folder:
        path = os.path.join(folder, "records.csv")
        yield path, write_versioned(records, versions, path, level, doubtful, notes)


def main() -> int:
    ask = Arguments(description="Writes a history in which the order of each key's writes is that of their versions: the records, "
                                  "observers that read the values of a key in this order, and a mark for each read that is older than what its "
                                  "reader knew of. The status is 0 where there is no such read, else 1.")
    ask.add_argument("records", metavar="RECORDS", help="the file of the records")
    ask.add_argument("versions", metavar="VERSIONS", help="their versions: lines `key,value,version`")
    ask.add_argument("--level", choices=("causal", "atomic"), default="causal", help="by default causal")
    ask.add_argument("--notes", metavar="FILE", help="annotations of the records: nodes are named where a value has two versions")
    add_two_versions(ask)
    ask.add_argument("-o", "--output", metavar="FILE", required=True, help="the file for the history, for `tcc explain`")
    asked = ask.parse_args()
    gc.disable()  # as of report.py
    try:
        check_records(asked.records)
        told = write_versioned(asked.records, asked.versions, asked.output, asked.level, asked.two_versions, asked.notes)
    except (NoVersions, NoNotes, OSError, ValueError) as error:
        print("tcc-versions: %s" % error, file=sys.stderr)
        return 3
    for one in told.stale:
        print("%s read %s = %s, version %s, and knew of version %s by %s" % (
            one.reader, one.operation.key, one.operation.value, told.version(one.operation.key, one.source) or "none",
            told.version(one.operation.key, one.writer), one.writer))
    if told.doubts:
        print("tcc-versions: " + told.said_of_doubts(), file=sys.stderr)
    print("tcc-versions: %d reads are older than what their readers knew of" % len(told.stale), file=sys.stderr)
    return 1 if told.stale else 0


if __name__ == "__main__":
    sys.exit(main())
