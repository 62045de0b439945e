"""Every contradicted read of a file of records, as `tcc survey` lists them: with versions too, each read once, in the keys of the records.

    found = survey("records.csv", versions="versions.csv")
    print(found.text())
"""
import json
import os
from collections import Counter
from dataclasses import asdict, dataclass
from typing import Iterator, List, Mapping, Optional, Tuple

from tcc.common.appended import Path
from tcc.common.inputs import why_no_records
from tcc.common.notes import Note, read_notes, seconds_of
from tcc.common.rows import History, Json, open_records, read_history
from tcc.judging.contradicted import NAMES, Contradicted, told_by_program
from tcc.judging.noted_versions import NoVersions
from tcc.judging.program import NoAnswer
from tcc.judging.runner import FAULT, Fault, line_of, program, run
from tcc.judging.versions import Versioned, versioned_of
from tcc.record.sessions import judged_by


@dataclass(frozen=True)
class ContradictedRead:
    """A read that another write contradicts, of which the reader knew: its transaction, the first operation that reads so, and its record;
    the other writer, the usual name, and when the reader ended, where annotations say so. `by_versions` is one that versions alone contradict."""

    reader: str
    op: int
    key: str
    value: int
    writer: str
    name: str
    row: int
    time: Optional[float] = None
    by_versions: bool = False

    def line(self) -> str:
        return "contradicted %s op %d %s %d: knew of %s, %s%s" % (
            self.reader, self.op, self.key, self.value, self.writer, self.name, ", by versions" if self.by_versions else "")

    def told(self) -> Json:
        """The read as JSON has it."""
        found: Json = {"contradicted": self.reader, "key": self.key, "name": self.name, "op": self.op, "value": self.value, "writer": self.writer}
        return {**found, "versions": True} if self.by_versions else found


@dataclass(frozen=True)
class Surveyed:
    """The contradicted reads, what can't be judged, and how many reads there are. Where transactions read from one another in a circle it is
    that circle, and nothing else was looked for."""

    contradicted: Tuple[ContradictedRead, ...]
    faults: Tuple[Fault, ...]
    reads: int
    circular: Tuple[str, ...] = ()

    def is_any(self) -> bool:
        """Whether a read is contradicted, or reads are on a circle."""
        return bool(self.contradicted or self.circular)

    def first(self) -> Optional[Tuple[ContradictedRead, str]]:
        """The first contradicted read, and by what it is the first: by `time` where each has one, else by `row`."""
        if not self.contradicted:
            return None
        by = "row" if any(one.time is None for one in self.contradicted) else "time"
        return min(self.contradicted, key=lambda one: (one.time or 0.0 if by == "time" else 0.0, one.row)), by

    def counts(self) -> List[Tuple[str, int]]:
        """How many there are of each name, by falling count."""
        found = Counter(one.name for one in self.contradicted)
        return sorted(found.items(), key=lambda pair: (-pair[1], NAMES.index(pair[0])))

    def text(self) -> str:
        """The survey as `tcc survey` prints it."""
        return "".join(line + "\n" for line in self._lines())

    def _lines(self) -> Iterator[str]:
        yield from (one.line() for one in self.contradicted)
        if self.faults:
            yield "unresolved: %d faults" % len(self.faults)
            yield from (one.line() for one in self.faults)
        if self.circular:
            yield "circular: " + " ".join(self.circular)
            return
        yield from ("%s: %d" % pair for pair in self.counts())
        yield "%d contradicted reads of %d, %d faults" % (len(self.contradicted), self.reads, len(self.faults))

    def json(self) -> str:
        """The survey as `tcc survey --json` prints it; a read that versions alone contradict has `versions` too."""
        found = [one.told() for one in self.contradicted]
        if self.faults:
            found.append({"answer": "unresolved", "faults": [asdict(one) for one in self.faults]})
        if self.circular:
            found.append({"answer": "circular", "transactions": list(self.circular)})
        else:
            found += [{"count": count, "name": name} for name, count in self.counts()]
            found.append({"answer": "survey", "contradicted": len(self.contradicted), "faults": len(self.faults), "reads": self.reads})
        return "".join(map(line_of, found))


def survey(records: Path, *, level: str = "causal", large: bool = True, seconds: Optional[float] = None, tcc: Optional[Path] = None,
           sessions: str = "client", notes: Optional[Path] = None, versions: Optional[Path] = None, two_versions: str = "refuse") -> Surveyed:
    """Every contradicted read of a file of records. The words are those of `explain`. With versions these are the reads that `tcc survey`
    lists, and those that versions alone contradict."""
    why = why_no_records(records)
    if why:
        raise NoAnswer(why)
    try:
        with judged_by(sessions, records, notes) as path:
            words = [program(tcc), "survey", "--json", "--level", level, *(["--large"] if large else []), os.fspath(path)]
            text = run(words, seconds).stdout
            versioned = None if versions is None else versioned_of(path, versions, level, two_versions, notes)
            with open_records(os.fspath(path)) as file:
                history = read_history(file) if versioned is None else versioned.history
    except NoVersions as error:
        raise NoAnswer(str(error)) from error
    return surveyed(text, history, versioned, read_notes(notes) if notes else {})


def surveyed(text: str, history: History, versioned: Optional[Versioned], notes: Mapping[str, Note]) -> Surveyed:
    """What `tcc survey --json` printed of a history, with what versions say beside it."""
    lines: List[Json] = [json.loads(line) for line in text.splitlines()] or [{}]
    unresolved = [one for line in lines if line.get("answer") == "unresolved" for one in line["faults"]]
    faults = tuple(Fault(**{name: one[name] for name in FAULT}) for one in unresolved)
    if lines[-1].get("answer") == "circular":
        return Surveyed((), faults, 0, tuple(lines[-1]["transactions"]))
    told = told_by_program(text, history)
    if told is None:
        raise NoAnswer("no answer of tcc survey --json: %s" % text[-200:])
    every = told.contradicted if versioned is None else versioned.with_stale(told.contradicted)
    plain = {one.rows for one in told.contradicted}
    return Surveyed(tuple(read_of(one, history, notes, one.rows not in plain) for one in every), faults, told.reads)


def read_of(one: Contradicted, history: History, notes: Mapping[str, Note], by_versions: bool) -> ContradictedRead:
    operation = one.operation
    op = 1 + history.find(one.reader).operations.index(operation)
    time = seconds_of(notes.get(one.reader, Note()))
    return ContradictedRead(one.reader, op, operation.key, int(operation.value), one.writer, one.name, operation.row, time, by_versions)
