"""Makes a small history of one that isn't consistent: an anomaly of the same shape, of which nothing can be left out.

The script leaves out sessions, transactions and operations as long as `tcc explain` still finds an anomaly of the shape that the whole
history has. Without any one of what is left there is none. Of a history with reads that can't be traced it keeps the first such fault:
its kind, key and value. Seals are left out, and the records that stay keep their order. First it tries the transactions that the
answer names, which mostly suffice.

The status is 0 where a small history was written, 3 where there is nothing to shrink, since the history is consistent or can't be
judged, 127 where there is no program, and 130 where it was interrupted.
"""
import argparse
import sys
from typing import Callable, Dict, Hashable, Iterator, List, NamedTuple, Optional, Set, Tuple

from tcc.common.inputs import FIRST, foreign, is_of_records, opened
from tcc.common.limits import MAX_KEYS, MAX_SESSIONS, MAX_TRANSACTIONS
from tcc.common.outputs import check_apart
from tcc.common.progress import Doing, status_of
from tcc.common.whole import written_whole
from tcc.common.words import add_tcc, command_line
from tcc.judging.judge import Judge
from tcc.judging.minimal import minimal
from tcc.judging.program import NoAnswer, program_at
from tcc.judging.runner import Anomaly, Answer, Consistent, Step

EXAMPLE = """example: what is wrong in a long history, in a few records
  $ tcc-shrink records.csv -o small.csv
  tcc-shrink: anomaly, stale-initial-read: 2 of 20 transactions, 2 of 41 operations; N histories judged
"""
NOT_SHRUNK = 3
SEAL = "seal"


class NothingToShrink(Exception):
    """A history that is consistent, or that isn't judged."""


class Record(NamedTuple):
    """A record: its number and line, its session, which transaction of all it belongs to, and what it does at which key with which value,
    where it is an operation."""

    number: int
    line: str
    session: str
    transaction: int
    operation: Optional[Tuple[str, str, str]]


def records_of(lines: List[str]) -> List[Record]:
    """The records of a history, but for seals. What is no record is left to the program to refuse."""
    found: List[Record] = []
    open_ones: Dict[str, int] = {}
    count = 0
    for line in lines:
        session, *fields = [one.strip('"') for one in line.split(",")]
        if not fields and session in ("", SEAL):
            continue
        if fields == ["begin"]:
            open_ones[session] = count = count + 1
        operation = (fields[0], fields[1], fields[2]) if len(fields) == 3 else None
        found.append(Record(len(found), line, session, open_ones.get(session, 0), operation))
    return found


def text_of(records: List[Record]) -> bytes:
    return "".join(one.line + "\n" for one in records).encode()


def is_large(records: List[Record]) -> bool:
    """Whether a history is above the default limits."""
    keys = {one.operation[1] for one in records if one.operation}
    return (len({one.session for one in records}) > MAX_SESSIONS or len({one.transaction for one in records}) > MAX_TRANSACTIONS
            or len(keys) > MAX_KEYS)


Kind = Tuple[str, ...]


def kinds_of(answer: Answer) -> List[Kind]:
    """What is wrong by an answer: the shape of its anomaly, or each fault by kind, key and value."""
    if isinstance(answer, Consistent):
        return []
    if isinstance(answer, Anomaly):
        return [("anomaly", answer.shape)]
    return [(one.kind, one.key, str(one.value)) for one in answer.faults]


def labels_of(cycle: Tuple[Step, ...]) -> Iterator[str]:
    """The labels of the transactions that a cycle names."""
    for one in cycle:
        yield from filter(None, (one.source, one.target, one.reader))
        yield from labels_of(one.walk)


class Shrinking:
    """A history that gets smaller as long as it has the same kind of anomaly."""

    def __init__(self, judge: Judge, level: str, records: List[Record], doing: Callable[[str], None]):
        self.judge, self.level, self.records, self.doing = judge, level, records, doing
        self.count = 0
        self.answer = self._answer(records)
        kinds = kinds_of(self.answer)
        if not kinds:
            raise NothingToShrink("the history is consistent")
        self.kind = kinds[0]

    def _answer(self, records: List[Record]) -> Answer:
        self.count += 1
        return self.judge.explain(text_of(records), level=self.level, large=is_large(records))

    def fails(self, records: List[Record]) -> bool:
        """Whether some records have the same kind of anomaly."""
        return self.kind in kinds_of(self._answer(records))

    def shrink(self) -> None:
        """Leaves out what it can, until no session, transaction or operation can go by itself."""
        named = self.named()
        if len(named) < len(self.records) and self.fails(named):
            self.records = named
        ways: List[Tuple[str, Callable[[Record], Optional[Hashable]]]] = [
            ("sessions", lambda one: one.session), ("transactions", lambda one: one.transaction),
            ("operations", lambda one: one.number if one.operation else None)]
        before = len(self.records) + 1
        while len(self.records) < before:
            before = len(self.records)
            for what, key in ways:
                self.doing("leaves out %s: %d records are left" % (what, len(self.records)))
                self.leave_out(key)

    def named(self) -> List[Record]:
        """The records of the transactions that the answer names, without reads of what none of these wrote."""
        if not isinstance(self.answer, Anomaly):
            return self.records
        wanted, places, mine = set(labels_of(self.answer.cycle)), {}, set()  # type: Set[str], Dict[str, int], Set[int]
        for one in self.records:
            if one.line.endswith(",begin"):
                places[one.session] = places.get(one.session, 0) + 1
                if "%s/%d" % (one.session, places[one.session]) in wanted:
                    mine.add(one.transaction)
        kept = [one for one in self.records if one.transaction in mine]
        written = {one.operation[1:] for one in kept if one.operation and one.operation[0] == "w"}
        return [one for one in kept if not one.operation or one.operation[2] == "0" or one.operation[1:] in written]

    def leave_out(self, key: Callable[[Record], Optional[Hashable]]) -> None:
        """Leaves out groups of records that have a key alike; those without one stay."""
        names = list(dict.fromkeys(name for name in map(key, self.records) if name is not None))

        def kept(left: List[Hashable]) -> List[Record]:
            wanted = {None, *left}
            return [one for one in self.records if key(one) in wanted]

        self.records = kept(minimal(names, lambda left: self.fails(kept(left))))


def summary(shrunk: Shrinking, whole: List[Record]) -> str:
    """What is left, and of how much."""
    def counts(records: List[Record]) -> Tuple[int, int]:
        return len({one.transaction for one in records}), sum(one.operation is not None for one in records)

    left, all_of_them = counts(shrunk.records), counts(whole)
    return "%s: %d of %d transactions, %d of %d operations; %d histories judged" % (
        ", ".join(shrunk.kind), left[0], all_of_them[0], left[1], all_of_them[1], shrunk.count)


def run(asked: argparse.Namespace, doing: Doing) -> int:
    if asked.output:
        check_apart(asked.output, [] if asked.file == "-" else [asked.file])
    with opened(asked.file) as file:
        first = file.read(FIRST)
        if foreign(first) or not is_of_records(first):
            raise NothingToShrink("%s has no records: tcc-jepsen makes some of a history of Jepsen" % asked.file)
        whole = records_of((first + file.read()).decode("utf-8", "replace").splitlines())
    doing.now("judges the history")
    with Judge(tcc=program_at(asked.tcc)) as judge:
        try:
            shrunk = Shrinking(judge, asked.level, whole, doing.now)
            shrunk.shrink()
        except NoAnswer as error:
            raise NothingToShrink("the history isn't judged: %s" % error) from error
    text = text_of(shrunk.records).decode()
    if asked.output:
        with written_whole(asked.output) as out:
            out.write(text)
    else:
        doing.clear()
        sys.stdout.write(text)
    doing.say("tcc-shrink: " + summary(shrunk, whole), sys.stderr)
    return 0


def main() -> int:
    ask = command_line(__doc__, EXAMPLE)
    ask.add_argument("file", metavar="FILE", help="the file of the records, packed by gzip or not; - is standard input")
    ask.add_argument("-o", "--output", metavar="FILE", help="the file for the small history, by default standard output")
    ask.add_argument("--level", choices=("causal", "atomic"), default="causal", help="by default causal")
    add_tcc(ask)
    asked = ask.parse_args()
    return status_of("tcc-shrink", "reads the records", lambda doing: run(asked, doing), "interrupted: nothing was written",
                     (NoAnswer, NothingToShrink, OSError, EOFError, ValueError), NOT_SHRUNK)


if __name__ == "__main__":
    sys.exit(main())
