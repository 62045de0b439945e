"""Turns records into the history of another tool, or its history into records, so that several can judge one history.

  edn    as Jepsen writes a history, for Elle: of each transaction its invoke and what ended it. tcc-jepsen makes records of it again
  plain  as Plume and PolySI read one: a line r(KEY,VALUE,SESSION,TRANSACTION) or w(..) for each operation, all of them numbers

Of EDN processes are numbers: p3 is 3, and another session has a number that none has. Of plain lines keys and sessions are numbers too: those that
are names get one, and --table says which. A plain history has neither aborted transactions nor those of unknown outcome of which nobody read a
value; these are left out, and counted. 0 is the initial value, and no line writes it. Nothing in either says which of two sessions was first.
Neither form was tried with the other tools.
"""
import argparse
import re
import sys
from collections import Counter
from dataclasses import dataclass, field
from typing import Counter as Count, Dict, Iterable, Iterator, List, Set, TextIO, Tuple

from tcc.common.inputs import check_records, opened
from tcc.common.outputs import check_apart
from tcc.common.progress import Doing, status_of
from tcc.common.rows import GREATEST_VALUE, History, Operation, Transaction, Unfit, open_records, read_history
from tcc.common.whole import written_whole
from tcc.common.words import command_line
from tcc.imports.jepsen import write_rows

EXAMPLE = """example: a session doesn't see its own write
  $ printf 'a,begin\\na,w,x,5\\na,commit\\na,begin\\na,r,x,0\\na,commit\\n' > records.csv
  $ tcc-convert --to plain records.csv
  w(0,5,0,1)
  r(0,0,0,2)
"""
DIGITS = re.compile("0|[1-9][0-9]{0,17}")
PROCESS = re.compile("p(0|[1-9][0-9]{0,8})")
LINE = re.compile(r"\s*([rw])\(\s*(-?[0-9]{1,20})\s*,\s*(-?[0-9]{1,20})\s*,\s*(-?[0-9]{1,20})\s*,\s*(-?[0-9]{1,20})\s*\)\s*")
NOT_READ = 3


def history_at(path: str) -> History:
    """The history of a file of records."""
    check_records(path)
    with open_records(path) as file:
        found = read_history(file)
    if found.wrong_row is not None:
        raise Unfit("%s: row %d is no record" % (path, found.wrong_row))
    return found


# EDN.

def numbers_of(sessions: Iterable[str]) -> Dict[str, int]:
    """A number for each session: that of a process, such as 3 of p3, and else one that none has."""
    every = list(dict.fromkeys(sessions))
    found = {one: int(told.group(1)) for one, told in ((one, PROCESS.fullmatch(one)) for one in every) if told}
    taken, free = set(found.values()), 0
    for one in every:
        if one not in found:
            while free in taken:
                free += 1
            found[one] = free
            taken.add(free)
    return found


def edn_step(one: Operation, has_value: bool) -> str:
    key = one.key if DIGITS.fullmatch(one.key) else '"%s"' % one.key
    return "[:%s %s %s]" % (one.does, key, one.value if has_value and one.value != "0" else "nil")


def edn_of(history: History) -> Iterator[str]:
    """The operations of a history as Jepsen writes them: each transaction begins and ends where its records do."""
    every = sorted(history.transactions.values(), key=lambda one: one.first)
    numbers = numbers_of(one.session for one in every)
    for index, (_, is_end, label) in enumerate(sorted([(one.first, False, one.label) for one in every] + [(one.last, True, one.label) for one in every])):
        one = history.transactions[label]
        kind = ("info" if one.is_unknown else "ok" if one.committed else "fail") if is_end else "invoke"
        steps = " ".join(edn_step(each, each.does == "w" or kind == "ok") for each in one.operations)
        yield "{:type :%s, :f :txn, :value [%s], :process %d, :index %d}\n" % (kind, steps, numbers[one.session], index)


# Plain lines.

@dataclass
class Numbers:
    """Numbers for names of a kind: themselves where all are numbers, else from 0 in the order in which they come."""

    kind: str
    names: List[str]
    given: Dict[str, str] = field(default_factory=dict)

    def __post_init__(self) -> None:
        are_numbers = all(map(DIGITS.fullmatch, self.names))
        self.given = {name: name if are_numbers else str(number) for number, name in enumerate(dict.fromkeys(self.names))}

    def table(self) -> Iterator[Tuple[str, str, str]]:
        return ((self.kind, number, name) for name, number in self.given.items() if name != number)


def plain_of(history: History) -> Tuple[List[str], List[Tuple[str, str, str]], int]:
    """The lines of the transactions that committed, what the numbers represent, and how many transactions are left out."""
    every: List[Transaction] = sorted((one for one in history.transactions.values() if one.committed), key=lambda one: one.last)
    sessions = Numbers("session", [one.session for one in every])
    keys = Numbers("key", [each.key for one in every for each in one.operations])
    lines = ["%s(%s,%s,%s,%d)\n" % (each.does, keys.given[each.key], each.value, sessions.given[one.session], number)
             for number, one in enumerate(every, 1) for each in one.operations]
    return lines, [*sessions.table(), *keys.table()], len(history.transactions) - len(every)


@dataclass
class Plain:
    """Plain lines as they are read: of each session the transaction that its last line was of, and which there were."""

    initial: int
    under_way: Dict[str, Tuple[str, int, List[Tuple[str, str, int]]]] = field(default_factory=dict)
    ended: Set[Tuple[str, str]] = field(default_factory=set)
    counts: "Count[str]" = field(default_factory=Counter)

    def records(self, file: Iterable[bytes]) -> Iterator[str]:
        """The records, a transaction at a time."""
        for number, line in enumerate(file, 1):
            text = line.decode("utf-8", "replace")
            told = LINE.fullmatch(text)
            if told:
                yield from self._line(number, *told.groups())
            elif text.strip():
                raise Unfit("line %d is neither r(KEY,VALUE,SESSION,TRANSACTION) nor w(..): %s" % (number, text.strip()[:80]))
        for session in list(self.under_way):
            yield from self._end(session)

    def _line(self, number: int, does: str, key: str, value: str, session: str, transaction: str) -> Iterator[str]:
        if session in self.under_way and self.under_way[session][0] != transaction:
            yield from self._end(session)
        if (session, transaction) in self.ended:
            raise Unfit("line %d: transaction %s of session %s goes on after another one of its session" % (number, transaction, session))
        what = 0 if int(value) == self.initial else int(value)
        if int(value) != self.initial and not 1 <= what <= GREATEST_VALUE:
            raise Unfit("line %d: the value %s; those of records are whole numbers from 1 to %d" % (number, value, GREATEST_VALUE))
        self.under_way.setdefault(session, (transaction, number, []))[2].append((does, key, what))

    def _end(self, session: str) -> Iterator[str]:
        transaction, line, steps = self.under_way.pop(session)
        self.ended.add((session, transaction))
        if all(does == "w" and value == 0 for does, _, value in steps):
            self.counts["initial"] += 1
            return
        if any(does == "w" and value == 0 for does, _, value in steps):
            raise Unfit("line %d: transaction %s of session %s writes the initial value" % (line, transaction, session))
        self.counts["committed"] += 1
        yield "%s,begin\n%s%s,commit\n" % (session, "".join("%s,%s,%s,%d\n" % (session, *one) for one in steps), session)


# The command.

def converted(asked: argparse.Namespace, out: TextIO) -> str:
    """Writes the history; what is said of it."""
    if asked.of_plain:
        plain = Plain(asked.initial)
        with opened(asked.history) as file:
            out.writelines(plain.records(file))
        return "%d transactions; left out: %d that write the initial value alone" % (plain.counts["committed"], plain.counts["initial"])
    history = history_at(asked.history)
    if asked.to == "edn":
        out.writelines(edn_of(history))
        return "%d transactions" % len(history.transactions)
    lines, table, count = plain_of(history)
    out.writelines(lines)
    if asked.table:
        write_rows(asked.table, table)
    return "%d transactions; left out: %d aborted ones, and those of unknown outcome that nobody read" % (len(history.transactions) - count, count)


def run(asked: argparse.Namespace, doing: Doing) -> int:
    for path in (one for one in (asked.output, asked.table) if one):
        check_apart(path, [asked.history] if asked.history != "-" else [])
    if asked.output:
        with written_whole(asked.output) as out:
            said = converted(asked, out)
    else:
        said = converted(asked, sys.stdout)
        sys.stdout.flush()
    doing.say("tcc-convert: " + said, sys.stderr)
    return 0


def main() -> int:
    ask = command_line(__doc__, EXAMPLE)
    ask.add_argument("history", metavar="FILE", help="the file of the records, or with --from-plain of plain lines")
    way = ask.add_mutually_exclusive_group(required=True)
    way.add_argument("--to", choices=("edn", "plain"), help="makes EDN or plain lines of records")
    way.add_argument("--from-plain", dest="of_plain", action="store_true", help="makes records of plain lines")
    ask.add_argument("-o", "--output", metavar="FILE", help="the file for the history, by default standard output")
    ask.add_argument("--table", metavar="FILE", help="with --to plain, a file of what numbers represent: kind, number and name")
    ask.add_argument("--initial", metavar="N", type=int, default=0, help="with --from-plain, the value that a key has before it is written; by default 0")
    asked = ask.parse_args()
    return status_of("tcc-convert", "reads the history", lambda doing: run(asked, doing), "interrupted: the history isn't whole",
                     (Unfit, OSError, EOFError, ValueError), NOT_READ)


if __name__ == "__main__":
    sys.exit(main())
