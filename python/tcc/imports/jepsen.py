"""Turns a history of transactions on registers or lists, as Jepsen and Elle have it, into records for `tcc explain`.

The input is Jepsen's history.edn, maps of EDN one after the other or one vector of them; or lines of JSON, each one operation;
or one array of such objects:

  {:type :ok, :process 3, :f :txn, :value [[:r :x nil] [:w :y 5]], :index 7}
  {"type":"ok","process":3,"f":"txn","value":[["r","x",null],["w","y",5]]}
  {"type":"ok","process":3,"f":"read","value":5}

  invoke  passed over, once its process has the line that says how it went
  ok      a transaction that committed; a nil that it read is the initial value 0
  fail    a transaction that aborted
  info    its outcome is unknown, and so it is recorded: it committed where an `ok` read a value of it, else it counts as
          aborted; an invoke that nothing follows is the same

What a `fail` or an `info` read is left out. A line whose process is no number and whose `f` is none of "txn", "read", "write",
"read-init" and "cas" (those of the nemesis) is passed over. Without an `f` an operation of a client is a "txn". A "read" or a "write"
is of one register, the key `register`, or has reads and writes as a "txn" has them. A "read-init" is a read; where there is one, 0 is
an initial value too. A "cas" has a value [old, new]: an `ok` read the old one and wrote the new one, a `fail` did neither. Where keys
are independent, a value is a pair [k, v]: then the key x of a "txn" is k.x, and that of the others is k. What else a client does ends
the run, or is renamed or left out by an option, and then counted.

Lines have to be in the order of their `index`, and of one run. A key or value has to be spelled in one way, as :x or "x".

Where transactions append to lists, the records say by two encodings all that the lists show: a register K.E for each element E of
a list K, which is 1 where the list has it, and a register K for the last element, with sessions of their own, o.N, that say which
of two elements came first. docs/MODEL.md says why the answer for these records is that for the lists. What a list shows by
itself to be wrong is named, and is an anomaly of the records too. report.py tells an answer in the words of lists. With --log each
list has to be the beginning of one log.

With --versions each value is a pair of its version and itself, [:r x [7 5]], as a test of etcd has them: the order of a key's writes
then has to be that of the versions. Where that isn't so already, the records say it by sessions o.N, which read a key's values in that
order, and by keys K.vN for reads that are older than what their readers had observed.

Keys that are names, and values that are whole numbers from 1, represent themselves. Others get a name or a number that
nothing else has; --table says into which file the list of these goes. --map says into which file goes, for each transaction
of the records, the `index` of the operation that ended it, and its line. What EDN has and JSON hasn't (tags, metadata) is
left out, and counted by name.

Standard output has the records, standard error what was left out, and before that where the records pass a limit of `tcc`.
Where something can't be read, there are no records, but its line, and the status is 1.
"""
import argparse
import csv
import gc
import io
import itertools
import json
import re
import sys
import tempfile
from collections import Counter
from typing import Any, BinaryIO, Counter as Count, Iterable, Iterator, List, Tuple

from tcc.common.inputs import FIRST, foreign, opened
from tcc.common.notes import write_notes
from tcc.common.outputs import check_apart
from tcc.common.progress import INTERRUPTED, Doing
from tcc.common.rows import Json, read_history
from tcc.common.words import add_files, command_line, count
from tcc.imports.collected import Nemesis
from tcc.imports.edn import NoEdn, Reader
from tcc.imports.imported import Imported
from tcc.imports.operations import STEPS, USUAL, Chosen, Untold, is_number, operation, spelled
from tcc.judging.noted_versions import NoVersions
from tcc.judging.versions import Versioned, add_two_versions

EXAMPLE = """example: session p1 doesn't see its own write
  $ cat history.jsonl
  {"type":"invoke","process":1,"f":"txn","value":[["w","x",5]]}
  {"type":"ok","process":1,"f":"txn","value":[["w","x",5]]}
  {"type":"invoke","process":1,"f":"txn","value":[["r","x",null]]}
  {"type":"ok","process":1,"f":"txn","value":[["r","x",null]]}
  $ jepsen.py history.jsonl > records.csv && tcc explain --require 1 records.csv
  anomaly: 3 steps, stale-initial-read
  session init -> p1/1
  derived p1/1 -> init by x, read by p1/2
    session p1/1 -> p1/2
    against init -> p1/2 by x
"""
GAP = re.compile(r"[\s,]*")
# How JSON begins: in an object the first text has a colon after it.
FORM = re.compile(r"[\s,]*(?:\[[\s,]*)?")
JSON_OBJECT = re.compile(r'\{\s*(?:\}|"(?:[^"\\]|\\.)*"\s*:)')
EDN_BEGINS = ("{", "#", "(", "^", ";", ":", "\\")


def no_constant(word: str) -> Any:
    raise ValueError("it has no %s" % word)


def finite(word: str) -> float:
    number = float(word)
    if number in (float("inf"), float("-inf")):
        raise ValueError("%s is too great a number" % word[:20])
    return number


DECODER = json.JSONDecoder(parse_constant=no_constant, parse_float=finite)


def past_gap(text: str, at: int) -> int:
    """Where after whitespace and commas something else comes."""
    found = GAP.match(text, at)
    return found.end() if found else at


def is_edn(text: str) -> bool:
    """Whether a text begins as EDN does, and not as JSON."""
    begin = len(text) - len(FORM.sub("", text, count=1))
    return text.startswith(EDN_BEGINS, begin) and not JSON_OBJECT.match(text, begin)


class Reading:
    """A history as it is read, line by line."""

    def __init__(self, file: BinaryIO, into: Imported, doing: Doing, name: str):
        self.file, self.into, self.doing, self.name = file, into, doing, name
        self.line = 0
        self.left_out: "Count[str]" = Counter()

    def all(self) -> None:
        """Reads all of it, in the form that it has."""
        first = []
        for line in self.file:
            first.append(line)
            if line.strip(b" \t\r\n,["):
                break
        text = b"".join(first)
        what = foreign(text[:FIRST])
        if what:
            raise Untold(1, what)
        lines = itertools.chain(first, self.file)
        try:
            if is_edn(text.decode(errors="replace")):
                self.edn(lines)
            elif text.lstrip()[:1] == b"[":
                self.array(b"".join(lines))
            else:
                self.json_lines(lines)
        except RecursionError as error:
            raise Untold(self.line, "a value within too many others") from error

    def decoded(self, lines: Iterable[bytes]) -> Iterator[str]:
        for number, line in enumerate(lines, 1):
            if number % 4096 == 0:
                self.doing.now("reads line %d of %s" % (number, self.name))
            self.line = number
            try:
                yield line.decode()
            except UnicodeDecodeError as error:
                raise Untold(number, "no UTF-8: %s" % error.reason) from error

    def json_lines(self, lines: Iterable[bytes]) -> None:
        """The object of each line that isn't blank."""
        for text in self.decoded(lines):
            if not text.isspace():
                self.object(self.line, read_object(self.line, text.rstrip("\r\n")))

    def array(self, data: bytes) -> None:
        """The objects of an array that is the whole text, each with the line in which it begins."""
        try:
            text = data.decode()
        except UnicodeDecodeError as error:
            raise Untold(data.count(b"\n", 0, error.start) + 1, "no UTF-8: %s" % error.reason) from error
        del data
        at, before = len(text) - len(text.lstrip()) + 1, 0
        self.line = 1
        while True:
            at = past_gap(text, at)
            self.line, before = self.line + text.count("\n", before, at), at
            if text[at:at + 1] == "]" and not text[at + 1:].strip():
                return
            try:
                value, at = DECODER.raw_decode(text, at)
            except (ValueError, RecursionError) as error:
                raise Untold(self.line, "no JSON: %s" % getattr(error, "msg", error)) from error
            if not isinstance(value, dict):
                raise Untold(self.line, "no JSON object; each item of the array is one operation")
            self.object(self.line, value)

    def edn(self, lines: Iterable[bytes]) -> None:
        """The maps of EDN, one after the other or in one vector."""
        reader = Reader(self.decoded(lines))
        try:
            self.maps(reader)
        except RecursionError as error:
            raise Untold(reader.line(), "no EDN: %s" % error) from error
        self.left_out = reader.left_out

    def maps(self, reader: Reader) -> None:
        vector, is_first = 0, True
        match, usual = USUAL.match, self.into.usual
        while reader.skip():
            found = match(reader.text, reader.at)
            if found and usual(reader.line(), found):
                if found.group().startswith("#"):
                    reader.left_out["the tag jepsen.history.Op"] += 1
                reader.at = found.end()
            else:
                line, token = reader.line(), reader.token()
                if token == "[" and is_first:
                    vector = line
                elif token == "]" and vector:
                    if reader.skip():
                        raise Untold(reader.line(), "behind the vector that is the history something else stands")
                    return
                elif token == "#_":
                    reader.discard()
                else:
                    self.edn_value(line, reader.value(token))
            is_first = False
            reader.drop()
        if vector:
            raise Untold(vector, "no EDN: what begins here has no end: ']' is missing")

    def edn_value(self, line: int, value: Any) -> None:
        if not isinstance(value, dict):
            raise Untold(line, "no map of EDN; each is one operation")
        self.into.checks.value(line, value.get("value"))
        self.object(line, value)

    def object(self, line: int, told: Json) -> None:
        """Takes an operation, or passes it over."""
        if self.into.usual_object(line, told):
            return
        process, index, time = told.get("process"), told.get("index"), told.get("time")
        if is_number(process) and self.into.chosen.leaves_out(told.get("f", "txn"), told.get("type")):
            return
        one = operation(line, told, self.into.has_versions, self.into.chosen)
        if one is not None:
            self.into.unusual(one)
            return
        self.into.passed_over["other"] += 1
        if isinstance(index, int):
            self.into.checks.index(line, index)
        self.into.nemesis.append(Nemesis(line, index if is_number(index) else None, time if is_number(time) else None,
                                         str(told.get("type")), str(told.get("f")), spelled(told.get("value"))))


def read_object(line: int, text: str) -> Json:
    try:
        value = DECODER.decode(text)
    except json.JSONDecodeError as error:
        raise Untold(line, "no JSON: %s at character %d" % (error.msg, error.pos + 1)) from error
    except (ValueError, RecursionError) as error:
        raise Untold(line, "no JSON: %s" % error) from error
    if not isinstance(value, dict):
        raise Untold(line, "no JSON object; each line is one operation")
    return value


def imported(reading: Reading, may_list: bool) -> Imported:
    """All that is read, with all names."""
    try:
        reading.all()
    except NoEdn as error:
        line, _, why = str(error).partition(": ")
        raise Untold(int(line.split()[1]), "no EDN: %s" % why) from error
    reading.doing.now("names what stands in the records")
    reading.into.finish(may_list)
    return reading.into


def write_rows(path: str, rows: Iterable[Tuple[object, ...]]) -> None:
    with open(path, "w", newline="") as file:
        csv.writer(file, lineterminator="\n").writerows(rows)


def json_text(word: str) -> str:
    try:
        return spelled(json.loads(word, parse_constant=no_constant))
    except ValueError as error:
        raise argparse.ArgumentTypeError("%s is no JSON" % word) from error


def renaming(word: str) -> Tuple[str, str]:
    old, equals, new = word.partition("=")
    if not (old and equals) or new not in ("txn", *STEPS):
        raise argparse.ArgumentTypeError("%s is no F=G, where G is one of %s" % (word, ", ".join(("txn", *STEPS))))
    return old.lstrip(":"), new


def add_chosen(ask: argparse.ArgumentParser) -> None:
    """Options that say which operations of clients count."""
    ask.add_argument("--rename", metavar="F=G", type=renaming, action="append", default=[], help="takes operations whose :f is F as those of G, "
                     "such as final-read=read; may be said again")
    ask.add_argument("--only", metavar="F", action="append", default=[], help="takes only the clients' operations whose :f is F, and counts the others; "
                     "may be said again")
    ask.add_argument("--skip", metavar="F", action="append", default=[], help="leaves out the clients' operations whose :f is F, and counts them; may "
                     "be said again")


def chosen_of(asked: argparse.Namespace) -> Chosen:
    only, skipped = (frozenset(word.lstrip(":") for word in words) for words in (asked.only, asked.skip))
    return Chosen(dict(asked.rename), only, skipped)


def chosen_words(asked: argparse.Namespace) -> List[str]:
    """The options that say which operations count, as they would be typed."""
    return [word for option, values in (("--rename", ["%s=%s" % pair for pair in asked.rename]), ("--only", asked.only), ("--skip", asked.skip))
            for value in values for word in (option, value)]


def arguments() -> argparse.Namespace:
    ask = command_line(__doc__, EXAMPLE)
    ask.add_argument("history", nargs="?", metavar="HISTORY", help="the file of the operations, packed by gzip or not, by default "
                     "standard input")
    add_files(ask, table="writes what isn't itself in the records, a line each: kind, what stands for it, and how JSON spells it",
              map="writes a line for each transaction of the records: its label, the index of the operation that ended it, where it "
                  "has one, and its line",
              notes="writes annotations: of each transaction the node, the time in seconds, the index and the line of the operation "
                    "that ended it, as far as the history has them")
    ask.add_argument("--initial", metavar="JSON", type=json_text, default="null", help="a value, as JSON, that a key has "
                     "before it is written; nil always is one")
    ask.add_argument("--log", action="store_true", help="each list has to be the beginning of one log of its key: what is appended, "
                     "and read by nobody, came after all that somebody read")
    ask.add_argument("--versions", action="store_true", help="each value is a pair [version value], where a greater version was written later")
    add_two_versions(ask)
    add_chosen(ask)
    ask.add_argument("--seal-every", metavar="N", type=count, help="puts a seal behind each N transactions, in the order in which "
                     "they ended, so that there is an answer for what was finished by then")
    return ask.parse_args()


def run(asked: argparse.Namespace, doing: Doing) -> None:
    for path in (one for one in (asked.table, asked.map, asked.notes) if one):
        check_apart(path, [asked.history] if asked.history else [])
    with opened(asked.history or "-") as file:
        into = Imported({"null", asked.initial}, is_log=asked.log, has_versions=asked.versions, chosen=chosen_of(asked))
        reading = Reading(file, into, doing, asked.history or "standard input")
        try:
            told = imported(reading, asked.table is not None)
        except KeyboardInterrupt as error:
            raise Interrupted("interrupted at line %d: there are no records" % reading.line) from error
    if told.of_lists is not None and asked.seal_every:
        raise Untold(1, "lists have no seals: what is told of them needs the whole history")
    if asked.versions and asked.seal_every:
        raise Untold(1, "versions have no seals: what is told of them needs the whole history")
    doing.now("writes the records")
    records: Iterable[str] = told.records(asked.seal_every)
    if told.of_lists is not None:
        records = spooled(records)
    elif asked.versions:
        versioned = Versioned(read_history(io.StringIO("".join(told.records()))), told.versions(), "causal", asked.two_versions, dict(told.notes(True)))
        records = list(versioned.records())
        told.made = {"sessions": len(versioned.observers), "transactions": versioned.made, "keys": len(versioned.marks)}
    for line in told.warnings(asked.seal_every):
        doing.say("jepsen.py: " + line, sys.stderr)
    if asked.table is not None:
        write_rows(asked.table, told.table())
    if asked.map is not None:
        write_rows(asked.map, told.places())
    if asked.notes is not None:
        write_notes(asked.notes, told.notes(True))
    try:
        sys.stdout.writelines(records)
        sys.stdout.flush()
    except KeyboardInterrupt as error:
        raise Interrupted("interrupted while it wrote the records: they aren't whole") from error
    if asked.versions and versioned.doubts:
        doing.say("jepsen.py: " + versioned.said_of_doubts(), sys.stderr)
    for line in told.summary():
        doing.say("jepsen.py: " + line, sys.stderr)
    for what, times in sorted(reading.left_out.items()):
        doing.say("jepsen.py: left out: %s (%d)" % (what, times), sys.stderr)


def spooled(records: Iterable[str]) -> Iterable[str]:
    """Records as a file without a name has them: all are made before the first is taken."""
    file = tempfile.TemporaryFile("w+", encoding="ascii", newline="\n")  # pylint: disable=consider-using-with
    file.writelines(records)
    file.seek(0)
    return file


class Interrupted(Exception):
    """Somebody interrupted it, and what there is by then."""


def main() -> int:
    asked = arguments()
    gc.disable()  # as of report.py
    try:
        with Doing("reads the history") as doing:
            run(asked, doing)
    except (KeyboardInterrupt, Interrupted) as error:
        print("jepsen.py: %s" % (error or "interrupted"), file=sys.stderr)
        return INTERRUPTED
    except (Untold, NoVersions, OSError, EOFError) as error:
        print("jepsen.py: %s" % error, file=sys.stderr)
        return 1
    return 0


if __name__ == "__main__":
    sys.exit(main())
