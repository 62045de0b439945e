"""What is imported of a history of Jepsen or Elle, once all has come: the records of its transactions, their notes, and the names in
them."""
import itertools
import re
from collections import Counter
from dataclasses import dataclass, field
from typing import Dict, Iterator, List, Optional, Set, Tuple

from tcc.common.limits import DEFAULT, LARGE, LARGE_SEALS, MAX_SEALS
from tcc.common.notes import Note
from tcc.imports.collected import Collected
from tcc.imports.list_history import APPEND, FAIL, INFO, LIST, OK, READ, WRITE as WRITES, Step as ListStep, Transaction as ListTransaction
from tcc.imports.lists import Lists
from tcc.imports.names import plain_text
from tcc.imports.operations import Untold
from tcc.judging.noted_versions import Versions
from tcc.show.list_terms import ListTerms

ENDS = ("commit", "abort", "unknown")
MARK = re.compile(r"[#*][0-9]+")
NANOSECONDS = 1e9
CLOCK = 10**16  # nanoseconds, some months
MOST_FAULTS = 5


@dataclass
class Imported(Collected):
    """The transactions of a history, their records and notes, and the names in these: what is known once all has come."""

    is_log: bool = False
    of_lists: Optional[Lists] = None
    made: Dict[str, int] = field(default_factory=dict)  # what versions add to the records: sessions, transactions and keys
    committed: bytearray = field(default_factory=bytearray)
    stand_ins: Dict[str, str] = field(default_factory=dict)

    def finish(self, may_list: bool) -> None:
        """Takes what nothing followed as of unknown outcome, settles which transactions committed, and all names."""
        for process, one in list(self._waiting.items()):
            self._end(one.line, INFO, process, None, one.index_told, one, None, None)
        self._waiting.clear()
        if self.wrong_write is not None:
            raise self.wrong_write
        only_read = None if self.has_appends else self.checks.only_read()
        if only_read is not None:
            raise self.no_such_write(*only_read)
        early = self._early_lists()
        if not may_list:
            for names in (self.values, self.sessions, self.keys):
                names.check(early)
        if not self.has_appends:
            self.committed = self._committed()
        self.stand_ins = {**self.keys.stand_ins("k", self.keys.taken), **self.sessions.stand_ins("s", self.sessions.taken)}
        if self.values.listed:
            self.stand_ins.update(self.values.stand_ins("", self._small_values()))
        if self.has_appends:
            self._make_lists()

    def no_such_write(self, line: int, name: str, thing: str) -> Untold:
        """Why a read of a list or a map can't be of a register to which nobody writes such a thing."""
        return Untold(line, "the read of %s returned %s, and nobody writes %s: let the test note the value that was written%s" % (
            self.stand_ins.get(name, name), thing, "a map" if thing.startswith("{") else "a list",
            ", or say --versions where it is [version value]" if thing.startswith("[") and thing.count(",") == 1 else ""))

    def _early_lists(self) -> Set[str]:
        """The marks of lists that were read before the first append was seen, and so were taken as values."""
        return {"*%d" % number for number, thing in enumerate(self.values.listed) if thing.startswith("[")} if self.has_appends else set()

    def _make_lists(self) -> None:
        """All transactions as those of lists, with the names that are in the records."""
        for number, text in enumerate(self.texts):
            if number not in self.listed:
                parts = (part.split(",") for part in text.split("\n") if part)
                self.listed[number] = [ListStep(READ if does == "r" else WRITES, key, value) for does, key, value in parts]
        are_lists, are_registers = ({key for each in self.listed.values() for does, key, _ in each if does in kinds}
                                    for kinds in ((APPEND, LIST), (READ, WRITES)))
        are_named = not self.stand_ins and are_lists.isdisjoint(are_registers)
        made = []
        for number, line in enumerate(self.lines):
            mine = self.listed.pop(number)
            if not are_named:
                mine = [self._named(line, one, one.key in are_lists) for one in mine]
            made.append(ListTransaction(self.session_of[number], self.outcomes[number], line, self.begun[number], mine))
        self.texts = [""] * len(made)
        self.of_lists = Lists(made, self.session_names(), self.is_log)
        self.committed = bytearray(one.committed for one in made)

    def _named(self, line: int, one: ListStep, is_list: bool) -> ListStep:
        """A step with the names that are in the records; a nil that was read of a list is an empty one."""
        if is_list and one.does == READ and one.value == "0":
            one = ListStep(LIST, one.key, "")
        elif is_list and one.does in (READ, WRITES):
            raise Untold(line, "a %s of %s at the key %s, which is a list elsewhere" % (one.does, one.value, one.key))
        if self.stand_ins and ("*" in one.value or "#" in one.key):
            return ListStep(one.does, self.stand_ins.get(one.key, one.key), MARK.sub(lambda found: self.stand_ins[found.group()], one.value))
        return one

    def _small_values(self) -> Set[str]:
        """The values in the records that stand-ins might be: with so many listed none is greater than these and all others are many."""
        bound = len(self.values.listed) + sum(text.count("\n") + 1 for text in self.texts) + sum(
            len(step.value.split()) for each in self.listed.values() for step in each)
        found: Set[str] = set()
        every = (part.rpartition(",")[2] for text in self.texts for part in text.split("\n"))
        for value in itertools.chain(every, (one for each in self.listed.values() for step in each for one in step.value.split())):
            if value and value[0] != "*" and len(value) < 19 and int(value) <= bound:
                found.add(value)
        return found

    def _committed(self) -> bytearray:
        """Which committed: each `ok`, and each `info` of which an `ok` read a value."""
        wanted = {part[2:] for text, outcome in zip(self.texts, self.outcomes) if outcome == INFO and text for part in text.split("\n")}
        seen: Set[str] = set()
        if wanted:
            for text, outcome in zip(self.texts, self.outcomes):
                if outcome == OK:
                    seen.update(part[2:] for part in text.split("\n") if part[:1] == "r" and part[2:] in wanted)
        return bytearray(
            outcome == OK or outcome == INFO and text != "" and any(part[2:] in seen for part in text.split("\n"))
            for text, outcome in zip(self.texts, self.outcomes))

    def session_names(self) -> List[str]:
        return [self.stand_ins.get(name, name) for name in self.sessions.given.values()]

    def records(self, seal_every: Optional[int] = None) -> Iterator[str]:
        """The records of each transaction; after so many of them a seal, where that is asked for. Of lists those of `tcc.lists`."""
        if self.of_lists is not None:
            yield from self.of_lists.records(with_faults=True)
            return
        names, stand_ins = self.session_names(), self.stand_ins
        for number, (text, session, outcome) in enumerate(zip(self.texts, self.session_of, self.outcomes), 1):
            name = names[session]
            if stand_ins:
                text = MARK.sub(lambda found: stand_ins[found.group()], text)
            steps_of_it = "%s,%s\n" % (name, text.replace("\n", "\n%s," % name)) if text else ""
            yield "%s,begin\n%s%s,%s\n" % (name, steps_of_it, name, ENDS[outcome])
            if seal_every and number % seal_every == 0:
                yield "seal\n"

    def labels(self, are_recorded: bool) -> Iterator[str]:
        """The label of each transaction, in the records or in the history, which differ where lists have companions."""
        if are_recorded and self.of_lists is not None:
            yield from self.of_lists.recorded
            return
        names = self.session_names()
        places = [0] * len(names)
        for session in self.session_of:
            places[session] += 1
            yield "%s/%d" % (names[session], places[session])

    def places(self) -> Iterator[Tuple[str, str, int]]:
        """Of each transaction of the records the label, the index of the operation that ended it, and its line."""
        for label, index, line in zip(self.labels(True), self.indexes, self.lines):
            yield label, "" if index is None else str(index), line

    def notes(self, are_recorded: bool) -> Iterator[Tuple[str, Note]]:
        """Of each transaction what is known of the operation that ended it."""
        begin = self.begin()
        for number, (label, index, time, line, outcome) in enumerate(
                zip(self.labels(are_recorded), self.indexes, self.times, self.lines, self.outcomes)):
            yield label, Note(self.nodes.get(number, ""), "" if time is None else "%.6f" % ((time - begin) / NANOSECONDS),
                              "" if index is None else str(index), str(line), "of unknown outcome" if outcome == INFO else "")

    def begin(self) -> int:
        """The time, in nanoseconds, at which the run began: 0, as Jepsen has it, or where times are those of a clock the first one."""
        first = min((time for time in self.times if time is not None), default=0)
        return first if first > CLOCK else 0

    def warnings(self, seal_every: Optional[int] = None) -> Iterator[str]:
        """Where the records, which were made before, pass a limit of `tcc explain`, and what to do; and which lists show by themselves
        to be wrong."""
        counts = {"sessions": len(self.sessions.given), "transactions": len(self.texts), "keys": len(self.keys.given),
                  "operations in a transaction": self.longest}
        if self.of_lists is not None:
            counts = self.of_lists.counts
        for what, made in self.made.items():
            counts[what] += made
        for what, number in counts.items():
            if number > LARGE[what]:
                shorter = "transactions" if what.startswith("operations") else "the run"
                yield "%d %s: tcc takes at most %d, so make %s shorter" % (number, what, LARGE[what], shorter)
            elif number > DEFAULT[what]:
                yield "%d %s: tcc explain takes at most %d, so say --large" % (number, what, DEFAULT[what])
        seals = len(self.texts) // seal_every if seal_every else 0
        if seals > LARGE_SEALS:
            yield "%d seals: tcc takes at most %d, so say a greater --seal-every" % (seals, LARGE_SEALS)
        elif seals > MAX_SEALS:
            yield "%d seals: tcc explain takes at most %d, so say --large" % (seals, MAX_SEALS)
        if self.of_lists is not None:
            words = ListTerms(self.of_lists, {}, *self.true_names())
            for one in self.of_lists.faults[:MOST_FAULTS]:
                yield "line %d: %s" % (self.of_lists.transactions[one.number].line, words.fault_sentence(one))
            if len(self.of_lists.faults) > MOST_FAULTS:
                yield "%d such lists more" % (len(self.of_lists.faults) - MOST_FAULTS)

    def versions(self) -> Versions:
        """The versions of all values, by the names that are in the records."""
        found = Versions()
        for line, name, value, version in self.told_versions:
            found.note(self.stand_ins.get(name, name), self.stand_ins.get(value, value), version, "line %d" % line)
        return found

    def true_names(self) -> Tuple[Dict[str, str], Dict[str, str]]:
        """What the history has for names and numbers of the records that represent something else: of keys and of values."""
        keys, values = ({self.stand_ins["%s%d" % (names.mark, number)]: plain_text(thing) for number, thing in enumerate(names.listed)
                         if "%s%d" % (names.mark, number) in self.stand_ins} for names in (self.keys, self.values))
        return keys, values

    def table(self) -> Iterator[Tuple[str, str, str]]:
        """What isn't itself in the records: kind, what represents it, and how JSON spells it."""
        for names in (self.sessions, self.keys, self.values):
            for number, thing in enumerate(names.listed):
                mark = "%s%d" % (names.mark, number)
                if not (self.has_appends and names is self.values and thing.startswith("[")):
                    yield names.kind, self.stand_ins[mark], thing

    def summary(self) -> Iterator[str]:
        """What became of all lines."""
        ways = Counter(zip(self.outcomes, self.committed))
        yield "%d committed, %d aborted; of unknown outcome %d, which a read shows as committed, and %d, which count as aborted" % (
            ways[OK, 1], ways[FAIL, 0], ways[INFO, 1], ways[INFO, 0])
        yield "left out: %d reads of what failed or is unknown; passed over: %d invoke, %d of no transaction" % (
            self.left_out, self.passed_over["invoke"], self.passed_over["other"])
        yield from self.chosen.said()
