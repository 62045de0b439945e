"""Lists as registers: what transactions that append to lists did, as records, so that `tcc` judges all that the lists show.

A history of lists is consistent where there is one order of its committed transactions that keeps sessions and reads. In it each
list read is what the reader's past appended, in that order, and then what the reader itself had appended. Two encodings together
say so:

  presence   an element E of a list K is a register of its own, K.E, which its append writes once: a list that has it reads 1, one
             that lacks it 0. So each list has exactly what the reader's past appended.
  order      a list is a register K, whose value is its last element: who reads it knows those before, so they came first. Where no
             reader says so of two neighbours, a session of its own, an observer, reads the one and then the other.

Presence is reduced to what says something new: of the elements of a session that are there the last one, unless the reader's
session saw it already. Of those that are missing it is the first one, and none that the reader can't have observed, since it was
invoked after all that the reader had observed. What a list shows by itself to be wrong is found before (`list_history.Fault`).
docs/MODEL.md has the proof.
"""
import itertools
from collections import defaultdict
from dataclasses import dataclass, field
from typing import DefaultDict, Dict, Iterable, Iterator, List, NamedTuple, Optional, Sequence, Set, Tuple

from tcc.common.limits import MAX_NAME_BYTES, MAX_OPERATIONS
from tcc.imports.lacking import BEYOND, Appended, Lacking, Whole
from tcc.imports.list_history import APPEND, KINDS, OK, READ, WRITE, ListHistory, Read, Transaction, Writer, begins, end_of
from tcc.imports.onward import Onward

OBSERVER, UNREAD, FAULTY = "o.%d", "u.%d", "f.%d"  # the sessions that no client has
ENOUGH = 64  # letters of the end of a list, in which its last two mostly are


class Observed(NamedTuple):
    """What an observer represents: a list, by who read it and in which step."""

    key: str
    number: int
    step: int


@dataclass
class Lists(ListHistory):
    """A history of lists, as records: those of its transactions, and those of observers."""

    observers: Dict[str, Observed] = field(default_factory=dict)  # by their sessions
    companions: Dict[str, str] = field(default_factory=dict)  # labels in the records that are others in the history
    recorded: List[str] = field(default_factory=list)  # of each transaction its label in the records
    longest: int = 0  # the most operations of a transaction
    made: int = 0  # the transactions of the records
    _names: Dict[str, Dict[str, str]] = field(default_factory=dict)  # of each key its elements with a register, and the name where it isn't plain
    _others: Dict[str, Tuple[str, str]] = field(default_factory=dict)  # by names that aren't plain: key and element
    _named: int = 0
    _wholes: Dict[str, Whole] = field(default_factory=dict)
    _keys: Set[str] = field(default_factory=set)

    def horizon(self) -> List[int]:
        """Of each transaction the greatest number of a beginning in its past: who began later isn't in it."""
        count = len(self.transactions)
        onward = Onward(count)
        last: Dict[int, int] = {}
        for number, one in enumerate(self.transactions):
            if one.committed:
                if one.session in last:
                    onward.add(last[one.session], number)
                last[one.session] = number
        ends: Dict[str, Dict[int, int]] = {}  # of each longest list, by its length so far, what represents its beginning
        for key, whole in self._longest.items():
            before, length, ends[key] = -1, 0, {}
            for element in whole.split():
                node, length = onward.node(before), length + 1 + len(element)
                before = ends[key][length] = node
                if element in self._sound.get(key, {}):
                    onward.add(self._sound[key][element].number, node)
        for read in self.reads:
            mine = read.others()
            if begins(mine, self._longest.get(read.key, "")):
                if mine:
                    onward.add(ends[read.key][len(mine)], read.number)
            else:
                for writer in self._writers(read, mine):
                    onward.add(writer.number, read.number)
        return onward.greatest([one.begun for one in self.transactions])

    def _writers(self, read: Read, text: str) -> List[Writer]:
        """Who appended the elements of a part of a list, where that counts, without the reader."""
        sound = self._sound.get(read.key, {})
        return [sound[one] for one in text.split() if one in sound and sound[one].number != read.number]

    def element_name(self, key: str, element: str) -> str:
        """The name of the register of an element: key and element, and where that can't be a name of its own."""
        names = self._names.setdefault(key, {})
        if element not in names:
            plain = "%s.%s" % (key, element)
            names[element] = self._other_name(key, element) if len(plain) > MAX_NAME_BYTES or plain in self._keys else ""
            self._named += 1
        return names[element] or "%s.%s" % (key, element)

    def _other_name(self, key: str, element: str) -> str:
        name = "e-%d" % self._named
        while name in self._others or name in self._keys:
            name += "-"
        self._others[name] = key, element
        return name

    def element_of(self, register: str) -> Optional[Tuple[str, str]]:
        """The key and the element that a register of the records represents; none where it is one of the history's own."""
        key, _, element = register.rpartition(".")
        return (key, element) if self._names.get(key, {}).get(element) == "" else self._others.get(register)

    def registers(self) -> Set[str]:
        """The names of the registers of elements, once the records are made."""
        return {self.element_name(key, element) for key, every in self._names.items() for element in every}

    def records(self, with_faults: bool = False) -> Iterator[str]:
        """The records of each transaction, and those of the observers; with faults, what is wrong by itself is an anomaly there too,
        so that nobody who looks at the answer alone takes it as right."""
        self._keys = {key for one in self.transactions for _, key, _ in one.steps}
        self._wholes = {key: Whole(key, self._longest.get(key, ""), writers) for key, writers in self._sound.items()}
        reads = self._presence()
        runs = self._runs()
        self._wholes.clear()
        places: DefaultDict[int, int] = defaultdict(int)
        for number, one in enumerate(self.transactions):
            yield from self._transaction(number, one, reads[number], places)
        yield from self._observers(runs)
        if with_faults:
            is_proof = [KINDS[one.kind][2] for one in self.faults]
            for index, is_wrong in enumerate(is_proof, 1):
                name = self._faulty_name(FAULTY % index)
                if is_wrong:
                    yield "{0},begin\n{0},w,{0},1\n{0},commit\n{0},begin\n{0},r,{0},0\n{0},commit\n".format(name)
                elif not any(is_proof):
                    yield "{0},begin\n{0},r,{0},1\n{0},commit\n".format(name)

    def _faulty_name(self, name: str) -> str:
        """A name that no session and no register has."""
        taken = {*self.sessions, *self.observers, *self._keys}
        while name in taken or self.element_of(name):
            name += "-"
        return name

    def _presence(self) -> List[str]:
        """Of each transaction the reads of last elements and of registers, of elements that are there, and of such as lack: each a line, and
        a bar between them."""
        begun = [one.begun for one in self.transactions]
        lacking = {key: Lacking(self._by_session(key), begun) for key in self._sound}
        horizon = self.horizon()
        known: DefaultDict[int, Dict[int, int]] = defaultdict(dict)
        saw: Dict[Tuple[int, str], str] = {}
        every: List[str] = []
        for number, mine in itertools.groupby(self.reads, lambda read: read.number):
            every += [joined(self._registers(one)) for one in self.transactions[len(every):number]]
            one = self.transactions[number]
            last, there, lacks = self._registers(one), [], []  # type: List[str], List[str], List[str]
            for read in mine:
                text, whole = read.others(), self._wholes.get(read.key)
                count = -1 if whole is None else whole.count_of(text)
                value = self._last_of(read, text) if whole is None or count < 0 else whole.values[count]
                if value is not None:
                    last.append(value)
                before = saw.get((one.session, read.key), "")
                before = before if begins(before, text) else ""
                saw[one.session, read.key] = text
                if whole is not None:
                    there += self._there(read, text, before, count, whole, known[one.session])
                    lacks += self._lacks(read, text, count, lacking[read.key], horizon[number])
            every.append(joined(last, there, lacks))
        return every + [joined(self._registers(one)) for one in self.transactions[len(every):]]

    def _there(self, read: Read, text: str, before: str, count: int, whole: Whole, places: Dict[int, int]) -> List[str]:
        """The reads of elements that are there: of each session the last, unless the reader's session saw it or a later one."""
        one = self.transactions[read.number]
        is_whole = count >= 0 and whole.is_rising
        most = whole.last_ones(whole.counts[len(before)], count) if is_whole else self._last_ones(read, text[len(before):])
        found = []
        for session, (place, element) in most.items():
            if places.get(session, 0) < place and (session != one.session or place > one.place):
                places[session] = place
                found.append(whole.texts.get(element) or whole.text_of(element, self.element_name(read.key, element)))
        return found

    def _lacks(self, read: Read, text: str, count: int, lacking: Lacking, latest: int) -> List[str]:
        """The reads of elements that a list lacks: of each session the first."""
        number, session = read.number, self.transactions[read.number].session
        every = lacking.first_ones(len(text), latest) if count >= 0 else lacking.first_but(frozenset(read.text.split()), latest)
        return [lacking.texts.get(one.element) or lacking.text_of(one.element, self.element_name(read.key, one.element))
                for one in every if one.number != number and (one.session != session or one.number < number)]

    @staticmethod
    def _registers(one: Transaction) -> List[str]:
        """What a transaction that committed read of registers before it wrote there itself."""
        found: List[str] = []
        written: Set[str] = set()
        for step in one.steps if one.outcome == OK else ():
            if step.does == READ and step.key not in written:
                found.append("r,%s,%s" % (step.key, step.value))
            elif step.does == WRITE:
                written.add(step.key)
        return found

    def _by_session(self, key: str) -> "Dict[int, Appended]":
        """What each session appended to a list, in its order, and where in the longest list that is."""
        ends: Dict[str, int] = {}
        length = 0
        for element in self._longest.get(key, "").split():
            length += 1 + len(element)
            ends[element] = length
        by: Dict[int, List[Tuple[int, int, str]]] = {}
        for element, writer in self._sound[key].items():
            by.setdefault(writer.session, []).append((writer.place, writer.number, element))
        for every in by.values():
            every.sort(key=lambda each: each[:2])  # those of a transaction stay as it appended them
        return {session: Appended([each[2] for each in every], [each[1] for each in every], [ends.get(each[2], BEYOND) for each in every])
                for session, every in by.items()}

    def _last_of(self, read: Read, text: str) -> Optional[str]:
        """The read of a list as a register: what the transaction of its last element appended last; none where nobody knows whose that
        is."""
        if not text:
            return "r,%s,0" % read.key
        writer = self._sound.get(read.key, {}).get(text[text.rindex(" ") + 1:])
        return None if writer is None or writer.number == read.number else "r,%s,%s" % (read.key, writer.last)

    def _last_ones(self, read: Read, new: str) -> Dict[int, Tuple[int, str]]:
        """Of each session the last of its elements in a part of a list, with its place."""
        one, sound, most = self.transactions[read.number], self._sound.get(read.key, {}), {}  # type: Transaction, Dict[str, Writer], Dict[int, Tuple[int, str]]
        for element in new.split():
            writer = sound.get(element)
            if writer is not None and writer.number != read.number and (writer.session != one.session or writer.place > one.place):
                if most.get(writer.session, (0, ""))[0] < writer.place:
                    most[writer.session] = writer.place, element
        return most

    def _transaction(self, number: int, one: Transaction, reads: str, places: DefaultDict[int, int]) -> Iterator[str]:
        """A transaction, its reads first; of too many operations some move to companions in its session."""
        last, there, lacks = (each.split("\n") if each else [] for each in reads.split("|"))
        writes: List[str] = []
        for does, key, value in one.steps:
            if does == WRITE:
                writes.append("w,%s,%s" % (key, value))
            elif does == APPEND and value not in self._twice.get(key, ()):
                if self._last[number, key] == value:
                    writes.append("w,%s,%s" % (key, value))
                if value in self._names.get(key, ()):
                    writes.append("w,%s,1" % self.element_name(key, value))
        writes = list(dict.fromkeys(writes))
        before: List[str] = []
        behind: List[str] = []
        if len(last) + len(there) + len(lacks) + len(writes) > MAX_OPERATIONS:
            before, there = there, []
            if len(last) + len(lacks) + len(writes) > MAX_OPERATIONS:
                behind, lacks = lacks, []
        own = [*last, *there, *lacks, *writes]
        self.longest = max(self.longest, len(own))
        name = self.sessions[one.session]
        parts = [*chunks(before), own, *chunks(behind)]
        for part in parts:
            places[one.session] += 1
            if part is own:
                self.recorded.append("%s/%d" % (name, places[one.session]))
            if places[one.session] != one.place:
                self.companions["%s/%d" % (name, places[one.session])] = "%s/%d" % (name, one.place)
            self.made += 1
            end = "commit" if one.committed else "abort"
            between = "\n%s," % name
            yield "%s,begin%s%s\n" % (name, between, between.join([*part, end]))

    # Orders of two elements, and who says so.

    def _chain(self, read: Read, text: str) -> Tuple[str, ...]:
        """The transactions that appended a list, or its end, each by the last that it appended."""
        found = [writer.last for writer in self._writers(read, text)]
        return tuple(one for index, one in enumerate(found) if index == 0 or found[index - 1] != one)

    def _end_of(self, read: Read) -> Tuple[str, ...]:
        """The last two of a chain."""
        mine, length = read.others(), ENOUGH
        chain = self._chain(read, end_of(mine, length))
        while len(chain) < 2 and length < len(mine):
            length *= 4
            chain = self._chain(read, end_of(mine, length))
        return chain[-2:]

    def _runs(self) -> Dict[str, List[Tuple[Read, Tuple[str, ...]]]]:
        """Of each list the runs of neighbours whose order no reader gives by what it read, each with a list that has it."""
        chains: Dict[str, Dict[Tuple[str, ...], Read]] = {}
        given: Set[Tuple[str, str, str]] = set()
        has_whole: Set[str] = set()
        for read in self.reads:
            mine, longest, ours = read.others(), self._longest.get(read.key, ""), self._wholes.get(read.key)
            count = -1 if ours is None else ours.count_of(mine)
            end, value = (self._end_of(read), self._last_of(read, mine)) if ours is None or count < 0 else (ours.ends[count], ours.values[count])
            if len(end) > 1 and value == "r,%s,%s" % (read.key, end[-1]):
                given.add((read.key, end[0], end[1]))
            if mine and (mine == longest and read.key not in has_whole or not begins(mine, longest)):
                if mine == longest:
                    has_whole.add(read.key)
                chain = self._chain(read, mine)
                if len(chain) > 1:
                    chains.setdefault(read.key, {}).setdefault(chain, read)
        found: Dict[str, List[Tuple[Read, Tuple[str, ...]]]] = {}
        for key, every in chains.items():
            runs: List[Tuple[Read, Tuple[str, ...]]] = []
            kept: List[Tuple[str, ...]] = []
            for chain in sorted(every, key=lambda each: (-len(each), each)):
                if any(each[:len(chain)] == chain for each in kept):
                    continue
                kept.append(chain)
                run: List[str] = []
                for pair in zip(chain, chain[1:]):
                    if (key, *pair) in given:
                        if run:
                            runs.append((every[chain], tuple(run)))
                        run = []
                    else:
                        given.add((key, *pair))
                        run = (run or [pair[0]]) + [pair[1]]
                if run:
                    runs.append((every[chain], tuple(run)))
            if len(kept) == 1 and runs:  # all of one list: in its order one session may read them
                whole = [each for _, run in runs for each in run]
                runs = [(runs[0][0], tuple(each for index, each in enumerate(whole) if index == 0 or whole[index - 1] != each))]
            found[key] = runs
        return found

    def _observers(self, runs: Dict[str, List[Tuple[Read, Tuple[str, ...]]]]) -> Iterator[str]:
        taken = set(self.sessions)
        for key, every in runs.items():
            for read, run in every:
                self.made += len(run)
                yield observer(self._observer(OBSERVER, taken, read), key, run)
        if self.is_log:
            yield from self._unread(taken)

    def _observer(self, form: str, taken: Set[str], read: Read) -> str:
        name = unused(form % (len(self.observers) + 1), taken)
        self.observers[name] = Observed(read.key, read.number, read.step)
        return name

    def _unread(self, taken: Set[str]) -> Iterator[str]:
        """In a log, that what nobody read came after all that somebody did."""
        longest = {read.key: read for read in self.reads if read.others() == self._longest.get(read.key)}
        for key, read in longest.items():
            chain = self._chain(read, read.others())
            elements_seen = frozenset(read.others().split())
            unread = {writer.last for element, writer in self._sound.get(key, {}).items() if element not in elements_seen}
            for last in sorted(unread - set(chain)) if chain else ():
                self.made += 2
                yield observer(self._observer(UNREAD, taken, read), key, (chain[-1], last))

    @property
    def counts(self) -> Dict[str, int]:
        """How large the records are that were made."""
        return {"sessions": len(self.sessions) + len(self.observers), "transactions": self.made, "keys": len(self._keys) + self._named,
                "operations in a transaction": self.longest}

    # What the records represent.

    def real(self, label: str) -> str:
        """The label in the history of a transaction of the records."""
        session, _, _ = label.rpartition("/")
        if session in self.observers:
            return self.label(self.observers[session].number)
        return self.companions.get(label, label)

    def is_made(self, label: str) -> bool:
        """Whether it is the transaction of an observer."""
        return label.rpartition("/")[0] in self.observers


def joined(last: List[str], there: Sequence[str] = (), lacks: Sequence[str] = ()) -> str:
    """Reads of three kinds as one text, each once."""
    return "|".join(["\n".join(dict.fromkeys(each)) for each in (last, there, lacks)])


def unused(name: str, taken: Set[str]) -> str:
    while name in taken:
        name += "-"
    return name


def observer(name: str, key: str, values: Iterable[str]) -> str:
    """The records of an observer, a transaction for each value."""
    return "".join("{0},begin\n{0},r,{1},{2}\n{0},commit\n".format(name, key, value) for value in values)


def chunks(operations: List[str]) -> List[List[str]]:
    return [operations[first:first + MAX_OPERATIONS] for first in range(0, len(operations), MAX_OPERATIONS)]
