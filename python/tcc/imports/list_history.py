"""A history of lists: who appended what, which lists were read, and what these show by themselves to be wrong, with its line (`Fault`)."""
import itertools
from collections import defaultdict
from dataclasses import dataclass, field
from typing import DefaultDict, Dict, Iterable, List, NamedTuple, Optional, Set, Tuple

OK, FAIL, INFO = 0, 1, 2
APPEND, LIST, READ, WRITE = "append", "list", "read", "write"  # what a step does: the last two are of registers
LAST = 2**62


class Step(NamedTuple):
    """What a transaction did at a key: of a list its elements, each after a space."""

    does: str
    key: str
    value: str


@dataclass
class Transaction:
    """A transaction of the history: the number of its session, how it ended, its line, and a number that orders beginnings."""

    session: int
    outcome: int
    line: int
    begun: int
    steps: List[Step]
    place: int = 0
    committed: bool = False


class Fault(NamedTuple):
    """What a list, or an append, shows by itself to be wrong: its kind, the transaction's number, the step, and the element."""

    kind: str
    number: int
    step: int
    element: str


LEAVES = ("Aborted", "ThinAir")  # what leaves the other elements of a list as they are
# What is wrong with a fault of each kind, and whether that is the store's doing.
KINDS = {
    "Twice": ("an element twice in a list", "has {e} twice", True),
    "Turned": ("a transaction's appends turned round", "has the appends of one transaction in another order than it did them: {e} too early", True),
    "OwnLost": ("own appends not at the end", "doesn't end with what its transaction had appended: {e} is missing there", True),
    "Future": ("an element before its append", "has {e}, which its own transaction appended only later", True),
    "Aborted": ("an element of an aborted append (G1a)", "has {e}, whose append aborted", True),
    "NoPrefix": ("no beginning of one log", "isn't the beginning of the longest list of its key: {e} stands where that has something else", True),
    "ThinAir": ("an element that nobody appended", "has {e}, which nobody appended", False),
    "Duplicate": ("an element appended twice", "appended {e}, which had been appended before", False),
}


class Right:
    """A list of a key that is right by itself, and so are its beginnings: its text, its elements, and of each transaction the last of its
    appends."""

    def __init__(self) -> None:
        self.text = ""
        self.elements: Set[str] = set()
        self.seen: Dict[int, int] = {}

    def take(self, text: str, more: Iterable[Tuple[str, int, int]]) -> None:
        """Goes on to a longer list, by its elements, whose they are, and which of that transaction's appends."""
        if not begins(self.text, text):
            self.elements, self.seen = set(), {}
        self.text = text
        for element, number, order in more:
            self.elements.add(element)
            self.seen[number] = order


class Read(NamedTuple):
    """A list that was read, its elements each after a space, and what of it its own transaction had appended before."""

    number: int
    step: int
    key: str
    text: str
    own: str

    def others(self) -> str:
        """What others appended, where the own appends are at the end."""
        return self.text[:len(self.text) - len(self.own)] if self.own and self.text.endswith(self.own) else self.text


def begins(text: str, whole: str) -> bool:
    """Whether a list is the beginning of another one."""
    return whole.startswith(text) and whole[len(text):len(text) + 1] in ("", " ")


def end_of(text: str, length: int) -> str:
    """The last elements of a list, in about so many letters."""
    at = text.find(" ", max(len(text) - length, 0))
    return text[at:] if at >= 0 else text[text.rfind(" "):]


class Writer(NamedTuple):
    """Who appended an element: the transaction's number, its session and its place there, and what it appended last to the list."""

    number: int
    session: int
    place: int
    last: str


@dataclass
class ListHistory:
    """A history of lists: its transactions in the order in which they ended, and the names of its sessions; who appended what, what
    was read, and what is wrong with that by itself."""

    transactions: List[Transaction]
    sessions: List[str]
    is_log: bool = False
    faults: List[Fault] = field(default_factory=list)
    reads: List[Read] = field(default_factory=list)
    reads_in_all: int = 0
    writers: Dict[str, Dict[str, int]] = field(default_factory=dict)  # of each list the number of who appended an element
    _last: Dict[Tuple[int, str], str] = field(default_factory=dict)  # what a transaction appended last to a list
    _twice: Dict[str, Set[str]] = field(default_factory=dict)  # elements that were appended twice
    _sound: Dict[str, Dict[str, Writer]] = field(default_factory=dict)  # of each list who appended what, where that counts
    _longest: Dict[str, str] = field(default_factory=dict)  # of each list the longest that was read, without own appends

    def __post_init__(self) -> None:
        places: DefaultDict[int, int] = defaultdict(int)
        for one in self.transactions:
            places[one.session] += 1
            one.place = places[one.session]
        self._trace()
        self._look()

    def label(self, number: int) -> str:
        """The label of a transaction in the history."""
        one = self.transactions[number]
        return "%s/%d" % (self.sessions[one.session], one.place)

    def _trace(self) -> None:
        """Finds who appended each element, which transactions committed, and the reads."""
        for number, one in enumerate(self.transactions):
            own: Dict[str, str] = {}
            for index, (does, key, value) in enumerate(one.steps):
                if does == APPEND:
                    mine = self.writers.setdefault(key, {})
                    if value in mine:
                        self.faults.append(Fault("Duplicate", number, index, value))
                        self._twice.setdefault(key, set()).add(value)
                    else:
                        mine[value] = number
                    self._last[number, key] = value
                    own[key] = own.get(key, "") + " " + value
                elif does == LIST and one.outcome == OK:
                    self.reads.append(Read(number, index, key, value, own.get(key, "")))
        if self._twice:
            self._last = {(number, key): value for number, one in enumerate(self.transactions) for does, key, value in one.steps
                          if does == APPEND and value not in self._twice.get(key, ())}
        has_unknown = any(one.outcome == INFO for one in self.transactions)
        shown, registers = self._shown() if has_unknown else ({}, set())
        for one in self.transactions:
            one.committed = one.outcome == OK or one.outcome == INFO and any(
                does == APPEND and value in shown.get(key, ()) or does == WRITE and (key, value) in registers for does, key, value in one.steps)

    def _shown(self) -> Tuple[Dict[str, Set[str]], Set[Tuple[str, str]]]:
        """The elements of each list that somebody read, and what was read of registers."""
        shown: DefaultDict[str, Set[str]] = defaultdict(set)
        most: Dict[str, str] = {}
        for read in self.reads:
            before = most.get(read.key, "")
            if not begins(read.text, before):
                most[read.key] = read.text
                shown[read.key].update((read.text[len(before):] if begins(before, read.text) else read.text).split())
        return shown, {(key, value) for one in self.transactions if one.outcome == OK for does, key, value in one.steps if does == READ}

    def _look(self) -> None:
        """Notes what each list shows by itself, and leaves out those that say no more than that."""
        kept: List[Read] = []
        right: DefaultDict[str, Right] = defaultdict(Right)
        for read in self.reads:
            mine = right[read.key]
            if not read.own and begins(read.text, mine.text) and (read.number, read.key) not in self._last:
                kept.append(read)
                continue
            more = self._after(read, mine)
            found = None if more is not None else self._fault_of(read)
            if found:
                self.faults.append(Fault(found[0], read.number, read.step, found[1]))
            elif len(read.text) > len(mine.text):
                mine.take(read.text, self._after(read, Right()) or () if more is None or not begins(mine.text, read.text) else more)
            if not found or found[0] in LEAVES:
                kept.append(read)
        self.reads_in_all, self.reads = len(self.reads), kept
        for key, writers in self.writers.items():
            self._sound[key] = {element: Writer(number, self.transactions[number].session, self.transactions[number].place, self._last[number, key])
                                for element, number in writers.items()
                                if self.transactions[number].committed and element not in self._twice.get(key, ())}
        for read in self.reads:
            if len(read.text) > len(self._longest.get(read.key, "")) and len(read.others()) > len(self._longest.get(read.key, "")):
                self._longest[read.key] = read.others()
        if self.is_log:
            for read in self.reads:
                others, whole = read.others(), self._longest.get(read.key, "")
                if not begins(others, whole):
                    wrong = next(one for one, other in itertools.zip_longest(others.split(), whole.split()) if one != other)
                    self.faults.append(Fault("NoPrefix", read.number, read.step, wrong))

    def _after(self, read: Read, right: Right) -> Optional[List[Tuple[str, int, int]]]:
        """What a list has after a beginning that is right, each element with its transaction and which of that one's appends it is.
        None where that beginning isn't one of this list, or where something may be wrong."""
        others = read.others()
        if read.own and others == read.text:
            return None
        if not begins(others, right.text) and not begins(right.text, others):
            return None
        mine = read.own.split()
        if (read.number, read.key) in self._last and (read.key in self._twice or right.seen.get(read.number) is not None):
            return None
        found: List[Tuple[str, int, int]] = []
        seen: Dict[int, int] = {}
        writers = self.writers.get(read.key, {})
        for element in [*others[len(right.text):].split(), *mine]:
            writer = writers.get(element)
            if writer is None or element in right.elements or writer != read.number and not self.transactions[writer].committed:
                return None
            order = self._order(writer, read.key, element)
            if seen.get(writer, right.seen.get(writer, -1)) >= order:
                return None
            seen[writer] = order
            found.append((element, writer, order))
        return found if len([None for _, writer, _ in found if writer == read.number]) == len(mine) else None

    def _fault_of(self, read: Read) -> Optional[Tuple[str, str]]:
        elements, number, mine = read.text.split(), read.number, read.own.split()
        if len(set(elements)) < len(elements):
            return "Twice", next(one for index, one in enumerate(elements) if one in elements[:index])
        if not read.text.endswith(read.own):
            return "OwnLost", next((one for one in mine if one not in elements), mine[-1])
        writers = self.writers.get(read.key, {})
        seen: Dict[int, int] = {}
        found: Optional[Tuple[str, str]] = None
        for one in elements:
            writer = writers.get(one)
            if writer is None:
                found = found or ("ThinAir", one)
                continue
            if writer == number:
                if one not in mine:
                    return "Future", one
            elif not self.transactions[writer].committed:
                found = found or ("Aborted", one)
            place = self._order(writer, read.key, one)
            if seen.get(writer, -1) > place:
                return "Turned", one
            seen[writer] = place
        return found

    def _order(self, number: int, key: str, element: str) -> int:
        """Which of the appends of a transaction to a list it is."""
        if self._last.get((number, key)) == element:
            return LAST
        return [each.value for each in self.transactions[number].steps if each.does == APPEND and each.key == key].index(element)
