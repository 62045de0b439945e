"""All that a page says of a history, gathered in one value."""
from collections import Counter
from dataclasses import dataclass, field
from typing import Counter as Count, Dict, List, Optional, Set, Tuple

from tcc.common.kinds import FAULTS, VIOLATIONS
from tcc.common.limits import MAX_KEYS, MAX_SESSIONS, MAX_TRANSACTIONS
from tcc.common.notes import Event, Note
from tcc.common.rows import History, Json
from tcc.imports.imported import Imported
from tcc.imports.list_history import KINDS as LIST_FAULTS
from tcc.imports.lists import Lists
from tcc.judging.answers import OUT_OF_ORDER, Link, place, session_of
from tcc.judging.contradicted import Contradicted, Survey
from tcc.judging.graph import Fault, Graph
from tcc.judging.program import Program
from tcc.judging.versions import Versioned
from tcc.show.list_terms import ABOUT as ABOUT_LISTS, ListTerms, Shown
from tcc.show.terms import ImportedTerms, Terms

DIVERGENT = "divergent writes"
# What each usual name means, of reads and of lists.
ABOUT = {
    "read your writes": "a session didn't see what it wrote itself",
    "monotonic reads": "a session read a write of the key, and then an older one",
    "monotonic writes": "of two writes of a session the second was seen, and the first wasn't",
    "writes follow reads": "a write was seen, and what its session had read before it wasn't",
    "fractured read": "of a transaction's writes one was seen, and another wasn't",
    "causal chain": "what was known by a longer chain of sessions and reads wasn't seen",
    "divergent writes": "two sessions saw two writes of a key in opposite orders",
    "circular reads": "transactions read from one another in a circle (G1c)",
    OUT_OF_ORDER: "a key's versions have another order than sessions and reads",
    **ABOUT_LISTS,
}


@dataclass
class Command:
    """A command as it would be typed, and how it ended."""

    said: str
    status: int
    seconds: float


@dataclass
class Findings:
    """All that the page tells."""

    name: str
    tcc: Program
    history: History
    notes: Dict[str, Note]
    answer: Json
    commands: List[Command]
    imported: Optional[Imported] = None
    cycle: List[Link] = field(default_factory=list)
    is_of_slice: bool = False
    found: Survey = Survey([], [], 0, [])
    graph: Optional[Graph] = None
    is_proved: bool = False
    check: Optional[str] = None
    is_searched: bool = False
    required: int = 1
    chances: "Chances" = field(default_factory=lambda: Chances())
    shown: List[Shown] = field(default_factory=list)
    versioned: Optional[Versioned] = None
    events: List[Event] = field(default_factory=list)
    path: str = ""  # of the file that was given

    @property
    def judged(self) -> str:
        """The file of the records that are judged."""
        return "versioned.csv" if self.versioned else "records.csv"

    @property
    def verdict(self) -> str:
        return str(self.answer["answer"])

    @property
    def lists(self) -> Optional[Lists]:
        return self.imported.of_lists if self.imported else None

    @property
    def contradicted(self) -> List[Contradicted]:
        """The contradicted reads; of lists each list once."""
        return [one.told for one in self.shown] if self.lists else self.found.contradicted

    @property
    def terms(self) -> Terms:
        if self._terms is None:
            if self.lists is not None and self.imported:
                self._terms = ListTerms(self.lists, self.notes, *self.imported.true_names())
            elif self.imported:
                self._terms = ImportedTerms(self.history, self.notes, *self.imported.true_names())
            else:
                self._terms = Terms(self.history, self.notes)
            self._terms.versioned = self.versioned
        return self._terms

    _terms: Optional[Terms] = None
    faults: Optional[List[Fault]] = None

    @property
    def labels(self) -> List[str]:
        """The transactions of the history."""
        if self.lists is not None:
            return [self.lists.label(number) for number in range(len(self.lists.transactions))]
        return list(self.history.transactions)

    def committed(self) -> int:
        if self.lists is not None:
            return sum(one.committed for one in self.lists.transactions)
        return sum(one.committed for one in self.history.transactions.values())

    def violations(self) -> "Count[str]":
        """What no promise lets be, beside contradicted reads, by the names of its kinds."""
        found = Counter(FAULTS[one.kind][0] for one in faults_of(self) if one.kind in VIOLATIONS)
        if self.lists is not None:
            found.update(LIST_FAULTS[one.kind][0] for one in self.lists.faults if LIST_FAULTS[one.kind][2])
        return found

    def doubts(self) -> "Count[str]":
        """What can't be judged, and may be a fault of the records, by the names of its kinds."""
        found = Counter(FAULTS[one.kind][0] for one in faults_of(self) if one.kind not in VIOLATIONS)
        if self.lists is not None:
            found.update(LIST_FAULTS[one.kind][0] for one in self.lists.faults if not LIST_FAULTS[one.kind][2])
        return found

    @property
    def state(self) -> str:
        """What the page says in all: good, bad, in doubt, or that nothing was judged."""
        if self.verdict == "anomaly" or self.contradicted or self.violations():
            return "bad"
        if self.verdict == "unresolved" or self.doubts():
            return "doubt"
        return "good" if self.committed() >= self.required and self.chances.reads else "nothing"


@dataclass
class Chances:
    """How much could have failed: reads in all, those of what another session wrote, those of keys that several sessions write, and
    those that are both."""

    reads: int = 0
    others: int = 0
    shared: int = 0
    contested: int = 0

    def count(self, is_other: bool, is_shared: bool) -> None:
        self.reads += 1
        self.others += is_other
        self.shared += is_shared
        self.contested += is_other and is_shared


def chances_of(history: History) -> Chances:
    """Of the records."""
    writers: Dict[Tuple[str, str], str] = {}
    sessions: Dict[str, Set[str]] = {}
    committed = [one for one in history.transactions.values() if one.committed]
    for one in committed:
        for _, _, does, key, value in one.operations:
            if does == "w":
                writers[key, value] = one.session
                sessions.setdefault(key, set()).add(one.session)
    found = Chances()
    for one in committed:
        own: Set[str] = set()
        seen: Set[Tuple[str, str]] = set()
        for _, _, does, key, value in one.operations:
            if does == "w":
                own.add(key)
            elif key not in own and (key, value) not in seen:
                seen.add((key, value))
                found.count(writers.get((key, value), one.session) != one.session, len(sessions.get(key, ())) > 1)
    return found


def chances_of_lists(lists: Lists) -> Chances:
    """Of lists: those that were read, those with an element of another session, of lists to which several sessions append, and both."""
    sessions = {key: {lists.transactions[number].session for number in every.values() if lists.transactions[number].committed}
                for key, every in lists.writers.items()}
    found = Chances()
    for read in {(read.number, read.key): read for read in lists.reads}.values():
        mine, writers = lists.transactions[read.number].session, lists.writers.get(read.key, {})
        found.count(any(one in writers and lists.transactions[writers[one]].session != mine for one in read.others().split()),
                    len(sessions.get(read.key, ())) > 1)
    return found


def faults_of(told: Findings) -> List[Fault]:
    """The operations that the answer can't judge, each with the transaction that wrote its value first."""
    if told.verdict != "unresolved":
        return []
    if told.faults is None:
        told.faults = traced_faults(told)
    return told.faults


def traced_faults(told: Findings) -> List[Fault]:
    found = []
    writes = told.history.writes_of({(one["key"], str(one["value"])) for one in told.answer["faults"]})
    for one in told.answer["faults"]:
        label = "%s/%d" % (one["session"], one["place"])
        operation = told.history.find(label).operations[one["op"] - 1]
        others = [(place(name), write.row, name) for name, write in writes[one["key"], str(one["value"])] if write != operation]
        first = min(others)[2] if others else ""
        found.append(Fault(one["kind"], label, operation, label if one["kind"] in ("BrokenInternal", "Future") else first))
    return found


def is_large(history: History) -> bool:
    """Whether a history is above the default limits."""
    return (len(sessions_of(history)) > MAX_SESSIONS or len(history.transactions) > MAX_TRANSACTIONS
            or len(keys_of(history)) > MAX_KEYS)


def sessions_of(history: History) -> Set[str]:
    return {session_of(label) for label in history.transactions}


def keys_of(history: History) -> Set[str]:
    return {key for one in history.transactions.values() for _, _, _, key, _ in one.operations}
