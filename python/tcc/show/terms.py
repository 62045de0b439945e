"""How things are called in what is said of an answer: keys, values, and where an operation is found.

`Terms` is of records as somebody gave them, `ImportedTerms` of a history of registers that was imported, in whose own keys, values and
indices it speaks; `tcc.list_terms` has those of lists.
"""
from typing import Dict, Iterable, Iterator, List, Optional, Tuple

from tcc.common.notes import Note
from tcc.common.rows import History, Unfit
from tcc.judging.answers import Link, joined, place, row_of, said, session_of
from tcc.judging.versions import Versioned

MOST_SHOWN = 40  # letters of a key or value
MOST_OPERATIONS = 6  # of a transaction that are drawn
# What is said at a line, and of it.
Pair = Tuple[str, str]


class Terms:
    """The words for records: what the history has, and its rows."""

    def __init__(self, history: History, notes: Optional[Dict[str, Note]] = None):
        self.history, self.notes = history, notes or {}
        self.versioned: Optional[Versioned] = None

    # What things are called.

    def key(self, key: str) -> str:
        return key

    def value(self, value: str) -> str:
        return said(value)

    def pair(self, key: str, value: str) -> str:
        return "%s = %s" % (self.key(key), self.value(value))

    def where(self, label: str, row: int) -> str:
        """Where an operation of a transaction is found."""
        return "row %d" % row

    def is_committed(self, label: str) -> bool:
        return self.history.find(label).committed

    def found(self, label: str) -> str:
        """Where a transaction is found."""
        one = self.history.find(label)
        return "rows %d to %d" % (one.first, one.last)

    def rows(self, *labels: str) -> str:
        """Where transactions are found, for the end of a sentence."""
        return "; ".join("%s is in %s" % (name, self.found(name)) for name in dict.fromkeys(labels) if name != "init")

    # What an anomaly says, in sentences.

    def sentence(self, one: Link) -> str:
        """What a derived link says: who wrote, who had observed it, and what that one read instead."""
        history = self.history
        write, value = history.find(one.source).written(one.key), history.value_read(one.target, one.reader, one.key)
        if write is None:
            raise Unfit("%s doesn't write %s in the history: is it that of the answer?" % (one.source, one.key))
        row = row_of(history.find(one.reader), "r", one.key, value)
        read = "%s in %s (%s)" % (self.pair(one.key, value), one.reader, self.where(one.reader, row))
        wrote = "%s wrote %s in %s" % (session_of(one.source), self.pair(one.key, write.value), one.source)
        if session_of(one.source) == session_of(one.reader):
            return "%s and read %s." % (wrote, read)
        return "%s; %s knew of that, %s, and read %s." % (wrote, session_of(one.reader), self.known_by(one.walk, one.key), read)

    def known_by(self, walk: Iterable[Link], key: str) -> str:
        """By which way the last of a walk had observed the first."""
        every = list(walk)
        steps = joined(every)
        read = steps[-1] if steps[-1].kind == "reads" else None
        if len(steps) == 1 and read:
            return "since it read %s from %s" % (self.key(read.key), read.source)
        if [each.kind for each in steps] == ["reads", "session"]:
            return "since it had read %s from %s in %s" % (self.key(steps[0].key), steps[0].source, steps[0].target)
        if [each.kind for each in steps] == ["session", "reads"] and read:
            return "since it read %s from %s, which stands behind that" % (self.key(read.key), read.source)
        if read and steps[0].kind == "reads" and [each.kind for each in steps[1:-1]] in ([], ["session"]):
            return "since it read %s from %s, whose session had read %s from %s" % (
                self.key(read.key), read.source, self.key(steps[0].key), steps[0].source)
        return "by a chain of %d steps" % len(every)

    def circle(self, reads: List[Link]) -> str:
        """What a cycle of sessions and reads says: its first reads, and what follows."""
        told = []
        for one in reads[:4]:
            value = self.history.value_read(one.source, one.target, one.key)
            row = row_of(self.history.find(one.target), "r", one.key, value)
            told.append("%s read %s from %s (%s)" % (one.target, self.pair(one.key, value), one.source, self.where(one.target, row)))
        more = ", and %d more such reads" % (len(reads) - 4) if len(reads) > 4 else ""
        return "%s%s: so a transaction would have come before itself." % (", ".join(told), more)

    def sentences(self, cycle: List[Link]) -> Iterator[str]:
        """What an anomaly says."""
        derived = [one for one in cycle if one.kind == "derived"]
        versions = [one for one in cycle if one.kind == "version"]
        if not derived and versions:
            for one in versions[:3]:
                yield "%s came before %s: %s." % (one.source, one.target, self.by_versions(one))
            yield "Sessions and reads say otherwise." if len(versions) == 1 else "No one order is that of all these versions, and of sessions and reads."
            return
        if not derived:
            yield self.circle([one for one in cycle if one.kind == "reads"])
        for one in derived[:3]:
            older = next((each for each in versions if (each.source, each.target, each.key) == (one.target, one.source, one.key)), None)
            yield self.sentence(one) + (" By their versions, %s and %s, what it read is older." % (
                self.version(older.target, older.key), self.version(older.source, older.key)) if older else "")
        if len(derived) > 3:
            yield "And so on: %d reads in all, which no one order of the writes explains together." % len(derived)
        elif len(derived) > 1:
            yield "No one order of the writes explains these reads together."

    # What is said at the lines of a picture, and of them.

    def of_session(self, one: Link) -> Pair:
        if one.source == "init":
            return "", "The initial state is before all transactions, also before %s. %s." % (one.target, self.rows(one.target))
        between = place(one.target)[1] - place(one.source)[1] - 1
        return "%d between" % between if between else "", "%s comes before %s in session %s. %s." % (
            one.source, one.target, session_of(one.source), self.rows(one.source, one.target))

    def of_read(self, one: Link) -> Pair:
        value = self.history.value_read(one.source, one.target, one.key)
        return self.pair(one.key, value), "%s read %s, which %s wrote, so it comes behind it. %s." % (
            one.target, self.pair(one.key, value), one.source, self.rows(one.source, one.target))

    def version(self, label: str, key: str) -> str:
        """The version of what a transaction wrote at a key."""
        return str(self.versioned.version(key, label) if self.versioned else None)

    def by_versions(self, one: Link) -> str:
        """What versions say of two writes of a key."""
        writes = [(label, self.history.find(label).written(one.key)) for label in (one.source, one.target)]
        return ", ".join("%s has version %s" % (self.pair(one.key, write.value if write else ""), self.version(label, one.key))
                         for label, write in writes)

    def of_version(self, one: Link) -> Pair:
        return "version %s, then %s" % (self.version(one.source, one.key), self.version(one.target, one.key)), (
            "%s wrote %s before %s did: %s. %s." % (one.source, self.key(one.key), one.target, self.by_versions(one),
                                                   self.rows(one.source, one.target)))

    def of_walk(self, steps: List[Link]) -> Pair:
        first, last = steps[0].source, steps[-1].target
        reads = sum(one.kind == "reads" for one in steps)
        return "%d steps" % len(steps), "%s comes before %s by %d steps, %d of them reads; all are listed below. %s." % (
            first, last, len(steps), reads, self.rows(first, last))

    def _newer(self, one: Link) -> str:
        write = self.history.find(one.source).written(one.key)
        return self.pair(one.key, write.value if write else "")

    def of_contradicted(self, one: Link) -> Pair:
        """Of the read that a derived link contradicts."""
        value = self.history.value_read(one.target, one.reader, one.key)
        source = "the initial state" if one.target == "init" else one.target
        return self.pair(one.key, value), "%s read %s from %s, though it knew of %s, which wrote %s. %s." % (
            one.reader, self.pair(one.key, value), source, one.source, self._newer(one), self.rows(one.reader, one.source))

    def of_derived(self, one: Link) -> Pair:
        source = "the initial state" if one.target == "init" else one.target
        return "would come first", "%s would have to come before %s: else %s would have read its %s, of which it knew. %s." % (
            one.source, source, one.reader, self._newer(one), self.rows(one.source, one.target, one.reader))

    # What a box of a picture has.

    def parts(self, one: Link) -> Dict[str, str]:
        """What each transaction did in an anomaly with one derived link."""
        return {one.target: "wrote what was read", one.source: "wrote over it", one.reader: "knew that, read the old"}

    def initial(self, keys: Iterable[str]) -> str:
        """What the initial state has at some keys."""
        names = sorted({self.key(key) for key in keys})
        return ", ".join("%s = nil" % name for name in names[:3]) + (" .." if len(names) > 3 else "")

    def operations(self, label: str, keys: Iterable[str]) -> Tuple[List[str], int]:
        """The first operations of a transaction at some keys, and how many others there are."""
        every, wanted = self.history.find(label).operations, set(keys)
        shown = [each for each in every if each.key in wanted][:MOST_OPERATIONS]
        return ["%s %s" % ({"w": "wrote", "r": "read"}[each.does], self.pair(each.key, each.value)) for each in shown], len(every) - len(shown)

    def step(self, one: Link) -> str:
        """A step in a list of all."""
        return "%s %s -> %s%s" % (one.kind, one.source, one.target, " by " + self.key(one.key) if one.key else "")


class ImportedTerms(Terms):
    """The words for a history that was imported: its own keys and values, by the names in the records, and its indices or lines."""

    def __init__(self, history: History, notes: Dict[str, Note], keys: Dict[str, str], values: Dict[str, str]):
        super().__init__(history, notes)
        self.keys, self.values = keys, values

    def key(self, key: str) -> str:
        return shortened(self.keys.get(key, key))

    def value(self, value: str) -> str:
        return shortened(self.values.get(value, said(value)))

    def where(self, label: str, row: int) -> str:
        note = self.notes.get(label, Note())
        return "index " + note.index if note.index else "line " + note.line if note.line else "row %d" % row

    def found(self, label: str) -> str:
        return self.where(label, self.history.find(label).first)

    def rows(self, *labels: str) -> str:
        return "; ".join("%s: %s" % (name, self.found(name)) for name in dict.fromkeys(labels) if name != "init")


def shortened(text: str) -> str:
    return text if len(text) <= MOST_SHOWN else text[:MOST_SHOWN - 2] + ".."
