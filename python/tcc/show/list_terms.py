"""What is said of an answer for a history of lists: elements, lists and indices, and nothing of the records that it is judged by.

In a cycle of the records each observer gives way to the reader whose list it represents, and each companion to its transaction. What
a survey contradicts is counted by lists, a transaction's list of a key once: one that lacks an element which its reader had observed, or
whose order contradicts what its reader knew.
"""
from typing import Dict, Iterable, Iterator, List, NamedTuple, Tuple

from tcc.common.kinds import VIOLATIONS
from tcc.common.notes import Note
from tcc.common.rows import History, Operation
from tcc.imports.list_history import APPEND, KINDS, LIST, Fault, Step
from tcc.imports.lists import Lists
from tcc.judging.answers import Link, joined, name_of_reason, session_of
from tcc.judging.contradicted import Contradicted, Survey
from tcc.show.terms import MOST_OPERATIONS, ImportedTerms, Pair, shortened

MISSING, ORDER, DIVERGENT = "element missing", "order against what was known", "orders don't fit together"
INTERMEDIATE = VIOLATIONS["Intermediate"]
MOST_ELEMENTS = 12  # of a list that are shown
ABOUT = {
    INTERMEDIATE: "a list ends with an append of a transaction that appended to it again",
    ORDER: "a list has two elements in an order that contradicts what its reader knew",
    DIVERGENT: "several lists, of one key or of several, whose orders no one order explains",
}


class Shown(NamedTuple):
    """A contradicted list: what is said of it, and the read of the records in which it shows."""

    told: Contradicted
    origin: Contradicted


class ListTerms(ImportedTerms):
    """The words for a history of lists."""

    def __init__(self, lists: Lists, notes: Dict[str, Note], keys: Dict[str, str], values: Dict[str, str]):
        super().__init__(History({}, None), notes, keys, values)
        self.lists = lists
        self.numbers = {lists.label(number): number for number in range(len(lists.transactions))}

    # What things are called.

    def element(self, element: str) -> str:
        return shortened(self.values.get(element, element))

    def list_key(self, register: str) -> str:
        """The list that a register of the records is of."""
        element = self.lists.element_of(register)
        return element[0] if element else register

    def key(self, register: str) -> str:
        key, element = self.lists.element_of(register) or (register, "")
        return "%s in %s" % (self.element(element), super().key(key)) if element else super().key(register)

    def steps(self, label: str) -> List[Step]:
        return self.lists.transactions[self.numbers[label]].steps

    def is_committed(self, label: str) -> bool:
        return self.lists.transactions[self.numbers[label]].committed

    def where(self, label: str, row: int) -> str:
        note = self.notes.get(label, Note())
        return "index " + note.index if note.index else "line %d" % self.lists.transactions[self.numbers[label]].line

    def found(self, label: str) -> str:
        return self.where(label, 0)

    def elements_of(self, label: str, key: str) -> List[str]:
        """The list that a transaction read of a key, the last one where there are several."""
        found = [step.value.split() for step in self.steps(label) if step.does == LIST and step.key == key]
        return found[-1] if found else []

    def text(self, elements: List[str], about: Iterable[str] = ()) -> str:
        """A list; of a long one the part with what it is about, or its end."""
        first, last = 0, len(elements)
        if last > MOST_ELEMENTS:
            marked = [elements.index(one) for one in about if one in elements]
            last = max(marked) + 2 if marked else last
            last = min(last, len(elements))
            first = max(last - MOST_ELEMENTS, 0)
        words = [".."] * (first > 0) + [self.element(one) for one in elements[first:last]] + [".."] * (last < len(elements))
        return "[%s]" % " ".join(words)

    def appended(self, label: str, key: str) -> str:
        """What a transaction appended last to a list."""
        return next((step.value for step in reversed(self.steps(label)) if step.does == APPEND and step.key == key), "?")

    def of_link(self, one: Link) -> str:
        """The element by which a link holds: that of its register, or what the source of a link appended last to the list."""
        element = self.lists.element_of(one.key)
        return element[1] if element else self.appended(one.source, one.key)

    # What the records represent.

    def moved(self, cycle: Iterable[Link]) -> List[Link]:
        """Links of the records as links of the history."""
        found = []
        for one in cycle:
            source, target = self.lists.real(one.source), self.lists.real(one.target)
            if one.kind == "derived" or source != target:
                found.append(Link(one.kind, source, target, one.key, self.lists.real(one.reader) if one.reader else "", tuple(self.moved(one.walk))))
        return found

    def name(self, cycle: List[Link]) -> str:
        """What an anomaly is called."""
        derived = [one for one in cycle if one.kind == "derived"]
        if not derived:
            return "circular reads"
        if len(derived) > 1:
            return DIVERGENT
        one = derived[0]
        if not self.is_missing(one):
            return ORDER
        return INTERMEDIATE if self.is_intermediate(one.reader, self.list_key(one.key), one.source) else name_of_reason(one)

    def head(self, cycle: List[Link]) -> str:
        """The same for a heading, which says too whether an element is missing."""
        derived, name = [one for one in cycle if one.kind == "derived"], self.name(cycle)
        return (MISSING + ", " if len(derived) == 1 and self.is_missing(derived[0]) and name != INTERMEDIATE else "") + name

    def is_missing(self, one: Link) -> bool:
        return one.target == "init"

    def is_intermediate(self, reader: str, key: str, writer: str) -> bool:
        """Whether a list that lacks an element ends with another append of the transaction whose element it lacks."""
        mine = self.elements_of(reader, key)
        return bool(mine) and self.lists.writers.get(key, {}).get(mine[-1]) == self.numbers.get(writer, -1)

    # Sentences.

    def sentence(self, one: Link) -> str:
        key, element = self.list_key(one.key), self.of_link(one)
        place, name = self.where(one.reader, 0), super().key(key)
        mine = self.elements_of(one.reader, key)
        if self.is_missing(one):
            appended = "%s appended %s to %s in %s" % (session_of(one.source), self.element(element), name, one.source)
            read = "%s in %s (%s), which lacks %s" % (self.text(mine), one.reader, place, self.element(element))
            if session_of(one.source) == session_of(one.reader):
                return "%s, and read %s = %s." % (appended, name, read)
            return "%s; %s knew of that, %s, and read %s = %s." % (
                appended, session_of(one.reader), self.known_by(one.walk, one.key), name, read)
        after = self.appended(one.target, key)
        list_text = "%s = %s in %s (%s)" % (name, self.text(mine, [element, after]), one.reader, place)
        if element in mine:
            return "%s has %s of %s before %s of %s, so %s came first." % (
                list_text, self.element(element), one.source, self.element(after), one.target, one.source)
        last = joined(one.walk)[-1]
        return "%s came before %s, which %s; and %s ends with %s of %s, so %s came before that too." % (
            one.source, last.target if last.kind == "session" else last.source, "is in its past", list_text, self.element(after), one.target, one.source)

    def saw(self, one: Link) -> str:
        """What a link by a read says, of the reader."""
        return "saw %s, which %s appended to %s" % (self.element(self.of_link(one)), one.source, super().key(self.list_key(one.key)))

    def known_by(self, walk: Iterable[Link], key: str) -> str:
        every = list(walk)
        steps = joined(every)
        kinds = [each.kind for each in steps]
        if kinds == ["reads"]:
            return "since it %s" % self.saw(steps[0])
        if kinds == ["reads", "session"]:
            return "since in %s it %s" % (steps[0].target, self.saw(steps[0]))
        if kinds == ["session", "reads"]:
            return "since it %s behind that" % self.saw(steps[-1])
        if kinds in (["reads", "reads"], ["reads", "session", "reads"]):
            return "since it %s, whose session %s" % (self.saw(steps[-1]), self.saw(steps[0]))
        return "by a chain of %d steps" % len(every)

    def circle(self, reads: List[Link]) -> str:
        told = ["%s %s (%s)" % (one.target, self.saw(one), self.where(one.target, 0)) for one in reads[:4]]
        more = ", and %d more such reads" % (len(reads) - 4) if len(reads) > 4 else ""
        return "%s%s: so a transaction would have come before itself." % (", ".join(told), more)

    def sentences(self, cycle: List[Link]) -> Iterator[str]:
        derived = [one for one in cycle if one.kind == "derived"]
        if not derived:
            yield self.circle([one for one in cycle if one.kind == "reads"])
        for one in derived[:3]:
            yield self.sentence(one)
        if len(derived) > 3:
            yield "And so on: %d lists in all, which no one order of the appends explains together." % len(derived)
        elif len(derived) > 1:
            yield "No one order of the appends explains these lists together."
        elif derived and not self.is_missing(derived[0]):
            one = derived[0]
            others = [each for each in cycle if each.kind != "derived"]
            if others:
                yield "But %s comes before %s: %s." % (one.target, one.source, self.onward(others))

    def onward(self, links: List[Link]) -> str:
        """Why the first of some links comes before the last."""
        steps = joined(links)
        if len(steps) == 1 and steps[0].kind == "session":
            return "they are of session %s, in this order" % session_of(steps[0].source)
        if len(steps) == 1:
            return "%s %s" % (steps[0].target, self.saw(steps[0]))
        return "by %d steps, of which %s" % (len(links), "; ".join("%s %s" % (each.target, self.saw(each)) for each in steps if each.kind == "reads"))

    # A picture.

    def of_read(self, one: Link) -> Pair:
        element, name = self.element(self.of_link(one)), super().key(self.list_key(one.key))
        return "%s has %s" % (name, element), "%s saw %s in its list of %s, which %s appended, so it comes behind it. %s." % (
            one.target, element, name, one.source, self.rows(one.source, one.target))

    def of_contradicted(self, one: Link) -> Pair:
        key, element = self.list_key(one.key), self.of_link(one)
        name, mine = super().key(key), self.elements_of(one.reader, key)
        if self.is_missing(one):
            return "%s lacks %s" % (name, self.element(element)), "%s's list of %s is %s, and lacks %s, though it knew of %s, which appended that. %s." % (
                one.reader, name, self.text(mine), self.element(element), one.source, self.rows(one.reader, one.source))
        after = self.appended(one.target, key)
        return "%s has %s" % (name, self.element(after)), "%s's list of %s is %s: %s stands there behind what %s appended or knew of. %s." % (
            one.reader, name, self.text(mine, [element, after]), self.element(after), one.source, self.rows(one.reader, one.source, one.target))

    def of_derived(self, one: Link) -> Pair:
        key, element = self.list_key(one.key), self.of_link(one)
        name = super().key(key)
        if self.is_missing(one):
            return "would come first", "%s would have to come before the initial state: else %s's list of %s would have its %s, of which it knew. %s." % (
                one.source, one.reader, name, self.element(element), self.rows(one.source, one.reader))
        after = self.element(self.appended(one.target, key))
        return "%s before %s" % (self.element(element), after), "%s has to come before %s, by the list of %s that %s read. %s." % (
            one.source, one.target, name, one.reader, self.rows(one.source, one.target, one.reader))

    def parts(self, one: Link) -> Dict[str, str]:
        element = self.element(self.of_link(one))
        if self.is_missing(one):
            return {one.source: "appended " + element, one.reader: "knew that, and lacks it"}
        after = self.element(self.appended(one.target, self.list_key(one.key)))
        return {one.target: "appended " + after, one.source: "appended " + element, one.reader: "has %s before %s" % (element, after)}

    def initial(self, keys: Iterable[str]) -> str:
        names = sorted({super(ListTerms, self).key(self.list_key(key)) for key in keys})
        return ", ".join("%s = []" % name for name in names[:3]) + (" .." if len(names) > 3 else "")

    def operations(self, label: str, keys: Iterable[str]) -> Tuple[List[str], int]:
        every, asked = self.steps(label), list(keys)
        wanted = {self.list_key(key) for key in asked}
        about = [one[1] for one in map(self.lists.element_of, asked) if one]
        shown = [one for one in every if one.key in wanted][:MOST_OPERATIONS]
        return [self.operation(one, about) for one in shown], len(every) - len(shown)

    def operation(self, one: Step, about: Iterable[str] = ()) -> str:
        name = super().key(one.key)
        if one.does == APPEND:
            return "appended %s %s" % (name, self.element(one.value))
        if one.does == LIST:
            return "read %s %s" % (name, self.text(one.value.split(), about))
        return "%s %s = %s" % ({"read": "read", "write": "wrote"}[one.does], name, self.value(one.value))

    # What a survey found, and what lists show by themselves.

    def regrouped(self, found: Survey) -> List[Shown]:
        """The contradicted lists: each list of a transaction once, by the first name that fits."""
        shown: Dict[Tuple[str, str], Shown] = {}
        for one in found.contradicted:
            label, key = self.lists.real(one.reader), self.list_key(one.operation.key)
            is_order = one.source != "init"
            number = self.numbers[label]
            step = next((index for index, each in enumerate(self.steps(label)) if each.does == LIST and each.key == key), 0)
            operation = Operation(self.lists.transactions[number].line, step, "r", key, self.text(self.elements_of(label, key)))
            writer = self.lists.real(one.writer)
            name = ORDER if is_order else INTERMEDIATE if self.is_intermediate(label, key, writer) else one.name
            told = Contradicted(label, operation, self.lists.real(one.source), writer, name)
            before = shown.get((label, key))
            if before is None or before.told.name == ORDER and not is_order:
                shown[label, key] = Shown(told, one)
        return sorted(shown.values(), key=lambda each: each.told.operation.row)

    def fault_sentence(self, one: Fault) -> str:
        label, step = self.lists.label(one.number), self.lists.transactions[one.number].steps[one.step]
        what = KINDS[one.kind][1].format(e=self.element(one.element))
        name, where = super().key(step.key), self.where(label, 0)
        if step.does == APPEND:
            return "%s %s to %s (%s)." % (label, what, name, where)
        return "%s's list of %s, %s (%s), %s." % (label, name, self.text(step.value.split(), [one.element]), where, what)


def lists_read(lists: Lists) -> int:
    """How many lists were read, those of a key by one transaction once."""
    return len({(number, step.key) for number, one in enumerate(lists.transactions) if one.outcome == 0
                for step in one.steps if step.does == LIST})
