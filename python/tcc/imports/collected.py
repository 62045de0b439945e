"""The transactions of a history of Jepsen or Elle, collected while its operations are read, each once: as texts of records without
the session.

So of a million transactions there is some hundred megabytes. A key or value that can't be in a record has a mark until all names are
known.
"""
import json
import re
from array import array
from collections import Counter
from dataclasses import dataclass, field
from typing import Any, Counter as Count, Dict, List, NamedTuple, Optional, Sequence, Set, Tuple, Union, cast

from tcc.common.rows import GREATEST_VALUE, Json
from tcc.imports.checks import Checks
from tcc.imports.edn import NoEdn, Reader, Word, atom
from tcc.imports.list_history import APPEND, FAIL, INFO, LIST, OK, READ, WRITE as WRITES, Step as ListStep
from tcc.imports.names import Names, plain_cell, plain_name, plain_session
from tcc.imports.operations import (
    STEP, TYPES, Chosen, Operation, Step, Untold, is_number, spelled, steps, without_cas, written)

OUTCOMES = {"ok": OK, "fail": FAIL, "info": INFO}
KINDS = {"r": READ, "w": WRITES, "append": APPEND}
DIGITS = re.compile(r"[1-9][0-9]{0,18}")
# The steps of a transaction as they came: the text of a usual map of EDN, a usual list of JSON, or steps; none where it had none.
Raw = Union[None, str, list, Tuple[Step, ...]]
# What STEP finds of one: what it does, its key, digits, the items of a list, and another word.
Found = Tuple[str, str, str, str, str]


class Waiting(NamedTuple):
    """An invoke that nothing followed so far."""

    line: int
    raw: Raw
    index_told: Optional[int]


@dataclass(frozen=True)
class Nemesis:
    """A line that isn't about a transaction: when, by whom, and what."""

    line: int
    index: Optional[int]
    time: Optional[int]
    type: str
    does: str
    value: str


@dataclass
class Collected:
    """The transactions of a history that were read so far, in the order in which they ended."""

    initial: Set[str]  # the values, spelled as JSON, that a key has before it is written
    sessions: Names = field(default_factory=lambda: Names("process", "!"))
    keys: Names = field(default_factory=lambda: Names("key", "#"))
    values: Names = field(default_factory=lambda: Names("value", "*"))
    texts: List[str] = field(default_factory=list)
    outcomes: bytearray = field(default_factory=bytearray)
    session_of: "array[int]" = field(default_factory=lambda: array("l"))
    lines: "array[int]" = field(default_factory=lambda: array("q"))
    indexes: List[Optional[int]] = field(default_factory=list)
    times: List[Optional[int]] = field(default_factory=list)
    nodes: Dict[int, str] = field(default_factory=dict)
    nemesis: List[Nemesis] = field(default_factory=list)
    passed_over: "Count[str]" = field(default_factory=Counter)
    left_out: int = 0
    longest: int = 0
    chosen: Chosen = field(default_factory=Chosen)
    checks: Checks = field(default_factory=Checks)
    has_versions: bool = False  # a value is a pair of a version and what was written
    told_versions: List[Tuple[int, str, str, int]] = field(default_factory=list)  # line, key, value and version
    begun: "array[int]" = field(default_factory=lambda: array("q"))  # the line of the invoke, or of the end where there is none
    listed: Dict[int, List[ListStep]] = field(default_factory=dict)  # the steps of transactions that append to lists or read them
    wrong_write: Optional[Untold] = None
    has_appends: bool = False
    _waiting: Dict[str, Waiting] = field(default_factory=dict)
    _unknown: Dict[str, int] = field(default_factory=dict)
    _words: Dict[str, str] = field(default_factory=dict)  # the names of keys by their words of EDN
    _texts: Dict[str, str] = field(default_factory=dict)  # and of those that are texts
    _whole: Dict[int, str] = field(default_factory=dict)  # and of those that are whole numbers
    _numbers: Dict[str, int] = field(default_factory=dict)
    _grown: Dict[str, str] = field(default_factory=dict)  # of each key a longest list that was read, of which others are beginnings
    _has_list: bool = False

    def __post_init__(self) -> None:
        self.numbers_are_initial = any(DIGITS.fullmatch(one) for one in self.initial)

    # What comes, in each form.

    def usual(self, line: int, found: "re.Match[str]") -> bool:
        """Takes an operation that is a usual map of EDN; whether it could."""
        kind, process, does, value, index, time, node, _, _ = found.groups()
        if kind is None or process is None or self.numbers_are_initial:
            return False
        if self.chosen.leaves_out(does or "txn", kind):
            return True
        if self.chosen.renamed.get(does, does) not in (None, "txn"):
            return False
        raw = None if value is None or value == "nil" else value
        try:
            self._take(line, kind, process, raw, int(index) if index else None, int(time) if time else None,
                       node.strip('":') if node and node != "nil" else None)
        except NoEdn as error:
            raise Untold(line, "no EDN: %s" % error) from error
        return True

    def usual_object(self, line: int, told: Json) -> bool:
        """Takes an operation that is a usual object of JSON; whether it could."""
        process, value, index, time = told.get("process"), told.get("value"), told.get("index"), told.get("time")
        kind, does = told.get("type"), told.get("f", "txn")
        if type(process) is not int or not isinstance(kind, str) or kind not in TYPES:
            return False
        if self.chosen.leaves_out(does, kind):
            return True
        if not isinstance(does, str) or self.chosen.renamed.get(does, does) != "txn":
            return False
        if value is not None:
            if type(value) is not list:
                return False
            for one in value:
                if type(one) is not list or len(one) != 3:
                    return False
                does, key, what = one
                if does != "r" and does != "w" and does != "append" or not isinstance(key, str) and type(key) is not int:
                    return False
                if what is not None and type(what) is not int and type(what) is not list and not isinstance(what, str):
                    return False
        self._take(line, kind, str(process), value, index if isinstance(index, int) else None, time if is_number(time) else None,
                   told.get("node") if isinstance(told.get("node"), str) else None)
        return True

    def unusual(self, one: Operation) -> None:
        if self.chosen.has_initial_read:
            self.initial.add(spelled(0))
        if one.is_keyed is not None:
            self.checks.keyed(one.line, one.is_keyed)
        self._take(one.line, one.type, one.process, one.steps, one.index, one.time, one.node)

    def _take(self, line: int, kind: str, process: str, raw: Raw, index: Optional[int], time: Optional[int],
              node: Optional[str]) -> None:
        if index is not None:
            self.checks.index(line, index)
        if process in self._unknown:
            raise Untold(line, "process %s goes on after line %d, whose outcome is unknown: what it does from there on "
                         "needs a process of its own" % (process, self._unknown[process]))
        if not self.has_appends and raw is not None:
            self.has_appends = appends(raw)
        if kind == "invoke":
            if process in self._waiting:
                raise Untold(line, "process %s hasn't ended what it began in line %d" % (process, self._waiting[process].line))
            self._waiting[process] = Waiting(line, raw, index)
            self.passed_over["invoke"] += 1
            return
        self._end(line, OUTCOMES[kind], process, raw, index, self._waiting.pop(process, None), time, node)
        if kind == "info":
            self._unknown[process] = line

    def _end(self, line: int, outcome: int, process: str, raw: Raw, index: Optional[int], invoked: Optional[Waiting],
             time: Optional[int], node: Optional[str]) -> None:
        """Takes a transaction, by the line that says how it went and by its invoke."""
        if outcome != OK:
            raw = invoked.raw if invoked and invoked.raw is not None else raw
        if raw is None:
            raise Untold(line, "an ok without a value" if outcome == OK else "neither it nor its invoke says what it would write")
        told = STEP.findall(raw) if type(raw) is str else []
        if outcome == OK and invoked and invoked.raw is not None and not same_writes(line, raw, told, invoked, self.has_versions):
            raise Untold(line, "its writes aren't those of its invoke in line %d" % invoked.line)
        if type(raw) is tuple:
            raw = without_cas(raw, outcome == FAIL)
        parts: List[str] = []
        if self.has_appends and self.has_versions:
            raise Untold(line, "an append to a list, which has no versions: its order is told by what is read")
        if not self.has_appends:
            self._has_list = False
            parts = self._parts_of_text(line, told, outcome == OK) if type(raw) is str else self._parts(line, raw, outcome == OK)
        if self.has_appends or self._has_list:
            self.listed[len(self.texts)] = (self._steps_of_text(line, told, outcome == OK) if type(raw) is str else
                                            self._steps(line, cast(Sequence[Any], raw), outcome == OK))
        if len(parts) > self.longest:
            self.longest = len(parts)
        self.begun.append(invoked.line if invoked else line)
        if node is not None:
            self.nodes[len(self.texts)] = plain_cell(node)
        self.texts.append("\n".join(parts))
        self.outcomes.append(outcome)
        self.lines.append(line)
        self.indexes.append(index)
        self.times.append(time)
        number = self._numbers.get(process)
        if number is None:
            number = self._numbers[process] = len(self._numbers)
            self.sessions.name(process, plain_session(json.loads(process)), line)
        self.session_of.append(number)

    # What a transaction did, as records without its session.

    def _parts(self, line: int, raw: Raw, with_reads: bool) -> List[str]:
        parts: List[str] = []
        every: Sequence[Any] = raw or ()
        texts, whole = self._texts, self._whole
        for one in every:
            does, key, what = one if type(one) is list else (one.does, json.loads(one.key), json.loads(one.value))
            if does == "r" and not with_reads:
                self.left_out += 1
                continue
            name = (texts.get(key) if isinstance(key, str) else whole.get(key) if type(key) is int else None) or self._key(line, key)
            if type(what) is list and self.has_versions:
                value = self._versioned(line, does, name, what)
                if value is not None:
                    parts.append("%s,%s,%s" % ("r" if does == "r" else "w", name, value))
                continue
            if does == "r" and type(what) is list:
                self._has_list = True
            is_plain = type(what) is int and 0 < what <= GREATEST_VALUE and not self.numbers_are_initial
            value = str(what) if is_plain else self._value(line, does, name, what)
            if value is not None:
                parts.append("%s,%s,%s" % ("r" if does == "r" else "w", name, value))
        return parts

    def _parts_of_text(self, line: int, told: List[Found], with_reads: bool) -> List[str]:
        parts: List[str] = []
        words, put = self._words, parts.append
        for does, key, digits, items, other in told:
            if self.has_versions and not digits and not other and (does != "r" or with_reads):
                name = words.get(key) or self._word(line, key)
                value = self._versioned(line, does, name, [atom(one) for one in items.replace(",", " ").split()])
                if value is not None:
                    put("%s,%s,%s" % ("r" if does == "r" else "w", name, value))
                continue
            if does == "r":
                if not with_reads:
                    self.left_out += 1
                    continue
                name = words.get(key) or self._word(line, key)
                if not digits and not other:
                    self._has_list = True
                value = digits or ("0" if other == "nil" else self._value(line, does, name, atom(other)) if other
                                   else self._list(line, does, name, items))
                if value is not None:
                    put("r,%s,%s" % (name, value))
            else:
                name = words.get(key) or self._word(line, key)
                value = digits or (self._value(line, does, name, atom(other)) if other else self._list(line, does, name, items))
                put("w,%s,%s" % (name, value))
        return parts

    def _word(self, line: int, key: str) -> str:
        """The name of a key that is a word of EDN."""
        told = atom(key)
        if isinstance(told, Word):
            self.checks.text(line, told, True)
        name = self._words[key] = self._key(line, told)
        return name

    def _key(self, line: int, key: Any) -> str:
        name = self.keys.name(spelled(key), plain_name(key), line)
        if isinstance(key, str):
            self._texts[key] = name
        elif type(key) is int:
            self._whole[key] = name
        return name

    def _list(self, line: int, does: str, name: str, items: str) -> Optional[str]:
        """The value of a list of EDN, whose items these are."""
        return self._value(line, does, name, [atom(one) for one in items.replace(",", " ").split()])

    def _versioned(self, line: int, does: str, name: str, pair: List[Any]) -> Optional[str]:
        """The value of a pair of a version and a value, whose version is kept; an invoke has none yet."""
        if len(pair) != 2 or not (pair[0] is None or is_number(pair[0])):
            raise Untold(line, "%s is no [version value], which --versions asks for" % spelled(pair))
        version, what = pair
        value = self._value(line, does, name, what)
        if value not in (None, "0") and version is not None and version > 0:
            self.told_versions.append((line, name, str(value), version))
        return value

    def _steps(self, line: int, raw: Sequence[Any], with_reads: bool) -> List[ListStep]:
        """What a transaction of lists did; what it only wanted to read isn't counted twice."""
        found: List[ListStep] = []
        for one in raw:
            does, key, what = one if type(one) is list else (one.does, json.loads(one.key), json.loads(one.value))
            if does == "r" and not with_reads:
                self.left_out += self.has_appends
                continue
            name = self._key(line, key)
            if does == "r" and type(what) is list:
                found.append(ListStep(LIST, name, "".join(" " + str(self._value(line, "r", name, each)) for each in what)))
            else:
                found.append(ListStep(KINDS[does], name, str(self._value(line, does, name, what))))
        return found

    def _steps_of_text(self, line: int, told: List[Found], with_reads: bool) -> List[ListStep]:
        """The same of a text."""
        found: List[ListStep] = []
        words, put = self._words, found.append
        for does, key, digits, items, other in told:
            if does == "r" and not with_reads:
                self.left_out += self.has_appends
                continue
            name = words.get(key) or self._word(line, key)
            if does == "r" and not digits and not other:
                put(ListStep(LIST, name, self._elements(line, name, items)))
            else:
                put(ListStep(KINDS[does], name, digits or str(self._value(
                    line, does, name, atom(other) if other else [atom(each) for each in items.replace(",", " ").split()]))))
        return found

    def _elements(self, line: int, name: str, items: str) -> str:
        """The elements of a list of EDN, each after a space. Most lists are the beginning of one that was read before, or go on after it."""
        grown, length = self._grown.get(name, ""), len(items) + 1
        if items and grown.startswith(items, 1) and grown[length:length + 1] in ("", " "):
            return grown[:length]
        goes_on = len(grown) > 1 and items.startswith(grown[1:]) and items[len(grown) - 1] == " "
        words = (items[len(grown):] if goes_on else items).replace(",", " ").split()
        if not words and not goes_on:
            return ""
        text = (grown if goes_on else "") + self._texts_of(line, name, words)
        if len(text) > len(grown) and text[1:] == items:
            self._grown[name] = text
        return text

    def _texts_of(self, line: int, name: str, words: List[str]) -> str:
        """Elements of EDN, each after a space."""
        joined, text = "".join(words), "".join([" " + one for one in words])
        if joined.isdigit() and joined.isascii() and " 0" not in text and max(map(len, words)) < 20 and not self.numbers_are_initial:
            return text
        return "".join(" " + str(self._value(line, "r", name, atom(one))) for one in words)

    def _value(self, line: int, does: str, name: str, what: Any) -> Optional[str]:
        """The value of a step as a record has it."""
        if isinstance(what, Word):
            self.checks.text(line, what, False)
        thing = spelled(what)
        if thing in self.initial:
            if does != "r" and self.wrong_write is None:
                self.wrong_write = Untold(line, "a write of %s, which is the initial value" % thing)
            return "0"
        if is_number(what) and 1 <= what <= GREATEST_VALUE:
            return str(what)
        if isinstance(what, (list, dict)):
            self.checks.composite(line, does == "r", name, thing)
        return self.values.name(thing, None, line)


def appends(raw: Raw) -> bool:
    """Whether a transaction appends to a list."""
    if isinstance(raw, str):
        return ":append " in raw
    every: Sequence[Any] = raw or ()
    return any((one[0] if type(one) is list else one.does) == "append" for one in every)


def steps_of(line: int, raw: Raw) -> Tuple[Step, ...]:
    """The steps of a transaction, in whatever form they came."""
    told = Reader(iter([raw])).value_of_all() if isinstance(raw, str) else raw
    if isinstance(told, list):
        return steps(line, told) or ()
    return told or ()


def plain_steps(told: Tuple[Step, ...]) -> Tuple[Step, ...]:
    """The steps without versions."""
    found = []
    for one in told:
        pair = json.loads(one.value)
        found.append(Step(one.does, one.key, spelled(pair[1])) if isinstance(pair, list) and len(pair) == 2 else one)
    return tuple(found)


def same_writes(line: int, raw: Raw, told: List[Found], invoked: Waiting, has_versions: bool) -> bool:
    """Whether a transaction, of whose text this was found, writes what its invoke said."""
    if has_versions:
        return written(plain_steps(steps_of(line, raw))) == written(plain_steps(steps_of(invoked.line, invoked.raw)))
    if type(invoked.raw) is str and told and [one for one in told if one[0] != "r"] == [one for one in STEP.findall(invoked.raw) if one[0] != "r"]:
        return True
    if isinstance(raw, list) and isinstance(invoked.raw, list):
        mine, its = ([one for one in each if one[0] != "r"] for each in (raw, invoked.raw))
        if mine == its and not any(type(one[2]) is list for one in mine):
            return True
    return written(steps_of(line, raw)) == written(steps_of(invoked.line, invoked.raw))
