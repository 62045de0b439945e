"""The operations of a history of Jepsen or Elle, as EDN or JSON has them: what one is, whatever its form."""
import json
import re
from collections import Counter
from dataclasses import dataclass, field
from typing import Any, Callable, Counter as Count, Dict, FrozenSet, Iterator, Optional, Tuple

from tcc.common.rows import Json

TYPES = ("invoke", "ok", "fail", "info")
STEPS = {"read": "r", "read-init": "r", "write": "w", "cas": "cas"}  # what one operation of a register does
DOES = ("r", "w", "append")
REGISTER = "register"
# What else to run in the place of operations that say nothing of causality, or whose values aren't written once.
REGISTERS = "write each value once: a test of registers (jepsen.tests.cycle.wr) says more"
LISTS = "append each element once: a test of lists (jepsen.tests.cycle.append) says more"
INSTEAD = {"transfer": "a bank's balances are written again and again; " + REGISTERS,
           **dict.fromkeys(("add", "remove"), "a set is no register; " + LISTS),
           **dict.fromkeys(("enqueue", "dequeue", "drain"), "a queue is no register; " + LISTS),
           **dict.fromkeys(("inc", "increment", "dec", "decrement"), "a counter has no value of its own for each write; " + REGISTERS)}
# A map of EDN as Jepsen writes it. Its fields are in any order, and the steps of a transaction are [:does key value]. No text can
# be matched in two ways, so that none takes more than one pass.
ATOM = r'[^\s,;"(){}\[\]\\#^]+'
FLAT = r'\[[^\t-\r\x1c-\x1f\x85;"(){}\[\]\\#^]*\]'  # words in a line, between brackets
VALUE = r"(?:%s|%s)" % (ATOM, FLAT)
NUMBER = r"0|[1-9][0-9]{0,18}"


def once(group: int, field: str) -> str:
    """A field that a map has at most once: where its group was matched before, nothing is."""
    return r"(?(%d)(?!)|%s)" % (group, field)


OTHER = r":(?!(?:type|process|f|value|index|time|node)[ ,])%s([A-Za-z0-9_.*+!?<>=/-]+) (?:" + ATOM + r'|"[^"\\]*")'
USUAL = re.compile(r"(?:#jepsen\.history\.Op ?)?\{(?:(?:%s)(?=[ ,}])[ ,]*)+\}" % "|".join((
    once(1, r":type :(invoke|ok|fail|info)"), once(2, r":process (%s)" % NUMBER), once(3, r":f :(%s)" % ATOM),
    once(4, r":value (nil|\[(?:\[:(?:r|w|append) %s %s\][ ,]*)*\])" % (ATOM, VALUE)), once(5, r":index (%s)" % NUMBER),
    once(6, r":time (%s)" % NUMBER), once(7, r':node (nil|"[^"\\]*"|:[A-Za-z0-9_.-]+)'),
    once(8, OTHER % ""), once(9, r"(?(8)%s|(?!))" % (OTHER % r"(?!\8 )")))))
# A step of its transaction: what it does, its key, and its value as digits, the items of a list, or another word.
STEP = re.compile(r"\[:(r|w|append) (%s) (?:([1-9][0-9]{0,18})|\[([^\[\]]*)\]|(%s))\]" % (ATOM, ATOM))


class Untold(Exception):
    """A line that can't be written as records, and why."""

    def __init__(self, line: int, why: str):
        super().__init__("line %d: %s" % (line, why))


@dataclass(frozen=True)
class Step:
    """A read, a write or an append of a transaction; key and value are spelled as JSON."""

    does: str
    key: str
    value: str


def written(told: Tuple[Step, ...]) -> Tuple[Step, ...]:
    return tuple(one for one in told if one.does != "r")


def without_cas(told: Tuple[Step, ...], has_failed: bool) -> Tuple[Step, ...]:
    """The steps with a compare-and-set as its read and its write, and without it where it failed: then it did neither."""
    found = []
    for one in told:
        if one.does != "cas":
            found.append(one)
        elif not has_failed:
            old, new = json.loads(one.value)
            found += [Step("r", one.key, spelled(old)), Step("w", one.key, spelled(new))]
    return tuple(found)


@dataclass(frozen=True)
class Operation:
    """A line about a transaction; its process is spelled as JSON, and without steps it had the value null."""

    line: int
    type: str
    process: str
    steps: Optional[Tuple[Step, ...]]
    index: Optional[int] = None
    time: Optional[int] = None
    node: Optional[str] = None
    is_keyed: Optional[bool] = None  # of one of a register, whether its value is a pair of an independent key and its own


@dataclass
class Chosen:
    """Which operations of clients count, by what they do (`f`): some by another name, and some are left out."""

    renamed: Dict[str, str] = field(default_factory=dict)
    only: FrozenSet[str] = frozenset()  # all where there is none
    skipped: FrozenSet[str] = frozenset()
    left_out: "Count[str]" = field(default_factory=Counter)
    has_initial_read: bool = False

    def leaves_out(self, does: Any, kind: Any) -> bool:
        """Whether a client's operation is left out, which is counted where it ends."""
        name = does if isinstance(does, str) else spelled(does)
        is_left_out = name in self.skipped or bool(self.only) and name not in self.only
        if is_left_out:
            self.left_out[name] += kind != "invoke"
        return is_left_out

    def said(self) -> Iterator[str]:
        """What was left out."""
        for does, times in sorted(self.left_out.items()):
            yield "left out, as --%s says: %d of %s" % ("skip" if does in self.skipped else "only", times, does)


def spelled(value: Any) -> str:
    """One spelling for each value of JSON; so 1, true, 1.0 and "1" differ."""
    return json.dumps(value, sort_keys=True)


def is_number(value: Any) -> bool:
    return isinstance(value, int) and not isinstance(value, bool)


def is_pair(value: Any, is_second: Callable[[Any], Any]) -> bool:
    """Whether a value is that of an independent key: the key, which is no list, and what is so."""
    return isinstance(value, list) and len(value) == 2 and not isinstance(value[0], list) and is_second(value[1])


def steps(line: int, value: Any) -> Optional[Tuple[Step, ...]]:
    """The reads and writes that the value of a line lists, none where it is null."""
    if value is None:
        return None
    if is_pair(value, lambda inner: inner is None or isinstance(inner, list)):
        apart, inner = value
        return None if inner is None else tuple(step(line, one, lambda key: [apart, key]) for one in inner)
    if not isinstance(value, list):
        raise Untold(line, "the value is no list of reads and writes")
    return tuple(step(line, one, lambda key: key) for one in value)


def step(line: int, value: Any, named: Callable[[Any], Any]) -> Step:
    if not isinstance(value, list) or len(value) != 3:
        raise Untold(line, "%s is no [does, key, value]" % spelled(value))
    does, key, what = value
    if does not in DOES:
        raise Untold(line, "%s is neither a read (\"r\") nor a write (\"w\") of a register, nor an \"append\" to a list" % spelled(does))
    return Step(does, spelled(named(key)), spelled(what))


def is_of_steps(value: Any) -> bool:
    """Whether a value lists reads and writes, as those of a transaction do."""
    return isinstance(value, list) and bool(value) and all(
        isinstance(one, list) and len(one) == 3 and isinstance(one[0], str) and one[0] in DOES for one in value)


def one_step(line: int, does: str, value: Any, has_version: bool) -> Tuple[bool, Tuple[Step, ...]]:
    """What an operation on one register does, and whether its value has the key too. Where values have versions, a pair of two words is
    one of these; and what a compare-and-set has is a pair already."""
    def is_value(inner: Any) -> bool:
        return inner is None or isinstance(inner, list) if has_version or does == "cas" else True
    is_keyed = is_pair(value, is_value)
    key, what = value if is_keyed else (REGISTER, value)
    if does == "cas" and not (isinstance(what, list) and len(what) == 2):
        raise Untold(line, "the value of a cas is %s, and no [old new]" % spelled(what))
    if does == "cas" and has_version:
        raise Untold(line, "a cas, which has no versions: --skip cas leaves it out")
    return is_keyed, (Step(does, spelled(key), spelled(what)),)


def refused(line: int, does: Any) -> Untold:
    """Why an operation of a client that does something else can't be read."""
    why = INSTEAD.get(does) if isinstance(does, str) else None
    known = ", ".join(["txn", *STEPS])
    return Untold(line, "f is %s%s. Of clients' operations these are read: %s%s" % (
        spelled(does), ": " + why if why else "", known, "; say --skip %s to leave it out, or --rename %s=read where it is one of them" % (does, does)
        if isinstance(does, str) else ""))


def operation(line: int, told: Json, has_version: bool = False, chosen: Optional[Chosen] = None) -> Optional[Operation]:
    """The operation that an object tells, none where it isn't about a transaction."""
    chosen = chosen or Chosen()
    process = told.get("process")
    does = told.get("f", "txn" if is_number(process) else None)
    does = chosen.renamed.get(does, does) if isinstance(does, str) else does
    if does not in ("txn", *STEPS):
        if is_number(process):
            raise refused(line, does)
        return None
    if not is_number(process) and not isinstance(process, str):
        raise Untold(line, "the process is %s, neither a number nor a text" % spelled(process))
    if told.get("type") not in TYPES:
        raise Untold(line, "the type is %s, none of %s" % (spelled(told.get("type")), ", ".join(TYPES)))
    value, is_keyed = told.get("value"), None
    if does == "txn" or does in ("read", "write") and (is_of_steps(value) or is_pair(value, is_of_steps)):
        mine = steps(line, value)
    elif value is None and (STEPS[does] != "r" or told["type"] in ("fail", "info")):
        mine = None if STEPS[does] != "r" else (Step("r", spelled(REGISTER), "null"),)
    else:
        is_pair_of_key, mine = one_step(line, STEPS[does], value, has_version)
        is_keyed = None if has_version else is_pair_of_key  # with versions each pair has one meaning
    chosen.has_initial_read |= does == "read-init"
    index, time, node = told.get("index"), told.get("time"), told.get("node")
    return Operation(line, told["type"], spelled(process), mine, index if isinstance(index, int) else None,
                     time if is_number(time) else None, node if isinstance(node, str) else None, is_keyed)
