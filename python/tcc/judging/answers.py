"""Answers of `tcc explain --json` as the scripts take them: the links of an anomaly, and its usual name."""
import json
import re
from dataclasses import dataclass
from typing import Any, Dict, Iterable, List, Optional, Tuple

from tcc.common import kinds
from tcc.common.rows import NAME, Json, Transaction, Unfit

LABEL = re.compile(r"init|(%s)/([1-9][0-9]*)" % NAME.pattern)
# The names of kinds of faults, and of shapes, that the field has.
FIELD_NAMES = {**kinds.FIELD_NAMES, "cyclic-causality": "G1c"}


OUT_OF_ORDER = "versions out of order"


@dataclass(frozen=True)
class Link:
    """A link or a step of an anomaly; one that is derived has a reader and a walk."""

    kind: str
    source: str
    target: str
    key: str = ""
    reader: str = ""
    walk: Tuple["Link", ...] = ()

    def against(self) -> "Link":
        """The read that a derived link contradicts."""
        return Link("reads", self.target, self.reader, self.key)

    def moved(self, places: Dict[str, str]) -> "Link":
        """The link between other transactions."""
        def at(name: str) -> str:
            if name in ("", "init"):
                return name
            if name not in places:
                raise Unfit("%s isn't in the table of places: is it that of the slice?" % name)
            return places[name]

        return Link(self.kind, at(self.source), at(self.target), self.key, at(self.reader),
                    tuple(step.moved(places) for step in self.walk))


def label(value: Any) -> str:
    if not isinstance(value, str) or not LABEL.fullmatch(value):
        raise Unfit("%s is no transaction of an answer" % json.dumps(value))
    return value


def key(value: Any) -> str:
    if not isinstance(value, str) or not NAME.fullmatch(value):
        raise Unfit("%s is no key of an answer" % json.dumps(value))
    return value


def link(value: Json) -> Link:
    """A link or step as JSON has it."""
    kind, source, target = value["kind"], label(value["from"]), label(value["to"])
    if kind == "session":
        return Link(kind, source, target)
    if kind in ("reads", "version"):
        return Link(kind, source, target, key(value["key"]))
    if kind == "derived":
        walk = tuple(map(link, value["walk"]))
        if any(step.kind == "derived" for step in walk):
            raise Unfit("a step of %s -> %s is derived, which none is" % (source, target))
        return Link(kind, source, target, key(value["key"]), label(value["reader"]), walk)
    raise Unfit("%s is no kind of link" % json.dumps(kind))


def cycle_of(answer: Json, places: Optional[Dict[str, str]] = None) -> List[Link]:
    """The links of an anomaly; of a slice, with the table of its places, those of the whole history."""
    links = [link(one) for one in answer["cycle"]]
    return [one.moved(places) for one in links] if places else links


def place(name: str) -> Tuple[str, int]:
    """Where a label stands among others: `init`, then by session and place."""
    session, _, number = name.rpartition("/")
    return session, int(number) if session else 0


def session_of(name: str) -> str:
    return name.rpartition("/")[0]


def columns(labels: Iterable[str]) -> Dict[str, List[str]]:
    """The transactions of each session in its order, without `init`."""
    sessions: Dict[str, List[str]] = {}
    for name in sorted(set(labels) - {"init"}, key=place):
        sessions.setdefault(place(name)[0], []).append(name)
    return sessions


def transactions_of(cycle: List[Link]) -> List[str]:
    """The transactions that an anomaly speaks of, `init` first, then by session and place."""
    steps = [step for one in cycle for step in (one, *one.walk)]
    return sorted({name for one in steps for name in (one.source, one.target, one.reader) if name}, key=place)


def anomaly_head(answer: Json) -> str:
    """The first line of an anomaly, as `tcc` prints it."""
    return "anomaly: %d steps, %s" % (answer["steps"], answer["shape"])


def order_head(answer: Json) -> str:
    return "consistent: %d transactions, %d sessions" % (answer["transactions"], answer["sessions"])


def joined(walk: Iterable[Link]) -> List[Link]:
    """The walk with each run of session steps as one."""
    steps: List[Link] = []
    for one in walk:
        if one.kind == "session" and steps and steps[-1].kind == "session":
            steps[-1] = Link("session", steps[-1].source, one.target)
        else:
            steps.append(one)
    return steps


def name_of_reason(one: Link) -> str:
    """What the walk of a derived link is usually called, by which the reader should have seen the source's write."""
    steps = joined(one.walk)
    by = [each.kind for each in steps]
    if len(by) > 2 and by[-1] == "session":  # what was seen last was seen earlier in the reader's session
        by.pop()
    saw_the_key = steps[0].key == one.key
    if by == ["session"]:
        return "read your writes"
    if by == ["reads"]:
        return "fractured read"
    if by == ["reads", "session"] and saw_the_key:
        return "monotonic reads"
    if by == ["session", "reads"]:
        return "monotonic writes"
    if by in (["reads", "reads"], ["reads", "session", "reads"]) and saw_the_key:
        return "writes follow reads"
    return "causal chain"


def usual_name(cycle: List[Link]) -> Optional[str]:
    """The usual name of an anomaly, where it has one."""
    links = [one for one in cycle if one.kind == "derived"]
    if not links:
        return OUT_OF_ORDER if any(one.kind == "version" for one in cycle) else "circular reads"
    if len(links) == 1:
        return name_of_reason(links[0])
    is_divergent = len(links) == 2 and session_of(links[0].reader) != session_of(links[1].reader)
    return "divergent writes" if is_divergent else None


def said(value: str) -> str:
    """A value in a sentence: nil where nothing was ever written."""
    return "nil" if value == "0" else value


def row_of(one: Transaction, does: str, key_read: str, value: str) -> int:
    """The row of the transaction's first operation that is so."""
    return next((each.row for each in one.operations if (each.does, each.key, each.value) == (does, key_read, value)), one.first)


def read_answer(lines: Iterable[str], number: Optional[int] = None) -> Tuple[Json, int]:
    """The answer of that number, from 1, by default the last one, and how many there are."""
    answers = [line for line in lines if line.strip()]
    wanted = len(answers) if number is None else number
    if not 1 <= wanted <= len(answers):
        raise Unfit("there are %d answers" % len(answers))
    try:
        answer = json.loads(answers[wanted - 1])
        kind = answer["answer"]
    except (ValueError, TypeError, KeyError, RecursionError) as error:
        raise Unfit("no answer in JSON: tcc explain --json gives one") from error
    if kind not in ("anomaly", "consistent", "unresolved"):
        raise Unfit("the answer %s has no transactions" % json.dumps(kind))
    return answer, len(answers)
