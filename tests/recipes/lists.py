"""Random histories of lists beside a slow checker of the definition, which uses nothing of `tcc.lists`. That goes by all orders
where a history is small, else by what the definition comes to (no fault, each list has what the past appended, and neighbours fit
into one order)."""
import itertools
import os
import pathlib
import random
import subprocess
import sys
from collections import defaultdict
from dataclasses import dataclass
from typing import Dict, Iterator, List, Optional, Set, Tuple

TOP = pathlib.Path(__file__).resolve().parent.parent.parent
sys.path.insert(0, str(TOP / "tests"))
sys.path.insert(0, str(TOP / "python"))
from counted import Outcome  # noqa: E402

SECONDS = 1800
MOST_ORDERED = 7  # transactions of which all orders are tried


@dataclass
class Txn:
    """A transaction: its session, when it was invoked and ended, how, and its steps: ("append", key, element) or ("r", key, list)."""

    session: int
    begun: int
    ended: int
    outcome: str
    steps: list


def lawful(pick: random.Random, count: int, sessions: int, keys: int) -> List[Txn]:
    """A history of a store that keeps the promise: each transaction sees a set that is closed under what those in it saw."""
    found: List[Txn] = []
    sees: List[Set[int]] = []
    last: Dict[int, int] = {}
    free = {one: 0 for one in range(sessions)}
    at, elements = 0, itertools.count(1)
    for number in range(count):
        session = pick.randrange(sessions)
        mine: Set[int] = set()
        if session in last:
            mine |= sees[last[session]] | {last[session]}
        for _ in range(pick.randrange(3)):
            if number:
                other = pick.randrange(number)
                if found[other].outcome != "fail":
                    mine |= sees[other] | {other}
        steps, own = [], defaultdict(list)
        for _ in range(pick.randrange(1, 5)):
            key = "k%d" % pick.randrange(keys)
            if pick.random() < 0.5:
                own[key].append(str(next(elements)))
                steps.append(("append", key, own[key][-1]))
            else:
                seen = [step[2] for one in sorted(mine) for step in found[one].steps if step[0] == "append" and step[1] == key]
                steps.append(("r", key, seen + own[key]))
        outcome = pick.choice(["ok"] * 9 + ["fail", "info"])
        at += pick.randrange(1, 3)
        begun = max(free[session], at - pick.randrange(6))
        free[session] = at = at + 1
        found.append(Txn(session, begun, at, outcome, steps))
        sees.append(mine)
        if outcome == "ok":
            last[session] = number
        elif outcome == "info":
            last.pop(session, None)
            free.pop(session)
            free[max([*free, session, *(one.session for one in found)]) + 1] = at
            free.setdefault(session, at)
            found[-1].session = max(one.session for one in found) + 1 if any(one.session == session for one in found[:-1]) else session
    return found


def broken(pick: random.Random, history: List[Txn]) -> None:
    """Changes a list: an element is missing, or two have changed places, or one of another place is there, or the end is cut off."""
    reads = [(one, index) for one in history for index, step in enumerate(one.steps) if step[0] == "r" and step[2]]
    if not reads:
        return
    for _ in range(pick.randrange(1, 3)):
        one, index = pick.choice(reads)
        _, key, elements = one.steps[index]
        elements = list(elements)
        at, way = pick.randrange(len(elements)) if elements else 0, pick.randrange(7)
        if way == 0 and elements:
            del elements[at]
        elif way == 1 and len(elements) > 1:
            other = pick.randrange(len(elements))
            elements[at], elements[other] = elements[other], elements[at]
        elif way == 2:
            every = [step[2] for each in history for step in each.steps if step[0] == "append" and step[1] == key]
            elements.insert(at, pick.choice(every + ["9999"] if pick.random() < 0.1 else every or ["9999"]))
        elif way == 3:
            elements = elements[:at]
        elif way == 4:  # at every replica after this
            if len(elements) > 1:
                one_of, other = pick.sample(elements, 2)
                for each in history[history.index(one):]:
                    for number, step in enumerate(each.steps):
                        if step[0] == "r" and step[1] == key and one_of in step[2] and other in step[2]:
                            turned = list(step[2])
                            first, second = turned.index(one_of), turned.index(other)
                            turned[first], turned[second] = other, one_of
                            each.steps[number] = ("r", key, turned)
                continue
        elif way == 5 and len(elements) > 1:
            elements = elements[at:] + elements[:at]
        else:
            continue
        one.steps[index] = ("r", key, elements)


class Slow:
    """The definition, by itself."""

    def __init__(self, history: List[Txn]):
        self.history = history
        self.appends: Dict[Tuple[str, str], List[int]] = defaultdict(list)
        for number, one in enumerate(history):
            for step in one.steps:
                if step[0] == "append":
                    self.appends[step[1], step[2]].append(number)
        shown = {(step[1], each) for one in history if one.outcome == "ok" for step in one.steps if step[0] == "r" for each in step[2]}
        self.committed = [one.outcome == "ok" or one.outcome == "info" and any(
            step[0] == "append" and (step[1], step[2]) in shown for step in one.steps) for one in history]
        self.wrong = any(len(numbers) > 1 for numbers in self.appends.values())
        self.reads: List[Tuple[int, str, List[str]]] = []
        pairs: Set[Tuple[int, int]] = set()
        for number, one in enumerate(history):
            own: Dict[str, List[str]] = defaultdict(list)
            for step in one.steps:
                if step[0] == "append":
                    own[step[1]].append(step[2])
                elif one.outcome == "ok":
                    mine, elements = own[step[1]], list(step[2])
                    cut = len(elements) - len(mine)
                    if cut < 0 or elements[cut:] != mine or len(set(elements)) < len(elements):
                        self.wrong = True
                        continue
                    for each in elements[:cut]:
                        writer = self.appends.get((step[1], each), [number])[0]
                        if writer == number or not self.committed[writer]:
                            self.wrong = True
                        else:
                            pairs.add((writer, number))
                    self.reads.append((number, step[1], elements[:cut]))
        for number, one in enumerate(history):
            for other in range(number):
                if history[other].session == one.session and self.committed[number] and self.committed[other]:
                    pairs.add((other, number))
        self.pairs = pairs
        count = len(history)
        self.past: List[Set[int]] = [set() for _ in range(count)]
        before: Dict[int, Set[int]] = defaultdict(set)
        for one_of, other in pairs:
            before[other].add(one_of)
        changed = True
        while changed:
            changed = False
            for number in range(count):
                more = set(before[number])
                for each in before[number]:
                    more |= self.past[each]
                if more != self.past[number]:
                    self.past[number], changed = more, True

    def of_key(self, key: str, order: List[int]) -> List[Tuple[str, int]]:
        return [(step[2], number) for number in order for step in self.history[number].steps if step[0] == "append" and step[1] == key]

    def by_orders(self, is_log: bool) -> bool:
        ids = [number for number, is_so in enumerate(self.committed) if is_so]
        if self.wrong or any(number in self.past[number] for number in ids):
            return False
        for order in itertools.permutations(ids):
            at = {number: place for place, number in enumerate(order)}
            if any(at[one] > at[other] for one, other in self.pairs):
                continue
            lists = {key: self.of_key(key, list(order)) for key in {key for _, key, _ in self.reads}}
            if all([each for each, writer in lists[key] if writer in self.past[number]] == elements
                   and (not is_log or [each for each, _ in lists[key]][:len(elements)] == elements) for number, key, elements in self.reads):
                return True
        return False

    def by_rules(self) -> bool:
        """For the definition without a log."""
        ids = [number for number, is_so in enumerate(self.committed) if is_so]
        if self.wrong or any(number in self.past[number] for number in ids):
            return False
        pairs = set(self.pairs)
        for number, key, elements in self.reads:
            if {each for each, writer in self.of_key(key, ids) if writer in self.past[number]} != set(elements):
                return False
            writers = [self.appends[key, each][0] for each in elements]
            inner = [[step[2] for step in self.history[writer].steps if step[0] == "append" and step[1] == key].index(each)
                     for each, writer in zip(elements, writers)]
            for one, other, first, second in zip(writers, writers[1:], inner, inner[1:]):
                if one != other:
                    pairs.add((one, other))
                elif first > second:
                    return False
            if len([one for one, other in zip(writers, writers[1:]) if one != other]) + 1 > len(set(writers)) and writers:
                return False
        waiting, left = True, set(ids)
        while waiting:
            free = {number for number in left if not any(other == number and one in left for one, other in pairs)}
            left -= free
            waiting = bool(free)
        return not left


def encoded(history: List[Txn], is_log: bool):
    """The history as `tcc.imports.lists` has it, in the order in which the transactions ended."""
    from tcc.imports import list_history
    from tcc.imports.lists import Lists
    outcomes = {"ok": list_history.OK, "fail": list_history.FAIL, "info": list_history.INFO}
    sessions = sorted({one.session for one in history})

    def step_of(does: str, key: str, value) -> list_history.Step:
        if does == "append":
            return list_history.Step(list_history.APPEND, key, value)
        return list_history.Step(list_history.LIST, key, "".join(" " + each for each in value))

    told = [list_history.Transaction(sessions.index(one.session), outcomes[one.outcome], number + 1, one.begun,
                                     [step_of(step[0], step[1], step[2]) for step in one.steps]) for number, one in enumerate(history)]
    return Lists(told, ["p%d" % one for one in sessions], is_log)


def judged(records: str, tcc: List[str]) -> int:
    done = subprocess.run([*tcc, "explain", "--large", "--quiet"], input=records.encode(), capture_output=True, timeout=SECONDS, check=False)
    return done.returncode


def disagreement(history: List[Txn], is_log: bool, is_small: bool, tcc: List[str]) -> Tuple[Optional[str], bool]:
    slow = Slow(history)
    wanted = slow.by_orders(is_log) if is_small else slow.by_rules()
    if is_small and not is_log and slow.by_rules() != wanted:
        return "the two slow checkers differ", wanted
    mine = encoded(history, is_log)
    status = judged("".join(mine.records(True)), tcc)
    if (status == 0) != wanted or status not in (0, 1, 2):
        return "status %d, and the definition says %s" % (status, "consistent" if wanted else "not"), wanted
    again = encoded(history, is_log)
    status = judged("".join(again.records()), tcc)
    if status not in (0, 1) or (status == 0 and not again.faults) != wanted:
        return "status %d without faults, of which there are %d, and the definition says %s" % (status, len(again.faults), wanted), wanted
    return None, wanted


def agreement(tcc: List[str], count: int, seed: int = 0) -> Iterator[Outcome]:
    """Both encodings together say what the definition says, of small histories at both definitions, and of larger ones."""
    for about, is_small, is_log in (("small", True, False), ("small, a log", True, True), ("larger", False, False)):
        wrong, good, bad = None, 0, 0
        for number in range(count):
            pick = random.Random(1000 * seed + number)
            size = pick.randrange(3, MOST_ORDERED) if is_small else pick.randrange(12, 40)
            history = lawful(pick, size, pick.randrange(2, 5), pick.randrange(1, 4))
            if number % 2:
                broken(pick, history)
            said, is_lawful = disagreement(history, is_log, is_small, tcc)
            good, bad = good + is_lawful, bad + (not is_lawful)
            if said:
                wrong = wrong or "seed %d: %s" % (1000 * seed + number, said)
        yield "lists, %s" % about, wrong or (None if min(good, bad) > count // 10 else "only %d lawful, %d not" % (good, bad))


def outcomes(tcc: List[str]) -> Iterator[Outcome]:
    yield from agreement(tcc, 60)


if __name__ == "__main__":
    for name, said in agreement([os.path.abspath(sys.argv[1])], int(sys.argv[2]), int(sys.argv[3]) if len(sys.argv) > 3 else 0):
        print(name, said or "agrees")
