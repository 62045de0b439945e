"""Random histories, each read of which is of a last write."""
import random
from dataclasses import dataclass, field
from typing import Dict, List, Set, Tuple


@dataclass
class Transaction:
    """A committed transaction: its session and place, and what it reads before it writes."""

    session: str
    place: int
    reads: List[Tuple[str, int]] = field(default_factory=list)  # a key, and the value read
    writes: List[Tuple[str, int]] = field(default_factory=list)


def history_of(dice: random.Random, sessions: int, count: int) -> List[Transaction]:
    """A random history: each session's transactions in order, with values that are read from anywhere."""
    keys = ["k%d" % number for number in range(dice.randrange(1, 4))]
    places: Dict[str, int] = {}
    history = []
    for number in range(count):
        session = "s%03d" % dice.randrange(sessions)
        places[session] = places.get(session, 0) + 1
        writes = [(key, number * 10 + index + 1) for index, key in enumerate(keys) if dice.random() < 0.5]
        history.append(Transaction(session, places[session], writes=writes))
    late = dice.choice((3, 8, count))  # how far back or forth values are read from
    for number, one in enumerate(history):
        near = history[max(0, number - late):number] if dice.random() < 0.97 else history
        for key in keys:
            values = [0] + [value for other in near if other is not one for at, value in other.writes if at == key]
            one.reads += [(key, dice.choice(values)) for _ in range(dice.choice((0, 1, 1, 2)))]
    return history


def late_history(dice: random.Random, sessions: int, count: int) -> List[Transaction]:
    """A random history whose reads are of the last value so far, or of any older one where the session hasn't used the key before. So an
    anomaly is often by a walk of several steps."""
    keys = ["k%d" % number for number in range(dice.randrange(4, 9))]
    places: Dict[str, int] = {}
    values = {key: [0] for key in keys}
    used: Set[Tuple[str, str]] = set()
    history = []
    for number in range(count):
        session = "s%03d" % dice.randrange(sessions)
        places[session] = places.get(session, 0) + 1
        one = Transaction(session, places[session])
        for key in dice.sample(keys, dice.randrange(3)):
            is_late = (session, key) not in used and dice.random() < 0.5
            one.reads.append((key, dice.choice(values[key]) if is_late else values[key][-1]))
        for index, key in enumerate(dice.sample(keys, dice.randrange(3))):
            values[key].append(number * 10 + index + 1)
            one.writes.append((key, values[key][-1]))
        used.update((session, key) for key, _ in one.reads + one.writes)
        history.append(one)
    return history


def small_history(dice: random.Random, most: int = 14) -> List[Transaction]:
    """One of a few sessions, with fewer transactions than this."""
    sessions = dice.randrange(1, 6)
    return history_of(dice, sessions, dice.randrange(1, most))


def text_of(history: List[Transaction]) -> str:
    """The records."""
    lines = []
    for one in history:
        lines.append("%s,begin" % one.session)
        lines += ["%s,r,%s,%d" % (one.session, key, value) for key, value in one.reads]
        lines += ["%s,w,%s,%d" % (one.session, key, value) for key, value in one.writes]
        lines.append("%s,commit" % one.session)
    return "\n".join(lines) + "\n"
