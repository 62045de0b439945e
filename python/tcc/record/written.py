"""Which values were written at which keys, so that none is written twice."""
from array import array
from typing import Dict, Set, Tuple

from tcc.common.rows import GREATEST_VALUE

# A value that a recorder gives is a counter and the number of the recorder, which is less than this.
RECORDERS = 4096
# Above it a counter isn't taken over from what was written, so that there are always values left.
GREATEST_COUNT = GREATEST_VALUE // RECORDERS // 2
# So far below the last counter in the table a new one may lie.
MOST_AHEAD = 65536


class Written:
    """The values of one recorder, and those that others gave it.

    A value that it gave takes four bytes: the number of the key where it was first written. Others are held in a set.
    """

    def __init__(self, number: int):
        self.number, self.count = number, 0
        self._keys: Dict[str, int] = {}
        self._first = array("I")
        self._others: Set[Tuple[int, int]] = set()

    def new_value(self) -> int:
        """A value that was never given or written before."""
        self.count += 1
        return self.count * RECORDERS + self.number

    def has(self, key: str, value: int) -> bool:
        """Whether the value was written at the key."""
        at = self._keys.get(key)
        return at is not None and (self._first_key(value) == at or (at, value) in self._others)

    def add(self, key: str, value: int) -> None:
        """Takes note of a write."""
        at = self._keys.setdefault(key, len(self._keys) + 1)
        count = self._count_of(value)
        self.count = max(self.count, count if count <= GREATEST_COUNT else 0)
        if count and len(self._first) <= count < len(self._first) + MOST_AHEAD:
            self._first.extend([0] * (count + 1 - len(self._first)))
        if count and count < len(self._first) and not self._first[count]:
            self._first[count] = at
        else:
            self._others.add((at, value))

    def _count_of(self, value: int) -> int:
        """The counter of a value of this recorder; 0 of another's."""
        return value // RECORDERS if value % RECORDERS == self.number else 0

    def _first_key(self, value: int) -> int:
        """The number of the key where a value of this recorder was first written; 0 if none is known."""
        count = self._count_of(value)
        return self._first[count] if 0 < count < len(self._first) else 0
