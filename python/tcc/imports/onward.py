"""Which transactions, and which beginnings of lists, come after others."""
from array import array
from typing import List


class Onward:
    """Which transactions, and which beginnings of lists, come after others: linked lists in arrays."""

    def __init__(self, count: int):
        self.first, self.to, self.next = array("l", [-1]) * count, array("l"), array("l")

    def add(self, before: int, after: int) -> None:
        self.to.append(after)
        self.next.append(self.first[before])
        self.first[before] = len(self.to) - 1

    def node(self, before: int) -> int:
        """One more, which comes after another one, or after none."""
        self.first.append(-1)
        if before >= 0:
            self.add(before, len(self.first) - 1)
        return len(self.first) - 1

    def greatest(self, begun: List[int]) -> List[int]:
        """The greatest of the numbers of those that each comes after; -1 where it comes after none."""
        found, first, to, following = [-1] * len(self.first), self.first, self.to, self.next
        for start in sorted(range(len(begun)), key=begun.__getitem__, reverse=True):
            waiting, number = [start], begun[start]
            while waiting:
                edge = first[waiting.pop()]
                while edge >= 0:
                    if found[to[edge]] < 0:
                        found[to[edge]] = number
                        waiting.append(to[edge])
                    edge = following[edge]
        return found[:len(begun)]
