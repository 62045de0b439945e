"""A part of a list that still fails, and of which nothing can be left out: delta debugging (Zeller and Hildebrandt, `ddmin`).

Halves of the list are left out where the rest still fails, then quarters, and so on down to single items, which are tried until none
can go. Of N items of which K are left that takes N*log N + K*K tests at most, and K*log N where few matter.
"""
from typing import Callable, List, TypeVar

Item = TypeVar("Item")
Fails = Callable[[List[Item]], bool]


def minimal(items: List[Item], fails: "Fails[Item]") -> List[Item]:
    """A part of the items, in their order, that fails, while none of it can be left out by itself. All of them together have to fail."""
    size = len(items)
    while size:
        before = len(items)
        items = without_parts(items, size, fails)
        if size > 1:
            size //= 2
        elif len(items) == before:
            break
    return items


def without_parts(items: List[Item], size: int, fails: "Fails[Item]") -> List[Item]:
    """The items without those of their parts of this size that can be left out, one after the other."""
    begin = 0
    while begin < len(items):
        rest = items[:begin] + items[begin + size:]
        if fails(rest):
            items = rest
        else:
            begin += size
    return items
