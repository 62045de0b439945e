"""Which elements a list lacks: of each session the first, and where the elements of the longest list are."""
from bisect import bisect_right
from typing import Callable, Dict, FrozenSet, List, NamedTuple, Optional, Tuple

from tcc.imports.list_history import Writer

NOBODY = -1
BEYOND = 2**62  # where an element stands that isn't in the longest list


class Appended:
    """What a session appended to a list: the elements, whose they are, and where each ends in the longest list."""

    def __init__(self, elements: List[str], numbers: List[int], ends: List[int]):
        self.elements, self.numbers, self.ends = elements, numbers, ends
        self.is_rising = all(one <= other for one, other in zip(ends, ends[1:]))

    def first_beyond(self, length: int) -> int:
        """The first that isn't within so much of the longest list."""
        if self.is_rising:
            return bisect_right(self.ends, length)
        return next((index for index, end in enumerate(self.ends) if end > length), len(self.ends))


class Candidate(NamedTuple):
    """An element that a list may lack: when its append began, the transaction's number, its session, which of these that is, and where
    the session's element before it ends in the longest list."""

    begun: int
    number: int
    session: int
    rank: int
    before: int
    element: str


class Lacking:
    """Of a list the first element of each session that a list lacks. For beginnings of the longest one, its elements are looked through
    from where a beginning ends, and only as long as some of the rest began early enough; what nobody read, by when it began."""

    def __init__(self, by_session: Dict[int, Appended], begun: List[int]):
        self.by_session, self.begun, self.texts = by_session, begun, {}  # type: Dict[int, Appended], List[int], Dict[str, str]
        self.are_rising = all(each.is_rising for each in by_session.values())
        placed: List[Tuple[int, Candidate]] = []
        self.unread: List[Candidate] = []
        for rank, (session, each) in enumerate(by_session.items()):
            before = 0
            for element, number, end in zip(each.elements, each.numbers, each.ends):
                one = Candidate(begun[number], number, session, rank, before, element)
                if end == BEYOND:
                    self.unread.append(one)
                else:
                    placed.append((end, one))
                before = end
        placed.sort()
        self.unread.sort()
        self.ends = [end for end, _ in placed]
        self.placed = [one for _, one in placed]
        self.earliest = [one.begun for one in self.placed]  # of an element and those after it in the longest list
        for index in range(len(placed) - 2, -1, -1):
            self.earliest[index] = min(self.earliest[index], self.earliest[index + 1])

    def text_of(self, element: str, name: str) -> str:
        """The read of an element that lacks, by the name of its register."""
        text = self.texts[element] = "r,%s,0" % name
        return text

    def first_ones(self, length: int, latest: int) -> List[Candidate]:
        """Those that so much of the longest list lacks, and that began by then, in the order of sessions."""
        if not self.are_rising:
            return self._of_each(lambda each: each.first_beyond(length), latest)
        found = []
        for index in range(bisect_right(self.ends, length), len(self.placed)):
            if self.earliest[index] > latest:
                break
            one = self.placed[index]
            if one.before <= length and one.begun <= latest:
                found.append(one)
        for one in self.unread:
            if one.begun > latest:
                break
            if one.before <= length:
                found.append(one)
        if len(found) > 1:
            found.sort(key=lambda one: one.rank)
        return found

    def first_but(self, has: FrozenSet[str], latest: int) -> List[Candidate]:
        """Those that a list lacks which has these elements, and that began by then, in the order of sessions."""
        return self._of_each(lambda each: next((index for index, element in enumerate(each.elements) if element not in has), len(each.elements)), latest)

    def _of_each(self, first: Callable[[Appended], int], latest: int) -> List[Candidate]:
        found = []
        for rank, (session, each) in enumerate(self.by_session.items()):
            index = first(each)
            if index < len(each.elements) and self.begun[each.numbers[index]] <= latest:
                found.append(Candidate(self.begun[each.numbers[index]], each.numbers[index], session, rank, 0, each.elements[index]))
        return found


class Whole:
    """The longest list that was read of a key, and of each of its beginnings how many elements it has, the read of it as a register, and
    the last two transactions that appended it, each by its last element there. For each element whose append counts it has its session
    and its place there, with the first that its transaction appended."""

    def __init__(self, key: str, text: str, writers: "Dict[str, Writer]"):
        self.text, self.counts, self.pairs, length = text, {0: 0}, [], 0  # type: str, Dict[int, int], List[Tuple[int, Tuple[int, str]]], int
        self.values: List[Optional[str]] = ["r,%s,0" % key]
        self.ends: List[Tuple[str, ...]] = [()]
        most: Dict[int, Tuple[int, str]] = {}
        self.is_rising, self.texts = True, {}  # type: bool, Dict[str, str]
        for count, element in enumerate(text.split(), 1):
            length += 1 + len(element)
            self.counts[length] = count
            writer, end = writers.get(element), self.ends[-1]
            if writer is None:
                self.pairs.append((NOBODY, (0, "")))
                self.values.append(None)
                self.ends.append(end)
                continue
            place = most.get(writer.session, (0, ""))[0]
            self.is_rising = self.is_rising and place <= writer.place
            if place != writer.place:
                most[writer.session] = writer.place, element
            self.pairs.append((writer.session, most[writer.session]))
            is_same = end[-1:] == (writer.last,)
            self.values.append(self.values[-1] if is_same and self.values[-1] else "r,%s,%s" % (key, writer.last))
            self.ends.append(end if is_same else (*end[-1:], writer.last))

    def count_of(self, text: str) -> int:
        """How many elements a beginning has; -1 of a list that is none."""
        return self.counts.get(len(text), -1) if self.text.startswith(text) else -1

    def text_of(self, element: str, name: str) -> str:
        """The read of an element that is there, by the name of its register."""
        text = self.texts[element] = "r,%s,1" % name
        return text

    def last_ones(self, begin: int, end: int) -> Dict[int, Tuple[int, str]]:
        """The last place of each session between two counts, with an element of it, where the places of each rise."""
        found = dict(self.pairs[begin:end])
        found.pop(NOBODY, None)
        return found
