"""The operations of the transactions that a page shows, as the history has them: the invoke, and what ended it."""
from typing import Dict, Iterable, Iterator, List, Set

from tcc.common.inputs import opened
from tcc.common.notes import Note
from tcc.show.findings import Findings
from tcc.show.page import many, text

MOST_SHOWN = 100  # transactions
MOST_LETTERS = 2000  # of a line


def lines_of(told: Findings, labels: Iterable[str]) -> Dict[str, List[int]]:
    """The lines of each of these transactions: of its invoke, where there is one, and of what ended it."""
    if told.imported is None:
        return {}
    ends = {label: int(told.notes.get(label, Note()).line or 0) for label in labels}
    wanted = set(ends.values())
    begun = {end: begin for end, begin in zip(told.imported.lines, told.imported.begun) if end in wanted}
    return {label: sorted({begun[end], end}) for label, end in ends.items() if end in begun}


def texts_of(path: str, numbers: Set[int]) -> Dict[int, str]:
    """Some lines of a file."""
    found: Dict[int, str] = {}
    with opened(path) as file:
        for number, line in enumerate(file, 1):
            if number in numbers:
                found[number] = line[:4 * MOST_LETTERS].decode("utf-8", "replace").strip()
                if len(found) == len(numbers):
                    break
    return found


def operations(told: Findings, labels: Iterable[str]) -> Iterator[str]:
    """What the history has of the transactions that are shown; nothing where all of it is one line, or of records."""
    found = dict(list(lines_of(told, labels).items())[:MOST_SHOWN])
    numbers = {number for every in found.values() for number in every}
    if not numbers or told.imported is None or len(set(told.imported.lines)) == 1 < len(told.imported.lines):
        return
    texts = texts_of(told.path, numbers)
    yield "<h2>As the history has them</h2>"
    yield '<p class="faint">The invoke of each transaction that is shown above, where it has one, and the operation that ended it.</p>'
    yield "<details><summary>%s of %s</summary><dl>" % (many(len(found), "transaction"), text(told.name))
    for label, every in found.items():
        lines = ["line %d: %s" % (number, cut(texts.get(number, ""))) for number in every]
        yield "<dt>%s</dt><dd><pre>%s</pre></dd>" % (text(label), text("\n".join(lines)))
    yield "</dl></details>"


def cut(line: str) -> str:
    return line if len(line) <= MOST_LETTERS else line[:MOST_LETTERS] + " .."
