"""What the lines of a history have to have in common: else they could be read in two ways, of which one is wrong."""
from typing import Any, Dict, Optional, Tuple

from tcc.imports.edn import Word
from tcc.imports.operations import DOES, Untold, spelled


class Checks:
    """What the lines so far had, each with a line that had it first."""

    def __init__(self) -> None:
        self._first_index: Optional[int] = None
        self._last_index = -1
        self._keyed: Dict[bool, int] = {}
        self._keys: Dict[str, str] = {}
        self._values: Dict[str, str] = {}
        self._composite: Dict[bool, Tuple[int, str, str]] = {}

    def index(self, line: int, index: int) -> None:
        """Takes the `index` of a line: they are in order in a history of one run."""
        if index < self._last_index:
            if index in (0, self._first_index):
                raise Untold(line, "the index begins again at %d, after %d: a second run, which has to be imported by itself" % (
                    index, self._last_index))
            raise Untold(line, "index %d after index %d: the lines have to be in the order of their index" % (index, self._last_index))
        if self._first_index is None:
            self._first_index = index
        self._last_index = index

    def keyed(self, line: int, is_keyed: bool) -> None:
        """Takes whether the value of an operation on a register is a pair, of an independent key and its own value."""
        self._keyed.setdefault(is_keyed, line)
        if len(self._keyed) > 1:
            raise Untold(line, "line %d has a pair, which may be an independent key and its value, and line %d has a value without a key: if reads of a "
                         "register return pairs, the test has to note one value of each" % (self._keyed[True], self._keyed[False]))

    def text(self, line: int, text: str, is_key: bool) -> None:
        """Takes a key or a value that is a text: JSON has one text for what EDN may spell in several ways."""
        edn = text.edn if isinstance(text, Word) else spelled(text)
        known = (self._keys if is_key else self._values).setdefault(text, edn)
        if known != edn:
            raise Untold(line, "the %s %s is %s elsewhere: they would be taken for one, so the test has to use one of them" % (
                "key" if is_key else "value", edn, known))

    def value(self, line: int, value: Any, is_key: bool = False) -> None:
        """Takes all texts in the value of an operation of EDN."""
        if isinstance(value, str):
            self.text(line, value, is_key)
        elif isinstance(value, list):
            is_step = len(value) == 3 and isinstance(value[0], str) and value[0] in DOES
            for place, one in enumerate(value[is_step:]):
                self.value(line, one, is_step and place == 0)

    def composite(self, line: int, is_read: bool, key: str, value: str) -> None:
        """Takes a list or a map that was read or written at a key, spelled as JSON."""
        self._composite.setdefault(is_read, (line, key, value))

    def only_read(self) -> Optional[Tuple[int, str, str]]:
        """The first list or map that was read, its line and its key, where nobody writes one."""
        return self._composite.get(True) if False not in self._composite else None
