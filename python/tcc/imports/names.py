"""Names in the records for what a history names: processes, keys and values."""
import itertools
import json
from dataclasses import dataclass, field
from typing import Any, Dict, List, Optional, Set

from tcc.common.rows import NAME
from tcc.imports.operations import Untold

HINTS = {"value": "; if keys have it before they are written, say so with --initial"}
FORMULA = tuple("=+-@")  # how what a spreadsheet would reckon begins


@dataclass
class Names:
    """What is in the records for things of one kind, by how JSON spells them: a mark where that isn't known yet."""

    kind: str
    mark: str
    given: Dict[str, str] = field(default_factory=dict)
    taken: Set[str] = field(default_factory=set)
    listed: List[str] = field(default_factory=list)
    lines: List[int] = field(default_factory=list)

    def name(self, thing: str, plain: Optional[str], line: int) -> str:
        """The name of a thing: its plain one where nothing else has that."""
        name = self.given.get(thing)
        if name is None:
            if plain is not None and plain not in self.taken:
                self.taken.add(plain)
                name = plain
            else:
                name = "%s%d" % (self.mark, len(self.listed))
                self.listed.append(thing)
                self.lines.append(line)
            self.given[thing] = name
        return name

    def check(self, but: Set[str]) -> None:
        """Where nothing may be listed, refuses the first that would be; but for those whose marks represent something else."""
        for number, (thing, line) in enumerate(zip(self.listed, self.lines)):
            if "%s%d" % (self.mark, number) not in but:
                raise Untold(line, "the %s %s can't stand in a record: --table FILE gives it a stand-in, which FILE tells%s" % (
                    self.kind, thing, HINTS.get(self.kind, "")))

    def stand_ins(self, stem: str, taken: Set[str]) -> Dict[str, str]:
        """For each mark a name that nothing else has."""
        spare = ("%s%d" % (stem, number) for number in itertools.count(1))
        free = (name for name in spare if name not in taken)
        return {"%s%d" % (self.mark, number): next(free) for number in range(len(self.listed))}


def plain_name(thing: Any) -> Optional[str]:
    """A text that is a name, or a whole number's digits; of an independent key and a key of its own, both with a point."""
    if isinstance(thing, list) and len(thing) == 2 and None not in map(plain_name, thing):
        thing = ".".join(map(str, thing))
    if isinstance(thing, bool) or not isinstance(thing, (str, int)):
        return None
    return str(thing) if NAME.fullmatch(str(thing)) else None


def plain_session(process: Any) -> Optional[str]:
    return plain_name("p%d" % process if isinstance(process, int) else process)


def plain_text(thing: str) -> str:
    """A thing, spelled as JSON, as somebody reads it: a text without its quotes."""
    told = json.loads(thing)
    return " ".join(told.split()) if isinstance(told, str) and told.strip() else thing


def plain_cell(cell: str) -> str:
    """A text of somebody's own as a cell of CSV that no spreadsheet takes for a formula, in characters that can be written."""
    plain = " ".join(cell.encode("utf-8", "replace").decode().split())
    return "'" + plain if plain[:1] in FORMULA else plain
