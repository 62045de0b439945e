"""What has to be believed: whether the definitions that contracts cite are in `specs/`, and all others in `specs/private/`.

A contract counts where its call is public, or is called by one that has no words for what it does; and so does what values of a
public type are seen as. What these cite, and what that is defined by, has to be believed. Names are followed through the imports of
each file. A definition that a document names may be in `specs/` beside them.
"""
import collections
import functools
import pathlib
import re
from typing import Dict, FrozenSet, Iterator, List, NamedTuple, Optional, Set, Tuple

from counted import Outcome
from imports import LINE, Import, imports
from sources import CRATES, root_of, with_types

PRIVATE = "private"
CALL = re.compile(r"( *)(pub )?(?:const )?fn (\w+)")
VALUE = re.compile(r" *ghost Value = \{(.*)\};")
OPENS_BODY = re.compile(r" *(?:\)|(?:pub )?(?:const )?fn ).*[{;]$")
HEAD = re.compile(r"(?:abbrev |unfoldable )?pub (?:record |data )?([\w'-]+)")
WORD = re.compile(r"[^\W\d][\w'-]*(?:\.[^\W\d][\w'-]*)*|◌?[^\s\w()\[\]{},;.]+")
# Modules whose calls are called by public ones about the process's own words and files, of which no clause can speak, or through a trait.
BEHIND = {"tcc_cli": ("command_line", "checker", "known_file", "opening", "quiet")}
QUOTED = re.compile(r"`([^`\n]+)`")


class Definition(NamedTuple):
    """A definition of a crate's specs, by the path of its module."""

    crate: str
    module: str
    name: str

    def is_private(self) -> bool:
        return self.module.startswith(PRIVATE + ".")

    def __str__(self) -> str:
        return "%s of %s/specs/%s.antt" % (self.name, self.crate, self.module.replace(".", "/"))


def written(text: str) -> List[Import]:
    """What a file brings in that is in a file of specs; what code declares doesn't."""
    return [one for one in imports(text) if not one.module.startswith("declared")]


class Names:
    """What the words of a file mean, by its imports and its own definitions."""

    def __init__(self, text: str, own: Optional[Tuple[str, str]] = None, defined: FrozenSet[str] = frozenset()):
        self.of = {name: Definition(*own, name) for name in defined} if own else {}
        self.modules: Dict[str, Tuple[str, str]] = {}
        for one in written(text):
            if one.name:
                self.of.setdefault(one.called, Definition(one.crate, one.module, one.name))
            else:
                self.modules[one.called] = (one.crate, one.module)

    def cited(self, text: str) -> Iterator[Definition]:
        """The definitions that a text cites."""
        for word in set(WORD.findall(text)):
            first, _, rest = word.partition(".")
            if first in self.modules and rest:
                yield Definition(*self.modules[first], rest.partition(".")[0])
            for part in {word, *word.split(".")} & self.of.keys():
                yield self.of[part]


@functools.lru_cache(maxsize=None)
def definitions() -> Dict[Definition, Set[Definition]]:
    """The definitions of all specs, each with those that it cites itself."""
    found = {}
    for path in sorted(CRATES.glob("*/specs/**/*.antt")):
        crate, _, *folders = path.relative_to(CRATES).parent.parts
        if path.stem in ("Lib", PRIVATE):
            continue
        own = (crate, ".".join([*folders, path.stem]))
        bodies = bodies_of(path.read_text())
        names = Names(path.read_text(), own, frozenset(bodies))
        for name, body in bodies.items():
            found[Definition(*own, name)] = set(names.cited(body)) - {Definition(*own, name)}
    return found


def bodies_of(text: str) -> Dict[str, str]:
    """The definitions of a file of specs, each with its text but for comments."""
    bodies: Dict[str, str] = collections.OrderedDict()
    name = None
    for line in text.splitlines():
        if line.startswith("--") or LINE.match(line):
            continue
        head = HEAD.match(line)
        name = head.group(1) if head else name
        if name:
            bodies[name] = bodies.get(name, "") + line.partition(" --")[0] + "\n"
    return bodies


def contract(lines: List[str], first: int) -> str:
    """What comes before the body of the function that begins there."""
    indent = lines[first][:len(lines[first]) - len(lines[first].lstrip())]
    taken = []
    for line in lines[first:]:
        if line.startswith((indent + "{", indent + "}")):
            break
        taken.append(line.partition("//")[0])
        if OPENS_BODY.match(line) and line.startswith((indent + ")", indent + "pub", indent + "fn")):
            break
    return "\n".join(taken)


class Said(NamedTuple):
    """A function's contract, or what values of a type are seen as; and whether it is the crate's to give away."""

    path: pathlib.Path
    name: str
    text: str
    is_public: bool


def all_said(crate: str) -> Iterator[Said]:
    """The contracts of a crate's functions, and what values of its types are seen as."""
    root = root_of(crate)
    for path in sorted((CRATES / crate / "src").rglob("*.rt")):
        lines = path.read_text().splitlines()
        for index, line, of in with_types(lines):
            call, value = CALL.match(line), VALUE.match(line)
            if value:
                yield Said(path, of, value.group(1), root.has(path, of))
            elif call:
                indent, public, name = call.groups()
                yield Said(path, name, contract(lines, index), public is not None and root.has(path, of if indent else name))


def public_calls(crate: str) -> Iterator[str]:
    """The functions that the root of a library makes public, and those of its public types."""
    return (said.name for said in all_said(crate) if said.is_public and said.name[0].islower())


@functools.lru_cache(maxsize=None)
def believed() -> Dict[Definition, str]:
    """The definitions that have to be believed, each with the way by which a contract leads there."""
    found: Dict[Definition, str] = {}
    ahead = []
    for crate in sorted(path.parent.name for path in CRATES.glob("*/src")):
        for said in () if crate.startswith(("tcc_tests_", "tcc_bench_")) else all_said(crate):
            if said.is_public or said.path.stem in BEHIND.get(crate, ()):
                way = "%s of %s" % (said.name, said.path.relative_to(CRATES))
                ahead += [(one, way) for one in Names(said.path.read_text()).cited(said.text)]
    while ahead:
        one, way = ahead.pop()
        if one in definitions() and one not in found:
            found[one] = way
            ahead += [(other, "%s, %s" % (way, one.name)) for other in definitions()[one]]
    return found


@functools.lru_cache(maxsize=None)
def named() -> FrozenSet[str]:
    """What is in backquotes in the documents, but for the page that has every definition."""
    texts = (path.read_text() for path in [*(CRATES.parent / "docs").glob("*.md"), *(CRATES.parent / "docs/made").glob("*.md")] if path.name != "DEFINITIONS.md")
    return frozenset(name for text in texts for name in QUOTED.findall(text))


def faults_of_trust() -> Iterator[Outcome]:
    """Whether what contracts cite is in `specs/` and all else in `specs/private/`, of which the former imports nothing."""
    for one in sorted(definitions()):
        wrong = None
        if one.is_private() and one in believed():
            wrong = "it is private, but cited: " + believed()[one]
        elif not one.is_private() and one not in believed() and one.name not in named() and not one.crate.startswith("tcc_bench_"):
            wrong = "neither a contract nor a document names it: it belongs into specs/private"
        yield str(one), wrong
    for path in sorted(CRATES.glob("*/specs/*.antt")):
        imported = [one.module for one in written(path.read_text()) if one.module.startswith(PRIVATE + ".")]
        yield str(path.relative_to(CRATES.parent)), "it imports " + ", ".join(imported) if imported else None
