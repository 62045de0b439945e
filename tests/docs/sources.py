"""Whose methods the lines of a source are, and what the root of a crate makes public."""
import pathlib
import re
from typing import FrozenSet, Iterator, List, NamedTuple, Tuple

CRATES = pathlib.Path(__file__).resolve().parent.parent.parent / "crates"
PUBLIC_MODULE = re.compile(r"^pub mod (\w+);", re.MULTILINE)
PASSED_ON = re.compile(r"^pub use (?!tcc_)[\w:]+::(\{[^}]*\}|\w+);", re.MULTILINE)
METHODS = re.compile(r"impl(?:<[^>]*>)? (?:Model for )?(\w+)")


class Root(NamedTuple):
    """What the root of a crate makes public: whole modules, and single names of others."""

    modules: FrozenSet[str]
    names: FrozenSet[str]

    def has(self, path: pathlib.Path, name: str) -> bool:
        """Whether that name of a source of the crate is public by it."""
        return path.stem in self.modules or name in self.names


def public_modules(folder: pathlib.Path, text: str) -> Iterator[str]:
    """The modules that a file makes public, and those that these do."""
    for name in PUBLIC_MODULE.findall(text):
        yield name
        below = folder / (name + ".rt")
        yield from public_modules(folder / name, below.read_text()) if below.exists() else ()


def root_of(crate: str) -> Root:
    """What a crate makes public; a program nothing."""
    path = CRATES / crate / "src/lib.rt"
    text = path.read_text() if path.exists() else ""
    return Root(frozenset(public_modules(path.parent, text)), frozenset(re.findall(r"\w+", " ".join(PASSED_ON.findall(text)))))


def with_types(lines: List[str]) -> Iterator[Tuple[int, str, str]]:
    """The lines with their numbers, from 0, and the type whose methods were begun last; before the first it has no name."""
    of = ""
    for number, line in enumerate(lines):
        methods = METHODS.match(line)
        of = methods.group(1) if methods else of
        yield number, line, of
