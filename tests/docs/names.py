"""One name, one meaning: no file of code sees two types by one name, its crate's own and another crate's, or those of two crates.

A private type may have the name of another crate's, as long as no file sees both.
"""
import collections
import re
from typing import Dict, Iterator, Set

from counted import Outcome
from sources import CRATES

TYPE = re.compile(r"^(?:pub(?:\([^)]*\))? )?(?:struct|enum|trait|type) (\w+)", re.MULTILINE)
OWN = re.compile(r"^use (?:crate|super|self)\b([^;]*);", re.MULTILINE)
OTHER = re.compile(r"^(?:pub )?use (tcc_\w+)::([^;]*);", re.MULTILINE)
# What is imported under another name is seen by that one.
RENAMED = re.compile(r"\b\w+ as (\w+)")
WORD = re.compile(r"\w+")


def imported(text: str) -> Set[str]:
    """The names by which an import's items are seen."""
    return set(WORD.findall(RENAMED.sub(r"\1", text)))


def seen(crate: str, text: str, types: Dict[str, Set[str]]) -> Dict[str, Set[str]]:
    """The types that a file sees: the crates of each name."""
    found: Dict[str, Set[str]] = collections.defaultdict(set)
    for name in TYPE.findall(text):
        found[name].add(crate)
    for part in OWN.findall(text):
        for name in imported(part) & types[crate]:
            found[name].add(crate)
    for other, part in OTHER.findall(text):
        for name in imported(part) & types.get(other, set()):
            found[name].add(other)
    return found


def outcomes() -> Iterator[Outcome]:
    files = {path: path.read_text() for path in sorted(CRATES.glob("*/src/**/*.rt"))}
    types: Dict[str, Set[str]] = collections.defaultdict(set)
    for path, text in files.items():
        types[path.relative_to(CRATES).parts[0]].update(TYPE.findall(text))
    yield "types of crates", None if sum(map(len, types.values())) > 300 else "only %d" % sum(map(len, types.values()))
    for path, text in files.items():
        twice = {name: crates for name, crates in seen(path.relative_to(CRATES).parts[0], text, types).items() if len(crates) > 1}
        told = ", ".join("%s of %s" % (name, " and ".join(sorted(crates))) for name, crates in sorted(twice.items()))
        yield "types in %s" % path.relative_to(CRATES), "one name for two: " + told if twice else None
