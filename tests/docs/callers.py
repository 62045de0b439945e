#!/usr/bin/env python3
"""What each crate is by the first lines of its root, and which of its public calls no program makes.

    callers.py [--write]

After what a crate is, the `//!` of its root says in a line each what it needs (`Needs:`), what must hold in it (`Must hold:`), and
which public calls are there for callers alone, since neither `tcc` nor `tcc_checker` reaches them (`Kept for callers:`, or no such
line). The last is found by names: a program reaches a call if some function that it reaches has its name in its body. Laws are no
calls of a run, and are left out. With `--write` the last line is written anew. Without it each root that lacks a line, or names
others, is one line, as `run.py` has it, which asks this too. The last line is `N passed, M failed`.
"""
import collections
import functools
import pathlib
import re
import sys
import textwrap
from typing import Dict, FrozenSet, Iterator, List, NamedTuple, Set, Tuple

TOP = pathlib.Path(__file__).resolve().parent.parent.parent
sys.path.insert(0, str(TOP / "tests"))
from arguments import status_of_written  # noqa: E402
from counted import Outcome  # noqa: E402
from crates import stands_on  # noqa: E402
from sources import CRATES, root_of, with_types  # noqa: E402

FUNCTION = re.compile(r"^( *)(pub(?:\([a-z]+\))? )?(?:const )?fn (\w+)")
NAME = re.compile(r"[A-Za-z_]\w*")
METHOD = re.compile(r"\.(\w+)")
PATH = re.compile(r"(\w+)(?:::<[^>]*>)?::(\w+)")
USE = re.compile(r"^(?:pub )?use (tcc_\w+)::([^;]+);", re.MULTILINE)
SAID = re.compile(r"^//! (Needs|Must hold|Kept for callers): ", re.MULTILINE)
# A line of a root has at most so many characters.
WIDTH = 140
PROGRAMS = ("tcc", "tcc_checker")
# What is no part of the product.
BESIDE = ("tcc_tests_", "tcc_bench_", "tcc_examples", "tcc_recorders")


class Function(NamedTuple):
    """A function: its crate, the type whose method it is, its name, its title where it is public, and what its body names."""
    crate: str
    of: str
    name: str
    title: str
    methods: FrozenSet[str]
    paths: FrozenSet[Tuple[str, str]]
    names: FrozenSet[str]
    imported: FrozenSet[Tuple[str, str]]


def product() -> List[str]:
    return [crate for crate in stands_on() if not crate.startswith(BESIDE)]


@functools.lru_cache(maxsize=None)
def below(crate: str) -> FrozenSet[str]:
    """A crate and all crates of the repository that it rests on."""
    return frozenset({crate}.union(*(below(one) for one in stands_on()[crate] if one in stands_on())))


def body_of(lines: List[str], number: int, indent: str) -> str:
    """The body of the function that begins at a line, without its contract and comments."""
    first = next((at for at in range(number, len(lines)) if lines[at] in (indent + "{", indent + "{}") or lines[at].endswith((" {", " {}"))), number)
    end = next((at for at in range(first, len(lines)) if lines[at].startswith(indent + "}")), first)
    return "\n".join(line.partition("//")[0] for line in lines[first:end + 1])


def imported(text: str) -> FrozenSet[Tuple[str, str]]:
    """The names that a file takes from crates of the repository, each after its crate."""
    return frozenset((crate, name) for crate, names in USE.findall(text) for name in NAME.findall(names))


def functions(crate: str) -> Iterator[Function]:
    """The functions of a crate."""
    root, src = root_of(crate), CRATES / crate / "src"
    for path in sorted(src.rglob("*.rt")):
        text = path.read_text()
        lines, taken = text.split("\n"), imported(text)
        parts = path.relative_to(src).with_suffix("").parts
        for number, line, of in with_types(lines):
            found = FUNCTION.match(line)
            if not found:
                continue
            indent, public, name = found.groups()
            is_public = public == "pub " and root.has(path, of if indent else name) and path.stem != "laws"
            before = of if indent else "::".join(parts) if path.stem in root.modules else ""
            body = body_of(lines, number, indent)
            yield Function(crate, of if indent else "", name, "::".join(filter(None, (before, name))) if is_public else "",
                           frozenset(METHOD.findall(body)), frozenset(PATH.findall(body)), frozenset(NAME.findall(body)), taken)


@functools.lru_cache(maxsize=None)
def all_functions() -> List[Function]:
    return [one for crate in product() for one in functions(crate)]


def called(one: Function, other: Function) -> bool:
    """Whether the body of a function names another one."""
    if other.of:
        # (a crate below may call a method of its trait, of a type above)
        return other.name in one.methods or any(name == other.name and (of in (other.of, "Self") or len(of) == 1) for of, name in one.paths)
    if other.crate not in below(one.crate):
        return False
    is_near = other.crate == one.crate or (other.crate, other.name) in one.imported
    return is_near and other.name in one.names or any(name == other.name for of, name in one.paths if of[:1].islower())


@functools.lru_cache(maxsize=None)
def reached() -> FrozenSet[Function]:
    """The functions that the programs reach."""
    by_name: Dict[str, List[Function]] = collections.defaultdict(list)
    for one in all_functions():
        by_name[one.name].append(one)
    # (the toolchain calls the methods of its traits)
    left = [one for one in all_functions() if one.crate in PROGRAMS or one.of and one.name in OF_TRAITS]
    found: Set[Function] = set(left)
    while left:
        one = left.pop()
        for name in one.methods | one.names | {name for _, name in one.paths}:
            for other in by_name.get(name, ()):
                if other not in found and called(one, other):
                    found.add(other)
                    left.append(other)
    return frozenset(found)


# Methods that the toolchain calls, or `?` and operators do.
OF_TRAITS = {"fmt", "from", "eq", "cmp", "partial_cmp", "next", "read", "write", "flush", "drop", "clone", "default", "source", "index"}


def kept(crate: str) -> List[str]:
    """The public calls of a crate that no program makes."""
    return sorted({one.title for one in all_functions() if one.crate == crate and one.title and one not in reached()})


def head_of(text: str) -> str:
    """The comment with which a root begins."""
    return text.partition("\n#!")[0]


def said(text: str) -> Dict[str, str]:
    """What the lines of a root say, by their first words."""
    parts = SAID.split(head_of(text))[1:]
    return {word: " ".join(line.strip("/! ") for line in what.splitlines()).strip() for word, what in zip(parts[::2], parts[1::2])}


def wanted(crate: str) -> str:
    """What the line on calls that are kept has to say."""
    return ", ".join("`%s`" % one for one in kept(crate)) + "." if kept(crate) else ""


def roots() -> Iterator[str]:
    return (crate for crate in product() if (CRATES / crate / "src/lib.rt").exists())


def outcomes() -> Iterator[Outcome]:
    for crate in roots():
        lines = said((CRATES / crate / "src/lib.rt").read_text())
        lacks = [word for word in ("Needs", "Must hold") if word not in lines]
        yield "root of %s" % crate, "has no line for: %s" % ", ".join(lacks) if lacks else None
        got = lines.get("Kept for callers", "")
        yield "%s: kept for callers" % crate, None if got == wanted(crate) else "is %r, and no program makes %r" % (got, wanted(crate))


def write() -> None:
    for crate in roots():
        path = CRATES / crate / "src/lib.rt"
        head, mark, rest = path.read_text().partition("\n#!")
        head = re.split(r"\n//! Kept for callers: ", head)[0]
        if wanted(crate):
            line = textwrap.wrap("Kept for callers: " + wanted(crate), WIDTH - 4, break_long_words=False, break_on_hyphens=False)
            head += "".join("\n//! " + part for part in line)
        path.write_text(head + mark + rest)


if __name__ == "__main__":
    sys.exit(status_of_written("The calls that are kept for callers, in the roots of the crates.", write, outcomes))
