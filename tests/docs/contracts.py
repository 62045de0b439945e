#!/usr/bin/env python3
"""docs/made/CONTRACTS.md, which has every public call with its contract, from the sources.

    contracts.py [--write]

For each library it has what the crate is, by the first paragraph of its root, and a table. That has each public call with the first
paragraph of its doc comment, and with the definitions of this repository that its clauses cite. Calls that say and cite the same
share a row, and so do, at the end, those whose clauses cite none. A call without a clause is shown as one. With `--write` the file
is written anew. Without it a part that isn't what the sources give is one line, and so is a call without a doc comment; `run.py`
asks this too. The last line is `N passed, M failed`.
"""
import functools
import pathlib
import re
import sys
from typing import Dict, Iterator, List, NamedTuple, Set, Tuple

TOP = pathlib.Path(__file__).resolve().parent.parent.parent
sys.path.insert(0, str(TOP / "tests"))
from arguments import status_of_written  # noqa: E402
from counted import Outcome  # noqa: E402
from crates import stands_on  # noqa: E402
from imports import imports  # noqa: E402
from sources import root_of, with_types  # noqa: E402

CONTRACTS = TOP / "docs/made/CONTRACTS.md"
CALL = re.compile(r"( *)pub (?:const )?fn (\w+)")
DEFINED = re.compile(r"^[a-z ]*\bpub (?:record |data )?([A-Za-z]\w*)", re.MULTILINE)
SHAPE = re.compile(r"^[a-z ]*\bpub (?:record |data )?([A-Za-z]\w*) : Type \d+(?: where)?$", re.MULTILINE)
CLAUSE = re.compile(r"^ *(?:requires|ensures)(?: \w+)? \{", re.MULTILINE)
NAME = re.compile(r"(?<!\w)[A-Za-z]\w*")
COMMENT = re.compile(r"^ *//.*$", re.MULTILINE)
BEGINNING = """# Contracts

Every public call of the libraries, in words, with the definitions that its clauses cite: of what it asks for, and of what it \
promises. `tests/docs/contracts.py --write` writes this page from the sources. The clauses themselves are at the call, in the \
`src/` of its crate, the definitions in the `specs/` of the crates, and [DEFINITIONS.md](DEFINITIONS.md) has them in words. \
[HEADLINE.md](../HEADLINE.md) says under which premises the words hold (memory, known bytes, joins), [PROOF.md](../PROOF.md) how the main \
theorem rests on them, and [OPEN.md](../OPEN.md) what no contract says. The last row of a table has the calls whose clauses are about \
their values alone, as of a part that was passed in and is returned borrowed.
"""
HEAD = "| call | in words | its clauses cite |\n|---|---|---|\n"
NO_CLAUSE = "it has no clause"


class Call(NamedTuple):
    """A public call: its name, its words, whether it has a clause, and the definitions that its clauses cite."""
    title: str
    words: str
    has_clause: bool
    cites: Tuple[str, ...]


def libraries() -> List[str]:
    """The crates whose public calls the page has: all libraries but those of tests."""
    return [crate for crate in stands_on()
            if not crate.startswith("tcc_tests_") and (TOP / "crates" / crate / "src/lib.rt").exists()]


def paragraph(lines: List[str], mark: str) -> str:
    """The first paragraph of the comment that these lines are, without its marks."""
    texts = [line.strip()[len(mark):].strip() for line in lines if line.lstrip().startswith(mark)]
    return " ".join(texts[:texts.index("")] if "" in texts else texts).replace("|", "\\|")


def words_above(lines: List[str], number: int) -> str:
    """The first paragraph of the doc comment above a line, past its attributes."""
    first = number
    while first and lines[first - 1].lstrip().startswith(("///", "#[")):
        first -= 1
    return paragraph(lines[first:number], "///")


def head_of(lines: List[str], number: int, indent: str) -> str:
    """A function from its name up to its body."""
    taken = []
    for line in lines[number:]:
        if line in (indent + "{", indent + "{}"):
            break
        taken.append(line)
        if len(line) - len(line.lstrip()) <= len(indent) and line.endswith((" {", " {}")):
            break
    return COMMENT.sub("", "\n".join(taken))


@functools.lru_cache(maxsize=None)
def defined() -> Tuple[Dict[str, Set[str]], Set[str]]:
    """What each file of specs defines, by its path in Rattle's words; and of all these the names of shapes of values."""
    files: Dict[str, Set[str]] = {}
    shapes: Set[str] = set()
    for path in (TOP / "crates").glob("tcc_*/specs/**/*.antt"):
        text = path.read_text()
        crate, _, below = path.relative_to(TOP / "crates").with_suffix("").as_posix().partition("/specs/")
        files["%s.specs.%s" % (crate, below.replace("/", "."))] = set(DEFINED.findall(text))
        shapes |= set(SHAPE.findall(text))
    return files, shapes


def definitions(text: str) -> Set[str]:
    """The functions and relations of specs that a file brings in, also after a word of its own; no shapes, and nothing of code."""
    files, shapes = defined()
    names: Set[str] = set()
    for one in imports(text):
        of_module = files.get("%s.specs.%s" % (one.crate, one.module), set())
        names |= {one.name} & of_module if one.name else of_module
    return names - shapes


def standing(path: pathlib.Path) -> Tuple[bool, str, bool]:
    """Where a file's calls come among those of its crate: laws at the end, and what is large after what isn't."""
    return path.stem == "laws", path.stem.replace("large_", ""), "large_" in path.stem


def calls(crate: str) -> Iterator[Call]:
    """The functions that the root of a library makes public, and those of its public types."""
    root = root_of(crate)
    for path in sorted((TOP / "crates" / crate / "src").rglob("*.rt"), key=standing):
        text = path.read_text()
        lines, known = text.split("\n"), definitions(text)
        for number, line, of in with_types(lines):
            call = CALL.match(line)
            if not call or not root.has(path, of if call.group(1) else call.group(2)):
                continue
            indent, name = call.groups()
            below = path.relative_to(TOP / "crates" / crate / "src").with_suffix("").parts
            before = of if indent else "::".join(below) if path.stem in root.modules else ""
            head = head_of(lines, number, indent)
            clause = CLAUSE.search(head)
            cites = [one for one in NAME.findall(head[clause.start():]) if one in known] if clause else []
            yield Call("::".join(filter(None, (before, name))), words_above(lines, number), bool(clause), tuple(dict.fromkeys(cites)))


def part(crate: str) -> str:
    """The part of a crate: what it is, and its table."""
    told: Dict[Tuple[str, bool, Tuple[str, ...]], List[str]] = {}
    for call in calls(crate):
        words = "" if call.has_clause and not call.cites else call.words
        told.setdefault((words, call.has_clause, call.cites), []).append("`%s`" % call.title)
    rows = [(", ".join(titles), words, ", ".join("`%s`" % one for one in cites) if has_clause else NO_CLAUSE)
            for (words, has_clause, cites), titles in told.items()]
    rows.sort(key=lambda row: not row[1])
    what = paragraph((TOP / "crates" / crate / "src/lib.rt").read_text().partition("\n#!")[0].split("\n"), "//!")
    return "## `%s`\n\n%s\n\n%s" % (crate, what, HEAD) + "".join("| %s | %s | %s |\n" % row for row in rows)


def outcomes() -> Iterator[Outcome]:
    """Whether the file has the part of each library, and no other, as the sources give it, and each call has words."""
    beginning, *parts = re.split(r"^(?=## )", CONTRACTS.read_text() if CONTRACTS.exists() else "", flags=re.MULTILINE)
    there = [one.rstrip("\n") + "\n" for one in parts]
    for crate in libraries():
        is_there = part(crate) in there
        yield "contracts of %s" % crate, None if is_there else "they aren't those of the sources: tests/docs/contracts.py --write"
        for call in calls(crate):
            yield "words of %s of %s" % (call.title, crate), None if call.words else "it has no doc comment"
    is_whole = beginning == BEGINNING + "\n" and len(there) == len(libraries())
    yield "docs/made/CONTRACTS.md", None if is_whole else "it has another beginning, or a part too many"


def write() -> None:
    CONTRACTS.write_text("\n".join([BEGINNING, *map(part, libraries())]))


def main() -> int:
    return status_of_written("docs/made/CONTRACTS.md, from the sources.", write, outcomes)


if __name__ == "__main__":
    sys.exit(main())
