#!/usr/bin/env python3
"""docs/made/DEFINITIONS.md, which has every definition that contracts cite in the words of its comment, from the sources.

    definitions.py [--write]

For each file of a crate's `specs/`, but not of `specs/private/`, it has what the file's first comment says, and a table: each
definition with the comment above it. Those without one are named below. With `--write` the page is written anew. Without it a crate
whose part isn't what the sources give is one line; `run.py` asks this too. The last line is `N passed, M failed`.
"""
import pathlib
import re
import sys
from typing import Dict, Iterator, List, Tuple

TOP = pathlib.Path(__file__).resolve().parent.parent.parent
sys.path.insert(0, str(TOP / "tests"))
from arguments import status_of_written  # noqa: E402
from claims import texts_of  # noqa: E402
from counted import Outcome  # noqa: E402
from crates import stands_on  # noqa: E402

PAGE = TOP / "docs/made/DEFINITIONS.md"
ANEW = "tests/docs/definitions.py --write"
BEGINNING = """# Definitions

Every definition that the contracts of public calls cite, in the words of its own comment, by crate and file: \
`tests/docs/definitions.py --write` writes this page from the sources. [MODEL.md](../MODEL.md) explains the main ones, \
[CONTRACTS.md](CONTRACTS.md) says which call cites which, and [claims/](claims/explain.md) have them as they are written.
"""
RULER = re.compile(r"^-- -{2,}")


def words_of(text: str) -> str:
    """The comment above a definition, in one line; of several parts the last, since a heading may come first."""
    lines: List[str] = []
    for line in text.splitlines():
        if not line.startswith("--"):
            break
        lines = [] if RULER.match(line) else [*lines, line[2:].strip()]
    return " ".join(lines).replace("|", "\\|")


def part_of(path: pathlib.Path, crate: str) -> str:
    """What a file of specs defines."""
    first = path.read_text().splitlines()[0]
    texts = texts_of(path)
    words = {name: words_of(text) for name, text in texts.items()}
    rows = "".join("| `%s` | %s |\n" % (name, said) for name, said in words.items() if said)
    silent = ", ".join("`%s`" % name for name, said in words.items() if not said)
    place = path.relative_to(TOP / "crates" / crate / "specs").as_posix()
    said = first[2:].strip() + "\n\n" if first.startswith("--") else ""
    return ("\n### `%s` of `%s`\n\n%s" % (place, crate, said) + ("| definition | in words |\n|---|---|\n" + rows if rows else "")
            + ("%sWithout a comment: %s.\n" % ("\n" if rows else "", silent) if silent else ""))


def parts() -> Iterator[Tuple[str, str]]:
    """Each crate that has definitions, with its part of the page."""
    for crate in stands_on():
        folder = TOP / "crates" / crate / "specs"
        found = [] if crate.startswith(("tcc_tests_", "tcc_bench_")) else [
            path for path in sorted(folder.glob("*.antt")) if path.stem != "Lib" and texts_of(path)]
        if found:
            yield crate, "\n## `%s`\n" % crate + "".join(part_of(path, crate) for path in found)


def outcomes() -> Iterator[Outcome]:
    """Whether the page has each crate's part as the sources give it, and nothing else."""
    text = PAGE.read_text() if PAGE.exists() else ""
    made: Dict[str, str] = dict(parts())
    for crate, part in made.items():
        yield "definitions of %s" % crate, None if part in text else "they aren't those of the sources: " + ANEW
    yield "definitions", None if text == BEGINNING + "".join(made.values()) else "the page has something else: " + ANEW


def write() -> None:
    PAGE.write_text(BEGINNING + "".join(part for _, part in parts()))


def main() -> int:
    return status_of_written("docs/made/DEFINITIONS.md, from the sources.", write, outcomes)


if __name__ == "__main__":
    sys.exit(main())
