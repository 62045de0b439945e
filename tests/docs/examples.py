#!/usr/bin/env python3
"""The examples in the doc comments, from the crate whose program runs them.

    examples.py [--write]

What is between "```rust" and "```" in a doc comment is, line by line, the body of the function of `crates/tcc_examples` that is
named for the item below: `example_resolve` for `resolve`, `example_rows` for the type `Rows`, `example_graph_build` for
`Graph::build`. With `--write` each such text is written anew from there. Without it each one that is another is one line, as
`run.py` has it, which asks this too. So is a function there that no doc comment shows, or a text that no function has. The last
line is `N passed, M failed`.
"""
import pathlib
import re
import sys
from typing import Dict, Iterator, List, NamedTuple, Optional

TOP = pathlib.Path(__file__).resolve().parent.parent.parent
sys.path.insert(0, str(TOP / "tests"))
from arguments import status_of_written  # noqa: E402
from counted import Outcome  # noqa: E402
from sources import METHODS  # noqa: E402

EXAMPLES = TOP / "crates/tcc_examples/src/examples.rt"
FUNCTION = re.compile(r"^pub fn (example_\w+)(?:.|\n(?!\}\n))*?(?:\n| )\{\n((?:.|\n(?!\}\n))*\n)\}\n", re.MULTILINE)
ITEM = re.compile(r" *pub (?:const )?(?:fn|struct|enum|trait|type) (\w+)")
HUMP = re.compile(r"(?<=[a-z])(?=[A-Z])")


class Shown(NamedTuple):
    """A text in a doc comment: its lines in the file, its indent, the function that it is of, and the lines of code."""
    first: int
    end: int
    indent: str
    example: str
    code: List[str]


def bodies() -> Dict[str, List[str]]:
    """The lines of each function's body, without the indent of all."""
    return {name: [line[4:] for line in body.splitlines()] for name, body in FUNCTION.findall(EXAMPLES.read_text())}


def item_below(lines: List[str], number: int) -> Optional[str]:
    """The item whose doc comment the line is in, by the name of its example."""
    while number < len(lines) and lines[number].lstrip().startswith(("///", "#[")):
        number += 1
    item = ITEM.match(lines[number]) if number < len(lines) else None
    if not item:
        return None
    before = [methods.group(1) for methods in map(METHODS.match, lines[:number]) if methods] if lines[number][0] == " " else []
    return "_".join(["example", *(HUMP.sub("_", word).lower() for word in [*before[-1:], item.group(1)])])


def shown_in(lines: List[str]) -> Iterator[Shown]:
    """The texts in the doc comments of a file, the last one first."""
    ends = [number for number, line in enumerate(lines) if line.strip() == "/// ```"]
    for first, line in reversed(list(enumerate(lines))):
        if line.strip() == "/// ```rust":
            end = next(number for number in ends if number > first)
            code = [one.strip()[4:] for one in lines[first + 1:end]]
            yield Shown(first + 1, end, line[:len(line) - len(line.lstrip())], item_below(lines, first) or "nothing", code)


def sources() -> Iterator[pathlib.Path]:
    return (path for path in sorted((TOP / "crates").glob("tcc_*/src/**/*.rt")) if "```rust" in path.read_text())


def outcomes() -> Iterator[Outcome]:
    """Whether each text is that of its function, and each function is shown once."""
    wanted = bodies()
    found: List[str] = []
    for path in sources():
        for shown in shown_in(path.read_text().split("\n")):
            found.append(shown.example)
            wrong = "it isn't what is there: tests/docs/examples.py --write" if shown.example in wanted else "there is no such function"
            yield "%s: %s" % (path.relative_to(TOP), shown.example), None if wanted.get(shown.example) == shown.code else wrong
    for name in wanted:
        yield name, None if found.count(name) == 1 else "%d doc comments show it" % found.count(name)


def write() -> None:
    wanted = bodies()
    for path in sources():
        lines = path.read_text().split("\n")
        for shown in shown_in(lines):
            code = wanted.get(shown.example, shown.code)
            lines[shown.first:shown.end] = [(shown.indent + "/// " + line).rstrip() for line in code]
        path.write_text("\n".join(lines))


def main() -> int:
    return status_of_written("The examples in the doc comments, from crates/tcc_examples.", write, outcomes)


if __name__ == "__main__":
    sys.exit(main())
