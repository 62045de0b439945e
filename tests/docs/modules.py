#!/usr/bin/env python3
"""The crates and their modules, from the first sentence of each.

    modules.py [--write]

docs/made/MODULES.md has a row for each module but those of tests and benchmarks: its path in `src/`, and the first sentence of its
`//!`. Above them it has that of the crate's root, and what the crate depends on, as crates.txt has it. With `--write` the page is
written anew. Without it a page that is another is one line, as `run.py` has it, which asks this too. So is a module whose first
sentence is missing, has more than 60 words, or is that of another one in its crate. The last line is `N passed, M failed`.
"""
import pathlib
import re
import sys
from typing import Dict, Iterator, List, Set, Tuple

TOP = pathlib.Path(__file__).resolve().parent.parent.parent
sys.path.insert(0, str(TOP / "tests"))
from arguments import status_of_written  # noqa: E402
from counted import Outcome  # noqa: E402
from crates import stands_on  # noqa: E402

PAGE = TOP / "docs/made/MODULES.md"
BEGINNING = """# Modules

What each crate and each of its modules is, as it says itself, and what each crate depends on directly: \
`tests/docs/modules.py --write` writes this page from the sources. \
[ARCHITECTURE.md](../ARCHITECTURE.md) says how the crates go together.
"""
MOST_WORDS = 60
SENTENCE = re.compile(r"(.*?[.])(?:\s|$)")


def sentence_of(path: pathlib.Path) -> str:
    """The first sentence of a module, up to the full stop."""
    words: List[str] = []
    for line in path.read_text().splitlines():
        if not line.startswith("//!") or (words and not line[3:].strip()):
            break
        words.append(line[3:].strip())
    found = SENTENCE.match(" ".join(words))
    return found.group(1) if found else ""


def modules() -> Iterator[Tuple[str, str, str]]:
    """The crate, the path and the first sentence of each module."""
    for crate in stands_on():
        if not crate.startswith(("tcc_tests_", "tcc_bench_")):
            source = TOP / "crates" / crate / "src"
            for path in sorted(source.rglob("*.rt")):
                if path.name != "lib.rt":
                    yield crate, path.relative_to(source).as_posix()[:-3], sentence_of(path)


def root_file(crate: str) -> pathlib.Path:
    """The root file of a crate, a library or a program."""
    library = TOP / "crates" / crate / "src/lib.rt"
    return library if library.exists() else library.with_name("main.rt")


def nearest(crate: str) -> List[str]:
    """What a crate depends on by name, and not by another that it names."""
    told = stands_on()

    def below(one: str) -> Set[str]:
        return set(told.get(one, [])).union(*(below(other) for other in told.get(one, [])))

    return [one for one in told[crate] if not any(one in below(other) for other in told[crate])]


def head_of(crate: str) -> str:
    """What comes above the modules of a crate."""
    below = nearest(crate)
    told = " Depends on %s." % ", ".join("`%s`" % one for one in below) if below else ""
    return "\n## `%s`\n\n%s%s\n\n| module | what it is |\n|---|---|\n" % (crate, sentence_of(root_file(crate)), told)


def page() -> str:
    crates: Dict[str, List[str]] = {}
    for crate, module, sentence in modules():
        crates.setdefault(crate, []).append("| `%s` | %s |\n" % (module, sentence.replace("|", "\\|")))
    return BEGINNING + "".join(head_of(crate) + "".join(rows) for crate, rows in crates.items())


def outcomes() -> Iterator[Outcome]:
    seen: Dict[Tuple[str, str], str] = {}
    for crate, module, sentence in modules():
        twin = seen.setdefault((crate, sentence), module)
        wrong = "has no first sentence" if not sentence else "its first sentence is long" if len(sentence.split()) > MOST_WORDS else \
            "says what %s says" % twin if twin != module else None
        yield "module %s of %s" % (module, crate), wrong
    text = PAGE.read_text() if PAGE.exists() else ""
    yield "modules", None if text == page() else "the page isn't that of the sources: tests/docs/modules.py --write"


def write() -> None:
    PAGE.write_text(page())


def main() -> int:
    return status_of_written("The modules of each crate, from the first sentence of each.", write, outcomes)


if __name__ == "__main__":
    sys.exit(main())
