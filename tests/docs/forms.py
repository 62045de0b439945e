#!/usr/bin/env python3
"""The table of public forms in docs/DECISIONS.md, from forms.json, and whether the sources have them so.

    forms.py [--write]

A row of that file has what the first design of the public calls had in another form, what there is today, and why. `there` are
texts that the sources of the crate have, and `gone` texts that they don't have, comments and line breaks aside. Either may be one
text, some, or those of several crates by their names. With `--write` the table is written anew. Without it a table that is another
one is a line, and so is each text that is gone or there against the file; `run.py` asks this too. The last line is
`N passed, M failed`.
"""
import functools
import json
import pathlib
import re
import sys
from typing import Any, Dict, Iterator, List, Tuple

TOP = pathlib.Path(__file__).resolve().parent.parent.parent
sys.path.insert(0, str(TOP / "tests"))
from arguments import status_of_written  # noqa: E402
from counted import Outcome  # noqa: E402

DECISIONS, FORMS = TOP / "docs/DECISIONS.md", TOP / "tests/docs/forms.json"
HEAD = "| in | first design | today | why |\n|---|---|---|---|\n"
TABLE = re.compile(r"(?m)^%s(?:\|.*\n)*" % re.escape(HEAD))
COMMENT = re.compile(r"(?m)^\s*//.*$")
SPACE = re.compile(r"\s+")
# Whether a form is one of which the sources have the texts.
SIDES = (("there", True), ("gone", False))


def forms() -> List[Dict[str, Any]]:
    return list(json.loads(FORMS.read_text()))


def table() -> str:
    return HEAD + "".join("| `%s` | %s | %s | %s |\n" % (one["crate"], one["first"], one["today"], one["why"]) for one in forms())


@functools.lru_cache(maxsize=None)
def source(crate: str) -> str:
    """The sources of a crate, in one line."""
    texts = (path.read_text() for path in sorted((TOP / "crates" / crate / "src").rglob("*.rt")))
    return SPACE.sub(" ", " ".join(COMMENT.sub("", text) for text in texts))


def texts_of(crate: str, asked: Any) -> Iterator[Tuple[str, str]]:
    """The texts of a form, each with the crate that is asked for it."""
    by_crate = asked if isinstance(asked, dict) else {crate: asked}
    for name, texts in by_crate.items():
        for text in [texts] if isinstance(texts, str) else texts:
            yield name, text


def write() -> None:
    DECISIONS.write_text(TABLE.sub(lambda _: table(), DECISIONS.read_text()))


def outcomes() -> Iterator[Outcome]:
    found = TABLE.findall(DECISIONS.read_text())
    yield "public forms of DECISIONS", None if found == [table()] else "they aren't those of forms.json: forms.py --write"
    for one in forms():
        for side, is_there in SIDES:
            for crate, text in texts_of(one["crate"], one[side]):
                wrong = None if (text in source(crate)) == is_there else "the sources %s it" % ("lack" if is_there else "have")
                yield "%s: `%s`" % (crate, text), wrong


if __name__ == "__main__":
    sys.exit(status_of_written("The table of public forms.", write, outcomes))
