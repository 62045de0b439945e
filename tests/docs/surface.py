#!/usr/bin/env python3
"""Whether each public name that callers rely on is there still, in its crate: those of `surface.txt`.

    surface.py

A line of that file has a crate, and then the names that it has to make public: calls as `near` or `Book::open`, types as `Link`, and
variants of them as `Link::Derived`. A name may go only with its line, and DECISIONS says why. `run.py` asks this too. Each name
that isn't there is one line; the last line is `N passed, M failed`.
"""
import functools
import pathlib
import re
import sys
from typing import Iterator, Set

TOP = pathlib.Path(__file__).resolve().parent.parent.parent
sys.path.insert(0, str(TOP / "tests"))
import contracts  # noqa: E402
from counted import Outcome, status_of  # noqa: E402

SURFACE = TOP / "tests/docs/surface.txt"
TYPE = re.compile(r"^pub (?:struct|enum|trait|type) (\w+)", re.MULTILINE)
ENUM = re.compile(r"^pub enum (\w+)[^{]*\{\n(.*?)^\}", re.MULTILINE | re.DOTALL)
VARIANT = re.compile(r"^    ([A-Z]\w*)", re.MULTILINE)
DEREF = re.compile(r"^impl Deref for (\w+) \{\n    type Target = (\w+);", re.MULTILINE)
PASSED_ON = re.compile(r"^pub use [\w:]+::(?:\{([^}]*)\}|(\w+));", re.MULTILINE)
RENAMED = re.compile(r"^pub use (tcc_\w+)::(\w+) as (\w+);", re.MULTILINE)
OF_BELOW = re.compile(r"^pub use (tcc_\w+)::(?:\{([^}]*)\}|(\w+));", re.MULTILINE)


@functools.lru_cache(maxsize=None)
def made_public(crate: str) -> Set[str]:
    """The calls, types and variants that a library makes public, and what it passes on, also under another name. `New` of
    `NewWithin` counts for its calls, and a type has the calls of what it dereferences to."""
    source = TOP / "crates" / crate / "src"
    root = (source / "lib.rt").read_text()
    passed_on = set(re.findall(r"\w+", " ".join(group or name for group, name in PASSED_ON.findall(root))))
    names = {call.title for call in contracts.calls(crate)} | passed_on
    for below, name, called in RENAMED.findall(root):
        names |= {called} | {called + one[len(name):] for one in made_public(below) if one.startswith(name + "::")}
    for below, group, single in OF_BELOW.findall(root):
        names |= {one for one in made_public(below) if one.partition("::")[0] in re.findall(r"\w+", group or single)}
    for path in source.rglob("*.rt"):
        text = path.read_text()
        names |= {name for name in TYPE.findall(text) if name in passed_on}
        for enum, body in ENUM.findall(text):
            names |= {"%s::%s" % (enum, variant) for variant in VARIANT.findall(body) if enum in passed_on}
        for small, large in DEREF.findall(text):
            calls = [name.partition("::") for name in names]
            names |= {"%s::%s" % (small, call) for owner, _, call in calls if owner == large and small in passed_on}
    return names | {name.replace("Within::", "::") for name in names}


def outcomes() -> Iterator[Outcome]:
    for line in SURFACE.read_text().split("\n"):
        crate, _, names = line.partition(": ")
        for name in names.split():
            yield "%s: %s" % (crate, name), None if name in made_public(crate) else "it isn't public"


if __name__ == "__main__":
    sys.exit(status_of(outcomes()))
