#!/usr/bin/env python3
"""The layers of the crates, as crates.txt has them, and the picture of them in docs/made/layers.svg.

    layers.py [--write]

A layer begins in crates.txt with a line `# == NAME`. No crate names one that comes after it. ARCHITECTURE has the layers in the same
order, each with what must hold in it. The picture has a band for each layer, the highest on top, with a box for each of its crates;
what a crate rests on is in bands below, or to its left. With `--write` it is drawn anew. Without it a picture that isn't that of
crates.txt is one line, as `run.py` has it, which asks this too. The last line is `N passed, M failed`.
"""
import html
import pathlib
import sys
from typing import Dict, Iterator, List

TOP = pathlib.Path(__file__).resolve().parent.parent.parent
sys.path.insert(0, str(TOP / "tests"))
from arguments import status_of_written  # noqa: E402
from counted import Outcome  # noqa: E402
from crates import stands_on  # noqa: E402

PICTURE, ARCHITECTURE = TOP / "docs/made/layers.svg", TOP / "docs/ARCHITECTURE.md"
HEADING, TABLE = "# == ", "| layer | what must hold |"
# Pixels: of the picture, of a band's name, of a box and between boxes, and of a letter.
WIDTH, MARGIN, HIGH, GAP, LETTER = 960, 12, 26, 8, 7.3
TEXT = '<text x="%g" y="%g" font-family="monospace" font-size="12" fill="%s">%s</text>'
BOX = '<rect x="%g" y="%g" width="%g" height="%g" rx="3" fill="%s" stroke="#888"/>'


def layers() -> Dict[str, List[str]]:
    """The layers, lowest first, each with its crates."""
    found: Dict[str, List[str]] = {}
    for line in (TOP / "crates.txt").read_text().splitlines():
        if line.startswith(HEADING):
            found[line[len(HEADING):]] = []
        elif ":" in line.partition("#")[0]:
            list(found.values())[-1].append(line.split(":")[0].split()[0])
    return found


def rows(crates: List[str]) -> List[List[str]]:
    """The crates of a layer in rows that are no wider than the picture."""
    found: List[List[str]] = [[]]
    for crate in crates:
        taken = sum(wide(one) + GAP for one in found[-1])
        if found[-1] and taken + wide(crate) > WIDTH - 2 * MARGIN:
            found.append([])
        found[-1].append(crate)
    return found


def wide(crate: str) -> float:
    """How wide the box of a crate is."""
    return len(crate) * LETTER + 12


def band(name: str, crates: List[str], top: float) -> List[str]:
    """The parts of a layer's band, which begins at that height."""
    high = HIGH + len(rows(crates)) * (HIGH + GAP)
    parts = [BOX % (0, top, WIDTH, high, "#f4f4f0"), TEXT % (MARGIN, top + 18, "#555", html.escape(name))]
    for number, row in enumerate(rows(crates)):
        left, at = float(MARGIN), top + HIGH + number * (HIGH + GAP)
        for crate in row:
            parts += [BOX % (left, at, wide(crate), HIGH, "#fff"), TEXT % (left + 6, at + 17, "#111", crate)]
            left += wide(crate) + GAP
    return parts


def picture() -> str:
    """The picture, as SVG."""
    parts, top = [], 0.0
    for name, crates in reversed(list(layers().items())):
        parts += band(name, crates, top)
        top += HIGH + len(rows(crates)) * (HIGH + GAP) + GAP
    head = '<svg xmlns="http://www.w3.org/2000/svg" viewBox="0 0 %g %g" width="%g" role="img">' % (WIDTH, top - GAP, WIDTH)
    return "\n".join([head, "<title>The crates of tcc by layer, the lowest below</title>", *parts, "</svg>"]) + "\n"


def told() -> List[str]:
    """The layers that ARCHITECTURE has, in its order."""
    after = ARCHITECTURE.read_text().partition(TABLE)[2].splitlines()[2:]
    return [line.split("|")[1].strip() for line in after[:next((at for at, line in enumerate(after) if not line.startswith("|")), len(after))]]


def outcomes() -> Iterator[Outcome]:
    of_all = [crate for crates in layers().values() for crate in crates]
    yield "layers", None if sorted(of_all) == sorted(stands_on()) else "a crate of crates.txt is in none"
    for at, crate in enumerate(of_all):
        late = [one for one in stands_on()[crate] if one in of_all[at:]]
        yield "layer of %s" % crate, "it names %s, which comes after it" % ", ".join(late) if late else None
    yield "layers of ARCHITECTURE", None if told() == list(layers()) else "are %s, and those of crates.txt %s" % (told(), list(layers()))
    yield "docs/made/layers.svg", None if PICTURE.is_file() and PICTURE.read_text() == picture() else "it isn't that of crates.txt: tests/docs/layers.py --write"


def write() -> None:
    PICTURE.write_text(picture())


if __name__ == "__main__":
    sys.exit(status_of_written("docs/made/layers.svg, from crates.txt.", write, outcomes))
