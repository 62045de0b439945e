#!/usr/bin/env python3
"""docs/made/claims/, which has a page for each main claim, from the sources.

    claims.py [--write]

A page has the claim in words, the clauses that say it, and all definitions of this repository that they rest on. First come those
that the clauses cite, then those that these cite, and so on. Types that the code declares are shown as it declares them. What an
earlier page has is named there with a link, and not repeated. What std defines isn't shown. With `--write` the pages are written
anew. Without it a page that isn't what the sources give is one line; `run.py` asks this too. The last line is `N passed, M failed`.
"""
import collections
import pathlib
import re
import sys
from typing import Dict, Iterator, List, NamedTuple, Optional, Tuple

TOP = pathlib.Path(__file__).resolve().parent.parent.parent
sys.path.insert(0, str(TOP / "tests"))
from arguments import status_of_written  # noqa: E402
from counted import Outcome  # noqa: E402
from imports import LINE, imports  # noqa: E402
from trust import CALL, HEAD, WORD, Definition, Names, contract, definitions  # noqa: E402

PAGES = TOP / "docs/made/claims"
TYPE = re.compile(r"^pub (?:enum|struct) (\w+)", re.MULTILINE)


class Claim(NamedTuple):
    """A page: its file, its heading, what a reader should know first, and the functions whose clauses say the claim."""

    page: str
    title: str
    words: str
    calls: Tuple[Tuple[str, str], ...]


CLAIMS = (
    Claim("check", "What an accepted certificate shows",
          "Whoever trusts nothing else can trust this. `tcc check` answers `Accepted` exactly where the rules hold (`verdict`), and a "
          "certificate that keeps the rules claims what is true: an order that satisfies the axiom, or a cycle than which no other "
          "has fewer steps. The definitions below are all that one has to believe; no search, distance or price is among them.",
          (("tcc_check/src/laws.rt", "certified"), ("tcc_check/src/checking.rt", "check"))),
    Claim("explain", "What is answered for a snapshot",
          "The main theorem, of the call that decides a history within the default limits. `headline` says that the answer is right "
          "and that its certificate is accepted; `first` says that it is the first answer, which no worker and no schedule changes.",
          (("tcc_run/src/headline.rt", "explain_snapshot"),)),
    Claim("bytes", "What `tcc explain` prints",
          "The main theorem of a run: from the bytes of the records to those of the answer, of the certificate's file and the status.",
          (("tcc_run/src/laws.rt", "headline"),)),
    Claim("check-large", "What an accepted certificate of any size shows",
          "The rules of version 3, and what holds of every history for which a certificate keeps them.",
          (("tcc_verdict/src/large/laws.rt", "accepted"),)),
    Claim("large", "What `tcc explain --large` prints",
          "The main theorem of a run with `--large`, of records up to the large limits.",
          (("tcc_run/src/large/laws.rt", "headline"),)),
    Claim("survey", "What `tcc survey` prints",
          "What a run of the survey says of the bytes that it reads and writes, within the default limits or the large ones (`large`).",
          (("tcc_survey_run/src/running.rt", "run_survey"), ("tcc_survey_run/src/running.rt", "run_survey_watched"))),
    Claim("watch", "What `tcc watch` prints",
          "What a watch says at each seal and at the end, by what all records up to there finish. It answers what `tcc explain "
          "--large` does, but an order of a consistent history is left out, and an anomaly is printed once.",
          (("tcc_watch_run/src/running.rt", "run_watch"),)),
    Claim("quiet", "What `tcc explain --large --quiet` prints",
          "The same run as with `--large`, without files, whose consistent answers have no order.",
          (("tcc_watch_run/src/quiet.rt", "run_quiet"),)),
    Claim("full", "What `tcc explain --full` prints",
          "One line of JSON with all about the answer to the whole of the records.",
          (("tcc_full/src/running.rt", "run_full"),)),
)


def texts_of(path: pathlib.Path) -> Dict[str, str]:
    """The definitions of a file of specs, each as it is there, with the comment above it."""
    found: Dict[str, List[str]] = collections.OrderedDict()
    ahead: List[str] = []
    name = None
    for line in path.read_text().splitlines():
        head = HEAD.match(line)
        if head:
            name = head.group(1)
            found.setdefault(name, []).extend([*ahead, line])
            ahead = []
        elif line.startswith("--"):
            ahead.append(line)
        elif LINE.match(line) or line.startswith(("use ", "pub use ", "syntax ")):
            ahead, name = [], None
        elif name and line.strip():
            found[name] += [*ahead, line]
            ahead = []
    return {one: "\n".join(lines) for one, lines in found.items()}


def text_of(one: Definition) -> str:
    """A definition as its file has it."""
    return texts_of(TOP / "crates" / one.crate / "specs" / (one.module.replace(".", "/") + ".antt"))[one.name]


def ordered(said: List[Tuple[pathlib.Path, str]]) -> List[Definition]:
    """What these clauses rest on, each after one that cites it, those that are cited together in the order of their files."""
    known: Dict[Definition, None] = collections.OrderedDict()
    ahead = sorted({one for path, text in said for one in Names(path.read_text()).cited(text)})
    while ahead:
        fresh = [one for one in ahead if one in definitions() and one not in known]
        known.update(dict.fromkeys(fresh))
        ahead = sorted({other for one in fresh for other in definitions()[one]})
    return list(known)


def types_below(found: List[Definition]) -> List[Tuple[str, str, str]]:
    """The types of the code that these definitions name: crate, file and declaration."""
    declared = set()
    for one in found:
        text = (TOP / "crates" / one.crate / "specs" / (one.module.replace(".", "/") + ".antt")).read_text()
        words = {part for word in WORD.findall(text_of(one)) for part in word.split(".")}
        for other in imports(text):
            path = other.module.split(".")
            if path[0] == "declared" and (other.called in words or other.name in words):
                declared.add((other.crate, tuple(path[1:])))
    shown = []
    for crate, path in sorted(declared):
        names = [one for one in path if one[:1].isupper() and not one.startswith("The")]
        source = TOP / "crates" / crate / "src" / ("/".join(one for one in path if one[:1].islower()) + ".rt")
        text = source.read_text() if names and source.exists() else ""
        for match in TYPE.finditer(text):
            if match.group(1) == names[0]:
                first = text.rfind("\n\n", 0, match.start()) + 2
                end = re.compile(r"(?m)^\}|;$").search(text, match.end())
                lines = text[first:end.end() if end else match.end()].splitlines()
                declaration = "\n".join(line for line in lines if not line.startswith(("#[", "//!", "use ", "ghost use ")))
                shown.append((crate, source.name, declaration.strip()))
    return list(dict.fromkeys(shown))


def clauses(file: str, name: str) -> Tuple[pathlib.Path, str]:
    """The head of a function of that name, with its clauses."""
    path = TOP / "crates" / file
    lines = path.read_text().splitlines()
    for index, line in enumerate(lines):
        call = CALL.match(line)
        if call and call.group(3) == name:
            return path, contract(lines, index)
    raise KeyError("%s has no %s" % (file, name))


def page(claim: Claim, earlier: Dict[Definition, str]) -> Tuple[str, Dict[Definition, str]]:
    """The text of a page, and the page of each definition that is shown by then."""
    said = [clauses(*call) for call in claim.calls]
    found = ordered(said)
    fresh = [one for one in found if one not in earlier]
    parts = ["# %s\n" % claim.title, claim.words + "\n",
             "`tests/docs/claims.py --write` writes this page from the sources. [HEADLINE.md](../../HEADLINE.md) says under which premises it "
             "holds, and [MODEL.md](../../MODEL.md) has the definitions in words.\n", "## The clauses\n"]
    for (file, name), (_, text) in zip(claim.calls, said):
        parts.append("`%s` (`crates/%s`):\n\n```rust\n%s\n```\n" % (name, file, text))
    rest = collections.Counter(earlier[one] for one in found if one in earlier)
    for other, count in rest.items():
        names = ", ".join(sorted("`%s`" % one.name for one in found if earlier.get(one) == other))
        parts.append("It rests on %d definitions of [%s.md](%s.md) too: %s.\n" % (count, other, other, names))
    texts = {one: text_of(one) for one in fresh}
    lines = sum(text.count("\n") + 1 for text in texts.values())
    parts.append("## The definitions\n\n%d definitions, %d lines, each after the first that cites it.\n" % (len(fresh), lines))
    place: Optional[Tuple[str, str]] = None
    block: List[str] = []
    for one in [*fresh, None]:
        if one is None or (one.crate, one.module) != place:
            if place:
                parts.append("`%s/specs/%s.antt`\n\n```\n%s\n```\n" % (place[0], place[1].replace(".", "/"), "\n\n".join(block)))
            place, block = (one.crate, one.module) if one else None, []
        if one:
            block.append(texts[one])
    types = types_below(fresh)
    if types:
        parts.append("## The types of the code that they name\n")
        parts += ["`%s/src/%s`\n\n```rust\n%s\n```\n" % one for one in types]
    return "\n".join(parts), {**earlier, **dict.fromkeys(fresh, claim.page)}


def pages() -> Iterator[Tuple[pathlib.Path, str]]:
    """Each page with its text."""
    shown: Dict[Definition, str] = {}
    for claim in CLAIMS:
        text, shown = page(claim, shown)
        yield PAGES / (claim.page + ".md"), text


def outcomes() -> Iterator[Outcome]:
    """Whether each page is what the sources give, and no other is there."""
    made = dict(pages())
    for path, text in made.items():
        is_same = path.exists() and path.read_text() == text
        yield path.relative_to(TOP).as_posix(), None if is_same else "it isn't that of the sources: tests/docs/claims.py --write"
    for path in sorted(PAGES.glob("*")):
        if path not in made:
            yield path.relative_to(TOP).as_posix(), "no claim has this page"


def write() -> None:
    PAGES.mkdir(exist_ok=True)
    for path, text in pages():
        path.write_text(text)


def main() -> int:
    return status_of_written("docs/made/claims/, from the sources.", write, outcomes)


if __name__ == "__main__":
    sys.exit(main())
