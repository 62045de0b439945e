#!/usr/bin/env python3
"""Whether the documents are in plain English: short sentences, and the usual word.

    plain.py [DOCUMENT..]

Sentences are counted outside tables, headings, code and pages that a script makes: on average at most 18 words in each document,
and in none more than 35. So are those of the man page, without its tags and its synopsis. What is in backquotes is one word, and of
a link its text counts. README and the pages of docs/ have at most `MOST` words together, tables and headings counted too, and all
documents that no script makes at most `MOST_OF_ALL`. `WORDS` has the words that a reader stumbled over, each only in the sense in
which another word is the usual one. Each comes with an example that has to be refused and one that has to pass. They are looked for
in tables and headings too, in the man page, and in the comments and docstrings of all scripts, and in the comments of all crates,
whose sentences are counted too. Printed texts are code, so they keep their words. Each term of the glossary has to be used in some
other document. Each difference is one line, as `run.py` has it, which asks this of all documents. With documents on the command
line these are asked, and their average is shown. The last line is `N passed, M failed`.
"""
import ast
import io
import pathlib
import re
import sys
import tokenize
from typing import Iterator, List, NamedTuple, Tuple

TOP = pathlib.Path(__file__).resolve().parent.parent.parent
sys.path.insert(0, str(TOP / "tests"))
from counted import Outcome, status_of  # noqa: E402

PAGE, GLOSSARY = TOP / "docs/tcc.1", TOP / "docs/GLOSSARY.md"
AVERAGE, LONGEST, MOST, MOST_OF_ALL = 18, 35, 23800, 33000
FENCED = re.compile(r"```.*?```", re.DOTALL)
SPAN = re.compile(r"`[^`\n]+`")
BOLD = re.compile(r"\\fB.*?\\fR")
# A line of the man page that goes on with a sentence in another font; every other macro ends the paragraph.
FONT = re.compile(r"\.(?:[BI]|BR|RB|BI|IB|IR|RI) (.*)")
IMAGE = re.compile(r"!\[[^\]]*\]\([^)]*\)")
LINK = re.compile(r"\[([^\]]*)\]\([^)]*\)")
TERM = re.compile(r"^\| ([^|]+?) \| [^-]", re.MULTILINE)
# The crates, and what a comment is in their files.
CRATES = sorted(path.name for path in (TOP / "crates").iterdir() if path.is_dir())
COMMENT = {".rt": re.compile(r"(?:^|(?<=\s))//[/!]?(.*)$"), ".antt": re.compile(r"--(.*)$")}
ITEM = re.compile(r"^\s*(?:[-*]|\d+\.)\s+")
# A full stop, with what closes after it, before a space and what may begin a sentence.
END = re.compile(r"(?<=[a-z0-9A-Z)\"'*_%²])[.?!][)\"'*_]*\s+(?=[\"'(*_\[]*[A-Z0-9~])")
# What a span of code becomes, and what comes before the text of a link: both may begin a sentence.
CODE, LINKED = "~code", r"~\1"


class Word(NamedTuple):
    """A word in a sense that has a better word: its pattern, that word, and a text that it refuses and one that it lets pass."""

    pattern: str
    better: str
    refused: str
    passes: str


WORDS = (
    Word(r"(?<!left )(?<!leaves )\bbehind\b(?! (?:a|the) (?:proxy|firewall|load))",
         "after", "the line behind it", "a store behind a proxy"),
    Word(r"\b(?:stands?|stood|standing) (?:for|in|on|at|there|here|before|after|above|below|between|beside|alone|"
         r"under|as|by|last|first|once|of|out|round|not)\b|\bstands?[.,;:)]",
         "is, comes, represents, depends on", "b stands before a", "a stand-alone program, and what a reader can stand"),
    Word(r"\b(?:is|are|was|were|be|been|being) told\b(?! (?:to|how|which|whether|that|about))|\btold (?:of|by|in|"
         r"there|as|once)\b",
         "reported, described, said", "the kind is told of a record", "the program is told to stop"),
    Word(r"\btell(?:s|ing)? of\b|\bnobody tells\b",
         "reports, says, lists", "one line tells of each", "that tells two kinds apart"),
    Word(r"\b(?:go|goes|going|went|gone|puts?|putting) out\b(?! of)",
         "is written, prints", "the text goes out", "a value goes out of range"),
    Word(r"\b(?:takes?|took|taken|taking) (?:it|one|them|this|that|these|those) for\b|\btaken for\b",
         "accepts as", "it takes one for another", "it takes one second for each"),
    Word(r"\blimits? without\b|\b(?:within|past) the limits\b(?! of)",
         "within, above the default limits", "past the limits without it", "within the limits of rule 6"),
    Word(r"\bwhat (?:it|they) carr(?:y|ies)\b|\bwhat carries\b|\bcarried by\b",
         "what proves it", "what it carries", "a map carries links"),
    Word(r"\b(?:come|comes|came) of (?:a|an|it|them|this|that|the)\b",
         "the result of", "what may come of a text", "they come often"),
    Word(r"\b(?:it|that) is said (?:of|that)\b|\bit is said\b",
         "put the subject first", "of X it is said that", "what is said there"),
    Word(r"\bwrong bod(?:y|ies)\b", "mutant", "a wrong body", "a wrong answer"),
    Word(r"\brows? of the (?:input|history|records)\b", "record", "a row of the input", "a row of the table"),
    Word(r"\bnumbers? of (?:a|the|each|its|another) transaction\b",
         "index", "the number of a transaction", "the number of transactions"),
    Word(r"\boutcomes? that nobody\b", "unknown outcomes", "outcomes that nobody knows", "unknown outcomes"),
    Word(r"\b(?:first|next|last|by|only|but) so many\b|\bso many (?:threads|workers|bytes|rounds)\b",
         "n", "the next so many", "not so many as before"),
    Word(r"\b(?:lends?|lent|hands? on|handed on)\b", "borrows, forwards, returns", "it lends a slice", "it forwards a call"),
    Word(r"\b(?:the|this|our|other) houses?\b", "the project", "a name of this house", "a data warehouse"),
    Word(r"\b(?:knew|knows?) of\b", "had observed", "c knew of b", "nothing is known about it"),
)


def stripped(text: str) -> List[str]:
    """The lines of a document without its code, each where it was; a span of code is one word."""
    text = FENCED.sub(lambda block: "\n" * block.group().count("\n"), text)
    return LINK.sub(LINKED, IMAGE.sub("", SPAN.sub(CODE, text))).splitlines()


def sentences(text: str) -> Iterator[Tuple[int, str]]:
    """The sentences of a document outside tables and headings, each with the line at which its paragraph begins."""
    first, words = 0, ""
    for number, line in enumerate([*stripped(text), ""], 1):
        ends = not line.strip() or line.lstrip().startswith(("|", "#")) or ITEM.match(line)
        if ends and words:
            yield from ((first, one) for one in END.split(words) if one.strip())
            words = ""
        if line.strip() and not line.lstrip().startswith(("|", "#")):
            if not words:
                first = number
            words += ITEM.sub("", line, count=1) + " "


def length(sentence: str) -> int:
    return sum(any(letter.isalnum() for letter in word) for word in sentence.split())


def faults_of_line(name: str, line: str) -> Iterator[Outcome]:
    """Which words of a line have a better one."""
    for word in WORDS:
        for use in re.finditer(word.pattern, line, re.IGNORECASE):
            yield name, "'%s': %s" % (line[max(0, use.start() - 20):use.end() + 12].strip(), word.better)


def faults_of_length(name: str, found: List[Tuple[str, str]]) -> Iterator[Outcome]:
    """Which of these sentences of a text are too long, each with its place, and whether they are on average."""
    average = sum(length(sentence) for _, sentence in found) / max(len(found), 1)
    yield name, None if average <= AVERAGE else "%.1f words a sentence, and %d are allowed" % (average, AVERAGE)
    for place, sentence in found:
        if length(sentence) > LONGEST:
            yield place, "a sentence of %d words: %s.." % (length(sentence), sentence[:60])


def faults_of(path: pathlib.Path) -> Iterator[Outcome]:
    """What is long in a document, and which of its words have a better one."""
    name, text = path.relative_to(TOP).as_posix(), path.read_text()
    yield from faults_of_length(name, [("%s, line %d" % (name, number), sentence) for number, sentence in sentences(text)])
    for number, line in enumerate(stripped(text), 1):
        yield from faults_of_line("%s, line %d" % (name, number), line)


def faults_of_glossary() -> Iterator[Outcome]:
    """Whether the glossary has each term once, and some other document uses it."""
    terms = [term.strip("`") for term in TERM.findall(GLOSSARY.read_text()) if term != "term"]
    others = " ".join(path.read_text().lower() for path in documents() if path != GLOSSARY)
    for term in sorted(set(terms)):
        is_used = re.search(r"(?<![\w-])%s" % re.escape(term.lower()), others)
        yield "glossary: %s" % term, "it has it twice" if terms.count(term) > 1 else None if is_used else "no other document uses it"


def paragraphs_of_page(text: str) -> Iterator[Tuple[int, str]]:
    """The paragraphs of the man page, each with the line at which it begins; neither its tags nor its synopsis, nor what is shown."""
    first, words, is_left_out, is_tag = 0, "", False, False
    for number, line in enumerate([*BOLD.sub(CODE, text).splitlines(), ".PP"], 1):
        font = FONT.match(line)
        if line.startswith(".") and not font:
            if words:
                yield first, words
            words, is_tag = "", line == ".TP"
            is_left_out = line in (".SH SYNOPSIS", ".nf") or (is_left_out and not line.startswith((".SH", ".fi")))
        elif is_tag:
            is_tag = False
        elif not is_left_out:
            first = first if words else number
            words += (font.group(1) if font else line).replace('"', "").replace("\\", "") + " "


def faults_of_page() -> Iterator[Outcome]:
    """What is long in the man page, and which of its words have a better one; what is bold there is printed, or typed."""
    text, name = PAGE.read_text(), str(PAGE.relative_to(TOP))
    found = [("%s, line %d" % (name, number), one) for number, words in paragraphs_of_page(text) for one in END.split(words) if one.strip()]
    yield from faults_of_length(name, found)
    for number, line in enumerate(BOLD.sub(CODE, text).splitlines(), 1):
        if not line.startswith(".B"):
            yield from faults_of_line("%s, line %d" % (name, number), line)


def faults_of_all() -> Iterator[Outcome]:
    """Whether README and the pages of docs/ have no more words together than they may have, and whether all documents have."""
    pages = [path for path in documents() if path == TOP / "README.md" or path.parent == TOP / "docs"]
    for name, paths, most in (("README and docs", pages, MOST), ("all documents", documents(), MOST_OF_ALL)):
        count = sum(length(line) for path in paths for line in stripped(path.read_text()))
        yield "words of " + name, None if count <= most else "%d, and %d are allowed" % (count, most)


def comments(path: pathlib.Path) -> Iterator[Tuple[int, str]]:
    """The comments of a file, each with its line; of a script its docstrings too."""
    text = path.read_text()
    if path.suffix != ".py":
        yield from ((number, found.group(1)) for number, line in enumerate(text.splitlines(), 1)
                    for found in COMMENT[path.suffix].finditer(line))
        return
    yield from ((one.start[0], one.string) for one in tokenize.generate_tokens(io.StringIO(text).readline) if one.type == tokenize.COMMENT)
    for one in ast.walk(ast.parse(text)):
        if isinstance(one, (ast.Module, ast.ClassDef, ast.FunctionDef)) and ast.get_docstring(one):
            yield from enumerate(one.body[0].value.value.splitlines(), one.body[0].lineno)


def paragraphs(path: pathlib.Path) -> Iterator[Tuple[int, str]]:
    """The comments of a source that have lines of their own, those of neighbouring lines together, each with its first line."""
    first, lines = 0, []
    for number, line in enumerate([*path.read_text().splitlines(), ""], 1):
        found = COMMENT[path.suffix].match(line.lstrip())
        if found:
            first = first if lines else number
            lines.append(found.group(1))
        elif lines:
            yield first, "\n".join(lines)
            lines = []


def faults_of_crate(crate: str) -> Iterator[Outcome]:
    """What is long in the comments of a crate; the lists of its proofs, `Lib.antt`, are tables."""
    paths = [path for path in (TOP / "crates" / crate).rglob("*") if path.suffix in COMMENT and path.stem != "Lib"]
    found = [("%s, line %d" % (path.relative_to(TOP), first + number - 1), sentence) for path in sorted(paths) if "out" not in path.parts
             for first, text in paragraphs(path) for number, sentence in sentences(text)]
    yield from faults_of_length("comments of " + crate, found)


def faults_of_comments() -> Iterator[Outcome]:
    """Which words of comments have a better one, in the scripts and in the crates."""
    scripts = (path for folder in ("python", "recipes", "tests", "bench") for path in (TOP / folder).rglob("*.py"))
    sources = (path for crate in CRATES for path in (TOP / "crates" / crate).rglob("*") if path.suffix in COMMENT)
    for path in (*scripts, *sources):
        name = path.relative_to(TOP).as_posix()
        if "out" not in name.split("/"):
            yield name, None
            for number, text in comments(path):
                yield from faults_of_line("%s, line %d" % (name, number), SPAN.sub(CODE, text))


def faults_of_patterns() -> Iterator[Outcome]:
    """Whether each pattern refuses its example, and lets the other one pass."""
    for word in WORDS:
        yield "refused: " + word.refused, None if re.search(word.pattern, word.refused) else "it passes"
        yield "passes: " + word.passes, None if not re.search(word.pattern, word.passes) else "it is refused"


def documents() -> List[pathlib.Path]:
    """What is asked: all documents but those of docs/made/, which scripts make."""
    found = [TOP / "README.md", TOP / "CHANGELOG.md", TOP / "CONTRIBUTING.md", TOP / "tests/rows/README.md", *(TOP / "docs").glob("*.md"),
             *TOP.glob("*/README.md")]
    return sorted(found)


def outcomes() -> Iterator[Outcome]:
    yield from faults_of_patterns()
    for document in documents():
        yield from faults_of(document)
    yield from faults_of_all()
    yield from faults_of_page()
    yield from faults_of_comments()
    for crate in CRATES:
        yield from faults_of_crate(crate)
    yield from faults_of_glossary()


def main() -> int:
    asked = [pathlib.Path(one).resolve() for one in sys.argv[1:]]
    for path in asked:
        counts = [length(one) for _, one in sentences(path.read_text())]
        average = sum(counts) / max(len(counts), 1)
        print("%s: %d sentences, %.1f words on average, %d at most" % (path.name, len(counts), average, max(counts, default=0)))
    return status_of((fault for path in asked for fault in faults_of(path)) if asked else outcomes())


if __name__ == "__main__":
    sys.exit(main())
