#!/usr/bin/env python3
"""What the documents say about statuses, limits and ties, from the sources.

    told.py [--write]

The words of a status are those of its variant in `crates/tcc_print/src/status.rt`, and its number is that of `code` there. The
limits are the constants of `crates/tcc_txn/src/limits.rt` and of `crates/tcc_base/src/workers.rt`. From these come the exit
statuses and the limits of docs/GUIDE.md and of the man page, the limits of the package, and the sentences with a limit in documents
and help (`HELD`). The rule of ties in docs/MODEL.md comes from the comments of `crates/tcc_graph/specs/Ties.antt`. `--write` writes
them all anew. `kinds.py` writes what names the kinds of faults. Help has to name each status, README has no more words than it may
have, and the limits on transactions are in few files: others name the constant. Each difference is one line, as `run.py` has it, which asks this too; the last line is `N passed, M failed`.
"""
import pathlib
import re
import sys
from typing import Dict, Iterator, List, Tuple

TOP = pathlib.Path(__file__).resolve().parent.parent.parent
sys.path.insert(0, str(TOP / "tests"))
from arguments import status_of_written  # noqa: E402
from counted import Outcome  # noqa: E402
from kinds import codes  # noqa: E402
from limits import filled, form_of, limits  # noqa: E402

README, GUIDE, MODEL, PAGE = TOP / "README.md", TOP / "docs/GUIDE.md", TOP / "docs/MODEL.md", TOP / "docs/tcc.1"
LIMITS_OF_PACKAGE = TOP / "python/tcc/common/limits.py"
MOST_WORDS, MOST_FILES = 886, 25
WITH_NUMBERS = {".1", ".antt", ".bash", ".edit", ".json", ".md", ".py", ".rt", ".toml", ".txt"}
VARIANT = re.compile(r"((?: *///.*\n)+) *(\w+),\n")
QUOTED = re.compile(r"`([^`]+)`")
COMPARED = re.compile(r"((?:^-- .*\n)+)abbrev pub (\w+_(?:cmp|kind)) :", re.MULTILINE)
LIMITS = ("{MAX_SESSIONS} sessions, {MAX_TRANSACTIONS} transactions%s of {MAX_OPERATIONS} operations%s, {MAX_KEYS} keys, "
          "{MAX_SEALS} seals%s {MAX_INPUT_BYTES} bytes")
LARGE = "{LARGE_SESSIONS} sessions, {LARGE_TRANSACTIONS} transactions, {LARGE_KEYS} keys, {LARGE_SEALS} seals%s {LARGE_INPUT_BYTES} bytes"
IN_GUIDE = """| of a history, at most | by default | with `--large` |
|---|---|---|
| sessions | {MAX_SESSIONS} | {LARGE_SESSIONS} |
| transactions, aborted ones counted | {MAX_TRANSACTIONS} | {LARGE_TRANSACTIONS} |
| operations of a transaction | {MAX_OPERATIONS} | {MAX_OPERATIONS} |
| keys | {MAX_KEYS} | {LARGE_KEYS} |
| seals | {MAX_SEALS} | {LARGE_SEALS} |
| bytes | {MAX_INPUT_BYTES} | {LARGE_INPUT_BYTES} |
"""
IN_PAGE = (".SH LIMITS\n" + LIMITS % (", aborted ones counted,", " each", ",") + ".\n.PP\nWith \\fB\\-\\-large\\fR " + LARGE % ","
           + "; as many operations.\n")
HELD = {
    "README.md": ("up to {MAX_SESSIONS} sessions and {MAX_TRANSACTIONS} transactions, or {LARGE_SESSIONS} and 16 million with `--large`",),
    "docs/GUIDE.md": (
        "more than {MAX_SESSIONS} sessions or {MAX_TRANSACTIONS} transactions",
        "search for a small certificate, 1 to {MAX_WORKERS}."),
    "docs/RECORDING.md": (
        "A history has at most {MAX_SESSIONS} sessions, or {LARGE_SESSIONS} with `--large`",
        "There are at most {MAX_SESSIONS}, each name once"),
    "docs/FORMATS.md": (
        "names: 1 to {MAX_NAME_BYTES} bytes",),
    "docs/tcc.1": ("names: 1 to {MAX_NAME_BYTES} bytes", "N threads, 1 to {MAX_WORKERS}, order"),
    "docs/HEADLINE.md": ("`Workers`, a type of 1 to {MAX_WORKERS}",),
    "crates/tcc_cli/src/command_line.rt": (
        "so many threads, 1 to {!MAX_WORKERS};", "Takes up to {!LARGE_TRANSACTIONS} transactions of {!LARGE_SESSIONS} sessions"),
    "crates/tcc_cli/src/help.rt": (
        "1 to {!MAX_NAME_BYTES} of A-Z",
        "up to {!LARGE_TRANSACTIONS} transactions, {!LARGE_SESSIONS} sessions and {!LARGE_KEYS} keys, in place of\n"
        "{!MAX_TRANSACTIONS}, {!MAX_SESSIONS} and {!MAX_KEYS}",
        "more than {!MAX_INPUT_BYTES} bytes, with '--large' {!LARGE_INPUT_BYTES},",
        "HISTORY has up to {!LARGE_TRANSACTIONS} transactions, {!LARGE_SESSIONS} sessions and {!LARGE_KEYS} keys",
        "the history has more than {!MAX_INPUT_BYTES} bytes, with '--large' {!LARGE_INPUT_BYTES},",
        "the input has more than {!LARGE_INPUT_BYTES} bytes, or a file",
        "tcc limits --json | jq .large.transactions\n  {!LARGE_TRANSACTIONS}"),
}


def source(path: str) -> str:
    return (TOP / "crates" / path).read_text()


def statuses() -> List[Tuple[int, List[str]]]:
    """Each number, with the words of its statuses without their full stops."""
    enum = source("tcc_print/src/status.rt").partition("pub enum Status {\n")[2].partition("\n}")[0] + "\n"
    words: Dict[int, List[str]] = {}
    for comment, name in VARIANT.findall(enum):
        text = " ".join(line.strip()[3:].strip() for line in comment.splitlines())
        words.setdefault(codes()[name], []).append(text.rstrip("."))
    return sorted(words.items())


def lowered(words: List[str]) -> str:
    return "; ".join(one[0].lower() + one[1:] for one in words)


def statuses_of_guide() -> str:
    return "## Exit statuses\n\n| status | what |\n|---|---|\n" + "".join("| %d | %s |\n" % (code, lowered(words)) for code, words in statuses())


def statuses_of_page() -> str:
    """The statuses as the man page has them; what is in backquotes is bold there."""
    items = []
    for code, words in statuses():
        text = QUOTED.sub(lambda found: "\\fB%s\\fR" % found.group(1).replace("-", "\\-"), lowered(words))
        items.append(".TP\n.B %d\n%s.\n" % (code, text[0].upper() + text[1:]))
    return "of its last answer, or of the fault that ended the run.\n" + "".join(items)


def rule_of_ties() -> str:
    """The rule of ties, from cycles to steps, as the comments of its comparisons have it. Documents say start, and not its number."""
    told = [(" ".join(line[3:] for line in comment.splitlines()), name) for comment, name in COMPARED.findall(source("tcc_graph/specs/Ties.antt"))]
    return "".join("- %s%s: `%s`.\n" % (text[0].upper(), text[1:].replace("start number", "start"), name) for text, name in reversed(told))


def of_package() -> str:
    """The module of limits of the package."""
    lines = "".join("%s = %d\n" % pair for pair in limits().items() if not pair[0].endswith("_COUNT"))
    tables = "".join('%s = {"sessions": %s_SESSIONS, "transactions": %s_TRANSACTIONS, "keys": %s_KEYS, "operations in a transaction": MAX_OPERATIONS}\n' % (
        name, of, of, of) for name, of in (("DEFAULT", "MAX"), ("LARGE", "LARGE")))
    return '"""What `tcc limits` prints, which tests/docs/told.py --write writes from the sources."""\n' + lines + "# By what they are of: by default, and with --large.\n" + tables


# A file, what comes before and after a part of it, and how the part reads.
WRITTEN = (
    (GUIDE, r"## Exit statuses\n.*?\|\n(?=\n)", statuses_of_guide),
    (GUIDE, r"\| of a history, at most .*?\n(?=\n)", lambda: filled(IN_GUIDE)),
    (PAGE, r"of its last answer, or of the fault that ended the run\.\n.*?(?=\.SH )", statuses_of_page),
    (PAGE, r"\.SH LIMITS\n.*?(?=\.SH )", lambda: filled(IN_PAGE)),
    (MODEL, r"(?<=picks one, at every size:\n\n).*?\n(?=\n)", rule_of_ties),
    (LIMITS_OF_PACKAGE, r"^.*$", of_package),
)


def write() -> None:
    for path, pattern, wanted in WRITTEN:
        path.write_text(re.sub(pattern, lambda _: wanted(), path.read_text(), flags=re.DOTALL))
    for name, templates in HELD.items():
        text = (TOP / name).read_text()
        for template in templates:
            text = re.sub(form_of(template), lambda _: filled(template), text)
        (TOP / name).write_text(text)


def faults_of_help() -> Iterator[Outcome]:
    """Whether help has each status that explain and check can end with, and no other."""
    wanted = {code for code, _ in statuses()}
    shown = re.findall(r"^  (\d+)  +\S", source("tcc_cli/src/help.rt"), re.MULTILINE)
    yield "statuses of help", None if {int(one) for one in shown} == wanted else "they aren't those of status.rt"


def faults_of_numbers() -> Iterator[Outcome]:
    """Whether no more files have the limits on transactions as numbers than may."""
    plain = [str(limits()[name]) for name in ("MAX_TRANSACTIONS", "LARGE_TRANSACTIONS")]
    number = re.compile("|".join("[,_]?".join([one[:len(one) % 3], *re.findall("...", one[len(one) % 3:])]).lstrip("[,_]?") for one in plain))
    paths = (path for path in TOP.rglob("*") if path.suffix in WITH_NUMBERS and not {"out", ".git", "made"} & set(path.relative_to(TOP).parts))
    found = sorted(path.relative_to(TOP).as_posix() for path in paths if number.search(path.read_text()))
    yield "limits in files", None if len(found) <= MOST_FILES else "%d have them, and %d may: %s" % (len(found), MOST_FILES, ", ".join(found))


def outcomes() -> Iterator[Outcome]:
    for path, pattern, wanted in WRITTEN:
        found = re.search(pattern, path.read_text(), re.DOTALL)
        name = "%s: '%s..'" % (path.relative_to(TOP), wanted().strip()[:20].replace("\n", " "))
        is_right = found is not None and found.group() == wanted()
        yield name, None if is_right else "it isn't what the sources give: tests/docs/told.py --write"
    for path, templates in HELD.items():
        text = (TOP / path).read_text()
        for template in templates:
            fault = None if filled(template) in text else "it has no '%s': tests/docs/told.py --write" % filled(template)
            yield "%s: '%s..'" % (path, template[:40]), fault
    yield from faults_of_help()
    yield from faults_of_numbers()
    count = len(README.read_text().split())
    yield "words of README", None if count <= MOST_WORDS else "%d, and %d are allowed" % (count, MOST_WORDS)


def main() -> int:
    return status_of_written("What the documents say about statuses, limits and ties, from the sources.", write, outcomes)


if __name__ == "__main__":
    sys.exit(main())
