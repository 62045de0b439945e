#!/usr/bin/env python3
"""Whether what the documents name is there, whether the man page and the completion have what the program has, and whether
each script defines a name once.

    run.py [--tcc PATH] [--write]

With `--write` all that scripts write is written anew first. In the documents, a link has to lead to a file, and to a heading where
it names one, and what is in backquotes has to be there where it is

    a path                `docs/MODEL.md`, `specs/Texts.antt`, `crates/tcc`: it or the end of a path of the repository
    a crate               `tcc_run`
    a name of a crate     `tcc_run::explain_snapshot`: its last word is in the sources of that crate
    a call of a type      `Book::new`: its last word is in some source
    a definition          `IsFirstOrder`, and any name of several humps: some source has it, or it is a file of proofs or a class of the package
    a name before a file  `answer_text` (`tcc_answer/specs`), or of it: the files there have the name
    a name of a claim     [check](made/claims/check.md) has `IsWalk`: that page defines it

The picture of the layers has to be that of crates.txt (`layers.py`), and the root of a crate has to say what must hold in it
(`callers.py`). CONTRACTS, DEFINITIONS, MODULES and the pages of claims/ have to be what the sources
give (`contracts.py`, `definitions.py`, `modules.py`, `claims.py`). So have the examples in doc comments (`examples.py`), and what
documents say about statuses and limits (`told.py`), and what names the kinds of faults (`kinds.py`). Sentences have to be short,
and words usual (`plain.py`). The public names that callers rely on have to be there (`surface.py`), in the forms that DECISIONS has
(`forms.py`), and the JSON schema of answers has to be that of the answers in the rows (`schema.py`). What has to be believed is in
`specs/`, and nothing else is (`trust.py`). No file of code may see two types by one name (`names.py`).
CHANGELOG is about the past, and is left out. No script may define a name twice at one level, and what a mutant replaces has to be
once in its file. The man page and the completion for bash have to name each command and option of the program's help, and the
completion to complete them. The stack that docs/GUIDE.md names has to be enough, and what documents show of the program is what it
prints. Each difference is one line; the last line is `N passed, M failed`.
"""
import ast
import collections
import functools
import itertools
import pathlib
import re
import shlex
import shutil
import subprocess
import sys
import tempfile
from typing import Dict, Iterator, List, Optional, Tuple

TOP = pathlib.Path(__file__).resolve().parent.parent.parent
sys.path[:0] = [str(TOP / "tests"), str(TOP / "tests/wrong")]
import callers  # noqa: E402
import claims  # noqa: E402
import contracts  # noqa: E402
import definitions  # noqa: E402
import examples  # noqa: E402
import forms  # noqa: E402
import kinds  # noqa: E402
import layers  # noqa: E402
import modules  # noqa: E402
import names  # noqa: E402
import plain  # noqa: E402
import schema  # noqa: E402
import surface  # noqa: E402
import told  # noqa: E402
from arguments import ask_for_tcc  # noqa: E402
from counted import Outcome, status_of  # noqa: E402
from mutants import Mutant, Unusable  # noqa: E402
from trust import HEAD, QUOTED, faults_of_trust  # noqa: E402

SECONDS = 1800
SHOWN = re.compile(r"^```\n(\$ tcc .*?)^```", re.DOTALL | re.MULTILINE)
CODE = re.compile(r"```.*?```", re.DOTALL)
LINK = re.compile(r"\]\(([^)#\s]+)(?:#[^)]*)?\)")
ANCHOR = re.compile(r"\]\(([^)#\s]*)#([^)\s]+)\)")
HEADING = re.compile(r"^#+ +(.*)$", re.MULTILINE)
# A definition by which a mutant is refused.
DEFINITION = re.compile(r"\b(?:Is|Are|Has|Have|Keeps)[A-Z]\w*")
ENDINGS = ("antt", "bash", "csv", "edit", "json", "md", "py", "rt", "toml", "txt", "c", "certificate", "svg")
PATH = re.compile(r"[A-Za-z0-9_.-]+(?:/[A-Za-z0-9_.-]+)*(?:/|\.(?:%s))" % "|".join(ENDINGS))
FOLDERS = re.compile(r"(?:crates|docs|tests|bench|recipes|examples|tcc_[a-z_]+)(?:/[A-Za-z0-9_.-]+)+")
CRATE = re.compile(r"tcc_[a-z_]+")
OF_CRATE = re.compile(r"(tcc_[a-z_]+)(?:::[A-Za-z_]+)*::([A-Za-z_]+)")
OF_TYPE = re.compile(r"[A-Z][A-Za-z]+::([A-Za-z_]+)")
HUMPS = re.compile(r"(?:[A-Z][a-z]+){2,}")
BEFORE_FILE = re.compile(r"`([A-Za-z_]+)` (?:\(|of )`((?:tcc_[a-z_]+)(?:/[A-Za-z_./]+)?)`")
CLAIMED = re.compile(r"\]\((made/claims/\w+\.md)\) has ([^.]*)\.")
LEVELS = (ast.Module, ast.ClassDef, ast.FunctionDef)
# Types of the toolchain, and files that a reader has, makes or names.
ELSEWHERE = {"Vec", "String", "Option", "Result", "Ordering", "Rattle"}
MADE = re.compile(r"(?:history|names|places|records|answer|client-|certificate)\S*|store/|.*\bNAME\b.*|.*\bout/.*")
COMPLETED = (
    ("tcc ", "explain survey watch check limits help --help --version"),
    ("tcc ex", "explain"),
    ("tcc explain --level ", "causal atomic"),
    ("tcc explain --level = at", "atomic"),
    ("tcc explain --j", "--json"),
    ("tcc explain --certificate ", ""),
    ("tcc check h", ""),
    ("tcc limits --", "--json --help"),
    ("tcc help c", "check"),
)
COMPLETING = """source docs/tcc.bash; read -ra COMP_WORDS <<< "$1"; [[ $1 == *" " ]] && COMP_WORDS+=("")
COMP_CWORD=$((${#COMP_WORDS[@]}-1)); _tcc; echo "${COMPREPLY[*]}" """


@functools.lru_cache(maxsize=None)
def files() -> Tuple[str, ...]:
    """The files of the repository, and its folders with a slash in the end."""
    found = []
    for path in TOP.rglob("*"):
        parts = path.relative_to(TOP).parts
        if not {"out", ".git", "__pycache__"} & set(parts):
            found.append("/" + "/".join(parts) + ("/" if path.is_dir() else ""))
    return tuple(found)


@functools.lru_cache(maxsize=None)
def words(crate: str, part: str) -> frozenset:
    """All words of the sources below that part of a crate; of all crates for an empty name."""
    below = TOP / "crates" / crate
    paths = [below / part] if (below / part).is_file() else (
        path for ending in ("*.rt", "*.antt") for path in below.rglob(ending)
        if path.relative_to(below).as_posix().startswith(part) or not crate)
    return frozenset(word for path in paths if "/out/" not in str(path) and "/proofs/" not in str(path)
                     for word in re.findall(r"[\w-]+", path.read_text(errors="replace")))


@functools.lru_cache(maxsize=None)
def of_package() -> frozenset:
    """The classes of the package in Python."""
    return frozenset(name for path in (TOP / "python/tcc").rglob("*.py") for name in re.findall(r"^class (\w+)", path.read_text(), re.MULTILINE))


def is_there(path: str) -> bool:
    return any(one.rstrip("/").endswith("/" + path.rstrip("/")) for one in files())


def outcome_of_name(name: str) -> Iterator[Optional[str]]:
    """What is wrong with what is in backquotes, None where nothing is; nothing where it is no name of this project."""
    of_crate, of_type = OF_CRATE.fullmatch(name), OF_TYPE.fullmatch(name)
    if CRATE.fullmatch(name):
        yield None if is_there("crates/" + name) or name in words("", "") else "no such crate or name"
    elif (PATH.fullmatch(name) or FOLDERS.fullmatch(name)) and not MADE.fullmatch(name):
        yield None if is_there(name) else "no such path"
    elif of_crate:
        crate, last = of_crate.groups()
        yield None if last in words(crate, "") else "the sources of %s have no %s" % (crate, last)
    elif of_type and name.split("::")[0] not in ELSEWHERE:
        yield None if of_type.group(1) in words("", "") else "no source has it"
    elif HUMPS.fullmatch(name):
        yield None if name in words("", "") or name in of_package() or is_there(name + ".antt") else "no source has it"


def faults_of_names(line: str) -> Iterator[Outcome]:
    """Whether what is in backquotes is there."""
    for name in QUOTED.findall(line):
        for wrong in outcome_of_name(name):
            yield "`%s`" % name, wrong


def faults_of_links(line: str, folder: pathlib.Path) -> Iterator[Outcome]:
    """Whether the links of a document in the folder lead to files; what other projects have isn't asked for."""
    for target in LINK.findall(line):
        if "://" not in target:
            yield target, None if (folder / target).exists() else "no such file"


@functools.lru_cache(maxsize=None)
def anchors(document: pathlib.Path) -> frozenset:
    """The anchors of a document's headings, as forges make them: small letters, digits and hyphens."""
    headings = HEADING.findall(CODE.sub("", document.read_text()))
    return frozenset(re.sub(r"[^\w -]", "", heading.lower()).strip().replace(" ", "-") for heading in headings)


def faults_of_anchors(line: str, document: pathlib.Path) -> Iterator[Outcome]:
    """Whether the links of a document into documents of this repository lead to headings."""
    for target, anchor in ANCHOR.findall(line):
        path = document.parent / target if target else document
        if "://" not in target and path.suffix == ".md" and path.exists():
            yield "%s#%s" % (target, anchor), None if anchor in anchors(path.resolve()) else "no such heading"


def faults_of_files(line: str) -> Iterator[Outcome]:
    """Whether the files that come after a name have it."""
    for name, path in BEFORE_FILE.findall(line):
        crate, _, part = path.partition("/")
        has_name = name in words(crate, part) or not is_there("crates/" + path)
        yield "`%s` (`%s`)" % (name, path), None if has_name else "it isn't there"


def faults_of_claimed(line: str, folder: pathlib.Path) -> Iterator[Outcome]:
    """Whether a page of claims defines what a document in the folder says that it has."""
    for page, said in CLAIMED.findall(line):
        heads = map(HEAD.match, (folder / page).read_text().splitlines()) if (folder / page).exists() else ()
        defined = {head.group(1) for head in heads if head}
        for name in QUOTED.findall(said):
            yield "`%s` (%s)" % (name, page), None if name in defined else "it doesn't define it"


def faults_of_document(document: pathlib.Path) -> Iterator[Outcome]:
    """Whether what the lines of a document name is there, but for those of its code."""
    text = CODE.sub(lambda block: "\n" * block.group().count("\n"), document.read_text())
    for number, line in enumerate(text.splitlines(), 1):
        found = itertools.chain(faults_of_names(line), faults_of_links(line, document.parent), faults_of_anchors(line, document),
                                faults_of_files(line), faults_of_claimed(line, document.parent))
        for what, wrong in found:
            yield "%s, line %d: %s" % (document.relative_to(TOP), number, what), wrong


def defined(level: ast.AST) -> Iterator[str]:
    """The names that a level of a script defines: functions, classes, and but for the level of a function constants."""
    for one in level.body:
        if isinstance(one, LEVELS):
            yield one.name
        elif isinstance(one, ast.Assign) and not isinstance(level, ast.FunctionDef):
            yield from (target.id for target in one.targets if isinstance(target, ast.Name))


def faults_of_mutants() -> Iterator[Outcome]:
    """Whether what each mutant replaces is once in the file that it names: else it shows nothing, and the gate fails late. And whether the
    definitions that refuse it are there."""
    for path in (path[1:] for path in files() if path.endswith(".edit")):
        lines = [line for line in (TOP / path).read_text().splitlines() if line.startswith("why:")]
        gone = [name for line in lines for name in DEFINITION.findall(line) if name not in words("", "")]
        try:
            Mutant(TOP / path)
            yield path, "%s is in no crate" % gone[0] if gone else None
        except Unusable as error:
            yield path, str(error)


def faults_of_scripts() -> Iterator[Outcome]:
    """Whether each script defines a name once at each level: the second of two takes all uses of the first."""
    for path in (path[1:] for path in files() if path.endswith(".py")):
        levels = (one for one in ast.walk(ast.parse((TOP / path).read_text())) if isinstance(one, LEVELS))
        twice = [name for level in levels for name, times in collections.Counter(defined(level)).items() if times > 1]
        yield path, "defines twice: " + ", ".join(twice) if twice else None


def documents() -> List[pathlib.Path]:
    found = [TOP / "README.md", TOP / "CONTRIBUTING.md", *(TOP / "docs").glob("*.md"), *(TOP / "docs/made").glob("*.md"),
             *TOP.glob("*/README.md"), TOP / "tests/rows/README.md"]
    return sorted(set(found))


def options_of(tcc: List[str]) -> Iterator[str]:
    """The commands and options that the program's help names."""
    for command in ([], ["explain"], ["check"]):
        shown = subprocess.run([*tcc, *command, "--help"], capture_output=True, text=True, timeout=SECONDS, check=False).stdout
        usage = shown.split("Usage:")[-1].split("\n\n")
        listed = "\n".join(part for part in usage if part.startswith(("Options:", "Commands:")))
        yield from re.findall(r"--[a-z]+", listed)
        yield from re.findall(r"^  ([a-z]+)  ", listed, re.MULTILINE)


def faults_of_options(tcc: List[str]) -> Iterator[Outcome]:
    options = sorted(set(options_of(tcc)))
    yield "help", None if len(options) > 5 else "no options were found"
    for name in ("docs/tcc.1", "docs/tcc.bash"):
        text = (TOP / name).read_text().replace("\\-", "-")
        for option in options:
            yield "%s: %s" % (name, option), None if re.search(r"(?<![\w-])%s(?![\w-])" % option, text) else "isn't named"
    for line, wanted in COMPLETED:
        got = subprocess.run(["bash", "-c", COMPLETING, "bash", line], cwd=TOP, capture_output=True, text=True, timeout=60,
                             check=False).stdout.strip()
        yield "completion of '%s'" % line, None if got == wanted else "wanted '%s', got '%s'" % (wanted, got)


def faults_of_stack(tcc: List[str]) -> Iterator[Outcome]:
    """Whether the stack that GUIDE names is enough for an answer with its certificate, and for the check of that."""
    stack = re.search(r"needs a stack of ([0-9]+) KB", (TOP / "docs/GUIDE.md").read_text()).group(1)
    history = str(TOP / "examples/stale-read.csv")
    with tempfile.TemporaryDirectory() as folder:
        certificate = str(pathlib.Path(folder, "certificate"))
        runs = ((["explain", "--workers", "2", "--certificate", certificate], 1), (["check", history, certificate], 0))
        for words_after, wanted in runs:
            with open(history, "rb") as given:
                limited = ["env", "-i", "bash", "-c", 'ulimit -s "$1"; shift; exec "$@"', "bash", stack]
                done = subprocess.run([*limited, *tcc, *words_after], stdin=given, capture_output=True, timeout=SECONDS, check=False)
            got = done.returncode
            yield "%s in %s KB of stack" % (words_after[0], stack), None if got == wanted else "status %d" % got


def shown() -> Iterator[Tuple[str, List[str], str]]:
    """The runs that documents show of files that are there: the document, the words of the command, and what is printed."""
    for document in documents():
        for block in SHOWN.findall(document.read_text()):
            for part in re.split(r"^\$ ", block, flags=re.MULTILINE)[1:]:
                command, _, printed = part.partition("\n")
                words_after = shlex.split(command)[1:]
                if all((TOP / word).exists() for word in words_after if re.search(r"\.(csv|certificate)$", word)):
                    yield document.relative_to(TOP).as_posix(), words_after, printed


def faults_of_shown(tcc: List[str]) -> Iterator[Outcome]:
    """Whether the program prints what the documents show."""
    for document, words_after, printed in shown():
        done = subprocess.run([*tcc, *words_after], cwd=TOP, capture_output=True, text=True, timeout=SECONDS, check=False)
        yield "%s: tcc %s" % (document, " ".join(words_after)), None if done.stdout == printed else "it prints %r" % done.stdout


def outcomes(tcc: List[str]) -> Iterator[Outcome]:
    for document in documents():
        yield from faults_of_document(document)
    yield from modules.outcomes()
    yield from layers.outcomes()
    yield from callers.outcomes()
    yield from contracts.outcomes()
    yield from claims.outcomes()
    yield from definitions.outcomes()
    yield from examples.outcomes()
    yield from told.outcomes()
    yield from kinds.outcomes()
    yield from plain.outcomes()
    yield from surface.outcomes()
    yield from forms.outcomes()
    yield from schema.outcomes()
    yield from faults_of_trust()
    yield from names.outcomes()
    yield from faults_of_scripts()
    yield from faults_of_mutants()
    if not shutil.which(tcc[0]):
        yield tcc[0], "there is no such program"
        return
    yield from faults_of_options(tcc)
    yield from faults_of_stack(tcc)
    yield from faults_of_shown(tcc)


def main() -> int:
    ask = ask_for_tcc("Whether what the documents name is there.")
    ask.add_argument("--write", action="store_true", help="writes the pages that scripts write anew first")
    asked = ask.parse_args()
    for page in (kinds, callers, contracts, claims, definitions, modules, layers, examples, told, forms) if asked.write else ():
        page.write()
    return status_of(outcomes(asked.tcc))


if __name__ == "__main__":
    sys.exit(main())
