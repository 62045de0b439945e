"""No pattern of the package takes more than one pass of a text, whatever the text. Each is tried on texts of 100,000 characters of
each class that it repeats, after what leads there, and on as many of each body of a repetition, with ends at which it fails."""
import ast
import importlib
import pathlib
import re
import signal
from typing import Any, Iterator, List, Optional, Tuple

from counted import Outcome

try:
    import re._parser as parser  # type: ignore[import-not-found,unused-ignore]
except ImportError:
    import sre_parse as parser  # type: ignore[no-redef,unused-ignore]

PACKAGE = pathlib.Path(__file__).resolve().parent.parent.parent / "python" / "tcc"
LENGTH, SECONDS, MOST = 100000, 5.0, 6  # seconds of processor time
MANY = 20  # times that a repetition may be repeated, from which it is looked at
CHARACTERS = 'a0 ,:"[](){};\\#.-/\n\t\x00é'
ENDS = ("\x00", "]", '"')
USED = re.compile(r"\b([A-Z_]+)\.(?:findall|finditer|sub|search)\(")


class Late(Exception):
    """It wasn't done in time."""


def is_in(items: list, char: str) -> bool:
    """Whether a character is of a class."""
    found = False
    for kind, what in items:
        name = str(kind)
        found |= (name == "LITERAL" and ord(char) == what or name == "NOT_LITERAL" and ord(char) != what
                  or name == "RANGE" and what[0] <= ord(char) <= what[1]
                  or name == "CATEGORY" and bool(re.match({"CATEGORY_SPACE": r"\s", "CATEGORY_DIGIT": r"\d", "CATEGORY_WORD": r"\w",
                                                          "CATEGORY_NOT_SPACE": r"\S", "CATEGORY_NOT_DIGIT": r"\D",
                                                          "CATEGORY_NOT_WORD": r"\W"}[str(what)], char)))
    return found != any(str(kind) == "NEGATE" for kind, _ in items)


def classes(node: Any) -> List[str]:
    """For each class of characters in a pattern some of it, each repeated by itself."""
    found: List[str] = []
    for kind, what in node:
        name = str(kind)
        if name in ("LITERAL", "NOT_LITERAL", "IN", "ANY"):
            items = what if name == "IN" else [(kind, what)]
            found += [char for char in CHARACTERS if name == "ANY" and char != "\n" or name != "ANY" and is_in(items, char)][:MOST]
        else:
            for inner in inside(name, what):
                found += classes(inner)
    return list(dict.fromkeys(found))


def inside(name: str, what: Any) -> List[Any]:
    """The patterns within a part."""
    if name == "BRANCH":
        return list(what[1])
    if name == "SUBPATTERN":
        return [what[3]]
    if name in ("MAX_REPEAT", "MIN_REPEAT"):
        return [what[2]]
    if name == "GROUPREF_EXISTS":
        return [one for one in what[1:] if one is not None]
    return []


def texts(node: Any) -> List[str]:
    """Some texts that a pattern takes, but for what it looks ahead for."""
    found = [""]
    for kind, what in node:
        name = str(kind)
        if name in ("LITERAL", "NOT_LITERAL", "IN", "ANY"):
            part = classes([(kind, what)])[:1] or [chr(what)] if name == "LITERAL" else classes([(kind, what)])[:1]
        elif name in ("MAX_REPEAT", "MIN_REPEAT"):
            part = [one * max(what[0], 1) for one in texts(what[2])]
        elif name == "ASSERT_NOT" and not len(what[1]):
            return []
        else:
            part = [one for inner in inside(name, what) for one in texts(inner)] or [""]
        found = [one + other for one in found for other in part][:MOST]
    return found


def repeated(node: Any, before: str) -> Iterator[Tuple[str, Any]]:
    """Each repetition in a pattern, with a text that leads to it."""
    for kind, what in node:
        name = str(kind)
        if name in ("MAX_REPEAT", "MIN_REPEAT") and what[1] >= MANY:
            yield before, what[2]
        for inner in inside(name, what):
            yield from repeated(inner, before)
        before += (texts([(kind, what)]) or [""])[0]


def tried(pattern: "re.Pattern[Any]") -> Iterator[str]:
    """The texts on which a pattern is tried."""
    for before, body in repeated(parser.parse(pattern.pattern, pattern.flags), ""):
        parts = [*classes(body), *texts(body)]
        for one in dict.fromkeys(part for part in parts if part):
            yield before + one * (LENGTH // len(one))
            yield before + one + before * 1000


def late(number: int, frame: Any) -> None:
    raise Late


def fault_of(pattern: "re.Pattern[Any]", is_searched: bool) -> Optional[str]:
    """The text on which a pattern takes too long."""
    is_bytes = isinstance(pattern.pattern, bytes)
    signal.signal(signal.SIGPROF, late)
    for text in tried(pattern):
        for end in ENDS:
            given: Any = (text + end).encode() if is_bytes else text + end
            signal.setitimer(signal.ITIMER_PROF, SECONDS)
            try:
                pattern.match(given)
                pattern.fullmatch(given)
                if is_searched:
                    pattern.sub(given[:0], given)
            except Late:
                return "%d characters as in %r take over %d s" % (len(given), text[:30] + ".." + end, SECONDS)
            finally:
                signal.setitimer(signal.ITIMER_PROF, 0)
    return None


def loose(source: str) -> Optional[str]:
    """A pattern that isn't of the module, so that this test wouldn't see it."""
    tree = ast.parse(source)
    named = {id(one.value) for one in tree.body if isinstance(one, ast.Assign)}
    for one in ast.walk(tree):
        if isinstance(one, ast.Call) and isinstance(one.func, ast.Attribute) and isinstance(one.func.value, ast.Name) and one.func.value.id == "re":
            if id(one) not in named:
                return "line %d: a pattern that isn't a constant of the module" % one.lineno
    return None


def outcomes() -> Iterator[Outcome]:
    slow = re.compile(r"x(?:[a-z]+[ ,]*)*y")
    yield "a pattern that is slow is found", None if fault_of(slow, False) else "it isn't"
    count = 0
    paths = sorted(PACKAGE.rglob("*.py"))
    searched = set(USED.findall("".join(one.read_text() for one in paths)))
    for path in paths:
        source, inside = path.read_text(), path.relative_to(PACKAGE)
        yield "patterns of %s have names" % inside, loose(source)
        if path.stem == "__init__" or "re.compile" not in source:
            continue
        module = importlib.import_module(".".join(["tcc", *inside.with_suffix("").parts]))
        for name, pattern in vars(module).items():
            if isinstance(pattern, re.Pattern):
                count += 1
                yield "pattern %s of %s" % (name, inside), fault_of(pattern, name in searched)
    yield "patterns are there", None if count > 15 else "only %d" % count
