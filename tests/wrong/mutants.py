"""The mutants of a crate, bodies of its functions with a planted mistake: what each replaces, in which function, and which are tried together."""
import pathlib
import re
from typing import Dict, Iterator, List, NamedTuple, Optional, Set, Tuple

NAME = re.compile(r"[A-Za-z0-9_-][A-Za-z0-9_.-]*\.edit")
PARTS = ("src", "specs", "proofs")
UNCOMPILED = re.compile(r"(?:\./)?(src/\S+?\.rt):(\d+):\d+: error\[")
FUNCTION = re.compile(r"^( *)(?:pub(?:\([^)]*\))? )?(?:const )?(?:unsafe )?fn (\w+)", re.MULTILINE)
IMPL = re.compile(
    r"^impl\b(?P<parameters><[^{]*?>(?= ))?\s*(?:(?P<trait>[\w:]+)(?:<[^{]*?>)? for )?(?P<type>\w+)(?:<(?P<arguments>[\w, ':]*)>)?",
    re.MULTILINE)


class Unusable(Exception):
    """Why a mutant can't be applied."""


class Pair(NamedTuple):
    """A text that is once in a file, and what comes in its place."""
    file: str
    old: str
    new: str


class Mutant:
    """A mutant, with the function in whose body all that it replaces is; None where there is no such function."""

    def __init__(self, path: pathlib.Path):
        self.path, self.name = path, path.parent.parent.name + "/" + path.stem
        self.pairs = list(pairs_of(path))
        self.texts, functions = applied(self.pairs, path.parent.parent)
        self.function = functions.pop() if len(functions) == 1 else None

    def write(self, crate: pathlib.Path) -> None:
        """Replaces the texts in a copy of the crate, which may have other mutants already."""
        for file, text in applied(self.pairs, crate)[0].items():
            (crate / file).write_text(text, encoding="utf-8")


def pairs_of(path: pathlib.Path) -> Iterator[Pair]:
    """The pairs of lines of a mutant's file."""
    if not NAME.fullmatch(path.name):
        raise Unusable("a mutant's name has letters, digits, _, - and . alone, and ends in .edit")
    file = old = ""
    for line in path.read_text(encoding="utf-8").split("\n"):
        word, _, text = line.partition(" ")
        if word == "file:":
            file = text.strip()
        elif word == "old:":
            old = text
        elif word == "new:":
            if not file or not old:
                raise Unusable("a line new: has no line file: or old: above it")
            yield Pair(file, old, text)
            old = ""


def applied(pairs: List[Pair], crate: pathlib.Path) -> Tuple[Dict[str, str], Set[Optional[str]]]:
    """The texts of the files that the pairs change, and the functions in which they do so, None for what is in none."""
    texts: Dict[str, str] = {}
    functions: Set[Optional[str]] = set()
    for file, old, new in pairs:
        if ".." in file or not file.startswith(tuple(part + "/" for part in PARTS)) or not (crate / file).is_file():
            raise Unusable("there is no file %s" % file)
        text = texts.setdefault(file, (crate / file).read_text(encoding="utf-8"))
        if text.count(old) != 1:
            raise Unusable("'%s' stands in %s %d times, and not once" % (old.strip(), file, text.count(old)))
        functions.add(function_at(file, text, text.index(old)))
        texts[file] = text.replace(old, new)
    if not pairs:
        raise Unusable("it replaces nothing")
    return texts, functions


def function_at(file: str, text: str, at: int) -> Optional[str]:
    """The function in whose body this place of a file is, as a check calls it, or None where it is in no body."""
    if not file.startswith("src/"):
        return None
    line = text.rfind("\n", 0, at) + 1
    above = [one for one in FUNCTION.finditer(text) if one.start() <= line]
    if not above:
        return None
    indent, name = above[-1].groups()
    head = text[above[-1].start():line].split("\n")[:-1]
    # (`rt fmt` puts the brace before a body at the end of a line that is indented as `fn` is, and the one after it alone)
    heads = [number for number, one in enumerate(head) if re.match(indent + r"\S", one) and one.endswith("{")]
    if not heads or any(one.startswith(indent + "}") for one in head[heads[0]:]):
        return None
    modules = [one for one in file[len("src/"):-len(".rt")].split("/") if one not in ("lib", "main", "mod")]
    of_type = type_at(text, above[-1].start()) if indent else ""
    return None if of_type is None else "::".join([*modules, *filter(None, [of_type]), name])


def places_of(lines: List[str], crate: pathlib.Path) -> Set[Optional[str]]:
    """The functions in whose bodies a check of the crate says that it doesn't compile. A mutant leaves each line at its place."""
    places: Set[Optional[str]] = set()
    for file, number in (found.groups() for found in map(UNCOMPILED.match, lines) if found):
        text = (crate / file).read_text(encoding="utf-8")
        at = len("\n".join(text.split("\n")[:int(number) - 1])) + 1
        places.add(function_at(file, text, at))
    return places


def type_at(text: str, at: int) -> Optional[str]:
    """What a check calls the impl in which this place is: the type, with what it is an instance of, and the trait."""
    impls = list(IMPL.finditer(text, 0, at))
    if not impls:
        return None
    own = impls[-1]
    parameters = re.findall(r"[<,]\s*('?\w+)", own["parameters"] or "")
    arguments = [one.strip().split("::")[-1] for one in (own["arguments"] or "").split(",")]
    instance = [one for one in arguments if one and one not in parameters and not one.startswith("'")]
    return own["type"] + "".join("+" + one for one in instance) + (own["trait"] or "").split("::")[-1]


def rounds_of(mutants: List[Mutant]) -> Tuple[List[List[Mutant]], List[Mutant]]:
    """Rounds, with one mutant of a function at most in each, and the mutants of no one function."""
    rounds: List[List[Mutant]] = []
    for one in mutants:
        if one.function is not None:
            free = next((it for it in rounds if all(other.function != one.function for other in it)), None)
            if free is None:
                rounds.append(free := [])
            free.append(one)
    return rounds, [one for one in mutants if one.function is None]
