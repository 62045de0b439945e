"""What a check says of mutants."""
import re
from typing import Dict, List, NamedTuple, Optional, Set

LINE = re.compile(r"fn \w+::(\S+): (.*)")
ERROR = re.compile(r"(?:\./)?((?:src|specs|proofs)/\S+?):\d+:\d+: error: (?:(`[^`]*`): )?(.*)")
UNPROVED = re.compile(r"`search` did not prove [^;]*")
# What a mutant took away, or what rests on what isn't proved: this shows nothing of the contract.
GONE = re.compile(r"has no field|is not in scope|has no `|was not admitted")
UNREAD = re.compile(r"is not in scope|has no field|is no name|operand is missing|expected the end|cannot continue")
STALE = re.compile(r"module .Rattle-(\w+)-.*Run the lower steps again")


class Round(NamedTuple):
    """By function why it fails by itself, and why the round counts for nothing, where it does."""
    refused: Dict[str, str]
    fault: Optional[str]


def judged(lines: List[str], functions: Set[str]) -> Round:
    """What the check of a round says of the functions that have a mutant.

    A function fails by itself where one of its own proof obligations isn't proved, or where a file of its own proof doesn't fit.
    That it calls one that isn't proved doesn't count.
    """
    if not lines[-1].startswith("only="):
        return Round({}, "it ends with: " + next((one for one in lines if "error" in one), lines[-1]))
    errors = [(found[1], found[3]) for found in map(ERROR.match, lines) if found]
    refused = {}
    for name, said in (found.groups() for found in map(LINE.match, lines) if found):
        own = [text for file, text in errors if file.startswith(proofs_of(name)) and not GONE.search(text)]
        unproved = UNPROVED.search(said)
        if said.startswith("no proof") and unproved:
            refused[owner(name, functions)] = unproved[0]
        elif said.startswith("not proved") and own:
            refused[owner(name, functions)] = own[0]
    for file, text in errors:
        if not any(file.startswith(proofs_of(name)) for name in functions):
            return Round({}, "%s is refused, which is no proof of a function with a mutant: %s" % (file, text))
    other = sorted(set(refused) - functions)
    return Round(refused, "%s has no mutant and fails: %s" % (other[0], refused[other[0]]) if other else None)


def owner(name: str, functions: Set[str]) -> str:
    """The function in which a closure is, where that has a mutant; else the name itself."""
    whole = name.replace("fn::", "")
    return next((one for one in functions if "fn::" in name and whole.startswith(one + "::")), name)


def proofs_of(name: str) -> str:
    """The folder of the proof of a function."""
    return "proofs/" + name.replace("::", "/") + "/"


def unread(lines: List[str], changed: Set[str]) -> Optional[str]:
    """The line that says that the check can't read what a mutant wrote, so that it showed nothing."""
    for line in lines:
        found = ERROR.match(line)
        if found and (found[1] in changed or not found[1].startswith("proofs/")):
            if not found[2] or UNREAD.search(re.sub(r"`[^`]*`", "", found[3])):
                return line
    return None


def is_by_proof_alone(lines: List[str]) -> bool:
    """Whether the check of a mutant that is refused says no more than that a proof names what the mutant took away.

    Then no obligation failed that the check looked at, so it shows nothing of the contract.
    """
    said = [found[2] for found in map(LINE.match, lines) if found]
    is_unproved = any(one.startswith("no proof") and UNPROVED.search(one) for one in said)
    return not is_unproved and all(GONE.search(found[3]) for found in map(ERROR.match, lines) if found)


def judged_alone(status: int, lines: List[str], changed: Set[str]) -> Optional[str]:
    """What is wrong with the check of one mutant with its whole crate, None where it was refused."""
    bad = unread(lines, changed) or next((one for one in lines if STALE.search(one)), None)
    if bad:
        return "BAD: the check can't read it: " + bad
    if status == 0:
        return "NOT REFUSED: the crate is still proved with it"
    if status == 1 and lines[-1].startswith("logic=not-proved"):
        return None
    return "BAD: it didn't reach the prover, status %d: %s" % (status, next((one for one in lines if "error" in one), lines[-1]))
