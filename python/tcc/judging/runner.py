"""Runs `tcc explain`, and gives its answer as one of three types; what is no answer is raised.

    answer = explain("records.csv")
    if isinstance(answer, Anomaly):
        print(answer.shape, answer.steps, answer.text())
"""
import json
import os
import subprocess
from dataclasses import asdict, dataclass, fields
from typing import Any, Callable, Dict, Iterator, List, Mapping, Optional, Sequence, Tuple, Union

from tcc.common.appended import Path
from tcc.common.inputs import why_no_records
from tcc.common.kinds import VIOLATIONS
from tcc.common.rows import Json
from tcc.judging.answers import Link
from tcc.judging.noted_versions import NoVersions
from tcc.judging.program import NoAnswer, found_program, wanted_program, why_none
from tcc.judging.versions import Versioned, judged_with
from tcc.record.sessions import judged_by

Begun = Callable[["subprocess.Popen[str]"], None]
CONSISTENT, ANOMALY, UNRESOLVED = 0, 1, 2
LEVELS = ("causal", "atomic")


@dataclass(frozen=True)
class Step:
    """A link of an anomaly: its first transaction has to come before its second. `kind` is `session`, `reads`, `derived`, or, with
    versions, `version`: of a key the second has the later one. All but the first have a key, and a derived one the reader whose read asks
    for it, and the walk by which that one had observed it."""

    kind: str
    source: str
    target: str
    key: Optional[str] = None
    reader: Optional[str] = None
    walk: Tuple["Step", ...] = ()

    def told(self) -> Json:
        """The link as JSON has it."""
        found: Json = {"kind": self.kind, "from": self.source, "to": self.target}
        if self.key is not None:
            found["key"] = self.key
        if self.reader is not None:
            found.update(reader=self.reader, walk=[one.told() for one in self.walk])
        return found

    def lines(self) -> Iterator[str]:
        """The line of the link as `tcc` prints it, and below it those of its walk, and the read that it contradicts."""
        by = "" if self.key is None else " by " + self.key
        read = "" if self.reader is None else ", read by " + self.reader
        yield "%s %s -> %s%s%s" % (self.kind, self.source, self.target, by, read)
        for one in self.walk:
            yield from ("  " + line for line in one.lines())
        if self.reader is not None:
            yield "  against %s -> %s%s" % (self.target, self.reader, by)


@dataclass(frozen=True)
class Fault:
    """A read that can't be traced to a write, or a write of a value that was written before: the operation, its kind."""

    kind: str
    session: str
    place: int
    op: int
    key: str
    value: int

    @property
    def transaction(self) -> str:
        return "%s/%d" % (self.session, self.place)

    def line(self) -> str:
        return "%s %s op %d %s %d" % (self.kind, self.transaction, self.op, self.key, self.value)


@dataclass(frozen=True)
class Consistent:
    """An order of the transactions explains every read."""

    transactions: int
    sessions: int
    order: Tuple[str, ...]

    def text(self) -> str:
        """The answer as `tcc` prints it; one of `tcc watch` has no order."""
        order = "order: %s\n" % " ".join(self.order) if self.order else ""
        return "consistent: %d transactions, %d sessions\n%s" % (self.transactions, self.sessions, order)

    def json(self) -> str:
        """The answer as `tcc explain --json` prints it."""
        return line_of({"answer": "consistent", "order": list(self.order), "sessions": self.sessions, "transactions": self.transactions})


@dataclass(frozen=True)
class Anomaly:
    """A cycle of links, of which no order keeps all; no other has fewer steps. With versions it is one of the history's own links, and
    others may have fewer."""

    shape: str
    steps: int
    cycle: Tuple[Step, ...]

    def text(self) -> str:
        """The answer as `tcc` prints it."""
        head = "anomaly: %d steps, %s" % (self.steps, self.shape)
        return "".join(line + "\n" for line in (head, *(line for one in self.cycle for line in one.lines())))

    def json(self) -> str:
        """The answer as `tcc explain --json` prints it; with versions a link may have the kind `version`."""
        return line_of({"answer": "anomaly", "cycle": [one.told() for one in self.cycle], "shape": self.shape, "steps": self.steps})


@dataclass(frozen=True)
class Unresolved:
    """Reads that can't be traced to a write: nothing can be judged."""

    faults: Tuple[Fault, ...]

    def violations(self) -> Tuple[Fault, ...]:
        """The reads among them that no promise lets be, whatever the order: so the store broke it."""
        return tuple(one for one in self.faults if one.kind in VIOLATIONS)

    def text(self) -> str:
        """The answer as `tcc` prints it."""
        return "".join(line + "\n" for line in ("unresolved: %d faults" % len(self.faults), *(one.line() for one in self.faults)))

    def json(self) -> str:
        """The answer as `tcc explain --json` prints it."""
        return line_of({"answer": "unresolved", "faults": [asdict(one) for one in self.faults]})


Answer = Union[Consistent, Anomaly, Unresolved]


def line_of(told: Json) -> str:
    """An object as `tcc` prints it."""
    return json.dumps(told, separators=(",", ":"), sort_keys=True) + "\n"


def program(path: Optional[Path] = None) -> str:
    """The program: that of the path, else that which the variable TCC names, else the one on the path of programs, or that of the
    archive in which this package is."""
    wanted = wanted_program(path)
    found = found_program(wanted)
    if not found:
        raise NoAnswer("there is no program %s: `make dist` makes an archive with it; name it, or set TCC" % (wanted or "tcc"))
    return found


def explain(records: Path, *, level: str = "causal", large: bool = True, workers: int = 1, require: int = 1,
            seconds: Optional[float] = None, tcc: Optional[Path] = None, begun: Optional[Begun] = None,
            sessions: str = "client", notes: Optional[Path] = None, versions: Optional[Path] = None, two_versions: str = "refuse",
            slice: Optional[Path] = None) -> Answer:
    """The last answer for a file of records. Fewer transactions than are required are no answer, and so is an empty file, unless
    none are required. NoAnswer says why there is none, also where it isn't there after so many seconds. `begun` is called with the
    process that works it out. With `large=False` a history above the default limits is refused. Sessions are those of the clients, as they
    were recorded; with `sessions="node"` each client has one at each node where `notes`, the annotations, say that it was, such as c1.n0.
    `versions` is a file of versions: then the order of a key's writes has to be that of theirs. Where a value has two versions, or two
    values have one, there is no answer, unless `two_versions` is `before`, to judge by those that were noted before, or `without`.
    `slice` is a file for a small history with the anomaly, of the operations that its links need. It stays empty where there is no
    anomaly, or where no slice is within the default limits. With it the history may be `large`."""
    why = why_no_records(records)
    if why:
        raise NoAnswer(why)
    try:
        with judged_by(sessions, records, notes) as every, judged_with(versions, every, level, two_versions, notes) as (path, versioned):
            require += versioned.made if require and versioned else 0
            words = [program(tcc), "explain", "--json", "--level", level, *(["--large"] if large or slice is not None else []),
                     "--workers", str(workers), *(["--slice", os.fspath(slice)] if slice is not None else []),
                     *(["--require", str(require)] if require else []), os.fspath(path)]
            ended = run(words, seconds, begun)
    except NoVersions as error:
        raise NoAnswer(str(error)) from error
    answer = answer_of((ended.stdout.splitlines() or [""])[-1])
    return of_history(answer, versioned) if versioned else answer


def of_history(answer: Answer, versioned: Versioned) -> Answer:
    """An answer for records with versions as one for the history, without observers and marks."""
    if isinstance(answer, Consistent):
        order = tuple(one for one in answer.order if not versioned.is_made(one))
        return Consistent(answer.transactions - versioned.made, answer.sessions - len(versioned.observers), order)
    if isinstance(answer, Anomaly):
        links = versioned.moved([link_of(one) for one in answer.cycle])
        steps = sum(len(one.walk) + 1 if one.kind == "derived" else 1 for one in links)
        return Anomaly(shape_of(links), steps, tuple(map(step_of, links)))
    return answer


def link_of(one: Step) -> Link:
    return Link(one.kind, one.source, one.target, one.key or "", one.reader or "", tuple(map(link_of, one.walk)))


def step_of(one: Link) -> Step:
    return Step(one.kind, one.source, one.target, one.key or None, one.reader or None, tuple(map(step_of, one.walk)))


def shape_of(links: Sequence[Link]) -> str:
    """The word for what links look like, as `tcc` has it; of versions that sessions and reads contradict alone a word of its own."""
    derived = [one for one in links if one.kind == "derived"]
    if len(derived) == 1:
        return "stale-initial-read" if derived[0].target == "init" else "overwritten-read"
    if derived:
        return "conflict-cycle"
    return "versions-out-of-order" if any(one.kind == "version" for one in links) else "cyclic-causality"


def run(words: List[str], seconds: Optional[float], begun: Optional[Begun] = None) -> "subprocess.CompletedProcess[str]":
    """A run that answered."""
    with subprocess.Popen(words, stdin=subprocess.DEVNULL, stdout=subprocess.PIPE, stderr=subprocess.PIPE, text=True,
                          encoding="utf-8", errors="replace") as running:
        if begun:
            begun(running)
        try:
            out, errors = running.communicate(timeout=seconds)
        except subprocess.TimeoutExpired as error:
            raise NoAnswer("no answer after %s seconds" % seconds) from error
        finally:
            running.kill()
        ended = subprocess.CompletedProcess(words, running.returncode, out, errors)
    if ended.returncode not in (CONSISTENT, ANOMALY, UNRESOLVED):
        said = why_none((ended.stdout.splitlines() or [""])[-1], ended.stderr.strip())
        raise NoAnswer("tcc ended with %d: %s" % (ended.returncode, "\n".join(said)), ended.returncode)
    return ended


def answer_of(line: str) -> Answer:
    """The answer that a line of JSON tells."""
    try:
        told = json.loads(line)
        return KINDS[told["answer"]](told)
    except (ValueError, KeyError, TypeError) as error:
        raise NoAnswer("no answer of tcc explain --json: %s" % line[:200]) from error


def consistent(told: Mapping[str, Any]) -> Consistent:
    return Consistent(told["transactions"], told["sessions"], tuple(told["order"]))


def anomaly(told: Mapping[str, Any]) -> Anomaly:
    return Anomaly(told["shape"], told["steps"], tuple(map(step, told["cycle"])))


def unresolved(told: Mapping[str, Any]) -> Unresolved:
    return Unresolved(tuple(Fault(**{name: one[name] for name in FAULT}) for one in told["faults"]))


def step(told: Mapping[str, Any]) -> Step:
    return Step(told["kind"], told["from"], told["to"], told.get("key"), told.get("reader"), tuple(map(step, told.get("walk", ()))))


FAULT = tuple(field.name for field in fields(Fault))
KINDS: Dict[str, Callable[[Mapping[str, Any]], Answer]] = {
    "consistent": consistent, "anomaly": anomaly, "unresolved": unresolved}
