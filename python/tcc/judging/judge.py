"""Judges histories in memory: thousands of small ones, as a property test or a simulator makes them.

    judge = Judge()
    answer = judge.explain(b"a,begin\\na,w,x,1\\na,commit\\n")     # Consistent, Anomaly or Unresolved, as of explain(path)

Each thread has a program of its own that stays (`tcc serve`), from its first question on. Where the program has no `tcc serve`, each
question is a run. `judge(records)` and `assert_causal(records)` are the same by a judge that all threads share.
"""
import json
import os
import threading
import weakref
from typing import TYPE_CHECKING, Dict, Optional, Union

from tcc.common.appended import Path
from tcc.judging.program import NoAnswer
from tcc.judging.requests import Asked, Reply, Request, Resident, Runs, serves
from tcc.judging.runner import Anomaly, Answer, Consistent, Unresolved, answer_of, program

if TYPE_CHECKING:
    from tcc.record.memory import MemoryRecorder

Records = Union[bytes, str, "MemoryRecorder"]
TOO_FEW = 3  # the status of `tcc explain --require`
MOST_SHOWN = 200  # lines of records that a failed test shows


def bytes_of(records: Records) -> bytes:
    """The records as the program reads them."""
    if isinstance(records, os.PathLike) or isinstance(records, str) and "\n" not in records and os.path.exists(records):
        raise NoAnswer("%s is a path, and no records: explain(..) judges a file" % os.fsdecode(records))
    if isinstance(records, str):
        return records.encode()
    return records if isinstance(records, bytes) else records.records()


class Judge:
    """Judges histories in memory. Threads may share it; `close`, or leaving a block of `with`, ends the programs that stay.

    `tcc` names the program, as of `explain`. After so many `seconds` without an answer NoAnswer is raised. With `stays=False` each
    question is a run of its own.
    """

    def __init__(self, *, tcc: Optional[Path] = None, seconds: Optional[float] = None, stays: bool = True):
        self.program, self.seconds = program(tcc), seconds
        self._stays = stays and serves(self.program)
        self._mine = threading.local()
        self._residents: "weakref.WeakSet[Resident]" = weakref.WeakSet()
        self._lock = threading.Lock()

    def __enter__(self) -> "Judge":
        return self

    def __exit__(self, *_: object) -> None:
        self.close()

    def close(self) -> None:
        """Ends the programs that stay. A question after it starts one again."""
        with self._lock:
            residents, self._residents = list(self._residents), weakref.WeakSet()
        self._mine = threading.local()
        for one in residents:
            one.close()

    def explain(self, records: Records, *, level: str = "causal", large: bool = True, require: int = 0) -> Answer:
        """The last answer for some records. NoAnswer says why there is none: a record that breaks a rule, a limit, no memory, fewer
        transactions than are required, or a program that isn't there."""
        reply = self.ask(Request("explain", bytes_of(records), level, large)).checked()
        answer = answer_in(reply)
        if isinstance(answer, Consistent) and answer.transactions < require:
            raise NoAnswer("only %d transactions, and %d are required" % (answer.transactions, require), TOO_FEW)
        return answer

    def contradicted(self, records: Records, *, level: str = "causal", large: bool = True) -> int:
        """How many reads are contradicted by what their sessions knew, as `tcc survey` counts them; none where it can't list all."""
        lines = self.ask(Request("survey", bytes_of(records), level, large)).checked().answer.splitlines()
        told = json.loads(lines[-1]) if lines else {}
        return int(told["contradicted"]) if told.get("answer") == "survey" else 0

    def ask(self, request: Request) -> Reply:
        """The reply to a request of any kind."""
        return self._asked().ask(request, self.seconds)

    def _asked(self) -> Asked:
        """The program of this thread, and of this process; one that ended has a successor."""
        if not self._stays:
            return Runs(self.program)
        mine: Optional[Resident] = getattr(self._mine, "resident", None)
        if mine is None or self._mine.process != os.getpid() or not mine.is_there:
            mine = self._mine.resident = Resident(self.program)
            self._mine.process = os.getpid()
            with self._lock:
                self._residents.add(mine)
        return mine


def answer_in(reply: Reply) -> Answer:
    """The last of the answers of a reply."""
    lines = reply.answer.decode("utf-8", "replace").splitlines()
    return answer_of(lines[-1] if lines else "")


# By the programs that they ask; a process that is a fork begins anew.
SHARED: Dict[str, Judge] = {}
os.register_at_fork(after_in_child=SHARED.clear)


def shared_judge(tcc: Optional[Path] = None) -> Judge:
    """The judge that all share who ask the same program."""
    path = program(tcc)
    return SHARED.get(path) or SHARED.setdefault(path, Judge(tcc=path))


def judge(records: Records, *, level: str = "causal", large: bool = True, require: int = 0, tcc: Optional[Path] = None) -> Answer:
    """The last answer for records in memory, as `Judge.explain` has it."""
    return shared_judge(tcc).explain(records, level=level, large=large, require=require)


def fault_of(answer: Answer, is_contradicted: bool) -> Optional[str]:
    """What a test says of an answer that isn't consistent; `is_contradicted` says whether any read is."""
    if isinstance(answer, Consistent):
        return None
    is_broken = isinstance(answer, Anomaly) or bool(answer.violations()) or is_contradicted
    return "the store broke its promise" if is_broken else "reads can't be traced, so nothing was judged"


def assert_causal(records: Records, *, level: str = "causal", large: bool = True, require: int = 0, tcc: Optional[Path] = None) -> Consistent:
    """The answer for records in memory, where that is consistent. Else AssertionError says what is wrong, and shows the records."""
    __tracebackhide__ = True
    text = bytes_of(records)
    asked = shared_judge(tcc)
    try:
        answer = asked.explain(text, level=level, large=large, require=require)
        is_contradicted = isinstance(answer, Unresolved) and asked.contradicted(text, level=level, large=large) > 0
    except NoAnswer as error:
        raise AssertionError("nothing was judged: %s\n%s" % (error, shown(text))) from error
    if isinstance(answer, Consistent):
        return answer
    raise AssertionError("%s\n%s\n%s" % (fault_of(answer, is_contradicted), answer.text().rstrip("\n"), shown(text)))


def shown(records: bytes) -> str:
    """The records, for who reads why a test failed."""
    lines = records.decode("utf-8", "replace").splitlines()
    more = [".. and %d records more" % (len(lines) - MOST_SHOWN)] if len(lines) > MOST_SHOWN else []
    return "\n".join(["records:", *("  " + line for line in lines[:MOST_SHOWN]), *more])
