"""What a worker of a fleet does: it judges one history, and says so in an object of JSON."""
import json
import time
from dataclasses import dataclass
from typing import Optional

from tcc.common.inputs import opened
from tcc.common.rows import Json
from tcc.judging.judge import shared_judge
from tcc.judging.program import NoAnswer
from tcc.judging.requests import JUDGED, Reply, Request
from tcc.judging.runner import ANOMALY, CONSISTENT, UNRESOLVED

TOO_FEW = 3  # the status where fewer transactions committed than are required
LEFT_OUT = ("order",)  # of an answer, which may be as long as the history


@dataclass(frozen=True)
class Asked:
    """What is asked of each history: the level, `--large`, how many transactions at least, the program, and whether failures are kept."""

    level: str = "causal"
    is_large: bool = False
    require: int = 1
    tcc: Optional[str] = None
    keeps: bool = False


@dataclass(frozen=True)
class Judged:
    """A history as it was judged: what its line of the results says of it, and of a failure that is kept what proves it."""

    line: Json
    certificate: bytes = b""
    slice: bytes = b""


def judged(path: str, asked: Asked) -> Judged:
    """Judges a file of records, which this machine has. What can't be judged has the answer `none`, and says why."""
    begun = time.monotonic()
    try:
        with opened(path) as file:
            records = file.read()
        made = judged_records(records, asked)
    except (NoAnswer, OSError, EOFError) as error:
        made = Judged(no_answer(error))
    made.line["seconds"] = round(time.monotonic() - begun, 3)
    return made


def no_answer(error: Exception) -> Json:
    """What the results say of a history that wasn't judged, and why."""
    return {"answer": "none", "status": getattr(error, "status", None), "why": str(error) or type(error).__name__}


def judged_records(records: bytes, asked: Asked) -> Judged:
    judge = shared_judge(asked.tcc)
    reply = judge.ask(Request("explain", records, asked.level, asked.is_large)).checked()
    line = {"status": reply.status, **{name: told for name, told in answer_of(reply).items() if name not in LEFT_OUT}}
    if reply.status == CONSISTENT and line["transactions"] < asked.require:
        raise NoAnswer("only %d transactions, and %d are required" % (line["transactions"], asked.require), TOO_FEW)
    if reply.status == UNRESOLVED:
        line["contradicted"] = judge.contradicted(records, level=asked.level, large=asked.is_large)
    if reply.status == ANOMALY and asked.keeps:
        kept = judge.ask(Request("explain", records, asked.level, True, wants_certificate=True, wants_slice=True)).checked()
        return Judged(line, kept.certificate, kept.slice)
    return Judged(line)


def answer_of(reply: Reply) -> Json:
    """The last answer of a reply."""
    lines = reply.answer.splitlines()
    try:
        told: Json = json.loads(lines[-1])
        return told
    except (IndexError, ValueError) as error:
        raise NoAnswer("no answer of tcc explain --json: %r" % reply.answer[:200]) from error


def is_final(line: Json) -> bool:
    """Whether asking again would answer the same: not where memory ran out, or nothing could be run."""
    return line.get("status") in (*JUDGED, TOO_FEW)
