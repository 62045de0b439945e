"""The program `tcc` as the scripts run it: which words, and what it answered."""
import json
import os
import pathlib
import shutil
import subprocess
from dataclasses import dataclass
from typing import List, Optional

from tcc.common.appended import Path
from tcc.common.rows import Json

NO_PROGRAM = 127
BESIDE = pathlib.Path(__file__).resolve().parents[3] / "tcc"  # where the archive has the program
DEVICE = "device"  # what a run prints where a file or a stream failed; standard error says which
MOST_LETTERS = 200
ANSWERS = ("anomaly", "consistent", "unresolved")


class NoAnswer(Exception):
    """A run of `tcc` that judged nothing: a record that breaks a rule, a limit, too few transactions, or a program that isn't
    there or failed. `status` is its exit status, and None where it didn't run."""

    def __init__(self, why: str, status: Optional[int] = None):
        super().__init__(why)
        self.status = status


def wanted_program(path: Optional[Path]) -> str:
    """What is asked for: the path, or else what the variable TCC names; none of both is an empty text."""
    return os.fspath(path or os.environ.get("TCC") or "")


def found_program(wanted: str) -> Optional[str]:
    """Where that is; of none that one on the path of programs, or that of the archive in which this package is."""
    return shutil.which(wanted or "tcc") or (None if wanted else shutil.which(str(BESIDE)))


def program_at(path: Optional[str]) -> str:
    """The program, wherever it is run, for a command, whose status is 127 where there is none."""
    wanted = wanted_program(path)
    found = found_program(wanted)
    if found is None:
        raise NoAnswer("there is no program %s; --tcc PATH or the variable TCC says where it is" % (wanted or "tcc"), NO_PROGRAM)
    return os.path.abspath(found)


@dataclass(frozen=True)
class Program:
    """The program, and what it is asked for."""

    path: str
    level: str = "causal"
    is_large: bool = False
    workers: Optional[int] = None

    def explain(self, *more: str) -> List[str]:
        """The words of `tcc explain`."""
        large = ["--large"] if self.is_large else []
        workers = ["--workers", str(self.workers)] if self.workers else []
        return [self.path, "explain", "--level", self.level, *large, *workers, "--json", *more]

    def has_survey(self) -> bool:
        """Whether it has `tcc survey`."""
        return subprocess.run([self.path, "survey", "--help"], stdin=subprocess.DEVNULL, capture_output=True, check=False).returncode == 0

    def survey(self, *more: str) -> List[str]:
        """The words of `tcc survey`."""
        return [self.path, "survey", "--level", self.level, *(["--large"] if self.is_large else []), "--json", *more]

    def answer(self, records: bytes) -> Json:
        """The last answer for these records."""
        return last_answer(subprocess.run(self.explain(), input=records, capture_output=True, check=False))


def last_answer(ended: "subprocess.CompletedProcess[bytes]") -> Json:
    """The last answer that a run printed."""
    lines = ended.stdout.splitlines()
    told: Json = {}
    try:
        told = json.loads(lines[-1]) if lines else {}
    except ValueError:
        told = {}
    if told.get("answer") not in ANSWERS:
        raise no_answer(ended)
    return told


def plain_end(line: str) -> str:
    """A line of JSON in the place of an answer as `tcc` prints it without --json; any other line as it is."""
    try:
        told = json.loads(line)
        if told["answer"] != "row":
            return str(told["answer"])
        return "row %d: %s" % (told["row"], " ".join(filter(None, (told["kind"], told.get("session")))))
    except (ValueError, KeyError, TypeError):
        return line


def why_none(line: str, errors: str) -> List[str]:
    """Why a run gave no answer, by its last line and by what it wrote to standard error, which says in words what the line has in one."""
    notes, said = [one for one in errors.splitlines() if one.strip() and one != DEVICE], plain_end(line)[:MOST_LETTERS]
    is_said = said in ("", DEVICE, "consistent") or any(one.startswith(said.partition(":")[0] + ":") for one in notes)
    return notes if notes and is_said else [one for one in (said, *notes) if one]


def no_answer(ended: "subprocess.CompletedProcess[bytes]") -> NoAnswer:
    """Why a run gave no answer, by what it printed."""
    line = (ended.stdout.decode(errors="replace").splitlines() or [""])[-1]
    why = "\n".join(why_none(line, ended.stderr.decode(errors="replace")))
    return NoAnswer("tcc ended with %d: %s" % (ended.returncode, why), ended.returncode if ended.returncode > 0 else 1)
