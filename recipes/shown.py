"""What the demos of real servers share. They run commands as they would be typed, show the answers for what their
recorder wrote, and end with a report of the first history that isn't consistent."""
import argparse
import contextlib
import json
import pathlib
import shutil
import signal
import subprocess
import sys
import tempfile
import threading
from dataclasses import dataclass
from typing import IO, Callable, Dict, List, Optional, Sequence, Set, Tuple, TypeVar

RECIPES = pathlib.Path(__file__).resolve().parent
BUILT = RECIPES.parent / "crates/tcc/out/tcc"
EXAMPLE = """example:
  $ demo.py --tcc crates/tcc/out/tcc --reports .
"""
UNRESOLVED = 2  # the greatest status of an answer
WITHOUT_SERVER = 77
# A round that couldn't be played, as where a server didn't come up in time, is played again, so often in all; the words of a recorder
# may have the number of the turn.
TURNS, TURN = 3, "{turn}"
# No command of a demo takes so long, on whatever machine: one that does hangs. Asked to end it has so many to clear up.
SECONDS, END_SECONDS = 1800, 60

sys.path.insert(0, str(RECIPES.parent / "python"))
from tcc.common.words import command_line  # noqa: E402
from tcc.harness.recipe import UNPLAYED  # noqa: E402
from tcc.harness.servers import stop  # noqa: E402
from tcc.judging.noted_versions import NoVersions  # noqa: E402
from tcc.judging.versions import Versioned, write_versioned  # noqa: E402

Played = TypeVar("Played")


class Failed(Exception):
    """A command that did not do its part."""


class Unplayed(Exception):
    """A round that couldn't be played, however often; so nothing is known of the answer."""


def program(path: Optional[str]) -> str:
    """The program that was asked for, or else the built one, or else the one on the path."""
    wanted = path or (str(BUILT) if BUILT.exists() else "tcc")
    found = shutil.which(wanted)
    if not found:
        raise Failed("%s isn't there; make build makes crates/tcc/out/tcc" % wanted)
    return found


def python_with(library: str) -> Optional[str]:
    """The Python that has a library: this one, or that of Debian's packages."""
    for python in (sys.executable, "/usr/bin/python3"):
        words = [python, "-c", "import " + library]
        if shutil.which(python) and subprocess.run(words, stderr=subprocess.DEVNULL, check=False).returncode == 0:
            return python
    return None


def run(words: List[str], given: Optional[pathlib.Path] = None, into: Optional[pathlib.Path] = None, most: int = 0) -> bytes:
    """Runs a command from one file into another, which is said as it would be typed, and gives what it printed; a status
    above `most` is a failure."""
    said = [pathlib.Path(word).name if word.startswith("/") else word for word in words]
    print("$ " + " ".join(said) + (" < " + given.name if given else "") + (" > " + into.name if into else ""), flush=True)
    status, printed, errors = ended(words, given.read_bytes() if given else b"")
    if status == UNPLAYED:
        raise Unplayed("not played in %d turns, at last: %s" % (TURNS, (errors or ["no word why"])[-1].rstrip()))
    if not 0 <= status <= most:
        raise Failed("%s: status %d" % (" ".join(said), status))
    if into:
        into.write_bytes(printed)
    return printed


def ended(words: List[str], given: bytes) -> Tuple[int, bytes, List[str]]:
    """Runs a command to its end: its status, what it printed, and the lines of its standard error, which are shown as they come. One
    that hangs is asked to end, so that it stops its servers."""
    errors: List[str] = []
    with subprocess.Popen(words, stdin=subprocess.PIPE, stdout=subprocess.PIPE, stderr=subprocess.PIPE) as running:
        lines, running.stderr = running.stderr, None  # so that it is left to the thread
        showing = threading.Thread(target=show_errors, args=(lines, errors), daemon=True)
        showing.start()
        try:
            printed, _ = running.communicate(given, SECONDS)
        except subprocess.TimeoutExpired as error:
            raise Failed("%s: no end within %d seconds" % (words[0], SECONDS)) from error
        finally:
            stop(running, signal.SIGTERM, END_SECONDS)
            showing.join(END_SECONDS)
        return running.returncode, printed, errors


def show_errors(lines: IO[bytes], kept: List[str]) -> None:
    """Shows each line on standard error, and keeps it."""
    with lines:
        for line in lines:
            kept.append(line.decode(errors="replace"))
            print(kept[-1], end="", file=sys.stderr, flush=True)


def in_turns(play: Callable[[int], Played]) -> Played:
    """What a round gives that is played again where it couldn't be played, with the number of the turn; Unplayed where it never could."""
    for turn in range(1, TURNS):
        with contextlib.suppress(Unplayed):
            return play(turn)
        print("not played, so once more", flush=True)
    return play(TURNS)


def shown(text: bytes, most: int = 160) -> None:
    for line in text.decode().splitlines():
        print(line if len(line) <= most else line[:most] + " ..")


def answer(tcc: str, recorder: List[str], folder: pathlib.Path, name: str) -> dict:
    """The answer for what a recorder writes, after it and what it speaks of were shown; beside its records it writes annotations."""
    records, told = folder / (name + ".csv"), folder / (name + ".json")
    run([*recorder, "--notes", str(folder / (name + "-notes.csv"))], into=records)
    shown(run([tcc, "explain"], given=records, most=UNRESOLVED))
    run([tcc, "explain", "--json"], given=records, into=told, most=UNRESOLVED)
    found = json.loads(told.read_bytes())
    if found["answer"] != "consistent":
        shown(run([sys.executable, str(RECIPES / "picture.py"), str(told), "--history", str(records), "--text"]))
    return found


def report(tcc: str, folder: pathlib.Path, name: str, reports: pathlib.Path, more: Sequence[str] = ()) -> None:
    """Makes the page of a history, and says where it is."""
    reports.mkdir(parents=True, exist_ok=True)
    page = reports / (name + ".html")
    words = [sys.executable, str(RECIPES / "report.py"), str(folder / (name + ".csv")), "--notes", str(folder / (name + "-notes.csv"))]
    shown(run([*words, *more, "--tcc", tcc, "-o", str(page)], most=UNRESOLVED))
    if not page.exists():
        raise Failed("report.py wrote no page")


def asked_of(about: str) -> argparse.Namespace:
    """What a demo is asked for."""
    ask = command_line(about, EXAMPLE)
    ask.add_argument("--tcc", help="the program, by default the built one, or else the one on the path")
    ask.add_argument("--reports", metavar="FOLDER", type=pathlib.Path, help="where the report goes, by default a new folder, which stays")
    return ask.parse_args()


def ended_with(needs: str, has_all: bool, show: Callable[[], bool], said: str) -> int:
    """Shows what a demo shows, where all that it needs is there; the exit status."""
    if not has_all:
        print("demo.py: no %s" % needs, file=sys.stderr)
        return WITHOUT_SERVER
    try:
        is_right = show()
    except Unplayed as error:
        print("demo.py: %s" % error, file=sys.stderr)
        return WITHOUT_SERVER
    except (Failed, NoVersions, OSError) as error:
        print("demo.py: %s" % error, file=sys.stderr)
        return 1
    print(said if is_right else "NOT what was expected")
    return 0 if is_right else 1


@dataclass(frozen=True)
class Demo:
    """What is shown: the answers for what a recorder writes in some rounds, by what it is asked for in each. `needs` says what
    has to be there, beside `library`; `is_expected` whether the answers are what they have to be, and `said` what they are. One that is
    `watched` shows the answers of `tcc watch` too, while clients work."""

    about: str
    recorder: pathlib.Path
    library: str
    needs: str
    rounds: Dict[str, List[str]]
    is_expected: Callable[[Dict[str, dict]], bool]
    said: str
    watched: bool = False

    def run(self, has_server: bool) -> int:
        """Shows it; the exit status."""
        asked, python = asked_of(self.about), python_with(self.library)
        return ended_with(self.needs, has_server and python is not None,
                          lambda: self.is_expected(self.answers(python or "", program(asked.tcc), asked.reports)), self.said)

    def command(self, python: str, tcc: str, words: List[str], turn: int) -> List[str]:
        more = ["--watch", "--tcc", tcc] if self.watched else []
        return [python, str(self.recorder), *(word.replace(TURN, str(turn)) for word in words), *more]

    def answers(self, python: str, tcc: str, reports: Optional[pathlib.Path]) -> Dict[str, dict]:
        """The answer of each round, by its name."""
        found = {}
        with tempfile.TemporaryDirectory() as given:
            folder = pathlib.Path(given)
            for name, words in self.rounds.items():
                found[name] = in_turns(lambda turn: answer(tcc, self.command(python, tcc, words, turn), folder, name))
                print()
            name = next((name for name, one in found.items() if one["answer"] != "consistent"), next(iter(found)))
            report(tcc, folder, name, reports or pathlib.Path(tempfile.mkdtemp(prefix="tcc-report-")))
            print()
        return found


Stale = Set[Tuple[str, str]]


@dataclass
class Round:
    """What a round left in its folder: records, versions, annotations, and the reads that are stale by versions."""

    name: str
    folder: pathlib.Path

    def path(self, end: str) -> pathlib.Path:
        return self.folder / (self.name + end)

    def stale(self) -> Stale:
        return {(label, key) for label, key in map(str.split, self.path("-stale.txt").read_text().splitlines())}


def surveyed(tcc: str, path: pathlib.Path) -> List[dict]:
    """The contradicted reads of a history."""
    *lines, _ = run([tcc, "survey", "--json", "--large", str(path)], most=1).splitlines()
    return [told for told in map(json.loads, lines) if "contradicted" in told]


def found_by(told: Versioned, listed: List[dict]) -> Stale:
    """The reads of the history, each a label and a key, that a survey of the records with versions lists."""
    return {(one["contradicted"], told.marks.get(one["key"], one["key"])) for one in listed if not told.is_made(one["contradicted"])}


@dataclass(frozen=True)
class VersionedDemo:
    """What is shown of a store that numbers its writes: `rounds` by what its recorder is asked for in each, of which those of `kept` are
    consistent and the others are not. The stale reads that a survey lists have to be those of the recorder's own count by versions."""

    about: str
    recorder: pathlib.Path
    needs: str
    rounds: Dict[str, List[str]]
    kept: Sequence[str]
    said: str
    library: Optional[str] = None

    def run(self, has_server: bool) -> int:
        """Shows it; the exit status."""
        asked = asked_of(self.about)
        python = python_with(self.library) if self.library else sys.executable
        return ended_with(self.needs, has_server and python is not None, lambda: self.show_all(python or "", program(asked.tcc), asked.reports), self.said)

    def show_all(self, python: str, tcc: str, reports: Optional[pathlib.Path]) -> bool:
        """Shows all rounds, and says whether each is what it has to be; the first one gets a report."""
        are_right = []
        with tempfile.TemporaryDirectory() as name:
            for each in self.rounds:
                one = in_turns(lambda turn: self.played(python, pathlib.Path(name), each, turn))
                are_right.append(self.is_expected(tcc, one))
                if each == next(iter(self.rounds)):
                    report(tcc, one.folder, each, reports or pathlib.Path(tempfile.mkdtemp(prefix="tcc-report-")),
                           ["--versions", str(one.path("-versions.csv"))])
        return all(are_right)

    def played(self, python: str, top: pathlib.Path, name: str, turn: int) -> Round:
        """Plays a round, in the first turn with the least patience."""
        one = Round(name, pathlib.Path(tempfile.mkdtemp(dir=top)))
        run([python, str(self.recorder), *self.rounds[name], "--patience", str(turn * turn), "-o", str(one.path(".csv")), "--versions",
             str(one.path("-versions.csv")), "--notes", str(one.path("-notes.csv")), "--stale", str(one.path("-stale.txt"))])
        return one

    def is_expected(self, tcc: str, one: Round) -> bool:
        """Shows the answers for a round, and says whether they are what they have to be."""
        told, stale = write_versioned(one.path(".csv"), one.path("-versions.csv"), one.path("-judged.csv")), one.stale()
        answer = run([tcc, "explain", "--large", "--quiet", str(one.path("-judged.csv"))], most=UNRESOLVED).decode()
        shown(answer.encode())
        found, without = found_by(told, surveyed(tcc, one.path("-judged.csv"))), surveyed(tcc, one.path(".csv"))
        print("%s: by the store's versions %d reads are stale; with versions tcc finds %d of them and %d others, without versions %d\n" % (
            one.name, len(stale), len(found & stale), len(found - stale), len(without)))
        is_kept = one.name in self.kept
        return answer.startswith("consistent" if is_kept else "anomaly") and found == stale and bool(stale) != is_kept
