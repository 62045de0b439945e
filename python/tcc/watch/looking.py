"""Answers while the clients work: a look at what was recorded so far, of one recorder or of several that record one store.

A look takes the records up to a moment. A transaction that is under way then ends with `unknown`: somebody may have read it before its
client was told that it committed. So whatever a look says of the store is true, and stays true.
"""
import contextlib
import os
import sys
import tempfile
import threading
import time
from dataclasses import dataclass
from mmap import ACCESS_READ, mmap
from types import TracebackType
from typing import TYPE_CHECKING, Any, Callable, Dict, FrozenSet, Iterator, List, Optional, Sequence, Set, TextIO, Type, Union

from tcc.common.appended import NoRecord, Path
from tcc.common.inputs import Foreign, check_records
from tcc.common.progress import INTERRUPTED
from tcc.common.whole import written_whole
from tcc.common.words import Arguments
from tcc.judging.noted_versions import NoVersions
from tcc.judging.program import NoAnswer
from tcc.judging.runner import ANOMALY, UNRESOLVED, Anomaly, Answer, Consistent, explain
from tcc.record.known import PENDING, SEAL, Known, Pair, Place, lines_of, text_of
from tcc.record.written import Written

if TYPE_CHECKING:
    from tcc.record.recorder import Recorder

# A recorder of this process, or the file of one of any.
Source = Union["Recorder", Path]
Told = Union[Answer, NoAnswer]
# A file that ends meanwhile is looked at again, so many times.
MOST_TRIES = 100
PAUSE_SECONDS = 0.1
LEAST_BYTES = 16384
BLOCK = 1 << 20
# Statuses of the commands: the files can't be read, and the program isn't there, as a shell has it.
NOT_READ, NO_PROGRAM = 6, 127


@dataclass(frozen=True)
class Moment:
    """What was recorded in a file by some moment: its first bytes, what was written by those that hadn't ended, and the names of
    sessions."""

    path: str
    end: int
    open_ones: Dict[Place, List[Pair]]
    sessions: FrozenSet[str]

    def lines(self) -> Iterator[bytes]:
        return lines_of(self.path, self.end)

    def copy(self, out: TextIO) -> None:
        """Copies the records, without seals."""
        with open(self.path, "rb") as file:
            if self.end and mmap(file.fileno(), self.end, access=ACCESS_READ).find(SEAL.encode()) >= 0:
                out.writelines(line.decode("ascii") for line in self.lines() if line != SEAL.encode())
                return
            left = self.end
            while left:
                part = file.read(min(left, BLOCK))
                out.write(part.decode("ascii"))
                left -= len(part)

    def texts(self, taken: Set[str]) -> Iterator[str]:
        """What ends those that hadn't. A session ends with what is of unknown outcome. Of several of one session, which ended
        between the look at the records and that at what is noted beside, all but the last have a session of their own. That takes
        pairs away."""
        last = dict(sorted(self.open_ones))
        for (session, place), writes in sorted(self.open_ones.items()):
            name = session if place == last[session] else unused(taken)
            yield text_of(name, [("w", key, value) for key, value in writes], "unknown")


def unused(taken: Set[str]) -> str:
    """A name of a session that none has so far."""
    number = 1
    while "look-%d" % number in taken:
        number += 1
    taken.add("look-%d" % number)
    return "look-%d" % number


def moments(sources: Sequence[Source]) -> List[Moment]:
    """What was recorded by one moment. A write is noted before it goes to the store, so whoever had read it by then did so after
    it was noted."""
    recorders = [one for one in sources if not isinstance(one, (str, os.PathLike))]
    paths = [os.fspath(one) for one in sources if isinstance(one, (str, os.PathLike))]
    for _ in range(MOST_TRIES):
        sizes = [os.path.getsize(path) for path in paths]  # before what is noted beside is read
        were_open = [os.path.exists(path + PENDING) for path in paths]
        with contextlib.ExitStack() as held:
            for one in sorted(recorders, key=id):
                held.enter_context(one._lock)
            found = [one._moment() for one in recorders]
            beside = [pending_of(path) for path in paths]
        if [one is not None for one in beside] == were_open:  # one that was closed meanwhile has ended what was under way
            return found + [moment_of(path, size, lines or []) for path, size, lines in zip(paths, sizes, beside)]
    raise NoRecord("%s: opened and closed again and again" % ", ".join(paths))


def pending_of(path: str) -> Optional[List[bytes]]:
    """The lines beside a file of records; none where nobody records into it."""
    try:
        return [line for line in lines_of(path + PENDING) if line.endswith(b"\n")]
    except FileNotFoundError:
        return None


def moment_of(path: str, size: int, pending: List[bytes]) -> Moment:
    """What the first bytes of a file have that another process writes."""
    known = Known(Written(0))
    known.take_records(lines_of(path, size), path)
    known.take_pending(pending)
    return Moment(path, known.end, {place: one.writes for place, one in known.unknown.items()}, frozenset(known.sessions))


def check_names(found: Sequence[Moment]) -> None:
    """Sessions of several files need names that differ."""
    owners: Dict[str, str] = {}
    for one in found:
        for session in one.sessions:
            if owners.setdefault(session, one.path) != one.path:
                raise NoRecord("a session %s is in %s and in %s: each needs a name of its own" % (session, owners[session], one.path))


def snapshot(sources: Sequence[Source], path: Path) -> None:
    """Writes what was recorded by now, of all of these, as one history: what hasn't ended is of unknown outcome. The file gets its name
    once it is whole."""
    found = moments(sources)
    check_names(found)
    taken = {session for one in found for session in one.sessions}
    with written_whole(path) as out:
        for one in found:
            one.copy(out)
            out.writelines(one.texts(taken))


def look(sources: Sequence[Source], *, level: str = "causal", large: bool = True, workers: int = 1, seconds: Optional[float] = None,
         tcc: Optional[Path] = None, begun: Optional[Callable[[Any], None]] = None, versions: Sequence[Path] = ()) -> Answer:
    """The answer for what was recorded by now, of all of these; with files of versions, by those that were noted."""
    with tempfile.TemporaryDirectory(prefix="tcc-look-") as folder:
        path, beside = os.path.join(folder, "records.csv"), os.path.join(folder, "versions.csv") if versions else None
        snapshot(sources, path)
        if beside is not None:
            with open(beside, "wb") as out:
                out.writelines(line for one in versions for line in lines_of(one) if line.endswith(b"\n"))
        return explain(path, level=level, large=large, workers=workers, require=0, seconds=seconds, tcc=tcc, begun=begun, versions=beside)


@dataclass(frozen=True)
class Asking:
    """Who hears of answers, and how they are asked for while clients work: each time that the records have grown by so much, first
    once they have this many bytes. With `every` they hear of each answer. With `stops` a recorder that is watched begins no transaction
    after the store broke its promise, or where nothing is judged any more."""

    tell: Callable[[Told], None]
    level: str = "causal"
    workers: int = 1
    growth: float = 0.25
    least: int = LEAST_BYTES
    tcc: Optional[Path] = None
    stops: bool = False
    every: bool = False


class Looking:
    """Asks for answers in a thread of its own, from `start` to `stop`. It tells the first one, and then each that is of another
    kind. What isn't consistent stays so, and there it ends; so it does where there is no answer."""

    def __init__(self, sources: Sequence[Source], asking: Asking):
        self.sources, self.asking = list(sources), asking
        self.looks = 0
        self._over = threading.Event()
        self._lock = threading.Lock()
        self._running: Optional[Any] = None
        self._thread = threading.Thread(target=self._run, name="tcc looks", daemon=True)

    def start(self) -> "Looking":
        self._thread.start()
        return self

    def stop(self) -> None:
        """Asks no more; an answer that isn't there yet isn't waited for."""
        with self._lock:
            self._over.set()
            if self._running is not None:
                self._running.kill()
        if self._thread is not threading.current_thread() and self._thread.is_alive():
            self._thread.join()

    def __enter__(self) -> "Looking":
        return self.start()

    def __exit__(self, kind: Optional[Type[BaseException]], error: Optional[BaseException], trace: Optional[TracebackType]) -> None:
        self.stop()

    def _size(self) -> int:
        paths = [one if isinstance(one, (str, os.PathLike)) else one.path for one in self.sources]
        return sum(os.path.getsize(path) for path in paths if os.path.exists(path))

    def _begun(self, running: Any) -> None:
        with self._lock:
            self._running = running
            if self._over.is_set():
                running.kill()

    def _run(self) -> None:
        wanted, last = self.asking.least, None
        while not self._over.wait(PAUSE_SECONDS):
            size = self._size()
            if size < wanted:
                continue
            wanted = int(size * (1 + self.asking.growth)) + 1
            told = self._answer()
            if self._over.is_set():
                return
            self.looks += 1
            if self.asking.every or type(told) is not last:
                self.asking.tell(told)
            last = type(told)
            if not isinstance(told, Consistent):
                return

    def _answer(self) -> Told:
        try:
            return look(self.sources, level=self.asking.level, workers=self.asking.workers, tcc=self.asking.tcc, begun=self._begun)
        except NoAnswer as error:
            return error
        except (NoRecord, OSError) as error:
            return NoAnswer(str(error))
        finally:
            self._running = None


def seal(recorders: Sequence["Recorder"], seconds: float = 5.0) -> bool:
    """Writes a seal into the records of each: an answer is wanted for what was finished by now. No transaction begins before those
    under way have ended; where that takes longer than so many seconds there is no seal. Whether there is one."""
    held = contextlib.ExitStack()
    try:
        return sealed(sorted(recorders, key=id), held, time.monotonic() + seconds)
    finally:
        held.close()


def sealed(recorders: List["Recorder"], held: contextlib.ExitStack, until: float) -> bool:
    """Seals all of them while they are held; in one order, so that no two wait for each other."""
    if not all([held.enter_context(one._holding(until)) for one in recorders]):
        return False
    if not all(one._is_idle(until) for one in recorders):
        return False
    for one in recorders:
        held.enter_context(one._lock)
    ends = [one._records.end for one in recorders]
    try:
        for one in recorders:
            one._append_seal()
    except OSError:  # in all of them, or in none
        for one, end in zip(recorders, ends):
            one._records.cut(end)
        raise
    for one in recorders:
        one._has_ended_all()
    return True


def joined(paths: Sequence[Path], out: TextIO) -> None:
    """Writes the records of several files as one history; a seal stands where all of them have one."""
    check_names([moment_of(os.fspath(path), os.path.getsize(path), []) for path in paths])
    with contextlib.ExitStack() as held:
        files = [held.enter_context(open(path, encoding="ascii", newline="\n")) for path in paths]
        while True:
            sealed = [copy_part(file, out) for file in files]
            if not any(sealed):
                return
            if not all(sealed):
                raise NoRecord("%s has fewer seals than %s" % (paths[sealed.index(False)], paths[sealed.index(True)]))
            out.write(SEAL)


def copy_part(file: TextIO, out: TextIO) -> bool:
    """Copies up to a seal, or to the end; whether there was one."""
    for line in file:
        if line == SEAL:
            return True
        out.write(line)
    return False


def main() -> int:
    """The answer for what was recorded so far, as the command `tcc-look`."""
    ask = Arguments(description="The answer for what recorders of the package have recorded so far, while they record. What "
                                  "is under way counts as of unknown outcome.")
    ask.add_argument("records", nargs="+", metavar="RECORDS", help="the files that they record into")
    ask.add_argument("--level", choices=("causal", "atomic"), default="causal", help="by default causal")
    ask.add_argument("--versions", metavar="FILE", action="append", default=[], help="judges with the versions that were noted there; may be said "
                     "again, as where several recorders have a file each")
    ask.add_argument("-o", "--output", metavar="FILE", help="writes the history there, and asks for no answer")
    ask.add_argument("--tcc", metavar="PATH", help="the program, by default $TCC, or else the one on the path")
    asked = ask.parse_args()
    try:
        check_records(*asked.records)
        if asked.output:
            snapshot(asked.records, asked.output)
            return 0
        answer = look(asked.records, level=asked.level, tcc=asked.tcc, versions=asked.versions)
    except NoAnswer as error:
        print("tcc-look: %s" % error, file=sys.stderr)
        return NOT_READ if isinstance(error.__cause__, NoVersions) else error.status or NO_PROGRAM
    except (NoRecord, Foreign, OSError) as error:
        print("tcc-look: %s" % error, file=sys.stderr)
        return NOT_READ
    except KeyboardInterrupt:
        print("tcc-look: interrupted", file=sys.stderr)
        return INTERRUPTED
    if isinstance(answer, Consistent):
        print("consistent: %d transactions, %d sessions" % (answer.transactions, answer.sessions))
        return 0
    print(answer.text(), end="")
    return ANOMALY if isinstance(answer, Anomaly) else UNRESOLVED


def join() -> int:
    """The records of several files as one history, as the command `tcc-join`."""
    ask = Arguments(description="Writes the records of several files as one history: names of sessions have to differ, and a "
                                  "seal stands where all files have one.")
    ask.add_argument("records", nargs="+", metavar="RECORDS", help="the files")
    ask.add_argument("-o", "--output", metavar="FILE", required=True, help="the file for the history, which gets its name once it is whole")
    asked = ask.parse_args()
    try:
        check_records(*asked.records)
        with written_whole(asked.output) as out:
            joined(asked.records, out)
    except (NoRecord, OSError, ValueError) as error:
        print("tcc-join: %s" % error, file=sys.stderr)
        return NOT_READ
    return 0


if __name__ == "__main__":
    sys.exit(main())
