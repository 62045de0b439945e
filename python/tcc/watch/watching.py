"""Answers of `tcc watch` while the clients work: as long as the history is consistent each one costs what is new.

A thread passes on to `tcc watch` what recorders have appended to their files, with seals between: one each time that the records
have grown by so much, at first after each few transactions. A seal may come while a transaction is under way of which somebody has
read. Its reads have no source yet, so an answer that is unresolved for such reads alone isn't told. The last answer is for all records,
and there it is.
"""
import contextlib
import fcntl
import os
import subprocess
import tempfile
import threading
from types import TracebackType
from typing import IO, TYPE_CHECKING, Callable, Dict, Iterator, List, Optional, Sequence, Type, Union

from tcc.common.appended import NoRecord, Path
from tcc.common.limits import LARGE_SEALS
from tcc.common.rows import Json
from tcc.judging.program import NoAnswer, why_none
from tcc.judging.runner import ANOMALY, CONSISTENT, UNRESOLVED, Anomaly, Answer, Unresolved, program
from tcc.record.known import ENDINGS, PENDING, SEAL
from tcc.watch import shared
from tcc.watch.looking import NOT_READ, PAUSE_SECONDS, Asking, Moment, Source, Told, moments
from tcc.watch.verdict import BrokenPromise, Verdict, answer_in

if TYPE_CHECKING:
    from tcc.record.recorder import Recorder

__all__ = ["BrokenPromise", "Watching", "answer_in"]

# By so much the records grow between two seals.
GROWTH = 0.05
LEAST_TRANSACTIONS = 16
# How many seconds a program that gave no answer may take to end, and how many bytes of what it said are kept.
END_SECONDS = 10.0
MOST_SAID = 500
ALONE = "where other processes record the same store, watch all of their files: watch=[PATH, ..], or watch=FOLDER in each of them\n"


class Watching(Verdict):
    """Has `tcc watch` answer in a thread of its own, from `start` to `stop` or `finish`. It tells the first answer, and then each that is
    of another kind. Where the store broke its promise it ends, and `broken` is the answer. Where nothing is judged any more it ends too,
    and `failed` says why. It follows recorders, and files of records, of which one that isn't there yet is waited for; or all recorders
    that announce themselves in a folder."""

    def __init__(self, sources: Union[Sequence[Source], Path], asking: Asking):
        super().__init__()
        self.folder = os.fspath(sources) if isinstance(sources, (str, os.PathLike)) else None
        self.sources: List[Source] = [] if isinstance(sources, (str, os.PathLike)) else list(sources)
        self.asking, self.stops = asking, asking.stops
        self.answers = 0
        self._last: Optional[Answer] = None
        self._line = b""
        self._kind: Optional[Type[Told]] = None
        self._ends: Dict[int, int] = {}  # by the places of the sources, how many bytes were passed on
        self._count, self._rows, self._seals = 0, 0, 0
        self._over, self._ending = threading.Event(), threading.Event()
        self._lock = threading.Lock()
        self._running: "Optional[subprocess.Popen[bytes]]" = None
        self._thread = threading.Thread(target=self._run, name="tcc watches", daemon=True)

    @property
    def count(self) -> int:
        """How many transactions were passed on to `tcc watch` so far."""
        return self._count

    def state(self) -> Json:
        """How far the answers are: the number of the seal that was answered last, how many records came before it, and how many bytes of records
        weren't passed on yet."""
        paths = [one if isinstance(one, (str, os.PathLike)) else one.path for one in self.sources]
        sizes = [os.path.getsize(path) if os.path.exists(path) else 0 for path in paths]
        behind = sum(max(size - self._ends.get(number, 0), 0) for number, size in enumerate(sizes))
        return {"seal": self._seals, "record": self._rows, "behind": behind}

    def is_running(self) -> bool:
        """Whether more answers may come."""
        return self._thread.is_alive()

    def start(self) -> "Watching":
        if self.folder is not None:
            shared.begin(self.folder)
        self._thread.start()
        return self

    def stop(self) -> None:
        """Asks no more; an answer that isn't there yet isn't waited for."""
        with self._lock:
            self._over.set()
            if self._running is not None:
                self._running.kill()
        self.finish()

    def finish(self) -> None:
        """Waits for the answer for all that was recorded by now, and asks no more."""
        self._ending.set()
        if self._thread is not threading.current_thread() and self._thread.is_alive():
            self._thread.join()

    def __enter__(self) -> "Watching":
        return self.start()

    def __exit__(self, kind: Optional[Type[BaseException]], error: Optional[BaseException], trace: Optional[TracebackType]) -> None:
        if kind is None:
            self.finish()
        else:
            self.stop()

    def _run(self) -> None:
        try:
            words = [program(self.asking.tcc), "watch", "--json", "--level", self.asking.level]
            with said() as errors, subprocess.Popen(words, stdin=subprocess.PIPE, stdout=subprocess.PIPE, stderr=errors,
                                                    start_new_session=True) as running:  # so that no Ctrl-C ends it
                try:
                    self._follow(running, errors)
                finally:
                    running.kill()
                    close(running.stdin)
        except NoAnswer as error:
            self._fail(error)
        except NoRecord as error:
            self._fail(NoAnswer("tcc watch: %s" % error, NOT_READ))
        except (OSError, ValueError) as error:
            self._fail(NoAnswer("tcc watch: %s" % error))
        finally:
            if self.folder is not None:
                self._leave_found(self.folder)

    def _follow(self, running: "subprocess.Popen[bytes]", errors: IO[bytes]) -> None:
        """Passes on what is new, and asks for an answer, as long as answers are wanted."""
        with self._lock:
            self._running = running
        assert running.stdin is not None and running.stdout is not None
        wanted = LEAST_TRANSACTIONS
        while not self._over.is_set():
            is_last = self._ending.is_set()
            with contextlib.suppress(BrokenPipeError):  # where the program has ended, its last line says why
                self._pass_on(running.stdin, self._last_moment() if is_last else None)
                if is_last:
                    close(running.stdin)
                elif self._count < wanted or self._seals == LARGE_SEALS:
                    self._ending.wait(PAUSE_SECONDS)
                    continue
                else:
                    running.stdin.write(SEAL.encode())
                    running.stdin.flush()
            self._seals, wanted = self._seals + 1, self._count + max(LEAST_TRANSACTIONS, int(self._count * self.asking.growth))
            line = running.stdout.readline()
            if self._over.is_set() or self._is_done(self._answer(line, is_last, running, errors), is_last):
                return
            errors.truncate(0)

    def _pass_on(self, records: IO[bytes], last: Optional[List[Moment]] = None) -> None:
        """Passes on the whole transactions that were appended since. At the last moment what others have under way counts as of unknown
        outcome: somebody may have read it."""
        self._find_sources()
        ends = {one.path: one.end for one in last or []}
        for number, source in enumerate(self.sources):
            for line in part_of(source, self._ends.get(number, 0), ends):
                self._ends[number] = self._ends.get(number, 0) + len(line)
                if line != SEAL.encode():
                    records.write(line)
                    self._rows += 1
                self._count += line.endswith(ENDINGS)
        taken = {session for one in last or [] for session in one.sessions}
        for one in last or []:
            records.writelines(text.encode() for text in one.texts(taken))

    def _find_sources(self) -> None:
        if self.folder is not None:
            self.sources += [path for path in shared.announced(self.folder) if path not in self.sources]

    def _last_moment(self) -> List[Moment]:
        """What all sources have by now, where somebody else records into one of them; else all of them are whole."""
        self._find_sources()
        paths = [os.fspath(one) for one in self.sources if isinstance(one, (str, os.PathLike))]
        missing = [path for path in paths if not os.path.exists(path)]
        if missing or not self.sources:
            raise NoRecord("%s never came" % (missing or ["a recorder in %s" % self.folder])[0])
        return moments(self.sources) if any(os.path.exists(path + PENDING) for path in paths) else []

    def _answer(self, line: bytes, is_last: bool, running: "subprocess.Popen[bytes]", errors: IO[bytes]) -> Answer:
        """The answer of a line; at the end there is no new one where nothing was finished since the last."""
        found = answer_in(line)
        self._line = line or self._line
        if found is None and is_last and not line and status_of(running) in (CONSISTENT, ANOMALY, UNRESOLVED):
            found = self._last
        if found is None:
            raise no_answer(line, running, errors)
        return found

    def _is_done(self, told: Answer, is_last: bool = False) -> bool:
        """Takes an answer; whether it is the last. At the end reads that nobody can have written leave nothing judged."""
        is_new = told is not self._last
        self.answers += is_new
        self._last = told
        if isinstance(told, Anomaly) or isinstance(told, Unresolved) and told.violations():
            self.broken = told
        elif isinstance(told, Unresolved):
            if not is_last:
                return False
            self.failed = NoAnswer("reads can't be traced to a write: %s%s" % (told.text(), self._advice()), UNRESOLVED)
        if is_new or self.failed:
            self._tell(told)
        return is_last or self.broken is not None

    def _advice(self) -> str:
        return ALONE if self.folder is None and len(self.sources) == 1 else ""

    def _leave_found(self, folder: str) -> None:
        """Says in a folder what was found, and how far."""
        shared.leave(folder, shared.WATCHED, {os.path.abspath(os.fspath(path)): self._ends.get(number, 0)
                                              for number, path in enumerate(self.sources) if isinstance(path, (str, os.PathLike))})
        if self.broken is not None:
            shared.leave(folder, shared.FOUND, {"answer": self._line.decode("utf-8", "replace")})
        elif self.failed is not None:
            shared.leave(folder, shared.FOUND, {"failed": str(self.failed), "status": self.failed.status})

    def _fail(self, why: NoAnswer) -> None:
        if not self._over.is_set():
            self.failed = why
            self._tell(why)

    def _tell(self, told: Told) -> None:
        if not self._over.is_set() and (self.asking.every or type(told) is not self._kind):
            self._kind = type(told)
            self.asking.tell(told)


@contextlib.contextmanager
def said() -> Iterator[IO[bytes]]:
    """A file for what a program says on standard error, which goes to its end, also where it was cut meanwhile."""
    with tempfile.TemporaryFile(buffering=0) as file:
        fcntl.fcntl(file, fcntl.F_SETFL, os.O_APPEND)
        yield file


def close(file: Optional[IO[bytes]]) -> None:
    """Closes a pipe at whose other end nobody may be."""
    with contextlib.suppress(BrokenPipeError):
        if file is not None:
            file.close()


def status_of(running: "subprocess.Popen[bytes]") -> Optional[int]:
    """The status of a program that is ending; none where it takes too long."""
    with contextlib.suppress(subprocess.TimeoutExpired):
        return running.wait(END_SECONDS)
    return None


def no_answer(line: bytes, running: "subprocess.Popen[bytes]", errors: IO[bytes]) -> NoAnswer:
    """Why there is no answer: the program's status, its last line, and what it said on standard error since the last answer."""
    status = status_of(running)
    errors.seek(0)
    last, texts = (one.decode("utf-8", "replace").strip()[:MOST_SAID] for one in (line, errors.read()))
    ended = "gave no answer" if status is None else "ended with %d" % status
    return NoAnswer("tcc watch %s: %s" % (ended, "; ".join(why_none(last, texts)) or "it said nothing"), status)


def part_of(source: Source, begin: int, ends: Dict[str, int]) -> List[bytes]:
    """The lines of the transactions in the file of a source from a byte on, up to the end that is given, if one is; none where it isn't
    there yet."""
    if isinstance(source, (str, os.PathLike)):
        path, end = os.fspath(source), os.path.getsize(source) if os.path.exists(source) else 0
    else:
        with source._lock:
            path, end = source.path, source._records.end
    end = ends.get(path, end)
    if end <= begin:
        return []
    with open(path, "rb") as file:
        file.seek(begin)
        lines = file.read(end - begin).splitlines(keepends=True)
    while lines and not lines[-1].endswith((*ENDINGS, SEAL.encode())):
        lines.pop()
    return lines


def nobody(told: Told) -> None:
    """Hears of an answer."""


def stopping(tcc: Optional[Path] = None) -> Asking:
    """Nobody hears of answers, and the recorder stops."""
    return Asking(nobody, growth=GROWTH, tcc=tcc, stops=True)


Watch = Union[Asking, Callable[[Told], None], bool, Path, Sequence[Path]]


def watching_of(recorder: "Recorder", watch: Watch) -> "Union[Watching, shared.Announced, None]":
    """Who watches a recorder, by what was said of that: itself, with the files of others too, or a process that watches a folder."""
    if isinstance(watch, bool):
        return Watching([recorder], stopping()) if watch else None
    if isinstance(watch, (str, os.PathLike)):
        return shared.Announced(watch, recorder.path)
    if isinstance(watch, Asking) or callable(watch):
        return Watching([recorder], watch if isinstance(watch, Asking) else Asking(watch, growth=GROWTH))
    mine = os.path.abspath(recorder.path)
    return Watching([recorder, *(path for path in watch if os.path.abspath(path) != mine)], stopping())
