"""A recorder for programs in Python: what the clients of a store see goes into a file of records, for `tcc explain`.

    with Recorder("records.csv") as recorder:
        session = recorder.session("c1")              # one for each client, in a thread of its own
        with session.transaction() as one:
            one.read("x", store.get("x"))             # after the read; None is what was never written
            value = recorder.new_value()
            one.write("y", value)                     # before the write
            store.put("y", value)
            one.committing()                          # before the store is asked to commit
            store.commit()

A transaction goes into the file once it has ended, whole, in one append. Left without an exception it committed. By an exception
before `committing` it aborted, and so it did by one of those that `transaction(refused=..)` names. By another one after
`committing` its outcome is unknown, and so it is recorded: with `unknown` in place of `commit`, and without what it read. Then its
session ends with it: `session` goes on under a new name, and the client has to take a new connection. After a connection that broke
say `session.renew()` too, unless what the store promises holds over connections.

A transaction that is one request, as a put that takes effect at once, a MULTI or a stored procedure, has no COMMIT of its own:

        with session.call() as one:
            old = one.read("x")                       # before the request, in the order in which the store does things
            one.write("x", value)
            answer = store.swap("x", value)           # what breaks here leaves the outcome unknown
            old.returned(answer)

Each write is also noted at once in a file beside, `records.csv.pending`. So where the process dies, what was under way is known:
who opens the file again goes on with it, and `close` (or the command `tcc-settle records.csv`) ends it. A transaction whose records
can't be written, as where the disk is full, is of unknown outcome too, and what failed is raised.

A recorder may be shared by threads. A session is for one of them at a time. Only one process at a time may record into a file,
and a recorder that was carried over a fork records nothing there.
"""
import contextlib
import fcntl
import os
import threading
import time
import weakref
from types import TracebackType
from typing import Callable, Dict, Iterator, List, Optional, Type, Union

from tcc.common.appended import Appended, Busy, NoRecord, Path
from tcc.common.notes import cell
from tcc.judging.program import NoAnswer
from tcc.judging.runner import Answer
from tcc.record.known import NOTES, PENDING, SEAL, Known, Pair, UnderWay, text_of
from tcc.record.transactions import TWICE, UNKNOWN, Noted, Part, Recording, free_name
from tcc.record.written import RECORDERS, Written
from tcc.watch import looking
from tcc.watch.looking import Asking, Looking, Moment, Told
from tcc.watch.watching import Watch, watching_of

VERSIONS = "key,value,version\n"
NOT_ENDED = "unknown: the recorder was closed before it ended"


class Recorder(Recording):
    """Records into a file, which may hold records of an earlier run: then it goes on after them.

    `number`, below 4096, tells the values of several recorders of one store apart. `notes` is a file for annotations: node, time and
    note of each transaction. With `syncs` what is appended reaches the disk before the call returns, so that it survives the end of
    the machine, and not only of the process. `ask` is called with an answer for what was recorded so far, the first one and each of
    another kind. A thread asks again each time that the records have grown by a quarter. `watch` is the same by `tcc watch`, at the cost
    of what is new, and `close` waits for its last answer. With True the first transaction that begins after the store broke its promise
    raises `BrokenPromise`, or `NoAnswer` where nothing is judged any more; so do `close` and the end of a block of `with`. Where several
    processes record one store, a list of the files of all has each watch them all, and a folder has one watch, a `Watching` of that folder
    in some process, stop them all. `versions` is a file for the versions that the store gave to what was written, for `explain(.., versions=..)`.
    """

    def __init__(self, path: Path, number: int = 0, notes: Optional[Path] = None, syncs: bool = False,
                 ask: Union[Asking, Callable[[Told], None], None] = None, versions: Optional[Path] = None,
                 watch: Watch = False):
        if not 0 <= number < RECORDERS:
            raise NoRecord("the number of a recorder is %d, and not 0 to %d" % (number, RECORDERS - 1))
        self.path, self.number = os.fspath(path), number
        self.notes_path, self.versions_path = notes, versions
        self._lock = threading.Lock()
        self._idle = threading.Condition(self._lock)
        self._running, self._is_held, self.unknown = 0, False, 0
        self._is_open = self._is_forked = False
        self._files: List[Appended] = []
        try:
            self._open(notes, versions, syncs)
        except BaseException:
            self._close_files()
            raise
        self._is_open = True
        OPEN.add(self)
        asking = ask if isinstance(ask, Asking) or ask is None else Asking(ask)
        self._looking = Looking([self], asking).start() if asking else None
        self._watching = watching_of(self, watch)
        self._is_stopped_by = self._watching if self._watching and self._watching.stops else None
        if self._watching:
            self._watching.start()

    def _open(self, notes: Optional[Path], versions: Optional[Path], syncs: bool) -> None:
        self._records = self._opened(Appended(self.path, syncs))
        try:
            fcntl.flock(self._records.file, fcntl.LOCK_EX | fcntl.LOCK_NB)
        except OSError as error:
            raise Busy("another one records into %s" % self.path) from error
        known = Known(Written(self.number))
        known.take_records(self._records.lines(), self.path)
        self._pending = self._opened(Appended(self.path + PENDING, syncs, own=True))
        self._notes = self._opened(Appended(notes, syncs)) if notes is not None else None
        self._versions = self._opened(Appended(versions, syncs)) if versions is not None else None
        beside = [self._pending, *([self._notes] if self._notes else [])]
        if any(one.is_same(other) for one in self._files for other in self._files if one is not other):
            raise NoRecord("%s: records, annotations and versions need a file each" % self.path)
        written = max((one.modified for one in beside if one.end), default=time.time())
        known.take_pending(self._pending.lines())
        if self._notes:
            known.take_notes(self._notes)
        self._begun = time.monotonic() - known.time - max(0.0, time.time() - written)
        self._records.cut(known.end)
        if self._notes and self._notes.end == 0:
            self._notes.append(NOTES)
        self._told = take_versions(self._versions) if self._versions else {}
        self._under_way, self._names, self._written = known.unknown, known.sessions, known.written

    def _opened(self, file: Appended) -> Appended:
        self._files.append(file)
        return file

    def _close_files(self) -> None:
        while self._files:
            self._files.pop().close()

    def __enter__(self) -> "Recorder":
        return self

    def __exit__(self, kind: Optional[Type[BaseException]], error: Optional[BaseException], trace: Optional[TracebackType]) -> None:
        if not kind:
            self.close()
            return
        if self._watching:
            self._watching.stop()
        self._finish()

    def new_value(self) -> int:
        """A value that this recorder never gave before."""
        with self._lock:
            self._check_process()
            return self._written.new_value()

    def close(self) -> int:
        """Ends the records: what hasn't ended is of unknown outcome. How many transactions are, of those that this recorder recorded or
        found open. Where it can't be written it raises why, and can be called again. Closed twice it does nothing. `watch` then gives its
        last answer; one that stops raises what it found, unless this thread has heard it."""
        self._finish()
        if self._is_stopped_by:
            self._is_stopped_by.check_once()
        return self.unknown

    def _finish(self) -> None:
        """Ends the records, and has the last answer."""
        if self._looking:
            self._looking.stop()
        with self._lock:
            if self._is_open:
                self._end_all(lambda one: UNKNOWN)
                self._end_records()
        if self._watching:
            self._watching.finish()

    def _end_all(self, end_of: Callable[[UnderWay], str]) -> None:
        """Ends what hasn't ended, each so; the lock is held."""
        for (session, place), one in sorted(self._under_way.items()):
            self._records.append(one.text(session, end_of(one)))
            del self._under_way[session, place]
            self._has_ended(session, place, one)

    def _has_ended(self, session: str, place: int, one: UnderWay) -> None:
        self.unknown += 1
        if not one.is_noted:
            self._note(session, place, one.node, one.time or self._now(), NOT_ENDED)

    def _end_records(self) -> None:
        """Lets the files go; the lock is held."""
        with contextlib.suppress(FileNotFoundError):
            os.unlink(self.path + PENDING)
        self._is_open = False
        OPEN.discard(self)
        fcntl.flock(self._records.file, fcntl.LOCK_UN)  # also for a process that has the file over a fork
        self._close_files()

    def event(self, what: str, node: str = "") -> None:
        """Notes among the annotations that something happened, such as `pause n1`: beside a nemesis, or where a test changes what it
        does. A page has it on its line of time."""
        with self._lock:
            self._check_open()
            if not self._notes:
                raise NoRecord("an event stands among the annotations, and the recorder of %s writes none: say notes=.." % self.path)
            self._notes.append(",".join(map(quoted, ("", node, "%.6f" % self._now(), what))) + "\n")

    def look(self, *, level: str = "causal", workers: int = 1, seconds: Optional[float] = None, tcc: Optional[Path] = None) -> Answer:
        """The answer for what was recorded by now; what is under way counts as of unknown outcome. NoAnswer as of `explain`."""
        return looking.look([self], level=level, workers=workers, seconds=seconds, tcc=tcc)

    def snapshot(self, path: Path) -> None:
        """Writes what was recorded by now as a history of its own, for `tcc`."""
        looking.snapshot([self], path)

    def seal(self, seconds: float = 5.0) -> bool:
        """Writes a seal: an answer is wanted for what was finished by now. It waits until no transaction is under way, and meanwhile
        none begins; where that takes longer than so many seconds there is no seal. Whether there is one."""
        return looking.seal([self], seconds)

    @property
    def broken(self) -> Optional[Answer]:
        """What `watch` has found so far that the store must not do."""
        return self._watching.broken if self._watching else None

    @property
    def unjudged(self) -> Optional[NoAnswer]:
        """Why `watch` judges nothing any more: `tcc` ended without an answer, or at the end reads can't be traced to a write."""
        return self._watching.failed if self._watching else None

    def _moment(self) -> Moment:
        """What there is now; the lock is held."""
        self._check_process()
        return Moment(self.path, self._records.end, {place: list(one.writes) for place, one in self._under_way.items()}, frozenset(self._names))

    def _begin(self) -> None:
        """A transaction begins, once nobody seals."""
        if self._is_stopped_by:
            self._is_stopped_by.check()
        with self._idle:
            while self._is_held:
                self._idle.wait()
            self._running += 1

    def _done(self) -> None:
        with self._idle:
            self._running -= 1
            self._idle.notify_all()

    @contextlib.contextmanager
    def _holding(self, until: float) -> Iterator[bool]:
        """No transaction begins meanwhile; whether that was to be had in time."""
        with self._idle:
            self._check_open()
            is_mine = self._idle.wait_for(lambda: not self._is_held, until - time.monotonic())
            self._is_held = True
        try:
            yield is_mine
        finally:
            if is_mine:
                with self._idle:
                    self._is_held = False
                    self._idle.notify_all()

    def _is_idle(self, until: float) -> bool:
        """Waits until no transaction is under way; whether that was so in time."""
        with self._idle:
            return self._idle.wait_for(lambda: self._running == 0, until - time.monotonic())

    def _append_seal(self) -> None:
        """Appends a seal after what hasn't ended, and never will: its records couldn't be written before. The lock is held."""
        self._check_open()
        self._records.append("".join(one.text(session, UNKNOWN) for (session, _), one in sorted(self._under_way.items())) + SEAL)

    def _has_ended_all(self) -> None:
        for (session, place), one in sorted(self._under_way.items()):
            self._has_ended(session, place, one)
        self._under_way.clear()

    def _new_name(self, stem: str) -> str:
        with self._lock:
            self._check_process()
            return free_name(stem, self._names)

    def _now(self) -> float:
        """Seconds from the beginning of the first run."""
        return time.monotonic() - self._begun

    def _note_write(self, session: str, place: int, node: str, key: str, value: int) -> None:
        with self._lock:
            self._check_open()
            if self._written.has(key, value):
                raise NoRecord(TWICE % (key, value))
            at = self._now()
            self._pending.append("%s,%d,%s,%d,%.6f,%s\n" % (session, place, key, value, at, plain(node)))
            self._written.add(key, value)
            one = self._under_way.setdefault((session, place), UnderWay())
            one.writes.append((key, value))
            one.time, one.node = at, node

    def _note_version(self, key: str, value: int, version: int) -> None:
        with self._lock:
            self._check_open()
            if not self._versions:
                raise NoRecord("a version of %s = %d, and the recorder of %s keeps none: say versions=.." % (key, value, self.path))
            if value and self._told.get((key, value)) != version:
                self._versions.append("%s,%d,%d\n" % (key, value, version))
                self._told[key, value] = version

    def _note_end(self, session: str, place: int, one: Noted, parts: List[Part]) -> None:
        """A transaction has ended. Where that can't be written, it stays among those that haven't."""
        with self._lock:
            self._check_open()
            self._records.append("".join(text_of(session, *part) for part in parts))
            self._under_way.pop((session, place), None)
            self.unknown += sum(end == UNKNOWN for _, end in parts)
            one.is_recorded = True
            for at, (_, end) in enumerate(parts, place):
                said = "%s: %s" % (end, one.note) if one.note and end != "commit" else one.note or ("" if end == "commit" else end)
                self._note(session, at, one.node, self._now(), said)

    def _note(self, session: str, place: int, node: str, at: float, said: str) -> None:
        if self._notes:
            cells = ("%s/%d" % (session, place), node, "%.6f" % at, said)
            self._notes.append(",".join(map(quoted, cells)) + "\n")

    def _check_process(self) -> None:
        if self._is_forked:
            raise NoRecord("the recorder of %s is that of another process, of which this one is a fork: "
                           "open a file of its own here, with a number of its own" % self.path)

    def _check_open(self) -> None:
        self._check_process()
        if not self._is_open:
            raise NoRecord("the recorder of %s is closed" % self.path)

    def _leave(self) -> None:
        """In a process that is a fork, leaves the files to the one that opened them."""
        self._lock = threading.Lock()
        self._idle = threading.Condition(self._lock)
        self._is_open, self._is_forked, self._is_held = False, True, False
        self._looking = self._watching = self._is_stopped_by = None
        self._close_files()


# Those of this process.
OPEN: "weakref.WeakSet[Recorder]" = weakref.WeakSet()


def leave_all() -> None:
    for one in list(OPEN):
        one._leave()
    OPEN.clear()


os.register_at_fork(after_in_child=leave_all)


def take_versions(file: Appended) -> Dict[Pair, int]:
    """The versions that an earlier run left, up to the last whole line."""
    text = b"".join(file.lines())
    whole = text[:text.rfind(b"\n") + 1].decode("ascii", "replace")
    if text and not whole.startswith(VERSIONS):
        raise NoRecord("%s: its first line isn't %s: a file of another form is left alone" % (file.path, VERSIONS.strip()))
    file.cut(len(whole))
    if not whole:
        file.append(VERSIONS)
    rows = (line.split(",") for line in whole.splitlines()[1:])
    return {(key, int(value)): int(version) for key, value, version in rows}


def plain(text: str) -> str:
    """A text in one line."""
    return " ".join(text.split())


def quoted(text: str) -> str:
    """A cell of CSV."""
    line = cell(plain(text))
    return '"%s"' % line.replace('"', '""') if set(line) & set(',"') else line
