"""A round: clients that work at a store, in this process or in several, until the round has come to what it has to show.

    played = play(Mine(), WriteThenRead(Keys(8)), Plan("round1", goal=Goal(seconds=20, lags=1)))
    print("\\n".join(played.summary()))
    answer = played.explain()
"""
import contextlib
import os
import pathlib
import threading
import time
from dataclasses import dataclass, field
from typing import Any, Callable, Dict, Iterator, List, Optional, Sequence, Set, Tuple, Union

from tcc import Answer, Asking, BrokenPromise, NoAnswer, Recorder, explain
from tcc.harness.client import Client, Pace, TurnOver
from tcc.harness.clock import joined_notes, note_clock
from tcc.harness.lag import Lag, with_commas
from tcc.harness.opinion import stale_reads
from tcc.harness.servers import NoServer
from tcc.harness.store import Store
from tcc.harness.troubles import Trouble, Troubles
from tcc.harness.workloads import Workload
from tcc.watch.looking import Told
from tcc.record.recorder import VERSIONS
from tcc.common.whole import written_whole

POLL_SECONDS = 0.05
# A round goes on for so many times its seconds where it hasn't come to its goal, as on a busy machine.
LONGER = 10
Watch = Union[Asking, Callable[[Told], None], bool]


class Unplayed(NoServer):
    """A round that didn't come to what it has to show; played again it may."""


@dataclass(frozen=True)
class Goal:
    """When a round is over: clients work for so many seconds, but none records more than `most` transactions. They go on, for the longest
    time at most, until each has recorded `least`, the store has `answered` so many of all, so many reads have lagged, so many `went_back`
    to before what their own session had seen, and all troubles have happened, unless that isn't asked for."""

    seconds: float = 20.0
    most: Optional[int] = None
    least: int = 0
    answered: int = 1
    lags: int = 0
    went_back: int = 0
    longest: Optional[float] = None
    all_troubles: bool = True

    def longest_seconds(self) -> float:
        return LONGER * self.seconds if self.longest is None else self.longest


@dataclass
class Progress:
    """How far the clients have come."""

    least: int = 0
    answered: int = 0
    lags: int = 0
    went_back: int = 0
    is_working: bool = True
    has_failed: bool = False

    def lacking(self, goal: Goal, has_happened: bool) -> Optional[str]:
        """What a round has yet to come to, or nothing."""
        if goal.all_troubles and not has_happened:
            return "not all troubles had happened"
        if self.least < goal.least:
            return "a client did %d transactions, and not %d" % (self.least, goal.least)
        if self.answered < goal.answered:
            return "%d transactions were answered, and not %d" % (self.answered, goal.answered)
        if self.lags < goal.lags:
            return "%d reads lagged, and not %d" % (self.lags, goal.lags)
        if self.went_back < goal.went_back:
            return "%d reads were older than what their client had seen, and not %d" % (self.went_back, goal.went_back)
        return None


@dataclass(frozen=True)
class Plan:
    """How a round is played: in a folder, which gets its files; with so many clients in each of so many processes. `watch` is that of a
    recorder. Troubles happen one after the other, and of those that go on one again and again. `ending` is called once all clients have
    worked, with those of the first process, for what has to be shown without luck."""

    folder: Union[str, "os.PathLike[str]"]
    goal: Goal = Goal()
    clients: int = 4
    processes: int = 1
    seed: int = 1
    pace: Pace = Pace()
    keeps_session: bool = False
    watch: Watch = False
    troubles: Sequence[Trouble] = ()
    going_on: Sequence[Trouble] = ()
    ending: Optional[Callable[[List[Client]], None]] = None
    tcc: Optional[str] = None

    def path(self, name: str, number: int) -> str:
        """A file of the round; of several processes each has its own."""
        return os.path.join(self.folder, "%s.csv" % name if self.processes == 1 else "%s.%d.csv" % (name, number))

    def recorder(self, number: int, watch: Watch = False) -> Recorder:
        """The recorder of a process; the first one has the events."""
        one = Recorder(self.path("records", number), number=number, notes=self.path("notes", number), versions=self.path("versions", number),
                       watch=watch)
        note_clock(one)
        return one


@dataclass
class Worked:
    """What the clients of a process did: how many transactions are recorded, of unknown outcome, refused, and broken off; how many reads
    were older than what their session had seen; and why some clients ended early."""

    transactions: int = 0
    unknown: int = 0
    refused: int = 0
    broken: int = 0
    went_back: int = 0
    failures: List[str] = field(default_factory=list)

    def add(self, other: "Worked") -> None:
        self.transactions += other.transactions
        self.unknown += other.unknown
        self.refused += other.refused
        self.broken += other.broken
        self.went_back += other.went_back
        self.failures += other.failures


@dataclass
class Played:
    """A round that was played: its files, what clients did, and what lagged."""

    plan: Plan
    worked: Worked
    lag: Lag

    def paths(self, name: str) -> List[str]:
        """The files of that name, of each process one."""
        return [self.plan.path(name, number) for number in (range(self.plan.processes + 1) if self.plan.processes > 1 else [0])]

    def has_versions(self) -> bool:
        return any(os.path.getsize(path) > len(VERSIONS) for path in self.paths("versions"))

    def stale(self) -> Set[Tuple[str, str]]:
        """The second opinion: the reads that are stale by the versions of the store, each a label and a key."""
        return stale_reads(self.paths("records"), self.paths("versions"))

    def summary(self) -> List[str]:
        """What was done, what lagged, and the second opinion where there are versions, a line each."""
        one = self.worked
        more = [text % with_commas(count) for text, count in (("%s refused", one.refused), ("%s broken off", one.broken)) if count]
        lines = ["; ".join(["%d transactions" % one.transactions, "%d of unknown outcome" % one.unknown, *more]), self.lag.text()]
        if one.went_back:
            lines.append("%s reads were older than what their own client had seen" % with_commas(one.went_back))
        if self.has_versions():
            lines.append("%s reads are stale by the store's own versions" % with_commas(len(self.stale())))
        return [*one.failures, *lines]

    def join(self) -> Tuple[str, str, str]:
        """The records, annotations and versions of all processes as one file each, in the folder of the round."""
        if self.plan.processes == 1:
            return self.plan.path("records", 0), self.plan.path("notes", 0), self.plan.path("versions", 0)
        records, notes, versions = (os.path.join(self.plan.folder, name + ".csv") for name in ("records", "notes", "versions"))
        put_together(self.paths("records"), records)
        joined_notes(self.paths("notes"), notes)
        put_together(self.paths("versions"), versions)
        return records, notes, versions

    def explain(self, **more: Any) -> Answer:
        """The answer for the whole round, with its versions where the store numbers writes."""
        records, _, versions = self.join()
        asked: Dict[str, Any] = {"large": True, "versions": versions if self.has_versions() else None, "tcc": self.plan.tcc, **more}
        return explain(records, **asked)


def put_together(paths: Sequence[str], out: str) -> None:
    with written_whole(out) as file:
        for path in paths:
            file.write(pathlib.Path(path).read_text(encoding="ascii"))


class Crew:
    """The clients of this process, each in a thread."""

    def __init__(self, store: Store, workload: Workload, plan: Plan, recorder: Recorder, lag: Lag, over: Any, first: int = 1):
        self.plan, self.recorder, self.lag, self.over = plan, recorder, lag, over
        self.clients = [Client(store, recorder, number, lag, plan.seed, plan.pace, plan.keeps_session)
                        for number in range(first, first + plan.clients)]
        self._threads = [threading.Thread(target=self._run, args=(one, workload), daemon=True) for one in self.clients]

    def start(self) -> "Crew":
        for thread in self._threads:
            thread.start()
        return self

    def join(self) -> None:
        self.over.set()
        for thread in self._threads:
            thread.join()

    def _run(self, client: Client, workload: Workload) -> None:
        """Works; of what nobody expected it is kept why the client ended."""
        try:
            client.work(workload, self._is_enough)
        except (BrokenPromise, NoAnswer):  # the watch stops the round, and its recorder says why
            self.over.set()
        except Exception as error:
            client.failed = "client %d ended early, %s: %s" % (client.number, type(error).__name__, error)

    def _is_enough(self, client: Client) -> bool:
        return bool(self.over.is_set()) or self.plan.goal.most is not None and client.ended >= self.plan.goal.most

    def progress(self) -> Progress:
        every = self.clients
        return Progress(min(one.ended for one in every), sum(one.answered for one in every), self.lag.count(), sum(one.went_back for one in every),
                        any(thread.is_alive() for thread in self._threads), any(one.failed for one in every))

    def worked(self) -> Worked:
        return Worked(sum(one.ended for one in self.clients), self.recorder.unknown, sum(one.refused for one in self.clients),
                      sum(one.broken for one in self.clients), sum(one.went_back for one in self.clients), [one.failed for one in self.clients if one.failed])


def wait(goal: Goal, progress: Callable[[], Progress], troubles: Troubles, over: Any) -> None:
    """Waits until the round has come to its goal; Unplayed where it doesn't in time."""
    begun = time.monotonic()
    while True:
        now = progress()
        lacks = now.lacking(goal, troubles.has_happened.is_set())
        seconds = time.monotonic() - begun
        if troubles.failed or now.has_failed or over.is_set():
            return
        if not lacks and (seconds >= goal.seconds or not now.is_working):
            return
        if not now.is_working or seconds >= max(goal.seconds, goal.longest_seconds()):
            raise Unplayed("%s within %d seconds" % (lacks, seconds))
        time.sleep(POLL_SECONDS)


@contextlib.contextmanager
def meanwhile(plan: Plan, recorder: Recorder) -> Iterator[Troubles]:
    """The troubles of a round happen meanwhile; one that couldn't is raised."""
    with Troubles(recorder, plan.troubles, plan.going_on) as troubles:
        yield troubles
    if troubles.failed:
        raise troubles.failed


def play(store: Store, workload: Workload, plan: Plan) -> Played:
    """Plays a round. With `watch=True` it ends where the store breaks its promise, and raises `BrokenPromise`."""
    os.makedirs(plan.folder, exist_ok=True)
    if plan.processes > 1:
        from tcc.harness.processes import play_in_processes
        return play_in_processes(store, workload, plan)
    over, lag = threading.Event(), Lag()
    with plan.recorder(0, plan.watch) as recorder:
        crew = Crew(store, workload, plan, recorder, lag, over)
        with meanwhile(plan, recorder) as troubles:
            try:
                wait(plan.goal, crew.start().progress, troubles, over)
            finally:
                crew.join()
        end(plan, crew)
        recorder.close()
        return Played(plan, crew.worked(), lag)


def end(plan: Plan, crew: Crew) -> None:
    """What clients do once all have worked, one step after the other."""
    if plan.ending and not crew.worked().failures:
        try:
            plan.ending(crew.clients)
        except TurnOver as error:
            raise Unplayed("what clients do in the end: %s" % error) from error
