"""The clients of a round in several processes of this machine, each with a recorder of its own, and one watch over all of their files."""
import contextlib
import dataclasses
import multiprocessing
import os
import signal
import threading
from multiprocessing.connection import Connection as Pipe
from typing import Any, Iterator, List, Optional, Sequence

from tcc import Asking, Consistent, Watching
from tcc.harness.lag import Lag, merged
from tcc.harness.rounds import POLL_SECONDS, Crew, Plan, Played, Progress, Worked, end, meanwhile, wait
from tcc.harness.store import Store
from tcc.harness.workloads import Workload
from tcc.watch.looking import Told
from tcc.watch.watching import GROWTH, stopping

CONTEXT = multiprocessing.get_context("fork")
# How far the clients of a process have come, as the process writes it into memory that is shared.
FIELDS = ("is_ready", *(field.name for field in dataclasses.fields(Progress)))
START_SECONDS = 60.0


@dataclasses.dataclass
class Worker:
    """A process of clients, as the one that plays the round sees it."""

    number: int
    running: Any
    shared: Any
    pipe: Pipe

    def progress(self) -> Progress:
        _, least, answered, lags, went_back, is_working, has_failed = self.shared[:]
        is_alive = self.running.is_alive()
        return Progress(least, answered, lags, went_back, bool(is_working) and is_alive, bool(has_failed) or not is_alive and bool(self.running.exitcode))

    def is_ready(self) -> bool:
        return bool(self.shared[0]) or not self.running.is_alive()

    def worked(self) -> Worked:
        """What its clients did, once it has ended."""
        self.running.join()
        with contextlib.suppress(EOFError):
            if self.pipe.poll():
                found: Worked = self.pipe.recv()
                return found
        return Worked(failures=["process %d ended early, with status %s" % (self.number, self.running.exitcode)])


def start(store: Store, workload: Workload, plan: Plan, number: int, over: Any) -> Worker:
    shared = CONTEXT.Array("q", len(FIELDS))
    shared[FIELDS.index("is_working")] = 1
    mine, its = CONTEXT.Pipe(duplex=False)
    running = CONTEXT.Process(target=work, args=(store, workload, plan, number, over, shared, its), daemon=True)
    running.start()
    its.close()
    return Worker(number, running, shared, mine)


def log_of(plan: Plan, number: int) -> str:
    return os.path.join(plan.folder, "lag.%d.log" % number)


def work(store: Store, workload: Workload, plan: Plan, number: int, over: Any, shared: Any, pipe: Pipe) -> None:
    """What a process does: its clients work until the round is over, or until the one that plays it is gone."""
    signal.signal(signal.SIGINT, signal.SIG_IGN)
    signal.signal(signal.SIGTERM, signal.SIG_DFL)
    with open(log_of(plan, number), "w", encoding="utf-8") as log, plan.recorder(number) as recorder:
        crew = Crew(store, workload, plan, recorder, Lag(log), over, first=(number - 1) * plan.clients + 1).start()
        try:
            report(crew, over, shared)
        finally:
            crew.join()
        if number == 1:
            end(plan, crew)
        recorder.close()
        write(shared, crew.progress())
    pipe.send(crew.worked())


def report(crew: Crew, over: Any, shared: Any) -> None:
    """Says how far the clients have come, until the round is over."""
    parent = multiprocessing.parent_process()
    while not over.wait(POLL_SECONDS):
        write(shared, crew.progress())
        if parent is not None and not parent.is_alive():
            over.set()


def write(shared: Any, now: Progress) -> None:
    shared[:] = [1, *(int(one) for one in dataclasses.astuple(now))]


def together(workers: Sequence[Worker]) -> Progress:
    every = [one.progress() for one in workers]
    return Progress(min(one.least for one in every), sum(one.answered for one in every), sum(one.lags for one in every),
                    sum(one.went_back for one in every), any(one.is_working for one in every), any(one.has_failed for one in every))


def asking_of(plan: Plan, over: Any) -> Optional[Asking]:
    """Who hears of answers; one that has the round stop sets `over`."""
    if plan.watch is False:
        return None
    if isinstance(plan.watch, bool):
        asked = stopping(plan.tcc)
    else:
        asked = plan.watch if isinstance(plan.watch, Asking) else Asking(plan.watch, growth=GROWTH, tcc=plan.tcc)

    def tell(told: Told) -> None:
        asked.tell(told)
        if asked.stops and not isinstance(told, Consistent):
            over.set()

    return dataclasses.replace(asked, tell=tell)


@contextlib.contextmanager
def watched(plan: Plan, over: Any) -> Iterator[None]:
    """One watch over the files of all processes; where it has the round stop, what it found is raised."""
    asked = asking_of(plan, over)
    if asked is None:
        yield
        return
    with Watching([plan.path("records", number) for number in range(1, plan.processes + 1)], asked) as watching:
        yield
    if asked.stops:
        watching.check()


def play_in_processes(store: Store, workload: Workload, plan: Plan) -> Played:
    """Plays a round in several processes."""
    over = CONTEXT.Event()
    workers = [start(store, workload, plan, number, over) for number in range(1, plan.processes + 1)]
    worked = Worked()
    try:
        wait_for(workers)
        with plan.recorder(0) as recorder, watched(plan, over):
            with meanwhile(plan, recorder) as troubles:
                try:
                    wait(plan.goal, lambda: together(workers), troubles, over)
                finally:
                    over.set()
            for one in workers:
                worked.add(one.worked())
    finally:
        over.set()
        for one in workers:
            one.running.join()
    logs = [log_of(plan, one.number) for one in workers]
    lag = merged(logs)
    for path in logs:
        os.unlink(path)
    return Played(plan, worked, lag)


def wait_for(workers: List[Worker]) -> None:
    """Waits until each process records."""
    never = threading.Event()
    for _ in range(int(START_SECONDS / POLL_SECONDS)):
        if all(one.is_ready() for one in workers):
            return
        never.wait(POLL_SECONDS)
