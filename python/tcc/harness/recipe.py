"""The command line of a recorder of recipes/: what it is asked for, how its round is played, and how its records are written."""
import argparse
import contextlib
import os
import pathlib
import shutil
import signal
import subprocess
import sys
import tempfile
import time
from typing import Callable, Iterator, List, Optional, Sequence, TextIO

from tcc import Asking, NoAnswer
from tcc.harness.client import Client, Pace
from tcc.harness.opinion import Circle, Path
from tcc.harness.rounds import Goal, Plan, Played, play
from tcc.harness.servers import NoServer, Server
from tcc.harness.store import Store
from tcc.harness.troubles import Trouble, in_turns, kill, pause
from tcc.harness.workloads import Keys, Workload
from tcc.common.limits import DEFAULT, LARGE, LARGE_KEYS, LARGE_TRANSACTIONS
from tcc.record.written import RECORDERS
from tcc.watch.looking import Told
from tcc.common.whole import written_whole
from tcc.common.words import add_tcc, count_within

# Each client has the number of a recorder, from 1.
CLIENTS = RECORDERS - 1
# A round goes on for so many times its seconds where clients have done too little, as on a busy machine.
LONGER = 10
# The status of a recorder whose round wasn't played, as where a server didn't answer in time; played again it may be.
UNPLAYED = 75
TROUBLE_SECONDS = 1.0


def add_round(ask: argparse.ArgumentParser, transactions: Optional[int]) -> None:
    """The options of a round; so many transactions for each client by default, or as many as there come."""
    ask.add_argument("--clients", type=count_within(1, CLIENTS), default=4, metavar="N", help="so many clients, by default 4")
    ask.add_argument("--transactions", type=count_within(1, LARGE_TRANSACTIONS), default=transactions, metavar="N",
                     help="so many for each, by default %s" % (transactions or "as many as there come"))
    ask.add_argument("--keys", type=count_within(1, LARGE_KEYS), default=8, metavar="N", help="so many keys, 1 to %d, by default 8" % LARGE_KEYS)
    ask.add_argument("--seconds", type=count_within(1, 86400), default=20, metavar="N", help="clients stop after so many, by default 20")
    ask.add_argument("--at-least", type=count_within(0, LARGE_TRANSACTIONS), default=0, metavar="N",
                     help="but each goes on until it has done so many, for up to %d times as long; else the status is %d" % (LONGER, UNPLAYED))
    ask.add_argument("--until-stale", action="store_true", help="and until a client read something older than what it had seen")
    ask.add_argument("--pause", type=count_within(0, 60000), default=0, metavar="MS",
                     help="after each turn a client waits for so many milliseconds, by default 0")
    ask.add_argument("--patience", type=count_within(1, 100), default=1, metavar="N", help="N times as long is waited, for a busy machine")
    ask.add_argument("--seed", type=int, default=1, metavar="N", help="which keys are picked follows from it, by default 1")


def add_outputs(ask: argparse.ArgumentParser) -> None:
    """The options of what is written."""
    ask.add_argument("-o", "--output", metavar="FILE", help="the file for the records, by default standard output; it gets its name "
                     "once it is whole")
    ask.add_argument("--notes", metavar="FILE", help="the file for annotations: of each transaction the node, the time, and why "
                     "it didn't commit")
    ask.add_argument("--watch", action="store_true", help="tcc watch answers meanwhile, on standard error: each answer as it comes, the "
                     "first anomaly in full")
    add_tcc(ask)


def add_keep_sessions(ask: argparse.ArgumentParser) -> None:
    ask.add_argument("--keep-sessions", action="store_true",
                     help="behind a broken connection a client's session goes on, where all its outcomes are known; so writes that "
                     "the store said were committed, and then lost, show")


def add_versions(ask: argparse.ArgumentParser) -> None:
    """The options of a store that numbers its writes."""
    ask.add_argument("--versions", metavar="FILE", help="the file for the versions")
    ask.add_argument("--stale", metavar="FILE", help="the file for the reads that are stale by versions: label and key of each")


def add_troubles(ask: argparse.ArgumentParser, **kinds: str) -> None:
    """The options of troubles, each with what it does."""
    for kind, what in kinds.items():
        ask.add_argument("--" + kind, type=count_within(0, 100), default=0, metavar="N", help=what)


def troubles_of(asked: argparse.Namespace, servers: Sequence[Server], ready: Callable[[Server], None], **more: Sequence[Trouble]) -> List[Trouble]:
    """The troubles that are asked for, in turns, each at the next node."""
    def each(times: int) -> Iterator[Server]:
        return (servers[turn % len(servers)] for turn in range(times))

    killed = [kill(one, TROUBLE_SECONDS, lambda one=one: ready(one)) for one in each(asked.kill)]  # type: ignore[misc]
    return in_turns([[pause(one, TROUBLE_SECONDS) for one in each(asked.stop)], killed, *more.values()])


def arguments(ask: argparse.ArgumentParser, transactions: Optional[int] = 200) -> argparse.Namespace:
    """What is asked for, with how much clients do, which is no more than `tcc --large` takes."""
    add_round(ask, transactions)
    add_outputs(ask)
    asked = ask.parse_args()
    if asked.clients * (asked.transactions or 0) > LARGE_TRANSACTIONS:
        ask.error("that would be more than %d transactions in all, which is what tcc takes" % LARGE_TRANSACTIONS)
    return asked


def shown_since(begun: float, tcc: Optional[str]) -> Asking:
    """Each answer of `tcc watch` is shown on standard error, with its time."""
    def show(answer: Told) -> None:
        text = str(answer) if isinstance(answer, NoAnswer) else answer.text().rstrip("\n")
        print("tcc watch, %.1f s: %s" % (time.monotonic() - begun, text), file=sys.stderr, flush=True)

    return Asking(show, tcc=tcc, every=True)


def played(asked: argparse.Namespace, folder: str, store: Store, workload: Callable[[Keys], Workload], troubles: Sequence[Trouble] = (),
           going_on: Sequence[Trouble] = (), ending: Optional[Callable[[List[Client]], None]] = None, prefix: str = "",
           keeps_session: bool = False) -> Played:
    """Plays the round that is asked for, in a folder."""
    most: Optional[int] = asked.transactions
    goal = Goal(asked.seconds, most, min(asked.at_least, most or asked.at_least), went_back=int(asked.until_stale),
                longest=asked.seconds * LONGER * asked.patience, all_troubles=most is None)
    plan = Plan(folder, goal, asked.clients, seed=asked.seed, pace=Pace(asked.pause / 1000), keeps_session=keeps_session,
                watch=shown_since(time.monotonic(), asked.tcc) if asked.watch else False, troubles=troubles, going_on=going_on, ending=ending,
                tcc=asked.tcc)
    return play(store, workload(Keys(asked.keys, prefix=prefix)), plan)


Recording = Callable[[argparse.Namespace, str], Played]


def recorded(recording: Recording, asked: argparse.Namespace, library: str = "", package: str = "") -> int:
    """Plays a round in a folder of its own, and writes what is asked for; the exit status. Where there is no such library, it names the
    package of Debian that has it."""
    signal.signal(signal.SIGTERM, lambda *_: sys.exit(1))
    with tempfile.TemporaryDirectory(prefix="tcc-round-") as folder:
        try:
            found = recording(asked, folder)
        except ImportError:
            return say(1, "no %s; in Debian the package %s has it, for /usr/bin/python3" % (library, package))
        except (NoServer, OSError, subprocess.SubprocessError) as error:
            return say(1 if isinstance(error, OSError) else UNPLAYED, str(error))
        try:
            write_all(found, asked)
        except OSError as error:
            return say(1, "the records can't be written: %s" % error)
        except Circle as error:
            return say(1, str(error))
        return say(1 if found.worked.failures else 0, *warnings(found.join()[0]), *found.summary())


def say(status: int, *lines: str) -> int:
    for line in lines:
        print("record.py: " + line, file=sys.stderr)
    return status


def write_all(found: Played, asked: argparse.Namespace) -> None:
    """Writes the files that are asked for; each gets its name once it is whole."""
    records, notes, versions = map(pathlib.Path, found.join())
    with written_whole(asked.output) if asked.output else printed() as out, open(records, encoding="ascii") as file:
        shutil.copyfileobj(file, out)
    for path, name in ((notes, asked.notes), (versions, getattr(asked, "versions", None))):
        if name:
            with written_whole(name) as out, open(path, encoding="utf-8") as file:
                shutil.copyfileobj(file, out)
    if getattr(asked, "stale", None):
        with written_whole(asked.stale) as out:
            out.writelines("%s %s\n" % one for one in sorted(found.stale()))


@contextlib.contextmanager
def printed() -> Iterator[TextIO]:
    """Standard output, to its last byte; where that fails, nothing more is written there."""
    try:
        yield sys.stdout
        sys.stdout.flush()
    except OSError:
        os.dup2(os.open(os.devnull, os.O_WRONLY), sys.stdout.fileno())
        raise


def warnings(records: Path) -> Iterator[str]:
    """Where records pass a limit of `tcc explain`, and what to do."""
    sessions, keys, transactions = set(), set(), 0
    with open(records, encoding="ascii") as file:
        for session, does, *rest in (line.rstrip("\n").split(",") for line in file):
            sessions.add(session)
            keys.update(rest[:1])
            transactions += does == "begin"
    for what, number in (("sessions", len(sessions)), ("transactions", transactions), ("keys", len(keys))):
        if number > LARGE[what]:
            yield "%d %s: tcc takes at most %d, so make the run shorter" % (number, what, LARGE[what])
        elif number > DEFAULT[what]:
            yield "%d %s: tcc explain takes at most %d, so say --large" % (number, what, DEFAULT[what])
