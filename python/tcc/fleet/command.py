"""Judges each history of some folders, side by side: by workers on this machine, or by those of a scheduler of Dask.distributed.

A history is a file NAME.csv of a folder, or of one within it, whose first record begins a transaction; it may be packed by gzip, as
NAME.csv.gz. A FILE that is named is judged whatever it is. Workers of a scheduler read the files by the same paths, and need this package
and the program `tcc`.

Each result is a line of JSON, in the order in which they come: the file, its bytes, the level, the seconds, and the answer as `tcc explain
--json` has it, without the order. `contradicted` says how many reads of an unresolved history are contradicted. What can't be judged has
the answer `none`, the status of `tcc`, and why. With --resume the results are added to that file, and what it has is not judged again,
unless the history's size is another one, or memory or the program was missing. A worker that dies loses nothing: others do its work.

The status is 1 where a history broke its promise, else 3 where one couldn't be judged, else 2 where one is unresolved, else 0; 127 where
there is no Dask.distributed, and 130 where it was interrupted.
"""
import argparse
import contextlib
import logging
import os
import sys
import threading
import uuid
from typing import Any, Dict, Iterable, Iterator, List, Optional, TextIO, Tuple

from tcc.common.inputs import opened
from tcc.common.outputs import check_apart
from tcc.common.progress import Doing, status_of
from tcc.common.words import add_tcc, command_line, count, count_within
from tcc.fleet.results import BROKEN, NoResults, Results, keep, known_results, size_of, verdict, write_junit
from tcc.fleet.work import Asked, Judged, judged, no_answer

EXAMPLE = """example: the rounds of a night, by two machines
  $ dask-scheduler &                                   # and dask-worker HOST:8786 on each machine
  $ tcc-fleet rounds --scheduler HOST:8786 --resume results.jsonl --keep failures
  tcc-fleet: 9998 consistent, 2 broken, 0 unresolved, 0 not judged; 3 files aren't histories
"""
NOT_RUN = 3
NAMES = (".csv", ".csv.gz")


class NoDask(Exception):
    """The library isn't there."""

    status = 127


def is_history(path: str) -> bool:
    """Whether the first record of a file begins a transaction, or is a seal; a file without records is a history too."""
    with opened(path) as file:
        words = [one.strip().strip(b'"') for one in file.readline(4096).strip().split(b",")]
    return words in ([b""], [b"seal"]) or len(words) == 2 and words[1] == b"begin"


def files_in(folder: str) -> Iterator[str]:
    """The files of a folder, and of those within it, that may be histories by their names; in order."""
    for where, inner, names in os.walk(folder):
        inner.sort()
        yield from (os.path.join(where, name) for name in sorted(names) if name.endswith(NAMES))


class Found:
    """The histories that are asked for, and how many files of folders aren't any."""

    def __init__(self, named: Iterable[str]):
        self.files: List[str] = []
        self.others = 0
        for one in named:
            for path in files_in(one) if os.path.isdir(one) else [one]:
                if path == one or is_history(path):
                    self.files.append(path)
                else:
                    self.others += 1
        self.files = list(dict.fromkeys(self.files))


def dask() -> Any:
    """The library, where it is there."""
    try:
        import distributed
        return distributed
    except ImportError as error:
        raise NoDask("no Dask.distributed for %s; in Debian the package python3-distributed has it, for /usr/bin/python3" % sys.executable) from error


@contextlib.contextmanager
def client_of(scheduler: Optional[str], workers: Optional[int]) -> Iterator[Any]:
    """A client of a scheduler, or of one with workers of its own on this machine."""
    library = dask()
    with contextlib.ExitStack() as held:
        address = scheduler
        if scheduler is None:
            cluster = library.LocalCluster(n_workers=workers or os.cpu_count() or 1, threads_per_worker=1, dashboard_address=None,
                                           host="127.0.0.1", silence_logs=logging.ERROR)
            address = held.enter_context(cluster)
        yield held.enter_context(library.Client(address))


def all_judged(client: Any, files: List[str], asked: Asked) -> Iterator[Tuple[str, Judged]]:
    """Each file once, as workers are done with it. What was judged by a worker that died before it said so is judged by another."""
    library, run = dask(), uuid.uuid4().hex
    futures: Dict[Any, str] = {}
    for number, name in enumerate(files):
        futures[client.submit(judged, os.path.abspath(name), asked, key="tcc-fleet-%s-%d" % (run, number), pure=False)] = name
    if sys.stdout.isatty():
        threading.Thread(target=library.progress, args=(list(futures),), kwargs={"notebook": False}, daemon=True).start()
    for future in library.as_completed(list(futures)):
        path = futures[future]
        del futures[future]  # with it what the worker has of it
        try:
            yield path, future.result()
        except Exception as error:  # pylint: disable=broad-except
            yield path, Judged(no_answer(error))  # such as KilledWorker: several workers died with it


@contextlib.contextmanager
def opened_results(path: Optional[str]) -> Iterator[TextIO]:
    """The file to which results are added, or standard output."""
    if path is None:
        yield sys.stdout
        return
    with open(path, "a", encoding="utf-8") as file:
        yield file


def summary(results: Results, found: Found) -> str:
    counts = results.counts()
    told = ", ".join("%d %s" % (counts[name], name) for name in ("consistent", "broken", "unresolved", "not judged"))
    return told + ("; %d files aren't histories" % found.others if found.others else "")


def run(asked: argparse.Namespace, doing: Doing) -> int:
    found = Found(asked.files)
    for path in (asked.resume, asked.junit):
        if path is not None:
            check_apart(path, found.files)
    known = known_results(asked.resume, asked.level) if asked.resume else []
    question = Asked(asked.level, asked.large, asked.require, asked.tcc, asked.keep is not None)
    with opened_results(asked.resume) as out:
        results = Results(out, {one["file"]: one for one in known if one["file"] in set(found.files)})
        left = [path for path in found.files if path not in results.lines]
        sizes = {path: size_of(path) for path in left}
        doing.now("judges histories")
        if left:
            with client_of(asked.scheduler, asked.workers) as client:
                for path, made in all_judged(client, left, question):
                    line = {"file": path, "bytes": sizes[path], "level": asked.level, **made.line}
                    results.add(line)
                    if asked.keep and verdict(line) == BROKEN:
                        keep(asked.keep, line, made)
    if asked.junit:
        write_junit(asked.junit, results.lines.values())
    doing.say("tcc-fleet: " + summary(results, found), sys.stderr)
    return results.status()


def main() -> int:
    ask = command_line(__doc__, EXAMPLE)
    ask.add_argument("files", metavar="FOLDER", nargs="+", help="folders with histories, or files of records")
    ask.add_argument("--scheduler", metavar="ADDRESS", help="of Dask.distributed, such as HOST:8786; by default one on this machine alone")
    ask.add_argument("--workers", type=count, metavar="N", help="without --scheduler so many, by default one for each processor")
    ask.add_argument("--resume", metavar="FILE", help="results.jsonl: results are added to it, and what it has isn't judged again")
    ask.add_argument("--junit", metavar="FILE", help="a report in the form of JUnit, of all results")
    ask.add_argument("--keep", metavar="FOLDER", help="keeps the answer of each failure there, and of an anomaly its certificate and a slice")
    ask.add_argument("--level", choices=("causal", "atomic"), default="causal", help="by default causal")
    ask.add_argument("--large", action="store_true", help="as of tcc explain")
    ask.add_argument("--require", type=count_within(0, 10**9), metavar="N", default=1, help="a consistent history of fewer transactions counts "
                     "as not judged; by default 1")
    add_tcc(ask)
    asked = ask.parse_args()
    return status_of("tcc-fleet", "looks for histories", lambda doing: run(asked, doing), "interrupted: --resume goes on after what was judged",
                     (NoDask, NoResults, OSError, ValueError), NOT_RUN)


if __name__ == "__main__":
    sys.exit(main())
