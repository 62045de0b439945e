"""Follows the files of recorders while they grow, or a folder in which they announce themselves, as the command `tcc-watch`.

Each answer of `tcc watch` is a line with the time of day, the first anomaly in full. Where nothing comes for a minute, a line says so. SIGTERM
and SIGINT end it: with the answer for what had come by then, and its status.
"""
import argparse
import json
import os
import signal
import sys
import threading
import time
from typing import List, Optional, TextIO, Union

from tcc.common.appended import NoRecord
from tcc.common.rows import Json
from tcc.common.words import Arguments
from tcc.judging.program import NoAnswer
from tcc.judging.runner import ANOMALY, UNRESOLVED, Anomaly, Consistent, line_of
from tcc.watch.looking import NO_PROGRAM, NOT_READ, Asking, Told
from tcc.watch.watching import GROWTH, Watching

# After so many seconds without an answer a line says that nothing came.
QUIET_SECONDS = 60.0
POLL_SECONDS = 0.1
EXAMPLE = """example: a test whose processes record into run/, and the answer for all of them
  $ tcc-watch client-1.csv client-2.csv & watch=$!
  $ ./test; kill -TERM $watch; wait $watch
"""


class Lines:
    """What is printed, and when the last line was."""

    def __init__(self, out: TextIO, is_json: bool = False):
        self.out, self.last, self.is_json = out, time.monotonic(), is_json
        self.watching: Optional[Watching] = None

    def say(self, text: str, told: Json) -> None:
        """Says one of both: a text with the time of day, or an object with time and how far the answers are."""
        self.last = time.monotonic()
        state = self.watching.state() if self.watching else {}
        line = line_of({**told, **state, "time": time.strftime("%Y-%m-%dT%H:%M:%S%z")}).rstrip("\n") if self.is_json else "%s %s" % (
            time.strftime("%H:%M:%S"), text)
        print(line, file=self.out, flush=True)

    def tell(self, told: Told) -> None:
        if isinstance(told, Consistent):
            self.say("consistent: %d transactions, %d sessions" % (told.transactions, told.sessions),
                     {"answer": "consistent", "transactions": told.transactions, "sessions": told.sessions})
        elif not isinstance(told, NoAnswer):
            self.say(told.text().rstrip("\n"), json.loads(told.json()))
        elif self.is_json:
            self.say("", {"answer": "none", "status": told.status, "why": str(told)})

    def say_quiet(self, count: int) -> None:
        """Says that nothing came, at most once in a while."""
        if time.monotonic() - self.last >= QUIET_SECONDS:
            self.say("nothing new for %d s; %d transactions so far" % (QUIET_SECONDS, count), {"answer": "quiet", "transactions": count})


def status_of(watching: Watching) -> int:
    """The status of the last answer, as that of `tcc explain`."""
    if watching.broken is not None:
        return ANOMALY if isinstance(watching.broken, Anomaly) else UNRESOLVED
    if watching.failed is not None:
        print("tcc-watch: %s" % watching.failed, file=sys.stderr)
        return watching.failed.status or NO_PROGRAM
    return 0


def follow(sources: Union[str, List[str]], asking: Asking, lines: Lines) -> int:
    """Follows until a signal comes, or what isn't consistent; the status."""
    over = threading.Event()
    for what in (signal.SIGTERM, signal.SIGINT):
        signal.signal(what, lambda *_: over.set())
    watching = lines.watching = Watching(sources, asking)
    with watching:
        while not over.wait(POLL_SECONDS) and watching.is_running():
            lines.say_quiet(watching.count)
    return status_of(watching)


def main() -> int:
    ask = Arguments(description="Has tcc watch answer for what recorders record, until SIGTERM or SIGINT ends it: then with the answer for "
                    "what has come, and its status. A line says each answer; where none comes for a minute, one says so.",
                    epilog=EXAMPLE, formatter_class=argparse.RawDescriptionHelpFormatter)
    ask.add_argument("sources", nargs="+", metavar="SOURCE", help="the files that they record into, of which some may come later; or the folder "
                     "in which they announce themselves, with watch=FOLDER")
    ask.add_argument("--level", choices=("causal", "atomic"), default="causal", help="by default causal")
    ask.add_argument("--json", action="store_true", help="each line is an object, as of tcc watch --json, with `seal`, how many `record`s came before it, "
                     "`time`, and how many bytes are `behind`; `quiet` where nothing came")
    ask.add_argument("--tcc", metavar="PATH", help="the program, by default $TCC, or else the one on the path")
    asked = ask.parse_args()
    folder: Optional[str] = asked.sources[0] if len(asked.sources) == 1 and os.path.isdir(asked.sources[0]) else None
    if folder is None and any(os.path.isdir(one) for one in asked.sources):
        ask.error("a folder is watched alone")
    lines = Lines(sys.stdout, asked.json)
    try:
        return follow(folder or asked.sources, Asking(lines.tell, level=asked.level, growth=GROWTH, tcc=asked.tcc, every=True), lines)
    except (NoRecord, OSError) as error:
        print("tcc-watch: %s" % error, file=sys.stderr)
        return NOT_READ


if __name__ == "__main__":
    sys.exit(main())
