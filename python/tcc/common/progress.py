"""What the scripts say while they work: at a terminal one line, `WHAT, N s`, once they have run for two seconds, as `tcc` has it."""
import sys
import threading
import time
from typing import Callable, Optional, TextIO, Tuple, Type

INTERRUPTED = 130  # the status of a script that was interrupted
AFTER = 2.0


class Doing:
    """Says on standard error, where that is a terminal, what is being done and for how long; the line goes before others come."""

    def __init__(self, what: str, out: Optional[TextIO] = None):
        self.out = sys.stderr if out is None else out
        self.what, self.begun, self.shown = what, time.monotonic(), False
        self.lock, self.ended = threading.Lock(), threading.Event()
        self.thread = threading.Thread(target=self._ticks, daemon=True)

    def __enter__(self) -> "Doing":
        if self.out.isatty():
            self.thread.start()
        return self

    def __exit__(self, *_: object) -> None:
        self.ended.set()
        self.clear()

    def now(self, what: str) -> None:
        """From now on this is being done."""
        with self.lock:
            self.what = what

    def clear(self) -> None:
        """Takes the line away, so that something else can be printed."""
        with self.lock:
            if self.shown:
                self.out.write("\r\x1b[K")
                self.out.flush()
                self.shown = False

    def say(self, line: str, out: TextIO) -> None:
        """Prints a line, after which the next one of this may come."""
        self.clear()
        print(line, file=out, flush=True)

    def _ticks(self) -> None:
        wait = AFTER
        while not self.ended.wait(wait):
            wait = 1.0
            with self.lock:
                if not self.ended.is_set():
                    self.out.write("\r\x1b[K%s, %d s" % (self.what, time.monotonic() - self.begun))
                    self.out.flush()
                    self.shown = True


def status_of(script: str, what: str, work: Callable[[Doing], Optional[int]], interrupted: str, faults: Tuple[Type[Exception], ...],
              status: int = 1) -> int:
    """Does the work of a script, and gives its status. What ends it too soon is said on standard error: that somebody interrupted
    it, and what there is by then; or one of the faults, which may have a status of its own."""
    try:
        with Doing(what) as doing:
            return work(doing) or 0
    except KeyboardInterrupt:
        print("%s: %s" % (script, interrupted), file=sys.stderr)
        return INTERRUPTED
    except faults as error:
        print("%s: %s" % (script, error), file=sys.stderr)
        return getattr(error, "status", status)
