"""What happens to nodes while clients work: a pause, kill -9, a restart, a partition, or whatever a command does.

Each trouble begins, lasts and ends, and both are noted among the annotations, as `start-pause n1` and `stop-pause n1`, so that a page
shows them on its line of time.
"""
import os
import shlex
import signal
import subprocess
import threading
from dataclasses import dataclass, field
from typing import Callable, List, Optional, Sequence, Union

from tcc import Recorder
from tcc.harness.servers import Link, NoServer, Server

COMMAND_SECONDS = 120.0
Words = Union[str, Sequence[str]]


def nothing() -> None:
    """What ends a trouble that ends by itself."""


@dataclass
class Trouble:
    """Something that begins and ends at a node, for so many seconds."""

    name: str
    node: str
    begin: Callable[[], None]
    end: Callable[[], None] = nothing
    seconds: float = 1.0


def pause(server: Server, seconds: float = 1.0) -> Trouble:
    """The server is stopped for so long, and then goes on: SIGSTOP, SIGCONT."""
    return Trouble("pause", server.node, server.pause, server.go_on, seconds)


def pause_pid(node: str, pid: int, seconds: float = 1.0) -> Trouble:
    """The same for a process that somebody else started."""
    return Trouble("pause", node, lambda: os.kill(pid, signal.SIGSTOP), lambda: os.kill(pid, signal.SIGCONT), seconds)


def kill(server: Server, seconds: float = 1.0, ready: Callable[[], None] = nothing) -> Trouble:
    """The server is ended by kill -9, and started again so much later; the trouble is over once it is ready."""
    return Trouble("kill", server.node, server.kill, lambda: started(server, ready), seconds)


def restart(server: Server, seconds: float = 0.0, ready: Callable[[], None] = nothing) -> Trouble:
    """The server is asked to end, and started again."""
    return Trouble("restart", server.node, server.end, lambda: started(server, ready), seconds)


def started(server: Server, ready: Callable[[], None]) -> None:
    server.start()
    ready()


def cut(node: str, links: Sequence[Link], seconds: float = 1.0) -> Trouble:
    """Nothing comes over these links: a partition where nodes reach one another by links."""
    def hold() -> None:
        for one in links:
            one.hold()

    def let_go() -> None:
        for one in links:
            one.let_go()

    return Trouble("partition", node, hold, let_go, seconds)


def by_command(name: str, node: str, begin: Words, end: Optional[Words] = None, seconds: float = 1.0) -> Trouble:
    """A command begins it, and another one ends it, as `iptables -A ..` and `iptables -D ..`, or `docker pause n1`."""
    return Trouble(name, node, lambda: run(begin), lambda: run(end) if end else None, seconds)


def run(words: Words) -> None:
    split = shlex.split(words) if isinstance(words, str) else list(words)
    done = subprocess.run(split, stdin=subprocess.DEVNULL, capture_output=True, text=True, timeout=COMMAND_SECONDS, check=False)
    if done.returncode:
        raise NoServer("%s: status %d, %s" % (" ".join(split), done.returncode, (done.stderr or done.stdout).strip()[-300:]))


@dataclass
class Troubles:
    """Plays troubles one after the other, with a gap before each, in a thread, until `stop`. Of those that `go_on`, once all others have
    happened, one comes again and again. `failed` is why one didn't happen."""

    recorder: Recorder
    every: Sequence[Trouble] = ()
    go_on: Sequence[Trouble] = ()
    gap: float = 0.3
    has_happened: threading.Event = field(default_factory=threading.Event)
    failed: Optional[Exception] = None

    def __post_init__(self) -> None:
        self._over = threading.Event()
        self._thread = threading.Thread(target=self._run, name="troubles", daemon=True)

    def __enter__(self) -> "Troubles":
        self._thread.start()
        return self

    def __exit__(self, *error: object) -> None:
        self.stop()

    def stop(self) -> None:
        """No more; what has begun ends."""
        self._over.set()
        self._thread.join()

    def happen(self, one: Trouble) -> None:
        said = ("%s %s" % (one.name, one.node)).strip()
        self.recorder.event("start-" + said, one.node)
        try:
            one.begin()
            self._over.wait(one.seconds)
        finally:
            one.end()
            self.recorder.event("stop-" + said, one.node)

    def _run(self) -> None:
        try:
            for one in self.every:
                if self._over.wait(self.gap):
                    return
                self.happen(one)
            self.has_happened.set()
            turn = 0
            while self.go_on and not self._over.wait(self.gap):
                self.happen(self.go_on[turn % len(self.go_on)])
                turn += 1
        except Exception as error:
            self.failed = error


def in_turns(kinds: Sequence[Sequence[Trouble]]) -> List[Trouble]:
    """One of each kind, then the next of each, as long as there are some."""
    return [kind[turn] for turn in range(max(map(len, kinds), default=0)) for kind in kinds if turn < len(kind)]
