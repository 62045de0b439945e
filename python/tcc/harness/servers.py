"""Servers of a round: how they are started and ended, how to wait for them, and a link to one that can be held."""
import contextlib
import os
import signal
import socket
import subprocess
import threading
import time
from dataclasses import dataclass, field
from typing import Any, Callable, Dict, Iterator, List, Optional, Sequence

from tcc.harness.store import Failures, Store

LOOPBACK = "127.0.0.1"
POLL_SECONDS = 0.05


class NoServer(Exception):
    """A server that can't be had, or not in time."""


def free_ports(many: int) -> List[int]:
    """So many ports that nobody uses."""
    listening = [socket.create_server((LOOPBACK, 0)) for _ in range(many)]
    ports = [one.getsockname()[1] for one in listening]
    for one in listening:
        one.close()
    return ports


def free_port() -> int:
    return free_ports(1)[0]


def ports_of(nodes: Sequence[str], many: int) -> Dict[str, List[int]]:
    """So many ports for each node."""
    ports = free_ports(many * len(nodes))
    return {node: ports[many * place:many * (place + 1)] for place, node in enumerate(nodes)}


def wait_until(is_so: Callable[[], bool], failing: Failures, seconds: float, otherwise: str) -> None:
    """Waits until it is so; each time that it is asked it may fail."""
    until = time.monotonic() + seconds
    while time.monotonic() < until:
        with contextlib.suppress(*failing):
            if is_so():
                return
        time.sleep(POLL_SECONDS)
    raise NoServer("%s within %d seconds" % (otherwise, seconds))


def stop(running: "subprocess.Popen[bytes]", how: int, seconds: float) -> None:
    """Ends a process by a signal, or by kill -9 where that takes more than so many seconds; also one that is paused."""
    running.send_signal(how)
    running.send_signal(signal.SIGCONT)
    try:
        running.wait(seconds)
    except subprocess.TimeoutExpired:
        running.kill()
        running.wait()


@dataclass
class Server:
    """A server that a round starts, by its words: as where `more` says, such as `cwd`, `env` and `user`. Standard output and error go to
    the file `log`, if there is one."""

    node: str
    words: Sequence[str]
    log: Optional[str] = None
    more: Dict[str, Any] = field(default_factory=dict)
    running: "Optional[subprocess.Popen[bytes]]" = None

    def start(self) -> "Server":
        with open(self.log or os.devnull, "ab") as log:
            self.running = subprocess.Popen(list(self.words), stdin=subprocess.DEVNULL, stdout=log, stderr=log, **self.more)
        return self

    def send(self, what: int) -> None:
        if self.running is not None and self.running.poll() is None:
            self.running.send_signal(what)

    def pause(self) -> None:
        self.send(signal.SIGSTOP)

    def go_on(self) -> None:
        self.send(signal.SIGCONT)

    def kill(self) -> None:
        """Ends it by kill -9, also where it is paused."""
        self.end(signal.SIGKILL)

    def end(self, how: int = signal.SIGTERM, seconds: float = 10.0) -> None:
        """Ends it by a signal, or by kill -9 where that takes more than so many seconds."""
        if self.running is not None:
            stop(self.running, how, seconds)

    def check(self) -> None:
        """Raises where it has ended, as where somebody else has taken its port."""
        if self.running is not None and self.running.poll() is not None:
            raise NoServer("%s ended with status %d" % (self.node, self.running.returncode))


def wait_for(store: Store, node: str, seconds: float = 60.0, server: Optional[Server] = None, key: str = "ready") -> None:
    """Waits until a node of a store answers a read; it may have ended, where it is a server of the round."""
    def answers() -> bool:
        if server is not None:
            server.check()
        with contextlib.closing(store.connect(node)) as connection:
            connection.read(key)
            return True

    wait_until(answers, store.broken, seconds, "%s didn't answer" % node)


@contextlib.contextmanager
def running(servers: Sequence[Server], ready: Callable[[Server], None]) -> Iterator[None]:
    """Servers that run meanwhile, once each is ready; they are killed in the end."""
    try:
        for one in servers:
            one.start()
        for one in servers:
            ready(one)
        yield
    finally:
        for one in servers:
            one.kill()


@dataclass
class Link:
    """A way for bytes to a port of the loopback, in both directions, that can be held: a partition that needs no rights on the machine."""

    port: int
    free: threading.Event = field(default_factory=threading.Event)

    def open(self, held: contextlib.ExitStack) -> int:
        """Listens, and gives the port at which it does."""
        self.free.set()
        held.callback(self.free.set)
        listening = held.enter_context(socket.create_server((LOOPBACK, 0)))
        threading.Thread(target=self._serve, args=(listening,), daemon=True).start()
        return int(listening.getsockname()[1])

    def hold(self) -> None:
        self.free.clear()

    def let_go(self) -> None:
        self.free.set()

    def _serve(self, listening: socket.socket) -> None:
        with contextlib.suppress(OSError):
            while True:
                one, _ = listening.accept()
                other = socket.create_connection((LOOPBACK, self.port))
                for source, target in ((one, other), (other, one)):
                    threading.Thread(target=self._carry, args=(source, target), daemon=True).start()

    def _carry(self, source: socket.socket, target: socket.socket) -> None:
        with contextlib.suppress(OSError), source, target:
            while data := source.recv(65536):
                self.free.wait()
                target.sendall(data)
