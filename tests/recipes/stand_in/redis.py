"""In the place of redis-py, for recipes/redis/record.py where no Redis is: a primary and a replica as maps of this process.

A MULTI is done at one moment. At the replica a write shows once there were `LATE` others. Before the write number `HELD_AT` all
clients wait until there is the file that the variable STAND_IN_GOES_ON names: so an answer that makes that file came while they work.
"""
import os
import sys
import threading
import time
import types
from typing import Dict, List, Optional, Set, Tuple

LATE, HELD_AT = 40, 200
HELD_SECONDS, PAUSE_SECONDS = 600, 0.01
LOCK = threading.Lock()
WRITES: List[Tuple[str, int]] = []
REPLICAS: Set[int] = set()


class RedisError(Exception):
    """What record.py takes for a broken connection; it never comes."""


def hold() -> None:
    """Waits for the file; without it nobody has shown an answer."""
    until = time.monotonic() + HELD_SECONDS
    while not os.path.exists(os.environ["STAND_IN_GOES_ON"]):
        if time.monotonic() > until:
            raise AssertionError("no answer came while the clients worked")
        time.sleep(PAUSE_SECONDS)


class Steps:
    """A MULTI at the server of a port."""

    def __init__(self, port: int):
        self.port, self.steps = port, []  # type: int, List[Tuple[str, Optional[int]]]

    def __enter__(self) -> "Steps":
        return self

    def __exit__(self, *error: object) -> None:
        self.steps = []

    def set(self, key: str, value: int) -> None:
        self.steps.append((key, value))

    def get(self, key: str) -> None:
        self.steps.append((key, None))

    def execute(self) -> List[Optional[bytes]]:
        with LOCK:
            return [self.read(key) if value is None else self.write(key, value) for key, value in self.steps]

    def read(self, key: str) -> Optional[bytes]:
        seen: Dict[str, int] = dict(WRITES[:-LATE] if self.port in REPLICAS else WRITES)
        return b"%d" % seen[key] if key in seen else None

    def write(self, key: str, value: int) -> bytes:
        WRITES.append((key, value))
        if len(WRITES) == HELD_AT:
            hold()
        return b"OK"


class Redis:
    """A connection to the server of a port."""

    def __init__(self, host: str, port: int, **more: object):
        self.port = port

    def __enter__(self) -> "Redis":
        return self

    def __exit__(self, *error: object) -> None:
        pass

    def ping(self) -> bool:
        return True

    def info(self, section: str) -> Dict[str, str]:
        """Only a replica is asked for this."""
        REPLICAS.add(self.port)
        return {"master_link_status": "up"}

    def close(self) -> None:
        pass

    def pipeline(self, transaction: bool) -> Steps:
        return Steps(self.port)


exceptions = types.SimpleNamespace(RedisError=RedisError)
sys.modules.update({"redis.exceptions": exceptions, "redis.backoff": types.SimpleNamespace(NoBackoff=object),
                    "redis.retry": types.SimpleNamespace(Retry=lambda backoff, retries: None)})
