"""A table of registers in a database, over a driver of Python's DB-API."""
import contextlib
from typing import Any, Callable, ContextManager, NamedTuple, Optional

from tcc.harness.store import Connection, Found


class Registers(NamedTuple):
    """How a database reads a key, and how it writes a value there; the words for a statement are those of the driver."""

    read: str
    write: str


class Sql(Connection):
    """A connection whose transactions are several statements. What the driver raises where the database refuses something is raised as
    `refusals` says, if that is another error."""

    def __init__(self, server: Any, registers: Registers, refusals: Callable[[], ContextManager[None]] = contextlib.nullcontext):
        self.server, self.registers, self.refusals = server, registers, refusals

    def read(self, key: str) -> Found:
        with self.refusals(), self.server.cursor() as cursor:
            cursor.execute(self.registers.read, (key,))
            found = cursor.fetchone()
            return Found(found[0]) if found else Found()

    def write(self, key: str, value: int) -> Optional[int]:
        with self.refusals(), self.server.cursor() as cursor:
            cursor.execute(self.registers.write, (key, value))
            return None

    def commit(self) -> None:
        with self.refusals():
            self.server.commit()

    def rollback(self) -> None:
        self.server.rollback()

    def close(self) -> None:
        self.server.close()
