"""A client of a store, to copy: what it notes stays true where a connection breaks, or an outcome is unknown.

`connect`, `read`, `write`, `commit` and `close` represent the calls of a library, and `OSError` what it raises where a connection
breaks. docs/RECORDING.md says why each line is as it is.
"""
import contextlib
import time
from itertools import count


class Refused(Exception):
    """The store says that nothing of the transaction happened; the connection goes on."""


def connected(connect, until):
    """A new connection, asked for again where it is refused; none where there was none in time."""
    while time.monotonic() < until:
        try:
            return connect()
        except OSError:
            time.sleep(0.05)


def client(number, connect, work, done, until, keeps_session=False):
    """Does the work, a list of keys to read and keys to write for each transaction, and notes what it saw."""
    counter, sessions, session, store = count(1), count(1), None, None
    for reads, writes in work:
        store = connected(connect, until) if store is None else store
        if store is None:
            return
        session = session or "c%d.%d" % (number, next(sessions))  # after the connection: one that is refused uses up no name
        read, written, end = [], [], "abort"
        try:
            for key in reads:
                read.append(("r", key, store.read(key) or 0))
            for key in writes:
                written.append(("w", key, next(counter) * 64 + number))
                store.write(*written[-1][1:])
            end = "unknown"  # the COMMIT is sent: from here on the outcome is unknown, unless the store says so
            store.commit()
            end = "commit"
        except Refused:
            end = "abort"
        except OSError:  # the connection broke: before the COMMIT that is an abort, in it unknown
            with contextlib.suppress(OSError):
                store.close()
            store = None
        if end == "commit" or written:  # what only read, and didn't commit, is left out
            done.append((session, read + written if end == "commit" else written, end))
        if store is None and not (keeps_session and (end == "abort" or not written)):
            session = None


def write_records(done, out):
    """Writes what all clients noted."""
    for session, steps, end in done:
        out.write("%s,begin\n" % session)
        out.writelines("%s,%s,%s,%d\n" % (session, *step) for step in steps)
        out.write("%s,%s\n" % (session, end))
