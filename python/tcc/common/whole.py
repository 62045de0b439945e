"""Files that are there only once they are whole."""
import contextlib
import os
import tempfile
from typing import Iterator, TextIO, Union


@contextlib.contextmanager
def written_whole(path: Union[str, "os.PathLike[str]"]) -> Iterator[TextIO]:
    """A file of text that gets its name once all of it is on the disk; where something fails, what had the name keeps it. A
    part of a history may be a lawful history, so no part may pass for the whole."""
    name = os.fspath(path)
    mask = os.umask(0)
    os.umask(mask)
    number, beside = tempfile.mkstemp(".part", os.path.basename(name) + ".", os.path.dirname(name) or ".", text=True)
    try:
        with open(number, "w", encoding="utf-8", newline="") as file:
            yield file
            file.flush()
            os.fchmod(file.fileno(), 0o666 & ~mask)
            os.fsync(file.fileno())
        os.replace(beside, name)
    except BaseException:
        with contextlib.suppress(OSError):
            os.unlink(beside)
        raise
