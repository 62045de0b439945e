"""Files to which whole texts are appended, and what can't be recorded."""
import contextlib
import errno
import os
import stat
from typing import Iterator, Union

Path = Union[str, "os.PathLike[str]"]


class NoRecord(Exception):
    """What can't be recorded: a name or a value that no record can have, or a call out of turn."""


class Busy(Exception):
    """Another process records into the file."""


class Appended:
    """A file to which whole texts are appended: each is there, or nothing of it. `end` is the byte after the last of them,
    and `modified` when the file was written last before it was opened.

    With `syncs` a text is on the disk before `append` returns. A file that is `own` belongs to the recorder alone, so its
    name may not be a symbolic link.
    """

    def __init__(self, path: Path, syncs: bool = False, own: bool = False) -> None:
        self.path, self.syncs = os.fspath(path), syncs
        flags = os.O_RDWR | os.O_CREAT | os.O_APPEND | os.O_CLOEXEC | (os.O_NOFOLLOW if own else 0)
        try:
            self.file = os.open(self.path, flags, 0o644)
        except OSError as error:
            if own and error.errno == errno.ELOOP:
                raise NoRecord("%s is a symbolic link: the file that it names is left alone" % self.path) from error
            raise
        found = os.fstat(self.file)
        if not stat.S_ISREG(found.st_mode):
            os.close(self.file)
            raise NoRecord("%s is no regular file" % self.path)
        self.end, self.modified, self._is_torn = found.st_size, found.st_mtime, False
        if syncs:
            self._sync_name()

    def _sync_name(self) -> None:
        """The name of the file is on the disk too."""
        folder = os.open(os.path.dirname(self.path) or ".", os.O_RDONLY | os.O_CLOEXEC)
        try:
            os.fsync(folder)
        finally:
            os.close(folder)

    def is_same(self, other: "Appended") -> bool:
        return os.path.samestat(os.fstat(self.file), os.fstat(other.file))

    def lines(self) -> Iterator[bytes]:
        """The lines of the file from its beginning."""
        with open(os.dup(self.file), "rb") as file:
            file.seek(0)
            yield from file

    def cut(self, end: int) -> None:
        """Keeps this many bytes."""
        os.ftruncate(self.file, end)
        self.end = end

    def append(self, text: str) -> None:
        if self._is_torn:  # an append failed, and what it left couldn't be cut off at once
            os.ftruncate(self.file, self.end)
        data = rest = memoryview(text.encode("utf-8", "replace"))
        self._is_torn = True
        try:
            while rest:
                rest = rest[os.write(self.file, rest):]
            if self.syncs:
                os.fsync(self.file)
        except OSError:
            with contextlib.suppress(OSError):
                os.ftruncate(self.file, self.end)
            raise
        self.end += len(data)
        self._is_torn = False

    def close(self) -> None:
        os.close(self.file)
