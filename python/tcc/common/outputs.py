"""Files that a script writes: never one that it reads, nor a standard stream, and a page only over a page."""
import os
import pathlib
import stat
from typing import Iterable, Optional, Tuple, Union

Source = Union[str, int]  # a path, or the number of an open file
PAGE = b"<!DOCTYPE html>"  # how a page begins


def id_of(source: Source) -> Optional[Tuple[int, int]]:
    """Which file it is; none where there is none, and of a terminal, /dev/null and the like."""
    try:
        found = os.stat(source)
    except OSError:
        return None
    return (found.st_dev, found.st_ino) if stat.S_ISREG(found.st_mode) else None


def check_apart(path: str, inputs: Iterable[Source]) -> None:
    """Refuses to write a file that is an input, standard output or standard error."""
    mine = id_of(path)
    if mine is not None and any(id_of(one) == mine for one in (*inputs, 0, 1, 2)):
        raise OSError("%s isn't written: it is the input, the output or standard error" % path)



def make_room(path: str, inputs: Iterable[Source]) -> None:
    """Takes an old page away, so that none stays where a run fails; refuses to where it is no page, or is an input."""
    check_apart(path, inputs)
    if not os.path.exists(path) or not os.path.isfile(path):
        return
    with open(path, "rb") as file:
        first = file.read(len(PAGE))
    if first not in (b"", PAGE):
        raise OSError("%s isn't written: it is there, and is no page" % path)
    os.unlink(os.path.realpath(path))


def write_whole(path: str, text: str) -> None:
    """Writes a text beside and renames that, so that there is all of it or nothing; what is no file is written as it is."""
    whole = os.path.realpath(path)
    if os.path.exists(whole) and not os.path.isfile(whole):
        pathlib.Path(whole).write_text(text, encoding="utf-8")
        return
    beside = "%s.%d.part" % (whole, os.getpid())
    try:
        with open(os.open(beside, os.O_WRONLY | os.O_CREAT | os.O_EXCL, 0o666), "w", encoding="utf-8") as out:
            out.write(text)
        os.replace(beside, whole)
    except BaseException:
        if os.path.exists(beside):
            os.unlink(beside)
        raise


def check_free(folder: str, names: Iterable[str], inputs: Iterable[Source]) -> None:
    """Refuses a folder in which something lies under one of these names, but for what is read."""
    read = [id_of(one) for one in inputs]
    for name in names:
        path = os.path.join(folder, name)
        if os.path.lexists(path) and (os.path.islink(path) or id_of(path) is None or id_of(path) not in read):
            raise OSError("%s isn't written: something lies there; name a new folder" % path)
