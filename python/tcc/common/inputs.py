"""Files that somebody gives a script: as they are, or packed by gzip, with a byte order mark or without; and what a file is that is
none of those that a script reads."""
import gzip
import io
import os
import re
import sys
from typing import BinaryIO, Optional, Union, cast

MARK = b"\xef\xbb\xbf"
GZIP = b"\x1f\x8b"
FIRST = 4096  # bytes of a file by which it is known what it is
PACKED = {b"PK\x03\x04": "a zip archive", b"\xfd7zXZ": "packed by xz", b"BZh": "packed by bzip2", b"\x28\xb5\x2f\xfd": "packed by zstd"}
FOR_READERS = re.compile(rb"(?:[0-9]+|:[^\s]+)[ \t]+:(?:invoke|ok|fail|info)[ \t]+:")
RECORD = re.compile(rb'\s*("?[A-Za-z0-9_.-]{1,32}"?\s*,|"?seal"?\s*$)')
BEGINS = (b"{", b"[", b"#", b"(", b";", b"^")


class Foreign(ValueError):
    """A file that is something else."""


def opened(path: str) -> BinaryIO:
    """A file to read, `-` for standard input; one that is packed by gzip is unpacked, and a byte order mark passed over."""
    raw = sys.stdin.buffer if path == "-" else open(path, "rb")  # pylint: disable=consider-using-with
    file = raw if isinstance(raw, io.BufferedReader) else io.BufferedReader(cast(io.RawIOBase, raw))
    if file.peek(2)[:2] == GZIP:
        file = io.BufferedReader(cast(io.RawIOBase, gzip.GzipFile(fileobj=file)))
    if file.peek(3)[:3] == MARK:
        file.read(3)
    return file


def foreign(first: bytes) -> Optional[str]:
    """What a file is, by its beginning, where that is neither records nor a history."""
    for begin, what in PACKED.items():
        if first.startswith(begin):
            return "it is %s: unpack it first" % what
    if first.startswith(b"JEPSEN"):
        return "it is Jepsen's binary form of a test: history.edn beside it is the history"
    line = next((one for one in first.splitlines() if one.strip()), b"")
    if FOR_READERS.match(line):
        return "it is Jepsen's history.txt, which is for readers: history.edn beside it is the history"
    return None


def why_no_records(path: Union[str, "os.PathLike[str]"]) -> Optional[str]:
    """Why a path is none of a file of records, and what to do; none where it may be one, can't be read, or is a pipe, which is read once."""
    if isinstance(path, bytes) or "\n" in os.fspath(path):
        return "a text, and no path: write the records into a file, and give its path, or ask judge(..), which takes them in memory"
    name = os.fspath(path)
    if os.path.isdir(name):
        return "%s is a folder: tcc-join -o records.csv %s/*.csv makes one history of the files in it" % (name, name.rstrip("/"))
    if not os.path.isfile(name):
        return None
    try:
        with open(name, "rb") as file:
            first = file.read(FIRST)
    except OSError:
        return None
    if first.startswith(GZIP):
        return "%s is packed by gzip: gunzip it first, or ask tcc-report, which takes it as it is" % name
    what = foreign(first)
    if what is None and not is_of_records(first):
        what = "it has operations, as Jepsen writes them, and no records: tcc-jepsen %s > records.csv makes records of them, and tcc-report %s a page" % (
            name, name)
    return "%s: %s" % (name, what) if what else None


def check_records(*paths: Union[str, "os.PathLike[str]"]) -> None:
    """Refuses files that have no records, and says what to do."""
    for path in paths:
        why = why_no_records(path)
        if why:
            raise Foreign(why)


def is_of_records(first: bytes) -> bool:
    """Whether a file has records, and not operations of Jepsen, by its beginning."""
    line = next((one for one in first.splitlines() if one.strip()), b"")
    return bool(RECORD.match(line)) or not line.lstrip().startswith(BEGINS)
