#!/usr/bin/env python3
"""Runs a built `tcc` on two files that have one number, on two file systems: each is a file of its own, so the certificate of
the one may go to the other.

    numbers.py [--tcc PATH]

The last line is `N passed, M failed`. A number is given by the file system, so files are made on one that is held in memory until
one has the number of a file that is there. Where that can't be, that is reported and nothing is run.
"""
import os
import pathlib
import subprocess
import sys
import tempfile

HERE = pathlib.Path(__file__).resolve().parent
TOP = HERE.parent.parent
sys.path.insert(0, str(TOP / "tests"))
from arguments import status_on_tcc  # noqa: E402
from compared import shown  # noqa: E402

IN_MEMORY = "/dev/shm"
MOST_MADE = 50000
LARGEST = 1 << 16


def files_below(folders):
    """The readable files below some folders, none of them large, with what the system says of each."""
    for folder in folders:
        for path, _, names in os.walk(folder):
            for name in names:
                whole = os.path.join(path, name)
                try:
                    found = os.lstat(whole)
                except OSError:
                    continue
                if os.path.isfile(whole) and not os.path.islink(whole) and found.st_size < LARGEST and os.access(whole, os.R_OK):
                    yield found, whole


def twins(folder):
    """A file that is there, and one made in the folder, of one number and on two devices; None where there are none."""
    at = os.stat(folder)
    numbers = {found.st_ino: path for found, path in files_below(["/etc", "/usr/share"]) if found.st_dev != at.st_dev}
    for made in range(MOST_MADE):
        path = os.path.join(folder, str(made))
        with open(path, "wb") as file:
            number = os.fstat(file.fileno()).st_ino
        if number in numbers:
            return numbers[number], path
        os.unlink(path)
        if not any(other > number for other in numbers):
            return None
    return None


def wrong_with(tcc, records, certificate):
    """What the program says otherwise than that the two are two files, or None. The records needn't be any."""
    before = os.stat(records)
    made = os.stat(certificate)
    if before.st_ino != made.st_ino or before.st_dev == made.st_dev:
        return "the two files have not one number on two devices"
    for words in (["explain", "--certificate", certificate, records], ["explain", "--certificate", certificate]):
        with open(records, "rb") as file:
            done = subprocess.run([*tcc, *words], stdin=file, capture_output=True, timeout=120)
        if done.returncode == 6 or b"device" in done.stderr:
            return "status %d, standard error %s" % (done.returncode, shown(done.stderr))
    return None


def outcomes(tcc):
    """The one test, with what is wrong, or None."""
    if not os.access(IN_MEMORY, os.W_OK):
        print("no file system in memory: left out")
        yield "numbers", None
        return
    with tempfile.TemporaryDirectory(dir=IN_MEMORY) as folder:
        found = twins(folder)
        if found is None:
            print("no two files of one number on two file systems: left out")
        yield "numbers", found and wrong_with(tcc, *found)


def main():
    return status_on_tcc("Runs a built tcc on two files of one number.", outcomes)


if __name__ == "__main__":
    sys.exit(main())
