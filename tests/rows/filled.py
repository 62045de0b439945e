#!/usr/bin/env python3
"""Runs `tcc explain` where a file that it writes takes only some bytes, as on a full disk.

    filled.py [--tcc PATH]

The system refuses to let a file grow beyond a limit of the process. For each length from 0 to one byte less than the whole text, of
a slice and of a certificate, the answer is printed and `device` after it. The status is 6, and the file is empty. No part of a
slice may pass for a history, least of all one that says `consistent`. At the whole length all of it is written. Each difference is
one line; the last line is `N passed, M failed`.
"""
import pathlib
import resource
import signal
import subprocess
import sys
import tempfile

sys.path.insert(0, str(pathlib.Path(__file__).resolve().parent.parent))
from arguments import status_on_tcc  # noqa: E402
from compared import first_difference, shown  # noqa: E402

# 65 sessions, of which one reads the initial value of what it wrote.
STALE = "a,begin\na,w,x,1\na,commit\na,begin\na,r,x,0\na,commit\n"
RECORDS = STALE + "".join("s%02d,begin\ns%02d,commit\n" % (i, i) for i in range(1, 65))


def run(tcc, option, folder, most):
    """A run whose files may have this many bytes, and what it leaves in the file of the option."""
    left = pathlib.Path(folder, "left")

    def limit():
        signal.signal(signal.SIGXFSZ, signal.SIG_IGN)
        resource.setrlimit(resource.RLIMIT_FSIZE, (most, most))

    done = subprocess.run([*tcc, "explain", "--large", option, left], input=RECORDS.encode(), capture_output=True, timeout=120, preexec_fn=limit)
    return done, left.read_bytes() if left.exists() else b"no such file"


def wrong_with(tcc, option, folder, most, whole):
    """What is otherwise than wanted where this many bytes of a whole text fit, or None."""
    done, left = run(tcc, option, folder, most)
    wanted = (6, b"") if most < len(whole) else (1, whole)
    if done.returncode != wanted[0]:
        return "status %d, standard error %s" % (done.returncode, shown(done.stderr))
    if (wanted[0] == 6) != done.stdout.endswith(b"\ndevice\n") or not done.stdout.startswith(b"anomaly: 3 steps, "):
        return "output %s" % shown(done.stdout)
    return first_difference("the file", wanted[1], left)


def outcomes(tcc):
    """For each length of each file what is wrong, or None."""
    with tempfile.TemporaryDirectory() as folder:
        for option in ("--slice", "--certificate"):
            whole = run(tcc, option, folder, 1 << 20)[1]
            if option == "--slice":
                yield "slice, whole", first_difference("the slice", STALE.encode(), whole)
            for most in range(len(whole) + 1):
                yield "%s, %d bytes" % (option[2:], most), wrong_with(tcc, option, folder, most, whole)


def main():
    return status_on_tcc("Runs a built tcc where a file takes only so many bytes.", outcomes)


if __name__ == "__main__":
    sys.exit(main())
