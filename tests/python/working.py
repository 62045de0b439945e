"""What the recorders of recipes/ share: the values of clients, what they may be asked for, and how what they did is written."""
import argparse
import contextlib
import io
import os
import pathlib
import signal
import subprocess
import sys
from typing import Dict, Iterator, List

from counted import Outcome
from helpers import SECONDS, differs, run

# A recorder whose clients write to nothing; one of them ends early where it is asked to.
RECORDER = """
import sys
from tcc.common.words import command_line
from tcc.harness import Connection, Found, Store, recipe

class Nothing(Connection):
    def read(self, key):
        return Found()
    def write(self, key, value):
        return None

class Nowhere(Store):
    def connect(self, node):
        return Nothing()

def turn(client):
    client.do("n0", [], ["x"])
    if client.number == 2 and "b." in str(sys.argv):
        raise ValueError("no more")

sys.exit(recipe.recorded(lambda asked, folder: recipe.played(asked, folder, Nowhere(), lambda keys: turn),
                         recipe.arguments(command_line("", ""))))
"""


def five_clients(folder: pathlib.Path, tcc: List[str]) -> Iterator[Outcome]:
    """Five clients at a store in memory: each value is written once, and each has a session of its own."""
    from replicas import Memory
    from tcc.harness import Goal, Keys, Plan, play

    def turn(client) -> None:
        key = Keys(3).some(client)
        client.do("n0", [key], [key])

    played = play(Memory(), turn, Plan(folder / "five", Goal(60, most=40), clients=5))
    path = folder / "five/records.csv"
    lines = [line.split(",") for line in path.read_text().split()]
    written = [one[3] for one in lines if one[1] == "w"]
    yield differs("values of five clients", (100, 100), (len(written), len(set(written))))
    yield differs("sessions of five clients", {"c%d" % number for number in range(1, 6)}, {one[0] for one in lines})
    answered = subprocess.run([*tcc, "explain", "--require", str(played.worked.transactions), str(path)], capture_output=True, timeout=SECONDS, check=False)
    yield differs("the answer for five clients", 0, answered.returncode)


def limits() -> Iterator[Outcome]:
    """Clients times transactions may be what `tcc` takes, and no more."""
    from tcc.harness import recipe
    for words, wanted in ((["--clients", "5", "--transactions", "3355443"], "taken"), (["--clients", "5", "--transactions", "3355444"], "refused"),
                          (["--clients", str(recipe.CLIENTS), "--transactions", "4097"], "taken"),
                          (["--clients", str(recipe.CLIENTS), "--transactions", "4098"], "refused"), (["--clients", str(recipe.CLIENTS + 1)], "refused"), (["--transactions", "16777216"], "refused")):
        before, sys.argv = sys.argv, ["record.py", *words]
        try:
            with contextlib.redirect_stderr(io.StringIO()):
                recipe.arguments(argparse.ArgumentParser())
            got = "taken"
        except SystemExit:
            got = "refused"
        finally:
            sys.argv = before
        yield differs(" ".join(words), wanted, got)


def steps(path: pathlib.Path) -> Dict[str, List[str]]:
    """What the sessions of a file do, each in its order."""
    found: Dict[str, List[str]] = {}
    for line in path.read_text().split():
        found.setdefault(line.split(",")[0], []).append(line.split(",")[1])
    return found


def written(folder: pathlib.Path, library: str) -> Iterator[Outcome]:
    """How records are written: whole, or under no name; and the status where a client ended early."""
    words = [sys.executable, "-c", RECORDER, "--clients", "2", "--transactions", "3"]
    whole = {"c%d" % number: ["begin", "w", "commit"] * 3 for number in (1, 2)}
    done = run([*words, "-o", str(folder / "a.csv"), "--notes", str(folder / "a.notes")], library)
    yield differs("records into a file", (0, "", whole), (done.returncode, done.stdout, steps(folder / "a.csv")))
    mask = os.umask(0)
    os.umask(mask)
    modes = [(folder / name).stat().st_mode & 0o777 for name in ("a.csv", "a.notes")]
    yield differs("who may read them", [0o666 & ~mask] * 2, modes)
    told = sorted(line.split(",")[:2] for line in (folder / "a.notes").read_text().splitlines()[2:])
    yield differs("its annotations", [["c%d/%d" % (number, place), "n0"] for number in (1, 2) for place in (1, 2, 3)], told)
    done = run([*words, "-o", str(folder / "b.csv")], library)
    early = "client 2 ended early, ValueError: no more" in done.stderr
    yield differs("a client that ends early", (1, True, whole["c1"][:3]), (done.returncode, early, steps(folder / "b.csv")["c2"]))
    held = folder / "held.csv"
    held.write_text("what was there\n")
    limited = ["bash", "-c", 'ulimit -f 1; exec "$@"', "bash", sys.executable, "-c", RECORDER, "--clients", "2", "--transactions", "300"]
    done = run([*limited, "-o", str(held)], library)
    yield differs("records without room", (1, "what was there\n", ["held.csv"]),
                  (done.returncode, held.read_text(), [name for name in os.listdir(folder) if name.startswith("held.csv")]))
    said = "File too large" in done.stderr and "Traceback" not in done.stderr
    yield "what is said of it", None if said else done.stderr
    with open("/dev/full", "w") as nowhere:
        done = subprocess.run(words, stdout=nowhere, stderr=subprocess.PIPE, text=True, timeout=SECONDS, check=False,
                              env={**os.environ, "PYTHONPATH": library, "PYTHONDONTWRITEBYTECODE": "1"})
    said = "the records can't be written" in done.stderr and "Traceback" not in done.stderr and "Exception" not in done.stderr
    yield "an output without room", None if done.returncode == 1 and said else "%d, %s" % (done.returncode, done.stderr)


def warned(folder: pathlib.Path) -> Iterator[Outcome]:
    """What is said of a limit that is passed, and nothing at it."""
    from tcc.common.limits import LARGE_SESSIONS, MAX_KEYS, MAX_SESSIONS, MAX_TRANSACTIONS
    from tcc.harness.recipe import warnings
    beyond, most, path = LARGE_SESSIONS + 1, "tcc explain takes at most %d, so say --large", folder / "warned.csv"
    for sessions, keys, transactions, wanted in (
            (MAX_SESSIONS, MAX_KEYS, MAX_TRANSACTIONS, []),
            (MAX_SESSIONS + 1, 1, MAX_SESSIONS + 1, ["%d sessions: " % (MAX_SESSIONS + 1) + most % MAX_SESSIONS]),
            (1, MAX_KEYS + 1, MAX_KEYS + 1, ["%d keys: " % (MAX_KEYS + 1) + most % MAX_KEYS]),
            (MAX_SESSIONS, 1, MAX_TRANSACTIONS + 1, ["%d transactions: " % (MAX_TRANSACTIONS + 1) + most % MAX_TRANSACTIONS]),
            (beyond, 1, beyond, ["%d sessions: tcc takes at most %d, so make the run shorter" % (beyond, LARGE_SESSIONS),
                                 "%d transactions: " % beyond + most % MAX_TRANSACTIONS])):
        path.write_text("".join("s{0},begin\ns{0},w,k{1},{2}\ns{0},commit\n".format(number % sessions, number % keys, number + 1)
                                for number in range(transactions)))
        yield differs("what is said of %d sessions, %d keys and %d transactions" % (sessions, keys, transactions), wanted, list(warnings(path)))


def unplayed() -> Iterator[Outcome]:
    """The status where nothing was recorded: by a server that doesn't answer in time the round may be played again, else not."""
    from tcc.harness import NoServer, Unplayed, recipe
    asked, kept = argparse.Namespace(output=None, notes=None), signal.getsignal(signal.SIGTERM)
    try:
        for error, wanted in ((NoServer("late"), recipe.UNPLAYED), (Unplayed("too few"), 75), (OSError("full"), 1),
                              (subprocess.SubprocessError("no"), 75), (ImportError("none"), 1)):
            def fails(_, folder, error=error):
                raise error

            said = io.StringIO()
            with contextlib.redirect_stderr(said):
                status = recipe.recorded(fails, asked, "a library", "a package")
            yield differs("status of %r" % error, (wanted, 1), (status, len(said.getvalue().splitlines())))
    finally:
        signal.signal(signal.SIGTERM, kept)


def outcomes(folder: pathlib.Path, library: str, tcc: List[str]) -> Iterator[Outcome]:
    yield from five_clients(folder, tcc)
    yield from limits()
    yield from warned(folder)
    yield from unplayed()
    yield from written(folder, library)
