#!/usr/bin/env python3
"""Runs a built `tcc` on records that somebody picked to slow it down, or to make it take memory.

    run.py [--tcc PATH]

Values of one key that hash alike, and names of keys and sessions that do, may take no more than some times the processor time of as
many others, and have the same answers. Long records, and many faults, may take no more than some times their bytes of memory, and a
long answer no more than some times its own. All about an answer may take no more than some times the memory of the answer.
Histories that have many of what some loop goes through (`histories.py`) may take no more than ten times the processor time of an
ordinary one of as many bytes, and so may the check of what is answered for some. Unknown outcomes before many seals may take no more
than one and a half times the processor time of commits, and answers at many seals no more than ten times that of one answer without
seals. A certificate of many links, steps or runs, or of a walk that goes round, may take no more than some times its bytes of memory.
The values and names are made by `alike.c`, which needs a C compiler on the path (`cc` or `clang`); where there is none it says so and
has failed. Each difference is one line; the last line is `N passed, M failed`.
"""
import itertools
import os
import pathlib
import shutil
import subprocess
import sys
import tempfile

HERE = pathlib.Path(__file__).resolve().parent
TOP = HERE.parent.parent
sys.path.insert(0, str(TOP / "tests"))
from arguments import status_on_tcc  # noqa: E402
from compared import first_difference, shown  # noqa: E402
from histories import claims, gathered, hard, hard_to_check, ordinary, records_of, settled, walked  # noqa: E402

WRITERS, WRITES = 400, 250
KEYS, SESSIONS = 1024, 64
# So many times the processor time of other values, and so many seconds beside it, may those that hash alike take.
TIMES, BESIDE = 3, 0.5
MEGABYTE, LONG = 1 << 20, 16
# So many times the processor time of an ordinary history, and so many seconds beside it, may a hard one take.
TIMES_ORDINARY, BESIDE_ORDINARY = 10, 4.0
# So many times the processor time of the same with commits, and so many seconds beside it, may unknown outcomes take.
TIMES_COMMITTED, BESIDE_COMMITTED = 1.5, 0.3
# So many transactions of two sessions in turn, with a seal after each so many, and where the value comes for which a third one waits.
TURNS, SEALED, WAITED = 66_000, 100, 1_000
# So many times the processor time of one answer, and so many seconds beside it, may answers at all these seals take.
TIMES_ONE, BESIDE_ONE = 10, 1.0
# The bytes of memory that a long answer may take for each of its own.
BESIDE_ANSWER = 4
# The bytes of memory that the check of a certificate may take for each byte of it.
BESIDE_CERTIFICATE = 4
# So many times the memory of an answer as JSON may all about it take.
ALL_BESIDE_JSON = 1.5
# So much memory may there be beside what goes by the bytes of the records.
SPARE = 24 << 20


def transaction(session, operations):
    """The records of one that commits."""
    return "".join(["%s,begin\n" % session, *("%s,%s\n" % (session, one) for one in operations), "%s,commit\n" % session])


def one_key(values):
    """Session a writes all values at x, b reads the last one of each of its transactions; and the answer: nothing is read
    that b knew to be overwritten, so those of a come first."""
    parts = [values[n * WRITES:(n + 1) * WRITES] for n in range(WRITERS)]
    writes = (transaction("a", ("w,x,%s" % value for value in part)) for part in parts)
    reads = (transaction("b", ["r,x,%s" % part[-1]]) for part in parts)
    order = ["init"] + ["%s/%d" % (session, n) for session in "ab" for n in range(1, WRITERS + 1)]
    said = "consistent: %d transactions, 2 sessions\norder: %s\n" % (2 * WRITERS, " ".join(order))
    return "".join(writes) + "".join(reads), said


def many_names(names):
    """Sessions of these names, each of which writes its part of the keys of these names; and the answer: they say nothing
    of one another, so they come by name."""
    each = KEYS // SESSIONS
    sessions = names[:SESSIONS]
    writes = (transaction(session, ("w,%s,1" % key for key in names[n * each:(n + 1) * each]))
              for n, session in enumerate(sessions))
    order = " ".join("%s/1" % session for session in sorted(sessions, key=str.encode))
    return "".join(writes), "consistent: %d transactions, %d sessions\norder: init %s\n" % (SESSIONS, SESSIONS, order)


def run(tcc, words, records):
    """The status, the standard output, the seconds of processor time, and the most bytes of memory at a time, for records that come
    in pieces. What this process holds itself counts as the program's memory until that begins."""
    with tempfile.TemporaryFile() as given, tempfile.TemporaryFile() as said:
        given.writelines(records)
        given.seek(0)
        running = subprocess.Popen([*tcc, *words], stdin=given, stdout=said, stderr=subprocess.DEVNULL)
        _, status, used = os.wait4(running.pid, 0)
        running.returncode = os.WEXITSTATUS(status) if os.WIFEXITED(status) else -os.WTERMSIG(status)
        said.seek(0)
        return running.returncode, said.read(), used.ru_utime + used.ru_stime, used.ru_maxrss << 10


def slower(tcc, history, alike, others):
    """What is wrong with the answers for what hashes alike, or with their time beside that of others; None if nothing is."""
    seconds = []
    for picked in (others, alike):
        records, wanted = history(picked)
        status, said, took, _ = run(tcc, ["explain"], [records.encode()])
        wrong = first_difference("standard output", wanted.encode(), said)
        if status != 0 or wrong:
            return wrong or "status %d" % status
        seconds.append(took)
    most = TIMES * seconds[0] + BESIDE
    return "%.2f seconds, and %.2f for others" % (seconds[1], seconds[0]) if seconds[1] > most else None


def all_of(byte):
    """A megabyte of this byte, so many times."""
    return itertools.repeat(byte * MEGABYTE, LONG)


def long_field():
    """One record of three fields, the first of which is long."""
    return itertools.chain(all_of(b"a"), [b",b,c"])


def reads_of_nothing():
    """A thousand transactions of 250 reads each, of values that nobody wrote."""
    return (transaction("a", ["r,x,%d" % (n * 250 + k) for k in range(1, 251)]).encode() for n in range(1000))


def one_after_the_other():
    """Many sessions write a key, and who has observed all of them then reads one write of another session after the other."""
    return [records_of(gathered(4000, 20000)).encode()]


def long_walks():
    """An anomaly of many links, each with a long walk."""
    return [records_of(walked(700, 700)).encode()]


# Words, records, the status, how the answer begins, and how many bytes of memory there may be for each byte of records.
LARGE = [
    ("commas", ["explain"], lambda: all_of(b","), 3, b"row 1: FieldCount\n", 26),
    ("a long field", ["explain"], long_field, 3, b"row 1: FieldCount\n", 4),
    ("empty lines", ["explain"], lambda: all_of(b"\n"), 0, b"consistent: 0 transactions, 0 sessions\norder: init\n", 0),
    ("faults", ["explain"], reads_of_nothing, 2, b"unresolved: 250000 faults\n", 16),
    ("one after the other", ["explain", "--large"], one_after_the_other, 0, b"consistent: 44016 transactions, 4002 sessions\n", 40),
    ("faults as JSON", ["explain", "--json"], reads_of_nothing, 2, b'{"answer":"unresolved","faults":[', 20),
]


def larger(tcc, words, records, status, begins, each):
    """What is wrong with the answer, or with the memory that it took; None if nothing is."""
    got, said, _, most = run(tcc, words, records())
    if got != status or not said.startswith(begins):
        return "status %d, standard output %s" % (got, shown(said))
    size = sum(map(len, records()))
    return "%d bytes of memory for %d bytes" % (most, size) if most > SPARE + each * size else None


def longer(tcc):
    """What is wrong with an answer of many long walks, as JSON, or with the memory that it took; None if nothing is."""
    status, said, _, most = run(tcc, ["explain", "--large", "--json"], long_walks())
    if status != 1 or len(said) < LONG << 20:
        return "status %d, %d bytes of standard output" % (status, len(said))
    return "%d bytes of memory for an answer of %d" % (most, len(said)) if most > SPARE + BESIDE_ANSWER * len(said) else None


# Words and records whose answer is long, with its status and the key of its list.
FULL = [
    ("all about faults", [], reads_of_nothing, 2, b'"faults":['),
    ("all about long walks", ["--large"], long_walks, 1, b'"cycle":['),
]


def fuller(tcc, words, records, wanted, key):
    """What is wrong with all about an answer, or with its memory beside that of the answer; None if nothing is."""
    most = []
    for asked in ("--json", "--full"):
        status, said, _, memory = run(tcc, ["explain", asked, *words], records())
        if status != wanted or key not in said[:1 << 10]:
            return "%s: status %d, standard output %s" % (asked, status, shown(said[:200]))
        most.append(memory)
    return "%d bytes of memory, and %d as JSON" % (most[1], most[0]) if most[1] > SPARE + ALL_BESIDE_JSON * most[0] else None


def harder(tcc, one):
    """What is wrong with the answer for a hard history, or with its time beside that of an ordinary one; None if nothing is."""
    # an ordinary one of as many bytes has more transactions, so it may be past the small limits
    _, _, usual, _ = run(tcc, [*one.words, *([] if "--large" in one.words else ["--large"])], [ordinary(len(one.records)).encode()])
    got, said, took, _ = run(tcc, one.words, [one.records.encode()])
    if got != (0 if one.begins.startswith(("consistent", "0 contradicted")) else 1) or not said.startswith(one.begins.encode()):
        return "status %d, standard output %s" % (got, shown(said[:200]))
    most = TIMES_ORDINARY * usual + BESIDE_ORDINARY
    return "%.2f seconds, and %.2f for an ordinary one" % (took, usual) if took > most else None


def slowed(tcc, one):
    """What is wrong with the answer to unknown outcomes, or with its time beside that of the same with commits; None if nothing is."""
    _, _, usual, _ = run(tcc, one.words, [one.committed.encode()])
    got, said, took, _ = run(tcc, one.words, [one.records.encode()])
    if got != 0 or not said.startswith(one.begins.encode()):
        return "status %d, standard output %s" % (got, shown(said[:200]))
    most = TIMES_COMMITTED * usual + BESIDE_COMMITTED
    return "%.2f seconds, and %.2f with commits" % (took, usual) if took > most else None


def certified(tcc, records, folder):
    """The paths of a history and of the certificate of its answer."""
    history, certificate = (os.path.join(folder, name) for name in ("history", "certificate"))
    pathlib.Path(history).write_text(records)
    run(tcc, ["explain", "--large", "--certificate", certificate, history], [])
    return history, certificate


def checked(tcc, records):
    """What is wrong with the check of an answer, or with its time beside that of an ordinary one; None if nothing is."""
    seconds = []
    for each in (ordinary(len(records)), records):
        with tempfile.TemporaryDirectory() as folder:
            status, said, took, _ = run(tcc, ["check", "--large", *certified(tcc, each, folder)], [])
        if status != 0 or not said.startswith(b"accepted: "):
            return "status %d, standard output %s" % (status, shown(said[:200]))
        seconds.append(took)
    most = TIMES_ORDINARY * seconds[0] + BESIDE_ORDINARY
    return "%.2f seconds, and %.2f for an ordinary one" % (seconds[1], seconds[0]) if seconds[1] > most else None


def in_turn(is_sealed, waits):
    """The records of two sessions that read from each other in turn, perhaps with seals. A session that waits read a value at the beginning
    that comes only after a thousand transactions."""
    if waits:
        yield transaction("w", ["r,z,1"]).encode()
    for number in range(1, TURNS + 1):
        session, other = "pq" if number % 2 else "qp"
        operations = ["r,%s,%d" % (other, number - 1), "w,%s,%d" % (session, number)]
        yield transaction(session, operations + (["w,z,1"] if waits and number == WAITED else [])).encode()
        if is_sealed and number % SEALED == 0:
            yield b"seal\n"


def answers_in_turn(waits):
    """What is answered at these seals: while the session waits its read is one of a value that nobody wrote."""
    for number in range(SEALED, TURNS + 1, SEALED):
        if waits and number < WAITED:
            yield b"unresolved: 1 faults\nThinAir w/1 op 1 z 1\n"
        else:
            yield b"consistent: %d transactions, %d sessions\n" % (number + waits, 2 + waits)


# Words that answer at each seal, and whether a session waits.
WATCHED = [
    ("a watch", ["watch"], False),
    ("a watch while a session waits", ["watch"], True),
    ("quiet answers", ["explain", "--large", "--quiet"], False),
]


def watched(tcc, words, waits):
    """What is wrong with answers at many seals, or with their time beside that of one answer; None if nothing is."""
    _, _, usual, _ = run(tcc, ["explain", "--large", "--quiet"], in_turn(False, waits))
    status, said, took, _ = run(tcc, words, in_turn(True, waits))
    wrong = first_difference("standard output", b"".join(answers_in_turn(waits)), said)
    if status != 0 or wrong:
        return wrong or "status %d" % status
    most = TIMES_ONE * usual + BESIDE_ONE
    return "%.2f seconds, and %.2f for one answer" % (took, usual) if took > most else None


def claimed(tcc, one):
    """What is wrong with the check of a long certificate, or with its memory; None if nothing is."""
    with tempfile.TemporaryDirectory() as folder:
        history, certificate = (pathlib.Path(folder, name) for name in ("history", "certificate"))
        history.write_text(one.records)
        with certificate.open("w") as file:
            file.writelines(one.text)
        size = certificate.stat().st_size
        status, said, _, most = run(tcc, ["check", "--large", str(history), str(certificate)], [])
    if status != (0 if one.begins.startswith("accepted") else 7) or not said.startswith(one.begins.encode()):
        return "status %d, standard output %s" % (status, shown(said[:200]))
    return "%d bytes of memory for %d bytes" % (most, size) if most > SPARE + BESIDE_CERTIFICATE * size else None


def outcomes(tcc):
    """Each test, with what is wrong, or None. Those of memory come first: what this process holds counts."""
    for one in claims(LONG << 20):
        yield one.name, claimed(tcc, one)
    for name, *large in LARGE:
        yield name, larger(tcc, *large)
    yield "long walks as JSON", longer(tcc)
    for name, *full in FULL:
        yield name, fuller(tcc, *full)
    for one in hard():
        yield one.name, harder(tcc, one)
    for one in settled():
        yield one.name, slowed(tcc, one)
    for name, *asked in WATCHED:
        yield name, watched(tcc, *asked)
    for name, records in hard_to_check():
        yield "checked: " + name, checked(tcc, records)
    compiler = shutil.which("cc") or shutil.which("clang")
    if compiler is None:
        yield "alike", "no C compiler on the path"
    else:
        with tempfile.TemporaryDirectory() as folder:
            alike = os.path.join(folder, "alike")
            subprocess.run([compiler, "-O2", "-o", alike, str(HERE / "alike.c")], check=True)
            count = WRITERS * WRITES
            values = subprocess.check_output([alike, "values", str(count)], text=True).split()
            names = subprocess.check_output([alike, "names", str(KEYS)], text=True).split()
        yield "values", slower(tcc, one_key, values, [str(value) for value in range(1, count + 1)])
        yield "names", slower(tcc, many_names, names, ["k%d" % n for n in range(KEYS)])


def main():
    return status_on_tcc("Runs a built tcc on records that were picked to slow it down.", outcomes)


if __name__ == "__main__":
    sys.exit(main())
