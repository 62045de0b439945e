#!/usr/bin/env python3
"""What a run of `tcc explain --large`, `watch`, `survey --large` or `check --large` shows at a terminal while it lasts: after two seconds
what it is doing, on one line that is cleared before anything else is written; elsewhere, and where the run is short or its records are
typed, nothing. A check or a survey says how far it is where it reads a file whose size is known, and then by the blocks of sessions
that are done.

    watched.py [--tcc PATH]

The records come in parts, each once the line shows something or some seconds have passed. The last line is `N passed, M failed`.
"""
import argparse
import contextlib
import os
import pathlib
import re
import select
import signal
import subprocess
import sys
import tempfile
import termios
import time

TOP = pathlib.Path(__file__).resolve().parent.parent.parent
sys.path.insert(0, str(TOP / "tests"))
from compared import first_difference, shown  # noqa: E402
from counted import status_of  # noqa: E402

QUIET = 2.0
LONGEST = 1800.0  # what takes longer hangs
# A run that is to be short is done again where it wasn't, as on a busy machine, so often in all.
TURNS = 10
BEGUN = 1 << 20  # bytes: a program that has read so many is at its work
TURN, BETWEEN = 0.3, 0.05  # seconds: a run shows what it does after a quarter of one
LINE = re.compile(rb"(reading records|reading the certificate|tracing reads|deciding|surveying|cutting a slice|judging)(?:, (\d+) %)?, (\d+) s\r")
TYPED = "@typed"  # a word that represents the path of the terminal
ONE = b"a,begin\na,w,x,1\na,commit\n"
STALE = ONE + b"a,begin\na,r,x,0\na,commit\n"
STALE_READ = b"""anomaly: 3 steps, stale-initial-read
session init -> a/1
derived a/1 -> init by x, read by a/2
  session a/1 -> a/2
  against init -> a/2 by x
"""
COUNTED = b"consistent: 1 transactions, 1 sessions\n"
CONSISTENT = COUNTED + b"order: init a/1\n"
NOTHING_FOUND = b"0 contradicted reads of 0, 0 faults\nno read is contradicted, which is no answer: ask tcc explain\n"


def terminal(held, number=None):
    """A terminal that changes no line feed: the end of whoever sits there, and that of the program. If a number is wanted, it is that
    of the terminal, or the first of all where it can't be had."""
    made = [os.openpty()]
    while number is not None and len(made) < 32 and not is_numbered(made[-1], number):
        made.append(os.openpty())
    person, program = next((one for one in made if is_numbered(one, number)), made[0])
    for one in set(made) - {(person, program)}:
        os.close(one[0])
        os.close(one[1])
    held.callback(os.close, person)
    mode = termios.tcgetattr(program)
    mode[1], mode[3] = 0, termios.ICANON
    termios.tcsetattr(program, termios.TCSANOW, mode)
    return person, program


def is_numbered(ends, number):
    """Whether a terminal has this number."""
    return os.minor(os.fstat(ends[1]).st_rdev) == number


def read_until(screen, is_enough, seconds):
    """What a terminal shows, until it is enough or no program has it any more, or so much time has passed."""
    text, end = b"", time.monotonic() + seconds
    while not is_enough(text) and time.monotonic() < end:
        if select.select([screen], [], [], max(0.0, end - time.monotonic()))[0]:
            try:
                more = os.read(screen, 1 << 16)
            except OSError:
                break
            if not more:
                break
            text += more
    return text


def watched(words, parts, number=None):
    """The run at a terminal, of this number if one is wanted, which is both standard output and standard error. Gives what it
    shows, part by part of the records, when it showed something first, and the status."""
    with contextlib.ExitStack() as held:
        person, program = terminal(held, number)
        begun = time.monotonic()
        run = subprocess.Popen(words, stdin=subprocess.PIPE, stdout=program, stderr=program)
        os.close(program)
        showed, first = [], None
        for part in parts[:-1]:
            run.stdin.write(part)
            run.stdin.flush()
            text = read_until(person, LINE.search, LONGEST)
            first = first or time.monotonic() - begun
            showed.append(text)
        run.stdin.write(parts[-1])
        run.stdin.close()
        showed.append(read_until(person, lambda text: False, LONGEST))
        return showed, first, run.wait(LONGEST)


def typed(words, keys, wanted):
    """What is wrong with a long run where these keys are typed at the terminal, or None: nothing stands among them. It reads them by the
    path that is TYPED among its words, or else as its standard input."""
    with contextlib.ExitStack() as held:
        person, program = terminal(held)
        named = [os.ttyname(program) if word == TYPED else word for word in words]
        run = subprocess.Popen(named, stdin=subprocess.DEVNULL if TYPED in words else program, stdout=program, stderr=program)
        os.close(program)
        text = read_until(person, LINE.search, QUIET + 1)
        os.write(person, keys + b"\x04")
        text += read_until(person, lambda text: False, LONGEST)
        run.wait(LONGEST)
        return first_difference("screen", wanted, text)


def screen_after(text):
    """The lines of a screen on which a text was written."""
    lines, column = [bytearray()], 0
    for byte in text:
        if byte == 13:
            column = 0
        elif byte == 10:
            lines.append(bytearray())
            column = 0
        else:
            lines[-1][column:column + 1] = bytes([byte])
            column += 1
    return b"\n".join(bytes(line).rstrip() for line in lines)


def stages_in(text):
    """What is shown to be done, each once, in order."""
    found = [stage.decode() for stage, _, _ in LINE.findall(text)]
    return [stage for before, stage in zip([None] + found, found) if stage != before]


def wrong_with(words, parts, status, wanted, stages, number=None):
    """What a run at a terminal shows otherwise than wanted, or None: the screen in the end, and the stages among others. Without stages
    it is a short one."""
    showed, first, ended = watched(words, parts, number) if stages else short(lambda: watched(words, parts, number))
    text = b"".join(showed)
    if ended != status:
        return "status %d, shown %s" % (ended, shown(text))
    if stages and first < QUIET:
        return "shown after %.1f seconds: %s" % (first, shown(text))
    missing = [stage for stage in stages if stage not in stages_in(text)]
    if missing or (not stages and LINE.search(text)):
        return "not shown: %s; shown %s" % (", ".join(missing), shown(text))
    return first_difference("screen", wanted, screen_after(text))


def short(run):
    """What a run gave that took less than what it may without saying what it does; the last one where none did."""
    for _ in range(TURNS):
        begun = time.monotonic()
        gave = run()
        if time.monotonic() - begun < QUIET:
            break
    return gave


def elsewhere(words):
    """What is wrong with a long run whose errors no terminal shows, or None."""
    run = subprocess.Popen(words, stdin=subprocess.PIPE, stdout=subprocess.PIPE, stderr=subprocess.PIPE)
    time.sleep(QUIET + 1)
    output, errors = run.communicate(ONE, LONGEST)
    return first_difference("output", CONSISTENT, output) or first_difference("standard error", b"", errors)


def large(transactions):
    """Records of a consistent history that takes a while to decide."""
    sessions, keys = 64, 1000
    for number in range(transactions):
        session, key = number % sessions, number * 7 % keys
        yield b"s%d,begin\ns%d,w,k%d,%d\ns%d,commit\n" % (session, session, key, number + 1, session)


def decided(words):
    """What is wrong where it is the decision that takes long, or None."""
    records = b"".join(large(400000))
    showed, _, status = watched(words + ["--json"], [b"", records])
    text = b"".join(showed)
    if status != 0 or "deciding" not in stages_in(text):
        return "status %d, shown %s" % (status, shown(text))
    last = screen_after(text).split(b"\n")
    return None if len(last) == 2 and last[0].startswith(b'{"answer":"consistent"') and not last[1] else "screen: %s" % shown(text[-200:])


def surveyed(words):
    """What is wrong where it is the survey that takes long, or None."""
    with tempfile.TemporaryDirectory() as made:
        history = pathlib.Path(made) / "history"
        history.write_bytes(b"".join(large(400000)))
        text, status = held_up([*words, history])
    if status != 0 or stages_in(text) != ["reading records", "surveying"]:
        return "status %d, shown %s" % (status, shown(text))
    return wrong_reading(text) or first_difference("screen", NOTHING_FOUND, screen_after(text))


def sliced(words):
    """What is wrong where there are many records to cut a slice from, or None. The records are within the small limits, and a million of
    their operations are of no use to the anomaly. The slice is cut by the graph that is there, so that may be too short to be shown."""
    with tempfile.TemporaryDirectory() as made:
        history, certificate, piece = (pathlib.Path(made) / name for name in ("history", "certificate", "piece"))
        history.write_bytes((b"b,begin\n" + 256 * b"b,r,k,0\n" + b"b,commit\n") * 4000 + STALE)
        text, status = held_up([*words, "--certificate", certificate, "--slice", piece, history])
        kept = piece.read_bytes()
    if status != 1 or "deciding" not in stages_in(text):
        return "status %d, shown %s" % (status, shown(text))
    return first_difference("screen", STALE_READ, screen_after(text)) or first_difference("slice", STALE, kept)


def shared(sessions, rounds, keys):
    """Records of a history in which each session writes keys that others write and read: so each block of sessions has writers that may
    contradict a read, though none does. Before them there are aborted transactions, which take a while to read."""
    latest = [0] * keys
    yield (b"s0,begin\n" + b"s0,r,k0,0\n" * 250 + b"s0,abort\n") * 4000
    for number in range(sessions * rounds):
        session, read, written = number % sessions, number * 7 % keys, number * 11 % keys
        yield b"s%d,begin\ns%d,r,k%d,%d\n" % (session, session, read, latest[read])
        latest[written] = number + 1
        yield b"s%d,w,k%d,%d\ns%d,commit\n" % (session, written, number + 1, session)


def held_up(words):
    """What a run shows at a terminal, and its status, where it is held up once it is reading. Then it is held up again and again
    for longer than a turn, so that it shows each time what it does."""
    with contextlib.ExitStack() as held:
        person, program = terminal(held)
        run = subprocess.Popen(words, stdin=subprocess.DEVNULL, stdout=program, stderr=program)
        os.close(program)
        text, seconds = b"", QUIET
        while run.poll() is None and has_read(run.pid) < BEGUN:
            time.sleep(0.01)
        while run.poll() is None:
            run.send_signal(signal.SIGSTOP)
            time.sleep(seconds)
            run.send_signal(signal.SIGCONT)
            text += read_until(person, lambda text: False, BETWEEN)
            seconds = TURN
        return text + read_until(person, lambda text: False, LONGEST), run.wait(LONGEST)


def surveyed_by_blocks(words):
    """What is wrong with a survey of many blocks of sessions, or None: that it reads a file, and how far it is, which only grows. One
    read is contradicted: the first session in the end doesn't read what it wrote."""
    with tempfile.TemporaryDirectory() as made:
        history = pathlib.Path(made) / "history"
        history.write_bytes(b"".join(shared(2048, 20, 64)) + b"s0,begin\ns0,r,k0,0\ns0,commit\n")
        plain = subprocess.run([*words, history], stdout=subprocess.PIPE, stderr=subprocess.STDOUT)
        text, status = held_up([*words, history])
    if status != plain.returncode or stages_in(text) != ["reading records", "surveying"]:
        return "status %d, shown %s" % (status, shown(text))
    return wrong_growth(text, "surveying", 50) or first_difference("screen", plain.stdout, screen_after(text))


def checked_by_blocks(tcc):
    """What is wrong with a check of an order of many blocks of sessions, or None: how far it is, which only grows."""
    with tempfile.TemporaryDirectory() as made:
        history, certificate = pathlib.Path(made) / "history", pathlib.Path(made) / "certificate"
        history.write_bytes(b"".join(shared(4096, 40, 64)))
        explain = [tcc, "explain", "--large", "--quiet", "--certificate", certificate, history]
        subprocess.run(explain, stdout=subprocess.DEVNULL, check=True)
        text, status = held_up([tcc, "check", "--large", history, certificate])
    if status != 0 or "judging" not in stages_in(text):
        return "status %d, shown %s" % (status, shown(text))
    return wrong_growth(text, "judging", 50) or first_difference("screen", b"accepted: order\n", screen_after(text))


def wrong_reading(text):
    """What is wrong with how much of the records is shown to be read, or None. It shows always, never falls, and isn't all from the first on."""
    told = [percent for stage, percent, _ in LINE.findall(text) if stage == b"reading records"]
    far = [int(percent) for percent in told if percent]
    return None if far and len(far) == len(told) and far == sorted(far) and far[0] < 100 else "how much is read: %s" % told


def wrong_growth(text, stage, least):
    """What is wrong with how far a stage is shown to be, or None. It shows at times, then always, never falls, grows, and comes to
    at least that many hundredths of all, yet never to all."""
    told = [percent for one, percent, _ in LINE.findall(text) if one.decode() == stage]
    far = [int(percent) for percent in told if percent]
    if any(told[:len(told) - len(far)]) or far != sorted(far):
        return "how far falls: %s" % told
    return None if len(set(far)) > 1 and least <= far[-1] < 100 else "how far doesn't grow: %s" % told


def check_at_terminal(words, pipe, parts):
    """What a check at a terminal shows, and its status. A pipe that it reads gets its parts each once the line shows something; without
    parts the check is held up for a while once it is reading."""
    with contextlib.ExitStack() as held:
        person, program = terminal(held)
        run = subprocess.Popen(words, stdin=subprocess.DEVNULL, stdout=program, stderr=program)
        os.close(program)
        text = b""
        if pipe:
            with open(pipe, "wb", buffering=0) as sent:
                for part in parts[:-1]:
                    sent.write(part)
                    text += read_until(person, LINE.search, LONGEST)
                sent.write(parts[-1])
        elif parts is None:
            while run.poll() is None and has_read(run.pid) < BEGUN:
                time.sleep(0.01)
            run.send_signal(signal.SIGSTOP)
            time.sleep(QUIET)
            run.send_signal(signal.SIGCONT)
        text += read_until(person, lambda text: False, LONGEST)
        return text, run.wait(LONGEST)


def has_read(process):
    """How many bytes a process has read, of which most are those of its files."""
    try:
        return int(re.search(r"rchar: (\d+)", pathlib.Path("/proc/%d/io" % process).read_text()).group(1))
    except OSError:
        return 0


def wrong_check(words, pipe, parts, stage, far):
    """What a check of an order at a terminal shows otherwise than wanted, or None: that it is at this stage, and whether it says how far."""
    text, status = check_at_terminal(words, pipe, parts)
    told = [bool(percent) for one, percent, _ in LINE.findall(text) if one.decode() == stage]
    if status != 0 or not told or set(told) != {far}:
        return "status %d, shown %s" % (status, shown(text))
    return (wrong_reading(text) if far else None) or first_difference("screen", b"accepted: order\n", screen_after(text))


def checks(tcc):
    """Each check by its name, with what is wrong, or None."""
    with tempfile.TemporaryDirectory() as made:
        folder = pathlib.Path(made)
        history, certificate, pipe = folder / "history", folder / "certificate", folder / "pipe"
        explain, check = [tcc, "explain", "--large", "--quiet", "--certificate", certificate, history], [tcc, "check", "--large"]
        history.write_bytes(ONE)
        subprocess.run(explain, stdout=subprocess.DEVNULL, check=True)
        os.mkfifo(pipe)
        yield "a long check", wrong_check([*check, pipe, certificate], pipe, [b"", ONE], "reading records", False)
        text = certificate.read_bytes()
        yield "a long certificate", wrong_check([*check, history, pipe], pipe, [text[:20], text[20:]], "reading the certificate", False)
        yield "a long check of typed records", typed([*check, TYPED, certificate], ONE, b"accepted: order\n")
        yield "a long check of a typed certificate", typed([*check, history, TYPED], text, b"accepted: order\n")
        yield "a short check", first_difference(
            "screen", b"accepted: order\n", short(lambda: check_at_terminal([*check, history, certificate], None, []))[0])
        # five million reads, which take a second or two
        history.write_bytes((b"a,begin\n" + b"a,r,k,0\n" * 250 + b"a,commit\n") * 20000)
        subprocess.run(explain, stdout=subprocess.DEVNULL, check=True)
        yield "a check of many records", wrong_check([*check, history, certificate], None, None, "reading records", True)


def outcomes(tcc):
    """Each run by its name, with what is wrong, or None."""
    words = [tcc, "explain", "--large"]
    reading = ["reading records"]
    yield "a long run", wrong_with(words, [b"", ONE], 0, CONSISTENT, reading)
    yield "a long run that ends by a fault", wrong_with(
        words, [ONE, b"a,commit\n"], 3,
        b'row 4: "a,commit": expected begin first, since no transaction of the session is begun\nrow 4: NotBegun\n', reading)
    yield "a seal of a long run", wrong_with(words, [ONE, b"seal\n", b""], 0, CONSISTENT, reading)
    yield "a short run", wrong_with(words, [ONE], 0, CONSISTENT, [])
    yield "a long run at the terminal of number 1", wrong_with(words, [b"", ONE], 0, CONSISTENT, reading, 1)
    yield "a long run at no terminal", elsewhere(words)
    yield "a long run of typed records", typed(words, ONE, CONSISTENT)
    yield "a long run of records typed as a file", typed([*words, TYPED], ONE, CONSISTENT)
    yield "a long decision", decided(words)
    yield "a slice of many records", sliced(words)
    yield "a seal of a long quiet run", wrong_with([*words, "--quiet"], [ONE, b"seal\n", b""], 0, COUNTED, reading)
    watch = [tcc, "watch"]
    yield "a seal of a long watch", wrong_with(watch, [ONE, b"seal\n", b""], 0, COUNTED, reading)
    yield "a short watch", wrong_with(watch, [ONE], 0, COUNTED, [])
    yield "a long watch of typed records", typed(watch, ONE, COUNTED)
    survey = [tcc, "survey", "--large"]
    yield "a long reading of a survey", wrong_with(survey, [b"", ONE], 0, NOTHING_FOUND, reading)
    yield "a long survey", surveyed(survey)
    yield "a survey of many blocks of sessions", surveyed_by_blocks(survey)
    yield "a long survey of typed records", typed(survey, ONE, NOTHING_FOUND)
    yield "a short survey", wrong_with(survey, [ONE], 0, NOTHING_FOUND, [])
    yield from checks(tcc)
    yield "a check of many blocks of sessions", checked_by_blocks(tcc)


def main():
    ask = argparse.ArgumentParser(description="What a run of explain --large shows at a terminal.")
    ask.add_argument("--tcc", default=str(TOP / "crates/tcc/out/tcc"), help="another program than the built one")
    return status_of(outcomes(ask.parse_args().tcc))


if __name__ == "__main__":
    sys.exit(main())
