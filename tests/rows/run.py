#!/usr/bin/env python3
"""Runs a built `tcc` on the cases of this folder and compares what it does, byte by byte.

    run.py [--tcc PATH] [--only TEXT] [--small BYTES] [--workers N [--searched] | --checker [PATH]] [NAME ..]

PATH is split into words, so that "env X=1 tcc" will do. Each difference is one line; the last line is `N passed, M failed`.
README.md says what a case holds. With --workers each run of `explain` gets that number of workers, unless it says one itself, and
has to do the same as without it. With --searched only those are done that get it and show an anomaly. They get a certificate too,
where they have none and are within the default limits: for its tables workers search, and without it an answer is found as those of
large histories are.
With --checker the runs of `check` alone are done, by the program that has nothing else, called `tcc` by a link. With --small those
are left out that read or write a text of more bytes, and those that have to end within some seconds.
"""
import concurrent.futures
import contextlib
import functools
import json
import os
import pathlib
import string
import subprocess
import sys
import tempfile
import termios
import threading

HERE = pathlib.Path(__file__).resolve().parent
TOP = HERE.parent.parent
sys.path.insert(0, str(TOP / "tests"))
from arguments import ask_for_tcc  # noqa: E402
from compared import first_difference, shown  # noqa: E402
from counted import status_of  # noqa: E402
from limits import limits  # noqa: E402
from machine import processors  # noqa: E402

CASES = HERE / "cases"
CHECKER = str(TOP / "crates/tcc_checker/out/tcc_checker")
NEEDED = {"about", "arguments", "status"}
FIELDS = NEEDED | {"input", "input_from", "typed", "cut", "closed", "files", "output", "output_to", "taken", "errors",
                   "errors_to", "watched", "certificate", "checked", "slice", "explained", "seconds", "large"}
COMMAND_LINE = 64
# With these a run has a certificate already, takes none, or may find its answer without the tables of one.
WITHOUT_TABLES = {"--certificate", "--full", "--large"}
# What a rule may name beside the names of the parts around it: the limits of an input among them.
COMMON = {"__builtins__": {}, "min": min, "max": max, **limits()}


@functools.lru_cache(maxsize=None)
def compiled(rule):
    """A rule that is an expression, which may be asked for many times."""
    return compile(rule, rule, "eval")


def value(rule, known):
    """The value of a rule: a number, or an expression over the names known."""
    return eval(compiled(rule), COMMON, known) if isinstance(rule, str) else rule


class Ruled(string.Formatter):
    """Fills in texts in which `{rule}` and `{rule:form}` represent values."""

    def get_field(self, rule, arguments, known):
        return value(rule, known), rule


def text(parts, known=None):
    """The bytes of a list of parts, where names have the values known; with none, braces are braces."""
    return b"".join(part(p, known) for p in parts)


def part(p, known=None):
    """The bytes of one part, of the kinds that README.md has."""
    if isinstance(p, str):
        return filled(p, known).encode() + b"\n"
    if "rule" in p:
        return filled(p["rule"], known or {}).encode() + b"\n"
    if "file" in p:
        return (TOP / p["file"]).read_bytes()
    if "number" in p:
        return str(value(p["number"], known or {})).encode()
    if "bytes" in p:
        return filled(p["bytes"], known).encode("latin-1")
    if "table" in p:
        return table(p["table"], p["rows"], p["columns"], p.get("where", {}))
    if "when" in p:
        return text(p["of"], known) if value(p["when"], known) else b""
    if "times" in p:
        return text(p["of"], known) * value(p["times"], known or {})
    if "repeat" in p and not any(map(is_ruled, p["of"])):
        return text(p["of"]) * value(p["repeat"], known or {})
    return b"".join(text(p["of"], {**(known or {}), **names}) for names in repeated(p, known or {}))


def is_ruled(p):
    """Whether the part holds a rule or another repeated part."""
    return "{" in p if isinstance(p, str) else "{" in p.get("bytes", "") or "of" in p


def filled(line, known):
    """A line in which rules are replaced by their values, where names are known."""
    return line if known is None else Ruled().vformat(line, (), known)


def repeated(p, known):
    """What names each time of a repeated part has."""
    if "repeat" in p:
        first = value(p.get("from", 1), known)
        return ({"i": i, "before": i - 1} for i in range(first, first + value(p["repeat"], known)))
    by = p.get("by", 1)
    last = value(p["to"], known)
    return ({p["each"]: i} for i in range(value(p["from"], known), last + (1 if by > 0 else -1), by))


def table(cell, rows, columns, where):
    """Lines of numbers, the cells by a rule over the names `row` and `column`, from 0, and those of `where`."""
    for name, rule in reversed(where.items()):
        cell = "(lambda %s: %s)(%s)" % (name, cell, rule)
    at = value("lambda row, column: " + cell, {})
    lines = (" ".join(str(at(row, column)) for column in range(columns)) for row in range(rows))
    return "".join(line + "\n" for line in lines).encode()


def runs(case):
    """The runs of a case, each with what tells it apart: itself, or each of its `runs` over what they share."""
    shared = {field: value for field, value in case.items() if field != "runs"}
    for number, run in enumerate(case.get("runs", [{}]), 1):
        which = "" if run == {} else " (run %d)" % number
        whole = {**shared, **run, "files": {**shared.get("files", {}), **run.get("files", {})}}
        odd = (set(whole) - FIELDS) | (NEEDED - set(whole))
        if odd:
            raise ValueError("fields unknown or missing: %s" % ", ".join(sorted(odd)))
        if isinstance(whole.get("cut"), list):
            first, last = whole["cut"]
            for n in range(first, last + 1):
                yield " (cut after %d bytes)" % n, {**whole, "cut": n}
        else:
            yield which, whole
        if "large" in whole:
            yield which + " (large)", enlarged(whole, **whole["large"])


def enlarged(run, more, **others):
    """The run with `--large`, on its history with more records after it; where it wants something else, with that."""
    command, *words = run["arguments"]
    files = {name: parts + more for name, parts in run["files"].items()}
    history = {"files": files, "input": run["input"] + more} if "input" in run else {"files": files}
    return {**run, "arguments": [command, "--large", *words], **history, **others}


def argument(word, folder):
    """The bytes of a word of the command line: a part, or a text."""
    return part(word) if isinstance(word, dict) else os.fsencode(path_of(word, folder))


def path_of(word, folder):
    """A path: of `@NAME` that of a file in the folder."""
    return os.path.join(folder, word[1:]) if word.startswith("@") else word


def stream_difference(what, wanted, got):
    """What a stream has otherwise than wanted, which may be any text at all, or None."""
    if wanted == "some":
        return None if got else what + ": wanted a text, got none"
    return first_difference(what, text(wanted), got)


def finished(words, run, folder, seconds):
    """The run of the program, once it has ended; what it printed is in the folder's file `standard-output`."""
    with contextlib.ExitStack() as held:
        if "taken" in run:
            out = broken_off(run["taken"], held)
        else:
            output = path_of(run.get("output_to", os.path.join(folder, "standard-output")), folder)
            out = held.enter_context(open(output, "wb"))
        notes = held.enter_context(open(path_of(run["errors_to"], folder), "wb")) if "errors_to" in run else subprocess.PIPE
        streams = {"stdout": out, "stderr": notes, "timeout": seconds, **given(run, folder, held)}
        if "closed" in run:
            closing = " ".join("%d>&-" % stream for stream in run["closed"])
            words = ["sh", "-c", 'exec "$@" ' + closing, "sh", *words]
        if "watched" not in run:
            return subprocess.run(words, **streams)
        screen, streams["stderr"] = terminal(held)
        done = subprocess.run(words, **streams)
        done.stderr = b"".join(seen_on(screen))
        return done


def given(run, folder, held):
    """Where standard input comes from."""
    if "input_from" in run:
        file = os.open(path_of(run["input_from"], folder), os.O_RDONLY)
        held.callback(os.close, file)
        return {"stdin": file}
    if "typed" in run:
        keys, typed = terminal(held)
        os.write(keys, text(run["typed"]))
        return {"stdin": typed}
    return {"input": text(run.get("input", []))[: run.get("cut")]}


def broken_off(taken, held):
    """A pipe to write to, whose reader takes this many bytes and then closes it."""
    reading, writing = os.pipe()

    def take():
        left = taken
        while left and (got := os.read(reading, left)):
            left -= len(got)
        os.close(reading)

    taker = threading.Thread(target=take)
    taker.start()
    if not taken:
        taker.join()
    held.callback(taker.join)
    held.callback(os.close, writing)
    return writing


def terminal(held):
    """A terminal that shows no key and changes no line feed: the end of whoever sits there, and that of the program."""
    person, program = os.openpty()
    held.callback(os.close, person)
    held.callback(os.close, program)
    os.set_blocking(person, False)
    mode = termios.tcgetattr(program)
    mode[1], mode[3] = 0, termios.ICANON
    termios.tcsetattr(program, termios.TCSANOW, mode)
    return person, program


def seen_on(screen):
    """What a terminal has shown, part by part: the system may forward one write after the other."""
    with contextlib.suppress(BlockingIOError):
        while True:
            yield os.read(screen, 1 << 16)


def is_searched(run):
    """Whether the run shows an anomaly, so that workers search for one of least cost where its certificate is wanted."""
    wanted = run.get("output", [])
    return wanted != "some" and b"anomaly" in text(wanted)


def by_workers(run, workers, searched):
    """The run by this many workers, where it is an explanation and doesn't say the number itself; else as it is. Where searches alone are
    wanted, it is None if it is none, and else has a certificate."""
    command, *others = run["arguments"] or [""]
    says = {word.split("=")[0] for word in others if isinstance(word, str)}
    if command != "explain" or says & {"--workers", "--help", "-h"} or run["status"] == COMMAND_LINE:
        return None if searched else run
    if searched and not is_searched(run):
        return None
    certificate = ["--certificate", os.devnull] if searched and not says & WITHOUT_TABLES else []
    return {**run, "arguments": [command, "--workers", str(workers), *certificate, *others]}


def of_check(run):
    """The run, where it is one of `check`; else None."""
    return run if run["arguments"][:1] == ["check"] else None


def of_small(run, most, picked):
    """The run, where it is picked, and none of its texts has more bytes; else None."""
    parts = [run.get("input", []), run.get("output", []), *run["files"].values()]
    is_small = "seconds" not in run and all(one == "some" or len(text(one)) <= most for one in parts)
    return picked(run) if is_small else None


def difference(tcc, run, seconds):
    """What the program did otherwise than wanted, or None."""
    seconds = run.get("seconds", seconds)
    with tempfile.TemporaryDirectory() as folder:
        for name, parts in run["files"].items():
            if "@" + name in run["arguments"] + [run.get("input_from")]:
                pathlib.Path(folder, name).write_bytes(text(parts))
        words = [os.fsencode(word) for word in tcc] + [argument(word, folder) for word in run["arguments"]]
        try:
            done = finished(words, run, folder, seconds)
        except subprocess.TimeoutExpired:
            return "no end after %g seconds" % seconds
        except OSError as error:
            return "cannot be run: %s" % error
        output = b"" if {"output_to", "taken"} & set(run) else pathlib.Path(folder, "standard-output").read_bytes()
        if done.returncode != run["status"]:
            return "status: wanted %d, got %d, output %s, standard error %s" % (
                run["status"], done.returncode, shown(output), shown(done.stderr or b""))
        errors = (done.stderr or b"").replace(os.fsencode(os.path.join(folder, "")), b"@")
        wrong = next(filter(None, compared(run, output, errors, pathlib.Path(folder))), None)
        return wrong or checked(tcc, run, folder, seconds) or explained(tcc, run, folder, seconds)


def checked(tcc, run, folder, seconds):
    """What `check` of the input and the certificate that was written says otherwise than wanted, or None."""
    if "checked" not in run:
        return None
    history = pathlib.Path(folder, "history-to-check")
    history.write_bytes(text(run["input"]))
    large = ["--large"] if "--large" in run["arguments"] else []
    words = [*tcc, "check", *large, history, pathlib.Path(folder, "certificate")]
    try:
        done = subprocess.run(words, capture_output=True, timeout=seconds)
    except subprocess.TimeoutExpired:
        return "check: no end after %g seconds" % seconds
    if done.returncode or done.stderr:
        return "check: status %d, standard error %s" % (done.returncode, shown(done.stderr))
    return first_difference("check", text(run["checked"]), done.stdout)


def explained(tcc, run, folder, seconds):
    """What `explain` of the slice that was written, or `check` of its certificate, says otherwise than wanted, or None."""
    if "explained" not in run:
        return None
    words = run["arguments"]
    level = words[words.index("--level") + 1] if "--level" in words else "causal"
    records, certificate = pathlib.Path(folder, "slice"), pathlib.Path(folder, "certificate-of-the-slice")
    try:
        answer = subprocess.run([*tcc, "explain", "--level", level, "--certificate", certificate, records],
                                capture_output=True, timeout=seconds)
        verdict = subprocess.run([*tcc, "check", records, certificate], capture_output=True, timeout=seconds)
    except subprocess.TimeoutExpired:
        return "the slice: no end after %g seconds" % seconds
    if answer.returncode != 1 or verdict.returncode or answer.stderr or verdict.stderr:
        return "the slice: status %d, of its check %d" % (answer.returncode, verdict.returncode)
    return first_difference("the slice's answer", text(run["explained"]), answer.stdout)


def compared(run, output, errors, folder):
    """For each text that a run leaves how it differs from the one wanted, or None."""
    if not {"output_to", "taken"} & set(run):
        yield stream_difference("output", run.get("output", []), output)
    yield stream_difference("standard error", run.get("errors", []), errors)
    for name in {"certificate", "slice"} & set(run):
        left = folder / name
        got = left.read_bytes() if left.exists() else b"no such file"
        yield first_difference(name, text(file_wanted(run, name)), got)


def file_wanted(run, name):
    """The parts of the file that is wanted by this name: its own, or those of the file that it names."""
    wanted = run[name]
    return run["files"][wanted[1:]] if isinstance(wanted, str) else wanted


def picked_runs(path, picked):
    """The runs of a case that are picked, by their names; or why it is none, a text."""
    try:
        every = list(runs(json.loads(path.read_text())))
    except (OSError, ValueError, KeyError) as error:
        yield path.stem, "not a case: %s" % error
        return
    for which, run in every:
        asked = picked(run)
        if asked:
            yield path.stem + which, asked


def outcome_of(tcc, seconds, named):
    """The name of a run, and what is wrong with it, or None."""
    name, run = named
    return name, run if isinstance(run, str) else difference(tcc, run, seconds)


def main():
    ask = ask_for_tcc("Runs a built tcc on the cases of this folder.")
    ask.add_argument("--only", default="", help="only cases whose name holds this text")
    ask.add_argument("--seconds", type=float, default=600, help="for each run, by default 600")
    ask.add_argument("--workers", type=int, help="for each run of explain that doesn't say how many itself")
    ask.add_argument("--searched", action="store_true", help="only runs that get these workers and show an anomaly")
    ask.add_argument("--checker", nargs="?", const=CHECKER, metavar="PATH", help="the program that has `check` alone, by default the built one")
    ask.add_argument("--small", type=int, metavar="BYTES", help="only runs whose texts have at most so many bytes")
    ask.add_argument("names", nargs="*", help="only these cases")
    asked = ask.parse_args()
    names = asked.names or sorted(path.stem for path in CASES.glob("*.json"))
    paths = [CASES / (name + ".json") for name in names if asked.only in name]
    with tempfile.TemporaryDirectory() as folder:
        tcc, picked = asked.tcc, lambda run: run
        if asked.workers:
            picked = functools.partial(by_workers, workers=asked.workers, searched=asked.searched)
        if asked.checker:
            picked, tcc = of_check, [os.path.join(folder, "tcc")]
            os.symlink(os.path.abspath(asked.checker), tcc[0])
        if asked.small:
            picked = functools.partial(of_small, most=asked.small, picked=picked)
        every = [named for path in paths for named in picked_runs(path, picked)]
        with concurrent.futures.ThreadPoolExecutor(processors()) as pool:
            return status_of(pool.map(functools.partial(outcome_of, tcc, asked.seconds), every))


if __name__ == "__main__":
    sys.exit(main())
