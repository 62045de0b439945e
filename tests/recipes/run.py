#!/usr/bin/env python3
"""Runs the scripts of recipes/ on the cases of this folder and compares what they do, byte by byte.

    run.py [--tcc PATH] [NAME ..]

A case is a JSON object:

    about      what it shows
    commands   a list of words for each command: a script of recipes/, `tcc` or `dot`, and its arguments; each command
               reads what the one before it printed. @NAME is the path of NAME in a new folder of this run's own, $TCC
               that of the program. Where there is no `dot` on the path, the cases that want Graphviz's are passed over,
               which is said
    input      what the first command reads, lines as parts; a part {"bytes": ".."} is bytes (latin-1) without a line
               feed, a part {"json": ..} is a line of compact JSON, in which "limits" may be "default" or "large" in the
               place of the numbers, a part {"file": ".."} a file of the repository
    files      files of that folder: names, and parts
    statuses   the exit status of each command; all 0 if left out
    output     what the last command prints, as parts
    errors     what all commands together print on standard error, in their order, as parts
    written    files of that folder after the run: names, and parts
    runs       several runs, each with fields of its own over those of the case

After the cases, the help of each script has to show an example. The client to copy, `examples/client.py`, and that of README have to write
what they saw, also where connections are cut at every call (`clients.py`). Each way of reading a history has to give the same
records, and a script that is interrupted to say what it has. The lines of RECORDING for a large history have to end with its status
(`scripts.py`). The pages of report.py have to be whole, and right in a browser where Chromium is there (`pages.py`). The demo of Redis
has to show the answers of `tcc watch` while clients work, which needs no Redis (`watched.py`). The demos of
recipes/redis, recipes/postgres, recipes/galera, recipes/etcd, recipes/zookeeper and recipes/nats have to find what they show. Where their servers or their library
for Python aren't there, or a round couldn't be played on this machine, they are passed over, which is said.

The wanted texts were worked out by hand from the definitions. Each difference is one line; the last line is
`N passed, M failed`.
"""
import json
import os
import pathlib
import re
import shutil
import subprocess
import sys
import tempfile
from dataclasses import dataclass, field
from typing import Dict, Iterator, List, Optional, Tuple

HERE = pathlib.Path(__file__).resolve().parent
TOP = HERE.parent.parent
sys.path.insert(0, str(TOP / "tests"))
import ci  # noqa: E402
import clients  # noqa: E402
import lists  # noqa: E402
import pages  # noqa: E402
import scripts  # noqa: E402
import watched  # noqa: E402
from arguments import ask_for_tcc  # noqa: E402
from compared import first_difference, shown  # noqa: E402
from counted import Outcome, guarded, status_of  # noqa: E402
from limits import with_limits  # noqa: E402

CASES = HERE / "cases"
RECIPES = TOP / "recipes"
SECONDS = 1800
# A demo plays on, and again, on a busy machine; asked to end it has so many to stop its servers.
DEMO_SECONDS, END_SECONDS = 3600, 120
WITHOUT_SERVER = 77
SERVERS = ("redis", "postgres", "galera", "etcd", "zookeeper", "nats")
WRONG_COMMAND_LINE = 64


@dataclass(frozen=True)
class Run:
    """What is run, and what it has to do."""

    about: str
    commands: List[List[str]]
    input: list = field(default_factory=list)
    files: Dict[str, list] = field(default_factory=dict)
    statuses: Optional[List[int]] = None
    output: list = field(default_factory=list)
    errors: list = field(default_factory=list)
    written: Dict[str, list] = field(default_factory=dict)


@dataclass(frozen=True)
class Done:
    """What was done."""

    statuses: List[int]
    output: bytes
    errors: bytes
    written: Dict[str, bytes]


def text(parts: list) -> bytes:
    return b"".join(map(part, parts))


def part(one) -> bytes:
    if isinstance(one, str):
        return one.encode() + b"\n"
    if "json" in one:
        return json.dumps(with_limits(one["json"]), separators=(",", ":")).encode() + b"\n"
    return (TOP / one["file"]).read_bytes() if "file" in one else one["bytes"].encode("latin-1")


def runs(path: pathlib.Path) -> Iterator[Tuple[str, Run]]:
    """The runs of a case, each with its name."""
    case = json.loads(path.read_text())
    several = case.pop("runs", None)
    if several is None:
        yield path.stem, Run(**case)
        return
    for number, own in enumerate(several, 1):
        yield "%s (run %d)" % (path.stem, number), Run(**{**case, **own})


def words(command: List[str], tcc: List[str], folder: str) -> List[str]:
    program, *others = command
    placed = [os.path.join(folder, word[1:]) if word.startswith("@") else tcc[-1] if word == "$TCC" else word for word in others]
    programs = {"tcc": tcc, "dot": ["dot"]}
    return programs.get(program, [sys.executable, str(RECIPES / program)]) + placed


def done(run: Run, tcc: List[str]) -> Done:
    """Runs the commands, one after the other."""
    given, errors, statuses = text(run.input), b"", []
    with tempfile.TemporaryDirectory() as folder:
        for name, parts in run.files.items():
            pathlib.Path(folder, name).write_bytes(text(parts))
        for command in run.commands:
            ended = subprocess.run(words(command, tcc, folder), input=given, capture_output=True, timeout=SECONDS, check=False)
            given = ended.stdout
            errors += ended.stderr.replace(os.fsencode(folder) + b"/", b"@")
            statuses.append(ended.returncode)
        written = {name: (pathlib.Path(folder, name).read_bytes() if pathlib.Path(folder, name).exists() else b"no such file")
                   for name in run.written}
    return Done(statuses, given, errors, written)


def differences(run: Run, did: Done) -> Iterator[Optional[str]]:
    wanted = run.statuses or [0] * len(run.commands)
    if wanted != did.statuses:
        yield "statuses: wanted %s, got %s, standard error ends with %s" % (wanted, did.statuses, shown(did.errors[-200:]))
    yield first_difference("output", text(run.output), did.output)
    yield first_difference("standard error", text(run.errors), did.errors)
    for name, parts in run.written.items():
        yield first_difference(name, text(parts), did.written[name])


def wrong(run: Run, tcc: List[str]) -> Optional[str]:
    """What the commands did otherwise than wanted, or None."""
    try:
        return next(filter(None, differences(run, done(run, tcc))), None)
    except (OSError, subprocess.TimeoutExpired) as error:
        return str(error)


def helps() -> Iterator[Outcome]:
    """Whether the help of each script shows an example, and a wrong command line has a status of its own."""
    for script in sorted(path for path in RECIPES.glob("**/*.py") if path.read_text().startswith("#!")):
        ended = subprocess.run([sys.executable, str(script), "--help"], capture_output=True, timeout=SECONDS, check=False)
        has_example = ended.returncode == 0 and re.search(rb"^example:\s", ended.stdout, re.MULTILINE)
        yield "help of " + script.name, None if has_example else "status %d, or no example" % ended.returncode
        ended = subprocess.run([sys.executable, str(script), "--no-such-option"], capture_output=True, timeout=SECONDS, check=False)
        yield "wrong words of " + script.name, None if ended.returncode == WRONG_COMMAND_LINE and not ended.stdout else "status %d" % ended.returncode


def demo(server: str, tcc: List[str]) -> Iterator[Outcome]:
    """The demo with real servers, where they are there: its status is 0 where each answer is what it has to be."""
    with tempfile.TemporaryDirectory() as folder:
        command = [sys.executable, str(RECIPES / server / "demo.py"), "--tcc", tcc[-1], "--reports", folder]
        status, output, errors = demonstrated(command)
        if status == WITHOUT_SERVER:
            print("demo of %s: passed over: %s" % (server, (errors.decode().splitlines() or ["it doesn't say why"])[-1]))
            return
        has_report = len(list(pathlib.Path(folder).glob("*.html"))) == 1
        yield "demo of " + server, None if status == 0 and has_report else "status %d, %s report, %r" % (
            status, "a" if has_report else "no", output + errors)


def demonstrated(command: List[str]) -> Tuple[int, bytes, bytes]:
    """Runs a demo to its end: its status, and what it printed."""
    with subprocess.Popen(command, stdin=subprocess.DEVNULL, stdout=subprocess.PIPE, stderr=subprocess.PIPE) as running:
        try:
            output, errors = running.communicate(timeout=DEMO_SECONDS)
        except subprocess.TimeoutExpired:
            running.terminate()
            output, errors = running.communicate(timeout=END_SECONDS)
        return running.returncode, output, errors


def first_example(tcc: List[str]) -> Iterator[Outcome]:
    """What README shows of the package: what it records, and that the answer is printed."""
    script = re.search("```python\n(.*?)```", (TOP / "README.md").read_text(), re.DOTALL).group(1)
    with tempfile.TemporaryDirectory() as folder:
        variables = {**os.environ, "TCC": os.path.abspath(tcc[-1]), "PYTHONPATH": "%s:%s" % (TOP / "python", HERE)}
        given = "import clients\nstore = clients.Server({}).connect()\n" + script
        done = subprocess.run([sys.executable, "-c", given], cwd=folder, env=variables, capture_output=True, text=True,
                              timeout=SECONDS, check=False)
        records = pathlib.Path(folder, "records.csv")
        got = records.read_text().split() if records.exists() else done.stderr
    wanted = ["c1,begin", "c1,r,x,0", "c1,w,y,4096", "c1,commit"]
    yield "records of README's example", None if got == wanted else "wrote %s" % got
    answer = "consistent: 1 transactions, 1 sessions\norder: init c1/1\n\n"
    yield "README's example", None if done.stdout == answer else "printed %r" % (done.stdout + done.stderr)


def packed(tcc: List[str]) -> Iterator[Outcome]:
    """What `make pack` makes of the program: unpacked elsewhere it answers, and so do the recipes beside it."""
    with tempfile.TemporaryDirectory() as folder:
        words = ["make", "-s", "pack", "TCC=" + os.path.abspath(tcc[-1]), "DIST=" + folder]
        made = subprocess.run(words, cwd=TOP, capture_output=True, timeout=SECONDS, check=False)
        archives = list(pathlib.Path(folder).glob("tcc-*-x86_64-linux.tar.gz"))
        if made.returncode != 0 or len(archives) != 1:
            yield "make pack", "status %d, %r" % (made.returncode, made.stderr)
            return
        subprocess.run(["tar", "-xzf", str(archives[0])], cwd=folder, timeout=SECONDS, check=True)
        inside = archives[0].name[:-len(".tar.gz")]
        done = subprocess.run([sys.executable, "recipes/all.py", "--tcc", "./tcc", "examples/stale-read.csv"],
                              cwd=os.path.join(folder, inside), capture_output=True, timeout=SECONDS, check=False)
        wanted = b"1: read your writes: a/2 read x = 0 from init, row 5; it knew of a/1\n"
        yield "what is packed", None if done.stdout.startswith(wanted) else "%r" % (done.stdout + done.stderr)
        yield "links that are packed", dangling(pathlib.Path(folder, inside))
        done = subprocess.run([sys.executable, "recipes/report.py", "examples/stale-read.csv", "-o", "page.html"], cwd=os.path.join(folder, inside),
                              env={"PATH": "/usr/bin:/bin"}, capture_output=True, timeout=SECONDS, check=False)
        yield "the program beside the recipes", None if done.returncode == 1 else "%d, %r" % (done.returncode, done.stdout + done.stderr)
        needed = [name for name in ("LICENSE-MIT", "LICENSE-APACHE", "docs/tcc.1", "docs/tcc.bash", "docs/RECORDING.md", "python/pyproject.toml")
                  if not os.path.exists(os.path.join(folder, inside, name))]
        yield "files that are packed", ", ".join(needed) or None


def dangling(folder: pathlib.Path) -> Optional[str]:
    """The first link of a document to a file that isn't in the archive."""
    for path in sorted(folder.glob("**/*.md")):
        for link in re.findall(r"\]\(([^)#\s]+)", path.read_text()):
            if not link.startswith(("http:", "https:")) and not (path.parent / link).exists():
                return "%s: %s" % (path.relative_to(folder), link)
    return None


def outcomes_of(path: pathlib.Path, tcc: List[str]) -> Iterator[Outcome]:
    """The runs of a case, but for those whose picture nobody here can draw."""
    try:
        every = list(runs(path))
    except (OSError, ValueError, TypeError) as error:
        yield path.stem, "not a case: %s" % error
        return
    for name, run in every:
        if ["dot"] in [command[:1] for command in run.commands] and not shutil.which("dot"):
            print("%s: passed over: no dot on the path" % name)
        else:
            yield name, wrong(run, tcc)


def outcomes(names: List[str], tcc: List[str]) -> Iterator[Outcome]:
    for name in names or sorted(path.stem for path in CASES.glob("*.json")):
        yield from outcomes_of(CASES / (name + ".json"), tcc)
    if names:
        return
    parts = {"helps": helps(), "first example": first_example(tcc), "clients": clients.outcomes(tcc), "scripts": scripts.outcomes(tcc),
             "lists": lists.outcomes(tcc), "ci": ci.outcomes(tcc), "pages": pages.outcomes(tcc),
             "packed": packed(tcc), "watched": watched.outcomes(tcc), **{"demo of " + server: demo(server, tcc) for server in SERVERS}}
    for about, part in parts.items():
        yield from guarded(about, part)


def main() -> int:
    ask = ask_for_tcc("Runs the scripts of recipes/ on the cases of this folder.")
    ask.add_argument("names", nargs="*", help="only these cases")
    asked = ask.parse_args()
    return status_of(outcomes(asked.names, asked.tcc))


if __name__ == "__main__":
    sys.exit(main())
