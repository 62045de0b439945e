"""Runs what a page needs: the import, `tcc explain`, `tcc survey` and `tcc check`, in a folder."""
import argparse
import os
import pathlib
import re
import shlex
import shutil
import subprocess
import time
from typing import Dict, List, Optional, Tuple

from tcc.common.inputs import FIRST, Foreign, foreign, is_of_records, opened
from tcc.common.notes import Note, read_events, read_notes, write_notes
from tcc.common.progress import Doing
from tcc.common.rows import History, open_records, read_history
from tcc.imports import jepsen
from tcc.imports.imported import Imported
from tcc.judging.answers import cycle_of
from tcc.judging.contradicted import survey, told_by_program
from tcc.judging.graph import Graph
from tcc.judging.program import Program, last_answer, program_at
from tcc.judging.noted_versions import REFUSE, NoVersions, Versions, read_versions
from tcc.judging.versions import Versioned
from tcc.record.sessions import write_by_node
from tcc.show.findings import Command, Findings, chances_of, chances_of_lists, is_large
from tcc.show.list_terms import ListTerms
from tcc.show.places import table

ACCEPTED_CYCLE = re.compile(r"accepted: cycle, (\d+) steps")


class Work:
    """Runs commands in a folder of its own, and keeps how they would be typed."""

    def __init__(self, folder: pathlib.Path, doing: Doing):
        self.folder, self.doing = folder, doing
        self.commands: List[Command] = []

    def run(self, words: List[str], into: Optional[str] = None) -> "subprocess.CompletedProcess[bytes]":
        """Runs a command in the folder; what it prints goes into a file there."""
        shown = " ".join(shlex.quote(pathlib.Path(word).name if os.sep in word else word) for word in words)
        self.doing.now("runs " + " ".join(pathlib.Path(word).name for word in words[:2]))
        begun = time.monotonic()
        ended = subprocess.run(words, cwd=self.folder, stdin=subprocess.DEVNULL, capture_output=True, check=False)
        if into:
            (self.folder / into).write_bytes(ended.stdout)
        self.commands.append(Command(shown + (" > " + into if into else ""), ended.returncode, time.monotonic() - begun))
        return ended


def imported_history(asked: argparse.Namespace, work: Work) -> Imported:
    """Imports a history of Jepsen, and writes its records."""
    begun = time.monotonic()
    name = file_of(asked)
    with opened(asked.history) as file:
        into = Imported({"null", asked.initial}, is_log=asked.log, has_versions=asked.versions is not None, chosen=jepsen.chosen_of(asked))
        told = jepsen.imported(jepsen.Reading(file, into, work.doing, name), True)
    work.doing.now("writes the records")
    with open(work.folder / "records.csv", "w", encoding="ascii") as out:
        out.writelines(told.records() if told.of_lists is None else told.of_lists.records())
    options = [*([] if asked.initial == "null" else ["--initial", asked.initial]), *jepsen.chosen_words(asked)]
    said = "".join(" " + shlex.quote(word) for word in [name, *options])
    work.commands.append(Command("jepsen.py%s --table names.csv --notes notes.csv > records.csv" % said, 0, time.monotonic() - begun))
    jepsen.write_rows(str(work.folder / "names.csv"), told.table())
    return told


def by_node(asked: argparse.Namespace, imported: Optional[Imported], work: Work) -> str:
    """Writes the records with a session for each client and node, and gives the file of their annotations."""
    notes = asked.notes or str(work.folder / "notes.csv")
    if imported is not None:
        if imported.of_lists is not None:
            raise ValueError("--sessions node: a history of lists is judged by its processes alone")
        write_notes(notes, imported.notes(False))
    elif not asked.notes:
        raise ValueError("--sessions node needs --notes FILE, which says at which node each transaction was")
    begun, beside = time.monotonic(), str(work.folder / "notes-by-node.csv")
    write_by_node(work.folder / "records.csv", notes, work.folder / "by-node.csv", beside)
    os.replace(work.folder / "by-node.csv", work.folder / "records.csv")
    work.commands.append(Command("tcc-sessions records.csv notes.csv -o records.csv", 0, time.monotonic() - begun))
    return beside


def versions_of(asked: argparse.Namespace, imported: Optional[Imported]) -> Optional[Versions]:
    """The versions that are asked for: those of a history, or of a file."""
    if asked.versions is None:
        return None
    if imported is not None:
        return imported.versions()
    if asked.versions is True:
        raise NoVersions("records have no versions by themselves: --versions FILE names the file that has them")
    return read_versions(asked.versions)


def with_versions(asked: argparse.Namespace, history: History, versions: Versions, notes: Dict[str, Note], work: Work) -> Tuple[Versioned, History]:
    """Writes the records with versions, and reads them."""
    begun = time.monotonic()
    work.doing.now("looks at versions")
    told = Versioned(history, versions, asked.level, asked.two_versions, notes)
    with open(work.folder / "versioned.csv", "w", encoding="ascii") as out:
        out.writelines(told.records())
    two = "" if asked.two_versions == REFUSE else " --two-versions " + asked.two_versions
    work.commands.append(Command("tcc-versions%s records.csv versions.csv -o versioned.csv" % two, bool(told.stale), time.monotonic() - begun))
    with open_records(str(work.folder / "versioned.csv")) as file:
        return told, read_history(file)


def file_of(asked: argparse.Namespace) -> str:
    return asked.name or pathlib.Path(asked.history).name


def taken(asked: argparse.Namespace, work: Work) -> Optional[Imported]:
    """Puts the records where they are judged; of a history what was imported."""
    records = work.folder / "records.csv"
    if asked.history == "-":  # it is looked at twice
        with opened("-") as file, open(work.folder / "input", "wb") as out:
            shutil.copyfileobj(file, out)
        asked.name, asked.history = "standard input", str(work.folder / "input")
    with opened(asked.history) as file:
        first = file.read(FIRST)
        what = foreign(first)
        if what:
            raise Foreign("%s: %s" % (file_of(asked), what))
        if is_of_records(first) and not (records.exists() and os.path.samefile(records, asked.history)):
            with open(records, "wb") as out:
                out.write(first)
                shutil.copyfileobj(file, out)
    return None if is_of_records(first) else imported_history(asked, work)


def gathered(asked: argparse.Namespace, work: Work) -> Findings:
    """Runs everything."""
    imported = taken(asked, work)
    if asked.sessions == "node":
        asked.notes = by_node(asked, imported, work)
    work.doing.now("reads the records")
    with open_records(str(work.folder / "records.csv")) as file:
        history = read_history(file)
    notes = read_notes(asked.notes) if asked.notes else dict(imported.notes(False)) if imported else {}
    versions, judged = versions_of(asked, imported), history
    versioned = None
    if versions is not None:
        versioned, judged = with_versions(asked, history, versions, notes, work)
    tcc = Program(program_at(asked.tcc), asked.level, is_large(judged), asked.workers)
    beside = [*(["--slice", "slice.csv"] if tcc.is_large else []), "--certificate", "certificate.txt"]
    answer = last_answer(work.run(tcc.explain(*beside, "versioned.csv" if versioned else "records.csv"), "answer.json"))
    told = Findings(file_of(asked), tcc, history, notes, answer, work.commands, imported, required=asked.require, versioned=versioned,
                    events=read_events(asked.notes) if asked.notes else [], path=asked.history)
    if told.verdict == "anomaly":
        told.cycle = cycle_of(answer)
    certify(told, work)
    if told.verdict != "consistent":
        list_contradicted(told, work)
    told.chances = chances_of(history) if told.lists is None else chances_of_lists(told.lists)
    if isinstance(told.terms, ListTerms):
        told.shown = told.terms.regrouped(told.found)
        told.cycle = told.terms.moved(told.cycle)
    if told.versioned:
        told.cycle = told.versioned.moved(told.cycle)
    return told


def list_contradicted(told: Findings, work: Work) -> None:
    """Lists every contradicted read, and beside them those that are by versions."""
    list_plainly(told, work)
    if told.versioned:
        told.found = told.found._replace(contradicted=told.versioned.with_stale(told.found.contradicted))


def list_plainly(told: Findings, work: Work) -> None:
    """Lists every contradicted read, by `tcc survey` where the program has it, and else by clocks of this script."""
    found = None
    if told.tcc.has_survey():
        found = told_by_program(work.run(told.tcc.survey("records.csv"), "survey.json").stdout.decode(errors="replace"), told.history)
    begun = time.monotonic()
    if found is not None:
        told.found, told.graph, told.is_proved = found, Graph(told.history), True
        return
    told.found, told.graph = survey(told.history, told.tcc.level, work.doing.now)
    work.commands.append(Command("all.py --level %s records.csv   # every contradicted read" % told.tcc.level, 1, time.monotonic() - begun))


def searches(certificate: pathlib.Path, check: str) -> bool:
    """Whether the check of a certificate had to search: past four steps version 3 has no tables by which no cycle has fewer."""
    cycle = ACCEPTED_CYCLE.fullmatch(check)
    if cycle is None or int(cycle[1]) <= 4:
        return False
    with certificate.open(encoding="ascii", errors="replace") as file:
        return file.readline().startswith("tcc-certificate 3 ")


def certify(told: Findings, work: Work) -> None:
    """Has the certificate checked, where there is one; of a large anomaly the least one of its slice is shown, where it has one."""
    if told.verdict != "unresolved":
        large = ["--large"] if told.tcc.is_large else []
        ended = work.run([told.tcc.path, "check", *large, told.judged, "certificate.txt"])
        told.check = ended.stdout.decode(errors="replace").strip()
        told.is_searched = searches(work.folder / "certificate.txt", told.check)
    sliced = work.folder / "slice.csv"
    if told.tcc.is_large and told.verdict == "anomaly" and sliced.exists() and sliced.stat().st_size:
        with open_records(str(sliced)) as file:
            small = read_history(file)
        places = table(told.answer, small)
        least = last_answer(work.run(Program(told.tcc.path, told.tcc.level, False, told.tcc.workers).explain("slice.csv"), "least.json"))
        if least["answer"] == "anomaly":
            told.cycle, told.is_of_slice = cycle_of(least, places), True
