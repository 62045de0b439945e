"""The results of a fleet: a line of JSON for each history, a report in JUnit's form, and what is kept of failures."""
import json
import os
import pathlib
import xml.etree.ElementTree as xml
from collections import Counter
from dataclasses import dataclass, field
from typing import IO, Counter as Count, Dict, Iterable, List, Optional

from tcc.common.kinds import VIOLATIONS
from tcc.common.rows import Json
from tcc.common.whole import written_whole
from tcc.fleet.work import Judged, is_final

CONSISTENT, BROKEN, UNRESOLVED, NOT_JUDGED = "consistent", "broken", "unresolved", "not judged"
# The status of all, by the worst of them: a broken promise comes before what nobody judged.
STATUSES = ((BROKEN, 1), (NOT_JUDGED, 3), (UNRESOLVED, 2), (CONSISTENT, 0))


def size_of(path: str) -> Optional[int]:
    """The bytes of a file, by which it is known again; None where there is none."""
    try:
        return os.stat(path).st_size
    except OSError:
        return None


class NoResults(Exception):
    """A file that has something else than results, or those of another question."""


def verdict(line: Json) -> str:
    """What a result says of its history. The store broke its promise by an anomaly, a contradicted read, or a read that no promise lets
    be."""
    if line["answer"] == "anomaly" or line.get("contradicted") or any(one["kind"] in VIOLATIONS for one in line.get("faults", ())):
        return BROKEN
    return {"consistent": CONSISTENT, "unresolved": UNRESOLVED}.get(str(line["answer"]), NOT_JUDGED)


def said(line: Json) -> str:
    """What is wrong, in a line."""
    if line["answer"] == "anomaly":
        return "anomaly: %d steps, %s" % (line["steps"], line["shape"])
    if line["answer"] == "unresolved":
        first = line["faults"][0]
        return "unresolved: %d faults, first %s %s/%d op %d" % (len(line["faults"]), first["kind"], first["session"], first["place"], first["op"])
    return str(line.get("why", ""))


@dataclass
class Results:
    """The results so far, by file, and where each new one is written at once."""

    out: IO[str]
    lines: Dict[str, Json] = field(default_factory=dict)

    def add(self, line: Json) -> None:
        """Takes a result; a second one of a file is passed over."""
        if line["file"] not in self.lines:
            self.lines[line["file"]] = line
            self.out.write(json.dumps(line, sort_keys=True) + "\n")
            self.out.flush()

    def counts(self) -> "Count[str]":
        return Counter(map(verdict, self.lines.values()))

    def status(self) -> int:
        found = self.counts()
        return next((status for name, status in STATUSES if found[name]), 0)


def known_results(path: str, level: str) -> List[Json]:
    """The results that a file has, whole and final, of files that are what they were. Where it has others too, these are taken out."""
    try:
        with open(path, encoding="utf-8") as file:
            lines = file.readlines()
    except FileNotFoundError:
        return []
    found = [one for one in (result_of(path, number, line, level) for number, line in enumerate(lines, 1)) if one is not None]
    kept = {one["file"]: one for one in found if is_final(one) and one.get("bytes") == size_of(one["file"])}
    if len(kept) < len(lines):
        with written_whole(path) as out:
            out.writelines(json.dumps(one, sort_keys=True) + "\n" for one in kept.values())
    return list(kept.values())


def result_of(path: str, number: int, line: str, level: str) -> Optional[Json]:
    """The result of a line; none of one that was cut, as where the machine ended."""
    if not line.endswith("\n"):
        return None
    try:
        told: Json = json.loads(line)
        is_one = isinstance(told["file"], str) and isinstance(told["answer"], str)
    except (ValueError, KeyError, TypeError):
        is_one = False
    if not is_one:
        raise NoResults("%s, line %d is no result" % (path, number))
    if told.get("level") != level:
        raise NoResults("%s, line %d was judged at another level than %s" % (path, number, level))
    return told


def write_junit(path: str, lines: Iterable[Json]) -> None:
    """A test case for each history: a failure where the store broke its promise, an error where it wasn't judged."""
    every = sorted(lines, key=lambda one: str(one["file"]))
    counts = Counter(map(verdict, every))
    suite = xml.Element("testsuite", name="tcc-fleet", tests=str(len(every)), failures=str(counts[BROKEN]),
                        errors=str(len(every) - counts[BROKEN] - counts[CONSISTENT]))
    for one in every:
        folder, name = os.path.split(one["file"])
        case = xml.SubElement(suite, "testcase", classname=folder or ".", name=name, time=str(one.get("seconds", 0)))
        if verdict(one) != CONSISTENT:
            xml.SubElement(case, "failure" if verdict(one) == BROKEN else "error", message=said(one))
    with written_whole(path) as out:
        out.write('<?xml version="1.0" encoding="utf-8"?>\n' + xml.tostring(suite, encoding="unicode") + "\n")


def keep(folder: str, line: Json, made: Judged) -> None:
    """Keeps a failure: its result, its certificate and a slice, in a folder of its own, named as its file is."""
    path = pathlib.Path(line["file"])
    mine = pathlib.Path(folder, *(part for part in path.parts if part not in (path.anchor, "..", ".")))
    mine.mkdir(parents=True, exist_ok=True)
    texts = {"answer.json": (json.dumps(line, sort_keys=True) + "\n").encode(), "certificate.txt": made.certificate, "slice.csv": made.slice}
    for name, text in texts.items():
        if text:
            (mine / name).write_bytes(text)
