"""One recording, two questions: a session for each client, as it was recorded, or one for each client and node.

Over all nodes a session asks whether what a client did at one shows at the next, which a store promises only where it says so. A
session for each node asks for what each node promises by itself. At which node a transaction was is said by annotations. As the
command `tcc-sessions`.
"""
import contextlib
import os
import re
import sys
import tempfile
from collections import Counter
from typing import Counter as Count, Dict, Iterator, List, Optional, Tuple

from tcc.common.appended import NoRecord, Path
from tcc.common.inputs import check_records
from tcc.common.limits import MAX_NAME_BYTES
from tcc.common.notes import NoNotes, Note, read_notes, rows_of, write_notes
from tcc.common.rows import NAME
from tcc.common.whole import written_whole
from tcc.common.words import Arguments

WAYS = ("client", "node")
NO_NAME = re.compile(r"[^A-Za-z0-9_.-]")


class Names:
    """The names of sessions by client and node: CLIENT.NODE, or with a number after it where that has another meaning or is too long."""

    def __init__(self, taken: List[str]):
        self.taken = set(taken)
        self.names: Dict[Tuple[str, str], str] = {}

    def of(self, client: str, node: str) -> str:
        if not node:
            return client
        if (client, node) not in self.names:
            stem = ("%s.%s" % (client, NO_NAME.sub("_", node)))
            name, number = stem[:MAX_NAME_BYTES], 1
            while name in self.taken:
                number += 1
                end = "-%d" % number
                name = stem[:MAX_NAME_BYTES - len(end)] + end
            self.taken.add(name)
            self.names[client, node] = name
        return self.names[client, node]


def by_node(records: Path, notes: Dict[str, Note]) -> Iterator[Tuple[str, Optional[Tuple[str, str]]]]:
    """The records with a session for each client and node, in their order; where a transaction ends, its label before and now."""
    with open(records, encoding="ascii", newline="\n") as file:
        taken = {line.partition(",")[0] for line in file}
        if any(NAME.fullmatch(one.strip()) is None for one in taken):
            raise NoRecord("%s has lines that are no records" % os.fspath(records))
        names = Names(sorted(taken))
        before: Count[str] = Counter()
        now: Count[str] = Counter()
        running: Dict[str, str] = {}
        file.seek(0)
        for line in file:
            client, comma, rest = line.partition(",")
            if not comma:
                yield line, None
                continue
            if rest == "begin\n":
                before[client] += 1
                running[client] = names.of(client, notes.get("%s/%d" % (client, before[client]), Note()).node)
                now[running[client]] += 1
            name = running.get(client, client)
            has_ended = rest.count(",") == 0 and rest != "begin\n"
            yield "%s,%s" % (name, rest), ("%s/%d" % (client, before[client]), "%s/%d" % (name, now[name])) if has_ended else None


def write_by_node(records: Path, notes: Path, out: Path, notes_out: Optional[Path] = None) -> None:
    """Writes records with a session for each client and node, and their annotations."""
    told = read_notes(notes)
    labels: Dict[str, str] = {}
    with written_whole(out) as file:
        for line, label in by_node(records, told):
            file.write(line)
            if label:
                labels[label[0]] = label[1]
    if notes_out is not None:
        write_notes(notes_out, [(labels.get(label, label), note) for label, note in rows_of(notes)])


@contextlib.contextmanager
def judged_by(way: str, records: Path, notes: Optional[Path]) -> Iterator[Path]:
    """The file that is judged: that of the records, or one by node."""
    if way not in WAYS:
        raise ValueError("sessions are by %s, and not by %s" % (" or ".join(WAYS), way))
    if way == "client":
        yield records
        return
    if notes is None:
        raise ValueError("sessions by node need the annotations, which say at which node a transaction was")
    with tempfile.TemporaryDirectory(prefix="tcc-sessions-") as folder:
        path = os.path.join(folder, "records.csv")
        write_by_node(records, notes, path)
        yield path


def main() -> int:
    ask = Arguments(description="Writes records with a session for each client and node, in place of one for each client: so "
                                  "the answer is about what each node promises by itself.")
    ask.add_argument("records", metavar="RECORDS", help="the file of the records")
    ask.add_argument("notes", metavar="NOTES", help="their annotations, which say at which node each transaction was")
    ask.add_argument("-o", "--output", metavar="FILE", required=True, help="the file for the records")
    ask.add_argument("--notes-output", metavar="FILE", help="the file for their annotations")
    asked = ask.parse_args()
    try:
        check_records(asked.records)
        write_by_node(asked.records, asked.notes, asked.output, asked.notes_output)
    except (NoRecord, NoNotes, OSError, ValueError) as error:
        print("tcc-sessions: %s" % error, file=sys.stderr)
        return 1
    return 0


if __name__ == "__main__":
    sys.exit(main())
