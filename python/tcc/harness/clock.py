"""The time of day among the annotations of a recorder, by which those of several are put together.

Annotations have seconds from the beginning of their own run. An event `clock 2026-12-01T12:00:00.500000+00:00` says what time of day it
was then, so annotations of recorders on several machines can be joined as exactly as the clocks of these agree.
"""
import datetime
from typing import Dict, Iterable, Iterator, List, Optional, Tuple

from tcc import Recorder
from tcc.common.notes import NoNotes, Note, Path, rows_of, write_notes

CLOCK = "clock "
Row = Tuple[str, Note]


def note_clock(recorder: Recorder) -> None:
    """Notes what time of day it is."""
    recorder.event(CLOCK + datetime.datetime.now(datetime.timezone.utc).isoformat(timespec="microseconds"))


def begun_at(rows: Iterable[Row]) -> Optional[float]:
    """The time of day at which a run began, in seconds of Unix; none where no row says it."""
    for label, note in rows:
        if not label and note.note.startswith(CLOCK):
            return datetime.datetime.fromisoformat(note.note[len(CLOCK):]).timestamp() - float(note.time)
    return None


def joined_notes(paths: Iterable[Path], out: Path) -> None:
    """Writes the annotations of several recorders as one file, in seconds from the beginning of the first one."""
    every: Dict[str, List[Row]] = {str(path): list(rows_of(path)) for path in paths}
    begins = {path: begun_at(rows) for path, rows in every.items()}
    without = [path for path, begun in begins.items() if begun is None]
    if without and len(every) > 1:
        raise NoNotes("%s: no event says what time of day it was, so its times can't be put beside others" % without[0])
    first = min((begun for begun in begins.values() if begun is not None), default=0.0)
    write_notes(out, sorted((row for path, rows in every.items() for row in moved(rows, (begins[path] or first) - first)), key=time_of))


def moved(rows: Iterable[Row], seconds: float) -> Iterator[Row]:
    """The rows so many seconds later."""
    for label, note in rows:
        yield label, Note(**{**vars(note), "time": "%.6f" % (float(note.time) + seconds) if note.time else ""})


def time_of(row: Row) -> float:
    return float(row[1].time or 0)
