"""A recorder for many small histories, as property tests and simulators make them: it keeps records in memory, and writes no file."""
import threading
from typing import Dict, List, Set

from tcc.common.appended import NoRecord
from tcc.record.known import Place, UnderWay, text_of
from tcc.record.transactions import TWICE, UNKNOWN, Noted, Part, Recording, free_name
from tcc.record.written import RECORDERS, Written


class MemoryRecorder(Recording):
    """Records as `Recorder` does, from threads too. What it has is gone with the process.

        recorder = MemoryRecorder()
        with recorder.session("c1").transaction() as one:
            one.read("x", store.get("x"))
        assert_causal(recorder)

    `number`, below 4096, tells the values of several recorders of one store apart.
    """

    def __init__(self, number: int = 0):
        if not 0 <= number < RECORDERS:
            raise NoRecord("the number of a recorder is %d, and not 0 to %d" % (number, RECORDERS - 1))
        self._lock = threading.Lock()
        self._written, self._names = Written(number), set()  # type: Written, Set[str]
        self._ended: List[str] = []
        self._under_way: Dict[Place, UnderWay] = {}

    def records(self) -> bytes:
        """What was recorded by now; what is under way counts as of unknown outcome."""
        with self._lock:
            under_way = [one.text(session, UNKNOWN) for (session, _), one in sorted(self._under_way.items())]
            return "".join([*self._ended, *under_way]).encode()

    def new_value(self) -> int:
        """A value that this recorder never gave before."""
        with self._lock:
            return self._written.new_value()

    def _new_name(self, stem: str) -> str:
        with self._lock:
            return free_name(stem, self._names)

    def _note_write(self, session: str, place: int, node: str, key: str, value: int) -> None:
        with self._lock:
            if self._written.has(key, value):
                raise NoRecord(TWICE % (key, value))
            self._written.add(key, value)
            self._under_way.setdefault((session, place), UnderWay()).writes.append((key, value))

    def _note_version(self, key: str, value: int, version: int) -> None:
        """Versions are judged from files alone: `Recorder(.., versions=..)` keeps them."""
        raise NoRecord("a version of %s = %d, and a recorder in memory keeps none" % (key, value))

    def _note_end(self, session: str, place: int, one: Noted, parts: List[Part]) -> None:
        with self._lock:
            self._ended.extend(text_of(session, *part) for part in parts)
            self._under_way.pop((session, place), None)
            one.is_recorded = True
