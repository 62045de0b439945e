"""One watch over the recorders of several processes, by a folder of their own in which they announce themselves.

A recorder with `watch=FOLDER` leaves its path there, in a file `NAME.recorder`. A `Watching` of the folder, in some process, follows all that
have announced themselves, and those that come later. What it finds it leaves in the file `found`, at which each recorder looks before a
transaction begins. So all processes stop where the store broke its promise. A folder is for one run.
"""
import contextlib
import hashlib
import json
import os
from typing import Any, Dict, List, Optional

from tcc.common.appended import NoRecord, Path
from tcc.common.whole import written_whole
from tcc.judging.program import NoAnswer
from tcc.judging.runner import answer_of
from tcc.watch.verdict import Verdict, answer_in

ANNOUNCED, WATCHED, FOUND = ".recorder", "watched", "found"


def announce(folder: str, path: str) -> None:
    """A recorder says where its records are."""
    os.makedirs(folder, exist_ok=True)
    whole = os.path.abspath(path)
    name = "%s-%s" % (os.path.basename(path), hashlib.sha256(os.fsencode(whole)).hexdigest()[:12])
    with written_whole(os.path.join(folder, name + ANNOUNCED)) as file:
        file.write(whole)


def announced(folder: str) -> List[str]:
    """The records of those that have announced themselves so far."""
    found = []
    for name in sorted(os.listdir(folder)):
        if name.endswith(ANNOUNCED):
            with open(os.path.join(folder, name), encoding="utf-8") as file:
                found.append(file.read())
    return found


def begin(folder: str) -> None:
    """Somebody watches the folder from now on. A watch that was killed may be begun again, one that came to its end not."""
    os.makedirs(folder, exist_ok=True)
    if os.path.exists(os.path.join(folder, FOUND)) or left(folder, WATCHED):
        raise NoRecord("%s was watched in an earlier run: each run needs a folder of its own" % folder)
    leave(folder, WATCHED, {})


def leave(folder: str, name: str, what: Dict[str, Any]) -> None:
    with written_whole(os.path.join(folder, name)) as file:
        json.dump(what, file)


def left(folder: str, name: str) -> Optional[Dict[str, Any]]:
    """What somebody left there; nothing where that isn't there."""
    with contextlib.suppress(FileNotFoundError), open(os.path.join(folder, name), encoding="utf-8") as file:
        told: Dict[str, Any] = json.load(file)
        return told
    return None


class Announced(Verdict):
    """The watch of a recorder that is a `Watching` of another process."""

    stops = True

    def __init__(self, folder: Path, path: str):
        super().__init__()
        self.folder, self.path = os.fspath(folder), path
        self._found = os.path.join(self.folder, FOUND)

    def start(self) -> "Announced":
        announce(self.folder, self.path)
        return self

    def stop(self) -> None:
        """The other process goes on."""

    def check(self) -> None:
        if os.path.exists(self._found):
            self._take()
        super().check()

    def finish(self) -> None:
        """What was recorded by now is judged by the other process, unless there is none, or it has ended before this."""
        if os.path.exists(self._found):
            self._take()
            return
        told = left(self.folder, WATCHED)
        if told is None:
            self.failed = NoAnswer("nobody watches %s, so nothing was judged: a Watching of that folder, or tcc-watch, does" % self.folder)
        elif told and told.get(os.path.abspath(self.path), 0) < os.path.getsize(self.path):
            self.failed = NoAnswer("who watched %s ended before %s did, so its last records weren't judged" % (self.folder, self.path))

    def _take(self) -> None:
        told = left(self.folder, FOUND) or {}
        if "answer" in told:
            self.broken = answer_in(told["answer"].encode()) or answer_of(told["answer"])
        else:
            self.failed = NoAnswer(told.get("failed", "the watch of %s judged nothing" % self.folder), told.get("status"))
