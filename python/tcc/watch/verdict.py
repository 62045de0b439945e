"""What a watch has found: that the store broke its promise, or that nothing is judged any more; and who has heard that."""
import contextlib
import json
import threading
from typing import Optional

from tcc.judging.program import NoAnswer
from tcc.judging.runner import Answer, Consistent, answer_of


class BrokenPromise(Exception):
    """The store broke its promise, as `answer` shows."""

    def __init__(self, answer: Answer):
        super().__init__(answer.text())
        self.answer = answer


class Verdict:
    """`broken` is the answer where the store broke its promise, `failed` says why nothing is judged any more."""

    def __init__(self) -> None:
        self.broken: Optional[Answer] = None
        self.failed: Optional[NoAnswer] = None
        self._heard = threading.local()

    def check(self) -> None:
        """Raises `BrokenPromise` where the store broke its promise, and `NoAnswer` where nothing is judged any more."""
        wrong = BrokenPromise(self.broken) if self.broken else NoAnswer(str(self.failed), self.failed.status) if self.failed else None
        if wrong:
            self._heard.it = True
            raise wrong

    def check_once(self) -> None:
        """The same, unless this thread has heard it."""
        if not getattr(self._heard, "it", False):
            self.check()


def answer_in(line: bytes) -> Optional[Answer]:
    """The answer of a line of `tcc watch --json`, if it is one: of a consistent history it has no order."""
    with contextlib.suppress(ValueError, KeyError, TypeError):
        told = json.loads(line)
        if told["answer"] == "consistent":
            return Consistent(told["transactions"], told["sessions"], ())
    with contextlib.suppress(NoAnswer):
        return answer_of(line.decode("utf-8", "replace"))
    return None
