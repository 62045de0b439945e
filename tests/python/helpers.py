"""What the tests of the package share."""
import os
import pathlib
import subprocess
from typing import Callable, Dict, List, Optional

from counted import Outcome

TOP = pathlib.Path(__file__).resolve().parent.parent.parent
SECONDS = 1800


def run(words: List[str], folder: str, more: Optional[Dict[str, str]] = None, cwd: Optional[pathlib.Path] = None):
    """A run in which the package is that of the folder, with more variables."""
    variables = {**os.environ, "PYTHONPATH": folder, "PYTHONDONTWRITEBYTECODE": "1", **(more or {})}
    return subprocess.run(words, capture_output=True, text=True, timeout=SECONDS, check=False, env=variables, cwd=cwd)


def differs(name: str, wanted, got) -> Outcome:
    return name, None if wanted == got else "wanted %r, got %r" % (wanted, got)


def raises(kind: type, what: Callable) -> Optional[str]:
    try:
        what()
    except kind:
        return None
    return "no %s" % kind.__name__


class Broken(Exception):
    """A connection broke."""


class Refused(Exception):
    """The store refused."""


def ended(session, pairs: list, how: Optional[Exception], committing: bool) -> None:
    """A transaction of these reads and writes that ends so."""
    try:
        with session.transaction(refused=(Refused,)) as one:
            for does, key, value in pairs:
                (one.read if does == "r" else one.write)(key, value)
            if committing:
                one.committing()
            if how:
                raise how
    except (Broken, Refused):
        pass
