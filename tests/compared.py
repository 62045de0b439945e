"""Says where a text isn't the one that was wanted."""
import io
import itertools
import os
from typing import Optional

MOST_SHOWN = 200
SHOWN_BEFORE = 80


def shown(text: Optional[bytes], begin: int = 0) -> str:
    """A text, or so much of it from `begin` on as a report has room for."""
    if text is None:
        return "no such line"
    end = begin + MOST_SHOWN
    return repr(text[begin:end].decode(errors="backslashreplace")) + (" .." if len(text) > end else "")


def first_difference(what: str, wanted: bytes, got: bytes) -> Optional[str]:
    """The first line in which two texts differ, or None; of a long one the part where it begins to."""
    if wanted == got:
        return None
    pairs = enumerate(itertools.zip_longest(io.BytesIO(wanted), io.BytesIO(got)), 1)
    number, (one, other) = next((number, pair) for number, pair in pairs if pair[0] != pair[1])
    same = len(os.path.commonprefix([one or b"", other or b""]))
    begin = same - SHOWN_BEFORE if same >= MOST_SHOWN else 0
    where = ", from byte %d" % (begin + 1) if begin else ""
    return "%s, line %d%s: wanted %s, got %s" % (what, number, where, shown(one, begin), shown(other, begin))
