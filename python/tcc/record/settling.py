"""Says of what recorders of one store left open how it ended, by what was read, as the command `tcc-settle`. A recorder that opens such a
file again ends it with `unknown`, which says the same; this is for who wants a commit or an abort."""
import contextlib
import os
import sys
from typing import Dict, Iterator, Sequence

from tcc.common.appended import Busy, NoRecord
from tcc.common.inputs import Foreign, check_records
from tcc.common.words import Arguments
from tcc.record.known import UnderWay, read_of
from tcc.record.recorder import Recorder


def settled(paths: Sequence[str]) -> Dict[str, int]:
    """How many committed since somebody in any of these files read a value of theirs, and how many count as aborted."""
    for path in paths:
        if not os.path.exists(path):
            raise FileNotFoundError("there is no file %s" % path)
    counts = {"commit": 0, "abort": 0}
    with contextlib.ExitStack() as held:
        recorders = [held.enter_context(left_open(path)) for path in paths]
        wanted = {pair for one in recorders for each in one._under_way.values() for pair in each.writes}
        seen = read_of([one._records.lines() for one in recorders], wanted)

        def end_of(one: UnderWay) -> str:
            end = "commit" if seen.intersection(one.writes) else "abort"
            counts[end] += 1
            return end

        for one in recorders:
            one._end_all(end_of)
            one._end_records()
    return counts


@contextlib.contextmanager
def left_open(path: str) -> Iterator[Recorder]:
    """A recorder of a file; where something fails, what is open there stays so."""
    one = Recorder(path)
    try:
        yield one
    finally:
        one._close_files()


def main() -> int:
    ask = Arguments(description="Ends the records of processes that died: what was under way committed if somebody read a value of "
                                  "it in any of these files, else it counts as aborted.")
    ask.add_argument("records", nargs="+", metavar="RECORDS", help="the files that they recorded into: all of one store")
    asked = ask.parse_args()
    try:
        check_records(*asked.records)
        counts = settled(asked.records)
    except (OSError, NoRecord, Busy, Foreign) as error:
        print("tcc-settle: %s" % error, file=sys.stderr)
        return 1
    print("tcc-settle: of unknown outcome %d read, so committed, %d unread, so aborted" % (counts["commit"], counts["abort"]),
          file=sys.stderr)
    return 0


if __name__ == "__main__":
    sys.exit(main())
