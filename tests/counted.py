"""Counts what tests find."""
import traceback
from typing import Iterable, Iterator, Optional, Tuple

# The name of a test, and what is wrong or None.
Outcome = Tuple[str, Optional[str]]


def status_of(outcomes: Iterable[Outcome]) -> int:
    """The exit status: 0 where there are outcomes and nothing is wrong. Each that is wrong is printed in a line, as soon as it
    comes, and then `N passed, M failed`."""
    passed = failed = 0
    for name, wrong in outcomes:
        if wrong is None:
            passed += 1
        else:
            failed += 1
            print("%s: %s" % (name, wrong), flush=True)
    if passed + failed == 0:
        print("no case has that name")
        failed = 1
    print("%d passed, %d failed" % (passed, failed))
    return 1 if failed else 0


def guarded(name: str, outcomes: Iterable[Outcome]) -> Iterator[Outcome]:
    """The outcomes of a part of a test. Where it raises an error, that is one more that is wrong, and other parts go on."""
    try:
        yield from outcomes
    except Exception as error:  # pylint: disable=broad-except
        place = traceback.extract_tb(error.__traceback__)[-1]
        yield name, "%s, in %s line %s: %s" % (type(error).__name__, place.filename, place.lineno, str(error)[:300])
