"""Workloads for property tests with Hypothesis: which client does which transaction, in which order, and what each reads and writes.

    @given(transactions())
    def test_store(workload):
        store, recorder = Store(), MemoryRecorder()
        sessions = {name: recorder.session(name) for name in {one.session for one in workload}}
        for one in workload:
            with sessions[one.session].transaction() as noted, store.transaction() as mine:
                for step in one.steps:
                    if step.does == "r":
                        noted.read(step.key, mine.get(step.key))
                    else:
                        value = recorder.new_value()
                        noted.write(step.key, value)
                        mine.put(step.key, value)
        assert_causal(recorder)

What Hypothesis shrinks a failure to has few transactions of few steps, of the first sessions and keys.
"""
from dataclasses import dataclass
from typing import List, Sequence, Tuple, Union

from hypothesis import strategies as st

Names = Union[int, Sequence[str]]


@dataclass(frozen=True)
class Step:
    """What a transaction is to do at a key: a read (`r`) or a write (`w`), whose value the test takes from its recorder."""

    does: str
    key: str


@dataclass(frozen=True)
class Planned:
    """A transaction that a session is to do."""

    session: str
    steps: Tuple[Step, ...]


def names_of(names: Names, stem: str) -> List[str]:
    """The names, or so many that begin with a stem."""
    return ["%s%d" % (stem, number) for number in range(1, names + 1)] if isinstance(names, int) else list(names)


def steps(keys: Names = 3) -> "st.SearchStrategy[Step]":
    """A read or a write of one of these keys, or of so many."""
    return st.builds(Step, st.sampled_from("rw"), st.sampled_from(names_of(keys, "k")))


def transactions(*, sessions: Names = 3, keys: Names = 3, min_size: int = 0, max_size: int = 20, max_steps: int = 4,
                 ) -> "st.SearchStrategy[List[Planned]]":
    """Workloads of `min_size` to `max_size` transactions in the order in which they begin, of 1 to `max_steps` steps each. Sessions and
    keys are names, or how many there are: then c1, c2 and so on, and k1, k2 and so on."""
    one = st.builds(Planned, st.sampled_from(names_of(sessions, "c")), st.lists(steps(keys), min_size=1, max_size=max_steps).map(tuple))
    return st.lists(one, min_size=min_size, max_size=max_size)
