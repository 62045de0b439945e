"""Fixtures for pytest: `tcc_recorder` records what a test's clients see, and `assert_causal` fails where the store broke its promise.

    def test_store(tcc_recorder, assert_causal):
        session = tcc_recorder.session("c1")
        with session.transaction() as one:
            one.read("x", store.get("x"))
        assert_causal(tcc_recorder)

`watched_recorder` records as `tcc_recorder` does, and `tcc watch` answers meanwhile: the first transaction that begins after the store
broke its promise raises `BrokenPromise`. The test fails where that was raised in a thread of a client alone, too, and where the last
answer, for all records, isn't consistent.

A test that judged nothing fails too: one with no records, with records that break a rule, or without the program. `--tcc PATH`,
or the variable TCC, names the program.
"""
import contextlib
import pathlib
import pytest
from typing import Any, Iterator, Optional, Union

from tcc.common.appended import Path
from tcc.judging import judge
from tcc.judging.program import NoAnswer
from tcc.judging.runner import Consistent, Unresolved, explain
from tcc.judging.survey import survey
from tcc.record.known import hint_of_pending
from tcc.record.memory import MemoryRecorder
from tcc.record.recorder import VERSIONS, Recorder
from tcc.watch.verdict import BrokenPromise
from tcc.watch.watching import stopping


def pytest_addoption(parser: Any) -> None:
    parser.addoption("--tcc", metavar="PATH", default=None, help="the program tcc, by default $TCC, or else the one on the path")


def pytest_runtest_makereport(item: Any, call: Any) -> None:
    """Keeps whether a test ended by an exception of its own."""
    if call.when == "call":
        item.tcc_has_raised = call.excinfo is not None


@pytest.fixture
def tcc_recorder(tmp_path: pathlib.Path) -> Iterator[Recorder]:
    """A recorder whose file is `records.csv` in the test's own folder; beside it are annotations, `notes.csv`, and `versions.csv`."""
    with Recorder(tmp_path / "records.csv", notes=tmp_path / "notes.csv", versions=tmp_path / "versions.csv") as one:
        yield one


@pytest.fixture
def watched_recorder(request: Any, tmp_path: pathlib.Path) -> Iterator[Recorder]:
    """A recorder whose file is `watched.csv` in the test's own folder; the test ends where the store is seen to break its promise."""
    one = Recorder(tmp_path / "watched.csv", watch=stopping(request.config.getoption("--tcc")))
    yield one
    with contextlib.suppress(BrokenPromise, NoAnswer):
        one.close()
    if getattr(request.node, "tcc_has_raised", False):
        return
    if one.broken is not None:
        pytest.fail("the store broke its promise (records: %s)\n%s" % (one.path, one.broken.text()), pytrace=False)
    if one.unjudged is not None:
        pytest.fail("nothing was judged: %s (records: %s)" % (one.unjudged, one.path), pytrace=False)


def used(versions: Optional[Path]) -> Optional[Path]:
    """A file of versions, where it has some."""
    return versions if versions is not None and pathlib.Path(versions).stat().st_size > len(VERSIONS) else None


class AssertCausal:
    """What the fixture `assert_causal` gives."""

    def __init__(self, tcc: Optional[str]):
        self.tcc = tcc

    def __call__(self, records: Union[Recorder, MemoryRecorder, bytes, Path], level: str = "causal", large: bool = True, require: int = 1,
                 sessions: str = "client", notes: Optional[Path] = None, versions: Optional[Path] = None, two_versions: str = "refuse") -> Consistent:
        """Asks `tcc` for a file of records, for those of a recorder, which it ends, or for records in memory. Gives the answer where that
        is consistent, of as many transactions as are required. The other words are those of `explain`; annotations and versions of a recorder
        are its own, and records in memory have none."""
        __tracebackhide__ = True
        if isinstance(records, (bytes, MemoryRecorder)):
            try:
                return judge.assert_causal(records, level=level, large=large, require=require, tcc=self.tcc)
            except AssertionError as error:
                pytest.fail(str(error), pytrace=False)
        if isinstance(records, Recorder):
            with contextlib.suppress(BrokenPromise, NoAnswer):  # what its watch found, the answer below says too
                records.close()
            notes, versions = notes or records.notes_path, versions or used(records.versions_path)
            records = records.path
        try:
            answer = explain(records, level=level, large=large, require=require, tcc=self.tcc, sessions=sessions, notes=notes, versions=versions,
                             two_versions=two_versions)
        except NoAnswer as error:
            pytest.fail("nothing was judged: %s (records: %s)" % (error, records), pytrace=False)
        if isinstance(answer, Consistent):
            return answer
        is_contradicted = isinstance(answer, Unresolved) and survey(
            records, level=level, large=large, tcc=self.tcc, sessions=sessions, notes=notes, versions=versions, two_versions=two_versions).is_any()
        hint = hint_of_pending(records, {(one.key, one.value) for one in answer.faults}) if isinstance(answer, Unresolved) else ""
        pytest.fail("%s (records: %s)\n%s%s" % (judge.fault_of(answer, is_contradicted), records, answer.text(), hint), pytrace=False)


@pytest.fixture
def assert_causal(request: Any) -> AssertCausal:
    """Called with a recorder, or the path of records, it gives the answer where that is consistent, and fails the test where the store broke
    its promise or nothing was judged. With `sessions="node"` each client has a session at each node."""
    return AssertCausal(request.config.getoption("--tcc"))
