"""Records what clients of a store see, and asks `tcc` whether it kept transactional causal consistency."""
from tcc.common.appended import Busy, NoRecord
from tcc.judging.judge import Judge, assert_causal, judge
from tcc.judging.program import NoAnswer
from tcc.judging.runner import Anomaly, Answer, Consistent, Fault, Step, Unresolved, explain
from tcc.judging.survey import ContradictedRead, Surveyed, survey
from tcc.record.memory import MemoryRecorder
from tcc.record.recorder import Recorder
from tcc.record.transactions import Call, Read, Session, Transaction, Write
from tcc.watch.looking import Asking, Looking, look, seal, snapshot
from tcc.watch.watching import BrokenPromise, Watching

__all__ = ["Answer", "Anomaly", "Asking", "BrokenPromise", "Busy", "Call", "Consistent", "ContradictedRead", "Fault", "Judge", "Looking",
           "MemoryRecorder", "NoAnswer", "NoRecord", "Read", "Recorder", "Session", "Step", "Surveyed", "Transaction", "Unresolved", "Watching",
           "Write", "assert_causal", "explain", "judge", "look", "seal", "snapshot", "survey"]
