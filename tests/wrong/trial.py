#!/usr/bin/env python3
"""Tries `run.py` itself, on crates of some lines that it makes: what is no mutant isn't called refused.

In the crate `sums` a mutant in `one_more` is refused, and a body of `two_more`, which calls it, means the same: a refused callee
doesn't refuse its caller. In `unread` one body doesn't compile, and leaves its round to the other. In `outside` a mutant is in
the contract, and in no body. The crate `sums` is tried beside a gate that still runs, the others once it has ended. Then
what a check may say, line by line. The last line is `N passed, M failed`.
"""
import pathlib
import subprocess
import sys
import tempfile
from typing import Dict, Iterable, Iterator

HERE = pathlib.Path(__file__).resolve().parent
sys.path.insert(0, str(HERE.parent))
from counted import Outcome, status_of  # noqa: E402
from judging import is_by_proof_alone, judged, judged_alone  # noqa: E402
from mutants import Unusable, applied, function_at, pairs_of, places_of, rounds_of  # noqa: E402

SOURCE = """//! Sums.
#![tactic(auto)]
ghost use Rattle.std.specs.Prelude.{◌≡◌, ◌+◌};

pub fn one_more(number: u8) -> u16
    ensures { result ≡ number + 1 }
{
    u16::from(number) + 1
}

pub fn two_more(number: u8) -> u16
    ensures { result ≡ number + 2 }
{
    one_more(number) + 1
}
"""
WRONG = "old:     u16::from(number) + 1\nnew:     u16::from(number) + 2\n"
SAME = "old:     one_more(number) + 1\nnew:     1 + one_more(number)\n"
UNREAD = "old:     one_more(number) + 1\nnew:     one_more(nobody) + 1\n"
OUTSIDE = "old:     ensures { result ≡ number + 1 }\nnew:     ensures { result ≡ number + 3 }\n"
MUTANTS = {"sums": {"wrong": WRONG, "same": SAME}, "unread": {"wrong": WRONG, "unread": UNREAD}, "outside": {"contract": OUTSIDE}}
WANTED = {"sums/wrong": "refused: ", "sums/same": "NOT REFUSED: ", "unread/wrong": "refused: ", "unread/unread": "BAD: ",
          "outside/contract": "refused, alone"}
CLOSING = "3 passed, 2 failed"
# What a gate prints before it has come to the crate `outside`.
GATE = "rt: sums proved\nrt: unread: trying its must-fail edits (2)\n"

# What a check says of functions `low` and `high`, both with a mutant, and of `other`, which has none; and which are refused.
REFUSED = "fn c::m::low: no proof: expected answers in ./proofs/m/low/Answers.antt; `search` did not prove `returns`"
CALLS = "fn c::m::high: no proof: it calls `c::m::low`, which is not proved"
CLOSURE = "fn c::m::fn::low::position+FnMut::call_mut: no proof: expected answers in ./x; `search` did not prove `returns`"
OTHER = "fn c::m::other: no proof: expected answers in ./x; `search` did not prove `returns`"
UNFIT = "fn c::m::high: not proved; it calls `c::m::low`, which is not proved"
OWN_PROOF = "./proofs/m/high/Answers.antt:3:5: error: `returns`: the types differ"
NO_NAME = "./proofs/m/high/Answers.antt:3:5: error: `returns`: the goal has no field `kept`"
LEMMA = "./proofs/Lemmas.antt:3:5: error: `lemma`: the types differ"
UNSURE = "fn c::m::low: could not tell"
ENDED = "only=2 proved=0"
SAID = (
    ("a callee's refusal isn't the caller's", [REFUSED, CALLS, ENDED], {"m::low"}),
    ("a closure is part of its function", [CLOSURE, CALLS, ENDED], {"m::low"}),
    ("a proof of its own that doesn't fit", [REFUSED, OWN_PROOF, UNFIT, ENDED], {"m::low", "m::high"}),
    ("a proof that names what the mutant took away", [NO_NAME, UNFIT, ENDED], set()),
    ("one that can't be told", [UNSURE, CALLS, ENDED], set()),
    ("a function without a mutant fails", [REFUSED, OTHER, ENDED], None),
    ("a lemma is refused", [REFUSED, LEMMA, ENDED], None),
    ("it doesn't compile", ["./src/m.rt:1:1: error[unknown-name]: `x`"], None),
)
ALONE = (
    ("an obligation fails", [REFUSED, NO_NAME, UNFIT], False),
    ("a proof doesn't fit", [OWN_PROOF, NO_NAME, UNFIT], False),
    ("a proof alone names what is gone", [NO_NAME, UNFIT], True),
)
UNCOMPILED = ["./src/lib.rt:14:14: error[unknown-name]: `nobody`", "./src/lib.rt:6:15: error: the goal", "note"]
PLACES = (("u16::from", "one_more"), ("one_more(number)", "two_more"), ("result ≡ number + 2", None), ("#![tactic", None),
          ("pub fn two_more", None))


def write_repository(top: pathlib.Path) -> None:
    """A repository of crates with mutants."""
    (top / ".git").mkdir()
    (top / "crates.txt").write_text("".join("%s:\n" % one for one in MUTANTS))
    for crate, mutants in MUTANTS.items():
        for part in ("src", "wrong"):
            (top / "crates" / crate / part).mkdir(parents=True)
        (top / "crates" / crate / "src/lib.rt").write_text(SOURCE)
        for name, pairs in mutants.items():
            (top / "crates" / crate / "wrong" / (name + ".edit")).write_text("why: a trial\nfile: src/lib.rt\n" + pairs)


def through_sums(lines: Iterable[str]) -> Iterator[str]:
    """The lines up to the one that ends the crate `sums`."""
    for line in lines:
        yield line
        if line.startswith("== sums"):
            return


def run(top: pathlib.Path, gate: str, *asked: str) -> Dict[str, str]:
    """By name of a mutant what is said of it, and the last line under no name. A gate that prints this ends once `sums` is tried."""
    words = [sys.executable, str(HERE / "run.py"), "--beside-gate", "--lanes", "1", "--top", str(top), *asked]
    with subprocess.Popen(words, stdin=subprocess.PIPE, stdout=subprocess.PIPE, text=True) as running:
        running.stdin.write(gate)
        running.stdin.flush()
        lines = list(through_sums(running.stdout)) if gate else []
        running.stdin.close()
        lines += running.stdout
    lines = [one.rstrip() for one in lines] or [""]
    return {**dict(line.split(": ", 1) for line in lines if line.startswith(tuple(WANTED))), "": lines[-1]}


def outcomes_of_runs(top: pathlib.Path) -> Iterator[Outcome]:
    """What the crates come to, and once more with what is kept of them."""
    write_repository(top)
    said = run(top, GATE)
    for name, wanted in WANTED.items():
        yield name, None if said.get(name, "").startswith(wanted) else "wanted '%s', got '%s'" % (wanted, said.get(name))
    yield "the sum", None if said[""] == CLOSING else said[""]
    for one in ("unread/wrong/unread.edit", "sums/wrong/same.edit"):
        (top / "crates" / one).unlink()
    again = run(top, "")
    yield "what was refused is kept", None if again == {"": "3 passed, 0 failed"} else repr(again)
    late = run(top, "", "--minutes", "0", "--anew")
    yield "what there is no time for", None if late == {"": "0 passed, 1 failed"} else repr(late)


def outcomes_of_texts(top: pathlib.Path) -> Iterator[Outcome]:
    """What is made of texts of mutants and of checks."""
    for what, lines, wanted in SAID:
        said = judged(lines, {"m::low", "m::high"})
        got = None if said.fault else set(said.refused)
        yield what, None if got == wanted else "wanted %s, got %s" % (wanted, said)
    for text, wanted in PLACES:
        got = function_at("src/lib.rt", SOURCE, SOURCE.index(text))
        yield "where '%s' is" % text, None if got == wanted else "wanted %s, got %s" % (wanted, got)
    got = places_of(UNCOMPILED, top / "crates/sums")
    yield "where it doesn't compile", None if got == {"two_more"} else repr(got)
    for status, last, wanted in ((0, "logic=proved", "NOT REFUSED"), (2, "rattle: error", "BAD"), (3, "rattle: no verdict", "BAD")):
        yield "alone, status %d" % status, None if (judged_alone(status, [last], set()) or "").startswith(wanted) else last
    yield "alone, refused", judged_alone(1, [OTHER, "logic=not-proved"], set())
    for what, lines, wanted in ALONE:
        yield what, None if is_by_proof_alone(lines) == wanted else "wanted %s" % wanted
    mutant = top / "crates/sums/wrong/twice.edit"
    mutant.write_text("why: a trial\nfile: src/lib.rt\nold: number\nnew: none\n")
    try:
        applied(list(pairs_of(mutant)), top / "crates/sums")
        yield "a text that is there often", "no error"
    except Unusable:
        yield "a text that is there often", None
    yield "no mutant, no round", None if rounds_of([]) == ([], []) else "a round"


def outcomes() -> Iterator[Outcome]:
    with tempfile.TemporaryDirectory() as name:
        yield from outcomes_of_runs(pathlib.Path(name))
        yield from outcomes_of_texts(pathlib.Path(name))


if __name__ == "__main__":
    sys.exit(status_of(outcomes()))
