"""Histories of other tools: records as EDN and as plain lines, and back."""
import io
import os
import pathlib
import random
import sys
from typing import Dict, Iterator, List, Tuple

from counted import Outcome
from helpers import differs, raises, run

RECORDS = ["a,begin", "a,w,x,5", "p2,begin", "a,commit", "p2,r,x,5", "p2,r,8,0", "p2,commit", "b,begin", "b,r,x,5", "b,w,y,3", "b,unknown",
           "c,begin", "c,w,z,9", "c,abort", "d,begin", "d,w,u,7", "d,unknown", "p2,begin", "p2,r,y,3", "p2,commit"]
EDN = """{:type :invoke, :f :txn, :value [[:w "x" 5]], :process 0, :index 0}
{:type :invoke, :f :txn, :value [[:r "x" nil] [:r 8 nil]], :process 2, :index 1}
{:type :ok, :f :txn, :value [[:w "x" 5]], :process 0, :index 2}
{:type :ok, :f :txn, :value [[:r "x" 5] [:r 8 nil]], :process 2, :index 3}
{:type :invoke, :f :txn, :value [[:w "y" 3]], :process 1, :index 4}
{:type :info, :f :txn, :value [[:w "y" 3]], :process 1, :index 5}
{:type :invoke, :f :txn, :value [[:w "z" 9]], :process 3, :index 6}
{:type :fail, :f :txn, :value [[:w "z" 9]], :process 3, :index 7}
{:type :invoke, :f :txn, :value [[:w "u" 7]], :process 4, :index 8}
{:type :info, :f :txn, :value [[:w "u" 7]], :process 4, :index 9}
{:type :invoke, :f :txn, :value [[:r "y" nil]], :process 2, :index 10}
{:type :ok, :f :txn, :value [[:r "y" 3]], :process 2, :index 11}
"""
PLAIN = ["w(0,5,0,1)", "r(0,5,1,2)", "r(1,0,1,2)", "w(2,3,2,3)", "r(2,3,1,4)"]
TABLE = ["session,0,a", "session,1,p2", "session,2,b", "key,0,x", "key,1,8", "key,2,y"]
# Plain lines that can't be records, with what is said of them.
REFUSED = (("w(1,2,3)\n", "line 1 is neither r(KEY,VALUE,SESSION,TRANSACTION) nor w(..): w(1,2,3)"),
           ("\nw(1,-2,0,1)\n", "line 2: the value -2"), ("w(1,18446744073709551616,0,1)\n", "line 1: the value 18446744073709551616"),
           ("w(1,1,0,1)\nw(1,2,0,2)\nw(1,3,0,1)\n", "line 3: transaction 1 of session 0 goes on after another one"),
           ("r(1,2,0,1)\nw(1,0,0,1)\n", "line 1: transaction 1 of session 0 writes the initial value"))


def drawn(pick: random.Random) -> List[Tuple[str, List[Tuple[str, str, int]], str]]:
    """Transactions of sessions 0 to 2: what each did, and how it ended; a session ends with what is of unknown outcome."""
    found: List[Tuple[str, List[Tuple[str, str, int]], str]] = []
    over, written = set(), {"1": [0], "2": [0]}
    for number in range(1, pick.randrange(2, 12)):
        session, key, other = str(pick.randrange(3)), pick.choice("12"), pick.choice("12")
        if session in over:
            continue
        end = pick.choice(["commit"] * 6 + ["abort", "unknown"])
        steps = [("w", key, number)] if end != "commit" else [("r", other, pick.choice(written[other])), ("w", key, number)]
        written[key].append(number)
        found.append((session, steps, end))
        if end == "unknown":
            over.add(session)
    return found


def text_of(every: List[Tuple[str, List[Tuple[str, str, int]], str]], form: str = "%s") -> str:
    return "".join("{0},begin\n{1}{0},{2}\n".format(form % session, "".join("%s,%s,%s,%d\n" % (form % session, *one) for one in steps), end)
                   for session, steps, end in every)


def by_session(records: str) -> Dict[str, List[str]]:
    """The records of each session in its order."""
    found: Dict[str, List[str]] = {}
    for line in records.split():
        session, _, rest = line.partition(",")
        found.setdefault(session, []).append(rest)
    return found


def outcomes(folder: pathlib.Path, library: str) -> Iterator[Outcome]:
    from tcc.common.inputs import Foreign
    from tcc.common.rows import Unfit, read_history
    from tcc.common.progress import Doing
    from tcc.imports.imported import Imported
    from tcc.imports.jepsen import Reading, imported
    from tcc.imports.others import Plain, edn_of, history_at, plain_of

    def history(text: str):
        return read_history(io.StringIO(text))

    def again(text: str, initial: int = 0) -> str:
        return "".join(Plain(initial).records(text.encode().splitlines(keepends=True)))

    path, table, command = folder / "convert.csv", folder / "convert.table", os.path.join(library, "bin/tcc-convert")
    path.write_text("".join(line + "\n" for line in RECORDS))
    done = run([sys.executable, command, "--to", "edn", str(path)], library)
    yield differs("records as EDN", (0, EDN), (done.returncode, done.stdout))
    done = run([sys.executable, command, "--to", "plain", "--table", str(table), str(path)], library)
    yield differs("records as plain lines", (0, PLAIN), (done.returncode, done.stdout.split()))
    yield differs("what numbers represent", TABLE, table.read_text().split())
    yield "what is left out", None if "4 transactions; left out: 2 aborted ones" in done.stderr else done.stderr
    plain = folder / "convert.txt"
    plain.write_text("w(7,0,9,0)\n" + "".join(line + "\n" for line in PLAIN))
    done = run([sys.executable, command, "--from-plain", str(plain), "-o", str(folder / "converted.csv")], library)
    wanted = {"0": ["begin", "w,0,5", "commit"], "1": ["begin", "r,0,5", "r,1,0", "commit", "begin", "r,2,3", "commit"], "2": ["begin", "w,2,3", "commit"]}
    yield differs("records of plain lines", (0, wanted), (done.returncode, by_session((folder / "converted.csv").read_text())))
    yield "what is said of them", None if "4 transactions; left out: 1 that" in done.stderr else done.stderr
    yield differs("another initial value", ["3,begin", "3,r,1,0", "3,w,1,8", "3,commit"], again("r(1,-1,3,0)\nw(1,8,3,0)\n", -1).split())
    yield differs("who reads the initial state alone", ["3,begin", "3,r,1,0", "3,commit"], again("r(1,0,3,0)\n").split())
    yield "0 beside another initial value", raises(Unfit, lambda: again("r(1,0,3,0)\n", -1))
    for text, said in REFUSED:
        plain.write_text(text)
        done = run([sys.executable, command, "--from-plain", str(plain)], library)
        yield "plain lines %r" % text, None if done.returncode == 3 and said in done.stderr else done.stderr
    wrong = None
    for seed in range(200):
        every = drawn(random.Random(seed))
        text = text_of(every, "p%s")
        read = imported(Reading(io.BytesIO("".join(edn_of(history(text))).encode()), Imported({"null"}), Doing("reads"), "edn"), True)
        if by_session("".join(read.records())) != by_session(text):
            wrong = wrong or "seed %d, by EDN: %s" % (seed, "".join(read.records()))
        lines, names, count = plain_of(history(text_of(every)))
        kept = [one for one in history(text_of(every)).transactions.values() if one.committed]
        shown = text_of([(one.session, [(each.does, each.key, int(each.value)) for each in one.operations], "commit") for one in kept])
        if by_session(again("".join(lines))) != by_session(shown) or names or count != len(every) - len(kept):
            wrong = wrong or "seed %d, by plain lines: %s" % (seed, lines)
    yield "random histories there and back", wrong
    for about, content, kind in (("a history of Jepsen", EDN, Foreign), ("a record that is none", "a,begin\na,q\n", Unfit)):
        path.write_text(content)
        try:
            history_at(str(path))
            yield about, "it was read"
        except kind as error:
            yield about, None if "tcc-jepsen" in str(error) or "row 2 is no record" in str(error) else str(error)
