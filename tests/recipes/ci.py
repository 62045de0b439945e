"""The steps of recipes/ci for a forge: run as the forge runs them, on records of each kind and on histories, they end as they have to.
The checker for Jepsen: its forms, and where Clojure is there, what it returns."""
import json
import os
import pathlib
import re
import shutil
import subprocess
import sys
import tempfile
from typing import Dict, Iterator, List, Optional

TOP = pathlib.Path(__file__).resolve().parent.parent.parent
sys.path.insert(0, str(TOP / "tests"))
from counted import Outcome  # noqa: E402

STEP = TOP / "recipes/ci/causal.yml"
SECONDS = 1800
STALE = "a,begin\na,w,x,1\na,commit\na,begin\na,r,x,0\na,commit\n"
# The files of the folder, the status, and what the step prints.
CASES = (
    ("a promise that was kept", {"a.csv": "a,begin\na,w,x,1\na,commit\n", "b.csv": "b,begin\nb,r,x,1\nb,commit\n"}, 0,
     "consistent: 2 transactions, 2 sessions\n"),
    ("a stale read", {"a.csv": STALE}, 1, "anomaly: 3 steps, stale-initial-read\n"),
    ("a read of nothing", {"a.csv": "a,begin\na,r,x,7\na,commit\n"}, 2, "unresolved: 1 faults\nThinAir a/1 op 1 x 7\n"),
    ("a record that is none", {"a.csv": "a,begin\na,q,x,7\n"}, 3, "row 2: UnknownWord\n"),
    ("a transaction without an end", {"a.csv": "a,begin\n"}, 3, "row 1: Unfinished a\n"),
    ("only an aborted transaction", {"a.csv": "a,begin\na,abort\n"}, 3, "order: init\n"),
    ("an empty file", {"a.csv": ""}, 3, "order: init\n"),
    ("no file", {}, 3, ""),
)
HISTORY_STEP = TOP / "recipes/ci/causal-jepsen.yml"
CHECKER = TOP / "recipes/ci/causal.clj"
WROTE = "{:type :ok, :f :txn, :value [[:w :x 5]], :process 0, :index 0}\n"
# The history, the status, and what the step prints.
HISTORIES = (
    ("a promise that was kept", WROTE + "{:type :ok, :f :txn, :value [[:r :x 5]], :process 1, :index 1}\n", 0, "consistent"),
    ("a stale read", WROTE + "{:type :ok, :f :txn, :value [[:r :x nil]], :process 0, :index 1}\n", 1, "an anomaly, 1 contradicted read"),
    ("a value from nowhere", WROTE + "{:type :ok, :f :txn, :value [[:r :x 7]], :process 0, :index 1}\n", 2, "unresolved"),
    ("nothing that committed", WROTE.replace(":ok", ":fail"), 3, "nothing was judged"),
    ("no history", "", 3, "nothing was judged"))
# What the checker needs of Jepsen, in a form of its own; and a run of it on histories whose operations are records.
JEPSEN = {
    "jepsen/checker.clj": "(ns jepsen.checker) (defprotocol Checker (check [checker test history opts]))",
    "jepsen/store.clj": """(ns jepsen.store (:require [clojure.java.io :as io]))
(defn path! [test & parts]
  (let [file (apply io/file (:folder test) (remove nil? parts))] (io/make-parents file) file))""",
    "run.clj": """(ns run (:require [jepsen.checker :as checker] [tcc.causal :as causal]))
(defrecord Op [index time type process f value])
(defn history [second] [(->Op 0 10 :ok 0 :txn [[:w :x 5]]) (->Op 1 20 :info :nemesis :kill nil) (->Op 2 30 :ok 0 :txn [[:r :x second]])])
(let [[folder tcc script python] *command-line-args*
      options {:command [python script] :tcc tcc}
      told (fn [options ops opts] (checker/check (causal/checker options) {:folder folder} ops opts))]
  (doseq [one [(told options (history 5) {})
               (told options (history nil) {:subdirectory "independent/7"})
               (told options (history 9) {})
               (told options [] {})
               (told (assoc options :options ["--level" "atomic" "--require" "3"]) (history 5) {})
               (told {:command ["/nonexistent/tcc-report"]} (history 5) {})]]
    (prn one))
  (shutdown-agents))
"""}
# What it returns for each.
RETURNED = (("true", 0, "causal.html"), ("false", 1, "independent/7/causal.html"), ("unknown", 2, "causal.html"), ("unknown", 3, "causal.html"),
            ("unknown", 3, "causal.html"), ("unknown", 127, None))


def script_of(step: str, workflow: pathlib.Path = STEP) -> str:
    """The lines that a step of the workflow runs."""
    found = re.search(r"      - name: %s\n        run: \|\n((?:          .*\n)+)" % step, workflow.read_text())
    return re.sub(r"^ {10}", "", found.group(1), flags=re.MULTILINE)


def wrong_history(text: str, status: int, printed: str, program: str) -> Optional[str]:
    """The step for a history of Jepsen."""
    with tempfile.TemporaryDirectory() as name:
        folder = pathlib.Path(name)
        for part in ("recipes", "python"):
            (folder / part).symlink_to(TOP / part)
        latest = folder / "store/latest"
        latest.mkdir(parents=True)
        (latest / "history.edn").write_text(text)
        done = subprocess.run(["bash", "-e", "-c", script_of("Judge", HISTORY_STEP)], cwd=folder, env={**os.environ, "TCC": program},
                              capture_output=True, text=True, timeout=SECONDS, check=False)
        if done.returncode != status or printed not in done.stdout:
            return "status %d: %s" % (done.returncode, done.stdout + done.stderr)
        return None if (latest / "causal.html").exists() else "there is no page"


def checker(program: str) -> Iterator[Outcome]:
    """The forms of the checker for Jepsen; and where Clojure is there, what it returns for histories of each kind."""
    read = subprocess.run([sys.executable, str(TOP / "recipes/edn.py"), str(CHECKER)], capture_output=True, text=True, timeout=SECONDS, check=False)
    forms = [json.loads(line) for line in read.stdout.splitlines()]
    heads = [form[:2] for form in forms]
    yield "forms of the checker", None if heads == [["ns", "tcc.causal"], ["def", "verdicts"], ["defn", "write-history!"], ["defn", "judge"],
                                                   ["defn", "checker"]] else "%s %s" % (heads, read.stderr)
    if not shutil.which("clojure"):
        print("the checker for Jepsen: not run: no clojure on the path")
        return
    with tempfile.TemporaryDirectory() as name:
        folder = pathlib.Path(name)
        for path, text in {**JEPSEN, "tcc/causal.clj": CHECKER.read_text()}.items():
            (folder / path).parent.mkdir(exist_ok=True)
            (folder / path).write_text(text)
        done = subprocess.run(["clojure", "-cp", name, str(folder / "run.clj"), str(folder / "store"), program, str(TOP / "recipes/report.py"),
                               sys.executable], cwd=folder, capture_output=True, text=True, timeout=SECONDS, check=False)
        told = subprocess.run([sys.executable, str(TOP / "recipes/edn.py")], input=done.stdout, capture_output=True, text=True, timeout=SECONDS,
                              check=False)
        got = [json.loads(line) for line in told.stdout.splitlines()]
        yield "runs of the checker", None if len(got) == len(RETURNED) else done.stdout + done.stderr
        for one, (valid, status, page) in zip(got, RETURNED):
            is_so = (str(one["valid?"]).lower() == valid and one["status"] == status and (one.get("page") or "").endswith(page or "")
                     and ("page" in one) == (page is not None) and ("error" in one) == (valid == "unknown"))
            yield "the checker, status %d" % status, None if is_so else str(one)
        histories = [len((folder / "store" / path / "causal.edn").read_text().splitlines()) for path in ("", "independent/7")]
        yield "histories of the checker", None if histories == [3, 3] else str(histories)


def wrong_step(files: Dict[str, str], status: int, printed: str, program: str) -> Optional[str]:
    with tempfile.TemporaryDirectory() as name:
        folder = pathlib.Path(name)
        shutil.copytree(TOP / "recipes/ci", folder / "recipes/ci")
        (folder / "clients").mkdir()
        for file, text in files.items():
            (folder / "clients" / file).write_text(text)
        # As a forge runs it: by a shell that ends with the first command that fails.
        done = subprocess.run(["bash", "-e", "-c", script_of("Judge")], cwd=folder, env={**os.environ, "TCC": program},
                              capture_output=True, text=True, timeout=SECONDS, check=False)
        if done.returncode != status:
            return "status %d: %s" % (done.returncode, done.stdout + done.stderr)
        if printed not in done.stdout:
            return "printed %r" % done.stdout
        if (status != 0) != ("judge.sh: " in done.stderr):
            return "standard error: %r" % done.stderr
        kept = {path.name for path in (folder / "clients/judged").iterdir()}
        return None if "records" in kept else "kept %s" % sorted(kept)


def outcomes(tcc: List[str]) -> Iterator[Outcome]:
    program = os.path.abspath(tcc[-1])
    for about, files, status, printed in CASES:
        yield "step of a forge, %s" % about, wrong_step(files, status, printed, program)
    done = subprocess.run(["sh", str(TOP / "recipes/ci/judge.sh"), "--help"], capture_output=True, text=True, timeout=SECONDS, check=False)
    yield "help of judge.sh", None if done.returncode == 0 and "\nexample:\n" in done.stdout else "%d, %r" % (done.returncode, done.stdout)
    yield "step of a forge, no program", wrong_step({"a.csv": STALE}, 127, "", "/nonexistent/tcc")
    for about, text, status, printed in HISTORIES:
        yield "step for a history, %s" % about, wrong_history(text, status, printed, program)
    yield from checker(program)
