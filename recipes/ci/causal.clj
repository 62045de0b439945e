; A checker for tests of Jepsen: is the history causally consistent?
;
; Copy this file to src/tcc/causal.clj of the test, and compose it with the test's other checkers:
;
;   (require (quote [tcc.causal :as causal]))
;   :checker (checker/compose {:causal (causal/checker {}), :stats (checker/stats)})
;
; It writes the history into the test's folder of store/, has it judged, and leaves the page causal.html beside it. What it
; returns is what a checker returns: :valid? is true, false, or :unknown where nothing was judged, and then :error says why.
;
; Options:
;   :command   the words that call report.py, by default ["tcc-report"], which pip installs with the package of python/;
;              else ["python3" "/path/to/recipes/report.py"]
;   :options   more words for it, such as ["--level" "atomic"] or ["--workers" "4"]
;   :tcc       the path of the program, by default what TCC names, or tcc on the path
;
; The history's transactions are those of recipes/jepsen.py: :f :txn with [:r k v], [:w k v] or [:append k v], or :read and
; :write of one register; independent keys too.
(ns tcc.causal
  (:require [clojure.java.io :as io]
            [clojure.java.shell :as shell]
            [clojure.string :as str]
            [jepsen.checker :as checker]
            [jepsen.store :as store]))

(def verdicts
  "What the statuses of report.py say."
  {0 true, 1 false})

(defn write-history!
  "Writes operations as plain maps, one in a line."
  [file history]
  (with-open [out (io/writer file)]
    (binding [*out* out
              *print-length* nil
              *print-level* nil
              *print-namespace-maps* false]
      (doseq [op history]
        (prn (into {} op))))))

(defn judge
  "Runs the command on a file of a history: a map of its status, what it said, and its errors."
  [file page {:keys [command options tcc]}]
  (let [words (concat (or command ["tcc-report"])
                      [(str file) "-o" (str page)]
                      (when tcc ["--tcc" tcc])
                      options)]
    (try
      (let [{:keys [exit out err]} (apply shell/sh words)]
        {:status exit, :said (str/trim out), :error (str/trim err)})
      (catch java.io.IOException error
        {:status 127, :said "", :error (.getMessage error)}))))

(defn checker
  "A checker of causal consistency. Options are those of this file's head."
  [options]
  (reify checker/Checker
    (check [this test history opts]
      (let [in-store (fn [file-name]
                       (store/path! test (:subdirectory opts) file-name))
            file     (in-store "causal.edn")
            page     (in-store "causal.html")
            _        (io/delete-file page true) ; none of an earlier run stays
            _        (write-history! file history)
            found    (judge file page options)
            valid    (get verdicts (:status found) :unknown)]
        (cond-> {:valid? valid, :said (:said found), :status (:status found)}
          (.exists (io/file page))
          (assoc :page (str page))

          (= :unknown valid)
          (assoc :error (str/trim (str (:said found) " " (:error found)))))))))
