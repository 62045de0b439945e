"""Makes one page of HTML of a history: what is wrong with it, how often, where, and how one sees that.

The history is one of records, as `tcc explain` takes them, or one of Jepsen or Elle, EDN or JSON, as jepsen.py takes them. The
script imports it, asks `tcc explain` for the answer (with --large where the history has to have that), lists every contradicted
read, has the certificate checked by `tcc check`, and writes the page. It needs no network
and no other file.

The status is 0 where the history is consistent; 1 where it breaks the promise: an anomaly, a contradicted read, or one that no promise
lets be (of an aborted transaction, of a value that was written over, of one's own later write, or not of one's own last one); 2 where
reads can't be traced to a write; 3 where nothing was judged, since fewer transactions committed than --require says or none of them
read anything, and there too where the history can't be read; 127 where there is no program, 130 where it was interrupted, and that
of `tcc` where its run failed. Where a run fails no page is written, and an old one is gone.
"""
import argparse
import gc
import os
import pathlib
import sys
import tempfile
from typing import Iterator

from tcc.common.notes import NoNotes
from tcc.common.outputs import check_free, make_room, write_whole
from tcc.common.progress import Doing, status_of
from tcc.common.rows import Unfit
from tcc.common.words import add_tcc, command_line, count, count_within
from tcc.imports import jepsen
from tcc.imports.operations import Untold
from tcc.judging.program import NoAnswer
from tcc.judging.noted_versions import NoVersions
from tcc.judging.versions import add_two_versions
from tcc.record.sessions import WAYS
from tcc.show.anomalies import Examples, anomalies, not_judged
from tcc.show.findings import Findings
from tcc.show.gathering import Work, gathered
from tcc.show.operations import operations
from tcc.show.overview import how_often, summary, verdict, what_reads, where
from tcc.show.page import counted, many, number, page, text

EXAMPLE = """example: one page of the history that Jepsen left
  $ report.py store/latest/history.edn -o report.html
  report.html: an anomaly, 37 contradicted reads
"""
KEPT = ("records.csv", "versioned.csv", "names.csv", "answer.json", "certificate.txt", "slice.csv", "least.json", "survey.json")
STATUSES = {"good": 0, "bad": 1, "doubt": 2, "nothing": 3}
NOT_READ = 3


def certificate(told: Findings) -> Iterator[str]:
    yield "<h2>Certificate</h2>"
    if told.check is None or told.state == "nothing":
        yield "<p>There is none: %s.</p>" % ("what is unresolved has no certificate" if told.check is None else "nothing was judged")
        return
    is_accepted = told.check.startswith("accepted")
    if told.lists is not None:
        yield ("<p>It is one of the records that the lists are judged by; that these say what the lists say is the import's, and isn't checked by "
               "<code>tcc</code>.</p>")
    if told.versioned:
        yield ("<p>It is one of the records with versions, of which <code>tcc</code> knows nothing: that these say what the versions say is this "
               "script's.</p>")
        if told.versioned.doubts:
            yield "<p>%s.</p>" % text(told.versioned.said_of_doubts())
    cycle = "the cycle that tcc explain printed" if told.is_of_slice or told.versioned else "the cycle above"
    claim = ("that its order explains every read" if told.verdict == "consistent" else
             "that each link of %s holds" % cycle if told.check.endswith("least not claimed") else
             "that %s is one of these records, and that none has fewer steps" % cycle)
    if is_accepted:
        by = "by rules, and by a search for shorter cycles," if told.is_searched else "by rules alone, without any search,"
        yield "<p>\u2713 <code>%s</code>: <code>tcc check</code> found %s %s.</p>" % (text(told.check), by, text(claim))
    else:
        yield "<p>\u2717 <code>%s</code>: <code>tcc check</code> did <strong>not</strong> accept the certificate.</p>" % text(told.check)
    yield ("<p>A second opinion, which shares nothing with <code>tcc</code>: <code>python3 -m tcc.recheck%s %s certificate.txt</code>, with the files that "
           "<code>--keep FOLDER</code> keeps.</p>" % (" --large" if told.tcc.is_large else "", told.judged))


def made_by(told: Findings) -> Iterator[str]:
    yield "<h2>How this was made</h2>"
    lines = ["$ %s\n    status %d, %.1f s" % (one.said, one.status, one.seconds) for one in told.commands]
    yield "<pre>%s</pre>" % text("\n".join(lines))
    if not told.imported:
        return
    said_of_it = [*told.imported.warnings(), *told.imported.summary()]
    yield "<h3>What the import says</h3><ul>%s</ul>" % "".join("<li>%s</li>" % text(one) for one in said_of_it)
    named = list(told.imported.table())
    if named:
        rows = "".join("<tr><td>%s</td><td><code>%s</code></td><td><code>%s</code></td></tr>" % tuple(map(text, row)) for row in named[:200])
        more = "<p>and %s more</p>" % number(len(named) - 200) if len(named) > 200 else ""
        yield ('<details><summary>%s that can\'t stand in a record</summary><table><thead><tr><th>what</th><th>in the records</th><th>in the history'
               '</th></tr></thead><tbody>%s</tbody></table>%s</details>' % (text(many(len(named), "name")), rows, more))


def body(told: Findings) -> Iterator[str]:
    examples = Examples(told)
    yield "<header><h1>tcc report: %s</h1>" % text(told.name)
    yield from verdict(told)
    yield summary(told)
    yield "</header><main>"
    yield from where(told)
    yield from how_often(told)
    yield from anomalies(told, examples)
    yield from not_judged(told, examples)
    yield from operations(told, examples.labels)
    yield from certificate(told)
    yield from made_by(told)
    yield "</main><footer>p0/3 is the third transaction of session p0, aborted ones counted; init wrote nil, the initial value, at every key.</footer>"


def result(told: Findings) -> str:
    """The line for the terminal."""
    heads = {"good": "consistent", "bad": "an anomaly" if told.verdict == "anomaly" else "a violation", "doubt": "unresolved",
             "nothing": "nothing was judged"}
    more = ", " + many(len(told.contradicted), "contradicted " + what_reads(told)) if told.contradicted else ""
    faults = told.violations()
    return heads[told.state] + more + (", " + counted(faults) if faults else "")


def arguments() -> argparse.Namespace:
    ask = command_line(__doc__, EXAMPLE)
    ask.add_argument("history", metavar="HISTORY", help="the file of the records, or of Jepsen's operations, packed by gzip or not; - is "
                     "standard input")
    ask.set_defaults(name="")
    ask.add_argument("-o", "--output", metavar="FILE", default="report.html", help="the page, by default report.html")
    ask.add_argument("--level", choices=("causal", "atomic"), default="causal", help="by default causal")
    ask.add_argument("--workers", type=count, metavar="N", help="so many threads search for an anomaly")
    ask.add_argument("--notes", metavar="FILE", help="annotations of the records, as recorders write them with --notes")
    ask.add_argument("--initial", metavar="JSON", type=jepsen.json_text, default="null", help="as of jepsen.py")
    jepsen.add_chosen(ask)
    ask.add_argument("--log", action="store_true", help="as of jepsen.py: each list has to be the beginning of one log")
    ask.add_argument("--sessions", choices=WAYS, default="client", help="by node each client has a session at each node where --notes, or the "
                     "history, says that it was; by default by client")
    ask.add_argument("--versions", metavar="FILE", nargs="?", const=True, help="judges with versions: of records those of the file, lines "
                     "key,value,version; of a history those in it, as of jepsen.py")
    add_two_versions(ask)
    ask.add_argument("--require", type=count_within(0, 10**9), metavar="N", default=1, help="status 3 where fewer transactions committed; by "
                     "default 1")
    ask.add_argument("--keep", metavar="FOLDER", help="keeps the records, answers and certificates in this folder")
    add_tcc(ask)
    return ask.parse_args()


def run(asked: argparse.Namespace, doing: Doing, folder: str) -> int:
    told = gathered(asked, Work(pathlib.Path(folder), doing))
    doing.now("writes the page")
    write_whole(asked.output, page("tcc report: " + told.name, body(told)))
    doing.say("%s: %s" % (asked.output, result(told)), sys.stdout)
    return STATUSES[told.state]


def run_in_a_folder(asked: argparse.Namespace, doing: Doing) -> int:
    """In the folder that is to be kept, or else in one that goes."""
    inputs = [one for one in (asked.history, asked.notes, asked.versions) if isinstance(one, str)]
    make_room(asked.output, inputs)
    if asked.keep:
        os.makedirs(asked.keep, exist_ok=True)
        check_free(asked.keep, KEPT, inputs)
        return run(asked, doing, asked.keep)
    with tempfile.TemporaryDirectory() as folder:
        return run(asked, doing, folder)


def main() -> int:
    asked = arguments()
    gc.disable()  # nothing here is held in a circle, and of millions of operations the collector takes a third of the time
    return status_of("report.py", "reads the history", lambda doing: run_in_a_folder(asked, doing), "interrupted: no page was written",
                     (NoAnswer, Untold, Unfit, NoNotes, NoVersions, OSError, EOFError, ValueError), NOT_READ)


if __name__ == "__main__":
    sys.exit(main())
