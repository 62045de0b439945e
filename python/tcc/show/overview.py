"""The parts of a page that say what is wrong, how often, and where in the run."""
import re
from typing import Dict, Iterator, List, Tuple

from tcc.common.notes import Note, is_time
from tcc.judging.answers import session_of
from tcc.judging.contradicted import Contradicted
from tcc.show.chart import Course, Span, chart
from tcc.show.findings import ABOUT, Findings, faults_of, keys_of
from tcc.show.list_terms import lists_read
from tcc.show.page import MOST_ROWS, both, capital, counted, counts, facts, many, number, sorted_counts, text

NANOSECONDS = 1e9
# What ends that which the nemesis began, where it isn't start-THIS and stop-THIS.
ENDS = {"stop": ["start"], "start": ["kill"], "resume": ["pause"], "heal": ["partition", "start-partition"]}
STOP = re.compile("^stop-")


def promise(told: Findings) -> str:
    return "causally consistent" if told.tcc.level == "causal" else "consistent at the level of Read Atomic"


def what_reads(told: Findings) -> str:
    return "list" if told.lists is not None else "read"


def verdict(told: Findings) -> Iterator[str]:
    """The sentence that says it."""
    committed, state, violations = told.committed(), told.state, told.violations()
    if state == "good":
        kind, head = "good", "\u2713 " + capital(promise(told)) + "."
        more = "There is an order of all %s that explains every %s. %s%s" % (
            many(committed, "committed transaction"), what_reads(told), could_have_failed(told), "" if told.versioned or told.lists is not None else
            " It was judged without versions: if the store numbers its writes, some stale reads show only with these numbers (--versions).")
    elif state == "nothing":
        kind, head = "doubt", "? Nothing was judged."
        more = ("%s, and %s required." % (many(committed, "transaction") + " committed", number(told.required) + (" is" if told.required == 1 else " are"))
                if committed < told.required else "No committed transaction read anything, so nothing could have failed.")
    elif state == "doubt":
        kind, head = "doubt", "? Not judged: %s can't be traced." % many(sum(told.doubts().values()), "operation")
        more = counted(told.doubts()) + "."
    else:
        kind, head = "bad", "\u2717 Not %s." % promise(told)
        parts = ["No order of the transactions explains all %ss together." % what_reads(told)] if told.verdict == "anomaly" else []
        if told.contradicted:
            verb = "is" if len(told.contradicted) == 1 else "are"
            old = "an element is missing, or stands in another order" if told.lists is not None else "a newer write of the key, and was shown an older state"
            reads = lists_read(told.lists) if told.lists is not None else told.found.reads
            parts = ["Of %s%s %s %s contradicted: %s." % (many(reads, what_reads(told)), " that can be traced" if told.verdict == "unresolved" else "", number(len(told.contradicted)), verb,
                                                        "the session knew of " + old if told.lists is None else "by what the session knew, " + old)]
        if violations:
            parts.append("No promise lets these be: %s." % counted(violations))
        if told.doubts():
            parts.append("Not judged: %s." % counted(told.doubts()))
        more = " ".join(parts)
    yield '<div class="verdict %s"><strong>%s</strong>%s</div>' % (kind, text(head), text(more))


def could_have_failed(told: Findings) -> str:
    """How much of a consistent history could have failed."""
    found, what = told.chances, what_reads(told)
    return "Of %s, %s what another session %s, %s of keys that several sessions %s, and %s both." % (
        many(found.reads, what), number(found.others) + (" shows" if told.lists is not None else " is of" if found.others == 1 else " are of"),
        "appended" if told.lists is not None else "wrote", number(found.shared), "append to" if told.lists is not None else "write",
        number(found.contested) + (" is" if found.contested == 1 else " are"))


def first_of(told: Findings) -> str:
    """Where the earliest contradicted read is: by the time of its transaction where each has one, else by row, and which of these."""
    def when(one: Contradicted) -> Tuple[float, int]:
        return float(told.notes[one.reader].time) if is_by_time else 0, one.operation.row

    is_by_time = all(is_time(told.notes.get(one.reader, Note()).time) for one in told.contradicted)
    first = min(told.contradicted, key=when)
    by = "by time: %.3f s, " % when(first)[0] if is_by_time else "by %s: " % ("line" if told.lists is not None else "row")
    return "%s%s, in %s" % (by, told.terms.where(first.reader, first.operation.row), first.reader)


def summary(told: Findings) -> str:
    labels, committed = told.labels, told.committed()
    keys = ({step.key for one in told.lists.transactions for step in one.steps} if told.lists is not None else keys_of(told.history))
    pairs = [("transactions", "%s, %s aborted" % (number(len(labels)), number(len(labels) - committed))),
             ("sessions", number(len({session_of(label) for label in labels}))), ("keys", number(len(keys))),
             ("promise", "causal consistency" if told.tcc.level == "causal" else "Read Atomic")]
    if told.contradicted:
        pairs.append(("first contradicted", first_of(told)))
    pairs.append(("certificate", told.check if told.check and told.state != "nothing" else "none"))
    return facts(pairs)


def happened(told: Findings, begin: int) -> Iterator[Tuple[str, float]]:
    """What happened meanwhile, and when: what the nemesis did, where the second of two lines says that it was done, and events."""
    before = ""
    for one in told.imported.nemesis if told.imported else []:
        if one.time is None or one.does == before:
            before = ""
            continue
        before = one.does
        yield one.does, (one.time - begin) / NANOSECONDS
    for event in told.events:
        yield event.what, event.time


def spans(told: Findings, begin: int) -> List[Span]:
    """What happened meanwhile, from its beginning to its end where both are named so."""
    found: List[Span] = []
    is_open: Dict[str, Span] = {}
    for does, at in happened(told, begin):
        word, gap, rest = does.partition(" ")  # such as pause n1
        ends = next((each + gap + rest for each in ENDS.get(word, [STOP.sub("start-", word)]) if each + gap + rest in is_open), None)
        if ends is not None and ends != does:
            is_open.pop(ends).end = at
        else:
            found.append(Span(does, at))
            is_open[does] = found[-1]
    return found


def course(told: Findings) -> Course:
    """Where contradicted reads lie: over time where every one has one, else over the rows."""
    where = [(one.reader, one.operation.row) for one in told.contradicted]
    faults = [(one.label, one.operation.row) for one in faults_of(told)]
    if told.lists is not None:
        faults += [(told.lists.label(one.number), told.lists.transactions[one.number].line) for one in told.lists.faults]
    times = [float(note.time) for note in told.notes.values() if is_time(note.time)]
    if times and all(is_time(told.notes.get(label, Note()).time) for label, _ in [*where, *faults]):
        spanned = spans(told, told.imported.begin() if told.imported else 0)
        end = max([*times, *(one.end or one.begin for one in spanned)])
        return Course(end, "s", [float(told.notes[label].time) for label, _ in where], [float(told.notes[label].time) for label, _ in faults],
                      [one if one.begin >= 0 else Span(one.what, 0, one.end) for one in spanned])
    last = max((one.last for one in told.history.transactions.values()), default=1)
    if told.lists is not None:
        last = max(one.line for one in told.lists.transactions)
    return Course(last, "row" if told.lists is None else "line", [row for _, row in where], [row for _, row in faults], [], 1)


def where(told: Findings) -> Iterator[str]:
    if not told.contradicted and not faults_of(told) and not (told.lists and told.lists.faults):
        return
    mine = course(told)
    yield "<h2>Where in the run</h2>"
    kinds = [what for what, found in (("what no promise lets be", told.violations()), ("what can't be judged", told.doubts())) if found]
    yield '<p class="faint">Each bar is a part of the run: the contradicted %ss in it%s%s.</p>' % (
        what_reads(told), ", and dotted above them " + ", and ".join(kinds) if mine.faults else "",
        "; hatched, what happened meanwhile" if any(one.end is not None for one in mine.spans) else "")
    yield both(chart(mine, 920, 56), chart(mine, 350, 26), "scroll plain")


def how_often(told: Findings) -> Iterator[str]:
    if not told.contradicted:
        return
    yield "<h2>What is contradicted</h2>"
    if told.lists is not None:
        yield ("<p>A list is contradicted where it lacks an element of which its transaction knew, by its session or by what it saw, or where its "
               "order contradicts that. Each is an anomaly by itself; a list counts once.</p>")
    else:
        yield ("<p>A read is contradicted where its transaction knew of a newer write of the key, by its session or by what it read. Each is an "
               "anomaly by itself; what a transaction reads of a key from one write counts once.</p>")
    yield '<p class="faint">%s What takes several %ss together isn\'t counted%s.</p>' % (
        "<code>tcc survey</code> lists them, and this script beside them those that are by versions alone." if told.is_proved and told.versioned else
        "<code>tcc survey</code> lists them; that these are all is a theorem about it." if told.is_proved else
        "This script lists them; the answer, and what is shown of the answer\'s anomaly, are the program\'s.", what_reads(told),
        "" if told.lists is not None else "; <code>all.py</code> looks for that too")
    yield counts("By name", sorted_counts((one.name for one in told.contradicted), ABOUT), MOST_ROWS, "names")
    yield '<div class="tables">'
    yield counts("By key", sorted_counts((told.terms.key(one.operation.key) for one in told.contradicted), {}), MOST_ROWS, "keys")
    yield counts("By session that read", sorted_counts((session_of(one.reader) for one in told.contradicted), {}), MOST_ROWS, "sessions")
    nodes = [(told.notes.get(one.writer, Note()).node, told.notes.get(one.reader, Note()).node) for one in told.contradicted]
    if any(read for _, read in nodes):
        yield counts("By node that was read", sorted_counts((read or "not told" for _, read in nodes), {}), MOST_ROWS, "nodes")
        yield counts("By nodes: written at, read at", sorted_counts(
            ("%s, %s" % (wrote or "not told", read or "not told") for wrote, read in nodes), {}), MOST_ROWS, "pairs of nodes")
    yield "</div>"
    if told.found.circular:
        yield "<p>%s on a circle of reads, or behind one; their reads aren't counted.</p>" % text(many(len(told.found.circular), "transaction") + (
            " stands" if len(told.found.circular) == 1 else " stand"))
