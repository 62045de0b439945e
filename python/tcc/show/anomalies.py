"""The parts of a page that show anomalies and faults, each with a picture."""
from collections import Counter
from typing import Counter as Count, Dict, Iterable, Iterator, List, Optional

from tcc.common.kinds import FAULTS, VIOLATIONS
from tcc.imports.list_history import KINDS as LIST_FAULTS
from tcc.judging.answers import FIELD_NAMES, OUT_OF_ORDER, Link, usual_name
from tcc.judging.contradicted import cycle_of_read
from tcc.judging.graph import Fault
from tcc.record.known import hint_of_pending
from tcc.show.findings import ABOUT, DIVERGENT, Findings, faults_of
from tcc.show.lanes import Size, picture
from tcc.show.list_terms import ListTerms
from tcc.show.page import MOST_ROWS, both, capital, counts, many, number, sorted_counts, text
from tcc.show.scene import Edge, Scene, scene_of
from tcc.show.terms import Terms

MOST_TRIED, FEW_STEPS = 40, 5  # contradicted reads of a name, of which the first with few steps, or that with the fewest, is the example
MOST_LISTED = 1000  # steps that are listed
MOST_SAID = 3  # faults of a kind that lists show by themselves
SEEN = 360  # of a narrow picture, in a window of 400
WIDE, NARROW = Size(236, 13, 86, 66, 950, 150), Size(170, 11, 34, 30, 350, 104, 5)
LEGEND = (("session", "order in a session"), ("reads", "reads: the second read what the first wrote"), ("walk", "several steps"),
          ("against", "a read that is contradicted"), ("derived", "what would have to come first, so that no order is left"))
OF_VERSIONS = ("version", "an older version of the key")
LINES = {"session": "session", "reads": "reads", "version": "older version", "walk": "steps", "against": "contradicted", "derived": "derived", "fault": "not judged",
         "breach": "breach"}


class Examples:
    """Numbers the examples, whose pictures need names of their own."""

    def __init__(self, told: Findings):
        self.told, self.count = told, 0
        self.labels: Dict[str, None] = {}  # the transactions that are shown, in their order

    def example(self, scene: Scene, says: Iterable[str], about: str, more: str = "") -> Iterator[str]:
        """A picture with what it says, and its links as a list."""
        self.count += 1
        self.labels.update(dict.fromkeys(scene.labels()))
        name = "e%d" % self.count
        yield '<section class="example">'
        for one in says:
            yield '<p class="says">%s</p>' % text(one)
        drawn = {size: picture(scene, self.told.terms, size) for size in (WIDE, NARROW)}
        yield both(drawn[WIDE].svg(name + "w", about), drawn[NARROW].svg(name + "n", about))
        if drawn[NARROW].width > SEEN:
            yield '<p class="faint narrow-only">The picture goes on to the right: scroll it sideways.</p>'
        yield '<p class="told" aria-live="polite">Point at a number, or choose it, to see why that link holds and where its records are.</p>'
        yield '<ol class="links">'
        for edge in scene.edges:
            yield '<li data-link="%d" data-told="%s" value="%d"><span class="kind">%s</span> %s</li>' % (
                edge.number, text(edge.told), edge.number, LINES[edge.kind], text(edge.told))
        yield "</ol>"
        if scene.hidden:
            yield "<p>%s more close the circle, and aren't drawn.</p>" % text(many(scene.hidden, "derived link"))
        yield more + "</section>"

    def anomaly(self, cycle: List[Link], about: str) -> Iterator[str]:
        terms = self.told.terms
        scene = scene_of(cycle, terms)
        more = all_steps(cycle, terms, self.told.lists is not None or self.told.versioned is not None)
        if scene.hidden:
            derived = [one for one in cycle if one.kind == "derived"]
            more = "<details><summary>All %s that are contradicted</summary><ol>%s</ol></details>%s" % (
                many(len(derived), "read"), "".join("<li>%s</li>" % text(terms.sentence(one)) for one in derived[:MOST_LISTED]), more)
        yield from self.example(scene, terms.sentences(cycle), about, more)


def steps_of(cycle: List[Link]) -> int:
    """How many steps a cycle has: its links of sessions and reads, and of a derived link its walk and the read that it contradicts."""
    return sum(len(one.walk) + 1 if one.kind == "derived" else 1 for one in cycle)


def all_steps(cycle: List[Link], terms: Terms, are_moved: bool) -> str:
    """All steps, to be unfolded: as `tcc` prints them, but for those of lists and with versions."""
    def line(one: Link) -> str:
        if are_moved:
            return terms.step(one)
        return "%s %s -> %s%s" % (one.kind, one.source, one.target, " by " + one.key if one.key else "")

    def key(one: Link) -> str:
        return terms.key(one.key) if are_moved else one.key

    lines: List[str] = []
    for one in cycle:
        if one.kind == "derived":
            lines.append("derived %s -> %s by %s, read by %s" % (one.source, one.target, key(one), one.reader))
            lines += ["  " + line(step) for step in one.walk]
            lines.append("  against %s -> %s by %s" % (one.target, one.reader, key(one)))
        else:
            lines.append(line(one))
    if len(lines) > MOST_LISTED:
        lines[MOST_LISTED:] = [".. and %d lines more" % (len(lines) - MOST_LISTED)]
    return ("<details><summary>All %s%s</summary><p class=\"faint\">Lines of sessions, reads and <code>against</code> are the "
            "steps; a derived line is none by itself.</p><pre>%s</pre></details>" % (
                many(steps_of(cycle), "step"), "" if are_moved else ", as tcc prints them", text("\n".join(lines))))


def legend(told: Findings) -> str:
    samples = []
    for kind, about in (*LEGEND, *([OF_VERSIONS] if told.versioned else [])):
        path = '<path d="M2 8H40"/>' if kind != "derived" else '<path class="outer" d="M2 8H40"/><path class="inner" d="M2 8H40"/>'
        samples.append('<span><svg class="lanes" width="42" height="16" aria-hidden="true"><g class="link %s">%s</g></svg>%s</span>' % (
            kind, path, text(about)))
    return '<div class="legend">%s</div>' % "".join(samples)


def shape_name(told: Findings) -> str:
    """The name of the answer's anomaly: its usual one, and its shape with the name that the field has."""
    shape: str = told.answer["shape"]
    field_name = " (%s)" % FIELD_NAMES[shape] if shape in FIELD_NAMES else ""
    if isinstance(told.terms, ListTerms):
        return told.terms.head(told.cycle) + field_name
    name = usual_name(told.cycle)
    if any(one.kind == "version" for one in told.cycle):
        return name if name == OUT_OF_ORDER else (name or DIVERGENT) + ", by versions"
    return (name + ", " if name else "") + shape + field_name


def anomalies(told: Findings, examples: Examples) -> Iterator[str]:
    """The answer's anomaly, and one of each other name."""
    shown = None
    if told.verdict == "anomaly":
        shown = told.terms.name(told.cycle) if isinstance(told.terms, ListTerms) else usual_name(told.cycle)
        steps = steps_of(told.cycle)
        yield "<h2>%s: %s</h2>" % ("The least anomaly" if told.lists is None and not told.versioned else "An anomaly", text(shape_name(told)))
        if told.lists is not None:
            yield ('<p class="faint">It was found in the records that the lists are judged by, where none has fewer steps. Counted there a list has '
                   'more steps than here.</p>')
        elif told.versioned:
            yield '<p class="faint">It was found in the records with versions, where others count as steps too.</p>'
        yield '<p class="faint">%s; no order of the transactions keeps all of these links. Each session is a column.</p>' % text(many(steps, "step"))
        yield legend(told)
        yield from examples.anomaly(told.cycle, "the anomaly of the answer, %d steps" % steps)
    names = [name for name, _, _ in sorted_counts((one.name for one in told.contradicted), {}) if name != shown]
    if names:
        yield "<h2>%s</h2>" % ("One of each other name" if shown else "One of each name")
        if not shown:
            yield legend(told)
    for name in names:
        example = example_of(told, name)
        if example is not None:
            of_it = sum(one.name == name for one in told.contradicted)
            yield "<h3>%s</h3>" % text(capital(name))
            yield '<p class="faint">%s: one of %s.</p>' % (text(capital(ABOUT[name])), text(number(of_it)))
            yield from examples.anomaly(example, "an example of " + name)


def example_of(told: Findings, name: str) -> Optional[List[Link]]:
    """Of the first contradicted reads of a name one that has few steps."""
    assert told.graph is not None
    found: List[List[Link]] = []
    by_versions = set(told.versioned.stale) if told.versioned else set()
    origins = {id(one.told): one.origin for one in told.shown}
    for one in sorted((one for one in told.contradicted if one.name == name), key=lambda one: one.operation.row)[:MOST_TRIED]:
        cycle = (told.versioned.cycle_of(one) if told.versioned and one in by_versions and not told.versioned.is_plain(one)
                 else cycle_of_read(told.graph, origins.get(id(one), one)))
        if cycle:
            found.append(cycle)
            if steps_of(cycle) <= FEW_STEPS and (told.lists is not None or usual_name(cycle) == name):
                break
    best = min(found, key=lambda links: (told.lists is None and usual_name(links) != name, steps_of(links))) if found else None
    return told.terms.moved(best) if best and isinstance(told.terms, ListTerms) else best


def fault_sentence(one: Fault, told: Findings) -> str:
    """What is wrong with an operation."""
    terms = told.terms
    what, where = terms.pair(one.operation.key, one.operation.value), terms.where(one.label, one.operation.row)
    if one.kind == "Duplicate":
        return "%s wrote %s (%s), which %s also wrote." % (one.label, what, where, one.writer)
    read = "%s read %s (%s)" % (one.label, what, where)
    if one.kind == "ThinAir":
        return read + ", which nobody wrote."
    if one.kind == "BrokenInternal":
        before = [each for each in told.history.find(one.label).operations if each.row < one.operation.row and each.does == "w"
                  and each.key == one.operation.key]
        return read + " behind its own write of %s." % (terms.value(before[-1].value) if before else "another value")
    ends = {"Aborted": "which %s wrote, and that aborted", "Intermediate": "which %s wrote, and wrote over before it committed",
            "Future": "which %s itself wrote only later"}
    return "%s, %s." % (read, ends[one.kind] % one.writer)


def whose_fault(told: Findings, faults: List[Fault]) -> Iterator[str]:
    """Whose fault it is that operations can't be traced, and what to do."""
    if any(one.kind == "Duplicate" for one in faults):
        yield "<p>%s</p>" % text("A value that was written twice is the test's fault, not the store's: a read of it doesn't say which write it saw. Each "
                                 "value has to be written once at its key, in aborted transactions too: take a counter.")
    read = Counter(one.operation.value for one in faults if one.kind == "ThinAir")
    if not read:
        return
    value, times = read.most_common(1)[0]
    shown = told.terms.value(value)
    yield ("<p>Of a value that nobody wrote either records are missing, or the store wasn't empty, or it made the value up. If keys had %s before they "
           "were written, as rows that were put there first, %s (%s it).</p>" % (
               text(shown), "say <code>--initial %s</code>" % text(shown) if told.imported else "record its reads as reads of 0",
               "%s read" % ("1 of these operations" if times == 1 else "%s of these operations" % number(times))))
    hint = hint_of_pending(told.path, {(one.operation.key, int(one.operation.value)) for one in faults if one.kind == "ThinAir"})
    if hint and not told.imported:
        yield "<p>%s.</p>" % text(hint)


def not_judged(told: Findings, examples: Examples) -> Iterator[str]:
    """What no promise lets be, and then what can't be judged."""
    faults = faults_of(told)
    for is_violation in (True, False):
        mine = [one for one in faults if (one.kind in VIOLATIONS) == is_violation]
        if not mine:
            continue
        if is_violation:
            yield "<h2>What no promise lets be</h2>"
            yield "<p>No order of transactions explains these reads, at any level. <code>tcc explain</code> judges no order while there are any.</p>"
        else:
            yield "<h2>What can't be judged</h2>"
            yield ("<p>These operations can't be traced to one committed write, so they say nothing of an order; <code>tcc explain</code> judges "
                   "nothing while there are any.</p>")
            yield from whose_fault(told, mine)
        yield counts("By kind", sorted_counts((FAULTS[one.kind][0] for one in mine), dict(FAULTS.values())), MOST_ROWS, "kinds")
        by_kind: Dict[str, Fault] = {}
        for one in mine:
            by_kind.setdefault(one.kind, one)
        for kind, one in by_kind.items():
            yield "<h3>%s</h3>" % text(capital(FAULTS[kind][0]))
            sentence = fault_sentence(one, told)
            scene = Scene()
            scene.add(Edge("breach" if is_violation else "fault", one.writer or one.label, one.label, told.terms.pair(one.operation.key, one.operation.value),
                           "%s %s." % (sentence, told.terms.rows(*[name for name in (one.writer, one.label) if name]))), one.operation.key)
            yield from examples.example(scene, [sentence], "an example of " + FAULTS[kind][0])
    yield from of_lists(told)


def of_lists(told: Findings) -> Iterator[str]:
    """What lists show by themselves to be wrong."""
    if told.lists is None or not told.lists.faults or not isinstance(told.terms, ListTerms):
        return
    yield "<h2>What lists show by themselves</h2>"
    yield "<p>The import finds these. The rest was judged without them.</p>"
    yield counts("By kind", sorted_counts((LIST_FAULTS[one.kind][0] for one in told.lists.faults), {}), MOST_ROWS, "kinds")
    shown: Count[str] = Counter()
    lines = []
    for one in told.lists.faults:
        shown[one.kind] += 1
        if shown[one.kind] <= MOST_SAID:
            lines.append("<li>%s</li>" % text(told.terms.fault_sentence(one)))
    yield "<ul>%s</ul>" % "".join(lines)
