"""The pages that recipes/report.py makes: what is in them, that they are whole by themselves, and, where Chromium is there, what
a browser makes of them."""
import gzip
import html.parser
import io
import json
import os
import pathlib
import re
import shutil
import subprocess
import sys
import tempfile
from typing import Dict, Iterator, List, Optional, Tuple

from counted import Outcome

TOP = pathlib.Path(__file__).resolve().parent.parent.parent
REPORT = TOP / "recipes/report.py"
SECONDS = 1800
VOID = {"meta", "link", "br", "img", "line", "rect", "path", "circle"}
# What a browser is asked once the page is there: what happens at a click, how wide all is, and what is there.
QUESTIONS = """
<script>
window.addEventListener('load', function () {
  var shown = Array.from(document.querySelectorAll('.example')).map(function (example) {
    var label = Array.from(example.querySelectorAll('.label')).find(function (one) { return one.getBoundingClientRect().width > 0; });
    var told = example.querySelector('.told'), before = told.textContent;
    if (!label) { return 'no label'; }
    label.dispatchEvent(new MouseEvent('click', {bubbles: true}));
    var after = told.textContent;
    label.dispatchEvent(new MouseEvent('mouseout', {bubbles: true}));
    return before !== after && told.textContent === after && /(rows?|index|line) [0-9]+/.test(after) ? after : 'a click shows ' + after;
  });
  var result = {shown: shown, wide: document.documentElement.scrollWidth, window: window.innerWidth,
    hidden: Array.from(document.querySelectorAll('svg')).every(function (one) { return one.getBoundingClientRect().width === 0; }),
    boxes: document.querySelectorAll('.wide-only .box').length, heads: document.querySelectorAll('h2').length};
  var out = document.createElement('pre');
  out.id = 'result';
  out.textContent = JSON.stringify(result);
  document.body.appendChild(out);
});
</script>
"""


def chain(count: int) -> str:
    """A write that is known by this many reads, one session each, and isn't seen: 2 steps more than reads."""
    lines = ["s0,begin", "s0,w,x,1", "s0,w,k0,1", "s0,commit"]
    for number in range(1, count):
        name = "s%d" % number
        lines += [name + ",begin", "%s,r,k%d,1" % (name, number - 1), "%s,w,k%d,1" % (name, number), name + ",commit"]
    last = "s%d" % count
    return "".join(line + "\n" for line in [*lines, last + ",begin", "%s,r,k%d,1" % (last, count - 1), last + ",r,x,0", last + ",commit"])


def ring(count: int) -> str:
    """So many writes of a key, each of which a reader has observed and reads the next one: twice as many steps."""
    lines: List[str] = []
    for number in range(count):
        lines += ["w%d,%s" % (number, word) for word in ("begin", "w,x,%d" % (number + 1), "w,y%d,1" % number, "commit")]
    for number in range(count):
        lines += ["r%d,%s" % (number, word) for word in ("begin", "r,y%d,1" % number, "r,x,%d" % ((number + 1) % count + 1), "commit")]
    return "".join(line + "\n" for line in lines)


DIVERGENT = """a,begin
a,w,x,1
a,commit
b,begin
b,w,x,2
b,commit
c,begin
c,r,x,1
c,commit
c,begin
c,r,x,2
c,commit
d,begin
d,r,x,2
d,commit
d,begin
d,r,x,1
d,commit
"""
# An aborted write is read, and b reads x, whose write it had observed, as nil, twice in one transaction.
ABORTED_TOO = """a,begin
a,w,y,7
a,abort
a,begin
a,w,x,1
a,w,z,2
a,commit
b,begin
b,r,y,7
b,r,z,2
b,r,x,0
b,r,x,0
b,commit
"""
NOTHING = r"""
{:type :invoke, :f :txn, :value [[:w 1 5]], :process 0, :index 0}
{:type :info, :f :txn, :value [[:w 1 5]], :process 0, :index 1}
{:type :invoke, :f :txn, :value [[:w 1 6] [:r 1 nil]], :process 1, :index 2}
{:type :fail, :f :txn, :value [[:w 1 6] [:r 1 nil]], :process 1, :index 3}
{:type :info, :f :kill, :value nil, :process :nemesis, :index 4}
"""
# p0 doesn't see its own append; two readers see 2 and 3 in opposite orders; an element is twice in a list; no invoke.
LISTS = r"""
{:type :ok, :f :txn, :value [[:append "a key" 1]], :process 0, :time 1000000000, :index 0}
{:type :ok, :f :txn, :value [[:append 8 2]], :process 1, :time 2000000000, :index 1}
{:type :ok, :f :txn, :value [[:append 8 3]], :process 2, :time 3000000000, :index 2}
{:type :ok, :f :txn, :value [[:append 8 4] [:append "a key" 9]], :process 3, :time 3500000000, :index 3}
{:type :ok, :f :txn, :value [[:r 8 [2 3 4]]], :process 4, :time 4000000000, :index 4}
{:type :ok, :f :txn, :value [[:r "a key" []]], :process 0, :time 4500000000, :index 5}
{:type :ok, :f :txn, :value [[:r "a key" [9 9]]], :process 5, :time 5500000000, :index 6}
{:type :ok, :f :txn, :value [[:r 8 [3 2 4]]], :process 6, :time 6000000000, :index 7}
"""
ORDERS = r"""
{:type :ok, :f :txn, :value [[:append 8 1]], :process 0, :index 0}
{:type :ok, :f :txn, :value [[:append 8 2]], :process 0, :index 1}
{:type :ok, :f :txn, :value [[:append 8 3]], :process 1, :index 2}
{:type :ok, :f :txn, :value [[:r 8 [2 1 3]]], :process 2, :index 3}
"""
# c writes at n0, doesn't see it at n1 while that is paused, and sees it there at last.
NODES = "c,begin\nc,w,x,1\nc,commit\nc,begin\nc,r,x,0\nc,commit\nc,begin\nc,r,x,1\nc,commit\n"
NOTES = """transaction,node,time,note
,n1,0.250000,start-pause n1
c/1,n0,0.500000,
c/2,n1,1.000000,
,n1,1.250000,stop-pause n1
c/3,n1,1.500000,
,,2.000000,move-leader
"""
# Two writes of which neither client had observed the other; c reads the one of version 20, and then that of version 10.
VERSIONED = "a,begin\na,w,x,1\na,commit\nb,begin\nb,w,x,2\nb,commit\nc,begin\nc,r,x,2\nc,commit\nc,begin\nc,r,x,1\nc,commit\n"
VERSIONED_EDN = r"""
{:type :ok, :f :txn, :value [[:w "a key" [10 5]]], :process 0, :index 0}
{:type :ok, :f :txn, :value [[:w "a key" [20 6]]], :process 1, :index 1}
{:type :ok, :f :txn, :value [[:r "a key" [20 6]]], :process 2, :index 2}
{:type :ok, :f :txn, :value [[:r "a key" [10 5]]], :process 2, :index 3}
"""
# Of x b's write is the older one, of y a's, by their versions; and c and d read them so: no order has both. Without versions there is one.
CROSSED = ("a,begin\na,w,x,1\na,w,y,1\na,commit\nb,begin\nb,w,x,2\nb,w,y,2\nb,commit\nc,begin\nc,r,x,1\nc,commit\n")
BROWSED = ("divergent", "G1a beside contradicted", "lists", "3 steps", "12 steps", "40 steps", "794 steps", "aborted", "odd names")
# A history with names that are no names, a nemesis, times and nodes; a session doesn't see its own write.
ODD = r"""
{:type :invoke, :f :txn, :value [[:w "<script>alert(1)</script>" 5]], :process 0, :time 1000000000, :index 0}
{:type :ok, :f :txn, :value [[:w "<script>alert(1)</script>" 5]], :process 0, :time 2000000000, :node "<b>n1", :index 1}
{:type :info, :f :start-<i>, :value nil, :process :nemesis, :time 2500000000, :index 2}
{:type :info, :f :start-<i>, :value nil, :process :nemesis, :time 2600000000, :index 3}
{:type :ok, :f :txn, :value [[:r "<script>alert(1)</script>" nil]], :process 0, :time 4000000000, :node "<b>n2", :index 4}
{:type :info, :f :stop-<i>, :value nil, :process :nemesis, :time 5000000000, :index 5}
"""
# A list that ends with the first of two appends of one transaction.
G1B = r"""
{:type :ok, :f :txn, :value [[:append 8 1] [:append 8 2]], :process 0, :index 0}
{:type :ok, :f :txn, :value [[:r 8 [1]]], :process 1, :index 1}
"""
# Rows that were there before: 0 in an import, and 7 at two keys among records; and a value that was written twice.
PRELOADED = r"""
{:type :ok, :f :txn, :value [[:r 8 0] [:w 8 5]], :process 0, :index 0}
{:type :ok, :f :txn, :value [[:r 9 0]], :process 0, :index 1}
"""
TWICE = "a,begin\na,w,x,5\na,commit\nb,begin\nb,w,x,5\nb,commit\nb,begin\nb,r,y,7\nb,r,z,7\nb,r,u,6\nb,commit\n"
# For each history its status, words that the page has, and boxes of its first pictures.
HISTORIES: Dict[str, Tuple[str, int, Tuple[str, ...], int]] = {
    "3 steps": ("examples/stale-read.csv", 1, ("Not causally consistent", "a wrote x = 1 in a/1 and read x = nil in a/2 (row 5).",
                                               "accepted: cycle, 3 steps", "read your writes"), 3),
    "5 steps": ("examples/causal-chain-missed.csv", 1, ("writes follow reads", "accepted: cycle, 5 steps", "by rules alone, without any search"), 5),
    "5 steps, large": (chain(3) + "".join("z%d,begin\nz%d,abort\n" % (one, one) for one in range(65)), 1, (
        "accepted: cycle, 5 steps", "by rules, and by a search for shorter cycles, that the cycle"), 5),
    "12 steps": (ring(6), 1, ("All 12 steps", "conflict-cycle", "accepted: cycle, 12 steps"), 5),
    "40 steps": (ring(20), 1, ("All 40 steps", "18 derived links more close the circle"), 5),
    "794 steps": (chain(792), 1, ("All 794 steps", "causal chain",
                                 "accepted: cycle, 794 steps, least not claimed", "that each link of the cycle above holds"), 3),
    "an order": ("examples/long-fork.csv", 0, ("Causally consistent", "all 4 committed transactions", "accepted: order"), 0),
    "an order's chances": ("examples/long-fork.csv", 0, (
        "Of 4 reads, 2 are of what another session wrote, 0 of keys that several sessions write, and 0 are both.",), 0),
    "nothing": ("", 3, ("Nothing was judged", "0 transactions committed, and 1 is required."), 0),
    "nothing that committed": (NOTHING, 3, ("Nothing was judged", "0 transactions committed, and 1 is required."), 0),
    "the nemesis alone": (NOTHING[NOTHING.rindex("{"):], 3, ("Nothing was judged",), 0),
    "only writes": ("a,begin\na,w,x,1\na,commit\n", 3, ("Nothing was judged", "No committed transaction read anything"), 0),
    "divergent": (DIVERGENT, 1, ("divergent writes", "No one order of the writes explains these reads together."), 6),
    "G1a beside contradicted": (ABORTED_TOO, 1, (
        "Not causally consistent", "Of 2 reads that can be traced 1 is contradicted", "No promise lets these be: aborted read (G1a): 1.",
        "What no promise lets be"), 2),
    "lists": (LISTS, 1, (
        "Of 4 lists 1 is contradicted", "an element twice in a list: 1", "p0 appended 1 to a key in p0/1, and read a key = [] in p0/2 (index 5), which lacks 1.",
        "p5/1&#x27;s list of a key, [9 9] (index 6), has 9 twice."), 3),
    "lists in an order": (ORDERS, 1, (
        "order against what was known", "8 = [2 1 3] in p2/1 (index 3) has 2 of p0/2 before 1 of p0/1, so p0/2 came first.",
        "But p0/1 comes before p0/2: they are of session p0, in this order.", "Of 1 list 1 is contradicted"), 3),
    "lists that are right": (ORDERS.replace("[2 1 3]", "[1 2 3]"), 0, (
        "all 4 committed transactions that explains every list", "Of 1 list, 1 shows what another session appended, 1 of keys that several sessions append to"), 0),
    "an intermediate list": (G1B, 1, ("An anomaly: intermediate read (G1b)",), 3),
    "rows that were there before": (PRELOADED, 2, (
        "If keys had 0 before they were written, as rows that were put there first, say <code>--initial 0</code> (2 of these operations read it).",), 3),
    "a value written twice": (TWICE, 2, (
        "b/1 wrote x = 5 (row 5), which a/1 also wrote.", "A value that was written twice is the test&#x27;s fault, not the store&#x27;s",
        "If keys had 7 before they were written, as rows that were put there first, record its reads as reads of 0 (2 of these operations read it)."), 3),
    "aborted": ("examples/aborted-read.csv", 1, ("Not causally consistent", "Not judged: value from nowhere: 1", "aborted read (G1a)", "b/1 read x = 1 (row 5), which a/1 wrote, and that aborted.",
                                                 "value from nowhere"), 3),
    "internal": ("examples/future-read.csv", 1, ("internal", "future read"), 2),
    "intermediate": ("examples/intermediate-read.csv", 1, ("intermediate read (G1b)",), 2),
    "circle": ("examples/causality-cycle.csv", 1, ("cyclic-causality (G1c)", "circular reads"), 2),
    "odd names": (ODD, 1, ("&lt;script&gt;alert(1)&lt;/script&gt;", "&lt;b&gt;n1", "start-&lt;i&gt;", "4.000 s", "index 4",
                           "p0 wrote &lt;script&gt;alert(1)&lt;/script&gt; = 5 in p0/1 and read &lt;script&gt;alert(1)&lt;/script&gt; = nil in p0/2 (index 4).",
                           "<dt>p0/1</dt><dd><pre>line 2: {:type :invoke, :f :txn, :value [[:w &quot;&lt;script&gt;",
                           "<dt>p0/2</dt><dd><pre>line 6: {:type :ok, :f", "<code>python3 -m tcc.recheck records.csv certificate.txt</code>"), 3),
}


class Whole(html.parser.HTMLParser):
    """Whether each element is closed, ids are there once, and nothing is fetched."""

    def __init__(self) -> None:
        super().__init__()
        self.open: List[str] = []
        self.ids: List[str] = []
        self.faults: List[str] = []

    def handle_starttag(self, tag: str, attrs: List[Tuple[str, Optional[str]]]) -> None:
        named = dict(attrs)
        if "id" in named:
            self.ids.append(str(named["id"]))
        for name in ("src", "href", "xlink:href"):
            if named.get(name) and not str(named[name]).startswith(("data:", "#")):
                self.faults.append("%s fetches %s" % (tag, named[name]))
        if tag not in VOID:
            self.open.append(tag)

    def handle_startendtag(self, tag: str, attrs: List[Tuple[str, Optional[str]]]) -> None:
        pass

    def handle_endtag(self, tag: str) -> None:
        if not self.open or self.open.pop() != tag:
            self.faults.append("</%s> closes nothing" % tag)


def fault_of_page(text: str) -> Optional[str]:
    """What of a page isn't whole."""
    page = Whole()
    page.feed(text)
    page.close()
    twice = {one for one in page.ids if page.ids.count(one) > 1}
    faults = [*page.faults, *("%s isn't closed" % tag for tag in page.open), *("the id %s is there twice" % one for one in twice)]
    if re.search(r"@import|url\((?!#)|https?:", text):
        faults.append("it names another place")
    if "<script>alert" in text or "<b>n" in text:
        faults.append("a name isn't escaped")
    return faults[0] if faults else None


def browser() -> Optional[str]:
    return shutil.which("chromium") or shutil.which("chromium-browser") or shutil.which("google-chrome")


def asked(page: str, program: str, width: int, folder: str) -> Tuple[dict, str]:
    """What a browser answers, and what it says on its console."""
    path = pathlib.Path(folder, "asked.html")
    path.write_text(page.replace("</body>", QUESTIONS + "</body>"))
    words = [program, "--headless", "--no-sandbox", "--disable-gpu", "--disable-dev-shm-usage", "--user-data-dir=" + os.path.join(folder, "profile"),
             "--enable-logging=stderr", "--window-size=%d,900" % width, "--virtual-time-budget=3000", "--dump-dom", "file://%s" % path]
    ended = subprocess.run(words, capture_output=True, timeout=SECONDS, check=False)
    found = re.search(r'<pre id="result">(.*?)</pre>', ended.stdout.decode(), re.DOTALL)
    said = "\n".join(line for line in ended.stderr.decode(errors="replace").splitlines() if "CONSOLE" in line)
    return json.loads(html.unescape(found.group(1))) if found else {}, said


def fault_in_browser(page: str, program: str, width: int, boxes: int, folder: str) -> Optional[str]:
    told, said = asked(page, program, width, folder)
    if not told or said:
        return "the console has %r, the answer is %r" % (said, told)
    if told["wide"] > told["window"]:
        return "the page is %d wide, and the window %d" % (told["wide"], told["window"])
    wrong = [one for one in told["shown"] if one.startswith(("a click", "no label"))]
    if wrong or told["boxes"] < boxes or boxes and told["hidden"]:
        return "%s, %d boxes" % (wrong, told["boxes"])
    return None


def outcomes(tcc: List[str]) -> Iterator[Outcome]:
    program = browser()
    if program is None:
        print("pages in a browser: passed over: there is no chromium here")
    for name, (history, status, words, boxes) in HISTORIES.items():
        with tempfile.TemporaryDirectory() as folder:
            given, made = pathlib.Path(folder, "history"), pathlib.Path(folder, "page.html")
            given.write_text((TOP / history).read_text() if history.startswith("examples/") else history)
            call = [sys.executable, str(REPORT), str(given), "-o", str(made), "--tcc", os.path.abspath(tcc[-1])]
            ended = subprocess.run(call, capture_output=True, timeout=SECONDS, check=False)
            if ended.returncode != status or not made.exists():
                yield "page of " + name, "status %d, %r" % (ended.returncode, ended.stdout + ended.stderr)
                continue
            page = made.read_text()
            missing = [word for word in words if word not in page]
            yield "page of " + name, fault_of_page(page) or ("it hasn't %r" % missing[0] if missing else None)
            if program is not None and name in BROWSED:
                for width in (1000, 400):
                    yield "page of %s, %d wide" % (name, width), fault_in_browser(page, program, width, boxes, folder)
    with tempfile.TemporaryDirectory() as folder:
        given, made = pathlib.Path(folder, "records.csv"), pathlib.Path(folder, "page.html")
        call = [sys.executable, str(REPORT), str(TOP / "examples/monotonic-reads-violated.csv"), "-o", str(made), "--level", "atomic"]
        ended = subprocess.run([*call, "--tcc", os.path.abspath(tcc[-1])], capture_output=True, timeout=SECONDS, check=False)
        is_so = ended.returncode == 0 and "Consistent at the level of Read Atomic" in made.read_text()
        yield "page at Read Atomic", None if is_so else "status %d, %r" % (ended.returncode, ended.stdout + ended.stderr)
        made.unlink(missing_ok=True)
        ended = subprocess.run([*call, "--tcc", os.path.join(folder, "none")], capture_output=True, timeout=SECONDS, check=False)
        is_so = ended.returncode == 127 and b"there is no program" in ended.stderr and not made.exists()
        yield "page without a program", None if is_so else "status %d, %r" % (ended.returncode, ended.stderr)
        given.write_text("a,begin\na,w,x\n")
        ended = subprocess.run([sys.executable, str(REPORT), str(given), "-o", str(made), "--tcc", os.path.abspath(tcc[-1])],
                               capture_output=True, timeout=SECONDS, check=False)
        yield "page of no records", None if ended.returncode == 3 and not made.exists() and b"row 2" in ended.stderr.replace(
            b'"row":2', b"row 2") else "status %d, %r" % (ended.returncode, ended.stderr)
    yield from outputs(tcc)
    yield from inputs(tcc)
    yield from drawn(tcc)
    yield from beside(tcc, program)
    yield from sample(tcc)


def inputs(tcc: List[str]) -> Iterator[Outcome]:
    """What is packed by gzip, begins with a byte order mark or comes by standard input is read as it is; what is neither records nor a
    history is called what it is. The variable TCC names the program."""
    mark, stale = b"\xef\xbb\xbf", (TOP / "examples/stale-read.csv").read_bytes()
    lists = LISTS.encode()
    for about, data, name, status, said in (
            ("records, packed", gzip.compress(stale), "r.csv.gz", 1, b"1 contradicted read"), ("a history, packed", gzip.compress(lists), "h", 1, b"contradicted list"),
            ("a history with a mark", mark + lists, "h.edn", 1, b"contradicted list"), ("records with a mark", mark + stale, "r", 1, b"1 contradicted read"),
            ("history.txt", b"0\t:invoke\t:txn\t[[:r 1 nil]]\n", "history.txt", 3, b"history.edn beside it is the history"),
            ("history.txt, the nemesis first", b":nemesis :info :start nil\n", "history.txt", 3, b"history.edn beside it is the history"),
            ("a history without commas", b"{:type :ok :process 1 :f :txn :value [[:w :x 5]]}\n{:type :ok :process 1 :f :txn :value [[:r :x nil]]}\n",
             "history.edn", 1, b"1 contradicted read"),
            ("a zip archive", b"PK\x03\x04 and more", "h.zip", 3, b"it is a zip archive"),
            ("gzip that is cut", gzip.compress(lists)[:40], "h.gz", 3, b"ended before")):
        for way in ("a file", "standard input"):
            with tempfile.TemporaryDirectory() as folder:
                pathlib.Path(folder, name).write_bytes(data)
                ended = subprocess.run([sys.executable, str(REPORT), name if way == "a file" else "-", "-o", "page.html"], cwd=folder,
                                       input=data, env={**os.environ, "TCC": os.path.abspath(tcc[-1])}, capture_output=True, timeout=SECONDS, check=False)
                is_so = ended.returncode == status and said in ended.stdout + ended.stderr and os.path.exists(os.path.join(folder, "page.html")) == (status < 3)
                yield "page of %s, from %s" % (about, way), None if is_so else "status %d, %r" % (ended.returncode, ended.stdout + ended.stderr)


def drawn(tcc: List[str]) -> Iterator[Outcome]:
    """No line of a picture runs under a box that isn't one of its ends; each nemesis has a lane of its own."""
    from tcc.show import chart, lanes, scene as scenes
    from tcc.judging.answers import cycle_of
    from tcc.common.rows import read_history
    from tcc.show.terms import Terms
    for name, records in (("divergent writes", DIVERGENT), ("12 steps", ring(6))):
        ended = subprocess.run([*tcc, "explain", "--json"], input=records.encode(), capture_output=True, timeout=SECONDS, check=False)
        terms = Terms(read_history(io.StringIO(records)))
        scene = scenes.scene_of(cycle_of(json.loads(ended.stdout)), terms)
        made = lanes.picture(scene, terms, lanes.Size(236, 13, 86, 66, 950, 150))
        behind = []
        for edge in scene.edges:
            if edge.kind == "against" or name == "divergent writes":
                text, _ = made.path(edge)
                corners = [tuple(map(float, pair.split())) for pair in re.findall(r"[0-9.-]+ [0-9.-]+", text)]
                if "L" in text:
                    ways = list(zip(corners, corners[1:]))
                    points = [(a[0] + (b[0] - a[0]) * part / 20, a[1] + (b[1] - a[1]) * part / 20) for a, b in ways for part in range(21)]
                else:
                    points = [lanes.at(corners, part / 40) for part in range(41)]
                behind += ["%d behind %s" % (edge.number, box.name) for box in made.boxes.values() if box.name not in (edge.source, edge.target)
                           and any(box.x < x < box.x + box.width and box.y < y < box.y + box.height for x, y in points)]
        yield "lines of %s" % name, None if not behind else str(sorted(set(behind)))
    spans = [chart.Span("start-partition", 1, 9), chart.Span("kill", 2, 3), chart.Span("start-partition", 2, 4), chart.Span("bump", 5)]
    text = chart.chart(chart.Course(10, "s", [1.0], [], spans), 920, 56)
    heights = dict((name, y) for y, name in re.findall(r'class="span-name" x="[0-9.]+" y="([0-9]+)">([a-z-]+)', text))
    is_so = len(set(heights.values())) == 3 and text.rindex('class="span"') < text.index('class="span-name"')
    yield "lanes of the nemesis", None if is_so else str(heights)


def outputs(tcc: List[str]) -> Iterator[Outcome]:
    """What a page may be written over: a page, which goes before anything is read; but never an input, or something else."""
    with tempfile.TemporaryDirectory() as folder:
        given, made = pathlib.Path(folder, "records.csv"), pathlib.Path(folder, "page.html")
        stale = (TOP / "examples/stale-read.csv").read_text()

        def run(*words: str) -> "subprocess.CompletedProcess[bytes]":
            given.write_text(stale)
            return subprocess.run([sys.executable, str(REPORT), *words, "--tcc", os.path.abspath(tcc[-1])], cwd=folder, capture_output=True,
                                  timeout=SECONDS, check=False)

        ended = run("records.csv", "-o", "records.csv")
        is_so = ended.returncode == 3 and b"it is the input" in ended.stderr and given.read_text() == stale
        yield "page over its input", None if is_so else "status %d, %r" % (ended.returncode, ended.stderr)
        os.symlink("records.csv", os.path.join(folder, "link.html"))
        ended = run("records.csv", "-o", "link.html")
        is_so = ended.returncode == 3 and b"it is the input" in ended.stderr and given.read_text() == stale
        yield "page over its input, by a link", None if is_so else "status %d, %r" % (ended.returncode, ended.stderr)
        made.write_text("my words")
        ended = run("records.csv", "-o", "page.html")
        is_so = ended.returncode == 3 and b"is no page" in ended.stderr and made.read_text() == "my words"
        yield "page over something else", None if is_so else "status %d, %r" % (ended.returncode, ended.stderr)
        made.write_text("<!DOCTYPE html>\nold")
        ended = run("none.csv", "-o", "page.html")
        yield "an old page where a run fails", None if ended.returncode == 3 and not made.exists() else "status %d" % ended.returncode
        for name in ("answer.json", "records.csv"):
            kept, victim = pathlib.Path(folder, "kept-" + name), pathlib.Path(folder, "victim")
            kept.mkdir()
            victim.write_text("mine")
            os.symlink(str(victim), str(kept / name))
            ended = run("records.csv", "-o", "page.html", "--keep", str(kept))
            is_so = ended.returncode == 3 and b"something lies there" in ended.stderr and victim.read_text() == "mine"
            yield "a folder with a link " + name, None if is_so else "status %d, %r" % (ended.returncode, ended.stderr)
        ended = run("records.csv", "-o", "page.html", "--keep", "new")
        kept = sorted(path.name for path in pathlib.Path(folder, "new").iterdir())
        yield "a folder that is kept", None if ended.returncode == 1 and "records.csv" in kept and "answer.json" in kept else "%s %r" % (kept, ended.stderr)
        ended = run("records.csv", "-o", "page.html", "--keep", "new")
        yield "a folder that was kept", None if ended.returncode == 3 and b"new folder" in ended.stderr else "status %d" % ended.returncode
        left = [path.name for path in pathlib.Path(folder).iterdir() if path.name.endswith(".part")]
        yield "nothing is left beside a page", None if not left else str(left)


def beside(tcc: List[str], program: Optional[str]) -> Iterator[Outcome]:
    """What lies beside records: nodes and events, by client and by node; and versions, of records and of a history."""
    both = "x = 1 has version 10, x = 2 has version 20"
    cases = (
        ("by client", NODES, {"notes.csv": NOTES}, ["--notes", "notes.csv"], 1, (
            "By node that was read", "By nodes: written at, read at", ">n0, n1<", "start-pause n1", "move-leader", "what happened meanwhile")),
        ("by node", NODES, {"notes.csv": NOTES}, ["--notes", "notes.csv", "--sessions", "node"], 0, ("Causally consistent", "<dd>2</dd>")),
        ("by node without nodes", NODES, {}, ["--sessions", "node"], 3, ()),
        ("without versions", VERSIONED, {}, [], 0, ("Causally consistent",)),
        ("with versions", VERSIONED, {"v": "x,1,10\nx,2,20\n"}, ["--versions", "v"], 1, (
            "Of 2 reads 1 is contradicted", "monotonic reads, by versions", both, "older version",
            "b wrote x = 2 in b/1; c knew of that, since it had read x from b/1 in c/1, and read x = 1 in c/2 (row 11).", "version 10, then 20", "By their versions, 20 and 10, what it read is older.")),
        ("with versions that fit", VERSIONED, {"v": "x,1,20\nx,2,10\n"}, ["--versions", "v"], 0, ("Causally consistent",)),
        ("with versions that cross", CROSSED, {"v": "x,1,20\nx,2,10\ny,1,1\ny,2,2\n"}, ["--versions", "v"], 1, (
            "versions out of order", "b/1 came before a/1: x = 2 has version 10, x = 1 has version 20.",
            "No one order is that of all these versions, and of sessions and reads.")),
        ("of a history with versions", VERSIONED_EDN, {}, ["--versions"], 1, (
            "monotonic reads", "a key = 5 has version 10, a key = 6 has version 20", "p2/2 (index 3)")),
        ("of records without a file of versions", VERSIONED, {}, ["--versions"], 3, ()),
        ("with two versions of a value", VERSIONED, {"v": "x,1,1\nx,1,2\n"}, ["--versions", "v"], 3, ()))
    for about, history, files, words, status, wanted in cases:
        with tempfile.TemporaryDirectory() as folder:
            for name, text in {"history": history, **files}.items():
                pathlib.Path(folder, name).write_text(text)
            ended = subprocess.run([sys.executable, str(REPORT), "history", "-o", "page.html", "--tcc", os.path.abspath(tcc[-1]), *words],
                                   cwd=folder, capture_output=True, timeout=SECONDS, check=False)
            made = pathlib.Path(folder, "page.html")
            if ended.returncode != status or made.exists() != (status < 3):
                yield "page " + about, "status %d, %r" % (ended.returncode, ended.stdout + ended.stderr)
                continue
            page = made.read_text() if made.exists() else ""
            missing = [word for word in wanted if word not in page]
            yield "page " + about, (fault_of_page(page) if page else None) or ("it hasn't %r" % missing[0] if missing else None)
            if program is not None and page and about in ("by client", "with versions", "with versions that cross"):
                for width in (1000, 400):
                    yield "page %s, %d wide" % (about, width), fault_in_browser(page, program, width, 0, folder)


def without_times(page: str) -> str:
    """A page without what its commands took."""
    return re.sub(r"(status [0-9]+), [0-9.]+ s(?=$|</pre>)", r"\1", page, flags=re.MULTILINE)


def sample(tcc: List[str]) -> Iterator[Outcome]:
    """The sample page of examples/ is what report.py makes of the history beside it, but for times; `SAMPLE=write` in the environment writes
    it anew."""
    kept = TOP / "examples/report.html"
    with tempfile.TemporaryDirectory() as folder:
        words = [sys.executable, str(REPORT), str(TOP / "examples/history.edn"), "-o", "page.html", "--tcc", os.path.abspath(tcc[-1])]
        ended = subprocess.run(words, cwd=folder, capture_output=True, text=True, timeout=SECONDS, check=False)
        said = "page.html: an anomaly, 2 contradicted reads\n"
        yield "the sample's status", None if (ended.returncode, ended.stdout) == (1, said) else "%d, %r" % (ended.returncode, ended.stdout + ended.stderr)
        made = pathlib.Path(folder, "page.html").read_text()
    if os.environ.get("SAMPLE") == "write":
        kept.write_text(made)
    yield "the sample page", None if without_times(made) == without_times(kept.read_text()) else "it isn't what is made: SAMPLE=write writes it"
