"""The parts of a report that are the same for all: its style, its script, and its frame. Nothing is fetched from elsewhere."""
from collections import Counter
from html import escape
from typing import Any, Counter as Count, Dict, Iterable, List, Sequence, Tuple

MOST_ROWS = 10  # of a table
STYLE = """
:root { color-scheme: light dark; --ground: #fff; --raised: #f6f7f9; --ink: #1b1f24; --faint: #5a6472; --line: #d4d9e0;
  --session: #3b4654; --reads: #0a5ca8; --bad: #b3261e; --derived: #7a3ea8; --good: #1a6b3c; --doubt: #8a5a00; --focus: #0a5ca8;
  --bad-ground: #fdf0ee; --good-ground: #eef7f1; --doubt-ground: #fdf6e7; }
@media (prefers-color-scheme: dark) { :root { --ground: #14171b; --raised: #1d2127; --ink: #e6e9ee; --faint: #a0abba; --line: #394250;
  --session: #b6c0cc; --reads: #6db3f2; --bad: #ff8a80; --derived: #cf9bf5; --good: #7ddba2; --doubt: #f0c060; --focus: #6db3f2;
  --bad-ground: #2e1b1a; --good-ground: #16281d; --doubt-ground: #2b2415; } }
* { box-sizing: border-box; }
html { -webkit-text-size-adjust: 100%; }
body { margin: 0; background: var(--ground); color: var(--ink); font: 16px/1.5 system-ui, -apple-system, "Segoe UI", Roboto, "Liberation Sans", sans-serif; }
main, header, footer { max-width: 62rem; margin: 0 auto; padding: 0 1rem; }
header { padding-top: 1.2rem; }
h1 { font-size: 1rem; font-weight: 600; color: var(--faint); margin: 0; overflow-wrap: anywhere; }
h2 { font-size: 1.25rem; margin: 2.4rem 0 .5rem; }
h3 { font-size: 1.05rem; margin: 1.6rem 0 .3rem; }
p { margin: .5rem 0; max-width: 46rem; }
code, .mono { font-family: ui-monospace, SFMono-Regular, Menlo, Consolas, "DejaVu Sans Mono", "Liberation Mono", monospace; font-size: .9em; overflow-wrap: anywhere; }
.faint { color: var(--faint); }
.verdict { border-left: .4rem solid; border-radius: .3rem; padding: .8rem 1rem; margin: .8rem 0 1rem; }
.verdict strong { display: block; font-size: 1.45rem; line-height: 1.25; margin-bottom: .2rem; }
.verdict.bad { background: var(--bad-ground); border-color: var(--bad); } .verdict.bad strong { color: var(--bad); }
.verdict.good { background: var(--good-ground); border-color: var(--good); } .verdict.good strong { color: var(--good); }
.verdict.doubt { background: var(--doubt-ground); border-color: var(--doubt); } .verdict.doubt strong { color: var(--doubt); }
dl.facts { display: grid; grid-template-columns: repeat(auto-fit, minmax(8.5rem, 1fr)); gap: .6rem 1.4rem; margin: 1rem 0; }
dl.facts div { border-top: 1px solid var(--line); padding-top: .3rem; } dl.facts dt { font-size: .85rem; color: var(--faint); }
dl.facts dd { margin: 0; font-weight: 600; font-variant-numeric: tabular-nums; overflow-wrap: anywhere; }
.tables { display: grid; align-items: start; grid-template-columns: repeat(auto-fit, minmax(min(17rem, 100%), 1fr)); gap: 1rem 2.5rem; }
table { border-collapse: collapse; width: 100%; font-size: .95rem; } caption { text-align: left; font-weight: 600; padding: .3rem 0; }
th, td { text-align: left; padding: .28rem .6rem .28rem 0; border-top: 1px solid var(--line); vertical-align: top; overflow-wrap: anywhere; }
th { font-weight: 500; } thead th { color: var(--faint); font-size: .85rem; border-top: 0; }
td.count { text-align: right; font-variant-numeric: tabular-nums; white-space: nowrap; width: 1%; padding-left: .8rem; padding-right: .6rem; }
td.share { width: 30%; min-width: 3.5rem; padding-top: .55rem; } td.share div { height: .7rem; background: var(--bad); border-radius: 2px; min-width: 2px; }
td small, th small { display: block; color: var(--faint); font-size: .85rem; }
.wide-only { display: block; } .narrow-only { display: none; }
@media (max-width: 46rem) { .wide-only { display: none; } .narrow-only { display: block; } main, header, footer { padding-left: .7rem; padding-right: .7rem; } .verdict strong { font-size: 1.25rem; } }
.scroll { overflow: auto; max-width: 100%; max-height: 85vh; border: 1px solid var(--line); border-radius: .4rem; background: var(--raised); margin: .6rem 0; }
.scroll.plain { border: 0; background: none; max-height: none; }
svg { display: block; } svg text { font-family: ui-monospace, SFMono-Regular, Menlo, Consolas, "DejaVu Sans Mono", "Liberation Mono", monospace; fill: var(--ink); }
.chart { max-width: 100%; height: auto; } .chart .grid { stroke: var(--line); } .chart .axis { stroke: var(--faint); } .chart .tick, .chart .span-name { fill: var(--faint); font-size: 11px; }
.chart .bar { fill: var(--bad); } .chart .bar-faults { stroke: var(--doubt); } .hatch-dot { fill: var(--doubt); } .hatch-ground { fill: var(--raised); } .hatch-line { stroke: var(--faint); stroke-width: 1.2; opacity: .55; }
.chart .span-name { paint-order: stroke; stroke: var(--ground); stroke-width: 3px; stroke-linejoin: round; }
.chart .span { stroke: var(--faint); stroke-width: .5; opacity: .8; } .chart .event { stroke: var(--faint); stroke-dasharray: 2 3; } .chart path.first { stroke: var(--ink); stroke-width: 1.2; } .chart text.first { font-size: 11px; }
.lanes { margin: 0 auto; } .lanes .rail { stroke: var(--line); stroke-width: 1.2; } .lanes .head { text-anchor: middle; font-weight: 700; }
.lanes .box rect { fill: var(--ground); stroke: var(--session); stroke-width: 1.2; } .lanes .name { font-weight: 700; } .lanes .meta { fill: var(--faint); }
.lanes .part { font-style: italic; fill: var(--ink); }
.lanes .link path { fill: none; } .lanes .link .wide { stroke: transparent; stroke-width: 14; pointer-events: stroke; cursor: pointer; }
.lanes .session path:not(.wide) { stroke: var(--session); stroke-width: 3; } .lanes .walk path:not(.wide) { stroke: var(--session); stroke-width: 3; stroke-dasharray: 1 6; stroke-linecap: round; }
.lanes .reads path:not(.wide) { stroke: var(--reads); stroke-width: 2; stroke-dasharray: 7 4; } .lanes .against path:not(.wide), .lanes .fault path:not(.wide), .lanes .breach path:not(.wide) { stroke: var(--bad); stroke-width: 2.4; stroke-dasharray: 12 3 3 3; }
.lanes .version path:not(.wide) { stroke: var(--doubt); stroke-width: 2.4; stroke-dasharray: 2 3; }
.lanes .derived .outer { stroke: var(--derived); stroke-width: 5; } .lanes .derived .inner { stroke: var(--raised); stroke-width: 1.8; }
.lanes marker path { fill: currentColor; stroke: currentColor; stroke-width: 1; } .lanes marker.session, .lanes marker.walk { color: var(--session); } .lanes marker.reads { color: var(--reads); } .lanes marker.version { color: var(--doubt); }
.lanes marker.against, .lanes marker.fault, .lanes marker.breach { color: var(--bad); } .lanes marker.derived { color: var(--derived); } .lanes marker.derived path { fill: none; stroke-width: 2; }
.lanes .label { cursor: pointer; outline: none; } .lanes .label rect { fill: var(--ground); stroke: var(--line); } .lanes .label text { text-anchor: middle; }
.lanes .label.reads text { fill: var(--reads); } .lanes .label.against text, .lanes .label.fault text, .lanes .label.breach text { fill: var(--bad); font-weight: 700; } .lanes .label.derived text { fill: var(--derived); } .lanes .label.version text { fill: var(--doubt); }
.lanes .label:focus-visible rect, .lanes .label.on rect { stroke: var(--focus); stroke-width: 2.5; } .lanes .link.on path:not(.wide):not(.inner) { filter: drop-shadow(0 0 2px currentColor); stroke-width: 5; }
.told { min-height: 3em; border-left: .25rem solid var(--line); padding: .2rem .8rem; margin: .4rem 0; } .told.on { border-color: var(--focus); }
.says { font-size: 1.05rem; }
ol.links { padding-left: 1.9rem; margin: .4rem 0; max-width: 50rem; } ol.links li { margin: .25rem 0; padding: .1rem .3rem; border-radius: .2rem; overflow-wrap: anywhere; } ol.links li.on { background: var(--raised); outline: 2px solid var(--focus); }
.legend { display: flex; flex-wrap: wrap; gap: .2rem 1.4rem; color: var(--faint); margin: .5rem 0; font-size: .95rem; } .legend span { display: inline-flex; align-items: flex-start; gap: .5rem; } .legend svg { flex: none; margin-top: .25rem; }
.kind { display: inline-block; min-width: 7.8em; font-weight: 600; } details { margin: .5rem 0; } summary { cursor: pointer; }
pre { background: var(--raised); border: 1px solid var(--line); border-radius: .3rem; padding: .6rem .8rem; overflow: auto; max-width: 100%; max-height: 60vh; white-space: pre-wrap; overflow-wrap: anywhere; font-size: .85rem; }
footer { color: var(--faint); font-size: .9rem; padding-top: 1rem; padding-bottom: 2.5rem; }
@media print { .scroll { max-height: none; } }
"""

SCRIPT = """
document.querySelectorAll('.example').forEach(function (example) {
  var told = example.querySelector('.told'), first = told.textContent;
  function show(number, stays) {
    example.querySelectorAll('[data-link]').forEach(function (one) { one.classList.toggle('on', one.dataset.link === number); });
    var item = number && example.querySelector('li[data-link="' + number + '"]');
    told.textContent = item ? number + '. ' + item.dataset.told : first;
    told.classList.toggle('on', Boolean(item));
    if (stays) { example.dataset.chosen = number || ''; }
  }
  function number(event) { var at = event.target.closest('[data-link]'); return at && at.dataset.link; }
  example.addEventListener('click', function (event) { var at = number(event); if (at) { show(at, true); } });
  example.addEventListener('keydown', function (event) {
    var at = number(event);
    if (at && (event.key === 'Enter' || event.key === ' ')) { event.preventDefault(); show(at, true); }
    if (event.key === 'Escape') { show('', true); }
  });
  example.addEventListener('mouseover', function (event) { var at = number(event); if (at) { show(at, false); } });
  example.addEventListener('mouseout', function (event) { if (number(event)) { show(example.dataset.chosen || '', false); } });
  example.addEventListener('focusin', function (event) { var at = number(event); if (at) { show(at, false); } });
});
"""


def text(value: Any) -> str:
    return escape(str(value), True)


def facts(pairs: Iterable[Tuple[str, str]]) -> str:
    return '<dl class="facts">%s</dl>' % "".join("<div><dt>%s</dt><dd>%s</dd></div>" % (text(name), text(value)) for name, value in pairs)


def counts(caption: str, rows: Sequence[Tuple[str, str, int]], most: int, what: str) -> str:
    """A table of counts: name, what it means, and how many; of those past so many only how many there are."""
    shown = list(rows[:most])
    greatest = max((count for _, _, count in shown), default=1)
    out: List[str] = ['<table><caption>%s</caption><tbody>' % text(caption)]
    for name, about, count in shown:
        out.append('<tr><th scope="row">%s%s</th><td class="count">%s</td><td class="share"><div style="width:%.0f%%"></div></td></tr>' % (
            text(name), "<small>%s</small>" % text(about) if about else "", "{:,}".format(count), 100 * count / greatest))
    if len(rows) > most:
        left = rows[most:]
        out.append('<tr><td class="faint">and %s %s more</td><td class="count">%s</td><td></td></tr>' % (
            "{:,}".format(len(left)), text(what), "{:,}".format(sum(count for _, _, count in left))))
    return "\n".join(out + ["</tbody></table>"])


def page(title: str, body: Iterable[str]) -> str:
    return "\n".join([
        '<!DOCTYPE html>', '<html lang="en">', '<head>', '<meta charset="utf-8">',
        '<meta name="viewport" content="width=device-width, initial-scale=1">',
        '<meta http-equiv="Content-Security-Policy" content="default-src \'none\'; style-src \'unsafe-inline\'; script-src \'unsafe-inline\'; img-src data:">',
        '<link rel="icon" href="data:,">',
        '<title>%s</title>' % text(title), '<style>%s</style>' % STYLE, '</head>', '<body>', *body,
        '<script>%s</script>' % SCRIPT, '</body>', '</html>', ''])


def number(value: int) -> str:
    return "{:,}".format(value)


def many(count: int, what: str) -> str:
    return "%s %s%s" % (number(count), what, "" if count == 1 else "s")


def capital(words: str) -> str:
    return words[:1].upper() + words[1:]


def counted(kinds: "Count[str]") -> str:
    return ", ".join("%s: %s" % (name, number(times)) for name, times in kinds.most_common())


def both(wide: str, narrow: str, frame: str = "scroll") -> str:
    return '<div class="%s wide-only">%s</div><div class="%s narrow-only">%s</div>' % (frame, wide, frame, narrow)


def sorted_counts(names: Iterable[str], about: Dict[str, str]) -> List[Tuple[str, str, int]]:
    return [(name, about.get(name, ""), count) for name, count in sorted(Counter(names).items(), key=lambda pair: (-pair[1], pair[0]))]
