"""Claims of version 3 about a history, right and wrong ones, and what may be altered in their texts."""
import heapq
import itertools
import re
from collections import deque

from rules import MOST_JUDGED, cost_of, ends

WORD = re.compile(rb"(?<![^ \n])[0-9]+(?![^ \n])")
# Numbers at the ends of ranges, and past them.
EDGES = (0, 1, 65534, 65535, 65536, (1 << 24) - 1, 1 << 24, (1 << 32) - 1, 1 << 32)


def runs_of(history, order):
    """The runs that tell an order which keeps that of each session, neighbouring ones joined."""
    owners = (history.at[number][0] for number in order[1:])
    return [(owner, len(list(run))) for owner, run in itertools.groupby(owners)]


def mixed(history, dice):
    """Any order that keeps that of each session."""
    owners = [history.at[number][0] for number in history.all()][1:]
    dice.shuffle(owners)
    left = {owner: iter(history.of_session(owner)) for owner in set(owners)}
    return [0] + [next(left[owner]) for owner in owners]


def keeping_pairs(history):
    """An order that keeps all pairs, or None."""
    order, left = [], set(history.all())
    while left:
        free = [number for number in left if not any(history.is_pair(other, number) for other in left)]
        if not free:
            return None
        order.append(min(free))
        left.remove(order[-1])
    return order


def walk_of(history, b, c):
    """The steps of a shortest walk from b to c."""
    onward, waiting = {}, deque([c])
    while b not in onward:
        at = waiting.popleft()
        for a in history.all():
            if a not in onward and history.is_pair(a, at):
                onward[a] = step_of(history, a, at)
                waiting.append(a)
    steps = [onward[b]]
    while steps[-1][2] != c:
        steps.append(onward[steps[-1][2]])
    return steps


def step_of(history, a, b):
    if history.is_session_pair(a, b):
        return ["S", a, b]
    return ["R", a, b, min(key for key, source in history.reads[b] if source == a)]


def links_of(history, level):
    """A link for each pair, and for each reason that the level allows, with a shortest walk."""
    yield from (step_of(history, a, b) for a, b in history.pairs())
    walks = history.walks(level)
    for b, a, key, c in history.contradicted_by_key():
        if (b, c) in walks:
            yield ["D", b, a, key, c, walk_of(history, b, c)]


def cycles(history, level):
    """From each start a cheapest cycle, those that are the same but for their start once."""
    out = {number: [] for number in history.all()}
    for link in links_of(history, level):
        out[ends(link)[0]].append(link)
    seen = set()
    for start in history.all():
        cycle = cheapest(out, start)
        if cycle and frozenset(map(str, cycle)) not in seen:
            seen.add(frozenset(map(str, cycle)))
            yield cycle


def cheapest(out, start):
    """A cheapest way along links from a start back to it, or None."""
    ticket = itertools.count()
    waiting, done = [(0, next(ticket), start, [])], set()
    while waiting:
        cost, _, at, links = heapq.heappop(waiting)
        if links and at == start:
            return links
        if at in done:
            continue
        if links:
            done.add(at)
        for link in out[at]:
            heapq.heappush(waiting, (cost + cost_of(link), next(ticket), ends(link)[1], links + [link]))
    return None


def line_of(words):
    return " ".join(map(str, words)) + "\n"


def run_lines(runs):
    return "".join(map(line_of, runs))


def order_text(history, level, runs):
    sizes = line_of(["order", history.count, len(history.sessions), len(runs)])
    return ("tcc-certificate 3 %s\n%s%send\n" % (level, sizes, run_lines(runs))).encode()


def link_lines(link):
    if link[0] != "D":
        return line_of(link)
    return line_of(link[:5] + [len(link[5])]) + "".join(map(line_of, link[5]))


def cycle_text(history, level, links, least):
    """The text of a claim of a cycle, with runs that show it to be least, or None where that isn't claimed."""
    cost = sum(map(cost_of, links))
    tail = "" if least is None else line_of(["least", len(least)]) + run_lines(least)
    sizes = line_of(["cycle", history.count, len(links), cost])
    return ("tcc-certificate 3 %s\n%s%s%send\n" % (level, sizes, "".join(map(link_lines, links)), tail)).encode()


def own_claim(history, level):
    """The text of what an explainer claims of a history: its first order, or a least cycle, up to four steps as a least one."""
    order = history.first_order(level)
    if order:
        return order_text(history, level, runs_of(history, order))
    links = min(cycles(history, level), key=lambda links: sum(map(cost_of, links)))
    return cycle_text(history, level, links, [] if sum(map(cost_of, links)) <= MOST_JUDGED else None)


def claims(history, level, dice):
    """Texts of claims, each with what it claims: orders, the first one and any, and cycles, with leastness and without."""
    first = history.first_order(level)
    if first:
        yield "first order", order_text(history, level, runs_of(history, first))
        yield "single runs", order_text(history, level, [(history.at[number][0], 1) for number in first[1:]])
    for _ in range(3):
        yield "mixed order", order_text(history, level, runs_of(history, mixed(history, dice)))
    some = list(cycles(history, level))
    pairs_kept = keeping_pairs(history)
    for links in dice.sample(some, min(len(some), 3)):
        yield "cycle", cycle_text(history, level, links, None)
        yield "least cycle", cycle_text(history, level, links, [])
        yield "twice round", cycle_text(history, level, links + links, None)
        if pairs_kept:
            yield "least cycle with runs", cycle_text(history, level, links, runs_of(history, pairs_kept))


def altered(text, count, dice):
    """So many texts in which a number is another one, or two lines have changed places, each with what was done."""
    words = [found for found in WORD.finditer(text) if found.start() > text.index(b"\n")]
    lines = text.split(b"\n")
    for _ in range(count):
        if dice.random() < 0.2 and len(lines) > 5:
            at = dice.randrange(2, len(lines) - 3)
            yield "lines %d and %d changed" % (at + 1, at + 2), b"\n".join(
                lines[:at] + [lines[at + 1], lines[at]] + lines[at + 2:])
        else:
            word = dice.choice(words)
            old = int(word.group())
            new = dice.choice([old + 1, max(old - 1, 0), dice.randrange(12), dice.choice(EDGES)])
            yield "%d for %d at byte %d" % (new, old, word.start()), text[:word.start()] + b"%d" % new + text[word.end():]
