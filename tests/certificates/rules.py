"""What a check has to say of any text, by the rules of docs/FORMATS.md, slowly."""
from definitions import INIT, stands_before
from texts import Fault, lowest, read

STATUS = {"accepted": 0, "rejected": 7, "certificate": 8}
# Up to this cost it is judged without an order that no cycle costs less, and up to the next one with it.
MOST_JUDGED = 4
MOST_STEPS = 64
# So many transactions may be spanned and near, to so many may derived links lead back, and so many keys may have one into `init`.
MOST_MEMBERS = 4096
# From so many may derived links lead back, times the cost.
MOST_SWEPT = 262144


def ends(link):
    return link[1], link[2]


def numbers_of(link):
    if link[0] != "D":
        return set(ends(link))
    return {link[1], link[2], link[4]}.union(*map(ends, link[5]))


def cost_of(link):
    return len(link[5]) + 1 if link[0] == "D" else 1


def is_step(history, step):
    kind, a, b, *key = step
    return history.is_session_pair(a, b) if kind == "S" else history.is_read_pair(a, b, *key)


def is_link(history, level, link):
    if link[0] != "D":
        return is_step(history, link)
    _, b, a, key, c, walk = link
    return (history.may_contradict(b, a, key, c) and all(is_step(history, step) for step in walk)
            and [step[1] for step in walk] + [c] == [b] + [step[2] for step in walk]
            and (level == "causal" or len(walk) == 1))


def first_of(broken):
    return min(broken, default=None)


def are_below(history, links):
    return all(number < history.count for link in links for number in numbers_of(link))


def broken_link(history, said):
    """Where rule 2 is broken."""
    links = said["links"]
    begins = [ends(link)[1] for link in links[-1:] + links[:-1]]
    wrong = [(i, 0) for i, (at, link) in enumerate(zip(begins, links), 1)
             if ends(link)[0] != at or not is_link(history, said["level"], link)]
    return first_of(wrong or [(0, 0)] * (sum(map(cost_of, links)) != said["cost"]))


def cycle_rules(history, said):
    """The rules for a cycle in order, each with where it is broken first, if it is."""
    every, near, cost, version, level = history.all(), said["near"], said["cost"], said["version"], said["level"]

    def far(s, v):
        return said["far"][s][v - lowest(version, s)]

    sizes = (said["count"] == history.count and are_below(history, said["links"])
             and all(n <= cost for row in near + said["far"] for n in row))
    yield 1, None if sizes else (0, 0)
    yield 2, broken_link(history, said)
    pairs, contradictions = history.pairs(), history.contradictions()
    yield 3, first_of((a, b) for a, b in pairs if near[a][b] > 1)
    yield 4, first_of((a, c) for a in every for b, c in pairs if level == "causal" and near[a][c] > near[a][b] + 1)
    weights = [(u, v, 1) for u, v in pairs] + [(b, a, 1 + near[b][c]) for b, a, c in contradictions]
    yield 5, first_of((s, v) for s, v, weight in weights if v >= lowest(version, s) and far(s, v) > weight)
    yield 6, first_of((s, v) for s in every for u, v, weight in weights
                      if min(u, v) >= lowest(version, s) and far(s, v) > far(s, u) + weight)
    yield 7, first_of((s, s) for s in every if far(s, s) < cost)


def order_rules(history, said):
    """The same for an order."""
    order, clocks, pairs = said["order"], said.get("clocks"), history.pairs()

    def has(c, b):
        owner, place = history.at[b]
        return b == INIT or clocks[c][owner] >= place

    def may_reach(b, c):
        return history.is_pair(b, c) if clocks is None else has(c, b)

    yield 1, None if said["count"] == history.count and said["sessions"] == len(history.sessions) else (0, 0)
    kept = (sorted(order) == list(history.all()) and all(stands_before(order, a, b) for a, b in pairs)
            and (clocks is None
                 or all(has(c, b) and all(x <= y for x, y in zip(clocks[b], clocks[c])) for b, c in pairs)))
    yield 8, None if kept else (0, 0)
    yield 9, first_of((b, a) for b, a, c in history.contradictions()
                      if may_reach(b, c) and not stands_before(order, b, a))


def told(history, runs):
    """The order that runs tell: `init`, and then of each run the next transactions of its session. None where one is of no session
    or goes past its end, or where a session's runs end before it does."""
    left = {session: history.of_session(session) for session in range(len(history.sessions))}
    order = [INIT]
    for session, length in runs:
        if length > len(left.get(session, [])):
            return None
        order += left[session][:length]
        left[session] = left[session][length:]
    return None if any(left.values()) else order


def large_order_rules(history, said):
    """The rules of version 3 for an order."""
    order = told(history, said["runs"])
    sizes = said["count"] == history.count and said["sessions"] == len(history.sessions) and order is not None
    yield 1, None if sizes else (0, 0)
    walks, pairs = history.walks(said["level"]), history.read_pairs()
    yield 8, first_of((a, c) for a, c in pairs if not stands_before(order, a, c))
    yield 9, first_of((b, a) for b, a, c in history.contradictions() if (b, c) in walks and not stands_before(order, b, a))


def large_cycle_rules(history, said):
    """The same for a cycle."""
    cost, least = said["cost"], said["least"]
    needed = least is None or (least == [] if cost <= MOST_JUDGED else told(history, least) is not None)
    yield 1, None if said["count"] == history.count and are_below(history, said["links"]) and needed else (0, 0)
    yield 2, broken_link(history, said)
    if least is None:
        return
    yield 3, first_of((a, c) for a, c in history.read_pairs() if cost in (3, 4) and is_round(history, cost, a, c))
    yield 4, first_of((b, a) for b, a, c in history.contradictions()
                      if cost == 4 and history.is_pair(b, c) and history.is_pair(a, b))
    if cost > MOST_JUDGED:
        order = told(history, least)
        yield 5, first_of((a, c) for a, c in history.read_pairs() if not stands_before(order, a, c))
        yield 6, None if is_bounded(history, order, cost, said["level"]) else (0, 0)
    yield 7, (0, 0) if history.least_cost(said["level"]) < cost else None


def is_bounded(history, order, cost, level):
    """Whether the counts of rule 6 are within their limits. These are the cost, and the transactions from which a derived link
    leads back in the order, and to which one does. They are also those over which one does and that are near, and the keys by which
    one leads into `init`. All but what is near is asked at `causal`."""
    walks = history.walks("causal")
    reasons = [(b, a, key) for b, a, key, c in history.contradicted_by_key() if (b, c) in walks]
    back = {(b, a) for b, a, _ in reasons if a != INIT and not stands_before(order, b, a)}
    spanned = {v for b, a in back for v in order if not stands_before(order, v, a) and not stands_before(order, b, v)}
    near = spanned & near_ones(order, cost, closings(history, order, cost, level), history.is_pair)
    return (cost <= MOST_STEPS and len({b for b, _ in back}) <= MOST_SWEPT // cost and len({a for _, a in back}) <= MOST_MEMBERS
            and len(near) <= MOST_MEMBERS and len({key for _, a, key in reasons if a == INIT}) <= MOST_MEMBERS)


def closings(history, order, cost, level):
    """The derived links of the level that lead back in the order, not into `init`, each as (b, a, price). Their price is so low
    that a cycle which costs less has another link beside it."""
    walks = history.walks(level)
    return [(b, a, walks[b, c] + 1) for b, a, c in history.contradictions()
            if a != INIT and (b, c) in walks and not stands_before(order, b, a) and walks[b, c] + 2 < cost]


def near_ones(order, cost, closings, is_pair):
    """The transactions through which what leads forward from the end of a closing, and on to where one begins, comes with its price to
    less than the cost."""
    at = {number: place for place, number in enumerate(order)}

    def leads_on(u, v):
        return at[u] < at[v] and all(any(at[a] <= place < at[b] for b, a, _ in closings) for place in range(at[u], at[v]))

    def forward(u, v):
        return [0] * (u == v) + [1] * is_pair(u, v) + [2] * leads_on(u, v)

    def onward(u, v):
        return [0] * (u == v) + [1] * leads_on(u, v)

    return {v for v in order if any(come + go + price < cost for _, a, _ in closings for come in forward(a, v)
                                    for b, _, price in closings for go in onward(v, b))}


def is_round(history, cost, a, c):
    """Whether a pair leads from c, which reads from a, back to a, or, where the cycle that is judged costs four, to what a reads from."""
    return history.is_pair(c, a) or (cost == 4 and any(history.is_pair(c, d) for _, d in history.reads[a]))


RULES = {(1, "order"): order_rules, (2, "order"): order_rules, (3, "order"): large_order_rules,
         (1, "cycle"): cycle_rules, (2, "cycle"): cycle_rules, (3, "cycle"): large_cycle_rules}


def is_true(history, said):
    """Whether the claim is true, whatever is beside it."""
    if said["kind"] == "order":
        order = said["order"] if "order" in said else told(history, said["runs"])
        return history.is_commit_order(order, said["level"])
    return said.get("least", []) is None or said["cost"] == history.least_cost(said["level"])


def claim_of(said):
    """How an accepted claim is printed."""
    if said["kind"] == "order":
        return "order"
    return "cycle, %d steps" % said["cost"] + (", least not claimed" if said.get("least", []) is None else "")


def outcome(history, text, versions=(1, 2)):
    """The line of a check of the text, and its status."""
    try:
        said = read(text, versions)
    except Fault as fault:
        return "certificate line %d: %s\n" % fault.args, STATUS["certificate"]
    for rule, at in RULES[said["version"], said["kind"]](history, said):
        if at is not None:
            return "rejected: rule %d at %d %d\n" % (rule, *at), STATUS["rejected"]
    if not is_true(history, said):
        raise AssertionError("the rules let a false claim through: %r" % text)
    return "accepted: %s\n" % claim_of(said), STATUS["accepted"]
