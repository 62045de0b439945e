"""Histories by their definitions, slowly.

Written from docs/MODEL.md alone, without any of the program's tables or searches. For histories without faults.
"""
import itertools

INIT = 0


class History:
    """What is judged: by number, each transaction's session, place, written keys, and keys read with their sources."""

    def __init__(self, records):
        begun, finished = {}, {}
        for session, what, *rest in (line.split(",") for line in records.splitlines() if line != "seal"):
            if what == "begin":
                begun[session] = []
            elif what in ("commit", "abort"):
                finished.setdefault(session, []).append((what == "commit", begun.pop(session)))
            else:
                begun[session].append((what, rest[0], int(rest[1])))
        self.sessions = sorted(finished)
        self.at = [(None, 0)]
        ops = [[]]
        for owner, session in enumerate(self.sessions):
            for place, (committed, done) in enumerate(finished[session], 1):
                if committed:
                    self.at.append((owner, place))
                    ops.append(done)
        self.count = len(ops)
        self.writes = [{key: value for what, key, value in done if what == "w"} for done in ops]
        self.reads = [set(self.sources(done)) for done in ops]
        self.known_walks = {}

    def sources(self, done):
        """The keys that are read before they are written, each with the index of the transaction that wrote the value."""
        own = set()
        for what, key, value in done:
            if what == "w":
                own.add(key)
            elif key not in own:
                yield key, next((a for a in self.all() if value and self.writes[a].get(key) == value), INIT)

    def all(self):
        return range(self.count)

    def of_session(self, session):
        """The numbers of a session's transactions."""
        return [number for number in self.all() if self.at[number][0] == session]

    def is_session_pair(self, a, b):
        (owner, place), (other, later) = self.at[a], self.at[b]
        return a != b and (a == INIT or (owner == other and place < later))

    def is_read_pair(self, a, b, key):
        return (key, a) in self.reads[b]

    def read_pairs(self):
        return {(a, b) for b in self.all() for _, a in self.reads[b]}

    def is_pair(self, a, b):
        return self.is_session_pair(a, b) or any(source == a for _, source in self.reads[b])

    def pairs(self):
        return [(a, b) for a in self.all() for b in self.all() if self.is_pair(a, b)]

    def may_contradict(self, b, a, key, c):
        """Whether c reads the key from a, and b, another transaction, writes it too."""
        return b != a and self.is_read_pair(a, c, key) and (b == INIT or key in self.writes[b])

    def contradicted_by_key(self):
        """All (b, a, key, c) of which that holds."""
        return [(b, a, key, c) for c in self.all() for key, a in sorted(self.reads[c]) for b in self.all()
                if self.may_contradict(b, a, key, c)]

    def contradictions(self):
        """The same by some key."""
        return {(b, a, c) for b, a, _, c in self.contradicted_by_key()}

    def walks(self, level):
        """The least number of steps from each to each; at `atomic` of single pairs alone."""
        if level not in self.known_walks:
            steps = {pair: 1 for pair in self.pairs()}
            self.known_walks[level] = steps if level == "atomic" else shortest(steps, self.all())
        return self.known_walks[level]

    def costs(self, level):
        """The least cost of a route from each to each."""
        walks, links = self.walks(level), {pair: 1 for pair in self.pairs()}
        for b, a, c in self.contradictions():
            if (b, c) in walks:
                links[b, a] = min(links.get((b, a), 1 + walks[b, c]), 1 + walks[b, c])
        return shortest(links, self.all())

    def least_cost(self, level):
        """What a least cycle costs, or None."""
        return min((cost for (a, b), cost in self.costs(level).items() if a == b), default=None)

    def is_commit_order(self, order, level):
        walks = self.walks(level)
        return (sorted(order) == list(self.all()) and all(stands_before(order, a, b) for a, b in self.pairs())
                and all(stands_before(order, b, a) for b, a, c in self.contradictions() if (b, c) in walks))

    def first_order(self, level):
        """The first commit order: the least number that nothing left has to come before, again and again. None where that ends."""
        walks = self.walks(level)
        before = set(self.pairs()) | {(b, a) for b, a, c in self.contradictions() if (b, c) in walks}
        order, left = [], set(self.all())
        while left:
            free = [number for number in left if not any((other, number) in before for other in left)]
            if not free:
                return None
            order.append(min(free))
            left.remove(order[-1])
        return order


def shortest(lengths, all_of):
    """The least sums of lengths along one or more pairs."""
    least = dict(lengths)
    for b, a, c in itertools.product(all_of, repeat=3):
        if (a, b) in least and (b, c) in least:
            least[a, c] = min(least.get((a, c), least[a, b] + least[b, c]), least[a, b] + least[b, c])
    return least


def stands_before(order, a, b):
    return any(x == a and b in order[i + 1:] for i, x in enumerate(order))
