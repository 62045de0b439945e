"""Histories that have many of what some loop of a decision goes through, each with its words, its records and how its answer
begins. None of them may take more than some times the processor time of an ordinary history with as many bytes of records.

A history is named by what there is much of. `N` and the like are counts; sessions, keys and values are made of them.
"""
import itertools
import random
from typing import Iterable, Iterator, List, NamedTuple, Tuple

from limits import limits

# The most transactions of a small history.
MOST = limits()["MAX_TRANSACTIONS"]


class Hard(NamedTuple):
    """A history: what there is much of, the words of the run, its records, and how the answer begins."""

    name: str
    words: List[str]
    records: str
    begins: str


class Settled(NamedTuple):
    """Records with unknown outcomes, and others that end in a commit where those don't: what there is much of, the words of the run,
    both, and how the answer to the first begins."""

    name: str
    words: List[str]
    records: str
    committed: str
    begins: str


class Claimed(NamedTuple):
    """A certificate: what it has many of, the records that it is for, its text in pieces, and how the verdict begins."""

    name: str
    records: str
    text: Iterable[str]
    begins: str


Transactions = Iterable[Tuple[str, Iterable[str]]]
READS_A_TRANSACTION = 256


def records_of(transactions: Transactions) -> str:
    """The records of transactions that commit, each a session and its operations."""
    lines = []
    for session, operations in transactions:
        lines.append("%s,begin" % session)
        lines.extend("%s,%s" % (session, one) for one in operations)
        lines.append("%s,commit" % session)
    return "\n".join(lines) + "\n"


def read_all(session: str, keys: List[str]) -> Transactions:
    """Transactions that read 1 at each of these keys, as many at a time as one may have."""
    for first in range(0, len(keys), READS_A_TRANSACTION):
        yield session, ["r,%s,1" % key for key in keys[first:first + READS_A_TRANSACTION]]


def waiting(late: int, early: int) -> Transactions:
    """Each of `late` writes of x has to come after each of `early` others: who read one of the first had observed all of these. So
    each waits for many, and is looked at again as each of them is placed."""
    for n in range(late):
        yield "late%d" % n, ["w,x,%d" % (n + 1)]
    for n in range(early):
        yield "early%d" % n, ["w,x,%d" % (late + n + 1), "w,seen%d,1" % n]
    yield from read_all("c", ["seen%d" % n for n in range(early)])
    yield "c", ["w,go,1"]
    for n in range(late):
        yield "late%d" % n, ["r,go,1", "r,x,%d" % (n + 1)]


def read_early(writers: int, readers: int, early: int) -> Transactions:
    """Session a writes 1, 2 and so on to x, and many others read an early value, 1 or the initial 0; z reads 2 and then that one."""
    for n in range(writers):
        yield "a", ["w,x,%d" % (n + 1)]
    for _ in range(readers):
        yield "b", ["r,x,%d" % early]
    yield "z", ["r,x,2"]
    yield "z", ["r,x,%d" % early]


def crossed(sources: int, readers: int, of_all: bool = False) -> Transactions:
    """Source n writes the keys from n on, or all of them, and readers read key n from source n: each reader has many sources
    with many keys."""
    for source in range(sources):
        yield "s", ["w,k%d,%d" % (key, source + 1) for key in range(0 if of_all else source, sources)]
    for n in range(readers):
        yield "r%d" % (n % 32), ["r,k%d,%d" % (key, key + 1) for key in range(sources)]


def written_twice(transactions: int, sessions: int = 15, keys: int = 256) -> Transactions:
    """Many keys, each written by two sessions, and each value read by others, any time later."""
    picked, count = random.Random(1), transactions * keys
    for value, writer, reader in ((1, "a", "c"), (2, "b", "d")):
        for n in range(transactions):
            yield "%s%d" % (writer, n % sessions), ["w,k%d,%d" % (n * keys + key, value) for key in range(keys)]
        for n in range(transactions):
            some = [picked.randrange(count) for _ in range(keys)]
            yield "%s%d" % (reader, n % sessions), ["r,k%d,%d" % (key, value) for key in some]


def overtaken(writers: int, readers: int, sources: int = 60, told: int = 136) -> Transactions:
    """Sources write two keys each, which session b writes again and again. Session c knows what b did and reads the first values:
    so each source comes after what c has read of b, and is looked at again as each of that is placed."""
    keys = ["x%d" % key for key in range(2 * sources)]
    for n in range(sources):
        yield "a%d" % n, ["w,%s,1" % key for key in keys[2 * n:2 * n + 2]]
    for n in range(writers):
        yield "b", ["w,%s,%d" % (key, n + 2) for key in keys] + ["w,y%d,%d" % (key, n + 1) for key in range(told)]
    for n in range(readers):
        yield "c", ["r,y%d,%d" % (key, n * writers // readers + 1) for key in range(told)] + ["r,%s,1" % key for key in keys]


def written_by_many(sessions: int, reads: int, keys: str = "abcdefgh") -> Transactions:
    """Many sessions write each of a few keys three times, and c, who has observed all of them, reads older values of one session."""
    for n in range(sessions):
        for time in range(3):
            yield "s%d" % n, ["w,%s,%d" % (key, 3 * n + time + 2) for key in keys]
        yield "s%d" % n, ["w,seen%d,1" % n]
    yield "t", ["w,%s,1" % key for key in keys]
    yield from read_all("c", ["seen%d" % n for n in range(sessions)])
    for _ in range(reads):
        yield "c", ["r,%s,1" % key for key in keys]


def gathered(sessions: int, writes: int, again: int = 0) -> Transactions:
    """Many sessions write x once each, c has observed all of them, and then reads one write of x by session a after the other. At
    the end the first of them again, so many times."""
    for n in range(sessions):
        yield "b%d" % n, ["w,x,%d" % (n + 1), "w,seen%d,1" % n]
    yield from read_all("c", ["seen%d" % n for n in range(sessions)])
    for n in range(writes):
        yield "a", ["w,x,%d" % (sessions + n + 1)]
    for n in range(writes):
        yield "c", ["r,x,%d" % (sessions + n + 1)]
    for _ in range(again):
        yield "c", ["r,x,%d" % (sessions + 1)]


def ring(links: int, copies: int, empty: int) -> Transactions:
    """Each of many transactions overwrites what the next one overwrites too, and c, after many empty ones, saw each in turn. So
    each comes before the next, and the last, of which there are some, before the first."""
    yield "t0", ["w,x0,1", "w,z,1", "w,end,1"]
    for n in range(1, links):
        last = ["w,e%d,1" % copy for copy in range(copies)] if n == links - 1 else ["w,x%d,%d" % (n, n + 1)]
        yield "t%d" % n, ["w,x%d,%d" % (n - 1, n + 1), *last]
    for copy in range(copies):
        yield "v%d" % copy, ["w,e%d,2" % copy, "w,end,%d" % (copy + 2)]
    for _ in range(empty):
        yield "c", []
    yield "c", ["r,z,1"]
    for n in range(1, links):
        yield "c", ["r,x%d,%d" % (n - 1, n + 1)]
    for copy in range(copies):
        yield "c", ["r,e%d,2" % copy]
    yield "c", ["r,end,1"]


def walked(links: int, sessions: int) -> Transactions:
    """Transactions are in a ring, each before the next, since c read what each overwrites in turn; and what c has observed of any of them
    came to it through all sessions. So the answer has so many links, each with a walk of so many steps."""
    for n in range(links):
        yield "t%d" % n, ["w,x%d,%d" % (n, n + 1), "w,x%d,%d" % ((n - 1) % links, n + 1), "w,z%d,1" % n]
    yield from read_all("u0", ["z%d" % n for n in range(links)])
    yield "u0", ["w,p0,1"]
    for n in range(1, sessions):
        yield "u%d" % n, ["r,p%d,1" % (n - 1), "w,p%d,1" % n]
    yield "c", ["r,p%d,1" % (sessions - 1)]
    for n in reversed(range(links)):
        yield "c", ["r,x%d,%d" % (n, (n + 1) % links + 1)]


def windowed(writes: int, steps: int, empty: int) -> Transactions:
    """The first and the last of many transactions of session a write x, and z, who observed the last by a chain of sessions, reads the first
    value. So the one least cycle has so many steps, and its link back leads over all that is between the two. Beside them there are empty
    sessions."""
    for n in range(empty):
        yield "e%d" % n, []
    yield "a", ["w,x,1"]
    for _ in range(writes - 2):
        yield "a", []
    yield "a", ["w,x,2", "w,p0,1"]
    # a pair of session a, a read by each of the chain and by z, and the read of x
    chain = steps - 3
    for n in range(chain):
        yield "c%d" % n, ["r,p%d,1" % n, "w,p%d,1" % (n + 1)]
    yield "z", ["r,p%d,1" % chain, "r,x,1"]


def stale_beside(stale: int, keys: int, empty: int) -> Transactions:
    """Session a reads old values of some keys that it overwrote; each transaction that it read from has many other keys, which b
    reads after many empty transactions."""
    for n in range(stale):
        yield "a", ["w,y%d,1" % n, *("w,k%d,%d" % (key, n + 1) for key in range(keys))]
    for n in range(stale):
        yield "a", ["w,y%d,2" % n]
    yield "a", ["r,y%d,1" % n for n in range(stale)]
    for _ in range(empty):
        yield "b", []
    for n in range(stale):
        yield "b", ["r,k%d,%d" % (key, n + 1) for key in range(keys)]


def circling(transactions: int, reads: int, keys: int = 1000) -> Transactions:
    """Each transaction, of 64 sessions, reads what many others wrote, earlier and later ones, and writes a key: pairs lead in
    circles, and from each to nearly all others in a few steps. The first two read from one another."""
    picked = random.Random(1)
    for n in range(transactions):
        others = {1 - n} if n < 2 else set()
        others.update(picked.randrange(transactions) for _ in range(reads))
        read = ["r,k%d,%d" % (other % keys, other + 1) for other in sorted(others - {n})]
        yield "s%02d" % (n % 64), read + ["w,k%d,%d" % (n % keys, n + 1)]


def one_stale_among_many(count: int, sessions: int) -> Transactions:
    """Sessions in turn, each of whose transactions reads the last value of any other's key and writes its own; then the first one
    reads the first value of its own key."""
    picked, last = random.Random(1), [0] * sessions
    for n in range(count):
        own, other = n % sessions, picked.randrange(sessions)
        last[own] += 1
        yield "s%d" % own, ["r,k%d,%d" % (other, last[other] - (other == own)), "w,k%d,%d" % (own, last[own])]
    yield "s0", ["r,k0,1"]


def read_initial(writers: int, readers: int) -> Transactions:
    """Session a writes x again and again, unseen by c, who has observed d alone and reads the initial x."""
    yield "d", ["w,z,1"]
    for n in range(writers):
        yield "a", ["w,x,%d" % (n + 1)]
    yield "c", ["r,z,1"]
    for _ in range(readers):
        yield "c", ["r,x,0"]


def known_by_steps(writers: int, readers: int) -> Transactions:
    """Session a writes x again and again; c has observed all that by way of d, by no single pair, and reads the first write."""
    for n in range(writers):
        yield "a", ["w,x,%d" % (n + 1)]
    yield "a", ["w,y,1"]
    yield "d", ["r,y,1", "w,z,1"]
    yield "c", ["r,z,1"]
    for _ in range(readers):
        yield "c", ["r,x,1"]


def each_its_own(sessions: int) -> Transactions:
    """Each session has one transaction, which writes a key of its own and reads that of the session before it."""
    for n in range(sessions):
        yield "s%d" % n, ["w,k%d,1" % n, *(["r,k%d,1" % (n - 1)] if n else [])]


def known_by_chain(reads: int, readers: int) -> Transactions:
    """Session c reads x from a again and again, though it had observed that b overwrote it, by way of d. Many others read what b wrote,
    so that each of them is a reader by whom c may have known of b."""
    yield "a", ["w,x,1"]
    yield "b", ["r,x,1", "w,x,2", "w,k,1"]
    yield "d", ["r,k,1", "w,z,1"]
    for _ in range(readers):
        yield "m", ["r,x,2"]
    yield "c", ["r,z,1"]
    for _ in range(reads):
        yield "c", ["r,x,1"]


def stale() -> str:
    """A session that doesn't read its own write."""
    return records_of([("a", ["w,x,1"]), ("a", ["r,x,0"])])


def read_from_one_another() -> Transactions:
    """Two transactions that read from one another, of which the second reads the initial z, though the first wrote it."""
    yield "a", ["w,x,1", "r,y,1", "w,z,1"]
    yield "b", ["r,x,1", "w,y,1", "r,z,0"]


def unread(ending: str, transactions: int, writes: int, seals: int, between: bool) -> str:
    """The records of many transactions that end so, of values that nobody reads, and then of seals, perhaps with a transaction
    before each."""
    lines = []
    for n in range(transactions):
        lines.append("u%d,begin" % n)
        lines.extend("u%d,w,x%d,%d" % (n, key, n + 1) for key in range(writes))
        lines.append("u%d,%s" % (n, ending))
    for n in range(seals):
        lines.extend(["a,begin", "a,w,y,%d" % (n + 1), "a,commit", "seal"] if between else ["seal"])
    return "\n".join(lines) + "\n"


def ordinary(size: int) -> str:
    """A history with at least this many bytes: 32 sessions, of whose transactions each writes a key and reads the last value of
    another one."""
    last = {}
    written = 0
    transactions = []
    bytes_so_far = 0
    while bytes_so_far < size:
        session, key, other = "s%d" % (written % 32), "k%d" % (written * 7 % 500), "k%d" % (written * 11 % 500)
        written += 1
        operations = ["r,%s,%d" % (other, last.get(other, 0)), "w,%s,%d" % (key, written)]
        last[key] = written
        transactions.append((session, operations))
        bytes_so_far += sum(len(one) + len(session) + 2 for one in operations) + 2 * len(session) + 15
    return records_of(transactions)


def hard() -> Iterator[Hard]:
    """The histories, at sizes of a second and less. At `atomic` who reads an old value by one pair alone isn't
    contradicted by what it knows by two."""
    large, atomic, small = (["explain", *words] for words in (["--large"], ["--large", "--level", "atomic"], ["--level", "atomic"]))
    yield Hard("waiting", large, records_of(waiting(1365, 2729)), "consistent: 5471 transactions, %d sessions\n" % (3 * 1365))
    yield Hard("overwritten", atomic, records_of(read_early(30000, 30000, 1)), "consistent: 60002 transactions, 3 sessions\n")
    yield Hard("never written", atomic, records_of(read_early(30000, 30000, 0)), "consistent: 60002 transactions, 3 sessions\n")
    yield Hard("crossed", atomic, records_of(crossed(250, 400)), "consistent: 650 transactions, 33 sessions\n")
    yield Hard("crossed, all keys", small, records_of(crossed(250, 800, of_all=True)), "anomaly: 3 steps, overwritten-read\n")
    yield Hard("written twice", atomic, records_of(written_twice(320)), "consistent: 1280 transactions, 60 sessions\n")
    yield Hard("overtaken", small, records_of(overtaken(800, 800)), "consistent: 1660 transactions, 62 sessions\n")
    yield Hard("written by many", large, records_of(written_by_many(4000, 8000)), "consistent: 24017 transactions, 4002 sessions\n")
    yield Hard("a key written by many", large, records_of(written_by_many(4000, 40000, "a")),
               "consistent: 56017 transactions, 4002 sessions\n")
    yield Hard("gathered", large, records_of(gathered(4000, 30000)), "consistent: 64016 transactions, 4002 sessions\n")
    yield Hard("gathered, one stale", large, records_of(gathered(4000, 15000, again=1)), "anomaly: 4 steps, overwritten-read\n")
    yield Hard("ring", large, records_of(ring(1000, 64, 20000)), "anomaly: 3003 steps, ")
    yield Hard("windowed", large, records_of(windowed(4000, 60, 62)), "anomaly: 60 steps, overwritten-read\n")
    yield Hard("stale beside", large, records_of(stale_beside(64, 255, 40000)), "anomaly: 3 steps, ")
    yield Hard("circling", large, records_of(circling(MOST, 100)), "anomaly: 2 steps, cyclic-causality\n")
    yield Hard("circling at atomic", small, records_of(circling(MOST, 100)), "anomaly: 2 steps, cyclic-causality\n")
    yield Hard("one stale among many", large, records_of(one_stale_among_many(60000, 4096)), "anomaly: 3 steps, overwritten-read\n")
    survey = ["survey", "--large"]
    yield Hard("surveyed: initial reads", survey, records_of(read_initial(60000, 60000)), "0 contradicted reads of 60001, 0 faults\n")
    yield Hard("surveyed: known by steps", [*survey, "--level", "atomic"], records_of(known_by_steps(60000, 60000)),
               "0 contradicted reads of 60002, 0 faults\n")
    yield Hard("surveyed: a session each", survey, records_of(each_its_own(60000)), "0 contradicted reads of 59999, 0 faults\n")
    yield Hard("surveyed: known by a chain", survey, records_of(known_by_chain(40000, 40000)),
               "contradicted c/2 op 1 x 1: knew of b/1, causal chain\n")
    yield Hard("surveyed: known by a chain, small", ["survey"], records_of(known_by_chain(2040, 2040)),
               "contradicted c/2 op 1 x 1: knew of b/1, causal chain\n")
    yield Hard("a session each", large, records_of(each_its_own(60000)), "consistent: 60000 transactions, 60000 sessions\n")


def settled() -> Iterator[Settled]:
    """Histories in which each seal may look again at what was of unknown outcome before, or at what was read."""
    for name, sizes, first in (
            ("unread ones before many seals", (5000, 1, 5000, False), "consistent: 0 transactions, 0 sessions\n"),
            ("unread ones of many writes", (100, 250, 1000, True), "consistent: 1 transactions, 1 sessions\n")):
        records, committed = (unread(ending, *sizes) for ending in ("unknown", "commit"))
        yield Settled(name, ["watch"], records, committed, first)
        yield Settled(name + ", surveyed", ["survey", "--large"], records, committed, "0 contradicted reads of 0, 0 faults\n")


def hard_to_check() -> Iterator[Tuple[str, str]]:
    """Histories whose answers are hard to check, by their names."""
    yield "a session each", records_of(each_its_own(60000))
    yield "written by many", records_of(written_by_many(4000, 8000))
    yield "long walks", records_of(walked(260, 260))


def claims(size: int) -> Iterator[Claimed]:
    """Certificates of about this size. Those for the stale read claim what isn't so; the last claims a cycle whose one long walk goes
    round two pairs, again and again."""
    for name, begins, line in (
            ("links", "cycle 3 %d 3\n", "D 1 0 x 2 1\nS 1 2\n"),
            ("steps", "cycle 3 1 3\nD 1 0 x 2 %d\n", "S 1 2\n"),
            ("runs", "order 3 1 %d\n", "0 1\n"),
            ("runs beside links", "cycle 3 2 3\nS 0 1\nD 1 0 x 2 1\nS 1 2\nleast %d\n", "0 1\n")):
        many = size // len(line)
        text = itertools.chain(["tcc-certificate 3 causal\n" + begins % many], itertools.repeat(line, many), ["end\n"])
        yield Claimed("a certificate of many " + name, stale(), text, "rejected: ")
    there, back = "R 1 2 x\n", "R 2 1 y\n"
    rounds = size // len(there + back)
    steps = 2 * rounds + 1
    text = itertools.chain(["tcc-certificate 3 causal\ncycle 3 2 %d\nD 1 0 z 2 %d\n" % (steps + 2, steps)],
                           itertools.repeat(there + back, rounds), [there, "S 0 1\nend\n"])
    yield Claimed("a certificate of a walk that goes round", records_of(read_from_one_another()), text,
                  "accepted: cycle, %d steps, least not claimed\n" % (steps + 2))
