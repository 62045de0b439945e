#!/usr/bin/env python3
"""Writes histories of several kinds and sizes into a folder, from fixed seeds.

    histories.py FOLDER [--kinds KIND ..] [--sizes N ..]
    histories.py --list

Each is `KIND-N.csv`, with about N transactions. All of them resolve; what each of them is, its function says, and
`--list` prints it. Without `--kinds` it writes all, and without `--sizes` those of 1,023 transactions. A folder that isn't there
is made; it comes before the options, which take several words.
"""
import argparse
import pathlib
import random

WIDE, NARROW, SESSIONS, KEYS = 256, 8, 64, 1024


def transaction(session, *operations):
    """The records of one transaction."""
    return ["%s,%s" % (session, record) for record in ("begin",) + operations + ("commit",)]


class Store:
    """A simulated store that keeps causality.

    Its log holds the committed writes in one order. A transaction reads a prefix of the log that is no shorter than any that its
    session has read or written before. So the order of the log is a commit order of the whole history.
    """

    def __init__(self, seed, keys=KEYS, lag=0):
        self.random = random.Random(seed)
        self.keys = ["k%d" % i for i in range(keys)]
        self.lag = lag
        self.log = []                                 # the writes of each committed transaction
        self.versions = {key: [(0, 0)] for key in self.keys}  # (length of the log, value), growing
        self.written = dict.fromkeys(self.keys, 0)    # the last value handed out
        self.seen = {}                                # session: the length of the prefix that it knows

    def value_at(self, key, length):
        return next(value for at, value in reversed(self.versions[key]) if at <= length)

    def transaction(self, session, words):
        """The records of one transaction: for each word of `words`, `r` or `w`, an operation at some key."""
        latest = len(self.log)
        known = max(self.seen.get(session, 0), latest - self.random.randrange(self.lag + 1))
        own, operations = {}, []
        for word in words:
            key = self.random.choice(self.keys)
            if word == "w":
                self.written[key] += 1
                own[key] = self.written[key]
            value = own[key] if key in own else self.value_at(key, known)
            operations.append("%s,%s,%d" % (word, key, value))
        self.log.append(own)
        self.seen[session] = len(self.log)
        for key, value in own.items():
            self.versions[key].append((len(self.log), value))
        return transaction(session, *operations)

    def stale_read(self, session):
        """The records of a transaction that reads the initial value of a key that was written before."""
        overwritten = [key for key in self.keys if self.written[key]]
        self.log.append({})
        return transaction(session, "r,%s,0" % self.random.choice(overwritten))


def history(count, seed, sessions=SESSIONS, keys=KEYS, lag=0, operations=NARROW, words=None, stale=0):
    """Transactions of sessions in random turns, half reads, in random order or in the order of `words`; some of those of
    the second half read an overwritten value instead."""
    store = Store(seed, keys, lag)
    late = set(store.random.sample(range(count // 2, count), stale))
    records = []
    for number in range(count):
        session = "s%02d" % store.random.randrange(sessions)
        if number in late:
            records += store.stale_read(session)
            continue
        mine = list(words or "rw" * (operations // 2))
        if words is None:
            store.random.shuffle(mine)
        records += store.transaction(session, mine)
    return records


def sessions_16(count):
    """16 sessions, 1,024 keys, 8 operations each; replicas lag by up to 200 transactions. Consistent."""
    return history(count, seed=11, sessions=16, lag=200)


def sessions_64(count):
    """As `sessions_16`, in 64 sessions. Consistent."""
    return history(count, seed=12, lag=200)


def one_session(count):
    """As `sessions_16`, in one session. Consistent."""
    return history(count, seed=4, sessions=1)


def many_keys(count):
    """64 sessions, 1,024 keys, 256 operations each; replicas lag. Consistent."""
    return history(count, seed=1, lag=200, operations=WIDE)


def few_keys(count):
    """64 sessions, 8 keys, 256 operations each: every transaction reads all keys and then writes all. Consistent."""
    return history(count, seed=2, keys=8, lag=100, words="r" * (WIDE // 2) + "w" * (WIDE // 2))


def many_readers(count):
    """64 sessions, 8 keys, one write in 256 operations: every value has many readers. Consistent."""
    return history(count, seed=3, keys=8, lag=100, words="r" * (WIDE - 1) + "w")


def stale_reads(count):
    """16 sessions, 1,024 keys, 8 operations each; one in a hundred transactions reads an overwritten value. The least
    cycle costs 3 or some more."""
    return history(count, seed=5, sessions=16, stale=count // 100 + 1)


def stale_reads_of_few_keys(count):
    """As `stale_reads`, over 8 keys: nearly each two transactions have a link. The least cycle costs 3."""
    return history(count, seed=6, sessions=16, keys=8, stale=count // 100 + 1)


def stale_reads_in_one_session(count):
    """As `stale_reads`, in one session. The least cycle costs 3."""
    return history(count, seed=7, sessions=1, stale=count // 100 + 1)


def stale_reads_of_many_keys(count):
    """As `many_keys`, and one transaction reads an overwritten value. The least cycle costs 3 or some more."""
    return history(count, seed=8, lag=200, operations=WIDE, stale=1)


def many_ties(count):
    """Half of all transactions read an overwritten value: very many least cycles, which cost 3."""
    return history(count, seed=9, sessions=16, stale=count // 2)


def mutual_reads(count):
    """As `sessions_16`, and two transactions that read from each other. The least cycle costs 2."""
    return (history(count - 2, seed=10, sessions=16, keys=KEYS - 2, lag=200)
            + transaction("t0", "r,m1,1", "w,m0,1") + transaction("t1", "r,m0,1", "w,m1,1"))


def torn_reads(count):
    """As `sessions_16`, but groups of three: two write the same key, and the third reads both values of it. The least cycle
    costs 4."""
    groups = count // 30 + 1
    records = history(count - 3 * groups, seed=13, sessions=16, keys=KEYS - groups, lag=200)
    for group in range(groups):
        key = "x%d" % group
        for index, operations in enumerate((["w,%s,1"], ["w,%s,2"], ["r,%s,1", "r,%s,2"])):
            records += transaction("s%02d" % ((group + index) % 16), *(operation % key for operation in operations))
    return records


def long_walk(count):
    """One chain of reads through 64 sessions, with a step of the session in each; its end reads what its beginning wrote
    over. The least cycle costs 129."""
    idle = max(count // SESSIONS - 2, 0)
    records = []
    for session in range(SESSIONS):
        name = "s%02d" % session
        told = "r,y%02d,1" % (session - 1) if session else "w,x,1"
        tells = "w,y%02d,1" % session if session < SESSIONS - 1 else "r,x,0"
        records += transaction(name, told) + transaction(name) * idle + transaction(name, tells)
    return records


def ring_of_long_links(count, sessions=16):
    """A ring of writers, one in each session, each overwritten by the next. Who reads the new value knows the old one by
    a chain of reads through all sessions alone, so each link is long. The least cycle costs 288."""
    records = []
    for session in range(sessions):
        name = "s%02d" % session
        records += transaction(name, "w,k%d,1" % session, "w,k%d,2" % ((session - 1) % sessions))
        for chain in range(sessions):
            position = (session - chain) % sessions
            told, tells = ["r,c%d.%d,1" % (chain, position - 1)], "w,c%d.%d,1" % (chain, position)
            records += transaction(name, *(told if position else []), tells)
        records += transaction(name) * max(count // sessions - sessions - 2, 0)
        records += transaction(name, "r,k%d,2" % ((session + 1) % sessions))
    return records


def wide(count):
    """16 sessions, one key: each transaction reads the last 255 values of it, and writes the next. The least cycle costs 3."""
    chosen, records = random.Random(14), []
    for number in range(count):
        reads = ["r,x,%d" % value for value in range(max(1, number - WIDE + 2), number + 1)]
        records += transaction("s%02d" % chosen.randrange(16), *reads, "w,x,%d" % (number + 1))
    return records


def late(count):
    """One session writes x again and again, and reads all values in its last transactions: nearly each two have a link. The
    least cycle costs 3."""
    reading = -(-count // WIDE)
    records = [record for value in range(1, count - reading + 1) for record in transaction("a", "w,x,%d" % value)]
    for first in range(1, count - reading + 1, WIDE):
        values = range(first, min(first + WIDE, count - reading + 1))
        records += transaction("a", *("r,x,%d" % value for value in values))
    return records


def lag(count, keys=8):
    """One session, 8 keys: each transaction writes all of them, and reads values of up to some thousand transactions before.
    The least cycle costs 3."""
    chosen, records = random.Random(15), []
    for number in range(1, count + 1):
        reads = ["r,k%d,%d" % (key, chosen.randrange(max(0, number - 4000), number)) for key in range(keys)]
        records += transaction("a", *reads, *("w,k%d,%d" % (key, number) for key in range(keys)))
    return records


def longest_chain(count):
    """One session: a write, transactions without operations, and a read that misses the write. The least cycle costs 3."""
    return transaction("a", "w,x,1") + transaction("a") * (count - 2) + transaction("a", "r,x,0")


KINDS = {make.__name__.replace("_", "-"): make for make in (
    sessions_16, sessions_64, one_session, many_keys, few_keys, many_readers, stale_reads, stale_reads_of_few_keys,
    stale_reads_in_one_session, stale_reads_of_many_keys, many_ties, mutual_reads, torn_reads, long_walk,
    ring_of_long_links, wide, late, lag, longest_chain)}


def text_of(kind, count):
    """The records of a history of this kind, with so many transactions, as text."""
    return "\n".join(KINDS[kind](count)) + "\n"


def main():
    ask = argparse.ArgumentParser(description="Writes histories of several kinds and sizes, from fixed seeds.")
    ask.add_argument("folder", type=pathlib.Path, nargs="?", help="where they are written, as KIND-N.csv")
    ask.add_argument("--kinds", nargs="+", choices=list(KINDS), default=list(KINDS), metavar="KIND", help="these alone")
    ask.add_argument("--sizes", nargs="+", type=int, default=[1023], metavar="N", help="so many transactions")
    ask.add_argument("--list", action="store_true", help="says what each kind is, and writes nothing")
    asked = ask.parse_args()
    if asked.list or asked.folder is None:
        for kind in asked.kinds:
            print("%s: %s" % (kind, " ".join(KINDS[kind].__doc__.split())))
        return
    asked.folder.mkdir(parents=True, exist_ok=True)
    for kind in asked.kinds:
        for count in asked.sizes:
            (asked.folder / ("%s-%d.csv" % (kind, count))).write_text(text_of(kind, count))


if __name__ == "__main__":
    main()
