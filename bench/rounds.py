#!/usr/bin/env python3
"""How likely a round finds an anomaly, by its number of transactions and of keys.

    rounds.py [--tcc PATH] [--rounds N] [--keys N ..] [--transactions N ..]

Plays rounds of a store of two replicas, from fixed seeds. Eight clients make transactions of four operations, a read or a write of
any key each. What is written shows at the other replica sixteen transactions later, and a client goes over to the other one before
one transaction in fifty, so that it may not see what it saw before. Prints for each number of keys, in a line, of how many rounds
the answer is an anomaly. A round whose answer is neither an order nor an anomaly ends the run.
"""
import argparse
import pathlib
import random
import subprocess
import sys
from collections import deque

TOP = pathlib.Path(__file__).resolve().parent.parent
CLIENTS, OPERATIONS, LAG, STAYS = 8, 4, 16, 50
CONSISTENT, ANOMALY = 0, 1


class Replica:
    """Values by key, each with the time at which it was written; of two writes of a key the later one stays."""

    def __init__(self):
        self.values = {}
        self.coming = deque()

    def take(self, writes, time):
        for key, value in writes.items():
            if self.values.get(key, (0, -1))[1] < time:
                self.values[key] = (value, time)

    def catch_up(self, time):
        """Takes what was written at the other one so long ago that it shows."""
        while self.coming and self.coming[0][0] + LAG <= time:
            written, writes = self.coming.popleft()
            self.take(writes, written)


def operations(chance, keys, seen, values):
    """The operations of a transaction that sees these values, as records but for the session, and what it writes."""
    done, writes = [], {}
    for _ in range(OPERATIONS):
        key = chance.randrange(keys)
        if chance.randrange(2):
            writes[key] = next(values)
            done.append("w,k%d,%d" % (key, writes[key]))
        else:
            done.append("r,k%d,%d" % (key, writes.get(key, seen.get(key, (0, 0))[0])))
    return done, writes


def records(keys, transactions, seed):
    """The records of a round, as lines."""
    chance, replicas, values = random.Random(seed), (Replica(), Replica()), iter(range(1, 2**63))
    at = [client % 2 for client in range(CLIENTS)]
    for time in range(transactions):
        for replica in replicas:
            replica.catch_up(time)
        client = chance.randrange(CLIENTS)
        at[client] ^= chance.randrange(STAYS) == 0
        near, far = replicas[at[client]], replicas[1 - at[client]]
        done, writes = operations(chance, keys, near.values, values)
        yield from ("c%d,%s" % (client, record) for record in ("begin", *done, "commit"))
        near.take(writes, time)
        far.coming.append((time, writes))


def is_anomaly(tcc, keys, transactions, seed):
    """Whether the answer for a round is an anomaly, and not an order."""
    given = "".join(record + "\n" for record in records(keys, transactions, seed))
    status = subprocess.run([tcc, "explain"], input=given.encode(), stdout=subprocess.DEVNULL, check=False).returncode
    if status not in (CONSISTENT, ANOMALY):
        sys.exit("rounds.py: %d keys, %d transactions, seed %d: status %d" % (keys, transactions, seed, status))
    return status == ANOMALY


def main():
    ask = argparse.ArgumentParser(description="How likely a round finds an anomaly.")
    ask.add_argument("--tcc", default=str(TOP / "crates/tcc/out/tcc"), help="the program, by default the built one")
    ask.add_argument("--rounds", type=int, default=20, metavar="N", help="so many for each cell, by default 20")
    ask.add_argument("--keys", type=int, nargs="+", default=[4, 16, 64, 256, 1024], metavar="N")
    ask.add_argument("--transactions", type=int, nargs="+", default=[50, 100, 200, 400, 800], metavar="N")
    asked = ask.parse_args()
    print("keys, then rounds of %d with an anomaly by transactions %s" % (
        asked.rounds, " ".join(map(str, asked.transactions))))
    for keys in asked.keys:
        cells = [sum(is_anomaly(asked.tcc, keys, count, seed) for seed in range(asked.rounds)) for count in asked.transactions]
        print(keys, *cells, flush=True)


if __name__ == "__main__":
    main()
