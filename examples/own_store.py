"""A store of one's own in the harness of the package: nodes that answer a line with a line, and a round with them.

A node knows `GET k`, `SET k v` and `CAS k seen v`.
"""
import socket
from tcc.harness import Connection, Found, Goal, Keys, Plan, Store, Swap, WriteThenRead, play


class Line(Connection):
    """Asks with a line: `GET k`, `SET k v`, `CAS k seen v`; 0 is what a key has that was never written."""

    def __init__(self, port):
        self.socket = socket.create_connection(("127.0.0.1", port), timeout=10)
        self.lines = self.socket.makefile("rw", newline="\n")

    def ask(self, *words):
        self.lines.write(" ".join(map(str, words)) + "\n")
        self.lines.flush()
        answer = self.lines.readline().split()
        if not answer:
            raise ConnectionResetError("no answer")
        return [int(word) for word in answer]

    def read(self, key):
        value, version = self.ask("GET", key)
        return Found(value, version) if value else Found()

    def write(self, key, value):
        return self.ask("SET", key, value)[0]  # the version of what was written

    def compare_and_set(self, key, seen, value):
        has_written, version = self.ask("CAS", key, seen.value or 0, value)
        return Swap(bool(has_written), version or None)

    def close(self):
        self.socket.close()


class Mine(Store):
    broken = (OSError,)  # a time-out is one too

    def __init__(self, ports):
        self.ports = dict(zip(("n0", "n1", "n2"), ports))
        self.nodes = tuple(self.ports)

    def connect(self, node):
        return Line(self.ports[node])


def main(ports, folder="round1"):
    plan = Plan(folder, Goal(seconds=20, lags=1), clients=4)
    played = play(Mine(ports), WriteThenRead(Keys(8)), plan)
    print("\n".join(played.summary()))
    print(played.explain().text(), end="")
