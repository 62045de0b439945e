"""A harness for a store of one's own: clients, workloads, troubles, several recorder processes, and what lagged.

A store is a class that connects to a node, and a connection one that reads and writes; examples/own_store.py shows one of 40 lines.

    from tcc.harness import Goal, Keys, Plan, WriteThenRead, kill, pause, play

    played = play(Mine(), WriteThenRead(Keys(8)), Plan("round1", Goal(seconds=20, lags=1), troubles=[pause(server)]))
    print("\\n".join(played.summary()))
    print(played.explain().text())
"""
from tcc.harness.client import Client, Pace, TurnOver
from tcc.harness.clock import joined_notes, note_clock
from tcc.harness.lag import Lag
from tcc.harness.opinion import Circle, stale_reads
from tcc.harness.rounds import Goal, Plan, Played, Unplayed, play
from tcc.harness.servers import LOOPBACK, Link, NoServer, Server, free_port, free_ports, ports_of, running, wait_for, wait_until
from tcc.harness.store import Atomic, Connection, Done, Found, Store, Swap
from tcc.harness.troubles import Trouble, Troubles, by_command, cut, in_turns, kill, pause, pause_pid, restart
from tcc.harness.workloads import Keys, Mixed, OneOf, ReadUntilNew, Swaps, Workload, WriteThenRead, anywhere, at, elsewhere, home, same

__all__ = ["LOOPBACK", "Atomic", "Circle", "Client", "Connection", "Done", "Found", "Goal", "Keys", "Lag", "Link", "Mixed", "NoServer", "OneOf",
           "Pace", "Plan", "Played", "ReadUntilNew", "Server", "Store", "Swap", "Swaps", "Trouble", "Troubles", "TurnOver", "Unplayed", "Workload",
           "WriteThenRead", "anywhere", "at", "by_command", "cut", "elsewhere", "free_port", "free_ports", "home", "in_turns", "joined_notes", "kill",
           "note_clock", "pause", "pause_pid", "play", "ports_of", "restart", "running", "same", "stale_reads", "wait_for", "wait_until"]
