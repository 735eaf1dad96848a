#!/usr/bin/env python3
"""What an event costs at two sizes of what stands beside it: docs/PERFORMANCE.md has the figures.

usage: scripts/lab/event_costs.py PROGRAM      a program that was built with its proofs, as `rt build` leaves it in
                                           crates/uaserver/out/uaserver

Each figure is the difference of two `run`s of scenarios, one of which has some thousand such events more, each the least of
eleven runs, divided by the number of events. So it has the reading of their lines in it, one or two microseconds.
"""
import os
import subprocess
import sys
import tempfile
import time

ROUNDS = 11
TOP = os.path.dirname(os.path.dirname(os.path.dirname(os.path.realpath(__file__))))
SERVER = """version = 1

[server]
uri = "urn:uaserver"
name = "uaserver"
url = "opc.tcp://localhost:4840"
queue = 100
sessions = 1000
subscriptions = 10000
items = 1000
publish_queue = 10
kept = 10000
connections = 1000
history = 10
publish_time = 10000000

[[node]]"""
CONNECTED = [f"open 1 {1:064x}", 'hel 1 "opc.tcp://localhost:4840"', "opn 1 issue"]
SESSION = [*CONNECTED, "session 1", "activate 1 1"]


def seconds(program, folder, name):
    """How long one run of a scenario takes."""
    start = time.perf_counter()
    subprocess.run([program, "run", f"{folder}/nodes.toml", f"{folder}/{name}"], stdout=subprocess.DEVNULL, check=True)
    return time.perf_counter() - start


def cost(program, folder, before, events):
    """The seconds of one event: those of runs with these events and without them, by turns, the least of each."""
    for name, lines in (("short", before), ("long", [*before, *events])):
        with open(f"{folder}/{name}", "w") as file:
            file.write("\n".join(lines) + "\n")
    rounds = [(seconds(program, folder, "short"), seconds(program, folder, "long")) for _ in range(ROUNDS)]
    return (min(long for _, long in rounds) - min(short for short, _ in rounds)) / len(events)


def subscriptions(count):
    return ["sub 1 1 10000 1000 0 0 on"] * count


def items(subscription, node, count, queue, mode=1):
    return [f"item 1 1 {subscription} 2 ns=1;i={node} 13 {mode} {handle} {queue} oldest 1" for handle in range(count)]


def written(number):
    return f"write 1 1 ns=1;i=11 UInt16 {number % 60000} -"


def watched_by(count):
    """Items of one subscription on the node that is written, whose queues are full."""
    return [*SESSION, *subscriptions(1), *items(1, 11, count, 100), *map(written, range(101))]


def kept(count):
    """A subscription that keeps as many messages, one for each timer."""
    told = [line for i in range(count) for line in (written(i), "publish 1 1", f"tick {(i + 1) * 10000000}")]
    return [*SESSION, *subscriptions(1), *items(1, 11, 1, 10, mode=2), *told]


def asking(count):
    """As many sessions, with a subscription and a queued Publish request each."""
    return CONNECTED + [
        line for s in range(1, count + 1) for line in ("session 1", f"activate 1 {s}", f"sub 1 {s} 10000 1000 0 0 on", f"publish 1 {s}")
    ]


def ten_with(count):
    """Ten subscriptions with as many items each, none of which has a value to send."""
    return [*SESSION, *subscriptions(10), *(line for s in range(1, 11) for line in items(s, 12, count, 1))]


def spread(count):
    """As many subscriptions, of which one is due at each tick from then on."""
    return [*SESSION, *(line for i in range(count) for line in ("sub 1 1 10000 1000 0 0 on", f"tick {(i + 1) * 10000000 // count}"))]


def one_due(count):
    return lambda i: f"tick {10000000 + (i + 1) * 10000000 // count}"


def taken_over(i):
    """A connection that takes session 1 over, by which a request comes, and that is gone."""
    conn = i + 2
    lines = [f"open {conn} {conn:064x}", f'hel {conn} "opc.tcp://localhost:4840"', f"opn {conn} issue"]
    return "\n".join([*lines, f"activate {conn} 1", f"publish {conn} 1", f"gone {conn}"])


# what happens, beside how many of what, the lines before it, and the lines of one such event
MEASURED = [
    *(("a tick at which nothing is due", f"{n} subscriptions", SESSION + subscriptions(n), lambda i: f"tick {i + 1}", 30000) for n in (10, 1000, 10000)),
    *(("a tick at which one is due", f"{n} subscriptions", spread(n), one_due(n), 5000) for n in (10, 10000)),
    *(("a Publish request that is queued, of 10 subscriptions", f"{n} items each", ten_with(n), lambda i: "publish 1 1", 5000) for n in (0, 1000)),
    *(("a Publish request that acknowledges no kept message", f"{n} kept messages", kept(n), lambda i: "publish 1 1 1:4000000000", 5000) for n in (10, 1000)),
    *(("a Publish request that acknowledges a kept message", f"{n} kept messages", kept(n), lambda i: f"publish 1 1 1:{i + 1}", 2000) for n in (2100, 8000)),
    *(("a Write of a value that no item watches", f"{n} items of another node", ten_with(n // 10), written, 5000) for n in (0, 10000)),
    *(("a Write of a value that items watch, whose queues are full", f"{n} such items", watched_by(n), written, 3000) for n in (1, 100)),
    *(("a connection that opens and is gone", f"{n} sessions with a request each", asking(n), lambda i: f"open {i + 2} {i + 2:064x}\ngone {i + 2}", 8000) for n in (10, 900)),
    *(("a connection that takes a session over, queues a request and is gone", f"{n} sessions with a request each", asking(n), taken_over, 1500) for n in (10, 900)),
]


def main():
    if len(sys.argv) != 2:
        sys.exit(__doc__)
    with tempfile.TemporaryDirectory() as folder:
        with open(f"{TOP}/crates/uaserver/data/line.toml") as line, open(f"{folder}/nodes.toml", "w") as nodes:
            nodes.write(SERVER + line.read().split("\n[[node]]", 1)[1])
        for event, beside, before, one, count in MEASURED:
            took = cost(sys.argv[1], folder, before, [one(i) for i in range(count)])
            print(f"{event}, beside {beside}: {took * 1e6:.2f} us", flush=True)


if __name__ == "__main__":
    main()
