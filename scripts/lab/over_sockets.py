#!/usr/bin/env python3
"""Reads of one value over loopback beside a bare echo (scripts/lab/load.c), by turns: docs/PERFORMANCE.md has the figures.

usage: scripts/lab/over_sockets.py PROGRAM [ROUNDS [SECONDS]]    a program that was built with its proofs; 12 rounds of 2 seconds
                                                           where left out

Both servers run on one processor, and their clients on another, so it wants two. Told is, for 1 client and for 50, how many Reads
and echoes came there and back in a second, the least, the median and the most, how many echoes came for a Read in the same round,
the median of all, and what a Read takes of the server's own time and of the system's.
"""
import os
import re
import statistics
import subprocess
import sys
import tempfile

TOP = os.path.dirname(os.path.dirname(os.path.dirname(os.path.realpath(__file__))))
sys.path.insert(0, f"{TOP}/scripts/checks")
from lib import serving  # noqa: E402

NODES = f"{TOP}/crates/uaserver/data/line.toml"
TICKS = os.sysconf("SC_CLK_TCK")


def each_second(load, kind, port, clients, seconds):
    """How many requests of these clients are answered in a second."""
    words = [load, kind, str(port), str(clients), str(seconds)]
    ran = subprocess.run(words, capture_output=True, text=True, check=True)
    return int(re.search(r": (\d+) a second", ran.stdout)[1])


def taken(pid):
    """The seconds that a process has taken of its own and of the system's time."""
    with open(f"/proc/{pid}/stat", encoding="utf-8") as stat:
        fields = stat.read().rsplit(")", 1)[1].split()
    return int(fields[11]) / TICKS, int(fields[12]) / TICKS


def told(numbers):
    return f"{min(numbers):,.0f} to {max(numbers):,.0f}, {statistics.median(numbers):,.0f} in the middle"


def measure(load, server, echo, clients, rounds, seconds):
    reads, echoes, own, systems = [], [], [], []
    for _ in range(rounds):
        before = taken(server.process.pid)
        reads.append(each_second(load, "read", server.port, clients, seconds))
        after = taken(server.process.pid)
        echoes.append(each_second(load, "ping", echo, clients, seconds))
        own.append((after[0] - before[0]) / (reads[-1] * seconds))
        systems.append((after[1] - before[1]) / (reads[-1] * seconds))
    ratio = statistics.median(echo / read for read, echo in zip(reads, echoes))
    print(f"{clients} clients: Reads a second {told(reads)}; echoes {told(echoes)}; {ratio:.2f} echoes for a Read")
    own_time, system_time = statistics.median(own) * 1e6, statistics.median(systems) * 1e6
    print(f"  of a Read {own_time:.1f} us are the server's own time, and {system_time:.1f} the system's")


def main():
    if not 2 <= len(sys.argv) <= 4:
        sys.exit(__doc__)
    rounds = int(sys.argv[2]) if len(sys.argv) > 2 else 12
    seconds = float(sys.argv[3]) if len(sys.argv) > 3 else 2.0
    processors = sorted(os.sched_getaffinity(0))
    if len(processors) < 2:
        sys.exit("the servers and their clients want a processor each")
    for_servers, for_clients = {processors[-2]}, {processors[-1]}
    with tempfile.TemporaryDirectory() as folder:
        load, port = f"{folder}/load", serving.free_port()
        subprocess.run(["cc", "-O2", "-o", load, f"{TOP}/scripts/lab/load.c"], check=True)
        server = serving.Server(os.path.abspath(sys.argv[1]), NODES)
        echo = serving.Program([load, "echo", str(port)])
        for program in (server, echo):
            os.sched_setaffinity(program.process.pid, for_servers)
        # What is started from here on, the clients, has it from this process.
        os.sched_setaffinity(0, for_clients)
        try:
            for clients in (1, 50):
                measure(load, server, port, clients, rounds, seconds)
        finally:
            server.end()
            echo.end()


main()
