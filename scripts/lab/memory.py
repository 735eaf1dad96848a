#!/usr/bin/env python3
"""What clients make a server keep in memory, in bytes each.

usage: scripts/lab/memory.py PROGRAM      the clients are Python's: build the program by fast_program.py, or take the proved one

It prints the memory of the server with 10, 100 and 1,000 clients, each with a subscription of ten items; what an idle item takes, of
479,000, and whether one of 1,000,001 is refused; what an abandoned subscription takes, of 100,000, and how busy the server is with
them; and how much a Write of 1 MB to 1,000 items adds. Needs Linux.
"""
import os
import subprocess
import sys
import tempfile
import time

HERE = os.path.dirname(os.path.realpath(__file__))
sys.path.insert(0, os.path.join(HERE, "..", "..", "clients"))
from ua import DataValue, NodeId, Session  # noqa: E402

PORT = 48999
NODES = """version = 2
[server]
connections = 2000
sessions = 2000
subscriptions = 1000
max_message = 4194304
session_time = 36000000000
[[node]]
id = "ns=1;i=1"
class = "Variable"
name = "Text"
type = "String"
value = ""
access = 3
parent = "i=85"
"""
TEXT = NodeId.of_text("ns=1;i=1")


class Server:
    def __init__(self, program, folder, *words):
        path = os.path.join(folder, "nodes.toml")
        with open(path, "w", encoding="utf-8") as file:
            file.write(NODES)
        self.process = subprocess.Popen([program, "serve", path, "--port", str(PORT), "--quiet", *words], stdout=subprocess.PIPE, stderr=subprocess.DEVNULL)
        self.process.stdout.readline()
        self.sessions = []

    def __enter__(self):
        return self

    def __exit__(self, *error):
        self.process.kill()
        self.process.wait()

    def resident(self):
        with open(f"/proc/{self.process.pid}/statm", encoding="ascii") as file:
            return int(file.read().split()[1]) * 4096

    def busy(self):
        with open(f"/proc/{self.process.pid}/stat", encoding="ascii") as file:
            words = file.read().rsplit(")", 1)[1].split()
        return (int(words[11]) + int(words[12])) / os.sysconf("SC_CLK_TCK")

    def session(self):
        self.sessions.append(Session(f"opc.tcp://localhost:{PORT}"))
        return self.sessions[-1]


def subscription(session):
    return session.call("CreateSubscription", interval=1000.0, lifetime=196605, keep_alive=65535, enabled=True).subscription


def items(session, number, count, mode=2):
    entry = {"item": {"node": TEXT, "attribute": 13}, "mode": mode, "wanted": {"handle": 1, "queue": 100, "discard_oldest": True}}
    return session.call("CreateMonitoredItems", subscription=number, times=2, entries=[entry] * count).results


def clients(program, folder, count):
    with Server(program, folder) as server:
        empty = server.resident()
        for _ in range(count):
            session = server.session()
            items(session, subscription(session), 10)
        print(f"{count} clients: {server.resident() / 1e6:.1f} MB, of which {empty / 1e6:.1f} with none", flush=True)


def idle_items(program, folder):
    with Server(program, folder, "--all-items", "479000") as server:
        session = server.session()
        empty = server.resident()
        for _ in range(479):
            items(session, subscription(session), 1000, mode=0)
        taken = server.resident() - empty
        print(f"479,000 idle items: {taken / 1e6:.0f} MB, {taken / 479000:.0f} bytes each", flush=True)
        print(f"one more: {items(session, subscription(session), 1, mode=0)[0].status:08X}", flush=True)


def abandoned(program, folder):
    with Server(program, folder) as server:
        server.session().close()
        empty = server.resident()
        for _ in range(100):
            session = server.session()
            for _ in range(1000):
                subscription(session)
            session.call("CloseSession", delete=False)
            session.connection.close()
        taken = server.resident() - empty
        print(f"100,000 abandoned subscriptions: {taken / 1e6:.0f} MB, {taken / 100000:.0f} bytes each", flush=True)
        before = server.busy()
        time.sleep(20)
        print(f"at rest they take {(server.busy() - before) / 20:.0%} of a processor", flush=True)
        try:
            subscription(server.session())
        except Exception as refused:  # noqa: BLE001
            print(f"one more: {refused}", flush=True)


def large_write(program, folder):
    with Server(program, folder) as server:
        session = server.session()
        items(session, subscription(session), 1000)
        time.sleep(1)
        before = server.resident()
        session.write([(TEXT, DataValue(12, "x" * 1_000_000))])
        print(f"a Write of 1 MB to 1,000 items adds {(server.resident() - before) / 1e6:.1f} MB", flush=True)


def main():
    if len(sys.argv) != 2:
        sys.exit(__doc__)
    program = os.path.abspath(sys.argv[1])
    with tempfile.TemporaryDirectory() as folder:
        for count in (10, 100, 1000):
            clients(program, folder, count)
        idle_items(program, folder)
        large_write(program, folder)
        abandoned(program, folder)


main()
