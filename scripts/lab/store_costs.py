#!/usr/bin/env python3
"""Writes a second with a store, without one, and by C SQLite with one row of `value` a transaction.

usage: scripts/lab/store_costs.py PROGRAM [SECONDS]      build the program by fast_program.py, or take the proved one

Clients are processes of Python, each with a session of its own, that write one variable each, one value a Write. C SQLite is Python's
`sqlite3` on the same disk: one transaction a Write, by UPDATE of `value` alone, synced: no history and no server. Beside that a
store of 1,000,000 values is opened, and of one client's Writes the processor time of the server is taken, and the longest that one waited.
Needs Linux.
"""
import multiprocessing
import os
import sqlite3
import subprocess
import sys
import tempfile
import time

HERE = os.path.dirname(os.path.realpath(__file__))
sys.path.insert(0, os.path.join(HERE, "..", "..", "clients"))
from ua import DataValue, NodeId, Session  # noqa: E402

PORT = 48997
UINT16 = 5
HEAD = "version = 2\n[server]\nconnections = 1000\nsessions = 1000\nhistory = 1000\n"
NODE = '[[node]]\nid = "ns=1;i={0}"\nclass = "Variable"\nname = "V{0}"\ntype = "UInt16"\nvalue = 0\naccess = 7\nhistorizing = {1}\nparent = "i=85"\n'
TABLES = """CREATE TABLE value (node TEXT PRIMARY KEY NOT NULL, type INTEGER NOT NULL, value ANY, status INTEGER NOT NULL, source_time INTEGER, server_time INTEGER) STRICT;
CREATE TABLE history (node TEXT NOT NULL, time INTEGER NOT NULL, type INTEGER NOT NULL, value ANY, status INTEGER NOT NULL, server_time INTEGER, PRIMARY KEY (node, time)) STRICT;"""


def nodes_in(folder, count, historizing):
    path = os.path.join(folder, "nodes.toml")
    with open(path, "w", encoding="utf-8") as file:
        file.write(HEAD + "".join(NODE.format(number, "true" if historizing else "false") for number in range(1, count + 1)))
    return path


def write_on(number, seconds, counts):
    with Session(f"opc.tcp://localhost:{PORT}") as session:
        node, count, end = NodeId.of_text(f"ns=1;i={number}"), 0, time.monotonic() + seconds
        while time.monotonic() < end:
            session.write([(node, DataValue(UINT16, count % 60000))])
            count += 1
    counts.put(count)


def writes_a_second(program, words, nodes, clients, seconds):
    server = subprocess.Popen([program, "serve", nodes, "--port", str(PORT), "--quiet", *words], stdout=subprocess.PIPE, stderr=subprocess.DEVNULL)
    try:
        server.stdout.readline()
        counts = multiprocessing.Queue()
        workers = [multiprocessing.Process(target=write_on, args=(number, seconds, counts)) for number in range(1, clients + 1)]
        for worker in workers:
            worker.start()
        total = sum(counts.get() for _ in workers)
        for worker in workers:
            worker.join()
        return total / seconds
    finally:
        server.kill()
        server.wait()


def costs_of_one(program, words, nodes, count=20000):
    """Microseconds of a Write that the server spends itself, and that the system spends for it, and the longest wait of so many, in milliseconds."""
    server = subprocess.Popen([program, "serve", nodes, "--port", str(PORT), "--quiet", *words], stdout=subprocess.PIPE, stderr=subprocess.DEVNULL)
    try:
        server.stdout.readline()
        with Session(f"opc.tcp://localhost:{PORT}") as session:
            node, longest, before = NodeId.of_text("ns=1;i=1"), 0.0, times_of(server.pid)
            for number in range(count):
                begun = time.monotonic()
                session.write([(node, DataValue(UINT16, number % 60000))])
                longest = max(longest, time.monotonic() - begun)
            return [(now - then) / count * 1e6 for now, then in zip(times_of(server.pid), before)] + [longest * 1e3]
    finally:
        server.kill()
        server.wait()


def times_of(process):
    with open(f"/proc/{process}/stat", encoding="ascii") as file:
        fields = file.read().rpartition(")")[2].split()
    return [int(ticks) / os.sysconf("SC_CLK_TCK") for ticks in fields[11:13]]


def by_sqlite(folder, seconds):
    base = sqlite3.connect(os.path.join(folder, "by_c.db"), isolation_level=None)
    base.executescript("PRAGMA journal_mode = WAL; PRAGMA synchronous = FULL;" + TABLES)
    base.execute("INSERT INTO value VALUES ('ns=1;i=1', 5, 0, 0, 0, 0)")
    count, end = 0, time.monotonic() + seconds
    while time.monotonic() < end:
        base.execute("BEGIN")
        base.execute("UPDATE value SET value = ?, source_time = ?, server_time = ? WHERE node = 'ns=1;i=1'", (count, count, count))
        base.execute("COMMIT")
        count += 1
    base.close()
    return count / seconds


def opening(program, folder, rows):
    """Seconds until a server listens over a store of so many values."""
    path = os.path.join(folder, f"{rows}.db")
    base = sqlite3.connect(path)
    base.executescript(TABLES)
    base.executemany("INSERT INTO history VALUES ('ns=1;i=1', ?, 5, 7, 0, ?)", ((number, number) for number in range(rows)))
    base.commit()
    base.close()
    begun = time.monotonic()
    server = subprocess.Popen([program, "serve", nodes_in(folder, 1, True), "--port", str(PORT), "--store", path], stdout=subprocess.PIPE)
    line = server.stdout.readline()
    took = time.monotonic() - begun
    server.kill()
    server.wait()
    return took if line else None


def main():
    if len(sys.argv) not in (2, 3):
        sys.exit(__doc__)
    program, seconds = sys.argv[1], float(sys.argv[2]) if len(sys.argv) == 3 else 5.0
    with tempfile.TemporaryDirectory() as folder:
        for clients in (1, 10, 50):
            for historizing in (False, True):
                nodes = nodes_in(folder, clients, historizing)
                path = os.path.join(folder, f"{clients}{historizing}.db")
                plain = writes_a_second(program, [], nodes, clients, seconds)
                kept = writes_a_second(program, ["--store", path], nodes, clients, seconds)
                print(f"{clients} clients{', histories too' if historizing else ''}: {plain:.0f} Writes a second, {kept:.0f} with a store", flush=True)
        for historizing in (False, True):
            nodes = nodes_in(folder, 1, historizing)
            for words in ([], ["--store", os.path.join(folder, f"one{historizing}.db")]):
                own, system, longest = costs_of_one(program, words, nodes)
                print(f"one Write{', historizing' if historizing else ''}{', with a store' if words else ''}: {own:.0f} us, system {system:.0f} us; the longest {longest:.1f} ms", flush=True)
        print(f"C SQLite, one Write a transaction: {by_sqlite(folder, seconds):.0f}", flush=True)
        for rows in (100_000, 1_000_000):
            took = opening(program, folder, rows)
            print(f"a store of {rows} values: " + ("not opened" if took is None else f"listens after {took:.2f} s"), flush=True)


if __name__ == "__main__":
    main()
