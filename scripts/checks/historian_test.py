#!/usr/bin/env python3
"""Kills the historian, its connection and its server at random beside a writer, and then looks into the database.

    scripts/checks/historian_test.py PROGRAM [SECONDS [SEED [DATABASE]]]

PROGRAM is the built program, SECONDS how long the chaos lasts (20), DATABASE where clients/historian.py records (a file of its own).
Each value that the server took has to be in the table, or a gap that wasn't filled has to stand at its place. While nothing is
disturbed there is neither a gap nor a value missing. Nothing but Python's own library is needed, but for a database of PostgreSQL.
"""
import os
import random
import signal
import sqlite3
import sys
import tempfile
import threading
import time

from lib.proxy import Proxy, write_plant
from lib.serving import PATIENCE, Program, Server

HERE = os.path.dirname(os.path.realpath(__file__))
sys.path.insert(0, os.path.join(HERE, '..', '..', 'clients'))
from historian import Database  # noqa: E402
from ua import Broken, DataValue, NodeId, Refused, Session, now, time_text  # noqa: E402

TAGS = [NodeId(1, 'i', 101 + number) for number in range(8)]
NAME = f'chaos{os.getpid()}'


class Writer(threading.Thread):
    """Writes values with rising times, and notes those that the server took."""

    def __init__(self, port):
        super().__init__(daemon=True)
        self.url, self.took, self.number, self.moment, self.pause, self.most = f'opc.tcp://127.0.0.1:{port}', [], 0, now(), 0.1, 3
        self.is_over = False

    def values(self):
        for _ in range(random.randint(1, self.most)):
            self.number, self.moment = self.number + 1, max(self.moment + 1, now())
            # Values often stay the same: their time tells them apart.
            yield random.choice(TAGS), DataValue(6, self.number // 100, 0, self.moment)

    def run(self):
        session = None
        while not self.is_over:
            try:
                session = session or Session(self.url, 'writer', patience=5)
                values = list(self.values())
                statuses = session.write(values)
                self.took += [(str(node), time_text(value.source, 7), value.value) for (node, value), status in zip(values, statuses) if status == 0]
            except (Broken, Refused):
                if session:
                    session.connection.drop()
                session = None
                time.sleep(0.05)
            time.sleep(self.pause)


class Plant:
    """The server, the proxy before it, and the historian behind that."""

    def __init__(self, program, folder, database):
        self.program, self.database = program, database
        # Little is kept, so that much is lost: 20 values an item, 3 messages, a history of 400. Two tags have no readable history.
        self.nodes = write_plant(os.path.join(folder, 'plant.toml'), len(TAGS), queue=20, kept=3, history=400)
        with open(self.nodes, encoding='utf-8') as file:
            text = file.read()
        parts = text.rsplit('access = 7', 2)
        with open(self.nodes, 'w', encoding='utf-8') as file:
            file.write('access = 3'.join(parts))
        self.server = Server(program, self.nodes)
        self.port = self.server.port
        self.proxy = Proxy(self.port)
        self.record()

    def record(self):
        words = [sys.executable, os.path.join(HERE, '..', '..', 'clients', 'historian.py'), '--url', f'opc.tcp://127.0.0.1:{self.proxy.port}', '--server', NAME]
        self.historian = Program([*words, '--to', self.database, '--below', 'ns=1;i=1'])

    # ---- what happens

    def cut(self):
        self.proxy.cut()

    def stall(self):
        self.proxy.stall()
        time.sleep(random.uniform(0.1, 1))
        self.proxy.cut()

    def refuse(self):
        self.proxy.refuse(random.uniform(0.1, 1))

    def kill_historian(self):
        self.historian.process.kill()
        self.historian.wait()
        time.sleep(random.uniform(0, 1))
        self.record()

    def kill_server(self):
        self.server.end()
        time.sleep(random.uniform(0, 0.5))
        self.server = Program([self.program, 'serve', self.nodes, '--port', str(self.port)])
        self.server.wait_for_line(f'listening {self.port}')

    def stop_server(self):
        self.server.process.send_signal(signal.SIGSTOP)
        time.sleep(random.uniform(0.2, 3))
        self.server.process.send_signal(signal.SIGCONT)

    def stop_historian(self):
        # A signal that comes while Python itself begins ends it.
        self.historian.process.send_signal(signal.SIGTERM)
        assert self.historian.wait() in (0, -signal.SIGTERM), self.historian.lines
        self.record()

    def hold_historian(self):
        self.historian.process.send_signal(signal.SIGSTOP)
        time.sleep(random.uniform(0.2, 2))
        self.historian.process.send_signal(signal.SIGCONT)

    def lock_database(self):
        if '://' in self.database:
            return
        connection = sqlite3.connect(self.database, timeout=30)
        connection.execute('BEGIN IMMEDIATE')
        time.sleep(random.uniform(0.2, 2))
        connection.rollback()
        connection.close()

    def end(self):
        for end in (self.historian.end, self.server.end, self.proxy.end):
            end()


def gaps_of(database):
    return database.query('SELECT node, after, before, filled, why FROM gaps WHERE server = ?', (NAME,))


def readings_of(database):
    return {(node, moment, int(number)) for node, moment, number in
            database.query("SELECT node, time, number FROM readings WHERE server = ? AND type = 'Int32'", (NAME,))}


def missing(took, database):
    """The values that were taken, aren't in the table, and have no gap at their place."""
    readings, gaps = readings_of(database), {}
    for node, after, before, filled, _ in gaps_of(database):
        if not filled:
            gaps.setdefault(node, []).append((after or '', before or '~'))
    absent = [value for value in took if value not in readings]
    found = [value for value in absent if not any(after <= value[1] <= before for after, before in gaps.get(value[0], []))]
    return absent, found


def wait_until(is_there, what, patience=PATIENCE):
    until = time.monotonic() + patience
    while not is_there():
        assert time.monotonic() < until, what
        time.sleep(0.2)


def calm(writer, database):
    """For three seconds nothing is lost; on a busy machine this may take a second and a third try."""
    for left in reversed(range(3)):
        gaps, before = len(gaps_of(database)), len(writer.took)
        time.sleep(3)
        took = writer.took[before:]
        wait_until(lambda: not missing(took, database)[1] and set(took[-3:]) <= readings_of(database), 'values are missing without chaos')
        if len(gaps_of(database)) == gaps and not missing(took, database)[0]:
            print(f'ok without chaos: {len(took)} values, no gap', flush=True)
            return
        assert left, f'gaps without chaos: {gaps_of(database)}'


def settle(plant, writer, database):
    """Each node gets a last value, which the table then has."""
    with Session(writer.url, 'settle', patience=60) as session:
        for tag in TAGS:
            writer.number, writer.moment = writer.number + 1, max(writer.moment + 1, now())
            value = DataValue(6, writer.number, 0, writer.moment)
            assert session.write([(tag, value)]) == [0]
            writer.took.append((str(tag), time_text(value.source, 7), value.value))
    wait_until(lambda: set(writer.took[-len(TAGS):]) <= readings_of(database), f'the last values are not in the table: {plant.historian.lines[-5:]}')


def main():
    if len(sys.argv) < 2:
        sys.exit(__doc__)
    program, seconds = os.path.abspath(sys.argv[1]), float(sys.argv[2]) if len(sys.argv) > 2 else 20
    seed = int(sys.argv[3]) if len(sys.argv) > 3 else random.randrange(10**6)
    random.seed(seed)
    print(f'seed {seed}', flush=True)
    with tempfile.TemporaryDirectory() as folder:
        name = sys.argv[4] if len(sys.argv) > 4 else os.path.join(folder, 'history.db')
        plant, database = Plant(program, folder, name), Database(name)
        try:
            wait_until(lambda: os.path.exists(name) or '://' in name, 'no database')
            wait_until(lambda: len(readings_of(database)) == len(TAGS), f'no first values: {plant.historian.lines}')
            writer = Writer(plant.port)
            writer.start()
            calm(writer, database)
            writer.pause, writer.most = 0.01, 12
            until, happened = time.monotonic() + seconds, {}
            acts = [plant.cut, plant.stall, plant.refuse, plant.kill_historian, plant.kill_server, plant.stop_server, plant.stop_historian, plant.hold_historian,
                    plant.lock_database]
            while time.monotonic() < until:
                act = random.choice(acts)
                happened[act.__name__] = happened.get(act.__name__, 0) + 1
                act()
                time.sleep(random.uniform(0, 1.5))
            writer.is_over = True
            writer.join()
            settle(plant, writer, database)
            plant.historian.process.send_signal(signal.SIGTERM)
            assert plant.historian.wait() == 0, plant.historian.lines
            absent, found = missing(writer.took, database)
            gaps = gaps_of(database)
            filled = sum(bool(gap[3]) for gap in gaps)
            print(f'{len(writer.took)} values were written, {len(writer.took) - len(absent)} are in the table, {len(absent)} in gaps', flush=True)
            print(f'{len(gaps)} gaps, {filled} of them filled from the history; ' + ', '.join(f'{count} {name}' for name, count in sorted(happened.items())), flush=True)
            assert not found, f'{len(found)} values are neither in the table nor in a gap: {found[:5]}; seed {seed}'
            assert len(absent) < 0.8 * len(writer.took), 'nearly all is lost'
            print('ok chaos', flush=True)
        finally:
            plant.end()
            if '://' in name:
                for table in ('readings', 'gaps'):
                    database.run(lambda cursor: cursor.execute(f"DELETE FROM {table} WHERE server = '{NAME}'"))


if __name__ == '__main__':
    main()
