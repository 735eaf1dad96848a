#!/usr/bin/env python3
"""Records the values of an OPC UA server's variables into a database, and where values were lost.

    clients/historian.py [--url URL] [--to DATABASE] [--below ID].. [ID..]

DATABASE is a file of SQLite (history.db where left out), or postgresql://USER@HOST/NAME where psycopg2 is installed. Two tables:

    readings  server, node, time, value, number, type, status, origin
              one for each value: its time is the source's, its value JSON, and `number` has it where it is one. `origin` is `watch`, or
              `history` where HistoryRead had it. One that comes again, with the same time, value and status, is the same reading.
    gaps      server, node, opened, after, before, why, filled
              values of a node may be missing between two times of readings, `after` and `before`; null where there is none (yet).
              With `filled` 1 HistoryRead gave all that the server kept, from the reading at `after` on without a break.

A message is acknowledged only once its values are committed. What didn't arrive is fetched by Republish, and else by HistoryRead from
the last reading on; so a restart of this program loses nothing that the server's history keeps. Filling trusts that the times of a
variable's values rise, and a history keeps one value for each time. Server and database may go and come back: this program goes on
until a signal stops it.
"""
import argparse
import contextlib
import json
import signal
import sqlite3
import sys
import time

from ua.arguments import node, number
from ua.errors import OVERFLOW, Broken, Refused, is_bad, lost_before, status_name
from ua.session import Session
from ua.subscription import Back, Ended, Gap, Item, Lost, Message, Watch
from ua.texts import escaped, json_value
from ua.types import INTEGERS, TYPES, now, time_of_text, time_text

TABLES = '''
CREATE TABLE IF NOT EXISTS readings (server TEXT NOT NULL, node TEXT NOT NULL, time TEXT NOT NULL, value TEXT NOT NULL,
    number DOUBLE PRECISION, type TEXT NOT NULL, status TEXT NOT NULL, origin TEXT NOT NULL, UNIQUE (server, node, time, value, status));
CREATE TABLE IF NOT EXISTS gaps (server TEXT NOT NULL, node TEXT NOT NULL, opened TEXT NOT NULL, after TEXT, before TEXT, why TEXT NOT NULL,
    filled INTEGER NOT NULL DEFAULT 0, PRIMARY KEY (server, node, opened));
'''
AT_ONCE = 10_000  # readings in a transaction, about
NO_HISTORY = ('Bad_HistoryOperationUnsupported', 'Bad_NodeIdUnknown', 'Bad_NotReadable', 'Bad_ServiceUnsupported', 'Bad_UserAccessDenied')


def say(text):
    print(escaped(text), file=sys.stderr, flush=True)


class Database:
    """SQLite or PostgreSQL. What fails is tried again until it is done, on a new connection: nothing may be acknowledged before."""

    def __init__(self, name):
        self.name, self.connection = name, None
        if name.startswith(('postgresql:', 'postgres:')):
            import psycopg2
            import psycopg2.extras
            self.open = lambda: psycopg2.connect(name)
            self.error, self.mark = (psycopg2.OperationalError, psycopg2.InterfaceError), '%s'
            self.many = lambda cursor, words, rows: psycopg2.extras.execute_batch(cursor, words, rows, 1000)
        else:
            self.open = self.open_sqlite
            self.error, self.mark = (sqlite3.OperationalError,), '?'
            self.many = lambda cursor, words, rows: cursor.executemany(words, rows)
        self.is_stopped = lambda: False

    def open_sqlite(self):
        connection = sqlite3.connect(self.name, timeout=10)
        connection.execute('PRAGMA journal_mode = WAL')
        connection.execute('PRAGMA synchronous = FULL')
        return connection

    def run(self, work):
        """Does `work` with a cursor in one transaction, and gives what it gives once that is committed."""
        is_told = False
        while True:
            try:
                if self.connection is None:
                    self.connection = self.open()
                    for words in TABLES.split(';')[:-1]:
                        self.connection.cursor().execute(words)
                cursor = self.connection.cursor()
                result = work(cursor)
                self.connection.commit()
                return result
            except self.error as error:
                if not is_told:
                    say(f'the database: {str(error).strip()}; tried again')
                is_told = True
                with contextlib.suppress(Exception):
                    self.connection.close()
                self.connection = None
                if self.is_stopped():
                    raise Stop from None
                time.sleep(1)

    def query(self, words, values=()):
        def work(cursor):
            cursor.execute(words.replace('?', self.mark), values)
            return cursor.fetchall()
        return self.run(work)


class Stop(Exception):
    """A signal came while the database was away."""


def row_of(value):
    """Time, value, number, type and status of a DataValue, as columns. The mark that values were lost is none of the value's own."""
    status = value.status
    if lost_before(status):
        status &= ~OVERFLOW if status & 0x37F == 0 else ~0x80
    is_number = (value.kind in INTEGERS or value.kind in (1, 10, 11)) and not isinstance(value.value, list)
    moment = time_text(value.time if value.time is not None else now(), 7)
    return moment, json.dumps(json_value(value.kind, value.value)), float(value.value) if is_number else None, TYPES.get(value.kind, '-'), f'{status_name(status)} {status:08x}'


class Recorder:
    """What the tables say of one server's nodes, and what is to be put into them. Nodes are texts here."""

    def __init__(self, database, server):
        self.database, self.server = database, server
        self.rows, self.gap_rows, self.closed = [], [], []  # of the next transaction
        self.last = dict(database.query('SELECT node, MAX(time) FROM readings WHERE server = ? GROUP BY node', (server,)))
        # Of each node: its gap that has no end yet, as `opened` and `after`; and its gaps that the history may fill.
        self.open, self.unfilled, self.opened = {}, {}, 0
        for node, opened, after in database.query('SELECT node, opened, after FROM gaps WHERE server = ? AND before IS NULL', (server,)):
            self.open[node] = opened, after
            self.unfilled[node] = [(opened, after)]

    def record(self, node, value, origin='watch'):
        row = row_of(value)
        moment, last = row[0], self.last.get(node)
        if lost_before(value.status):
            self.open_gap(node, 'Overflow: values before it were lost')
        if node in self.open:
            opened, after = self.open[node]
            if after is None or moment > after:
                self.close_gap(node, opened, moment, 0)
        if last is None or moment > last:
            self.last[node] = moment
        self.rows.append((self.server, node, *row, origin))

    def open_gap(self, node, why):
        if node not in self.open:
            self.opened = max(self.opened + 1, now())  # a gap's name, so no two have the same
            gap = self.open[node] = time_text(self.opened, 7), self.last.get(node)
            self.unfilled.setdefault(node, []).append(gap)
            self.gap_rows.append((self.server, node, *gap, why))

    def close_gap(self, node, opened, before, filled):
        if node in self.open and self.open[node][0] == opened:
            del self.open[node]
        self.closed.append((before, filled, self.server, node, opened))

    def commit(self):
        """Commits what is new. Behind this it may be acknowledged."""
        if not (self.rows or self.gap_rows or self.closed):
            return

        def work(cursor):
            many, mark = self.database.many, self.database.mark
            many(cursor, f'INSERT INTO readings VALUES ({", ".join([mark] * 8)}) ON CONFLICT DO NOTHING', self.rows)
            many(cursor, f'INSERT INTO gaps (server, node, opened, after, why) VALUES ({", ".join([mark] * 5)}) ON CONFLICT DO NOTHING', self.gap_rows)
            many(cursor, f'UPDATE gaps SET before = {mark}, filled = {mark} WHERE server = {mark} AND node = {mark} AND opened = {mark}', self.closed)

        self.database.run(work)
        self.rows, self.gap_rows, self.closed = [], [], []

    def has(self, node, value, moment):
        """Whether a value is the one that was recorded for this time."""
        row = row_of(value)
        return row[0] == moment and bool(self.database.query(
            'SELECT 1 FROM readings WHERE server = ? AND node = ? AND time = ? AND value = ? AND status = ?', (self.server, node, row[0], row[1], row[4])))

    def fill(self, session, node):
        """Records what the server's history has from before a node's gaps on, and closes them where that lacks nothing. Whether it does."""
        name = str(node)
        gaps = list(self.unfilled.get(name, []))
        after = min((after or '' for _, after in gaps), default=self.last.get(name)) or None
        is_whole, start = not gaps, 1 if after is None else max(1, time_of_text(after))
        try:
            for page in session.history(node, start):
                for value in page:
                    self.record(name, value, 'history')
                self.commit()
            # A history drops its earliest values first: where it still has the reading before the gaps, it had all that came behind.
            if any(self.has(name, value, after) for page in session.history(node, start, start + 1) for value in page):
                is_whole = True
                for opened, begin in gaps:
                    self.close_gap(name, opened, begin, 1)
        except Refused as refused:
            if refused.name not in NO_HISTORY:
                raise
        self.commit()
        self.unfilled.pop(name, None)
        return is_whole


class Historian:
    """Watches nodes of a server and records them, until it is stopped."""

    def __init__(self, arguments):
        self.arguments, self.is_stopped = arguments, False
        self.database = Database(arguments.to)
        self.database.is_stopped = lambda: self.is_stopped
        self.recorder = Recorder(self.database, arguments.server or arguments.url)
        self.ready, self.unfilled = {}, []  # nodes that are watched, and whose gaps may be filled; those that the history did not fill

    def stop(self, *_):
        self.is_stopped = True

    def connect(self):
        """The session and the watch, once there is a server. None where it is stopped before."""
        is_told = False
        while not self.is_stopped:
            session = None
            try:
                session = Session(self.arguments.url, 'historian')
                nodes = [*self.arguments.nodes, *(node for above in self.arguments.below for node in session.variables_below(above))]
                if not nodes:
                    raise ValueError('no variables to record')
                for name in map(str, nodes):
                    if name in self.recorder.last:
                        self.recorder.open_gap(name, 'the historian was away')
                self.recorder.commit()
                return session, Watch(session, dict.fromkeys(nodes), self.arguments.interval, keep_alive=5, lifetime=60, queue=self.arguments.queue,
                                      each_time=True)
            except (Broken, Refused) as problem:
                if session is not None:
                    session.connection.drop()
                if not is_told:
                    say(f'{problem}; tried again')
                is_told = True
                time.sleep(1)
        return None

    def run(self):
        connected = self.connect()
        if connected is None:
            return
        session, watch = connected
        while not self.is_stopped:
            messages = self.take(watch)
            self.recorder.commit()
            for message in messages:
                watch.acknowledge(message)
            self.fill(session, watch)
        watch.close()
        session.close()

    def take(self, watch):
        """Records what there is to record, and gives the messages that may be acknowledged once it is committed."""
        messages = []
        event = watch.next(time.monotonic() + (0 if self.ready and watch.is_connected else 0.5))
        while event is not None:
            if isinstance(event, Message):
                messages.append(event)
                for node, value in event.changes:
                    self.recorder.record(str(node), value)
                    if lost_before(value.status):
                        self.ready[node] = True
            elif isinstance(event, Gap):
                for node in event.subscription.watched:
                    self.recorder.open_gap(str(node), event.why)
                    # Where the subscription is gone, values come from a new one alone: its items are ready once they are there.
                    self.ready.pop(node, None)
                    if event.first is not None:
                        self.ready[node] = True
                say(f'{len(event.subscription.watched)} nodes may miss values: {event.why}')
            elif isinstance(event, Item) and is_bad(event.status):
                say(f'{event.node} is not recorded: {status_name(event.status)}')
            elif isinstance(event, Item):
                self.ready[event.node] = True
            elif isinstance(event, Lost):
                say(f'no connection: {event.why}')
            elif isinstance(event, Back):
                say('connected again')
            elif isinstance(event, Ended):
                say(f'the subscription ended: {status_name(event.status)}')
            event = watch.next() if watch.events and len(self.recorder.rows) < AT_ONCE else None
        return messages

    def fill(self, session, watch):
        """Fills from the server's history what can be, for a while: what is watched mustn't wait long."""
        until = time.monotonic() + 0.2
        try:
            while self.ready and watch.is_connected and time.monotonic() < until:
                node = next(iter(self.ready))
                if not self.recorder.fill(session, node):
                    self.unfilled.append(node)
                del self.ready[node]
            if self.unfilled and not self.ready:
                say(f'{len(self.unfilled)} nodes have gaps that the history did not fill, as {self.unfilled[0]}')
                self.unfilled = []
        except (Broken, Refused) as problem:
            watch.lose(str(problem))


def main():
    parser = argparse.ArgumentParser(description=__doc__.split('\n')[0], epilog='The head of this file says what the tables have.')
    parser.add_argument('nodes', type=node, nargs='*', metavar='ID', help='a variable, as "ns=1;i=11"')
    parser.add_argument('--below', type=node, action='append', default=[], metavar='ID', help='all variables below this node, as "i=85"')
    parser.add_argument('--url', default='opc.tcp://localhost:4840', help='where the server is (%(default)s)')
    parser.add_argument('--to', default='history.db', metavar='DATABASE', help='a file of SQLite, or postgresql://USER@HOST/NAME (%(default)s)')
    parser.add_argument('--server', metavar='NAME', help='what the tables call the server (its URL)')
    parser.add_argument('--interval', type=number(float, 0, 1e9), default=1000.0, help='the publishing interval to ask for, in ms (%(default)s)')
    parser.add_argument('--queue', type=number(int, 1), default=1000, help='how many values an item is to hold between two messages (%(default)s)')
    arguments = parser.parse_args()
    try:
        historian = Historian(arguments)
        for one in (signal.SIGINT, signal.SIGTERM):
            signal.signal(one, historian.stop)
        historian.run()
    except Stop:
        return 1
    except (ImportError, ValueError) as problem:
        say(str(problem))
        return 2
    return 0


if __name__ == '__main__':
    sys.exit(main())
