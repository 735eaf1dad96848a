#!/usr/bin/env python3
"""Tries whether what `uaserver serve --store FILE` has answered is in the file, whatever becomes of the server.

    python3 scripts/checks/store_test.py PROGRAM

PROGRAM is the built program. It is killed at random moments while four clients write, started again on the same file, and asked for
each value that it had answered. Then the file is another's, is no database, is locked, or lies on a full disk. Nothing but Python's
own library is needed. As root it makes a small disk for the last case; elsewhere that case is left out, and told.
"""
import contextlib
import os
import random
import shutil
import sqlite3
import subprocess
import sys
import tempfile
import threading
import time

from lib.serving import MOMENT, PATIENCE, Program, free_port

HERE = os.path.dirname(os.path.realpath(__file__))
sys.path.insert(0, os.path.join(HERE, '..', '..', 'clients'))
from ua import Broken, DataValue, Message, NodeId, Refused, Session, Watch  # noqa: E402

LINE = os.path.join(HERE, '..', '..', 'crates', 'uaserver', 'data', 'line.toml')
PAGE = os.path.join(HERE, '..', '..', 'docs', 'STORE.md')
BOOLEAN, UINT16, INT32, UINT64, STRING = 1, 5, 6, 9, 12
COUNT, SPEED, LABEL, TOTAL = (NodeId.of_text(f'ns=1;i={number}') for number in (11, 12, 14, 15))
STORE_FAULT = 8
WRITERS = 4
KILLS, SECONDS = 200, 60  # as many as there is time for
HISTORY = 50

VARIABLE = '''
[[node]]
id = "ns=1;i={number}"
class = "Variable"
name = "V{number}"
parent = "i=85"
type = "{type}"
value = {value}
access = 7
historizing = true
'''


class StoringServer(Program):
    """A server at a port, with a store in a file. Its lines have no moments."""

    def __init__(self, program, nodes, file, port=None):
        self.port = port or free_port()
        super().__init__([program, 'serve', nodes, '--port', str(self.port), '--store', file])
        if not self.wait_for(lambda lines: f'listening {self.port}' in lines):
            raise AssertionError(f'{program} serves nothing: {self.lines}')

    def line_of(self, line):
        return MOMENT.sub('', line)

    def session(self):
        return Session(f'opc.tcp://127.0.0.1:{self.port}', patience=60)


def node_file(folder, *variables):
    path = os.path.join(folder, 'nodes.toml')
    with open(path, 'w', encoding='utf-8') as file:
        file.write(f'version = 2\n[server]\nhistory = {HISTORY}\n')
        for number, kind, value in variables:
            file.write(VARIABLE.format(number=number, type=kind, value=value))
    return path


def refused(program, nodes, file, cause):
    """The server doesn't begin: it ends with the status of a store's fault and tells the cause."""
    ran = subprocess.run([program, 'serve', nodes, '--port', str(free_port()), '--store', file], capture_output=True, text=True, timeout=PATIENCE)
    said = [MOMENT.sub('', line) for line in ran.stderr.splitlines()]
    assert ran.returncode == STORE_FAULT, (ran.returncode, ran.stdout, ran.stderr)
    assert f'store {cause}' in said, (cause, said)


def written(session, *values):
    statuses = session.write([(node, value) for node, value in values])
    assert statuses == [0] * len(values), statuses


def values_of(session, *nodes):
    """What a Read gives of them, but for when it was served."""
    return [value._replace(server=None) for value in session.read(list(nodes))]


def past(session, node):
    return [value for page in session.history(node) for value in page]


def sound(file):
    """SQLite finds nothing wrong with the file."""
    with contextlib.closing(sqlite3.connect(file)) as database:
        assert database.execute('PRAGMA integrity_check').fetchall() == [('ok',)]


def answers_of_page(file):
    """What the queries of the page answer, each of those that answer rows."""
    with open(PAGE, encoding='utf-8') as page:
        text = page.read().partition('```sql\n')[2].partition('```')[0]
    statements = [statement.strip() for statement in text.split(';\n') if statement.strip()]
    with contextlib.closing(sqlite3.connect(file)) as database:
        return [ran.fetchall() for ran in map(database.execute, statements) if ran.description]


# ---- what was answered is there

def values_last(program, folder):
    """Values, their statuses and times, and a history are as they were, after an end by kill and a second one."""
    file = os.path.join(folder, 'values')
    server = StoringServer(program, LINE, file)
    try:
        with server.session() as session:
            for count in (3, 4, 5):
                written(session, (COUNT, DataValue(UINT16, count)))
            written(session, (SPEED, DataValue(INT32, -5)), (LABEL, DataValue(STRING, 'fast \u00fc')), (TOTAL, DataValue(UINT64, 2**64 - 1)))
            before, history = values_of(session, COUNT, SPEED, LABEL), past(session, COUNT)
        assert [value.value for value in history] == [3, 4, 5], history
        for _ in range(2):
            server.end()
            server = StoringServer(program, LINE, file)
            with server.session() as session:
                assert values_of(session, COUNT, SPEED, LABEL) == before
                assert past(session, COUNT) == history
    finally:
        server.end()
    sound(file)
    each, times, lengths, bad, means = answers_of_page(file)
    assert [row[:2] for row in each] == [('ns=1;i=11', 5), ('ns=1;i=12', -5), ('ns=1;i=14', 'fast \u00fc'), ('ns=1;i=15', b'\x09' + b'\xff' * 8)], each
    assert [row[1] for row in times] == [3, 4, 5] and times[2][0] == each[0][2], (times, each)
    assert lengths == [('ns=1;i=11', 3)] and bad == [] and means[0][0] == times[0][0][:13], (lengths, bad, means)


def lists_last(program, folder):
    """Lists are as they were, and so is a null text, and an empty list."""
    nodes = node_file(folder, (1, 'Int32', 0), (2, 'String', '""'))
    with open(nodes, 'a', encoding='utf-8') as file:
        for number, kind in ((3, 'Int32'), (4, 'String')):
            file.write(VARIABLE.format(number=number, type=kind, value='[]') + 'list = true\n')
    ids = [NodeId.of_text(f'ns=1;i={number}') for number in (1, 2, 3, 4)]
    values = [DataValue(INT32, -2**31), DataValue(STRING, None), DataValue(INT32, [1, -2, 3]), DataValue(STRING, ['a', None, ''])]
    file = os.path.join(folder, 'lists')
    server = StoringServer(program, nodes, file)
    try:
        with server.session() as session:
            written(session, *zip(ids, values))
            before = values_of(session, *ids)
        server.end()
        server = StoringServer(program, nodes, file)
        with server.session() as session:
            assert values_of(session, *ids) == before
    finally:
        server.end()
    sound(file)


def left_out(program, folder):
    """A value whose variable has another type by now, or is no more, is left out and told; it is back once the type is."""
    file = os.path.join(folder, 'types')
    one = NodeId.of_text('ns=1;i=1')
    server = StoringServer(program, node_file(folder, (1, 'Int32', 0)), file)
    try:
        with server.session() as session:
            written(session, (one, DataValue(INT32, 7)))
        server.end()
        server = StoringServer(program, node_file(folder, (1, 'String', '"x"')), file)
        assert "store: the value of ns=1;i=1 isn't put back: the value is of another type or rank" in server.lines, server.lines
        with server.session() as session:
            assert session.read([one])[0].value == 'x'
        server.end()
        server = StoringServer(program, node_file(folder, (2, 'Int32', 0)), file)
        assert "store: the value of ns=1;i=1 isn't put back: there is no such node" in server.lines, server.lines
        server.end()
        server = StoringServer(program, node_file(folder, (1, 'Int32', 0)), file)
        with server.session() as session:
            assert session.read([one])[0].value == 7
    finally:
        server.end()


class Writer(threading.Thread):
    """Writes a rising number into a pair of variables, both by one request, until the server is gone."""

    def __init__(self, server, pair, first):
        super().__init__(daemon=True)
        self.server, self.pair, self.answered = server, pair, first

    def run(self):
        try:
            session = self.server.session()
            while True:
                number = self.answered + 1
                written(session, *((node, DataValue(INT32, number)) for node in self.pair))
                self.answered = number
        except (Broken, Refused, OSError):
            pass


def killed_while_writing(program, folder):
    """After each kill each answered number is there, at most the next one beside it, never one of a pair alone, and the last ones in the history."""
    nodes = node_file(folder, *((number, 'Int32', 0) for number in range(1, 2 * WRITERS + 1)))
    pairs = [tuple(NodeId.of_text(f'ns=1;i={number}') for number in (2 * writer + 1, 2 * writer + 2)) for writer in range(WRITERS)]
    answered, file, total, kills = [0] * WRITERS, os.path.join(folder, 'killed'), 0, 0
    began = time.monotonic()
    server = StoringServer(program, nodes, file)
    patience = max(0.2, time.monotonic() - began)
    try:
        while kills < KILLS and time.monotonic() < began + SECONDS:
            writers = [Writer(server, pair, first) for pair, first in zip(pairs, answered)]
            for writer in writers:
                writer.start()
            time.sleep(random.uniform(0.0, patience))
            server.end()
            for writer in writers:
                writer.join(PATIENCE)
            kills += 1
            server = StoringServer(program, nodes, file)
            with server.session() as session:
                for place, writer in enumerate(writers):
                    one, other = session.read(writer.pair)
                    assert one == other, (one, other)
                    assert writer.answered <= one.value <= writer.answered + 1, (writer.answered, one)
                    kept = [value.value for value in past(session, writer.pair[0])]
                    assert kept == list(range(max(1, one.value - HISTORY + 1), one.value + 1)), kept
                    total, answered[place] = total + one.value - answered[place], one.value
    finally:
        server.end()
    sound(file)
    assert total > 0
    print(f'   {total} writes of two values, {kills} kills', flush=True)


def restart_before_republish(program, folder):
    """A client whose server is killed and comes back finds no subscription any more, makes one, and gets the value that was answered last."""
    file = os.path.join(folder, 'republish')
    server = StoringServer(program, LINE, file)
    try:
        watch = Watch(server.session(), [SPEED], interval=50.0, keep_alive=5)

        def told(value):
            until = time.monotonic() + PATIENCE
            while time.monotonic() < until:
                event = watch.next(until)
                if isinstance(event, Message):
                    watch.acknowledge(event)
                    if any(change.value == value for _, change in event.changes):
                        return
            raise AssertionError(f'{value} was not told')

        told(0)
        with server.session() as session:
            written(session, (SPEED, DataValue(INT32, 1)))
        told(1)
        with server.session() as session:
            for value in range(2, 12):
                written(session, (SPEED, DataValue(INT32, value)))
        server.end()
        server = StoringServer(program, LINE, file, server.port)
        told(11)
        with server.session() as session:
            written(session, (SPEED, DataValue(INT32, 12)))
        told(12)
    finally:
        server.end()
    sound(file)


# ---- files that are no store's

def locked(program, folder):
    """A second server on the file is refused, and the first goes on."""
    file = os.path.join(folder, 'locked')
    server = StoringServer(program, LINE, file)
    try:
        refused(program, LINE, file, 'Locked')
        with server.session() as session:
            written(session, (COUNT, DataValue(UINT16, 1)))
    finally:
        server.end()


def another_file(program, folder):
    """A file that is no database, one with other tables, a folder, and a folder that isn't there, are refused and left as they were."""
    file = os.path.join(folder, 'text')
    for content in (b'a', b'some text\n' * 1000):
        with open(file, 'wb') as out:
            out.write(content)
        refused(program, LINE, file, 'NotADatabase')
        with open(file, 'rb') as back:
            assert back.read() == content, content[:20]
    other = os.path.join(folder, 'other')
    database = sqlite3.connect(other)
    database.execute('CREATE TABLE note (title TEXT)')
    database.execute("INSERT INTO note VALUES ('mine')")
    database.commit()
    database.close()
    refused(program, LINE, other, 'OtherTables')
    assert sqlite3.connect(other).execute('SELECT title FROM note').fetchall() == [('mine',)]
    refused(program, LINE, folder, 'CannotOpen')
    refused(program, LINE, os.path.join(folder, 'nowhere', 'file'), 'CannotOpen')


def wrong_row(program, folder):
    """A row that says no value is told, and the file is left as it was."""
    file = os.path.join(folder, 'rows')
    server = StoringServer(program, LINE, file)
    try:
        with server.session() as session:
            written(session, (COUNT, DataValue(UINT16, 1)))
    finally:
        server.end()
    with sqlite3.connect(file) as database:
        database.execute('UPDATE value SET type = 77')
    database.close()
    refused(program, LINE, file, 'Unreadable')


def full_disk(program, folder):
    """On a full disk the server ends and answers nothing that isn't there; with room it goes on."""
    disk = os.path.join(folder, 'disk')
    os.mkdir(disk)
    if os.geteuid() != 0 or subprocess.run(['mount', '-t', 'tmpfs', '-o', 'size=1500k', 'none', disk], capture_output=True).returncode != 0:
        print('   left out: this takes root and a disk of its own', flush=True)
        return
    try:
        file, answered = os.path.join(disk, 'store'), 0
        server = StoringServer(program, LINE, file)
        try:
            with server.session() as session:
                for answered in range(1, 10000):
                    written(session, (LABEL, DataValue(STRING, f'{answered} ' + 'x' * 20000)))
        except (Broken, Refused, OSError):
            answered -= 1
        assert server.wait() == STORE_FAULT, server.lines
        assert 'store Full' in server.lines, server.lines
        assert answered > 0
        subprocess.run(['mount', '-o', 'remount,size=20m', disk], check=True)
        server = StoringServer(program, LINE, file)
        try:
            with server.session() as session:
                assert session.read([LABEL])[0].value.startswith(f'{answered} '), answered
                written(session, (LABEL, DataValue(STRING, 'room')))
        finally:
            server.end()
        sound(file)
    finally:
        subprocess.run(['umount', disk])


def main():
    program = sys.argv[1]
    tests = (values_last, lists_last, left_out, killed_while_writing, restart_before_republish, locked, another_file, wrong_row, full_disk)
    for test in tests:
        folder = tempfile.mkdtemp()
        try:
            began = time.monotonic()
            test(program, folder)
            print(f'ok {test.__name__} ({time.monotonic() - began:.1f} s)', flush=True)
        finally:
            shutil.rmtree(folder, ignore_errors=True)


if __name__ == '__main__':
    main()
