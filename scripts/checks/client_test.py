#!/usr/bin/env python3
"""Tries clients/ua and scripts/tools/ua_client.py against a server whose connections are cut and stalled, and which stops and ends.

    scripts/checks/client_test.py PROGRAM

PROGRAM is the built program. What watch_test.py has isn't tried again. Nothing but Python's own library is needed.
"""
import csv
import json
import os
import signal
import subprocess
import sys
import tempfile
import time

from lib.proxy import Proxy, write_plant
from lib.serving import PATIENCE, Program, Server, up_to_three_times

HERE = os.path.dirname(os.path.realpath(__file__))
CLIENT = os.path.join(HERE, '..', 'tools', 'ua_client.py')
sys.path.insert(0, os.path.join(HERE, '..', '..', 'clients'))
from ua import Back, DataValue, Gap, Item, KeepAlive, Lost, Message, NodeId, Session, Started, Watch, is_bad  # noqa: E402

TAGS = [NodeId(1, 'i', 101 + number) for number in range(1100)]


def run(port, *words, **how):
    """The status, standard output and standard error of the command."""
    ran = subprocess.run([sys.executable, CLIENT, *words, '--url', f'opc.tcp://127.0.0.1:{port}'], capture_output=True, text=True, timeout=PATIENCE, **how)
    assert 'Traceback' not in ran.stderr, ran.stderr
    return ran.returncode, ran.stdout, ran.stderr


def same(what, came, wanted):
    assert came == wanted, f'{what}: {came!r} came, and not {wanted!r}'


def on(port, name='client_test'):
    return Session(f'opc.tcp://127.0.0.1:{port}', name, patience=60)


ENDS = []  # what is to be ended whatever happens


def serve(program, nodes, port=None):
    if port is None:
        server = Server(program, nodes)
    else:
        server = Program([program, 'serve', nodes, '--port', str(port)])
        server.wait_for_line(f'listening {port}')
    ENDS.append(server.end)
    return server


class Watcher:
    """Watches through a proxy, and keeps what it was told."""

    def __init__(self, port, nodes, **wishes):
        self.session = on(port)
        self.watch = Watch(self.session, nodes, **wishes)
        self.events, self.values = [], []

    def go_on(self, is_there, patience=PATIENCE):
        """Takes events until this is so."""
        until = time.monotonic() + patience
        while not is_there(self):
            event = self.watch.next(until)
            assert event is not None, f'{patience} seconds went by: {self.events[-20:]}'
            self.events.append(event)
            if isinstance(event, Message):
                self.values += [value.value for _, value in event.changes]
                self.watch.acknowledge(event)

    def count(self, kind):
        return sum(isinstance(event, kind) for event in self.events)

    def close(self):
        self.watch.close()
        self.session.close()


# ---- the command


def rows(port):
    tag = 'ns=1;i=101'
    same('a list of values', run(port, 'write', tag, *map(str, range(1, 1202)))[0], 0)
    status, text, _ = run(port, 'read', tag, 'ns=1;i=50', 'ns=1;i=9', '--json')
    found = [json.loads(line) for line in text.splitlines()]
    same('JSON', (status, [row['value'] for row in found], [row['status'] for row in found]), (1, [1201, [1, 2], None], ['Good', 'Good', 'Bad_NodeIdUnknown']))
    status, text, _ = run(port, 'read', tag, 'ns=1;i=50', '--csv')
    found = list(csv.DictReader(text.splitlines()))
    same('CSV', (status, found[0]['value'], json.loads(found[1]['value']), found[0]['type']), (0, '1201', [1, 2], 'Int32'))
    assert run(port, 'write', 'ns=1;i=102', '5')[0] == 0
    status, text, _ = run(port, 'history', tag, 'ns=1;i=102', 'ns=1;i=103', '--start', '2020-01-01', '--csv')
    found = list(csv.DictReader(text.splitlines()))
    same('histories', (status, {row['id'] for row in found}), (0, {tag, 'ns=1;i=102'}))
    same('a history before', run(port, 'history', tag, '--end', '2020-01-01')[1], 'no values\n')
    status, text, _ = run(port, 'info', tag)
    assert status == 0 and 'DataType                 Int32' in text and 'history readable' in text and 'i=63' in text, text
    same('info of nothing', run(port, 'info', 'ns=1;i=9')[0], 1)
    status, text, _ = run(port, 'read', *map(str, TAGS))
    same('many nodes', (status, len(text.splitlines())), (0, len(TAGS)))
    same('a tree of one level', [line for line in run(port, 'browse', '--depth', '1')[1].splitlines() if line.startswith('    ')], [])
    assert '    Tag0  ns=1;i=101  Variable' in run(port, 'browse', '--depth', '2')[1].splitlines()


def lists_and_texts(port):
    same('an empty list', run(port, 'write', '--list', 'ns=1;i=50'), (0, 'ns=1;i=50 UInt16 [] Good\n', ''))
    assert run(port, 'read', 'ns=1;i=50')[1].endswith(' ns=1;i=50 UInt16 [] Good\n')
    assert run(port, 'write', '--list', 'ns=1;i=50', '7', '8')[0] == 0
    same('a text', run(port, 'write', 'ns=1;i=51', 'a\x1b[2Jb')[1], 'ns=1;i=51 String a\\u001b[2Jb Good\n')
    assert run(port, 'read', 'ns=1;i=51')[1].endswith('"a\\u001b[2Jb" Good\n')
    same('a status', run(port, 'write', 'ns=1;i=52', 'Bad_OutOfRange')[0], 0)
    assert run(port, 'read', 'ns=1;i=52')[1].endswith(' StatusCode Bad_OutOfRange Good\n')


def faults(port):
    for words in (['read', 'ns=1'], ['read', 'i=99999999999'], ['watch', '--queue', '-1', 'i=1'], ['watch', '--interval', 'nan', 'i=1'], ['watch'],
                  ['history', '--start', 'yesterday', 'i=1'], ['write', 'ns=1;i=101', 'x'], ['write', 'ns=1;i=101', '5000000000'], ['write', 'ns=1;i=101']):
        same(words, run(port, *words)[0], 2)
    assert 'quote it' in run(port, 'read', 'ns=1')[2]
    same('no URL', subprocess.run([sys.executable, CLIENT, '--url', 'opc.tcp://h:99999', 'read', 'i=1'], capture_output=True).returncode, 2)
    reading = subprocess.Popen([sys.executable, CLIENT, '--url', f'opc.tcp://127.0.0.1:{port}', 'read', *map(str, TAGS)], stdout=subprocess.PIPE, stderr=subprocess.PIPE, text=True)
    reading.stdout.readline()
    reading.stdout.close()
    same('a closed pipe', (reading.stderr.read(), reading.wait(PATIENCE)), ('', 1))


def watches_below(port):
    watching = Program([sys.executable, CLIENT, 'watch', 'ns=1;i=9', '--below', 'ns=1;i=1', '--count', str(len(TAGS) + 4), '--url', f'opc.tcp://127.0.0.1:{port}'])
    assert watching.wait_for(lambda lines: any(' ns=1;i=1200 ' in line and line.endswith('Good') for line in lines)), watching.lines[:20]
    assert 'ns=1;i=9 is not watched: Bad_NodeIdUnknown' in watching.lines
    assert run(port, 'write', 'ns=1;i=1200', '77')[0] == 0
    same('the end', watching.wait(), 1)
    assert watching.lines[-1].endswith(' ns=1;i=1200 Int32 77 Good'), watching.lines[-1]
    # A subscription takes 1,000 items.
    same('subscriptions', sum(line.startswith('subscription ') for line in watching.lines), 2)


# ---- the package


def survives_cuts(port):
    """Each value comes once and in its order, however often the connection is cut or stalled."""
    proxy = Proxy(port)
    watcher, writer = Watcher(proxy.port, [TAGS[3]], queue=100), on(port)
    watcher.go_on(lambda one: len(one.values) == 1)
    due = [0]
    for turn in range(6):
        for value in range(turn * 10 + 1, turn * 10 + 11):
            same('written', writer.write([(TAGS[3], DataValue(6, value))]), [0])
            due.append(value)
            if value % 10 == 4 and turn % 2:
                proxy.stall()
                time.sleep(0.2)
            elif value % 10 == 6:
                proxy.cut()
        watcher.go_on(lambda one: len(one.values) >= len(due))
        same('values', watcher.values, due)
    assert watcher.count(Lost) == watcher.count(Back) >= 6, watcher.events
    assert all(event.same for event in watcher.events if isinstance(event, Back))
    assert any(event.again for event in watcher.events if isinstance(event, Message)), 'no message was lost on its way'
    same('gaps', watcher.count(Gap), 0)
    watcher.close()
    writer.close()
    proxy.end()


def tells_gaps(program, folder):
    """Of three messages that were lost on their way the server keeps one."""
    server = serve(program, write_plant(os.path.join(folder, 'kept.toml'), 5, kept=1))
    proxy = Proxy(server.port)
    watcher, writer = Watcher(proxy.port, [TAGS[0]], queue=100), on(server.port)
    watcher.go_on(lambda one: len(one.values) == 1)
    proxy.stall()
    for value in (1, 2, 3):
        writer.write([(TAGS[0], DataValue(6, value))])
        time.sleep(0.3)
    proxy.cut()
    watcher.go_on(lambda one: 3 in one.values)
    gaps = [event.first for event in watcher.events if isinstance(event, Gap)]
    same('gap and values', (gaps, watcher.values[0], 1 in watcher.values), ([2], 0, False))
    # The server ends and another one begins: the session is gone, and so are its messages.
    before = len(watcher.events)
    server.end()
    again = serve(program, os.path.join(folder, 'kept.toml'), server.port)
    watcher.go_on(lambda one: one.values[-1] == 0)
    kinds = [type(event) for event in watcher.events[before:] if not isinstance(event, KeepAlive)]
    same('events', kinds, [Lost, Back, Gap, Started, Item, Message])
    watcher.close()
    again.end()
    proxy.end()


def notices_silence(program, folder):
    """A server that stands still is noticed within twice the keep-alive time, and found again when it goes on."""
    server = serve(program, write_plant(os.path.join(folder, 'still.toml'), 5, publish_time=2_500_000, publish_duration='"0000000000406f40"'))
    watcher = Watcher(server.port, [TAGS[0]], keep_alive=8)  # two seconds
    watcher.go_on(lambda one: one.count(KeepAlive) == 1)
    server.process.send_signal(signal.SIGSTOP)
    began = time.monotonic()
    watcher.go_on(lambda one: one.count(Lost) == 1)
    took = time.monotonic() - began
    assert 1 <= took <= 4.3, took
    server.process.send_signal(signal.SIGCONT)
    watcher.go_on(lambda one: one.count(Back) == 1)
    assert watcher.events[-1].same
    with on(server.port) as writer:
        writer.write([(TAGS[0], DataValue(6, 9))])
    watcher.go_on(lambda one: 9 in one.values)
    same('gaps', watcher.count(Gap), 0)
    watcher.close()
    server.end()


def stays_alive(program, folder):
    """A session of two seconds and a token of one live on, though nothing happens."""
    server = serve(program, write_plant(os.path.join(folder, 'short.toml'), 5, session_time=20_000_000, session_duration='"0000000000409f40"', lifetime_ms=1000))
    watcher, told = Watcher(server.port, [TAGS[0]], keep_alive=1000), []
    watcher.session.connection.tell = told.append
    watcher.go_on(lambda one: len(one.values) == 1)
    until = time.monotonic() + 4
    while time.monotonic() < until:
        assert watcher.watch.next(until) is None
    with on(server.port) as writer:
        writer.write([(TAGS[0], DataValue(6, 9))])
    watcher.go_on(lambda one: 9 in one.values)
    same('lost', watcher.count(Lost) + watcher.count(Gap), 0)
    assert sum(', token ' in line for line in told) >= 3 and any('ReadRequest' in line for line in told), told
    watcher.close()
    server.end()


def splits(program, folder):
    """A server that takes seven entries at once, and ten items a subscription."""
    server = serve(program, write_plant(os.path.join(folder, 'seven.toml'), 100, operations=7, items=10, max_message=4096, max_chunks=4))
    with on(server.port) as session:
        same('read', [value.value for value in session.read(TAGS[:100])], [0] * 100)
        same('written', session.write([(tag, DataValue(6, place)) for place, tag in enumerate(TAGS[:100])]), [0] * 100)
        same('read again', [value.value for value in session.read(TAGS[:100])], list(range(100)))
        texts = [(NodeId(1, 'i', 51), DataValue(12, 'x' * 900)) for _ in range(20)]
        same('texts of more than a message holds', session.write(texts), [0] * 20)
        assert not any(is_bad(status) for status, _ in session.browse(TAGS[:100]))
        same('variables', len(session.variables_below(NodeId(1, 'i', 1))), 103)
    watcher = Watcher(server.port, [*TAGS[:25], NodeId(1, 'i', 9)])
    watcher.go_on(lambda one: sorted(one.values) == list(range(25)))
    same('subscriptions', watcher.count(Started), 3)
    same('items', sorted(is_bad(event.status) for event in watcher.events if isinstance(event, Item)), [False] * 25 + [True])
    server.end()
    serve(program, os.path.join(folder, 'seven.toml'), server.port)
    watcher.go_on(lambda one: len(one.values) >= 50)
    same('subscriptions and items again', (watcher.count(Started), watcher.count(Item)), (6, 52))
    same('values again', sorted(watcher.values), sorted([*range(25), *[0] * 25]))
    watcher.close()


def main():
    if len(sys.argv) != 2:
        sys.exit(__doc__)
    up_to_three_times(lambda: try_all(os.path.abspath(sys.argv[1])))


def try_all(program):
    with tempfile.TemporaryDirectory() as folder:
        server = serve(program, write_plant(os.path.join(folder, 'plant.toml'), len(TAGS)))
        try:
            for test, arguments in ((rows, [server.port]), (lists_and_texts, [server.port]), (faults, [server.port]), (watches_below, [server.port]),
                                    (survives_cuts, [server.port]), (tells_gaps, [program, folder]), (notices_silence, [program, folder]), (stays_alive, [program, folder]), (splits, [program, folder])):
                began = time.monotonic()
                test(*arguments)
                print(f'ok {test.__name__} ({time.monotonic() - began:.1f} s)', flush=True)
        finally:
            while ENDS:
                ENDS.pop()()


if __name__ == '__main__':
    main()
