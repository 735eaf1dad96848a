#!/usr/bin/env python3
"""Starts `uaserver serve`, watches a value that a second client writes, and stops.

    python3 scripts/checks/watch_test.py PROGRAM NODES

PROGRAM is the built program, NODES the node file crates/uaserver/data/line.toml. Both clients are scripts/tools/ua_client.py,
so the bytes on the sockets are those of a client that was written from the standard. It tries what the server offers,
the tree, values read and written, refusals by name, raw history, each change by a subscription, values dropped from a
short queue, keep-alives, an answer in several chunks, and a server that isn't there. Meanwhile the server traces, and says
which connections come and go; both are looked at, line by line, beside the tracer's form.
Nothing but Python's own library is needed.
"""
import os
import re
import signal
import subprocess
import sys
import time

from lib.serving import PATIENCE, Program, Server, free_port

CLIENT = os.path.join(os.path.dirname(os.path.abspath(__file__)), '..', 'tools', 'ua_client.py')
TIME = r'20\d\d-\d\d-\d\dT\d\d:\d\d:\d\d\.\d\d\dZ'


class Clients:
    def __init__(self, port):
        self.url = f'opc.tcp://127.0.0.1:{port}'

    def words(self, words):
        return [sys.executable, CLIENT, '--url', self.url, *words]

    def run(self, *words):
        """The status, the lines of standard output, and standard error."""
        ran = subprocess.run(self.words(words), capture_output=True, text=True, timeout=PATIENCE)
        return ran.returncode, ran.stdout.splitlines(), ran.stderr

    def start(self, *words):
        return Program(self.words(words))


def expect(found, wanted):
    """Each line is as its pattern says, and there is no other."""
    assert len(found) == len(wanted), f'{len(found)} lines, and not {len(wanted)}: {found}'
    for line, pattern in zip(found, wanted):
        assert re.fullmatch(pattern, line), f'{line!r} is not {pattern!r}'


def wait_for(client, pattern, times=1):
    """Waits until a client has printed so many lines of this pattern."""
    if not client.wait_for(lambda lines: sum(bool(re.fullmatch(pattern, line)) for line in lines) >= times):
        raise AssertionError(f'no line {pattern!r} in {client.lines}')


def offers(clients):
    status, lines, _ = clients.run('endpoints')
    assert status == 0
    expect(lines, [r'opc\.tcp://localhost:4840', r'  server    uaserver \(urn:uaserver\)', r'  security  mode None, policy None',
                   r'  users     anonymous', r'  usable    yes'])
    status, lines, _ = clients.run('browse')
    assert status == 0
    assert lines[0] == 'i=85' and '  Line  ns=1;i=1  Object' in lines and '    Count  ns=1;i=11  Variable' in lines, lines


def reads_and_writes(clients):
    assert clients.run('write', 'ns=1;i=12', '-5') == (0, ['ns=1;i=12 Int32 -5 Good'], '')
    status, lines, _ = clients.run('read', 'ns=1;i=12', 'ns=1;i=15', 'ns=1;i=99')
    assert status == 1
    expect(lines, [TIME + r' ns=1;i=12 Int32 -5 Good', r'- ns=1;i=15 - Bad_NotReadable', r'- ns=1;i=99 - Bad_NodeIdUnknown'])
    assert clients.run('write', 'ns=1;i=13', 'true') == (1, ['ns=1;i=13 Boolean true Bad_NotWritable'], '')
    assert clients.run('write', '--type', 'String', 'ns=1;i=12', 'fast') == (1, ['ns=1;i=12 String fast Bad_TypeMismatch'], '')
    assert clients.run('write', 'ns=1;i=15', '18446744073709551615')[0] == 0
    status, _, error = clients.run('history', 'ns=1;i=12')
    assert (status, error) == (1, 'HistoryRead ns=1;i=12: Bad_HistoryOperationUnsupported (80720000)\n'), error


def watches(clients):
    watching = clients.start('watch', 'ns=1;i=11', '--count', '4')
    wait_for(watching, r'\S+ ns=1;i=11 UInt16 0 Good')
    for value in (7, 8, 9):
        assert clients.run('write', 'ns=1;i=11', str(value))[0] == 0
    assert watching.wait() == 0
    expect(watching.lines, [r'subscription \d+: publishes every 1000 ms, a keep-alive after 10 intervals of silence, ends after 60 without a request',
                            r'item \d+: ns=1;i=11, sampled every 0 ms, a queue of 10', r'\S+ ns=1;i=11 UInt16 0 Good',
                            *(TIME + rf' ns=1;i=11 UInt16 {value} Good' for value in (7, 8, 9))])
    status, lines, _ = clients.run('history', 'ns=1;i=11', '--page', '2')
    assert status == 0
    expect(lines, [TIME + rf' ns=1;i=11 UInt16 {value} Good' for value in (7, 8, 9)])


def drops(clients):
    lost = ', values before it were lost'
    for words, due in (([], [(19, lost), (20, '')]), (['--keep-oldest'], [(11, ''), (20, lost)])):
        assert clients.run('write', 'ns=1;i=12', '0')[0] == 0
        watching = clients.start('watch', 'ns=1;i=12', '--queue', '2', '--count', '4', *words)
        wait_for(watching, r'\S+ ns=1;i=12 Int32 0 Good')
        # One value comes alone, and ten in one request behind it.
        assert clients.run('write', 'ns=1;i=12', '10')[0] == 0
        wait_for(watching, TIME + r' ns=1;i=12 Int32 10 Good')
        assert clients.run('write', 'ns=1;i=12', *map(str, range(11, 21)))[0] == 0
        assert watching.wait() == 0
        expect(watching.lines[4:], [TIME + rf' ns=1;i=12 Int32 {value} Good{mark}' for value, mark in due])


def keeps_alive(clients):
    watching = clients.start('watch', 'ns=1;i=14', '--keep-alive', '2', '--keep-alives')
    wait_for(watching, TIME + ' keep-alive', 2)
    watching.process.send_signal(signal.SIGINT)
    assert watching.wait() == 0, watching.lines


def chunks(clients):
    text = 'a long text ' * 8000
    assert clients.run('write', 'ns=1;i=14', text)[0] == 0
    status, lines, error = clients.run('--verbose', 'read', 'ns=1;i=14')
    assert status == 0 and text in lines[0], error
    assert re.search(r'<- ReadResponse, request \d+, \d+ bytes in 2 chunks', error), error


def is_not_there(clients):
    status, lines, error = Clients(free_port()).run('read', 'ns=1;i=11')
    assert (status, lines) == (1, []) and 'refused' in error, error


# The tracer's line: the event, the subscription, the row, two states, two counters, and what kept other rows from firing.
ROW = r'(\d+) \d+ ([A-Z]\d+) (\w+) -> (\w+) K\d+ L\d+( [A-Z]\d+:\S+)*'


def told(lines):
    """Behind `listening` stand rows, whose events rise, and each connection once where it comes, and once where it goes."""
    rows = [re.fullmatch(ROW, line) for line in lines if not line.startswith('connection ')]
    assert rows and all(rows), lines
    events = [int(row[1]) for row in rows]
    assert events == sorted(events), events
    assert rows[0][2] == 'C2' and rows[0][3] == 'closed', rows[0]
    assert {'C2', 'N1', 'N6', 'K3'} <= {row[2] for row in rows}, {row[2] for row in rows}
    came, went = set(), set()
    for line in lines:
        if line.startswith('connection '):
            said = re.fullmatch(r'connection (\d+) from (127\.0\.0\.1:\d+)( closed by the client)?', line)
            assert said, line
            seen = went if said[3] else came
            assert (said[1], said[2]) not in seen, line
            seen.add((said[1], said[2]))
    assert came and went <= came, (came, went)


def main():
    server = Server(sys.argv[1], sys.argv[2], '--trace')
    try:
        clients = Clients(server.port)
        for test in (offers, watches, reads_and_writes, drops, keeps_alive, chunks, is_not_there):
            began = time.monotonic()
            test(clients)
            assert server.is_running(), server.lines
            print(f'ok {test.__name__} ({time.monotonic() - began:.1f} s)', flush=True)
    finally:
        server.end()
    told(server.lines[server.lines.index(f'listening {server.port}') + 1:])
    print('ok told', flush=True)


if __name__ == '__main__':
    main()
