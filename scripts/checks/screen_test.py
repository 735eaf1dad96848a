#!/usr/bin/env python3
"""Sees that the screen's page is served and told what happens, without a browser.

    scripts/checks/screen_test.py PROGRAM

PROGRAM is the built program. The page and its stream of events, a value written through it, texts that would be HTML or end an event, requests
of other pages, values that are lost, a network and a server that go away, and the demo. Nothing but Python's own library is needed.
"""
import http.client
import json
import os
import re
import signal
import sys
import tempfile
import threading
import time

from lib.proxy import Proxy, node, write_plant
from lib.serving import PATIENCE, Program, Server, free_port

TOP = os.path.dirname(os.path.dirname(os.path.dirname(os.path.realpath(__file__))))
sys.path.insert(0, os.path.join(TOP, 'clients'))
from screen import Point, merged  # noqa: E402
from ua import DataValue, NodeId, Session, now  # noqa: E402

HOSTILE = '</span><img src=x onerror=alert(1)>&amp;\n\ndata: [1]\n\n\u202e\x1b[2J"'
TAG, TEXT = NodeId(1, 'i', 101), NodeId(1, 'i', 51)


def request(port, method, path, body=None, **headers):
    connection = http.client.HTTPConnection('127.0.0.1', port, timeout=PATIENCE)
    connection.request(method, path, body, {name.replace('_', '-'): value for name, value in headers.items()})
    answer = connection.getresponse()
    return answer.status, answer.headers, answer.read().decode()


def write(port, name, value):
    status, _, body = request(port, 'POST', '/write', json.dumps({'id': name, 'value': value}), Content_Type='application/json')
    return status, json.loads(body)


class Events(threading.Thread):
    """The events of a page, as they come."""

    def __init__(self, port):
        super().__init__(daemon=True)
        self.port, self.events, self.raw, self.changed = port, [], '', threading.Condition()
        self.start()

    def run(self):
        connection = http.client.HTTPConnection('127.0.0.1', self.port, timeout=PATIENCE)
        connection.request('GET', '/events')
        answer, name = connection.getresponse(), None
        assert answer.headers['Content-Type'].startswith('text/event-stream')
        for line in answer:
            line = line.decode().rstrip('\n')
            with self.changed:
                self.raw += line + '\n'
                key, _, rest = line.partition(': ')
                if key == 'event':
                    name = rest
                elif key == 'data':
                    self.events.append((name, json.loads(rest)))
                    self.changed.notify_all()
                else:
                    assert key in ('retry', ''), line

    def wait_for(self, what, is_it):
        """The first event of this name that is it, of those behind the last one that was waited for."""
        found = []

        def look():
            while self.events and not found:
                name, data = self.events.pop(0)
                if name == what and is_it(data):
                    found.append(data)
            return found
        with self.changed:
            assert self.changed.wait_for(look, PATIENCE), f'no {what} came'
        return found[0]

    def wait_for_value(self, name, text):
        told = self.wait_for('values', lambda values: any(value['id'] == name and value['text'] == text for value in values))
        return next(value for value in told if value['id'] == name and value['text'] == text)


def lines_of_trends():
    """What was told and what the history has make one line, broken where neither knows."""
    def points(*times, lost=()):
        return [Point(moment, 0.0, moment in lost, '') for moment in times]

    def times(*line):
        return [-point.time if point.lost else point.time for point in merged(*line)]
    for own, history, wanted in (
            (points(1, 2, 5, lost=[5]), [], [1, 2, -5]),
            (points(1, 2, 5, lost=[5]), points(2, 3, 4, 5), [1, 2, 3, 4, 5]),
            (points(1, 2, 5, lost=[5]), points(4, 5), [1, 2, -4, 5]),
            (points(1, 2, 5, 6, lost=[5]), points(6, 7), [1, 2, -5, 6, 7]),
            ([], points(3, 4), [3, 4])):
        assert times(own, history, 0) == wanted, (own, history)
    assert times(points(1, 2, 5), [], 4) == [2, 5]
    print('ok lines', flush=True)


def page(port):
    status, headers, text = request(port, 'GET', '/')
    assert status == 200 and headers['Content-Type'] == 'text/html; charset=utf-8'
    assert "default-src 'none'" in headers['Content-Security-Policy']
    assert not re.search(r'innerHTML|outerHTML|insertAdjacent|document\.write|eval\(|https?://|\son\w+=["\']', text), 'the page takes a text as HTML, or has another source'
    for foreign in ({'Host': 'evil.example'}, {'Origin': 'http://evil.example'}):
        assert request(port, 'GET', '/', **foreign)[0] == 403
        assert request(port, 'POST', '/write', '{}', Content_Type='application/json', **foreign)[0] == 403
    assert request(port, 'POST', '/write', '{"id": "ns=1;i=101", "value": "9"}', Content_Type='text/plain')[0] == 403
    assert request(port, 'GET', '/../screen.py')[0] == 404
    print('ok page', flush=True)


def values(port, url, events):
    tree = events.wait_for('tree', bool)
    names = {one['id']: one for one in tree}
    assert names['ns=1;i=101']['parent'] == 'ns=1;i=1' and names['ns=1;i=101']['writable'] and not names['ns=1;i=60']['writable'], tree
    with Session(url, patience=60) as session:
        assert session.write([(TAG, DataValue(6, 7)), (TEXT, DataValue(12, HOSTILE))]) == [0, 0]
        assert events.wait_for_value('ns=1;i=101', '7')['quality'] == 0
        assert write(port, 'ns=1;i=101', '42') == (200, {'ok': True, 'status': 'Good'})
        assert session.read([TAG])[0].value == 42
        events.wait_for_value('ns=1;i=101', '42')
        for name, value in (('ns=1;i=101', 'many'), ('ns=1;i=999', '1'), ('no id', '1')):
            assert write(port, name, value)[0] == 400, (name, value)
        assert write(port, 'ns=1;i=60', '1') == (200, {'ok': False, 'status': 'Bad_NotWritable'})
        assert write(port, 'ns=1;i=50', '[3, 4]')[1]['ok'] and session.read([NodeId(1, 'i', 50)])[0].value == [3, 4]
        # Bad and uncertain values; and more at once than an item's queue takes, of which the history has all.
        assert session.write([(TAG, DataValue(6, 43, 0x40900000))]) == [0]
        assert events.wait_for_value('ns=1;i=101', '43')['quality'] == 1
        moment = now()
        assert session.write([(TAG, DataValue(6, number, 0, moment + number)) for number in range(1000, 1100)]) == [0] * 100
        told = events.wait_for_value('ns=1;i=101', '1099')
        assert 'values before it were lost' in told['status'] or told['point'], told
    trend = json.loads(request(port, 'GET', '/trend?id=ns%3D1%3Bi%3D101')[2])
    numbers = [point[1] for point in trend['points']]
    assert numbers[-100:] == list(range(1000, 1100)) and 42 in numbers and not any(point[2] for point in trend['points']), trend
    assert request(port, 'GET', '/trend?id=x')[0] == 404
    print('ok values', flush=True)


def hostile(port, events):
    """Texts and names of the server arrive in one line each, without what would be HTML, and without what hides."""
    with events.changed:
        raw = events.raw
    trend = request(port, 'GET', '/trend?id=ns%3D1%3Bi%3D51')[2]
    for text in (raw, trend):
        assert 'onerror=alert(1)' in text and not re.search('[<>\u202e\x1b]', text), text
    assert '\\u003cb\\u003ename' in raw
    print('ok hostile', flush=True)


def network(proxy, port, url, events):
    """The page says that the network is away. What was written meanwhile comes by Republish, so nothing is lost."""
    with Session(url, patience=60) as session:
        away = threading.Thread(target=proxy.refuse, args=(1.5,))
        away.start()
        events.wait_for('state', lambda state: not state['connected'])
        assert session.write([(NodeId(1, 'i', 61), DataValue(6, 2000))]) == [0]
        away.join()
        events.wait_for('state', lambda state: state['connected'])
        events.wait_for_value('ns=1;i=61', '2000')
    points = json.loads(request(port, 'GET', '/trend?id=ns%3D1%3Bi%3D61')[2])['points']
    assert [point[1:3] for point in points] == [[4, 0], [2000, 0]], points
    print('ok network', flush=True)


def restart(program, nodes, server, port, events):
    server.end()
    state = events.wait_for('state', lambda state: not state['connected'])
    assert state['why'], state
    assert write(port, 'ns=1;i=101', '1')[0] == 400
    again = Program([program, 'serve', nodes, '--port', str(server.port), '--trace'])
    try:
        again.wait_for_line(f'listening {server.port}')
        events.wait_for('tree', bool)
        events.wait_for_value('ns=1;i=101', '0')
        points = json.loads(request(port, 'GET', '/trend?id=ns%3D1%3Bi%3D101')[2])['points']
        assert points[-1][1:3] == [0, 1], f'the line is not broken where the server began anew: {points[-3:]}'
        assert write(port, 'ns=1;i=101', '5')[1]['ok']
        events.wait_for_value('ns=1;i=101', '5')
    finally:
        again.end()
    print('ok restart', flush=True)


def demo(program):
    """Comes up with a value that moves, and leaves nothing behind."""
    server, port = free_port(), free_port()
    shown = Program([sys.executable, os.path.join(TOP, 'clients', 'demo.py'), program, '--port', str(server), '--page', str(port)])
    try:
        assert shown.wait_for(lambda lines: 'Ctrl-C ends all.' in lines), shown.lines
        events, begun = Events(port), (now() - 116_444_736_000_000_000) / 10_000
        events.wait_for('values', lambda values: any(value['id'] == 'ns=1;s=Pump1.Seconds' and (value['time'] or 0) > begun for value in values))
        events.wait_for('rows', lambda rows: any(row['words'] for row in rows))
        shown.process.send_signal(signal.SIGINT)
        assert shown.wait() == 0, shown.lines
        assert request_fails(port) and request_fails(server), 'something is left'
    finally:
        shown.end()
    print('ok demo', flush=True)


def request_fails(port):
    try:
        http.client.HTTPConnection('127.0.0.1', port, timeout=5).connect()
        return False
    except OSError:
        return True


def main():
    if len(sys.argv) != 2:
        sys.exit(__doc__)
    program, begun = os.path.abspath(sys.argv[1]), time.monotonic()
    lines_of_trends()
    with tempfile.TemporaryDirectory() as folder:
        nodes = write_plant(os.path.join(folder, 'plant.toml'), 2, queue=20)
        with open(nodes, 'a', encoding='utf-8') as file:
            file.write('\n'.join(node(60, 'Variable', '<b>name', 'ns=1;i=1', 'type = "Int32"', 'value = 6', 'access = 1') +
                                 node(61, 'Variable', 'Forgetful', 'ns=1;i=1', 'type = "Int32"', 'value = 4', 'access = 3')) + '\n')
        trace = os.path.join(folder, 'trace')
        server, port = Server(program, nodes), free_port()
        proxy, url = Proxy(server.port), f'opc.tcp://127.0.0.1:{server.port}'
        screen = Program([sys.executable, os.path.join(TOP, 'clients', 'screen.py'), '--url', f'opc.tcp://127.0.0.1:{proxy.port}', '--port', str(port), '--trace', trace])
        try:
            screen.wait_for_line(f'http://127.0.0.1:{port}/')
            events = Events(port)
            page(port)
            values(port, url, events)
            hostile(port, events)
            network(proxy, port, url, events)
            restart(program, nodes, server, port, events)
        finally:
            for one in (screen, server, proxy):
                one.end()
    demo(program)
    print(f'{time.monotonic() - begun:.0f} seconds')


if __name__ == '__main__':
    main()
