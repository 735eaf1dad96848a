#!/usr/bin/env python3
"""Shows an OPC UA server's variables on a page for a browser.

    clients/screen.py [--url URL] [--port N] [--below ID] [--trace FILE]

The page is at http://127.0.0.1:N/ (8080), for this machine alone. It has the tree of nodes below ID with each variable's value, quality and
age; the last hour of the one that is chosen; and a field to set it, where its access allows. The hour comes from the server's history, and
from what this program was told since it began. The line is broken where values were lost that the history doesn't have either.

With --trace the rows of the server's state table stand beside it that fire for this program's subscriptions. FILE is a file or pipe that
gets what `uaserver serve --trace` prints; - is standard input.

Server, network and browser may go and come back. The page says what is away, and shows the last values as old.
"""
import argparse
import base64
import hashlib
import json
import math
import os
import re
import stat
import sys
import threading
import time
from collections import deque, namedtuple
from http.server import BaseHTTPRequestHandler, ThreadingHTTPServer
from urllib.parse import parse_qs, urlsplit

from ua.arguments import node, number
from ua.errors import Broken, Refused, is_bad, lost_before, status_name, value_status
from ua.session import ALL_TIMES, NO_SESSION, Session
from ua.subscription import Back, Gap, Item, Lost, Message, Watch
from ua.texts import TEXTS, escaped, of_json, value_text
from ua.transport import address
from ua.types import DATA_TYPE, FROM_1601_TO_1970, INTEGERS, NODE_CLASSES, SECOND, TYPES, USER_ACCESS_LEVEL, VALUE, VALUE_RANK, DataValue, NodeId, now, numbered

HERE = os.path.dirname(os.path.realpath(__file__))
PAGE = os.path.join(HERE, 'screen.html')
TABLE = os.path.join(HERE, '..', 'docs', 'SUBSCRIPTIONS.md')  # says in words what a row is
DESCRIPTION = 5  # the attribute
HOUR = 3600 * SECOND
POINTS = 400_000  # that this program keeps, of all variables together
DRAWN = 20_000  # points of a line that a page gets, the latest ones
LONGEST = 120  # letters of a value that are shown
EVENTS = 2000  # that a page may be behind; else it gets everything again
ROWS = 40
ROW = re.compile(r'(\d+) (\d+) (\w+) (\w+) -> (\w+) K(\d+) L(\d+)')


def shown(text):
    """A text of the server as the page may show it: nothing hides, and it isn't long."""
    text = escaped(text or '')
    return text if len(text) <= LONGEST else text[:LONGEST - 1] + '…'


def milliseconds(moment):
    """A DateTime since 1970, as browsers count; None for none and for one that long ago."""
    return (moment - FROM_1601_TO_1970) / 10_000 if moment and moment > FROM_1601_TO_1970 else None


def as_number(value):
    """What a line shows of a DataValue: None for a bad value, and for one that is no number."""
    is_number = (value.kind in INTEGERS or value.kind in (1, 10, 11)) and not isinstance(value.value, list) and not is_bad(value.status)
    return float(value.value) if is_number and math.isfinite(value.value) else None


def as_text(value):
    is_text = value.kind in TEXTS and isinstance(value.value, str)
    return shown(value.value if is_text else value_text(value.kind, value.value) if value.kind else '–')


def as_json(data):
    """JSON in one line, in which no HTML can begin."""
    return json.dumps(data, separators=(',', ':')).replace('<', '\\u003c').replace('>', '\\u003e').replace('&', '\\u0026')


def event(name, data):
    return f'event: {name}\ndata: {as_json(data)}\n\n'.encode()


# A point of a line, for a page. `number` is None where nothing is drawn; with `lost` values between it and the one before it may be missing.
Point = namedtuple('Point', 'time number lost text')


def point_of(value, lost=False):
    return Point(value.time or 0, as_number(value), lost, as_text(value) if as_number(value) is None else '')


def as_list(point):
    return [milliseconds(point.time) or 0, point.number, int(point.lost), point.text]


def merged(own, history, begin):
    """The points from `begin` on, and the one before it, of what was told and of what the server's history has.

    A history drops its earliest values first. So it lacks nothing from its first value on, and what was told ends there. The line isn't
    broken where they meet if that has the same value.
    """
    if history:
        first, last = history[0].time, history[-1].time
        before = [point for point in own if point.time < first]
        is_lost = bool(before) and not any(point.time == first for point in own)
        own = [*before, history[0]._replace(lost=is_lost), *history[1:], *(point for point in own if point.time > last)]
    earlier = sum(point.time < begin for point in own)
    return own[max(0, earlier - 1):]


class Board:
    """What all pages show: as a whole for a page that begins, and as a log of events for the others."""

    def __init__(self, url, has_trace):
        self.changed, self.log, self.serial = threading.Condition(), deque(maxlen=EVENTS), 0
        self.tree, self.values, self.lines, self.broken, self.rows, self.own = {}, {}, {}, set(), deque(maxlen=ROWS), set()
        self.state = {'url': url, 'connected': False, 'why': 'not connected yet', 'since': milliseconds(now()), 'trace': has_trace}

    def tell(self, name, data):
        with self.changed:
            self.serial += 1
            self.log.append(event(name, data))
            self.changed.notify_all()

    def now_event(self):
        return event('state', {**self.state, 'now': milliseconds(now())})

    def whole(self):
        with self.changed:
            parts = {'tree': list(self.tree.values()), 'values': list(self.values.values()), 'rows': list(self.rows)}
            return self.serial, [self.now_event(), *(event(name, part) for name, part in parts.items())]

    def since(self, serial, patience):
        """What came behind an event, and the state in any case. Waits for it so many seconds."""
        with self.changed:
            self.changed.wait_for(lambda: self.serial > serial, patience)
            count = self.serial - serial
            if count > len(self.log):
                return self.whole()
            return self.serial, [*list(self.log)[len(self.log) - count:], self.now_event()]

    # ---- what happens

    def set_state(self, connected, why=''):
        with self.changed:
            if (connected, why) != (self.state['connected'], self.state['why']):
                since = self.state['since'] if not connected and not self.state['connected'] else milliseconds(now())
                self.state.update(connected=connected, why=shown(why), since=since, begun=self.state.get('begun') or (connected and since))
                self.tell('state', {**self.state, 'now': milliseconds(now())})

    def set_tree(self, tree):
        with self.changed:
            names = [name for name, one in tree.items() if one['class'] == 'Variable']
            most = min(4000, max(50, POINTS // max(1, len(names))))
            self.lines = {name: self.lines.get(name) or deque(maxlen=most) for name in names}
            self.values = {name: self.values[name] for name in names if name in self.values}
            self.tree = tree
            self.tell('tree', list(tree.values()))

    def take(self, changes):
        """Notes values, as pairs of name and DataValue, and tells the pages."""
        with self.changed:
            told = []
            for name, value in ((name, value) for name, value in changes if name in self.lines):
                point = self.add(name, value)
                self.values[name] = {'id': name, 'text': as_text(value), 'number': as_number(value), 'type': TYPES.get(value.kind, ''),
                                     'time': milliseconds(value.time), 'status': value_status(value.status), 'quality': min(2, value.status >> 30)}
                told.append({**self.values[name], 'point': point and as_list(point)})
            self.tell('values', told)

    def add(self, name, value):
        """Puts a value behind its line's others, and gives its point; None where it is the last one again."""
        line = self.lines[name]
        point = point_of(value, bool(line) and (name in self.broken or lost_before(value.status)))
        self.broken.discard(name)
        if line and point._replace(lost=False) == line[-1]._replace(lost=False):
            return None  # so nothing is missing between
        if line and point.time < line[-1].time:
            point = point._replace(time=max(now(), line[-1].time + 1))  # a server that began anew, or a source whose clock was set back
        elif line and point.time == line[-1].time:
            point = point._replace(lost=line.pop().lost or point.lost)  # as in a history: one value for each time
        line.append(point)
        return point

    def break_lines(self, names):
        """Values may be missing between the last ones of these and those that come."""
        with self.changed:
            self.broken |= {str(name) for name in names}

    def add_rows(self, rows):
        with self.changed:
            rows = [row for row in rows if row['subscription'] in self.own][-ROWS:]
            if rows:
                self.rows.extend(rows)
                self.tell('rows', rows)


def follow(url, below, board):
    """Shows the server on the board, for ever: connects again, and takes the tree again, as often as it has to."""
    while True:
        session = None
        try:
            session = Session(url, 'screen')
            board.set_tree(tree_of(session, below))
            if not board.lines:
                raise Broken(f'there are no variables below {below}')
            watch_all(session, board)
        except Exception as problem:  # whatever it is, the page says it, and the next try may go well
            board.set_state(False, str(problem))
        finally:
            if session is not None:
                session.close()
        time.sleep(0.5)


def watch_all(session, board):
    """Takes what a watch tells, until there is another session: then the server may have another tree."""
    watch = Watch(session, map(NodeId.of_text, board.lines), 250.0, keep_alive=8, lifetime=60, queue=100, each_time=True)
    board.break_lines(board.lines)
    board.set_state(True)
    while True:
        event = watch.next()
        board.own = set(watch.subscriptions)
        if isinstance(event, Message):
            board.take((str(one), value) for one, value in event.changes)
            watch.acknowledge(event)
        elif isinstance(event, Gap):
            board.break_lines(event.subscription.nodes)
        elif isinstance(event, Item) and is_bad(event.status):
            board.take([(str(event.node), DataValue(status=event.status))])
        elif isinstance(event, Lost):
            board.set_state(False, event.why)
        elif isinstance(event, Back) and event.same:
            board.set_state(True)
        elif isinstance(event, Back):
            return


def tree_of(session, top):
    """The nodes below a node by their ids, each once, and its parent before it."""
    rows, found, front = {}, [], [top]
    while front:
        above, front = front, []
        for parent, (status, references) in zip(above, session.browse(above)):
            if is_bad(status) and parent == top:
                raise Refused(f'Browse {parent}', status)
            for reference in references:
                name = str(reference.node)
                if name not in rows and reference.node != top:
                    rows[name] = {'id': name, 'label': shown(name), 'parent': str(parent), 'class': NODE_CLASSES.get(reference.node_class, '?'),
                                  'name': shown(str(reference.display_name) or str(reference.browse_name)), 'standard': reference.node.namespace == 0}
                    front.append(reference.node)
        found += front
    for name, description, access in zip(rows, session.read(found, DESCRIPTION), session.read(found, USER_ACCESS_LEVEL)):
        level, text = access.value if isinstance(access.value, int) else 0, shown(str(description.value)) if description.kind == 21 else ''
        rows[name].update(description=text, writable=bool(level & 2), history=bool(level & 4))
    return rows


class Desk:
    """What pages ask for, over a session of its own, one after the other."""

    def __init__(self, url):
        self.url, self.session, self.lock = url, None, threading.Lock()

    def do(self, work, tries=2):
        with self.lock:
            for left in reversed(range(tries)):
                try:
                    self.session = self.session or Session(self.url, 'screen desk', patience=5)
                    return work(self.session)
                except (Broken, Refused) as problem:
                    if self.session:
                        self.session.connection.drop()
                    self.session = None
                    if not left or (isinstance(problem, Refused) and problem.code not in NO_SESSION):
                        raise

    def write(self, name, text):
        """Writes the value that a text names, of the variable's type, and gives the status. ValueError for a text that names none."""
        one = NodeId.of_text(name)
        value, kind, rank = self.do(lambda session: [session.read([one], attribute)[0] for attribute in (VALUE, DATA_TYPE, VALUE_RANK)])
        number = value.kind or getattr(kind.value, 'value', 0)
        if number not in TYPES:
            raise ValueError('there is no such variable, or no text names its values')
        is_list = isinstance(value.value, list) or (rank.value or 0) > 0
        new = of_json(number, json.loads(text) if is_list else text)
        # Tried once: where the answer is missing, nobody knows whether it was written.
        return self.do(lambda session: session.write([(one, DataValue(number, new))])[0], tries=1)

    def history(self, name, begin):
        """The points that the server's history has from `begin` on, and the one before it; of too many the latest ones."""
        def work(session):
            values = []
            for page in session.history(NodeId.of_text(name), ALL_TIMES[1], ALL_TIMES[0]):  # newest first
                values += [value for value in page if value.time]
                if len(values) >= DRAWN or (values and values[-1].time < begin):
                    break
            return values[::-1]
        return [point_of(value) for value in self.do(work)]


class Handler(BaseHTTPRequestHandler):
    """Answers a browser. No page of another origin may ask: each request has to name this machine, and a write has to be JSON."""
    timeout = 30
    log_message = staticmethod(lambda *_: None)

    def send(self, status, kind, body, *headers):
        self.send_response(status)
        for header in (('Content-Type', f'{kind}; charset=utf-8'), ('Cache-Control', 'no-store'), ('X-Content-Type-Options', 'nosniff'), *headers):
            self.send_header(*header)
        if body is not None:
            self.send_header('Content-Length', str(len(body)))
        self.end_headers()
        if body is not None:
            self.wfile.write(body)

    def send_json(self, status, data):
        self.send(status, 'application/json', as_json(data).encode())

    def is_from_here(self):
        own = [f'{host}:{self.server.server_port}' for host in ('127.0.0.1', 'localhost')]
        origin = self.headers.get('Origin')
        return self.headers.get('Host') in own and (origin is None or origin in [f'http://{one}' for one in own])

    def do_GET(self):
        parts = urlsplit(self.path)
        if not self.is_from_here():
            self.send_json(403, {'error': 'this page is for http://127.0.0.1 alone'})
        elif parts.path == '/':
            self.send_page()
        elif parts.path == '/events':
            self.send_events()
        elif parts.path == '/trend':
            self.send_trend(parse_qs(parts.query).get('id', [''])[0])
        else:
            self.send_json(404, {'error': 'there is no such page'})

    def send_page(self):
        with open(PAGE, encoding='utf-8') as file:
            text = file.read()
        hashes = {tag: base64.b64encode(hashlib.sha256(re.search(f'<{tag}>(.*?)</{tag}>', text, re.S)[1].encode()).digest()).decode() for tag in ('script', 'style')}
        policy = f"default-src 'none'; connect-src 'self'; img-src data:; script-src 'sha256-{hashes['script']}'; style-src 'sha256-{hashes['style']}'; " \
                 "frame-ancestors 'none'; base-uri 'none'; form-action 'none'"
        self.send(200, 'text/html', text.encode(), ('Content-Security-Policy', policy))

    def send_events(self):
        """Sends events until the page is gone."""
        self.send(200, 'text/event-stream', None)
        serial, events = self.server.board.whole()
        while True:
            self.wfile.write(b''.join([b'retry: 1000\n', *events]))
            time.sleep(0.1)  # A busy server's events go together.
            serial, events = self.server.board.since(serial, 2)

    def send_trend(self, name):
        board, history, problem = self.server.board, [], ''
        with board.changed:
            row, own = board.tree.get(name), list(board.lines.get(name, ()))
        if row is None:
            self.send_json(404, {'error': 'there is no such variable'})
            return
        if row['history']:
            try:
                history = self.server.desk.history(name, now() - HOUR)
            except (Broken, Refused) as refused:
                problem = str(refused)
        points = merged(own, history, now() - HOUR)[-DRAWN:]
        self.send_json(200, {'points': [as_list(point) for point in points], 'problem': shown(problem)})

    def do_POST(self):
        if not self.is_from_here() or self.headers.get('Content-Type') != 'application/json' or self.path != '/write':
            self.send_json(403, {'error': 'this page is for http://127.0.0.1 alone'})
            return
        try:
            asked = json.loads(self.rfile.read(max(0, min(1 << 20, int(self.headers.get('Content-Length') or 0)))))
            status = self.server.desk.write(str(asked['id']), str(asked['value']))
            self.send_json(200, {'ok': not is_bad(status), 'status': status_name(status)})
        except Exception as problem:  # the server is away, or what was asked for can't be written
            self.send_json(400, {'error': shown(str(problem))})


class Pages(ThreadingHTTPServer):
    daemon_threads = True

    handle_error = staticmethod(lambda *_: None)  # A browser that goes away is no error.


def pieces_of(path):
    """The bytes of a file that grows or is written anew, or of a pipe, as they come."""
    while True:
        try:
            with open(0 if path == '-' else path, 'rb', buffering=0, closefd=path != '-') as file:
                is_file = stat.S_ISREG(os.fstat(file.fileno()).st_mode)
                if is_file:
                    file.seek(max(0, os.fstat(file.fileno()).st_size - 8192))
                while True:
                    piece = file.read(1 << 16)
                    yield piece
                    if not piece and (not is_file or os.path.getsize(path) < file.tell()):
                        break
                    if len(piece) < 1 << 15:  # else a server waits until it is read
                        time.sleep(0.1)
        except OSError:
            pass
        time.sleep(0.5)


def follow_trace(path, board):
    """Tells the rows of the state table that fire, with what docs/SUBSCRIPTIONS.md says of them."""
    words, half = {}, b''
    try:
        with open(TABLE, encoding='utf-8') as file:
            words = {cells[1].strip(): cells[-2].strip() for cells in (re.split(r'(?<!\\)\|', line) for line in file if re.match(r'\| [A-Z]\d+ \|', line))}
    except OSError:
        pass
    for piece in pieces_of(path):
        *lines, half = (half + piece).split(b'\n')
        half = half[-1000:]
        found = [ROW.match(line.decode('utf-8', 'replace')) for line in lines]
        board.add_rows([{'event': int(row[1]), 'subscription': int(row[2]), 'row': row[3], 'from': row[4], 'to': row[5], 'keep': int(row[6]), 'life': int(row[7]),
                         'words': words.get(row[3], '')} for row in found if row])


def main():
    parser = argparse.ArgumentParser(description=__doc__.split('\n')[0], epilog='The head of this file says what the page has.')
    parser.add_argument('--url', default='opc.tcp://localhost:4840', help='where the server is (%(default)s)')
    parser.add_argument('--port', type=number(int, 1, 65535), default=8080, help='where the page is, at 127.0.0.1 (%(default)s)')
    parser.add_argument('--below', type=node, default=numbered(85), metavar='ID', help='what is shown is below this node (%(default)s)')
    parser.add_argument('--trace', metavar='FILE', help='what `uaserver serve --trace` prints, as a file or pipe; - for standard input')
    arguments = parser.parse_args()
    try:
        address(arguments.url)
        pages = Pages(('127.0.0.1', arguments.port), Handler)
    except (OSError, ValueError) as problem:
        print(escaped(f'{problem.strerror}: --port {arguments.port}' if isinstance(problem, OSError) else str(problem)), file=sys.stderr)
        return 2
    pages.board, pages.desk = Board(arguments.url, bool(arguments.trace)), Desk(arguments.url)
    threading.Thread(target=follow, args=(arguments.url, arguments.below, pages.board), daemon=True).start()
    if arguments.trace:
        threading.Thread(target=follow_trace, args=(arguments.trace, pages.board), daemon=True).start()
    print(f'http://127.0.0.1:{arguments.port}/', flush=True)
    try:
        pages.serve_forever()
    except KeyboardInterrupt:
        pass
    return 0


if __name__ == '__main__':
    sys.exit(main())
