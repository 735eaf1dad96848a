#!/usr/bin/env python3
"""Writes values that come as lines into the variables of OPC UA servers.

    clients/gateway.py [--to URL].. [--from SOURCE] [--map FILE] [--hold COUNT]

SOURCE is - for standard input (where left out), a file, which is read from its beginning and then followed as it grows, or
mqtt://[USER:PASSWORD@]HOST[:PORT]/TOPIC where paho-mqtt is installed. A line, or a message of MQTT, is one of these:

    ns=1;i=11,7                                        ID,VALUE
    ns=1;i=11,7,2026-01-31T12:00:00.5Z,Uncertain       ID,VALUE,TIME,STATUS; a field with a comma in double quotes, as in CSV
    {"id": "ns=1;i=11", "value": 7}                    the same as JSON, also with "time" and "status"; a list of these is many

With --map FILE, whose lines are TOPIC,ID, a message of such a topic may be a bare value. A value gets the type of its variable. A time
is the source's, in UTC where it names no zone; without one the value gets the time at which it came. Every --to is told all.

Values are written in their order, many in a request. While a server is away they are held, at most COUNT, and the oldest fall out; how
many is told. A write whose answer didn't come is looked up before anything else is written: what the server has isn't written again, and
nothing older is written over what is newer. A server that lost its memory gets the last value of each variable again.

What is refused is told on standard error, with its reason, once for each variable and reason and then by number. The exit status is 0
where all was written, and 1 where something was refused or lost.
"""
import argparse
import csv
import json
import os
import signal
import sys
import threading
import time
from collections import deque, namedtuple
from urllib.parse import unquote, urlsplit

from ua.arguments import number
from ua.encoding import Writer
from ua.errors import Broken, Refused, is_bad, status_code, status_name
from ua.session import TOO_MANY, Session
from ua.texts import escaped, of_json, parsed
from ua.transport import address
from ua.types import DATA_TYPE, TYPES, VALUE, VALUE_RANK, DataValue, NodeId, now, time_of_text

BATCH = 1000  # values in a request
LONGEST_PAUSE = 5  # seconds between two tries to connect

Entry = namedtuple('Entry', 'node raw time status')  # `raw` is a text, or what JSON has


class Complaints:
    """Tells what is wrong: at once what is new, and how often it came again every ten seconds."""

    def __init__(self):
        self.counts, self.lock, self.due, self.total = {}, threading.Lock(), time.monotonic() + 10, 0

    def say(self, text):
        print(escaped(text), file=sys.stderr, flush=True)

    def add(self, key, text, count=1):
        with self.lock:
            self.total += count
            if key not in self.counts and len(self.counts) < 1000:
                self.say(text)
                self.counts[key], count = 0, count - 1
            elif key not in self.counts:
                key = 'others'
            self.counts[key] = self.counts.get(key, 0) + count
            if time.monotonic() >= self.due:
                self.tell()

    def tell(self):
        self.due = time.monotonic() + 10
        for key, count in self.counts.items():
            if count:
                self.say(f'{key}: {count} more')
                self.counts[key] = 0


class Feed(threading.Thread):
    """Writes to one server, in the order in which values come, and holds them while it is away."""

    def __init__(self, url, hold, complaints):
        super().__init__(daemon=True)
        self.url, self.hold, self.complaints = url, hold, complaints
        self.queue, self.changed, self.is_ended, self.is_connected, self.is_away = deque(), threading.Condition(), False, False, False
        self.taken = []  # entries out of the queue that aren't in doubt yet
        self.session, self.pause = None, 0.0
        self.kinds = {}  # of each node the type's number and whether it is a list, or why it can't be written
        self.doubt = []  # pairs of node and DataValue, of which nobody knows whether they were written
        self.last = {}  # the last value of each node that was written
        self.written, self.dropped, self.is_idle = 0, 0, True

    # ---- what comes

    def put(self, entries, may_wait):
        """Takes entries. Where there is no room it waits, if it may and the server is there; else the oldest fall out."""
        with self.changed:
            while may_wait and not self.is_away and self.is_alive() and len(self.queue) >= self.hold:
                self.changed.wait(1)
            self.queue.extend(entries)
            much = len(self.queue) - self.hold
            if much > 0 and (self.is_away or not may_wait):
                for _ in range(much):
                    self.queue.popleft()
                self.dropped += much
                self.complaints.add(f'{self.url}: fell out', f'{self.url}: {self.hold} values are held, and the oldest fall out', much)
            self.changed.notify_all()

    def end(self):
        with self.changed:
            self.is_ended = True
            self.changed.notify_all()

    def is_done(self):
        with self.changed:
            return self.is_idle and not (self.queue or self.taken or self.doubt)

    # ---- what goes

    def run(self):
        while True:
            try:
                self.connect()
                self.settle()
                self.take()
                if self.taken:
                    self.doubt = self.typed(self.taken)
                    self.taken = []
                    self.write()
                elif self.is_ended:
                    break
                else:
                    self.session.stay_alive()
                self.pause = 0.0
            except (Broken, Refused) as problem:
                self.lose(problem)
        self.session.close()

    def take(self):
        """Takes entries out of the queue, and waits a while where there is none."""
        with self.changed:
            self.is_idle = not self.taken
            if not (self.taken or self.queue or self.is_ended):
                self.changed.wait(1)
            if not self.taken:
                self.taken = [self.queue.popleft() for _ in range(min(BATCH, len(self.queue)))]
            self.is_idle = not self.taken
            self.changed.notify_all()

    def connect(self):
        """Has a session, and what is in doubt where it is on a new connection."""
        if self.is_connected:
            return
        if self.session is None:
            self.session, same = Session(self.url, 'gateway'), False
        else:
            same = self.session.reconnect()
        if not same:
            # The server may be another one, or may have forgotten all.
            self.kinds = {}
            inside = {node for node, _ in self.doubt}
            self.doubt = [pair for pair in self.last.items() if pair[0] not in inside] + self.doubt
        with self.changed:
            self.is_connected, self.is_away = True, False
        self.complaints.say(f'{self.url}: connected')

    def lose(self, problem):
        with self.changed:
            was_connected, self.is_connected, self.is_away = self.is_connected, False, True
            self.changed.notify_all()
        if self.session is not None:
            self.session.connection.drop()
        if was_connected or self.pause == 0.0:
            self.complaints.say(f'{self.url}: {problem}')
        self.pause = min(max(0.2, 2 * self.pause), LONGEST_PAUSE)
        time.sleep(self.pause)

    def settle(self):
        """Writes what is in doubt and not there."""
        if self.doubt:
            self.doubt = self.due(self.doubt)
            self.write()

    def due(self, pairs):
        """Those of these pairs that the server lacks and may have.

        Each node's values were sent in their order. The one that the server has says how far it came: those behind it are due, and all
        where it has the last one before them. Where it has another value, those that are newer are due: an older one must not replace it.
        """
        sent, due, unknown = {}, set(), 0
        for node, value in pairs:
            sent.setdefault(node, []).append(value)
        for (node, values), has in zip(sent.items(), self.session.read(list(sent))):
            if is_bad(has.status) and has.source is None:
                mine = []  # it can't be read
            else:
                keys, key = [self.key(value) for value in values], self.key(has)
                if key in keys:
                    count = len(keys) - keys[::-1].index(key)
                    for value in values[:count]:
                        self.has_written(node, value)
                    values = mine = values[count:]
                elif node in self.last and self.key(self.last[node]) == key:
                    mine = values
                else:
                    mine = [value for value in values if has.source is None or value.source > has.source]
            due.update(map(id, mine))
            unknown += len(values) - len(mine)
        if unknown:
            self.complaints.add(f'{self.url}: unknown', f'{self.url}: whether values were written is unknown, or newer ones stand there', unknown)
        return [(node, value) for node, value in pairs if id(value) in due]

    @staticmethod
    def key(value):
        """What tells a value from others: its bytes, without the server's time."""
        return bytes(Writer().data_value(value._replace(server=None)).bytes)

    def write(self):
        """Writes what is in doubt."""
        try:
            if self.doubt:
                self.took(self.doubt, self.session.write(self.doubt))
        except Refused as refused:
            if refused.code not in TOO_MANY:
                raise
            # One value is too large for a request. Those before it may be written by now; the rest goes one by one.
            self.doubt = self.due(self.doubt)
            while self.doubt:
                try:
                    statuses = self.session.write(self.doubt[:1])
                except Refused as alone:
                    if alone.code not in TOO_MANY:
                        raise
                    statuses = [alone.code]
                self.took(self.doubt[:1], statuses)
                del self.doubt[0]
        self.doubt = []

    def took(self, pairs, statuses):
        for pair, status in zip(pairs, statuses):
            if is_bad(status):
                key = f'{pair[0]}: {status_name(status)}'
                self.complaints.add(key, f'refused {key}')
            else:
                self.has_written(*pair)

    def has_written(self, node, value):
        if self.last.get(node) is not value:
            self.written += 1
            self.last[node] = value

    # ---- types

    def typed(self, entries):
        """Pairs of node and DataValue; what isn't of its variable's type is told."""
        unknown = list(dict.fromkeys(entry.node for entry in entries if entry.node not in self.kinds))
        if unknown:
            self.learn(unknown)
        pairs = []
        for node, raw, moment, status in entries:
            kind, is_list = self.kinds[node]
            try:
                if kind is None:
                    raise ValueError(is_list)
                if isinstance(raw, str) and not is_list:
                    value = parsed(kind, raw)
                else:
                    value = of_json(kind, json.loads(raw) if isinstance(raw, str) else raw)
                    if isinstance(value, list) != is_list:
                        raise ValueError('the variable holds a list' if is_list else 'the variable holds one value, and no list')
            except ValueError as error:
                self.complaints.add(f'{node}: {error}', f'refused {node}: {error}')
                continue
            pairs.append((node, DataValue(kind, value, status, moment)))
        return pairs

    def learn(self, nodes):
        """Asks for the types of variables."""
        asked = [{'node': node, 'attribute': attribute} for node in nodes for attribute in (DATA_TYPE, VALUE_RANK, VALUE)]
        values = self.session.read_entries(asked)
        for place, node in enumerate(nodes):
            declared, rank, value = values[3 * place:3 * place + 3]
            kind = declared.value.value if declared.kind == 17 and declared.value.namespace == 0 and declared.value.value in TYPES else value.kind
            if is_bad(declared.status) or not kind:
                self.kinds[node] = None, status_name(declared.status) if is_bad(declared.status) else 'its type is unknown'
            else:
                self.kinds[node] = kind, isinstance(value.value, list) or rank.value is not None and rank.value >= 0


# ---- sources


class Lines:
    """Turns lines into entries for all feeds."""

    def __init__(self, feeds, complaints, topics=None):
        self.feeds, self.complaints, self.topics, self.nodes, self.clock = feeds, complaints, topics or {}, {}, 0

    def node(self, text):
        if text not in self.nodes:
            self.nodes[text] = NodeId.of_text(text.strip())
        return self.nodes[text]

    def entry(self, text, raw, moment=None, status=None):
        if not moment:
            # Times rise, so that a history keeps each value.
            self.clock = moment = max(self.clock + 1, now())
        else:
            moment = time_of_text(str(moment))
        return Entry(self.node(text), raw, moment, status_code(str(status)) if status else 0)

    def of_object(self, one, text=None):
        if not isinstance(one, dict) or 'value' not in one or not one.keys() <= {'id', 'value', 'time', 'status'} or not (text or 'id' in one):
            raise ValueError('no object with id and value, and perhaps time and status')
        return self.entry(text or str(one['id']), one['value'], one.get('time'), one.get('status'))

    def of_text(self, text):
        """The entries of a line. ValueError where it isn't one."""
        if text[:1] in '{[':
            found = json.loads(text)
            return [self.of_object(one) for one in (found if isinstance(found, list) else [found])]
        fields = next(csv.reader([text], strict=True)) if '"' in text else text.split(',')
        if not 2 <= len(fields) <= 4:
            raise ValueError('no ID,VALUE[,TIME[,STATUS]]')
        return [self.entry(*fields)]

    def of_topic(self, topic, text):
        """The entries of a message of MQTT."""
        text, mapped = text.strip(), self.topics.get(topic)
        if mapped is None:
            return self.of_text(text)
        return [self.of_object(json.loads(text), mapped)] if text[:1] == '{' else [self.entry(mapped, text)]

    def take(self, lines, may_wait, topic=None):
        entries = []
        for line in lines:
            text = line.decode('utf-8', 'replace').strip('\r\n\ufeff')
            if not text.strip():
                continue
            try:
                entries += self.of_text(text) if topic is None else self.of_topic(topic, text)
            except (ValueError, csv.Error, RecursionError) as error:
                self.complaints.add(f'lines: {error}', f'refused {text[:200]}: {error}')
        if entries:
            for feed in self.feeds:
                feed.put(entries, may_wait)


def whole_lines(read, is_stopped):
    """Lists of whole lines of what `read` gives, until it gives b'' (the last line needs no end), or None for nothing yet."""
    rest = b''
    while not is_stopped():
        piece = read()
        if piece is None:
            yield []
            continue
        lines = (rest + piece).split(b'\n')
        rest = lines.pop() if piece else b''
        yield lines
        if not piece:
            return


def following(path):
    """What reads a file that grows, or gives way to another one of its name."""
    state = {'file': None}

    def read():
        file = state['file']
        if file is None:
            try:
                file = state['file'] = open(path, 'rb')
            except OSError:
                time.sleep(0.2)
                return None
        piece = file.read(1 << 16)
        if piece:
            return piece
        try:
            there = os.stat(path)
            has_changed = there.st_ino != os.fstat(file.fileno()).st_ino or there.st_size < file.tell()
        except OSError:
            has_changed = True
        if has_changed:
            file.close()
            state['file'] = None
        time.sleep(0.1)
        return None
    return read


def listen_to_mqtt(source, lines, complaints):
    """Takes what a broker has. Connections that are lost come back by paho's own doing."""
    import paho.mqtt.client as mqtt
    front, _, topic = source[len('mqtt://'):].partition('/')  # a # is no fragment here
    parts, topic = urlsplit(f'//{front}'), unquote(topic) or '#'
    client = mqtt.Client(mqtt.CallbackAPIVersion.VERSION2) if hasattr(mqtt, 'CallbackAPIVersion') else mqtt.Client()
    if parts.username:
        client.username_pw_set(unquote(parts.username), unquote(parts.password or ''))

    def connected(client, *_):
        complaints.say(f'{parts.hostname}: subscribed to {topic}')
        client.subscribe(topic, 1)

    client.on_connect = connected
    client.on_message = lambda client, data, message: lines.take([message.payload], False, message.topic)
    client.connect_async(parts.hostname, parts.port or 1883)
    client.loop_start()
    return client


def topics_of(path):
    with open(path, encoding='utf-8', newline='') as file:
        return {topic: str(NodeId.of_text(node)) for topic, node in (row for row in csv.reader(file) if row)}


def main():
    parser = argparse.ArgumentParser(description=__doc__.split('\n')[0], epilog='The head of this file says what a line may be.')
    parser.add_argument('--to', action='append', metavar='URL', help='a server to write to (opc.tcp://localhost:4840); may stand several times')
    parser.add_argument('--from', dest='source', default='-', metavar='SOURCE', help='- for standard input, a file, or mqtt://HOST/TOPIC (%(default)s)')
    parser.add_argument('--map', metavar='FILE', help='lines TOPIC,ID: the node of a topic of MQTT')
    parser.add_argument('--hold', type=number(int, 1), default=100_000, metavar='COUNT', help='values to hold while a server is away (%(default)s)')
    parser.add_argument('--patience', type=number(float, 0, 1e9), default=60.0, metavar='SECONDS', help='how long to wait at the end for what is held (%(default)s)')
    arguments = parser.parse_args()
    complaints, stopped = Complaints(), threading.Event()
    try:
        topics = topics_of(arguments.map) if arguments.map else {}
        urls = list(dict.fromkeys(arguments.to or ['opc.tcp://localhost:4840']))
        for url in urls:
            address(url)
        feeds = [Feed(url, arguments.hold, complaints) for url in urls]
        lines = Lines(feeds, complaints, topics)
        for feed in feeds:
            feed.start()
        for one in (signal.SIGINT, signal.SIGTERM):
            signal.signal(one, lambda *_: stopped.set() if not stopped.is_set() else os._exit(1))
        if arguments.source.startswith('mqtt://'):
            client = listen_to_mqtt(arguments.source, lines, complaints)
            while not stopped.wait(0.5):
                pass
            client.loop_stop()
        else:
            read = following(arguments.source) if arguments.source != '-' else lambda: os.read(0, 1 << 16)
            source = threading.Thread(target=lambda: [lines.take(some, True) for some in whole_lines(read, stopped.is_set)], daemon=True)
            source.start()
            while source.is_alive() and not stopped.is_set():
                source.join(0.2)
    except (ImportError, OSError, ValueError) as problem:
        complaints.say(str(problem))
        return 2
    until = time.monotonic() + arguments.patience
    while time.monotonic() < until and not all(feed.is_done() or not feed.is_alive() for feed in feeds):
        time.sleep(0.02)
    for feed in feeds:
        feed.end()
        feed.join(2)
    complaints.tell()
    left = 0
    for feed in feeds:
        with feed.changed:
            missing = len(feed.queue) + len(feed.taken) + len(feed.doubt)
        left += missing
        complaints.say(f'{feed.url}: {feed.written} values written, {feed.dropped} fell out, {missing} left')
    return 1 if complaints.total or left else 0


if __name__ == '__main__':
    sys.exit(main())
