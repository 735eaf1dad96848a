#!/usr/bin/env python3
"""Tries clients/gateway.py: what lines may be, what is refused, a file that grows, servers that go and come back, and how fast it is.

    scripts/checks/gateway_test.py PROGRAM [VALUES]

PROGRAM is the built program, VALUES how many are written for the speed (20000), which is printed and not judged: a program that checks
itself is several times slower than a proved one. A broker of MQTT is tried by with_debian.py. Nothing but Python's own library is needed.
"""
import os
import random
import signal
import subprocess
import sys
import tempfile
import threading
import time

from lib.proxy import Proxy, write_plant
from lib.serving import PATIENCE, Program, Server, up_to_three_times

HERE = os.path.dirname(os.path.realpath(__file__))
GATEWAY = os.path.join(HERE, '..', '..', 'clients', 'gateway.py')
sys.path.insert(0, os.path.join(HERE, '..', '..', 'clients'))
from ua import Gap, Message, NodeId, Session, Watch, lost_before, time_text  # noqa: E402

TAGS = [NodeId(1, 'i', 101 + number) for number in range(10)]
ENDS = []


def url(port):
    return f'opc.tcp://127.0.0.1:{port}'


def same(what, came, wanted):
    assert came == wanted, f'{what}: {came!r} came, and not {wanted!r}'


def pipe(lines, *words):
    """The status and the lines of standard error of a gateway that gets these lines."""
    ran = subprocess.run([sys.executable, GATEWAY, *words], input='\n'.join(lines), capture_output=True, text=True, timeout=PATIENCE)
    assert 'Traceback' not in ran.stderr, ran.stderr
    return ran.returncode, ran.stderr.splitlines()


class Gateway:
    """A gateway to whose standard input lines are written."""

    def __init__(self, *words):
        self.process = subprocess.Popen([sys.executable, GATEWAY, *words], stdin=subprocess.PIPE, stderr=subprocess.PIPE, text=True)
        self.lines = []
        self.reader = threading.Thread(target=lambda: self.lines.extend(line.rstrip('\n') for line in self.process.stderr), daemon=True)
        self.reader.start()
        ENDS.append(self.end)

    def write(self, *lines):
        self.process.stdin.write(''.join(f'{line}\n' for line in lines))
        self.process.stdin.flush()

    def finish(self):
        self.process.stdin.close()
        status = self.process.wait(PATIENCE)
        self.reader.join(PATIENCE)
        return status

    def end(self):
        self.process.kill()
        self.process.wait()


class Witness(threading.Thread):
    """Watches a server beside the gateway, and notes each value that it is given, in its order."""

    def __init__(self, port, nodes):
        super().__init__(daemon=True)
        self.session = Session(url(port), 'witness', patience=60)
        self.watch = Watch(self.session, nodes, queue=1000)
        self.values, self.lost, self.is_over = {node: [] for node in nodes}, 0, False
        self.start()

    def run(self):
        while not self.is_over:
            event = self.watch.next(time.monotonic() + 0.2)
            if isinstance(event, Message):
                for node, value in event.changes:
                    self.values[node].append(value.value)
                    self.lost += lost_before(value.status)
                self.watch.acknowledge(event)
            elif isinstance(event, Gap):
                self.lost += 1
        self.watch.close()
        self.session.close()

    def wait_for(self, node, value, patience=PATIENCE):
        until = time.monotonic() + patience
        while self.values[node][-1:] != [value]:
            assert time.monotonic() < until, f'{node}: {value} has not come, but {self.values[node][-3:]}'
            time.sleep(0.05)

    def end(self):
        self.is_over = True
        self.join(PATIENCE)


def serve(program, nodes, port=None):
    server = Server(program, nodes) if port is None else Program([program, 'serve', nodes, '--port', str(port)])
    if port is not None:
        server.wait_for_line(f'listening {port}')
    ENDS.append(server.end)
    return server


def read(port, *nodes):
    with Session(url(port), patience=60) as session:
        return [value.value for value in session.read(nodes)]


def lines(port):
    """Each form of a line, and each way in which one may be wrong."""
    status, said = pipe(['ns=1;i=101,7', 'ns=1;i=102,8,2026-01-31T12:00:00.5Z,Uncertain', '{"id": "ns=1;i=103", "value": -4}', '',
                         '[{"id": "ns=1;i=104", "value": 5}, {"id": "ns=1;i=51", "value": "hi, \\u6c34"}]', 'ns=1;i=50,"[7, 8, 9]"'], '--to', url(port))
    same('all written', (status, said[-1]), (0, f'{url(port)}: 6 values written, 0 fell out, 0 left'))
    same('values', read(port, *TAGS[:4], NodeId(1, 'i', 51), NodeId(1, 'i', 50)), [7, 8, -4, 5, 'hi, 水', [7, 8, 9]])
    with Session(url(port)) as session:
        value = session.read([TAGS[1]])[0]
        same('time and status', (time_text(value.source), value.status), ('2026-01-31T12:00:00.500Z', 0x40000000))
    wrong = ['nonsense', 'ns=1,5', 'ns=1;i=101,7,yesterday', 'ns=1;i=101,7,,Fine', '{"id": "ns=1;i=101"}', '{"id"', 'ns=1;i=101,x', 'ns=1;i=101,1.5', 'ns=1;i=999,1',
             'i=2259,1', '{"id": "ns=1;i=101", "value": [1]}', 'ns=1;i=50,7', '{"id": "ns=1;i=101", "value": null}', '"', '[' * 100_000, 'ns=1;i=101,99999999999']
    status, said = pipe([*wrong, *wrong, 'ns=1;i=101,77'], '--to', url(port))
    same('the rest', (status, read(port, TAGS[0])), (1, [77]))
    same('refused', len([line for line in said if line.startswith('refused ')]), len(wrong))
    assert 'refused ns=1;i=999: Bad_NodeIdUnknown' in said and 'refused i=2259: Bad_NotWritable' in said, said
    assert 'ns=1;i=999: Bad_NodeIdUnknown: 1 more' in said, said


def large(port):
    """A value that no request can hold is refused, and the others are written."""
    big = 'x' * 2_000_000
    witness = Witness(port, [TAGS[9]])
    witness.wait_for(TAGS[9], 0)
    status, said = pipe([*(f'{TAGS[9]},{value}' for value in range(1, 50)), f'ns=1;i=51,{big}', f'{TAGS[9]},50', 'ns=1;i=51,small'], '--to', url(port))
    same('all but one', (status, read(port, NodeId(1, 'i', 51))), (1, ['small']))
    assert 'refused ns=1;i=51: Bad_RequestTooLarge' in said, said
    witness.wait_for(TAGS[9], 50)
    witness.end()
    same('once and in order', witness.values[TAGS[9]], list(range(51)))


def grows(port, folder):
    """A file that grows, and gives way to another one."""
    path = os.path.join(folder, 'values.csv')
    gateway = Gateway('--to', url(port), '--from', path)
    witness = Witness(port, [TAGS[5]])
    witness.wait_for(TAGS[5], 0)
    for text, due in (('ns=1;i=106,1\nns=1;i=106,2\n', 2), ('ns=1;i=106,', 2), ('3\n', 3)):
        with open(path, 'a', encoding='utf-8') as file:
            file.write(text)
        witness.wait_for(TAGS[5], due)
    os.rename(path, path + '.1')
    with open(path, 'w', encoding='utf-8') as file:
        file.write('ns=1;i=106,4\n')
    witness.wait_for(TAGS[5], 4)
    gateway.process.send_signal(signal.SIGTERM)
    same('the end', gateway.process.wait(PATIENCE), 0)
    witness.end()
    same('values', witness.values[TAGS[5]], [0, 1, 2, 3, 4])


def once_and_in_order(port):
    """However often the connection is cut, each value is written once, and in its order."""
    proxy = Proxy(port)
    ENDS.append(proxy.end)
    gateway, witness = Gateway('--to', url(proxy.port)), Witness(port, TAGS[6:8])
    for node in TAGS[6:8]:
        witness.wait_for(node, 0)
    for value in range(1, 401):
        gateway.write(f'{TAGS[6]},{value}', f'{TAGS[7]},{-value}')
        time.sleep(0.002)
        if value % 40 == 20:
            proxy.stall()
        elif value % 40 == 0:
            proxy.cut() if random.random() < 0.7 else proxy.refuse(0.3)
    same('the end', (gateway.finish(), gateway.lines[-1]), (0, f'{url(proxy.port)}: 800 values written, 0 fell out, 0 left'))
    witness.wait_for(TAGS[6], 400)
    witness.wait_for(TAGS[7], -400)
    witness.end()
    same('values', (witness.values[TAGS[6]], witness.values[TAGS[7]]), (list(range(401)), [-value for value in range(401)]))
    same('lost', witness.lost, 0)


def servers_that_end(program, folder):
    """A server that ends and begins anew has the last values again; of two servers the other is told all; what can't be held is told."""
    ports, servers = [], []
    for name in ('one.toml', 'two.toml'):
        servers.append(serve(program, write_plant(os.path.join(folder, name), len(TAGS))))
        ports.append(servers[-1].port)
    gateway = Gateway('--to', url(ports[0]), '--to', url(ports[1]), '--hold', '50')
    witness = Witness(ports[1], [TAGS[0]])
    witness.wait_for(TAGS[0], 0)
    gateway.write('ns=1;i=101,1', 'ns=1;i=102,5')
    witness.wait_for(TAGS[0], 1)
    until = time.monotonic() + 60
    while read(ports[0], *TAGS[:2]) != [1, 5]:
        assert time.monotonic() < until, gateway.lines
    servers[0].end()
    for value in range(2, 202):
        gateway.write(f'ns=1;i=101,{value}')
        time.sleep(0.001)
    witness.wait_for(TAGS[0], 201)
    same('the other server', witness.values[TAGS[0]], list(range(202)))
    serve(program, os.path.join(folder, 'one.toml'), ports[0])
    until = time.monotonic() + 60
    while read(ports[0], *TAGS[:2]) != [201, 5]:
        assert time.monotonic() < until, (read(ports[0], *TAGS[:2]), gateway.lines)
    same('the end', gateway.finish(), 1)
    assert any(line.startswith(f'{url(ports[0])}: 50 values are held') for line in gateway.lines), gateway.lines
    with Session(url(ports[0])) as session:
        kept = [value.value for page in session.history(TAGS[0]) for value in page]
    assert kept == sorted(kept) and kept[-50:] == list(range(152, 202)), kept
    witness.end()


def speed(port, count):
    """Standard input waits for the server: nothing falls out, however little is held."""
    began = time.monotonic()
    status, said = pipe([f'{TAGS[value % 10]},{value}' for value in range(count)], '--to', url(port), '--hold', '5000')
    took = time.monotonic() - began
    same('all written', (status, said[-1]), (0, f'{url(port)}: {count} values written, 0 fell out, 0 left'))
    print(f'{count} values in {took:.2f} s, {count / took:.0f} a second', flush=True)


def main():
    if len(sys.argv) not in (2, 3):
        sys.exit(__doc__)
    program, count = os.path.abspath(sys.argv[1]), int(sys.argv[2]) if len(sys.argv) > 2 else 20_000
    up_to_three_times(lambda: try_all(program, count))


def try_all(program, count):
    with tempfile.TemporaryDirectory() as folder:
        try:
            port = serve(program, write_plant(os.path.join(folder, 'plant.toml'), len(TAGS), queue=1000)).port
            for test, arguments in ((lines, [port]), (large, [port]), (grows, [port, folder]), (once_and_in_order, [port]), (servers_that_end, [program, folder]),
                                    (speed, [port, count])):
                began = time.monotonic()
                test(*arguments)
                print(f'ok {test.__name__} ({time.monotonic() - began:.1f} s)', flush=True)
        finally:
            while ENDS:
                ENDS.pop()()


if __name__ == '__main__':
    main()
