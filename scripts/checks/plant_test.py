#!/usr/bin/env python3
"""Treats `uaserver serve` as a plant does: sockets that say nothing or read nothing, crowds, wrong clients, and an end that is asked for.

    python3 scripts/checks/plant_test.py PROGRAM NODES

PROGRAM is the built program, NODES a node file with the standard's limits, as crates/uaserver/data/line.toml. Each case starts a server
of its own. Nothing but Python's own library is needed.
"""
import os
import re
import resource
import shlex
import signal
import socket
import struct
import subprocess
import sys
import tempfile
import threading
import time

from lib.serving import MOMENT, PATIENCE, Server, free_port
from sockets_test import ANSWER, HELLO, chunk, connect, get_endpoints, header, opening, read_all, read_frame, served_once

sys.path.insert(0, os.path.join(os.path.dirname(os.path.realpath(__file__)), '..', '..', 'clients'))
from ua import NodeId, Refused, Session  # noqa: E402
from ua.errors import CODES  # noqa: E402
from ua.types import Extension, numbered  # noqa: E402

EXAMPLES = os.path.join(os.path.dirname(os.path.realpath(__file__)), '..', '..', 'examples')
BAD_SHUTDOWN = 0x800C0000


def limited(nodes, folder, **settings):
    """The node file with these settings of its server."""
    with open(nodes, encoding='utf-8') as file:
        text = file.read()
    lines = ''.join(f'{key} = {value}\n' for key, value in settings.items())
    path = os.path.join(folder, 'nodes.toml')
    with open(path, 'w', encoding='utf-8') as file:
        file.write(text.replace('\n[server]\n', f'\n[server]\n{lines}', 1))
    return path


def opened(port):
    """A client whose channel is open, and the number of the channel."""
    sock = connect(port)
    sock.sendall(HELLO + opening())
    assert read_frame(sock)[:3] == b'ACK'
    return sock, struct.unpack_from('<I', read_frame(sock), 8)[0]


def at(sock):
    return '{}:{}'.format(*sock.getsockname())


def error_of(frame):
    assert frame[:4] == b'ERRF', frame
    return struct.unpack_from('<I', frame, 8)[0]


def silent_sockets(program, nodes, folder):
    """100 sockets that say nothing lock nobody out for good, and one that is served stays."""
    server = Server(program, nodes, '--idle', '3')
    try:
        served, channel = opened(server.port)
        silent = [connect(server.port) for _ in range(99)]
        server.wait_for_line(f'connection 100 from {at(silent[-1])}')
        late = connect(server.port)
        assert error_of(read_all(late)) == 0x80810000
        server.wait_for_line(f'connection 101 from {at(late)} refused: as many as may be are open')
        sequence, until = 2, time.monotonic() + 5
        while time.monotonic() < until:
            served.sendall(get_endpoints(channel, sequence))
            assert len(read_frame(served)) == ANSWER
            sequence += 1
            time.sleep(0.5)
        for sock in silent:
            assert read_all(sock) == b''
            server.wait_for_line(f'connection {2 + silent.index(sock)} from {at(sock)} let go: silent for 3 s')
        served_once(program, nodes, server.port)
        served.sendall(get_endpoints(channel, sequence))
        assert len(read_frame(served)) == ANSWER
    finally:
        server.end()


def silent_for_ever(program, nodes, folder):
    """With 0 nobody is let go of."""
    server = Server(program, nodes, '--idle', '0')
    try:
        silent = connect(server.port)
        silent.settimeout(2)
        try:
            assert silent.recv(1) is None
        except socket.timeout:
            pass
    finally:
        server.end()


def deaf_and_half_closed(program, nodes, folder):
    """One that never reads, is owed more than is read beside, and ends what it sends, gives its place up."""
    server = Server(program, limited(nodes, folder, connections=1))
    try:
        deaf = socket.socket()
        deaf.setsockopt(socket.SOL_SOCKET, socket.SO_RCVBUF, 4096)
        deaf.settimeout(PATIENCE)
        deaf.connect(('127.0.0.1', server.port))
        deaf.sendall(HELLO + opening())
        assert read_frame(deaf)[:3] == b'ACK'
        channel = struct.unpack_from('<I', read_frame(deaf), 8)[0]
        # Its answers are more than is read beside, and less than it may be owed at most.
        deaf.sendall(b''.join(get_endpoints(channel, 2 + n) for n in range(12000)))
        deaf.shutdown(socket.SHUT_WR)
        server.wait_for_line(f'connection 1 from {at(deaf)} closed by the client')
        served_once(program, nodes, server.port)
    finally:
        server.end()


def crowd(program, nodes, folder):
    """Thousands who connect at once keep a newcomer waiting for moments alone."""
    _, most = resource.getrlimit(resource.RLIMIT_NOFILE)
    count = min(4000, most - 200)
    server = Server(program, nodes)
    try:
        socks = []
        for _ in range(count):
            sock = socket.socket()
            sock.setblocking(False)
            sock.connect_ex(('127.0.0.1', server.port))
            socks.append(sock)
        for sock in socks:
            sock.close()
        started = time.monotonic()
        while True:
            # While the others haven't gone, as many as may be are open.
            newcomer = connect(server.port)
            newcomer.sendall(HELLO)
            letters = read_frame(newcomer)[:3]
            newcomer.close()
            if letters == b'ACK':
                break
        print(f'  a newcomer behind {count} that connected at once: {1000 * (time.monotonic() - started):.0f} ms')
    finally:
        server.end()


def by_address(program, nodes, folder):
    """No more than so many from one address; when one goes, another may come, and other addresses are others."""
    server = Server(program, nodes, '--per-address', '2', '--address', '0.0.0.0')
    try:
        first, second, third = (connect(server.port) for _ in range(3))
        assert read_all(third) == b''
        server.wait_for_line(f'a connection from {at(third)} turned away: as many as may be of its address are open')
        other = socket.create_connection(('127.0.0.1', server.port), timeout=PATIENCE, source_address=('127.0.0.2', 0))
        other.sendall(HELLO)
        assert read_frame(other)[:3] == b'ACK'
        first.close()
        server.wait_for_line(f'connection 1 from {at_of(server, 1)} closed by the client')
        served_once(program, nodes, server.port)
        second.close()
    finally:
        server.end()


def at_of(server, number):
    """Where the connection of this number is from, by the line of its beginning."""
    front = f'connection {number} from '
    return next(line[len(front):] for line in server.lines if line.startswith(front))


def ends(program, nodes, folder):
    """Each kind of end is told."""
    server = Server(program, nodes, '--idle', '60')
    try:
        http = connect(server.port)
        http.sendall(b'GET / HTTP/1.1\r\nHost: localhost\r\n\r\n')
        assert error_of(read_all(http)) == 0x807E0000
        server.wait_for_line(f'connection 1 from {at(http)} ended by the server: Bad_TcpMessageTypeInvalid')

        secured = connect(server.port)
        policy = b'http://opcfoundation.org/UA/SecurityPolicy#Basic256Sha256'
        none = b'http://opcfoundation.org/UA/SecurityPolicy#None'
        wanted = opening().replace(struct.pack('<I', len(none)) + none, struct.pack('<I', len(policy)) + policy)
        secured.sendall(HELLO + wanted[:4] + struct.pack('<I', len(wanted)) + wanted[8:])
        assert read_frame(secured)[:3] == b'ACK'
        assert error_of(read_all(secured)) == 0x80550000
        server.wait_for_line(f'connection 2 from {at(secured)} ended by the server: Bad_SecurityPolicyRejected')

        hangs_up = connect(server.port)
        where = at(hangs_up)
        hangs_up.sendall(HELLO)
        read_frame(hangs_up)
        hangs_up.close()
        server.wait_for_line(f'connection 3 from {where} closed by the client')

        polite, channel = opened(server.port)
        where = at(polite)
        polite.sendall(chunk(b'CLOF', channel, 2, 3, header(452, 3)))
        assert read_all(polite) == b''
        server.wait_for_line(f'connection 4 from {where} closed by the client')

        broken = connect(server.port)
        where = at(broken)
        broken.sendall(HELLO)
        read_frame(broken)
        broken.setsockopt(socket.SOL_SOCKET, socket.SO_LINGER, struct.pack('ii', 1, 0))
        broken.close()
        server.wait_for(lambda lines: any(line.startswith(f'connection 5 from {where} failed') for line in lines))
    finally:
        server.end()


def sessions(program, nodes, folder):
    """A session too many is told, and a user who isn't anonymous."""
    server = Server(program, limited(nodes, folder, sessions=1))
    try:
        with Session(f'opc.tcp://127.0.0.1:{server.port}', patience=PATIENCE) as first:
            for call, code, number in ((lambda: Session(first.url, patience=PATIENCE), 'Bad_TooManySessions', 2),
                                       (lambda: first.call('ActivateSession', user=Extension(numbered(324), b'\0' * 16)), 'Bad_IdentityTokenRejected', 1)):
                try:
                    call()
                    raise AssertionError(f'no {code}')
                except Refused as refused:
                    assert refused.code == CODES[code], refused
                server.wait_for_line(f'connection {number} from {at_of(server, number)} is refused a session: {code}')
    finally:
        server.end()


def moments(program, nodes, folder):
    """Each line of what happens stands behind its moment, and the words of standard output don't. With --quiet nobody's coming and going is told."""
    for quiet in (False, True):
        port = free_port()
        words = [program, 'serve', nodes, '--port', str(port), '--turns', '20', *['--quiet'] * quiet]
        process = subprocess.Popen(words, stdin=subprocess.DEVNULL, stdout=subprocess.PIPE, stderr=subprocess.PIPE, text=True)
        assert process.stdout.readline() == f'listening {port}\n'
        connect(port).close()
        output, errors = process.communicate(timeout=PATIENCE)
        lines = errors.splitlines()
        assert output == '' and process.returncode == 0, (output, errors)
        assert all(MOMENT.match(line) for line in lines), lines
        assert [' connection 1 from 127.0.0.1:' in line for line in lines] == ([False] if quiet else [False, True, True]), lines


def url(program, nodes, folder):
    """The URL of the command line is the one that clients are told."""
    server = Server(program, nodes, '--url', 'opc.tcp://plant.example:4999')
    try:
        assert any('clients are told opc.tcp://plant.example:4999' in line for line in server.lines), server.lines
        sock, channel = opened(server.port)
        sock.sendall(get_endpoints(channel, 2))
        assert b'opc.tcp://plant.example:4999' in read_frame(sock)
    finally:
        server.end()


def stop_file(program, nodes, folder):
    """Once the file is there, clients hear that the server shuts down, a Publish request that waits is answered so, and the program ends well."""
    path = os.path.join(folder, 'stop')
    server = Server(program, nodes, '--stop-file', path)
    try:
        sock, _ = opened(server.port)
        silent = connect(server.port)
        session = Session(f'opc.tcp://127.0.0.1:{server.port}', patience=PATIENCE)
        session.call('CreateSubscription', interval=60_000.0, keep_alive=10, lifetime=60, most=0, enabled=True)
        waiting = session.send('Publish', acknowledged=[])
        time.sleep(0.5)
        assert server.is_running(), server.lines
        with open(path, 'w', encoding='utf-8'):
            pass
        assert error_of(read_all(sock)) == BAD_SHUTDOWN
        assert error_of(read_all(silent)) == BAD_SHUTDOWN
        try:
            session.connection.answer(waiting, 'PublishResponse')
            raise AssertionError('no Bad_Shutdown')
        except Refused as refused:
            assert refused.code == BAD_SHUTDOWN, refused
        assert server.wait() == 0, server.lines
    finally:
        server.end()


def by_a_script(program, nodes, folder):
    """The script of the Dockerfile ends the server well at a signal."""
    server = Server(os.path.join(EXAMPLES, 'serve_until_stopped.sh'), nodes, words=lambda script, port: [script, program, nodes, '--port', port])
    try:
        sock, _ = opened(server.port)
        server.process.send_signal(signal.SIGTERM)
        assert error_of(read_all(sock)) == BAD_SHUTDOWN
        assert server.wait() == 0, server.lines
    finally:
        server.end()


def by_a_unit(program, nodes, folder):
    """The lines of the unit of systemd start the server, and end it well."""
    with open(os.path.join(EXAMPLES, 'keyorchid.service'), encoding='utf-8') as file:
        unit = dict(line.rstrip('\n').split('=', 1) for line in file if '=' in line and not line.startswith('#'))

    def filled(line, **also):
        places = {'/usr/local/bin/uaserver': program, '/etc/keyorchid/nodes.toml': nodes, '/run/keyorchid': folder, '%H': 'localhost', **also}
        for place, there in places.items():
            line = line.replace(place, there)
        return shlex.split(line)

    subprocess.run(filled(unit['ExecStartPre']), check=True, timeout=PATIENCE)
    server = Server(program, nodes, words=lambda _, port: filled(unit['ExecStart'], **{'4840': port}))
    try:
        sock, _ = opened(server.port)
        # The server is this program's child, so that somebody has to wait for it.
        waiting = threading.Thread(target=server.process.wait)
        waiting.start()
        subprocess.run(filled(unit['ExecStop'], **{'$MAINPID': str(server.process.pid)}), check=True, timeout=PATIENCE)
        assert error_of(read_all(sock)) == BAD_SHUTDOWN
        waiting.join(PATIENCE)
        assert server.wait() == 0, server.lines
    finally:
        server.end()


def summary(program, nodes):
    """Once a minute a line tells how much is served, though the server is quiet. What comes meanwhile is others' time."""
    server = Server(program, nodes, '--quiet', '--summary')
    try:
        session = Session(f'opc.tcp://localhost:{server.port}')
        count = NodeId.of_text('ns=1;i=11')
        made = session.call('CreateSubscription', interval=1000.0, lifetime=6000, keep_alive=2000, enabled=True)
        item = {'item': {'node': count, 'attribute': 13}, 'mode': 2, 'wanted': {'handle': 1, 'queue': 1}}
        session.call('CreateMonitoredItems', subscription=made.subscription, times=2, entries=[item, item])
        for _ in range(600):
            session.read([count, count])
        yield
        line = re.compile(r'1 connections, 1 sessions, 1 subscriptions, 2 items; 10 requests and 20 values a second; 0 bytes owed; [1-9]\d* MB')
        assert server.wait_for(lambda lines: any(line.fullmatch(told) for told in lines) or len(lines) > 2), server.lines
        assert line.fullmatch(server.lines[2]), server.lines
        assert len(server.lines) == 3, server.lines
        yield
    finally:
        server.end()


def main():
    program, nodes = sys.argv[1], sys.argv[2]
    told = summary(program, nodes)
    next(told)
    for test in (silent_sockets, silent_for_ever, deaf_and_half_closed, crowd, by_address, ends, sessions, moments, url, stop_file, by_a_script, by_a_unit):
        with tempfile.TemporaryDirectory() as folder:
            test(program, nodes, folder)
        print('ok', test.__doc__.split('.')[0], flush=True)
    next(told)
    print('ok', summary.__doc__.split('.')[0], flush=True)
    told.close()


if __name__ == '__main__':
    main()
