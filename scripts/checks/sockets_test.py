#!/usr/bin/env python3
"""Talks to `uaserver serve` as clients over sockets, and compares what they get with what `uaserver pipe` writes.

    python3 scripts/checks/sockets_test.py PROGRAM NODES

PROGRAM is the built program, NODES a node file with the standard's limits, as crates/uaserver/data/line.toml. It tries:
two sockets whose conversations go on at once, cut differently; 100 sockets opened and closed at once, and then one
that is served; a client that sends nothing, and one that never reads; one that ends what it sends while the server owes it
more than the system holds, and reads then; clients that hang up at once behind the last that they say, right after they connected and
later; a port and an address that can't be had, and an
IPv6 address, where the machine has one; the lines of connections that come, go and are turned away, and the trace of a run
without subscriptions. Nothing but Python's own library is needed.
"""
import select
import socket
import struct
import subprocess
import sys
import tempfile
import time

from lib.serving import MOMENT, PATIENCE, Server, free_port, has_ipv6

HELLO = bytes.fromhex('48454c46380000000000000000000100000001000000000000000000180000006f70632e7463703a2f2f6c6f63616c686f73743a34383430')
POLICY = struct.pack('<I', 47) + b'http://opcfoundation.org/UA/SecurityPolicy#None' + b'\xff' * 8

# How often a client asks that doesn't read its answers.
REQUESTS = 10000

ANSWER = 323  # the length of an answer to GetEndpoints

# How often a client asks at a time that doesn't read until it has ended what it sends. Their answers together are less than what
# a peer may be owed that is still read from.
BATCH = 1000


def opening():
    """OpenSecureChannel of the mode None, an Issue for an hour."""
    body = bytes.fromhex('0100be01') + bytes.fromhex('0000') + bytes(8) + struct.pack('<I', 1) + bytes(4) + b'\xff' * 4
    body += bytes(4) + bytes(3) + bytes(4) + struct.pack('<II', 0, 1) + b'\xff' * 4 + struct.pack('<I', 3600000)
    rest = bytes(4) + POLICY + struct.pack('<II', 1, 1) + body
    return b'OPNF' + struct.pack('<I', 8 + len(rest)) + rest


def chunk(letters, channel, sequence, request, body):
    return letters + struct.pack('<IIIII', 24 + len(body), channel, 1, sequence, request) + body


def header(type_id, handle):
    return b'\x01\x00' + struct.pack('<H', type_id) + b'\x00\x00' + bytes(8) + struct.pack('<I', handle) + bytes(4) + b'\xff' * 4 + bytes(4) + bytes(3)


def get_endpoints(channel, sequence):
    return chunk(b'MSGF', channel, sequence, 2, header(428, 2) + b'\xff' * 12)


def close(channel, sequence):
    return chunk(b'CLOF', channel, sequence, 3, header(452, 3))


def conversation(channel, requests):
    """Hello, an opening, so many GetEndpoints, and the end."""
    parts = [HELLO, opening()]
    parts += [get_endpoints(channel, 2 + n) for n in range(requests)]
    parts.append(close(channel, 2 + requests))
    return b''.join(parts)


def without_times(answer):
    """The clock is another one: zeros in the place of each time, and channel and sequence as they are."""
    out = bytearray(answer)
    place = 0
    while place + 8 <= len(out):
        letters, size = bytes(out[place:place + 3]), struct.unpack_from('<I', out, place + 4)[0]
        if letters == b'OPN':
            out[place + 83:place + 91] = bytes(8)
            out[place + 119:place + 127] = bytes(8)
        elif letters == b'MSG':
            out[place + 28:place + 36] = bytes(8)
        place += size
    return bytes(out)


def of_channel(answer, channel):
    """The same answer on another channel: the number stands in each header, and in the token."""
    out = bytearray(answer)
    place = 0
    while place + 8 <= len(out):
        letters, size = bytes(out[place:place + 3]), struct.unpack_from('<I', out, place + 4)[0]
        if letters in (b'OPN', b'MSG'):
            struct.pack_into('<I', out, place + 8, channel)
        if letters == b'OPN':
            struct.pack_into('<I', out, place + 111, channel)
        place += size
    return bytes(out)


def connect(port):
    return socket.create_connection(('127.0.0.1', port), timeout=PATIENCE)


def read_all(sock):
    parts = []
    while True:
        part = sock.recv(65536)
        if not part:
            return b''.join(parts)
        parts.append(part)


def read_frame(sock):
    front = b''
    while len(front) < 8:
        front += sock.recv(8 - len(front))
    size = struct.unpack_from('<I', front, 4)[0]
    while len(front) < size:
        front += sock.recv(size - len(front))
    return front


def piped(program, nodes, data):
    return subprocess.run([program, 'pipe', nodes], input=data, stdout=subprocess.PIPE, check=True).stdout


def two_at_once(program, nodes, port):
    first, second = connect(port), connect(port)
    # The first asks 300 times in one go, the second 40 times in pieces of 7 bytes. Channel numbers go by the openings.
    first.sendall(HELLO + opening())
    assert read_frame(first)[:3] == b'ACK'
    opened = read_frame(first)
    one = struct.unpack_from('<I', opened, 8)[0]
    second.sendall(HELLO + opening())
    assert read_frame(second)[:3] == b'ACK'
    two = struct.unpack_from('<I', read_frame(second), 8)[0]
    assert two == one + 1, (one, two)
    rest = {}
    for sock, channel, count, size in ((first, one, 300, 1 << 20), (second, two, 40, 7)):
        rest[sock] = [conversation(channel, count)[len(HELLO) + len(opening()):], size, b'', channel, count]
    open_still = {first, second}
    for sock in open_still:
        sock.setblocking(False)
    while open_still:
        readable, writable, _ = select.select(list(open_still), [s for s in open_still if rest[s][0]], [], PATIENCE)
        assert readable or writable, f'nothing for {PATIENCE} seconds'
        for sock in writable:
            taken = sock.send(rest[sock][0][:rest[sock][1]])
            rest[sock][0] = rest[sock][0][taken:]
        for sock in readable:
            part = sock.recv(65536)
            rest[sock][2] += part
            if not part:
                open_still.discard(sock)
    for sock in (first, second):
        _, _, got, channel, count = rest[sock]
        due = piped(program, nodes, conversation(1, count))
        due = of_channel(without_times(due), channel)[28 + 135:]
        assert without_times(got) == due, (len(got), len(due))
        sock.close()


def served_once(program, nodes, port):
    sock = connect(port)
    sock.sendall(HELLO + opening())
    assert read_frame(sock)[:3] == b'ACK'
    channel = struct.unpack_from('<I', read_frame(sock), 8)[0]
    sock.sendall(get_endpoints(channel, 2))
    assert len(read_frame(sock)) == ANSWER
    sock.sendall(close(channel, 3))
    assert read_all(sock) == b''
    sock.close()


def hundred(program, nodes, port):
    socks = [connect(port) for _ in range(100)]
    for sock in socks:
        sock.close()
    served_once(program, nodes, port)


def silent_and_deaf(program, nodes, port):
    silent, deaf = connect(port), connect(port)
    deaf.sendall(HELLO + opening())
    assert read_frame(deaf)[:3] == b'ACK'
    channel = struct.unpack_from('<I', read_frame(deaf), 8)[0]
    # It asks and asks, and never reads, until its socket takes no more.
    deaf.setblocking(False)
    data = b''.join(get_endpoints(channel, 2 + n) for n in range(REQUESTS))
    sent, last = 0, time.time()
    while sent < len(data) and time.time() - last < 1:
        try:
            count = deaf.send(data[sent:sent + 65536])
            sent, last = sent + count, time.time()
        except BlockingIOError:
            time.sleep(0.01)
    started = time.time()
    served_once(program, nodes, port)
    print(f'  beside one that never reads ({sent} bytes sent, then no more taken: {sent < len(data)}): {1000 * (time.time() - started):.1f} ms')
    # Once it reads, it is served on, to the last request.
    answers, left = 0, data[sent:]
    deaf.setblocking(False)
    got = b''
    while answers < REQUESTS:
        readable, writable, _ = select.select([deaf], [deaf] if left else [], [], PATIENCE)
        assert readable or writable, f'nothing for {PATIENCE} seconds after {answers} answers'
        if writable:
            left = left[deaf.send(left[:65536]):]
        if readable:
            got += deaf.recv(1 << 20)
            answers = len(got) // ANSWER
    assert len(got) == REQUESTS * ANSWER
    silent.close()
    deaf.close()


def held_by_system(port, other):
    """How many bytes on their way from a port to another the system holds, in the queues of both sockets."""
    held = 0
    with open('/proc/net/tcp', encoding='ascii') as table:
        for line in list(table)[1:]:
            words = line.split()
            ends = tuple(int(word.split(':')[1], 16) for word in words[1:3])
            sent, received = (int(word, 16) for word in words[4].split(':'))
            held += sent * (ends == (port, other)) + received * (ends == (other, port))
    return held


def steady(port, other):
    """The same, once it doesn't change any more."""
    held, since = -1, time.time()
    while time.time() - since < 0.3:
        now = held_by_system(port, other)
        if now != held:
            held, since = now, time.time()
        time.sleep(0.02)
    return held


def hangs_up_and_reads_late(program, nodes, port):
    # It takes little at a time, and asks without reading, until the server owes it more than the system holds.
    sock = socket.socket()
    sock.setsockopt(socket.SOL_SOCKET, socket.SO_RCVBUF, 4096)
    sock.settimeout(PATIENCE)
    sock.connect(('127.0.0.1', port))
    sock.sendall(HELLO + opening())
    assert read_frame(sock)[:3] == b'ACK'
    channel = struct.unpack_from('<I', read_frame(sock), 8)[0]
    asked, owed = 0, 0
    while owed < 100 * ANSWER:
        assert asked < 100 * BATCH, 'the system holds whatever the server sends'
        sock.sendall(b''.join(get_endpoints(channel, 2 + asked + n) for n in range(BATCH)))
        asked += BATCH
        owed = asked * ANSWER - steady(port, sock.getsockname()[1])
    # Its connection is no more, and what it is owed still comes.
    sock.shutdown(socket.SHUT_WR)
    time.sleep(0.5)
    got = read_all(sock)
    assert len(got) == asked * ANSWER, (len(got), asked * ANSWER, owed)
    print(f'  {owed} bytes were owed beyond what the system held')
    sock.close()


def hangs_up_behind_its_words(program, nodes, port):
    due = without_times(piped(program, nodes, HELLO + opening()))
    for _ in range(50):
        # The first is looked at before anything was reported of it, and the second was served before. Each reads to the end of its
        # connection, which comes once the server has heard that it hung up.
        new, served = connect(port), connect(port)
        new.sendall(HELLO + opening())
        new.shutdown(socket.SHUT_WR)
        got = read_all(new)
        assert without_times(got) == of_channel(due, struct.unpack_from('<I', got, 28 + 8)[0]), got
        served.sendall(HELLO)
        got = read_frame(served)
        served.sendall(opening())
        served.shutdown(socket.SHUT_WR)
        got += read_all(served)
        assert without_times(got) == of_channel(due, struct.unpack_from('<I', got, 28 + 8)[0]), got
        new.close()
        served.close()


def told(program, nodes):
    """Connections that come and go are told, and one too many is told to be refused, and then no more."""
    with open(nodes, encoding='utf-8') as file:
        text = file.read().replace('\n[server]\n', '\n[server]\nconnections = 1\n', 1)
    with tempfile.NamedTemporaryFile('w', suffix='.toml') as one:
        one.write(text)
        one.flush()
        server = Server(program, one.name, '--trace')
        try:
            first = connect(server.port)
            first_at = '{}:{}'.format(*first.getsockname())
            server.wait_for_line(f'connection 1 from {first_at}')
            second = connect(server.port)
            second_at = '{}:{}'.format(*second.getsockname())
            server.wait_for_line(f'connection 2 from {second_at} refused: as many as may be are open')
            second.close()
            first.close()
            server.wait_for_line(f'connection 1 from {first_at} closed by the client')
        finally:
            server.end()
    behind = server.lines[server.lines.index(f'listening {server.port}') + 1:]
    # No subscription, and so no row; and of the second connection no further line.
    assert len(behind) == 3, behind


def refused(program, nodes, address, port, why):
    words = [program, 'serve', nodes, '--port', str(port), '--address', address]
    ran = subprocess.run(words, capture_output=True, text=True, timeout=PATIENCE)
    assert (ran.returncode, ran.stdout) == (6, ''), ran
    lines = [MOMENT.sub('', line) for line in ran.stderr.splitlines()]
    assert lines[0].startswith('29 nodes, 43 references, at most 514445 MB; clients are told opc.tcp://localhost:4840'), ran
    assert lines[1:] == [why, 'network'], ran


def listens_by_ipv6(program, nodes):
    port = free_port()
    words = [program, 'serve', nodes, '--port', str(port), '--address', '::1', '--turns', '1']
    ran = subprocess.run(words, capture_output=True, text=True, timeout=PATIENCE)
    assert (ran.returncode, ran.stdout) == (0, f'listening {port}\n'), ran


def main():
    program, nodes = sys.argv[1], sys.argv[2]
    server = Server(program, nodes)
    port = server.port
    try:
        for name, test in (('two at once', two_at_once), ('a hundred that vanish', hundred), ('silent and deaf', silent_and_deaf), ('hangs up and reads late', hangs_up_and_reads_late), ('hangs up behind its words', hangs_up_behind_its_words)):
            test(program, nodes, port)
            assert server.is_running(), server.lines
            print('ok', name, flush=True)
        refused(program, nodes, '127.0.0.1', port, f"can't listen at 127.0.0.1:{port}: another program has the port {port}, or only an administrator may")
        print('ok a port that is taken')
        # 192.0.2.1 is of a network for documents alone, so it is no machine's.
        refused(program, nodes, '192.0.2.1', port, f"can't listen at 192.0.2.1:{port}: the address 192.0.2.1 is none of this machine's")
        print('ok an address of another machine')
        if has_ipv6():
            listens_by_ipv6(program, nodes)
            print('ok an IPv6 address')
        else:
            print('not tried: this machine has no IPv6 address')
        told(program, nodes)
        print('ok what is told of connections')
    finally:
        server.end()


if __name__ == '__main__':
    main()
