#!/usr/bin/env python3
"""Turns what `uaserver run` prints into a capture that Wireshark opens.

    uaserver run NODES SCENARIO > run.txt
    uaserver asm SCENARIO > asm.txt
    python3 scripts/tools/to_pcap.py run.txt asm.txt > conversation.pcap
    wireshark conversation.pcap

`run` prints what the server sends, `asm` what the clients do; without asm.txt the capture has the server's side alone.
Each connection becomes a TCP connection to port 4840, where Wireshark looks for OPC UA, from the address 192.0.2.C of
its number C (192.0.2.1 is the server). The time is that of the scenario's ticks; where all of them are before 1970, which
a capture can't tell, 1601 becomes 1970.

The lines of `run` don't say at which event they came, so each frame is put at the first place where it can stand: in
the order of `run`, behind the request that it answers, and not before the tick whose time it bears.
Nothing but Python's own library is needed.
"""
import argparse
import struct
import sys

SERVER = bytes([192, 0, 2, 1])
PORT = 4840
SEGMENT = 1460
FROM_1601_TO_1970 = 116_444_736_000_000_000  # in steps of 100 ns

FIN, SYN, PUSH, ACK = 1, 2, 8, 16


def checksum(data):
    """The checksum of IP and TCP."""
    if len(data) % 2:
        data += b'\0'
    total = sum(struct.unpack(f'>{len(data) // 2}H', data))
    while total >> 16:
        total = (total & 0xFFFF) + (total >> 16)
    return ~total & 0xFFFF


class Capture:
    """The packets of a capture file, each with its time in steps of 100 ns since 1601. Its times count from `begin`."""

    def __init__(self, out, begin):
        self.out, self.begin, self.last, self.packets = out, begin, -1, 0
        # Version 2.4, times in UTC, packets of any length, and raw IP.
        out.write(struct.pack('<IHHiIII', 0xA1B2C3D4, 2, 4, 0, 0, 65535, 101))

    def packet(self, moment, source, target, transport):
        front = struct.pack('>BBHHHBBH4s4s', 0x45, 0, 20 + len(transport), self.packets & 0xFFFF, 0x4000, 64, 6, 0, source, target)
        packet = front[:10] + struct.pack('>H', checksum(front)) + front[12:] + transport
        # Packets of one moment stand a microsecond apart, so that they keep their order.
        micros = max((moment - self.begin) // 10, self.last + 1)
        self.last = micros
        self.packets += 1
        self.out.write(struct.pack('<IIII', micros // 1_000_000, micros % 1_000_000, len(packet), len(packet)) + packet)


class Side:
    def __init__(self, address, port):
        self.address, self.port, self.sequence, self.has_ended = address, port, 1000, False


class Connection:
    """One TCP connection: its packets, with the numbers that TCP counts."""

    def __init__(self, capture, number, moment):
        self.capture = capture
        self.client = Side(bytes([192, 0, 2, 2 + (number - 1) % 250]), 20000 + number % 40000)
        self.server = Side(SERVER, PORT)
        self.segment(moment, self.client, SYN)
        self.segment(moment, self.server, SYN | ACK)
        self.segment(moment, self.client, ACK)

    def segment(self, moment, side, flags, data=b''):
        other = self.server if side is self.client else self.client
        acknowledged = other.sequence if flags & ACK else 0
        front = struct.pack('>HHIIBBHHH', side.port, other.port, side.sequence & 0xFFFFFFFF, acknowledged & 0xFFFFFFFF, 0x50, flags, 65535, 0, 0)
        pseudo = side.address + other.address + struct.pack('>BBH', 0, 6, len(front) + len(data))
        front = front[:16] + struct.pack('>H', checksum(pseudo + front + data)) + front[18:]
        self.capture.packet(moment, side.address, other.address, front + data)
        side.sequence += len(data) + (1 if flags & (SYN | FIN) else 0)

    def send(self, moment, side, data):
        for at in range(0, len(data), SEGMENT):
            piece = data[at:at + SEGMENT]
            last = at + SEGMENT >= len(data)
            self.segment(moment, side, ACK | PUSH if last else ACK, piece)

    def end(self, moment, side):
        if not side.has_ended:
            side.has_ended = True
            self.segment(moment, side, FIN | ACK)


class Frames:
    """Cuts a client's bytes into frames, and says which requests are whole."""

    def __init__(self):
        self.held = b''

    def take(self, data):
        """What each frame is that these bytes complete, as `named` says it."""
        self.held += data
        found = []
        while len(self.held) >= 8:
            size = struct.unpack_from('<I', self.held, 4)[0]
            if size < 8 or len(self.held) < size:
                break
            frame, self.held = self.held[:size], self.held[size:]
            found.append(named(frame))
        return found


def named(frame):
    """The letters of a frame, whether it is the last chunk of its message, and the number of its request where it has one."""
    letters, last = frame[:3], frame[3:4] != b'C'
    if letters in (b'MSG', b'CLO') and len(frame) >= 24:
        return letters, last, struct.unpack_from('<I', frame, 20)[0]
    if letters == b'OPN' and len(frame) >= 16:
        place = 12
        for _ in range(3):
            length = struct.unpack_from('<i', frame, place)[0] if len(frame) >= place + 4 else 0
            place += 4 + max(0, length)
        if len(frame) >= place + 8:
            return letters, last, struct.unpack_from('<I', frame, place + 4)[0]
    return letters, last, None


def time_of(frame):
    """The time in the header of an answer, or 0 where the frame shows none."""
    if frame[:3] == b'MSG' and len(frame) >= 36 and frame[24:26] == b'\x01\x00':
        return struct.unpack_from('<q', frame, 28)[0]
    return 0


def lines_of(path):
    with open(path, encoding='ascii') as file:
        for number, line in enumerate(file, 1):
            words = line.split()
            if not words:
                continue
            try:
                yield words[0], int(words[1]), words[2] if len(words) > 2 else ''
            except (IndexError, ValueError):
                sys.exit(f'{path}, line {number}: neither a line of run nor one of asm')


def places_of(sent, events):
    """For each line of `run` the place of the event behind which it stands, -1 before all, and the clock at each event."""
    frames, asked, moments = {}, {}, []
    clock = 0
    for place, (kind, number, word) in enumerate(events):
        if kind == 'open':
            frames[number] = Frames()
        elif kind == 'bytes':
            for letters, last, request in frames.setdefault(number, Frames()).take(bytes.fromhex(word)):
                if last:
                    asked.setdefault((number, letters, request), []).append(place)
        elif kind == 'tick':
            clock = max(clock, number)
        moments.append(clock)
    behind, places = -1, []
    for kind, number, word in sent:
        if kind == 'send':
            frame = bytes.fromhex(word)
            letters, last, request = named(frame)
            waiting = asked.get((number, b'HEL' if letters == b'ACK' else letters, request), [])
            if waiting:
                behind = max(behind, waiting[0])
                if last:
                    waiting.pop(0)
            moment = time_of(frame)
            if moments and moment <= moments[-1]:
                while behind + 1 < len(events) and (behind < 0 or moments[behind] < moment):
                    behind += 1
        places.append(behind)
    return places, moments


def write_capture(sent, events, out):
    places, moments = places_of(sent, events)
    latest = max([*moments, *(time_of(bytes.fromhex(word)) for kind, _, word in sent if kind == 'send')], default=0)
    capture, connections = Capture(out, FROM_1601_TO_1970 if latest >= FROM_1601_TO_1970 else 0), {}

    def connection(number, moment):
        if number not in connections:
            connections[number] = Connection(capture, number, moment)
        return connections[number]

    def put_sent(until):
        while sent and places[0] <= until:
            kind, number, word = sent.pop(0)
            places.pop(0)
            moment = moments[until] if until >= 0 else time_of(bytes.fromhex(word))
            it = connection(number, moment)
            if kind == 'send':
                it.send(moment, it.server, bytes.fromhex(word))
            elif kind == 'close':
                it.end(moment, it.server)
                it.end(moment, it.client)

    put_sent(-1)
    for place, (kind, number, word) in enumerate(events):
        moment = moments[place]
        if kind == 'open':
            connections.pop(number, None)
            connection(number, moment)
        elif kind == 'bytes':
            it = connection(number, moment)
            if not it.client.has_ended:
                it.send(moment, it.client, bytes.fromhex(word))
        elif kind == 'gone' and number in connections:
            it = connections[number]
            it.end(moment, it.client)
            it.end(moment, it.server)
        put_sent(place)
    return capture.packets


def main():
    parser = argparse.ArgumentParser(description='Turns what `uaserver run` prints into a capture that Wireshark opens.')
    parser.add_argument('run', help='what `uaserver run` printed')
    parser.add_argument('asm', nargs='?', help='what `uaserver asm` printed of the same scenario, for the side of the clients')
    arguments = parser.parse_args()
    if sys.stdout.isatty():
        parser.error('the capture goes to standard output: send it to a file')
    sent = list(lines_of(arguments.run))
    events = list(lines_of(arguments.asm)) if arguments.asm else []
    packets = write_capture(sent, events, sys.stdout.buffer)
    print(f'{packets} packets', file=sys.stderr)


if __name__ == '__main__':
    main()
