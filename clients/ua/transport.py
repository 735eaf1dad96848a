"""A connection and its secure channel, without security (IEC 62541-6, 6.7 and 7.1).

Messages go out in chunks and come in as chunks. A request may be sent ahead: its answer waits in `answers` until it is asked for.
"""
import socket
import struct
import time
from urllib.parse import urlsplit

from .encoding import Reader, Writer
from .errors import CODES, Broken, Refused, is_bad, status_name
from .structures import BY_NUMBER, STRUCTURES
from .types import NULL_ID, now, numbered

POLICY_NONE = 'http://opcfoundation.org/UA/SecurityPolicy#None'
OWN_SIZE = 65536  # the largest chunk that this client sends and takes
LARGEST = 3_900_000  # the largest answer that it takes, so that a server needn't hold more than it is ready to


def plural(count, word):
    return f'{count} {word}' + 's' * (count != 1)


class Connection:
    """A connection with an open secure channel. `patience` is how long it waits for an answer, in seconds; `tell` gets a line a message."""

    def __init__(self, url, patience=10, tell=None):
        self.url, self.patience, self.tell = url, patience, tell or (lambda text: None)
        self.channel, self.token, self.sequence, self.request, self.heard_number = 0, 0, 0, 0, None
        self.parts, self.answers = {}, {}
        self.renew_at, self.heard = None, time.monotonic()
        self.held = bytearray()
        host, port = address(url)
        try:
            self.socket = socket.create_connection((host, port), timeout=patience)
        except OSError as error:
            raise Broken(f'{url}: {error.strerror or error}') from None
        try:
            self.socket.setsockopt(socket.IPPROTO_TCP, socket.TCP_NODELAY, 1)
            self.hello()
            self.open_channel(0)
        except BaseException:
            self.socket.close()
            raise

    # ---- frames (7.1.2)

    def send_bytes(self, data):
        try:
            self.socket.settimeout(self.patience)
            self.socket.sendall(data)
        except OSError as error:
            raise Broken(f'the connection failed: {error.strerror or error}') from None

    def bring(self, count, until):
        """Holds so many bytes, at least. False where that hasn't come at this time, by the monotonic clock."""
        while len(self.held) < count:
            left = until - time.monotonic()
            # What has come already is taken in any case.
            self.socket.settimeout(max(left, 0))
            try:
                piece = self.socket.recv(1 << 18)
            except (socket.timeout, BlockingIOError):
                return False
            except OSError as error:
                raise Broken(f'the connection failed: {error.strerror or error}') from None
            if not piece:
                raise Broken('the server closed the connection')
            self.held += piece
            self.heard = time.monotonic()
        return True

    def frame(self, until):
        """The four letters of the next frame and what follows its size, or None where none has come in time."""
        if not self.bring(8, until):
            return None
        letters, size = bytes(self.held[:4]), struct.unpack_from('<I', self.held, 4)[0]
        if not 8 <= size <= OWN_SIZE:
            raise Broken(f'a frame {letters!r} of {size} bytes')
        if not self.bring(size, until):
            return None
        rest = bytes(self.held[8:size])
        del self.held[:size]
        if letters[:3] == b'ERR':
            error = Reader(rest)
            code = error.uint32()
            raise Refused('the server ends the connection', code, error.string())
        return letters, rest

    def hello(self):
        """Hello and Acknowledge (7.1.2.3, 7.1.2.4)."""
        body = bytes(Writer().uint32(0).uint32(OWN_SIZE).uint32(OWN_SIZE).uint32(LARGEST).uint32(0).string(self.url).bytes)
        self.tell(f'-> Hello {self.url}')
        self.send_bytes(b'HELF' + struct.pack('<I', 8 + len(body)) + body)
        frame = self.frame(time.monotonic() + self.patience)
        if frame is None:
            raise Broken(self.silence())
        if frame[0] != b'ACKF':
            raise Broken(f'{frame[0]!r} came where an Acknowledge is due')
        read = Reader(frame[1])
        read.uint32()
        self.send_size = min(OWN_SIZE, read.uint32())
        theirs, self.largest, self.most = read.uint32(), read.uint32(), read.uint32()
        self.tell(f'<- Acknowledge: chunks of at most {self.send_size} bytes to it and {theirs} from it, '
                  f'requests of at most {self.largest or "any number of"} bytes in {self.most or "any number of"} chunks')

    # ---- messages in chunks (6.7.2)

    def send_message(self, letters, header, name, write, token, timeout):
        """Sends a request, whose fields `write` writes, and gives its number. Refused, and nothing sent, where the server takes none so large."""
        request = self.request = self.request + 1
        out = Writer().node_id(numbered(STRUCTURES[name].number))
        STRUCTURES['RequestHeader'].write(out, {'token': token, 'time': now(), 'handle': request, 'timeout': timeout})
        write(out)
        body = bytes(out.bytes)
        room = self.send_size - 8 - len(header) - 8
        pieces = [body[at:at + room] for at in range(0, len(body), room)]
        if (self.largest and len(body) > self.largest) or (self.most and len(pieces) > self.most):
            raise Refused(f'{name} of {len(body)} bytes', CODES['Bad_RequestTooLarge'], 'the server takes none so large')
        self.tell(f'-> {name}, request {request}, {len(body)} bytes in {plural(len(pieces), "chunk")}')
        chunks = bytearray()
        for place, piece in enumerate(pieces):
            self.sequence += 1
            last = b'F' if place + 1 == len(pieces) else b'C'
            chunks += letters + last + struct.pack('<I', 8 + len(header) + 8 + len(piece)) + header
            chunks += struct.pack('<II', self.sequence, request) + piece
        self.send_bytes(chunks)
        return request

    def message(self, until):
        """The number of the request that the next message answers, its bytes and its chunks, or None where none has come in time."""
        while True:
            frame = self.frame(until)
            if frame is None:
                return None
            letters, rest = frame
            read = Reader(rest)
            channel = read.uint32()
            if letters[:3] == b'OPN':
                policy = read.string()
                read.byte_string()
                read.byte_string()
                if policy != POLICY_NONE:
                    raise Broken(f'the server opens a channel of the policy {policy}')
            elif letters[:3] == b'MSG':
                read.uint32()
            else:
                raise Broken(f'{letters!r} came where a message is due')
            if self.channel and channel != self.channel:
                raise Broken(f'a chunk of the channel {channel}, and not of {self.channel}')
            sequence, request = read.uint32(), read.uint32()
            before, self.heard_number = self.heard_number, sequence
            if before is not None and sequence != before + 1 and not (before >= 2**32 - 1024 and sequence < 1024):
                raise Broken(f'the chunk {sequence} came behind {before}')
            body, end = rest[read.place:], letters[3:4]
            if end == b'C':
                self.parts.setdefault(request, []).append(body)
            elif end == b'A':
                self.parts.pop(request, None)
                error = Reader(body)
                code = error.uint32()
                raise Refused(f'the server gives up its answer to request {request}', code, error.string())
            elif end == b'F':
                parts = self.parts.pop(request, []) + [body]
                return request, b''.join(parts), len(parts)
            else:
                raise Broken(f'a chunk of the unknown kind {letters!r}')

    def collect(self, until):
        """Takes one more answer in. False where none has come in time."""
        got = self.message(until)
        if got is None:
            return False
        request, body, chunks = got
        read = Reader(body)
        node = read.node_id()
        kind = BY_NUMBER.get(node.value if node.namespace == 0 else None)
        name = kind.name if kind else f'message {node}'
        result = STRUCTURES['ResponseHeader'].read(read).result
        said = '' if result == 0 else f', {status_name(result)}'
        self.tell(f'<- {name}, request {request}, {len(body)} bytes in {plural(chunks, "chunk")}{said}')
        self.answers[request] = (name, result, read)
        return True

    def silence(self):
        return f'the server is silent for {self.patience:g} seconds'

    def answer(self, request, name):
        """The fields of the answer to a request. Refused where the server refused it."""
        until = time.monotonic() + self.patience
        while request not in self.answers:
            if not self.collect(until):
                raise Broken(self.silence())
        came, result, read = self.answers.pop(request)
        if came == 'ServiceFault' or is_bad(result):
            raise Refused(name[:-len('Response')], result)
        if came != name:
            raise Broken(f'{came} came where {name} is due')
        return STRUCTURES[name].read(read)

    # ---- the channel (6.7.4; IEC 62541-4, 5.5)

    def open_channel(self, kind):
        """Opens the channel (0), or renews its token (1)."""
        header = bytes(Writer().uint32(self.channel).string(POLICY_NONE).byte_string(None).byte_string(None).bytes)
        fields = {'kind': kind, 'mode': 1, 'lifetime': 3_600_000}
        write = lambda out: STRUCTURES['OpenSecureChannelRequest'].write(out, fields)
        request = self.send_message(b'OPN', header, 'OpenSecureChannelRequest', write, NULL_ID, 10_000)
        opened = self.answer(request, 'OpenSecureChannelResponse')
        self.channel, self.token = opened.channel, opened.token
        self.tell(f'   channel {self.channel}, token {self.token} for {opened.lifetime} ms')
        self.renew_at = time.monotonic() + 0.75 * opened.lifetime / 1000

    def send(self, service, fields, token=NULL_ID, timeout=10_000):
        """Sends a request ahead, and gives its number."""
        if time.monotonic() >= self.renew_at:
            self.open_channel(1)
        name = service + 'Request'
        header = struct.pack('<II', self.channel, self.token)
        return self.send_message(b'MSG', header, name, lambda out: STRUCTURES[name].write(out, fields), token, timeout)

    def call(self, service, fields, token=NULL_ID):
        """Sends a request and waits for its answer."""
        return self.answer(self.send(service, fields, token), service + 'Response')

    def drop(self):
        """Closes the socket, and tells the server nothing."""
        self.socket.close()

    def close(self):
        try:
            self.send_message(b'CLO', struct.pack('<II', self.channel, self.token), 'CloseSecureChannelRequest', lambda out: None, NULL_ID, 0)
        except Broken:
            pass
        self.drop()


def address(url):
    """The host and the port of a URL. ValueError where it isn't one of OPC UA."""
    try:
        parts = urlsplit(url)
        if parts.scheme == 'opc.tcp' and parts.hostname:
            return parts.hostname, 4840 if parts.port is None else parts.port
    except ValueError:
        pass
    raise ValueError(f'{url!r} is no URL as opc.tcp://localhost:4840')


def endpoints_of(url, patience=10, tell=None):
    """What a server offers (IEC 62541-4, 5.4.4), without a session."""
    connection = Connection(url, patience, tell)
    try:
        return connection.call('GetEndpoints', {'url': url}).endpoints
    finally:
        connection.close()


def is_usable(endpoint):
    """Whether this client can use an endpoint: no security, and an anonymous user."""
    return endpoint.mode == 1 and any(user.kind == 0 for user in endpoint.users)
