"""A proxy between a client and a server, which cuts and stalls connections; and a node file of a small plant to try them with."""
import select
import socket
import threading
import time


class Proxy:
    """Hands the bytes of each connection on, until it is told otherwise. Its port is `port`, on 127.0.0.1.

    `record`, a list, gets the number of the connection, whether the client sent them, and the bytes; b'' where a side ended.
    """

    def __init__(self, server_port, record=None):
        self.record, self.count = record, 0
        self.server_port, self.pairs, self.is_stalled, self.is_refusing, self.is_over = server_port, [], False, False, False
        self.listener = socket.create_server(('127.0.0.1', 0))
        self.port = self.listener.getsockname()[1]
        self.lock = threading.Lock()
        threading.Thread(target=self.accept, daemon=True).start()

    def accept(self):
        while not self.is_over:
            try:
                client, _ = self.listener.accept()
            except OSError:
                return
            try:
                if self.is_refusing:
                    raise OSError
                server = socket.create_connection(('127.0.0.1', self.server_port), timeout=5)
            except OSError:
                client.close()
                continue
            with self.lock:
                self.pairs.append((client, server))
                self.count += 1
            threading.Thread(target=self.hand_on, args=(client, server, self.count), daemon=True).start()

    def hand_on(self, client, server, number):
        other = {client: server, server: client}
        try:
            while True:
                for ready in select.select([client, server], [], [], 1)[0]:
                    piece = ready.recv(65536)
                    if self.record is not None:
                        self.record.append((number, ready is client, piece))
                    if not piece:
                        return
                    if ready is server and self.is_stalled:
                        continue
                    other[ready].sendall(piece)
        except (OSError, ValueError):
            pass
        finally:
            client.close()
            server.close()

    def stall(self):
        """From now on nothing that the server sends arrives; it is lost at the next `cut`."""
        self.is_stalled = True

    def cut(self):
        """Ends all connections. New ones are good again."""
        with self.lock:
            pairs, self.pairs = self.pairs, []
        for pair in pairs:
            for end in pair:
                try:
                    end.shutdown(socket.SHUT_RDWR)
                except OSError:
                    pass
        self.is_stalled = False

    def refuse(self, seconds):
        """Ends all connections, and refuses new ones for so long."""
        self.is_refusing = True
        self.cut()
        time.sleep(seconds)
        self.is_refusing = False

    def end(self):
        self.is_over = True
        self.listener.close()
        self.cut()


def write_plant(path, variables, **settings):
    """A node file: variables of the type Int32 from ns=1;i=101 on with history, a list ns=1;i=50 and a text ns=1;i=51; published every 50 ms."""
    server = {'publish_time': 500_000, 'publish_duration': '"0000000000004940"', 'sessions': 1000, **settings}
    lines = ['version = 2', '[server]', *(f'{key} = {value}' for key, value in server.items())]
    lines += node(1, 'Object', 'Plant', 'i=85', 'definition = "i=61"')
    lines += node(50, 'Variable', 'List', 'ns=1;i=1', 'type = "UInt16"', 'list = true', 'value = [1, 2]', 'access = 3')
    lines += node(51, 'Variable', 'Text', 'ns=1;i=1', 'type = "String"', 'value = ""', 'access = 3')
    lines += node(52, 'Variable', 'Status', 'ns=1;i=1', 'type = "StatusCode"', 'value = 0', 'access = 3')
    for number in range(variables):
        lines += node(101 + number, 'Variable', f'Tag{number}', 'ns=1;i=1', 'type = "Int32"', 'value = 0', 'access = 7', 'historizing = true')
    with open(path, 'w', encoding='utf-8') as file:
        file.write('\n'.join(lines) + '\n')
    return path


def node(number, kind, name, parent, *more):
    return ['[[node]]', f'id = "ns=1;i={number}"', f'class = "{kind}"', f'name = "{name}"', f'parent = "{parent}"', *more]
