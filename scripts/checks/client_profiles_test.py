#!/usr/bin/env python3
"""Plays against a server what eleven clients ask of one: client_profiles.txt, whose head says what its lines mean.

    python3 scripts/checks/client_profiles_test.py PROGRAM NODES

PROGRAM is the built program, NODES crates/uaserver/data/line.toml. A server of these nodes and of examples/standard_nodes.toml is started.
"""
import os
import sys
import tempfile

from lib.serving import Server

TOP = os.path.join(os.path.dirname(os.path.realpath(__file__)), '..', '..')
sys.path.insert(0, os.path.join(TOP, 'clients'))
from ua import DataValue, NodeId, Refused, now, status_name  # noqa: E402
from ua.session import ALL_TIMES  # noqa: E402
from ua.structures import STRUCTURES, Structure, extension, of_extension  # noqa: E402
from ua.transport import Connection  # noqa: E402
from ua.types import NULL_ID  # noqa: E402

# Services by the ids of their requests (IEC 62541-6, Annex A), where the client has no structure for them.
UNSERVED = {'TransferSubscriptions': 841, 'RegisterNodes': 560, 'TranslateBrowsePathsToNodeIds': 554, 'Call': 712}
TYPES = {'UInt16': 5, 'Int32': 6}
for name, number in UNSERVED.items():
    STRUCTURES[f'{name}Request'] = Structure(f'{name}Request', number, ['entries:UInt32*'])


class Profile:
    """A client that plays its lines."""

    def __init__(self, url):
        self.url, self.connection, self.token, self.items = url, Connection(url), NULL_ID, 0

    def call(self, service, **fields):
        return self.connection.call(service, fields, self.token)

    def statuses(self, results):
        return sorted({status_name(one.status if hasattr(one, 'status') else one) for one in results})

    def session(self, timeout):
        made = self.call('CreateSession', client={'uri': 'urn:profile', 'kind': 1}, url=self.url, name='profile', timeout=float(timeout))
        self.token = made.token
        users = [user for endpoint in made.endpoints for user in endpoint.users if user.kind == 0]
        self.user = extension('AnonymousIdentityToken', policy=users[0].policy)
        self.call('ActivateSession', user=self.user)
        return [f'{made.timeout:g}']

    def read(self, *nodes):
        entries = [{'node': NodeId.of_text(node), 'attribute': int(attribute or 13)} for node, _, attribute in (node.partition('#') for node in nodes)]
        return self.statuses(self.call('Read', entries=entries, times=2).results)

    def browse(self, node):
        entry = {'node': NodeId.of_text(node), 'subtypes': True, 'classes': 0, 'results': 0x3F}
        return self.statuses(self.call('Browse', view={}, entries=[entry]).results)

    def write(self, *words):
        node, kind, value = words[-3:]
        times = (now(), now()) if words[0] == 'timed' else (None, None)
        value = DataValue(TYPES[kind], int(value), 0, *times)
        return self.statuses(self.call('Write', entries=[{'node': NodeId.of_text(node), 'attribute': 13, 'value': value}]).results)

    def subscribe(self, interval, lifetime, keep_alive, most):
        made = self.call('CreateSubscription', interval=float(interval), lifetime=int(lifetime), keep_alive=int(keep_alive), most=int(most), enabled=True)
        self.subscription = made.subscription
        return [f'{made.interval:g}', str(made.lifetime), str(made.keep_alive)]

    def item(self, *words):
        node, sampling, queue = words[-3:]
        wanted = {'handle': 1, 'sampling': float(sampling), 'queue': int(queue), 'discard_oldest': True}
        if words[0] == 'deadband':
            wanted['filter'] = extension('DataChangeFilter', trigger=1, deadband=1, amount=1.0)
        entry = {'item': {'node': NodeId.of_text(node), 'attribute': 13}, 'mode': 2, 'wanted': wanted}
        made = self.call('CreateMonitoredItems', subscription=self.subscription, times=2, entries=[entry]).results[0]
        said = status_name(made.status)
        return [said, f'{made.sampling:g}', str(made.queue)] if said == 'Good' else [said]

    def publish(self):
        message = self.call('Publish').message
        return [str(sum(len(of_extension(note)[1].items) for note in message.notifications))]

    def history(self, node):
        details = extension('ReadRawModifiedDetails', start=ALL_TIMES[0], end=ALL_TIMES[1], most=1000)
        return self.statuses(self.call('HistoryRead', details=details, times=2, entries=[{'node': NodeId.of_text(node)}]).results)

    def call_unserved(self, name):
        try:
            return [f'{self.call(name)}']
        except Refused as refused:
            return [status_name(refused.code)]

    def reconnect(self):
        self.connection.drop()
        self.connection = Connection(self.url)
        self.call('ActivateSession', user=self.user)
        return []

    def close(self):
        self.call('CloseSession', delete=True)
        self.connection.close()
        return []


def main():
    program, nodes = sys.argv[1:]
    with tempfile.NamedTemporaryFile('w', suffix='.toml', encoding='utf-8') as both, open(os.path.join(TOP, 'scripts', 'checks', 'client_profiles.txt'), encoding='utf-8') as lines:
        for path in (nodes, os.path.join(TOP, 'examples', 'standard_nodes.toml')):
            with open(path, encoding='utf-8') as file:
                both.write(file.read().replace('version = 1', 'version = 2', 1))
        both.flush()
        server = Server(program, both.name)
        try:
            url, profile, faults = f'opc.tcp://127.0.0.1:{server.port}', None, 0
            for number, line in enumerate(lines, 1):
                asked, _, due = line.partition(' = ')
                words = asked.split()
                if not words or words[0].startswith('#'):
                    continue
                if words[0] == 'client':
                    profile = Profile(url)
                    print('playing', ' '.join(words[1:]), flush=True)
                    continue
                try:
                    came = getattr(profile, {'call': 'call_unserved'}.get(words[0], words[0]))(*words[1:])
                except Refused as refused:
                    came = [status_name(refused.code)]
                if came != due.split():
                    faults += 1
                    print(f'line {number}: {line.strip()}: {came} came')
            assert not faults, f'{faults} lines went otherwise'
        finally:
            server.end()


if __name__ == '__main__':
    main()
