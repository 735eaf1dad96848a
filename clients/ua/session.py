"""A session of an anonymous user, and the services that need no subscription (IEC 62541-4, 5.6, 5.8 and 5.10).

A list of any length may be handed to each service: it is sent in as many requests as the server wants.
"""
import time

from .errors import CODES, Broken, Refused, is_bad
from .structures import extension, of_extension
from .transport import Connection, is_usable
from .types import NODE_CLASSES, NULL_ID, VALUE, LocalizedText, numbered

TIMEOUT = 60_000.0  # ms, the session timeout to ask for
AT_ONCE = 1000  # entries of a request at first
HIERARCHICAL = numbered(33)
SERVER_STATE = numbered(2259)
ALL_TIMES = (1, 1 << 62)  # 0 would be no time (IEC 62541-11, 6.4.3)

# What says that a request or its answer is too large. Nothing is changed by such a request, but by a write whose answer is too large.
TOO_MANY = {CODES[name] for name in ('Bad_TooManyOperations', 'Bad_RequestTooLarge', 'Bad_ResponseTooLarge', 'Bad_EncodingLimitsExceeded')}

# What says that there is no session (any more): a new one is needed.
NO_SESSION = {CODES[name] for name in ('Bad_SessionIdInvalid', 'Bad_SessionClosed', 'Bad_SessionNotActivated')}


class Session:
    """A session on a connection of its own. Broken where the connection fails, Refused where the server refuses something.

    `reconnect` takes the session to a new connection. One thread may use a session at a time.
    """

    def __init__(self, url, name='ua', patience=10, tell=None):
        self.url, self.name, self.patience, self.tell = url, name, patience, tell
        self.at_once, self.token, self.connection = {}, NULL_ID, None
        self.connection = Connection(url, patience, tell)
        try:
            self.create()
        except BaseException:
            self.connection.drop()
            raise

    # ---- its life

    def create(self):
        """Makes a session (5.6.2) and activates it."""
        client = {'uri': f'urn:{self.name}', 'product': f'urn:{self.name}', 'name': LocalizedText(None, self.name), 'kind': 1}
        made = self.connection.call('CreateSession', {'client': client, 'url': self.url, 'name': self.name, 'timeout': TIMEOUT})
        self.token, self.timeout, self.id = made.token, made.timeout, made.session
        policies = [user.policy for endpoint in made.endpoints if is_usable(endpoint) for user in endpoint.users if user.kind == 0]
        self.user = extension('AnonymousIdentityToken', policy=policies[0] if policies else None)
        self.activate()

    def activate(self):
        """Activates the session on this connection (5.6.3): on any other one it is of no use from now on."""
        self.call('ActivateSession', user=self.user)

    def reconnect(self):
        """Takes the session to a new connection. Whether it is the same session still; else a new one was made."""
        self.connection.drop()
        self.connection = Connection(self.url, self.patience, self.tell)
        try:
            try:
                self.activate()
                return True
            except Refused as refused:
                if refused.code not in NO_SESSION:
                    raise
            self.create()
            return False
        except BaseException:
            self.connection.drop()
            raise

    def stay_alive(self):
        """Reads the server's state where nothing else would keep the session."""
        if time.monotonic() - self.last_request > self.timeout / 2000:
            self.read([SERVER_STATE])

    def close(self):
        try:
            self.call('CloseSession', delete=True)
        except (Broken, Refused):
            pass
        self.connection.close()

    def __enter__(self):
        return self

    def __exit__(self, *error):
        self.close()

    # ---- requests

    def call(self, service, **fields):
        self.last_request = time.monotonic()
        return self.connection.call(service, fields, self.token)

    def send(self, service, **fields):
        """Sends a request ahead whose answer may take any time, and gives its number."""
        self.last_request = time.monotonic()
        return self.connection.send(service, fields, self.token, 0)

    def call_in_parts(self, service, entries, **fields):
        """The results of all entries, sent in as many requests as the server wants: half as many at once, where they were too many."""
        results = []
        while len(results) < len(entries):
            at_once = self.at_once.get(service, AT_ONCE)
            part = entries[len(results):len(results) + at_once]
            try:
                came = self.call(service, entries=part, **fields).results
            except Refused as refused:
                was_done = service == 'Write' and refused.code == CODES['Bad_ResponseTooLarge']
                if refused.code not in TOO_MANY or len(part) == 1 or was_done:
                    raise
                self.at_once[service] = (len(part) + 1) // 2
                continue
            if len(came) != len(part):
                raise Broken(f'{len(came)} results of {service} for {len(part)} entries')
            results += came
        return results

    # ---- services

    def read(self, nodes, attribute=VALUE, index_range=None):
        """An attribute of nodes, as a DataValue each (5.10.2)."""
        return self.read_entries([{'node': node, 'attribute': attribute, 'range': index_range} for node in nodes])

    def read_entries(self, entries):
        """What ReadValueIds name."""
        return self.call_in_parts('Read', entries, times=2)

    def write(self, values, index_range=None):
        """Writes a pair of node and DataValue after the other (5.10.4), and gives the status of each."""
        entries = [{'node': node, 'attribute': VALUE, 'range': index_range, 'value': value} for node, value in values]
        return self.call_in_parts('Write', entries)

    def browse(self, nodes, forward=True, types=HIERARCHICAL):
        """For each node the status and all references of this type and its subtypes (5.8.2, 5.8.3)."""
        entries = [{'node': node, 'direction': 0 if forward else 1, 'type': types, 'subtypes': True, 'results': 0x3F} for node in nodes]
        found = []
        for entry, result in zip(entries, self.call_in_parts('Browse', entries, view={})):
            if result.status == CODES['Bad_NoContinuationPoints']:
                # The points of the others are used up by now.
                result = self.call('Browse', view={}, entries=[entry]).results[0]
            references, status = result.references, result.status
            while result.point and not is_bad(status):
                result = self.call('BrowseNext', entries=[result.point]).results[0]
                references, status = references + result.references, result.status
            found.append((status, references))
        return found

    def below(self, node, depth=None):
        """The nodes below a node: pairs of depth, from 1, and reference, each node once, those of a depth together."""
        seen, front, at = {node}, [node], 0
        while front and (depth is None or at < depth):
            at, nodes, front = at + 1, front, []
            for parent, (status, references) in zip(nodes, self.browse(nodes)):
                if is_bad(status):
                    if at == 1:
                        raise Refused(f'Browse {parent}', status)
                    continue
                for reference in references:
                    if reference.node not in seen:
                        seen.add(reference.node)
                        front.append(reference.node)
                        yield at, reference

    def variables_below(self, node):
        return [reference.node for _, reference in self.below(node) if NODE_CLASSES.get(reference.node_class) == 'Variable']

    def history(self, node, start=ALL_TIMES[0], end=ALL_TIMES[1], most=1000):
        """Pages of the raw values that a variable had from start on and before end (IEC 62541-11, 6.4.3)."""
        details = extension('ReadRawModifiedDetails', start=start, end=end, most=most)
        point = None
        try:
            while True:
                result = self.call('HistoryRead', details=details, entries=[{'node': node, 'point': point}]).results[0]
                point = result.point
                if is_bad(result.status):
                    raise Refused(f'HistoryRead {node}', result.status)
                if result.data.body is not None:
                    name, data = of_extension(result.data)
                    if name != 'HistoryData':
                        raise Broken(f'a history of the kind {result.data.type}')
                    yield data.values
                if not point:
                    return
        except GeneratorExit:
            # Nobody wants the rest: the server needn't keep its place.
            if point:
                self.call('HistoryRead', details=details, release=True, entries=[{'node': node, 'point': point}])
