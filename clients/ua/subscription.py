"""A watch over variables that survives its connection (IEC 62541-4, 5.12 and 5.13).

    watch = Watch(session, nodes)
    while True:
        event = watch.next(until)          # an event of those below, or None once this time has come
        if isinstance(event, Message):
            ..
            watch.acknowledge(event)       # only now may the server forget the message

Where the connection fails, or the server is silent for longer than its keep-alives allow, the session is activated again on a new
connection, and Republish fetches what was sent meanwhile. What can't be had any more is told as a Gap.
"""
import time
from collections import deque, namedtuple

from .errors import CODES, Broken, Refused, is_bad, status_name
from .session import NO_SESSION
from .structures import extension, of_extension
from .types import VALUE

# The events of a watch. `subscription` is a Subscription.
Started = namedtuple('Started', 'subscription')  # it was made
Item = namedtuple('Item', 'node item sampling queue status')  # a node is watched, or refused by the status
Message = namedtuple('Message', 'subscription number changes again')  # pairs of node and DataValue; `again`: Republish fetched it
KeepAlive = namedtuple('KeepAlive', 'subscription')
Gap = namedtuple('Gap', 'subscription first last why')  # messages that can't be had; the numbers are None where nobody knows them
Ended = namedtuple('Ended', 'subscription status')  # the server ended it; another one follows
Lost = namedtuple('Lost', 'why')  # there is no connection; told once
Back = namedtuple('Back', 'same')  # there is one again; `same`: with the same session

STATUS_VALUE_TIMESTAMP = 2  # IEC 62541-4, DataChangeTrigger
WAITING = 3  # Publish requests at the server, so that one is there while another is on its way
MOST_TOLD = 100  # acknowledgements in a Publish request
NUMBERS = 2**32 - 1  # of messages, from 1
SILENCE = 1.75  # keep-alive times without a word, until the server counts as gone
LONGEST_PAUSE = 5  # seconds between two tries to connect

# The session is another one, or has no such subscription: what was asked of it is over.
OVER = NO_SESSION | {CODES[name] for name in ('Bad_NoSubscription', 'Bad_SubscriptionIdInvalid')}


class Subscription:
    """What the server made of a subscription, and the number of the message that comes next (`due`).

    `nodes` are those that were asked for, by the handles of their items. `watched` are those that the server took, and `left` those that
    were too many for it.
    """

    def __init__(self, made, nodes):
        self.number, self.interval, self.lifetime, self.keep_alive = made.subscription, made.interval, made.lifetime, made.keep_alive
        self.nodes, self.watched, self.left, self.due = nodes, [], set(), 1

    def silence(self):
        """After so many seconds without a word from the server something is wrong. Few servers have timers below 100 ms, whatever they say."""
        return max(1.5, SILENCE * self.keep_alive * max(self.interval, 100) / 1000)

    def ahead(self, number):
        """How far a message is ahead of the next one."""
        return (number - self.due) % NUMBERS

    def went_by(self, number):
        self.due = number % NUMBERS + 1


class Watch:
    """Watches nodes. Intervals are in ms, counts in publishing intervals, as they are asked for; the server may revise them.

    With `each_time` a value is told that differs from the last one by its time alone.
    A session takes one watch, since the answers to Publish are all of its subscriptions'. `add` gives it further nodes.
    """

    def __init__(self, session, nodes, interval=1000.0, keep_alive=10, lifetime=60, sampling=0.0, queue=10, keep_oldest=False, most=0, each_time=False):
        self.session = session
        self.wanted = {'interval': interval, 'keep_alive': keep_alive, 'lifetime': lifetime, 'most': most, 'enabled': True}
        self.item = {'sampling': sampling, 'queue': queue, 'discard_oldest': not keep_oldest}
        if each_time:
            self.item['filter'] = extension('DataChangeFilter', trigger=STATUS_VALUE_TIMESTAMP)
        self.unwatched, self.subscriptions = list(nodes), {}
        self.requests, self.acknowledged, self.events = deque(), [], deque()
        self.is_connected, self.next_try, self.pause, self.asked = True, 0.0, 0.0, time.monotonic()
        self.watch()

    def add(self, nodes):
        """Watches further nodes from the next turn on, in a subscription of their own."""
        self.unwatched = self.unwatched + list(nodes)

    def watch(self):
        """Makes a subscription for the nodes that have none, and further ones for those that are too many for it."""
        while self.unwatched:
            nodes = self.unwatched
            made = self.session.call('CreateSubscription', **self.wanted)
            entries = [{'item': {'node': node, 'attribute': VALUE}, 'mode': 2, 'wanted': {'handle': place, **self.item}} for place, node in enumerate(nodes)]
            results = self.session.call_in_parts('CreateMonitoredItems', entries, subscription=made.subscription, times=2)
            left = [node for node, result in zip(nodes, results) if result.status == CODES['Bad_TooManyMonitoredItems']]
            self.unwatched = left if len(left) < len(nodes) else []
            one = self.subscriptions[made.subscription] = Subscription(made, nodes)
            one.left, one.watched = set(self.unwatched), [node for node, result in zip(nodes, results) if not is_bad(result.status)]
            self.events.append(Started(one))
            for node, result in zip(nodes, results):
                if node not in one.left:
                    self.events.append(Item(node, result.item, result.sampling, result.queue, result.status))

    # ---- turns

    def next(self, until=None):
        """The next event, or None where none has come until this time, by the monotonic clock. What has come already is looked at in any case."""
        while not self.events:
            try:
                self.turn(time.monotonic() + 1 if until is None else until)
            except (Broken, Refused) as problem:
                self.lose(str(problem))
            if until is not None and time.monotonic() >= until and not self.events:
                return None
        return self.events.popleft()

    def turn(self, until):
        if not self.is_connected:
            moment = time.monotonic()
            if moment < self.next_try:
                time.sleep(max(0.0, min(self.next_try - moment, until - moment, 0.2)))
                return
            self.come_back()
        self.watch()
        self.ask()
        self.session.stay_alive()
        connection = self.session.connection
        if self.take_answers(connection) or self.events:
            return
        silence = min((one.silence() for one in self.subscriptions.values()), default=self.session.patience)
        patient = max(connection.heard, self.asked) + silence
        if not connection.collect(min(until, patient, time.monotonic() + 1)) and time.monotonic() >= max(connection.heard, self.asked) + silence:
            raise Broken(f'the server is silent for {silence:g} seconds, though a keep-alive was due')
        self.take_answers(connection)

    def take_answers(self, connection):
        """Takes the answers that have come. Whether there was one."""
        has_come = False
        while self.requests and self.requests[0][0] in connection.answers:
            self.take(*self.requests.popleft())
            has_come = True
        return has_come

    def ask(self):
        """Sends Publish requests ahead, with what there is to acknowledge."""
        while len(self.requests) < WAITING:
            told, self.acknowledged = self.acknowledged[:MOST_TOLD], self.acknowledged[MOST_TOLD:]
            self.requests.append((None, told))  # so that they are told again where this fails
            numbers = [{'subscription': one.number, 'number': number} for one, number in told if self.subscriptions.get(one.number) is one]
            self.requests[-1] = (self.session.send('Publish', acknowledged=numbers), told)
            self.asked = time.monotonic()

    def take(self, request, told):
        """Takes the answer to a Publish request."""
        try:
            came = self.session.connection.answer(request, 'PublishResponse')
        except Refused as refused:
            if refused.code in OVER:
                self.all_over(refused.name)
            elif refused.code != CODES['Bad_TooManyPublishRequests']:
                raise
            return
        self.pause = 0.0
        one, message = self.subscriptions.get(came.subscription), came.message
        notes = [of_extension(notification) for notification in message.notifications]
        if one is None:
            # One whose items were never made, since the connection failed then.
            self.session.call('DeleteSubscriptions', entries=[came.subscription])
            return
        for name, note in notes:
            if name == 'StatusChangeNotification':
                self.over(one, f'the subscription ended: {status_name(note.status)}', note.status)
                return
        # A keep-alive has the number of the message that will come next, and leaves it to that one.
        self.fetch(one, message.number, came.available)
        if message.notifications:
            self.show(one, message.number, notes, False)
        else:
            self.events.append(KeepAlive(one))

    def show(self, one, number, notes, again):
        changes = [(one.nodes[item.item], item.value) for name, note in notes if name == 'DataChangeNotification' for item in note.items]
        one.went_by(number)
        self.events.append(Message(one, number, changes, again))

    def fetch(self, one, number, available):
        """Fetches by Republish what is missing before the message of this number, of those that the server has."""
        missing = one.ahead(number)
        if missing > NUMBERS // 2:
            raise Broken(f'message {number} came, and {one.due} was due')
        for had in sorted((had for had in available if one.ahead(had) < missing), key=one.ahead):
            self.gap(one, had)
            if not self.republish(one, had):
                self.gap(one, had % NUMBERS + 1)
        self.gap(one, number)

    def gap(self, one, number):
        """What was due before the message of this number is lost."""
        if one.due != number:
            self.events.append(Gap(one, one.due, (number - 2) % NUMBERS + 1, 'the server has them no more'))
            one.due = number

    def republish(self, one, number):
        """Fetches a message again (5.13.6). False where the server doesn't have it."""
        try:
            message = self.session.call('Republish', subscription=one.number, number=number).message
        except Refused as refused:
            if refused.code == CODES['Bad_MessageNotAvailable']:
                return False
            raise
        self.show(one, number, [of_extension(notification) for notification in message.notifications], True)
        return True

    def acknowledge(self, message):
        """Lets the server forget a message."""
        self.acknowledged.append((message.subscription, message.number))

    # ---- what goes wrong

    def over(self, one, why, status=None):
        """A subscription is over: another one takes its place, in the next turn."""
        del self.subscriptions[one.number]
        if status is not None:
            self.events.append(Ended(one, status))
        self.events.append(Gap(one, None, None, why))
        self.unwatched = self.unwatched + [node for node in one.nodes if node not in one.left]

    def all_over(self, why):
        for one in list(self.subscriptions.values()):
            self.over(one, why)
        self.requests.clear()
        self.acknowledged = []

    def lose(self, why):
        if self.is_connected:
            self.events.append(Lost(why))
        self.is_connected = False
        self.session.connection.drop()
        while self.requests:
            # Nobody knows whether these were told: they are told again.
            self.acknowledged = self.requests.pop()[1] + self.acknowledged
        self.next_try, self.pause = time.monotonic() + self.pause, min(max(0.5, 2 * self.pause), LONGEST_PAUSE)

    def come_back(self):
        """Takes the session to a new connection (5.6.3), and fetches what was sent into the old one."""
        same = self.session.reconnect()
        self.is_connected, self.asked = True, time.monotonic()
        self.events.append(Back(same))
        if not same:
            self.all_over('the session ended')
        for one in list(self.subscriptions.values()):
            try:
                while self.republish(one, one.due):
                    pass
            except Refused as refused:
                if refused.code not in OVER:
                    raise
                self.over(one, f'the subscription ended: {refused.name}')

    def close(self):
        """Deletes the subscriptions, where there is a connection."""
        if self.is_connected and self.subscriptions:
            try:
                self.session.call('DeleteSubscriptions', entries=list(self.subscriptions))
            except (Broken, Refused):
                pass
