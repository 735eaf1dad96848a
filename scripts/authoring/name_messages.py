#!/usr/bin/env python3
"""Names the server's messages in a transcript of `worked_examples`: the words between a line's first ones and its bytes.

    python3 scripts/authoring/name_messages.py TRANSCRIPT..

Each TRANSCRIPT, as crates/worked_examples/stdout, is written anew where a name is missing or wrong, so whoever adds an
example writes the bytes by hand and lets this script add the names. It gets them from the bytes alone, by the standard
(IEC 62541-4 and -6) as clients/ua has it, and asks nothing of the Rust code, which has to print the same.

- `answer CONNECTION BODY` and `send CONNECTION FRAME` get the name of the message and its result; behind these, what a
  message of a subscription tells: `DataChangeNotification`, `StatusChangeNotification STATUS` or `keep-alive`.
- A frame that holds a part of a message is an `intermediate chunk`, a `final chunk` with the name of the whole message, or
  an `aborting chunk` with its error.
- `message TYPE RESULT` gets the two names of its bytes.
- A line whose bytes can't be read so stays as it is.

Nothing but Python's own library is needed.
"""
import os
import sys

sys.path.insert(0, os.path.join(os.path.dirname(os.path.realpath(__file__)), '..', '..', 'clients'))
from ua.encoding import Reader  # noqa: E402
from ua.errors import STATUS_NAMES, Broken  # noqa: E402
from ua.structures import MESSAGES, STRUCTURES  # noqa: E402
from ua.types import numbered  # noqa: E402

# Responses that the client doesn't ask for, by the ids of their binary encodings (IEC 62541-6, Annex A).
OTHERS = {
    'ModifyMonitoredItemsResponse': 766, 'SetMonitoringModeResponse': 772, 'SetTriggeringResponse': 778,
    'DeleteMonitoredItemsResponse': 784, 'ModifySubscriptionResponse': 796, 'SetPublishingModeResponse': 802,
}
RESPONSES = {number: name for name, number in {**MESSAGES, **OTHERS}.items() if name.endswith(('Response', 'Fault'))}
NOTIFICATIONS = {STRUCTURES[name].number: name for name in ('DataChangeNotification', 'StatusChangeNotification')}


class Nameless(Exception):
    """These bytes have no name."""


def status_name(code):
    if code & 0xFFFF or code >> 16 not in STATUS_NAMES:
        raise Nameless
    return STATUS_NAMES[code >> 16]


def response_name(number):
    if number not in RESPONSES:
        raise Nameless
    return RESPONSES[number]


def told(read):
    """What a NotificationMessage tells, in words."""
    read.uint32()
    read.date_time()
    words = []
    for kind, body in read.array(read.extension):
        name = NOTIFICATIONS.get(kind.value) if kind == numbered(kind.value) else None
        if name is None or body is None:
            raise Nameless
        words.append(name)
        if name == 'StatusChangeNotification':
            words.append(status_name(Reader(body).uint32()))
    return words or ['keep-alive']


def of_body(body):
    """The words for a response: its name, its result, and what it tells of a subscription."""
    read = Reader(body)
    number = read.node_id()
    if number != numbered(number.value):
        raise Nameless
    name = response_name(number.value)
    read.date_time()
    read.uint32()
    words = [name, status_name(read.uint32())]
    read.diagnostic_info()
    read.array(read.string)
    read.extension()
    if name == 'PublishResponse':
        read.uint32()
        read.array(read.uint32)
        read.boolean()
    if name in ('PublishResponse', 'RepublishResponse'):
        words += told(read)
    return words


class Frames:
    """The frames of a run, in their order: a message may have several."""

    def __init__(self):
        self.begun = b''

    def words(self, frame):
        letters, read = frame[:4], Reader(frame[8:])
        if letters == b'ACKF':
            return ['Acknowledge']
        if letters == b'ERRF':
            return ['Error', status_name(read.uint32())]
        if letters == b'OPNF':
            read.uint32()
            read.string()
            read.byte_string()
            read.byte_string()
            read.take(8)
            return of_body(read.data[read.place:])
        if letters[:3] != b'MSG':
            raise Nameless
        read.take(16)
        part = read.data[read.place:]
        begun, self.begun = self.begun, b''
        if letters == b'MSGC':
            self.begun = begun + part
            return ['intermediate', 'chunk']
        if letters == b'MSGA':
            return ['aborting', 'chunk', status_name(Reader(part).uint32())]
        if letters != b'MSGF':
            raise Nameless
        return ['final', 'chunk', *of_body(begun + part)] if begun else of_body(part)


def named(line, frames):
    """A line with the names that belong there."""
    words = line.split(' ')
    try:
        if words[0] == 'answer':
            front, back = words[:2], words[-1:]
            names = of_body(bytes.fromhex(back[0]))
        elif words[0] == 'send':
            front, back = words[:2], words[-1:]
            names = frames.words(bytes.fromhex(back[0]))
        elif words[0] == 'message':
            front, back = words[:1], words[-2:]
            number, result = (int.from_bytes(bytes.fromhex(digits), 'little') for digits in back)
            names = [response_name(number), status_name(result)]
        else:
            return line
    except (Nameless, Broken, ValueError):
        return line
    return ' '.join(front + names + back)


def main():
    if len(sys.argv) < 2:
        sys.exit(__doc__)
    for path in sys.argv[1:]:
        with open(path, encoding='utf-8') as file:
            lines = file.read().split('\n')
        frames, written = Frames(), []
        for line in lines:
            frames = Frames() if line.startswith('$ ') else frames
            written.append(named(line, frames))
        count = sum(line != other for line, other in zip(lines, written))
        with open(path, 'w', encoding='utf-8') as file:
            file.write('\n'.join(written))
        print(f'{path}: {count} lines named')


if __name__ == '__main__':
    main()
