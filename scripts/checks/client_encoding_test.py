#!/usr/bin/env python3
"""Compares what clients/ua writes and reads with bytes written by hand from IEC 62541-6.

    scripts/checks/client_encoding_test.py

The values of `BUILT_IN` that name a section are the standard's own examples there. The bytes of all others, and those of the messages,
were put down field by field from the tables of IEC 62541-4 and -6. No byte comes from the client or from the server. Each is written
and read; bytes that end early, or are of a form that the standard doesn't have, are refused by `Broken` and by nothing else.
"""
import os
import sys
import uuid

sys.path.insert(0, os.path.join(os.path.dirname(os.path.realpath(__file__)), '..', '..', 'clients'))
from ua.encoding import Reader, Writer  # noqa: E402
from ua.errors import Broken, status_code, status_name, value_status  # noqa: E402
from ua.structures import STRUCTURES, of_extension, extension  # noqa: E402
from ua.texts import escaped, of_json, parsed, value_text  # noqa: E402
from ua.types import DataValue, Extension, LocalizedText, NodeId, QualifiedName, TYPES, Variant, numbered, time_of_text, time_text  # noqa: E402

GUID = uuid.UUID('72962B91-FA75-4AE6-8D28-B404DC7DAF63')
KINDS = {name: kind for kind, name in TYPES.items()}

# Type, value, bytes.
BUILT_IN = [
    ('Boolean', True, '01'), ('Boolean', False, '00'),
    ('SByte', -2, 'FE'), ('Byte', 254, 'FE'), ('Int16', -2, 'FE FF'), ('UInt16', 0xABCD, 'CD AB'),
    ('Int32', 1_000_000_000, '00 CA 9A 3B'),  # 5.2.2.2
    ('UInt32', 0xFFFFFFFE, 'FE FF FF FF'), ('Int64', -2, 'FE FF FF FF FF FF FF FF'), ('UInt64', 2**63, '00 00 00 00 00 00 00 80'),
    ('Float', -6.5, '00 00 D0 C0'),  # 5.2.2.3
    ('Double', 1000.0, '00 00 00 00 00 40 8F 40'),
    ('String', '水Boy', '06 00 00 00 E6 B0 B4 42 6F 79'),  # 5.2.2.4
    ('String', None, 'FF FF FF FF'), ('String', '', '00 00 00 00'),
    ('DateTime', 0x01D8_0000_0000_0001, '01 00 00 00 00 00 D8 01'),  # 5.2.2.5: an Int64
    ('Guid', GUID, '91 2B 96 72 75 FA E6 4A 8D 28 B4 04 DC 7D AF 63'),  # 5.2.2.6
    ('ByteString', b'\x01\xff', '02 00 00 00 01 FF'), ('ByteString', None, 'FF FF FF FF'),
    ('XmlElement', '<A>Hot水</A>', '0D 00 00 00 3C 41 3E 48 6F 74 E6 B0 B4 3C 2F 41 3E'),  # 5.2.2.8
    ('NodeId', NodeId(1, 's', 'Hot水'), '03 01 00 06 00 00 00 48 6F 74 E6 B0 B4'),  # 5.2.2.9, String
    ('NodeId', numbered(72), '00 48'),  # 5.2.2.9, two bytes
    ('NodeId', NodeId(5, 'i', 1025), '01 05 01 04'),  # 5.2.2.9, four bytes
    ('NodeId', NodeId(0, 'i', 256), '01 00 00 01'), ('NodeId', NodeId(256, 'i', 1), '02 00 01 01 00 00 00'),
    ('NodeId', NodeId(1, 'i', 65536), '02 01 00 00 00 01 00'), ('NodeId', NodeId(0, 'i', 0), '00 00'),
    ('NodeId', NodeId(2, 'g', GUID), '04 02 00 91 2B 96 72 75 FA E6 4A 8D 28 B4 04 DC 7D AF 63'),
    ('NodeId', NodeId(3, 'b', b'\xab'), '05 03 00 01 00 00 00 AB'),
    ('ExpandedNodeId', numbered(85), '00 55'),
    ('StatusCode', 0x80340000, '00 00 34 80'),
    ('QualifiedName', QualifiedName(1, 'Count'), '01 00 05 00 00 00 43 6F 75 6E 74'),
    ('LocalizedText', LocalizedText(None, 'Hi'), '02 02 00 00 00 48 69'),
    ('LocalizedText', LocalizedText('en', 'Hi'), '03 02 00 00 00 65 6E 02 00 00 00 48 69'), ('LocalizedText', LocalizedText(None, None), '00'),
    ('ExtensionObject', Extension(numbered(321), b'\x00\x00\x00\x00'), '01 00 41 01 01 04 00 00 00 00 00 00 00'),
    ('ExtensionObject', Extension(numbered(0), None), '00 00 00'),
    ('DataValue', DataValue(5, 7), '01 05 07 00'),
    ('DataValue', DataValue(5, 7, 0x40900000, 1, 2), '0F 05 07 00 00 00 90 40 01 00 00 00 00 00 00 00 02 00 00 00 00 00 00 00'),
    ('DataValue', DataValue(0, None, 0x80340000), '02 00 00 34 80'),
    ('Variant', Variant(6, 1), '06 01 00 00 00'), ('Variant', Variant(0, None), '00'),
    ('Variant', Variant(5, [1, 2]), '85 02 00 00 00 01 00 02 00'), ('Variant', Variant(12, []), '8C 00 00 00 00'),
    ('Variant', Variant(24, [Variant(1, True)]), '98 01 00 00 00 01 01'),
]

# Bytes that this client only reads.
READ_ALONE = [
    ('ExpandedNodeId', numbered(85), 'C0 55 02 00 00 00 75 3A 07 00 00 00'),  # with a URI and a server
    ('NodeId', numbered(85), '02 00 00 55 00 00 00'),  # in a longer form than it needs
    ('DataValue', DataValue(1, True, 0, 3, 4), '3D 01 01 03 00 00 00 00 00 00 00 0A 00 04 00 00 00 00 00 00 00 0B 00'),  # with picoseconds
    ('Variant', Variant(3, [1, 2, 3, 4]), 'C3 04 00 00 00 01 02 03 04 02 00 00 00 02 00 00 00 02 00 00 00'),  # two by two
    ('DiagnosticInfo', None, '7F 01 00 00 00 02 00 00 00 03 00 00 00 04 00 00 00 01 00 00 00 41 00 00 34 80 00'),
    ('Variant', Variant(5, []), '85 FF FF FF FF'),  # a null list
]

TIME = '00 80 3E D5 DE B1 9D 01'  # 1970-01-01: 116444736000000000 steps
WHEN = 116_444_736_000_000_000
ID = '01 01 0B 00'  # ns=1;i=11
NODE = NodeId(1, 'i', 11)
VALUE_ID = f'{ID} 0D 00 00 00 FF FF FF FF 00 00 FF FF FF FF'  # its Value: no range, no encoding

# Structure, fields, bytes: written and read.
STRUCTURED = [
    ('RequestHeader', {'token': numbered(9), 'time': WHEN, 'handle': 1, 'diagnostics': 0, 'audit': None, 'timeout': 10000,
                       'more': Extension(numbered(0), None)}, f'00 09 {TIME} 01 00 00 00 00 00 00 00 FF FF FF FF 10 27 00 00 00 00 00'),
    ('OpenSecureChannelRequest', {'version': 0, 'kind': 1, 'mode': 1, 'nonce': None, 'lifetime': 3600000},
     '00 00 00 00 01 00 00 00 01 00 00 00 FF FF FF FF 80 EE 36 00'),
    ('OpenSecureChannelResponse', {'version': 0, 'channel': 1, 'token': 2, 'created': WHEN, 'lifetime': 3600000, 'nonce': b'\x01'},
     f'00 00 00 00 01 00 00 00 02 00 00 00 {TIME} 80 EE 36 00 01 00 00 00 01'),
    ('AnonymousIdentityToken', {'policy': 'a'}, '01 00 00 00 61'),
    ('CloseSessionRequest', {'delete': True}, '01'),
    ('ReadValueId', {'node': NODE, 'attribute': 13, 'range': None, 'encoding': QualifiedName(0, None)}, VALUE_ID),
    ('ReadResponse', {'results': [DataValue(5, 7), DataValue(0, None, 0x80340000)], 'diagnostics': []},
     '02 00 00 00 01 05 07 00 02 00 00 34 80 00 00 00 00'),
    ('WriteValue', {'node': NODE, 'attribute': 13, 'range': '0:1', 'value': DataValue(5, [7, 8], 0, WHEN)},
     f'{ID} 0D 00 00 00 03 00 00 00 30 3A 31 05 85 02 00 00 00 07 00 08 00 {TIME}'),
    ('WriteResponse', {'results': [0, 0x80740000], 'diagnostics': []}, '02 00 00 00 00 00 00 00 00 00 74 80 00 00 00 00'),
    ('BrowseDescription', {'node': numbered(85), 'direction': 0, 'type': numbered(33), 'subtypes': True, 'classes': 0, 'results': 63},
     '00 55 00 00 00 00 00 21 01 00 00 00 00 3F 00 00 00'),
    ('ReferenceDescription', {'type': numbered(47), 'is_forward': True, 'node': NODE, 'browse_name': QualifiedName(1, 'C'),
                              'display_name': LocalizedText(None, 'C'), 'node_class': 2, 'definition': numbered(63)},
     f'00 2F 01 {ID} 01 00 01 00 00 00 43 02 01 00 00 00 43 02 00 00 00 00 3F'),
    ('BrowseNextRequest', {'release': False, 'entries': [b'\x01\x02']}, '00 01 00 00 00 02 00 00 00 01 02'),
    ('ReadRawModifiedDetails', {'modified': False, 'start': WHEN, 'end': 0, 'most': 10, 'bounds': False},
     f'00 {TIME} 00 00 00 00 00 00 00 00 0A 00 00 00 00'),
    ('HistoryReadResult', {'status': 0, 'point': None, 'data': Extension(numbered(658), b'\x00\x00\x00\x00')},
     '00 00 00 00 FF FF FF FF 01 00 92 02 01 04 00 00 00 00 00 00 00'),
    ('CreateSubscriptionRequest', {'interval': 1000.0, 'lifetime': 60, 'keep_alive': 10, 'most': 0, 'enabled': True, 'priority': 0},
     '00 00 00 00 00 40 8F 40 3C 00 00 00 0A 00 00 00 00 00 00 00 01 00'),
    ('CreateSubscriptionResponse', {'subscription': 1, 'interval': 1000.0, 'lifetime': 60, 'keep_alive': 10},
     '01 00 00 00 00 00 00 00 00 40 8F 40 3C 00 00 00 0A 00 00 00'),
    ('DataChangeFilter', {'trigger': 2, 'deadband': 0, 'amount': 0.0}, '02 00 00 00 00 00 00 00 00 00 00 00 00 00 00 00'),
    ('MonitoringParameters', {'handle': 5, 'sampling': 0.0, 'filter': Extension(numbered(0), None), 'queue': 10, 'discard_oldest': True},
     '05 00 00 00 00 00 00 00 00 00 00 00 00 00 00 0A 00 00 00 01'),
    ('MonitoredItemCreateResult', {'status': 0, 'item': 3, 'sampling': 0.0, 'queue': 10, 'filter': Extension(numbered(0), None)},
     '00 00 00 00 03 00 00 00 00 00 00 00 00 00 00 00 0A 00 00 00 00 00 00'),
    ('RepublishRequest', {'subscription': 1, 'number': 4}, '01 00 00 00 04 00 00 00'),
    ('DeleteSubscriptionsRequest', {'entries': [1]}, '01 00 00 00 01 00 00 00'),
]

# Messages that hold further structures: bytes, and what is to be found in them.
PUBLISHED = ('01 00 00 00 02 00 00 00 04 00 00 00 05 00 00 00 00 05 00 00 00 ' + TIME + ' 01 00 00 00 01 00 2B 03 01 14 00 00 00 '
             '01 00 00 00 01 00 00 00 03 05 07 00 80 04 00 00 FF FF FF FF 00 00 00 00 00 00 00 00')
ENDPOINTS = ('01 00 00 00 01 00 00 00 75 01 00 00 00 61 01 00 00 00 62 02 01 00 00 00 63 00 00 00 00 FF FF FF FF FF FF FF FF 00 00 00 00 '
             'FF FF FF FF 01 00 00 00 01 00 00 00 70 01 00 00 00 01 00 00 00 6E 00 00 00 00 FF FF FF FF FF FF FF FF FF FF FF FF '
             '01 00 00 00 74 00')


def data_of(text):
    return bytes.fromhex(text.replace(' ', ''))


def shown(data):
    return bytes(data).hex(' ')


def same(what, came, wanted):
    assert came == wanted, f'{what}: {came!r} came, and not {wanted!r}'


def built_in():
    for name, value, text in BUILT_IN:
        same(f'{name} {value!r} written', shown(Writer().of_type(KINDS[name], value).bytes), shown(data_of(text)))
    for name, value, text in BUILT_IN + READ_ALONE:
        read = Reader(data_of(text))
        same(f'{name} read of {text}', read.of_type(KINDS[name]), value)
        same(f'the end of {name} {text}', read.place, len(read.data))


def structures():
    for name, fields, text in STRUCTURED:
        one = STRUCTURES[name]
        same(f'{name} written', shown(one.write(Writer(), fields).bytes), shown(data_of(text)))
        read = Reader(data_of(text))
        same(f'{name} read', vars(one.read(read)), fields)
        same(f'the end of {name}', read.place, len(read.data))
    same('a field left out', shown(STRUCTURES['ReadValueId'].write(Writer(), {'node': NODE, 'attribute': 13}).bytes), shown(data_of(VALUE_ID)))
    try:
        STRUCTURES['ReadValueId'].write(Writer(), {'nodes': NODE})
    except TypeError:
        pass
    else:
        raise AssertionError('a field that there is not was taken')


def messages():
    came = STRUCTURES['PublishResponse'].read(Reader(data_of(PUBLISHED)))
    same('available', came.available, [4, 5])
    name, told = of_extension(came.message.notifications[0])
    same('the notification', (name, told.items[0].item, told.items[0].value), ('DataChangeNotification', 1, DataValue(5, 7, 0x480)))
    same('its status', value_status(0x480), 'Good, values before it were lost')
    read = Reader(data_of(ENDPOINTS))
    one = STRUCTURES['GetEndpointsResponse'].read(read).endpoints[0]
    same('the endpoint', (one.url, one.server.uri, str(one.server.name), one.mode, one.policy, one.users[0].policy, one.users[0].kind, one.transport),
         ('u', 'a', 'c', 1, 'p', 'n', 0, 't'))
    same('the end of it', read.place, len(read.data))
    same('an identity', shown(Writer().extension(extension('AnonymousIdentityToken', policy=None)).bytes), shown(data_of('01 00 41 01 01 04 00 00 00 FF FF FF FF')))


def refused(text, read):
    try:
        read(Reader(data_of(text)))
    except Broken:
        return
    raise AssertionError(f'{text} was read')


def cut_off():
    """Every beginning of good bytes, and bytes that are none, are refused."""
    for name, _, text in BUILT_IN + READ_ALONE:
        data = data_of(text)
        for length in range(len(data)):
            refused(data[:length].hex(), lambda read: read.of_type(KINDS[name]))
    for data in map(data_of, (PUBLISHED, ENDPOINTS)):
        name = 'PublishResponse' if data == data_of(PUBLISHED) else 'GetEndpointsResponse'
        for length in range(len(data)):
            refused(data[:length].hex(), STRUCTURES[name].read)
    refused('06 00 00', Reader.node_id)
    refused('1A 00', Reader.variant)
    refused('98 01 00 00 00' * 200 + '00', Reader.variant)
    refused('40' * 200 + '00', Reader.diagnostic_info)


def texts():
    """Ids, times, statuses and values as people write them."""
    for text in ('i=85', 'ns=1;i=11', 'ns=2;s=Mixer 3', 's=a=b;c', 'ns=65535;i=4294967295', 'b=00ff', f'g={GUID}'):
        same(text, str(NodeId.of_text(text)), text)
    for text in ('', 'ns=1', 'i=', 'i=-1', 'i=4294967296', 'ns=65536;i=1', 'ns=-1;i=1', 'i=1_0', 'x=1', 'b=0', 'g=1', 'i=²'):
        try:
            NodeId.of_text(text)
        except ValueError:
            continue
        raise AssertionError(f'{text} is an id')
    assert 'quote it' in str(error_of(NodeId.of_text, 'ns=1'))
    same('a time', time_of_text('1970-01-01T00:00:00.0000001Z'), WHEN + 1)
    same('a day', time_of_text('1970-01-02'), WHEN + 864_000_000_000)
    same('a zone', time_of_text('1970-01-01T02:00+02:00'), WHEN)
    same('a time in words', time_text(WHEN + 12_345_678, 7), '1970-01-01T00:00:01.2345678Z')
    same('a time in short', time_text(WHEN), '1970-01-01T00:00:00.000Z')
    for text in ('now', '1970-13-01', '1970-01-01T25:00', '12:00'):
        error_of(time_of_text, text)
    for text in ('Bad_OutOfRange', 'BadOutOfRange', '803C0000', '0x803c0000'):
        same(text, status_code(text), 0x803C0000)
    same('a name', status_name(0x803C0000), 'Bad_OutOfRange')
    error_of(status_code, 'Bad_Weather')
    same('a text that rings', escaped('a\x1b[31m\n\x7f\u202e水'), 'a\\u001b[31m\\n\\u007f\\u202e水')
    same('quoted', value_text(12, 'a"\\'), '"a\\"\\\\"')
    for kind, text, value in ((1, 'true', True), (3, '255', 255), (14, str(GUID), GUID), (15, '00ff', b'\x00\xff'), (19, 'Bad', 0x80000000)):
        same(text, parsed(kind, text), value)
    for kind, text in ((1, '1'), (3, '256'), (3, '-1'), (6, '1.5'), (6, ''), (10, '1e99'), (13, 'x'), (15, 'x'), (22, 'x')):
        error_of(parsed, kind, text)
    same('a list', of_json(5, [1, 2]), [1, 2])
    same('a flag', of_json(1, True), True)
    same('a whole number', of_json(6, 3.0), 3)
    for kind, value in ((6, True), (6, 1.5), (6, None), (6, {}), (1, 1)):
        error_of(of_json, kind, value)


def error_of(function, *arguments):
    try:
        function(*arguments)
    except ValueError as error:
        return error
    raise AssertionError(f'{arguments} was taken')


def main():
    for test in (built_in, structures, messages, cut_off, texts):
        test()
        print(f'ok {test.__name__}', flush=True)


if __name__ == '__main__':
    main()
