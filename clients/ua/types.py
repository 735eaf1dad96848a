"""The built-in types as Python has them (IEC 62541-6, 5.1 and 5.2.2).

Numbers, Booleans and Strings are Python's own; a Guid is a uuid.UUID, a ByteString bytes, a StatusCode an integer. A DateTime is an
integer too: steps of 100 ns since 1601-01-01 in UTC. A null String or ByteString is None, and a list is an array.
"""
import datetime
import re
import time
import uuid
from collections import namedtuple

# The built-in types by their number, which is that of their DataType node too (IEC 62541-6, 5.1.2).
TYPES = {
    1: 'Boolean', 2: 'SByte', 3: 'Byte', 4: 'Int16', 5: 'UInt16', 6: 'Int32', 7: 'UInt32', 8: 'Int64', 9: 'UInt64', 10: 'Float',
    11: 'Double', 12: 'String', 13: 'DateTime', 14: 'Guid', 15: 'ByteString', 16: 'XmlElement', 17: 'NodeId',
    18: 'ExpandedNodeId', 19: 'StatusCode', 20: 'QualifiedName', 21: 'LocalizedText', 22: 'ExtensionObject', 23: 'DataValue',
    24: 'Variant', 25: 'DiagnosticInfo',
}
NUMBERS = {2: '<b', 3: '<B', 4: '<h', 5: '<H', 6: '<i', 7: '<I', 8: '<q', 9: '<Q', 10: '<f', 11: '<d'}  # struct's forms
INTEGERS = range(2, 10)

# Attributes of nodes (IEC 62541-6, Annex A).
ATTRIBUTES = {
    1: 'NodeId', 2: 'NodeClass', 3: 'BrowseName', 4: 'DisplayName', 5: 'Description', 6: 'WriteMask', 7: 'UserWriteMask', 8: 'IsAbstract',
    9: 'Symmetric', 10: 'InverseName', 11: 'ContainsNoLoops', 12: 'EventNotifier', 13: 'Value', 14: 'DataType', 15: 'ValueRank',
    16: 'ArrayDimensions', 17: 'AccessLevel', 18: 'UserAccessLevel', 19: 'MinimumSamplingInterval', 20: 'Historizing', 21: 'Executable',
    22: 'UserExecutable',
}
VALUE, DATA_TYPE, VALUE_RANK, ACCESS_LEVEL, USER_ACCESS_LEVEL = 13, 14, 15, 17, 18
NODE_CLASSES = {1: 'Object', 2: 'Variable', 4: 'Method', 8: 'ObjectType', 16: 'VariableType', 32: 'ReferenceType', 64: 'DataType', 128: 'View'}


class NodeId(namedtuple('NodeId', 'namespace kind value')):
    """The id of a node (IEC 62541-3, 8.2). `kind` is i (a number), s (a String), g (a Guid) or b (bytes)."""
    __slots__ = ()

    def __str__(self):
        value = self.value.hex() if self.kind == 'b' else self.value
        front = f'ns={self.namespace};' if self.namespace else ''
        return f'{front}{self.kind}={value}'

    @staticmethod
    def of_text(text):
        """The id that a text as ns=1;i=11 names (IEC 62541-6, 5.3.1.10). ValueError for another."""
        found = re.fullmatch(r'(?:ns=(\d{1,5});)?([isgb])=(.*)', text, re.S | re.A)
        try:
            namespace, kind, value = int(found[1] or 0), found[2], found[3]
            if kind == 'i':
                value = int(value) if re.fullmatch(r'\d{1,10}', value, re.A) else -1
            elif kind == 'g':
                value = uuid.UUID(value)
            elif kind == 'b':
                value = bytes.fromhex(value)
            if namespace < 1 << 16 and (kind != 'i' or 0 <= value < 1 << 32):
                return NodeId(namespace, kind, value)
        except (TypeError, ValueError):
            pass
        hint = ': in a shell quote it, "ns=1;i=11", since ; ends a command' if re.fullmatch(r'ns=\d+', text) else ', as ns=1;i=11 is one'
        raise ValueError(f'{text!r} is no node id{hint}')


def numbered(number):
    """A node of the standard's own namespace."""
    return NodeId(0, 'i', number)


NULL_ID = numbered(0)


class QualifiedName(namedtuple('QualifiedName', 'namespace name')):
    """A name in a namespace (IEC 62541-3, 8.3)."""
    __slots__ = ()

    def __str__(self):
        return f'{self.namespace}:{self.name or ""}' if self.namespace else self.name or ''


class LocalizedText(namedtuple('LocalizedText', 'locale text')):
    """A text for people (IEC 62541-3, 8.5)."""
    __slots__ = ()

    def __str__(self):
        return self.text or ''


Variant = namedtuple('Variant', 'kind value')  # `kind` is the type's number, 0 for no value; a list is an array
Extension = namedtuple('Extension', 'type body')  # an ExtensionObject: the id of its encoding, and its bytes or None
NULL_EXTENSION = Extension(NULL_ID, None)


class DataValue(namedtuple('DataValue', 'kind value status source server', defaults=(0, None, 0, None, None))):
    """A value with its type, status and times (IEC 62541-4, clause 7, DataValue). A time is None where it isn't there."""
    __slots__ = ()

    @property
    def time(self):
        """The time of the source, else that of the server."""
        return self.server if self.source is None else self.source


# ---- times

FROM_1601_TO_1970 = 116_444_736_000_000_000
SECOND = 10_000_000  # steps


def now():
    return time.time_ns() // 100 + FROM_1601_TO_1970


def time_text(moment, digits=3):
    """A time in ISO 8601, with so many digits behind the second's point: 7 tell all of it."""
    if moment is None:
        return '-'
    try:
        when = datetime.datetime(1601, 1, 1) + datetime.timedelta(seconds=moment // SECOND)
    except OverflowError:
        return 'the end of time' if moment > 0 else 'the beginning of time'
    return f'{when.isoformat()}.{moment % SECOND:07}'[:20 + digits] + 'Z'


def time_of_text(text):
    """The time that a text in ISO 8601 names, in UTC where it names no zone: 2026-01-31, 2026-01-31T12:00:00.5Z. ValueError for another."""
    found = TIME.fullmatch(text.strip())
    if not found:
        raise ValueError(f'{text!r} is no time, as 2026-01-31T12:00:00 is one')
    year, month, day, hour, minute, second, fraction, sign, hours, minutes = found.groups()
    when = datetime.datetime(int(year), int(month), int(day), int(hour or 0), int(minute or 0), int(second or 0)) - datetime.datetime(1601, 1, 1)
    away = int(f'{sign}1') * (int(hours) * 60 + int(minutes)) * 60 if sign else 0
    return (when.days * 86400 + when.seconds - away) * SECOND + (int((fraction + '000000')[:7]) if fraction else 0)


TIME = re.compile(r'(\d{4})-(\d\d)-(\d\d)(?:[T ](\d\d):(\d\d)(?::(\d\d)(?:[.,](\d{1,9}))?)?)?(?:Z|([+-])(\d\d):?(\d\d))?', re.A)
