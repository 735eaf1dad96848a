"""Values as texts and as JSON, both ways: what the clients print and take."""
import json
import math
import struct
import uuid

from .errors import status_code, status_name, value_status
from .types import INTEGERS, NUMBERS, TYPES, LocalizedText, NodeId, QualifiedName, time_of_text, time_text

TEXTS = (12, 16, 20, 21)  # String, XmlElement, QualifiedName, LocalizedText


def escaped(text):
    """A text in which nothing moves the cursor, rings or hides: what can't be printed is escaped as in JSON."""
    if text.isprintable():
        return text
    return ''.join(one if one.isprintable() else json.dumps(one)[1:-1] for one in text)


def quoted(text):
    return '"' + escaped(text.replace('\\', '\\\\').replace('"', '\\"')) + '"'


def value_text(kind, value):
    """A value for people."""
    if isinstance(value, list):
        return '[' + ', '.join(value_text(kind, one) for one in value) + ']'
    if kind == 1:
        return 'true' if value else 'false'
    if kind == 13:
        return time_text(value)
    if kind == 15:
        return 'null' if value is None else value.hex() or '""'
    if kind in TEXTS:
        return 'null' if value is None else quoted(str(value))
    if kind == 19:
        return status_name(value)
    if kind == 22:
        return f'structure {escaped(str(value.type))}'
    if kind == 23:
        return f'{typed_text(value)} {value_status(value.status)}'
    if kind == 24:
        return value_text(*value)
    return escaped(str(value))


def typed_text(value):
    """The type and the value of a DataValue for people."""
    return f'{TYPES.get(value.kind, value.kind)} {value_text(value.kind, value.value)}' if value.kind else '-'


def value_line(node, value):
    """A DataValue in one line."""
    return f'{time_text(value.time)} {escaped(str(node))} {typed_text(value)} {value_status(value.status)}'


def json_value(kind, value):
    """A value as JSON has it: numbers, true and false, texts and lists; all else as `parsed` reads it."""
    if isinstance(value, list):
        return [json_value(kind, one) for one in value]
    if value is None or kind in INTEGERS or kind in (1, 12, 16):
        return value
    if kind in (10, 11):
        return value if math.isfinite(value) else str(value)
    if kind == 13:
        return time_text(value, 7)
    if kind == 15:
        return value.hex()
    if kind in (22, 23, 24):
        return value_text(kind, value)
    return status_name(value) if kind == 19 else str(value)


def parsed(kind, text):
    """The value of a built-in type that a text names. ValueError where it names none."""
    try:
        if kind == 1:
            return {'true': True, 'false': False}[text.lower()]
        if kind in INTEGERS:
            value = int(text)
            struct.pack(NUMBERS[kind], value)
            return value
        if kind in (10, 11):
            value = float(text)
            struct.pack(NUMBERS[kind], value)
            return value
        if kind == 13:
            return time_of_text(text)
        if kind == 14:
            return uuid.UUID(text)
        if kind == 15:
            return bytes.fromhex(text)
        if kind == 17:
            return NodeId.of_text(text)
        if kind == 19:
            return status_code(text)
    except (KeyError, ValueError, OverflowError, struct.error):
        raise ValueError(f'{text!r} is no {TYPES[kind]}') from None
    if kind in TEXTS:
        text.encode()  # a text that isn't Unicode can't be sent
        return {20: QualifiedName(0, text), 21: LocalizedText(None, text)}.get(kind, text)
    raise ValueError(f'this client writes no {TYPES.get(kind, kind)}')


def of_json(kind, value):
    """The value of a built-in type that JSON has: a list for a list, and else what `json_value` makes of it. ValueError for another."""
    if isinstance(value, list):
        return [of_json(kind, one) for one in value]
    if isinstance(value, bool):
        value = 'true' if value else 'false'
    if isinstance(value, float) and value.is_integer() and kind in INTEGERS:
        value = int(value)
    if value is None or isinstance(value, dict):
        raise ValueError(f'{json.dumps(value)} is no {TYPES[kind]}')
    return parsed(kind, value if isinstance(value, str) else repr(value))
