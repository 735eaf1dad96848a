"""The binary encoding of the built-in types (IEC 62541-6, 5.2.2), and of lists (5.2.5).

`Writer` puts fields into bytes and `Reader` takes them out, one after the other. Each has a method for each built-in type, called as
the type is in small letters; `of_type` does it by the type's number.
"""
import functools
import struct
import uuid

from .errors import Broken
from .types import DataValue, Extension, LocalizedText, NodeId, NULL_EXTENSION, NULL_ID, NUMBERS, QualifiedName, TYPES, Variant, numbered

# The method for each built-in type, by the type's name.
METHODS = {
    'Boolean': 'boolean', 'SByte': 'sbyte', 'Byte': 'byte', 'Int16': 'int16', 'UInt16': 'uint16', 'Int32': 'int32', 'UInt32': 'uint32',
    'Int64': 'int64', 'UInt64': 'uint64', 'Float': 'float', 'Double': 'double', 'String': 'string', 'DateTime': 'date_time', 'Guid': 'guid',
    'ByteString': 'byte_string', 'XmlElement': 'string', 'NodeId': 'node_id', 'ExpandedNodeId': 'expanded_node_id', 'StatusCode': 'uint32',
    'QualifiedName': 'qualified_name', 'LocalizedText': 'localized_text', 'ExtensionObject': 'extension', 'DataValue': 'data_value',
    'Variant': 'variant', 'DiagnosticInfo': 'diagnostic_info',
}
DEEPEST = 100  # Variants and diagnostics within each other


def packing(form):
    pack = struct.Struct(form).pack

    def write(self, value):
        self.bytes += pack(value)
        return self
    return write


def unpacking(form):
    one = struct.Struct(form)

    def read(self):
        return one.unpack(self.take(one.size))[0]
    return read


@functools.lru_cache(maxsize=65536)
def node_id_bytes(node):
    """A NodeId in the shortest of its forms (5.2.2.9)."""
    namespace, kind, value = node
    if kind == 'i':
        if namespace == 0 and value < 1 << 8:
            return struct.pack('<BB', 0, value)
        if namespace < 1 << 8 and value < 1 << 16:
            return struct.pack('<BBH', 1, namespace, value)
        return struct.pack('<BHI', 2, namespace, value)
    if kind == 'g':
        return struct.pack('<BH', 4, namespace) + value.bytes_le
    data = value.encode() if kind == 's' else value
    return struct.pack('<BHI', 3 if kind == 's' else 5, namespace, len(data)) + data


class Writer:
    """The bytes of a message. Each method adds a field and gives the writer."""

    def __init__(self):
        self.bytes = bytearray()

    sbyte, byte, int16, uint16, int32, uint32, int64, uint64, float, double = (packing(form) for form in NUMBERS.values())
    date_time = int64

    def boolean(self, value):
        self.bytes.append(1 if value else 0)
        return self

    def byte_string(self, value):
        if value is None:
            return self.int32(-1)
        self.int32(len(value))
        self.bytes += value
        return self

    def string(self, value):
        return self.byte_string(None if value is None else value.encode())

    def guid(self, value):
        self.bytes += value.bytes_le
        return self

    def node_id(self, node):
        self.bytes += node_id_bytes(node)
        return self

    expanded_node_id = node_id

    def qualified_name(self, value):
        return self.uint16(value.namespace).string(value.name)

    def localized_text(self, value):
        self.byte((value.locale is not None) + 2 * (value.text is not None))
        for part in value:
            if part is not None:
                self.string(part)
        return self

    def extension(self, value):
        self.node_id(value.type).byte(value.body is not None)
        return self if value.body is None else self.byte_string(value.body)

    def diagnostic_info(self, value):
        return self.byte(0)  # nothing told

    def array(self, values, write):
        """A list whose elements `write` writes, or a null one."""
        if values is None:
            return self.int32(-1)
        self.int32(len(values))
        for value in values:
            write(self, value)
        return self

    def of_type(self, number, value):
        if number not in TYPES:
            raise ValueError(f'there is no built-in type {number}')
        return WRITES[number](self, value)

    def variant(self, value):
        kind, value = value
        if kind == 0:
            return self.byte(0)
        if isinstance(value, list):
            return self.byte(kind + 0x80).array(value, WRITES[kind])
        return self.byte(kind).of_type(kind, value)

    def data_value(self, value):
        kind, one, status, source, server = value
        self.byte((kind != 0) + 2 * (status != 0) + 4 * (source is not None) + 8 * (server is not None))
        if kind:
            self.variant((kind, one))
        if status:
            self.uint32(status)
        if source is not None:
            self.int64(source)
        if server is not None:
            self.int64(server)
        return self


class Reader:
    """Takes the fields of a message. Broken where they don't end within it, or are of a form that the standard doesn't have."""

    def __init__(self, data):
        self.data, self.place, self.depth = data, 0, 0

    def take(self, count):
        begin = self.place
        self.place = begin + count
        if self.place > len(self.data):
            raise Broken(f'a message of {len(self.data)} bytes ends within a field')
        return self.data[begin:self.place]

    sbyte, byte, int16, uint16, int32, uint32, int64, uint64, float, double = (unpacking(form) for form in NUMBERS.values())
    date_time = int64

    def boolean(self):
        return self.byte() != 0

    def byte_string(self):
        length = self.int32()
        return None if length < 0 else bytes(self.take(length))

    def string(self):
        value = self.byte_string()
        return None if value is None else value.decode(errors='replace')

    def array(self, read):
        """The elements of a list. A null one has none."""
        return [read() for _ in range(max(0, self.int32()))]

    def guid(self):
        return uuid.UUID(bytes_le=bytes(self.take(16)))

    def id_of_form(self, form):
        if form == 0:
            return numbered(self.byte())
        if form == 1:
            return NodeId(self.byte(), 'i', self.uint16())
        if form not in (2, 3, 4, 5):
            raise Broken(f'a node id of the unknown form {form}')
        namespace = self.uint16()
        if form == 2:
            return NodeId(namespace, 'i', self.uint32())
        if form == 3:
            return NodeId(namespace, 's', self.string() or '')
        if form == 4:
            return NodeId(namespace, 'g', self.guid())
        return NodeId(namespace, 'b', self.byte_string() or b'')

    def node_id(self):
        return self.id_of_form(self.byte())

    def expanded_node_id(self):
        """The id (5.2.2.10), without the URI and the server that it may name."""
        flags = self.byte()
        node = self.id_of_form(flags & 0x3F)
        if flags & 0x80:
            self.string()
        if flags & 0x40:
            self.uint32()
        return node

    def qualified_name(self):
        return QualifiedName(self.uint16(), self.string())

    def localized_text(self):
        flags = self.byte()
        return LocalizedText(self.string() if flags & 1 else None, self.string() if flags & 2 else None)

    def extension(self):
        node, form = self.node_id(), self.byte()
        return Extension(node, self.byte_string() if form in (1, 2) else None)

    def within(self, read):
        """What stands within another value, not too deep (5.1.10)."""
        self.depth += 1
        if self.depth > DEEPEST:
            raise Broken(f'values within each other more than {DEEPEST} deep')
        value = read()
        self.depth -= 1
        return value

    def diagnostic_info(self):
        """Passes over diagnostics (5.2.2.12)."""
        flags = self.byte()
        for bit in (1, 2, 4, 8):
            if flags & bit:
                self.int32()
        if flags & 0x10:
            self.string()
        if flags & 0x20:
            self.uint32()
        if flags & 0x40:
            self.within(self.diagnostic_info)

    def of_type(self, number):
        if number not in TYPES:
            raise Broken(f'a value of the unknown type {number}')
        return READS[number](self)

    def variant(self):
        flags = self.byte()
        kind = flags & 0x3F
        if kind == 0:
            return Variant(0, None)
        if not flags & 0x80:
            return Variant(kind, self.within(lambda: self.of_type(kind)))
        values = self.within(lambda: self.array(lambda: self.of_type(kind)))
        if flags & 0x40:
            self.array(self.int32)
        return Variant(kind, values)

    def data_value(self):
        flags = self.byte()
        kind, value = self.variant() if flags & 1 else (0, None)
        status = self.uint32() if flags & 2 else 0
        source = self.int64() if flags & 4 else None
        if flags & 0x10:
            self.uint16()
        server = self.int64() if flags & 8 else None
        if flags & 0x20:
            self.uint16()
        return DataValue(kind, value, status, source, server)


WRITES = {number: getattr(Writer, METHODS[name]) for number, name in TYPES.items()}
READS = {number: getattr(Reader, METHODS[name]) for number, name in TYPES.items()}
NULLS = {'NodeId': NULL_ID, 'ExpandedNodeId': NULL_ID, 'QualifiedName': QualifiedName(0, None), 'LocalizedText': LocalizedText(None, None),
         'ExtensionObject': NULL_EXTENSION, 'DataValue': DataValue(), 'Variant': Variant(0, None), 'String': None, 'ByteString': None,
         'Boolean': False}
