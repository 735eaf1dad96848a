//! The encoding of three lists, written by hand in plain Rust: what the benchmark `encoding` of `library_examples` is
//! compared with (docs/PERFORMANCE.md).
//!
//! It has the same types and checks, and the same lists. Build it with `rustc --edition 2021 -O encoding_by_hand.rs`, and
//! run it by turns with `rt run -- benchmark encoding 5000` in crates/library_examples.

use std::hint::black_box;
use std::time::Instant;

const ELEMENTS: u32 = 1000;
const ROUNDS: u32 = 5000;

#[derive(Debug)]
pub enum Fault {
    Short,
    Form,
    Kind,
    Memory,
}

pub struct Cursor<'a> {
    rest: &'a [u8],
}

impl<'a> Cursor<'a> {
    fn bytes(&mut self, count: usize) -> Result<&'a [u8], Fault> {
        if count > self.rest.len() {
            return Err(Fault::Short);
        }
        let (bytes, rest) = self.rest.split_at(count);
        self.rest = rest;
        Ok(bytes)
    }

    fn sized<const N: usize>(&mut self) -> Result<[u8; N], Fault> {
        Ok(self.bytes(N)?.try_into().unwrap())
    }
}

pub trait Wire: Sized {
    fn decode(cursor: &mut Cursor<'_>) -> Result<Self, Fault>;

    fn encode(&self, out: &mut Vec<u8>);
}

macro_rules! numbers {
    ($($number:ty)*) => {$(
        impl Wire for $number {
            fn decode(cursor: &mut Cursor<'_>) -> Result<Self, Fault> {
                Ok(<$number>::from_le_bytes(cursor.sized()?))
            }

            fn encode(&self, out: &mut Vec<u8>) {
                out.extend_from_slice(&self.to_le_bytes())
            }
        }
    )*};
}

numbers!(u8 i8 u16 i16 u32 i32 u64 i64);

impl Wire for bool {
    fn decode(cursor: &mut Cursor<'_>) -> Result<Self, Fault> {
        Ok(u8::decode(cursor)? != 0)
    }

    fn encode(&self, out: &mut Vec<u8>) {
        out.push(*self as u8)
    }
}

/// Floats and doubles are bytes, and so are Guids.
pub struct Raw<const N: usize>(pub [u8; N]);

impl<const N: usize> Wire for Raw<N> {
    fn decode(cursor: &mut Cursor<'_>) -> Result<Self, Fault> {
        Ok(Raw(cursor.sized()?))
    }

    fn encode(&self, out: &mut Vec<u8>) {
        out.extend_from_slice(&self.0)
    }
}

pub struct Moment(pub i64);
pub struct Status(pub u32);
pub struct Text(pub Option<String>);
pub struct ByteString(pub Option<Vec<u8>>);

impl Wire for Moment {
    fn decode(cursor: &mut Cursor<'_>) -> Result<Self, Fault> {
        Ok(Moment(i64::decode(cursor)?))
    }

    fn encode(&self, out: &mut Vec<u8>) {
        self.0.encode(out)
    }
}

impl Wire for Status {
    fn decode(cursor: &mut Cursor<'_>) -> Result<Self, Fault> {
        Ok(Status(u32::decode(cursor)?))
    }

    fn encode(&self, out: &mut Vec<u8>) {
        self.0.encode(out)
    }
}

/// A length, where there is one. What is claimed is there.
fn length(cursor: &mut Cursor<'_>) -> Result<Option<usize>, Fault> {
    match i32::decode(cursor)? {
        -1 => Ok(None),
        length if length < 0 => Err(Fault::Form),
        length if length as usize > cursor.rest.len() => Err(Fault::Short),
        length => Ok(Some(length as usize)),
    }
}

fn encode_bytes(bytes: Option<&[u8]>, out: &mut Vec<u8>) {
    match bytes {
        None => (-1i32).encode(out),
        Some(bytes) => {
            (bytes.len() as i32).encode(out);
            out.extend_from_slice(bytes)
        }
    }
}

impl Wire for Text {
    fn decode(cursor: &mut Cursor<'_>) -> Result<Self, Fault> {
        let Some(length) = length(cursor)? else {
            return Ok(Text(None));
        };
        let text = std::str::from_utf8(cursor.bytes(length)?).map_err(|_| Fault::Form)?;
        Ok(Text(Some(text.to_owned())))
    }

    fn encode(&self, out: &mut Vec<u8>) {
        encode_bytes(self.0.as_ref().map(|text| text.as_bytes()), out)
    }
}

impl Wire for ByteString {
    fn decode(cursor: &mut Cursor<'_>) -> Result<Self, Fault> {
        let Some(length) = length(cursor)? else {
            return Ok(ByteString(None));
        };
        Ok(ByteString(Some(cursor.bytes(length)?.to_vec())))
    }

    fn encode(&self, out: &mut Vec<u8>) {
        encode_bytes(self.0.as_deref(), out)
    }
}

impl<T: Wire> Wire for Option<Vec<T>> {
    fn decode(cursor: &mut Cursor<'_>) -> Result<Self, Fault> {
        let Some(length) = length(cursor)? else {
            return Ok(None);
        };
        let mut elements = Vec::new();
        elements
            .try_reserve_exact(length)
            .map_err(|_| Fault::Memory)?;
        for _ in 0..length {
            elements.push(T::decode(cursor)?);
        }
        Ok(Some(elements))
    }

    fn encode(&self, out: &mut Vec<u8>) {
        match self {
            None => (-1i32).encode(out),
            Some(elements) => {
                (elements.len() as i32).encode(out);
                for element in elements {
                    element.encode(out)
                }
            }
        }
    }
}

pub enum Identifier {
    Numeric(u32),
    String(Text),
    Guid(Raw<16>),
    Opaque(ByteString),
}

pub struct NodeId {
    pub namespace: u16,
    pub identifier: Identifier,
}

fn decode_id(form: u8, cursor: &mut Cursor<'_>) -> Result<NodeId, Fault> {
    let namespace = match form {
        0 => 0,
        1 => u8::decode(cursor)? as u16,
        _ => u16::decode(cursor)?,
    };
    let identifier = match form {
        0 => Identifier::Numeric(u8::decode(cursor)? as u32),
        1 => Identifier::Numeric(u16::decode(cursor)? as u32),
        2 => Identifier::Numeric(u32::decode(cursor)?),
        3 => Identifier::String(Text::decode(cursor)?),
        4 => Identifier::Guid(Raw::decode(cursor)?),
        5 => Identifier::Opaque(ByteString::decode(cursor)?),
        _ => return Err(Fault::Kind),
    };
    Ok(NodeId {
        namespace,
        identifier,
    })
}

fn encode_id(flags: u8, id: &NodeId, out: &mut Vec<u8>) {
    match &id.identifier {
        Identifier::Numeric(number) if id.namespace == 0 && *number < 256 => {
            out.push(flags);
            out.push(*number as u8)
        }
        Identifier::Numeric(number) if id.namespace < 256 && *number < 65536 => {
            out.push(flags | 1);
            out.push(id.namespace as u8);
            (*number as u16).encode(out)
        }
        Identifier::Numeric(number) => {
            out.push(flags | 2);
            id.namespace.encode(out);
            number.encode(out)
        }
        Identifier::String(text) => {
            out.push(flags | 3);
            id.namespace.encode(out);
            text.encode(out)
        }
        Identifier::Guid(guid) => {
            out.push(flags | 4);
            id.namespace.encode(out);
            guid.encode(out)
        }
        Identifier::Opaque(bytes) => {
            out.push(flags | 5);
            id.namespace.encode(out);
            bytes.encode(out)
        }
    }
}

impl Wire for NodeId {
    fn decode(cursor: &mut Cursor<'_>) -> Result<Self, Fault> {
        let form = u8::decode(cursor)?;
        decode_id(form, cursor)
    }

    fn encode(&self, out: &mut Vec<u8>) {
        encode_id(0, self, out)
    }
}

pub struct ExpandedNodeId {
    pub node_id: NodeId,
    pub namespace_uri: Text,
    pub server_index: u32,
}

impl Wire for ExpandedNodeId {
    fn decode(cursor: &mut Cursor<'_>) -> Result<Self, Fault> {
        let first = u8::decode(cursor)?;
        let node_id = decode_id(first & 0x3f, cursor)?;
        let namespace_uri = if first & 0x80 != 0 {
            Text::decode(cursor)?
        } else {
            Text(None)
        };
        let server_index = if first & 0x40 != 0 {
            u32::decode(cursor)?
        } else {
            0
        };
        Ok(ExpandedNodeId {
            node_id,
            namespace_uri,
            server_index,
        })
    }

    fn encode(&self, out: &mut Vec<u8>) {
        let has_uri = self.namespace_uri.0.is_some();
        let has_server = self.server_index != 0;
        encode_id(
            (has_uri as u8) << 7 | (has_server as u8) << 6,
            &self.node_id,
            out,
        );
        if has_uri {
            self.namespace_uri.encode(out)
        }
        if has_server {
            self.server_index.encode(out)
        }
    }
}

pub struct QualifiedName {
    pub namespace: u16,
    pub name: Text,
}

impl Wire for QualifiedName {
    fn decode(cursor: &mut Cursor<'_>) -> Result<Self, Fault> {
        Ok(QualifiedName {
            namespace: u16::decode(cursor)?,
            name: Text::decode(cursor)?,
        })
    }

    fn encode(&self, out: &mut Vec<u8>) {
        self.namespace.encode(out);
        self.name.encode(out)
    }
}

pub struct LocalizedText {
    pub locale: Text,
    pub text: Text,
}

impl Wire for LocalizedText {
    fn decode(cursor: &mut Cursor<'_>) -> Result<Self, Fault> {
        let mask = u8::decode(cursor)?;
        if mask > 3 {
            return Err(Fault::Form);
        }
        let locale = if mask & 1 != 0 {
            Text::decode(cursor)?
        } else {
            Text(None)
        };
        let text = if mask & 2 != 0 {
            Text::decode(cursor)?
        } else {
            Text(None)
        };
        Ok(LocalizedText { locale, text })
    }

    fn encode(&self, out: &mut Vec<u8>) {
        out.push(self.locale.0.is_some() as u8 | (self.text.0.is_some() as u8) << 1);
        for text in [&self.locale, &self.text] {
            if text.0.is_some() {
                text.encode(out)
            }
        }
    }
}

pub enum ExtensionObjectBody {
    None,
    Binary(ByteString),
    Xml(ByteString),
}

pub struct ExtensionObject {
    type_id: NodeId,
    body: ExtensionObjectBody,
}

impl Wire for ExtensionObject {
    fn decode(cursor: &mut Cursor<'_>) -> Result<Self, Fault> {
        let type_id = NodeId::decode(cursor)?;
        let body = match u8::decode(cursor)? {
            0 => ExtensionObjectBody::None,
            1 => ExtensionObjectBody::Binary(ByteString::decode(cursor)?),
            2 => ExtensionObjectBody::Xml(ByteString::decode(cursor)?),
            _ => return Err(Fault::Kind),
        };
        Ok(ExtensionObject { type_id, body })
    }

    fn encode(&self, out: &mut Vec<u8>) {
        self.type_id.encode(out);
        match &self.body {
            ExtensionObjectBody::None => out.push(0),
            ExtensionObjectBody::Binary(bytes) => {
                out.push(1);
                bytes.encode(out)
            }
            ExtensionObjectBody::Xml(bytes) => {
                out.push(2);
                bytes.encode(out)
            }
        }
    }
}

pub struct Matrix<T> {
    elements: Option<Vec<T>>,
    dimensions: Option<Vec<u32>>,
}

pub enum Content<T> {
    Scalar(T),
    Array(Option<Vec<T>>),
    Matrix(Box<Matrix<T>>),
}

fn decode_content<T: Wire>(flags: u8, cursor: &mut Cursor<'_>) -> Result<Content<T>, Fault> {
    match flags {
        0 => Ok(Content::Scalar(T::decode(cursor)?)),
        2 => Ok(Content::Array(Wire::decode(cursor)?)),
        3 => {
            let elements: Option<Vec<T>> = Wire::decode(cursor)?;
            let dimensions: Option<Vec<u32>> = Wire::decode(cursor)?;
            let product = |size: u64, next: &u32| size.saturating_mul(*next as u64);
            let size = dimensions.iter().flatten().fold(1, product);
            if size
                != elements
                    .as_ref()
                    .map_or(0, |elements| elements.len() as u64)
            {
                return Err(Fault::Form);
            }
            Ok(Content::Matrix(Box::new(Matrix {
                elements,
                dimensions,
            })))
        }
        _ => Err(Fault::Form),
    }
}

fn encode_content<T: Wire>(number: u8, content: &Content<T>, out: &mut Vec<u8>) {
    match content {
        Content::Scalar(value) => {
            out.push(number);
            value.encode(out)
        }
        Content::Array(elements) => {
            out.push(number | 128);
            elements.encode(out)
        }
        Content::Matrix(matrix) => {
            out.push(number | 192);
            matrix.elements.encode(out);
            matrix.dimensions.encode(out)
        }
    }
}

macro_rules! variants {
    ($($number:literal $name:ident $value:ty,)* in boxes $($large:literal $large_name:ident $large_value:ty,)*) => {
        pub enum Variant {
            Null,
            $($name(Content<$value>),)*
            $($large_name(Box<Content<$large_value>>),)*
        }

        impl Wire for Variant {
            fn decode(cursor: &mut Cursor<'_>) -> Result<Self, Fault> {
                let first = u8::decode(cursor)?;
                let flags = first >> 6;
                match first & 63 {
                    0 if flags == 0 => Ok(Variant::Null),
                    0 => Err(Fault::Form),
                    $($number => Ok(Variant::$name(decode_content(flags, cursor)?)),)*
                    $($large => Ok(Variant::$large_name(Box::new(decode_content(flags, cursor)?))),)*
                    _ => Err(Fault::Kind),
                }
            }

            fn encode(&self, out: &mut Vec<u8>) {
                match self {
                    Variant::Null => out.push(0),
                    $(Variant::$name(content) => encode_content($number, content, out),)*
                    $(Variant::$large_name(content) => encode_content($large, content, out),)*
                }
            }
        }
    };
}

variants! {
    1 Boolean bool,
    2 SByte i8,
    3 Byte u8,
    4 Int16 i16,
    5 UInt16 u16,
    6 Int32 i32,
    7 UInt32 u32,
    8 Int64 i64,
    9 UInt64 u64,
    10 Float Raw<4>,
    11 Double Raw<8>,
    12 String Text,
    13 DateTime Moment,
    14 Guid Raw<16>,
    15 ByteString ByteString,
    16 XmlElement ByteString,
    17 NodeId NodeId,
    19 StatusCode Status,
    20 QualifiedName QualifiedName,
    in boxes
    18 ExpandedNodeId ExpandedNodeId,
    21 LocalizedText LocalizedText,
    22 ExtensionObject ExtensionObject,
}

pub struct DataValue {
    pub value: Option<Variant>,
    pub status: Status,
    pub source_time: Option<Moment>,
    pub server_time: Option<Moment>,
}

impl Wire for DataValue {
    fn decode(cursor: &mut Cursor<'_>) -> Result<Self, Fault> {
        let mask = u8::decode(cursor)?;
        if mask > 63 {
            return Err(Fault::Form);
        }
        let value = if mask & 1 != 0 {
            Some(Variant::decode(cursor)?)
        } else {
            None
        };
        let status = if mask & 2 != 0 {
            Status::decode(cursor)?
        } else {
            Status(0)
        };
        let source_time = if mask & 4 != 0 {
            Some(Moment::decode(cursor)?)
        } else {
            None
        };
        if mask & 16 != 0 {
            u16::decode(cursor)?;
        }
        let server_time = if mask & 8 != 0 {
            Some(Moment::decode(cursor)?)
        } else {
            None
        };
        if mask & 32 != 0 {
            u16::decode(cursor)?;
        }
        Ok(DataValue {
            value,
            status,
            source_time,
            server_time,
        })
    }

    fn encode(&self, out: &mut Vec<u8>) {
        let is_bad = self.status.0 != 0;
        let times =
            (self.source_time.is_some() as u8) << 2 | (self.server_time.is_some() as u8) << 3;
        out.push(self.value.is_some() as u8 | (is_bad as u8) << 1 | times);
        if let Some(value) = &self.value {
            value.encode(out)
        }
        if is_bad {
            self.status.encode(out)
        }
        for time in [&self.source_time, &self.server_time].into_iter().flatten() {
            time.encode(out)
        }
    }
}

struct ReadValueId {
    node_id: NodeId,
    attribute_id: u32,
    index_range: Text,
    data_encoding: QualifiedName,
}

impl Wire for ReadValueId {
    fn decode(cursor: &mut Cursor<'_>) -> Result<Self, Fault> {
        Ok(ReadValueId {
            node_id: NodeId::decode(cursor)?,
            attribute_id: u32::decode(cursor)?,
            index_range: Text::decode(cursor)?,
            data_encoding: QualifiedName::decode(cursor)?,
        })
    }

    fn encode(&self, out: &mut Vec<u8>) {
        self.node_id.encode(out);
        self.attribute_id.encode(out);
        self.index_range.encode(out);
        self.data_encoding.encode(out)
    }
}

fn data_value(number: u32) -> DataValue {
    DataValue {
        value: Some(Variant::Double(Content::Scalar(Raw(
            (number as u64).to_le_bytes()
        )))),
        status: Status(0),
        source_time: Some(Moment(number as i64)),
        server_time: Some(Moment(7)),
    }
}

fn read_value_id(number: u32) -> ReadValueId {
    ReadValueId {
        node_id: NodeId {
            namespace: 2,
            identifier: Identifier::Numeric(number),
        },
        attribute_id: 13,
        index_range: Text(None),
        data_encoding: QualifiedName {
            namespace: 0,
            name: Text(None),
        },
    }
}

fn text(_number: u32) -> Text {
    Text(Some("Line 4, pump 12".to_owned()))
}

/// The time of an element in the fastest round, in nanoseconds.
fn fastest(mut round: impl FnMut()) -> f64 {
    let times = (0..ROUNDS).map(|_| {
        let start = Instant::now();
        round();
        start.elapsed().as_nanos()
    });
    times.min().unwrap_or(0) as f64 / ELEMENTS as f64
}

fn time_both_ways<T: Wire>(name: &str, element: fn(u32) -> T) {
    let list: Option<Vec<T>> = Some((0..ELEMENTS).map(element).collect());
    let mut bytes = Vec::new();
    let written = fastest(|| {
        bytes.clear();
        black_box(&list).encode(black_box(&mut bytes))
    });
    println!("{name} written: {written:.1} ns");
    let read = fastest(|| {
        let list: Result<Option<Vec<T>>, Fault> = Wire::decode(&mut Cursor {
            rest: black_box(&bytes),
        });
        black_box(&list);
    });
    println!("{name} read: {read:.1} ns");
    println!("{name}: {} bytes", bytes.len());
}

fn main() {
    time_both_ways("data values", data_value);
    time_both_ways("read value ids", read_value_id);
    time_both_ways("texts", text);
}
