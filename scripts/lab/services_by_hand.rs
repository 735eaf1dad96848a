//! Answers of services, written by hand in plain Rust: what the benchmarks `browse`, `history` and `publish` of
//! `library_examples` are compared with (docs/PERFORMANCE.md).
//!
//! Each has the same data, in the containers that one would take in Rust, and writes the same answer, with its chunk's
//! header, into a new vector; `publish` keeps the message, and `again` copies it into its answer. The requests aren't read, which
//! is a small part of what such an answer costs. Build it with `rustc --edition 2021 -O services_by_hand.rs`, and run it by
//! turns with those benchmarks.

use std::collections::{BTreeMap, HashMap, VecDeque};
use std::hint::black_box;
use std::rc::Rc;
use std::time::Instant;

#[allow(dead_code)]
#[path = "encoding_by_hand.rs"]
mod encoding;

use encoding::{
    Content, DataValue, ExpandedNodeId, Identifier, LocalizedText, Moment, NodeId, QualifiedName,
    Status, Text, Variant, Wire,
};

/// How many references, values or notifications an answer has.
const EACH: u32 = 1000;

/// How many nodes and values there are.
const NODES: u32 = 99_000;
const VALUES: u32 = 100_000;

/// How often each answer is made.
const ROUNDS: u32 = 99;

fn numeric(namespace: u16, number: u32) -> NodeId {
    NodeId {
        namespace,
        identifier: Identifier::Numeric(number),
    }
}

/// A chunk's header and a response's, with the length still open.
fn begin(type_id: u32) -> Vec<u8> {
    let mut out = Vec::with_capacity(256);
    out.extend_from_slice(b"MSGF\0\0\0\0\x01\0\0\0\x01\0\0\0\x07\0\0\0\x07\0\0\0");
    numeric(0, type_id).encode(&mut out);
    Moment(0).encode(&mut out);
    7u32.encode(&mut out);
    Status(0).encode(&mut out);
    out.extend_from_slice(b"\0\xff\xff\xff\xff\0\0\0");
    out
}

/// No diagnostics, and the chunk's length.
fn close(mut out: Vec<u8>) -> Vec<u8> {
    (-1i32).encode(&mut out);
    let length = out.len() as u32;
    out[4..8].copy_from_slice(&length.to_le_bytes());
    out
}

/// An object of this type id that holds what is written by `write`, behind its length.
fn object(type_id: u32, out: &mut Vec<u8>, write: impl FnOnce(&mut Vec<u8>)) {
    numeric(0, type_id).encode(out);
    out.push(1);
    let place = out.len();
    0u32.encode(out);
    write(out);
    let length = (out.len() - place - 4) as u32;
    out[place..place + 4].copy_from_slice(&length.to_le_bytes());
}

// ---- Browse

/// The key of a node whose id is a number.
type Key = (u16, u32);

struct Node {
    browse_name: QualifiedName,
    display_name: LocalizedText,
    class: i32,
    type_definition: Option<Key>,
}

struct Reference {
    kind: Key,
    is_forward: bool,
    other: Key,
}

struct Space {
    nodes: HashMap<Key, Node>,
    references: HashMap<Key, Vec<Reference>>,
    hierarchical: Vec<Key>,
}

fn space() -> Space {
    let text = || Text(Some("Object".to_owned()));
    let node = || Node {
        browse_name: QualifiedName {
            namespace: 1,
            name: text(),
        },
        display_name: LocalizedText {
            locale: Text(None),
            text: text(),
        },
        class: 1,
        type_definition: None,
    };
    let down = |number| Reference {
        kind: (0, 35),
        is_forward: true,
        other: (1, number),
    };
    Space {
        nodes: (0..NODES + 1).map(|number| ((1, number), node())).collect(),
        references: HashMap::from([((1, 0), (1..NODES + 1).map(down).collect())]),
        hierarchical: vec![(0, 33), (0, 34), (0, 35), (0, 44), (0, 45), (0, 46), (0, 47)],
    }
}

fn expanded(key: Key) -> ExpandedNodeId {
    ExpandedNodeId {
        node_id: numeric(key.0, key.1),
        namespace_uri: Text(None),
        server_index: 0,
    }
}

/// The references of a node from a place on, as many as a page has, with what the mask asks for.
fn browse(space: &Space, node: Key, mask: u32, from: usize) -> Vec<u8> {
    let mut out = begin(530);
    1u32.encode(&mut out);
    Status(0).encode(&mut out);
    8u32.encode(&mut out);
    (from as u64).encode(&mut out);
    let place = out.len();
    0u32.encode(&mut out);
    let no_name = QualifiedName {
        namespace: 0,
        name: Text(None),
    };
    let no_words = LocalizedText {
        locale: Text(None),
        text: Text(None),
    };
    let mut count = 0u32;
    for reference in space.references.get(&node).into_iter().flatten().skip(from) {
        if !space.hierarchical.contains(&reference.kind) || !reference.is_forward {
            continue;
        }
        if count == EACH {
            break;
        }
        let Some(end) = space.nodes.get(&reference.other) else {
            continue;
        };
        let has = |bit| mask & bit != 0;
        let kind = if has(1) { reference.kind } else { (0, 0) };
        numeric(kind.0, kind.1).encode(&mut out);
        (has(2) && reference.is_forward).encode(&mut out);
        expanded(reference.other).encode(&mut out);
        if has(8) { &end.browse_name } else { &no_name }.encode(&mut out);
        if has(16) { &end.display_name } else { &no_words }.encode(&mut out);
        if has(4) { end.class } else { 0 }.encode(&mut out);
        let definition = if has(32) { end.type_definition } else { None };
        expanded(definition.unwrap_or((0, 0))).encode(&mut out);
        count += 1;
    }
    out[place..place + 4].copy_from_slice(&count.to_le_bytes());
    close(out)
}

// ---- HistoryRead

fn histories() -> BTreeMap<i64, DataValue> {
    let value = |time| DataValue {
        value: Some(Variant::UInt16(Content::Scalar(258))),
        status: Status(0),
        source_time: Some(Moment(time)),
        server_time: Some(Moment(0)),
    };
    (1..VALUES as i64 + 1).map(|time| (time, value(time))).collect()
}

/// The values from a time on, as many as a page has, with the times of their source.
fn history(values: &BTreeMap<i64, DataValue>, from: i64) -> Vec<u8> {
    let mut out = begin(667);
    1u32.encode(&mut out);
    Status(0).encode(&mut out);
    8u32.encode(&mut out);
    from.encode(&mut out);
    object(658, &mut out, |out| {
        let place = out.len();
        0u32.encode(out);
        let mut count = 0u32;
        for value in values.range(from..).take(EACH as usize).map(|(_, value)| value) {
            out.push(value.value.is_some() as u8 | (value.source_time.is_some() as u8) << 2);
            if let Some(value) = &value.value {
                value.encode(out);
            }
            if let Some(time) = &value.source_time {
                time.encode(out);
            }
            count += 1;
        }
        out[place..place + 4].copy_from_slice(&count.to_le_bytes());
    });
    close(out)
}

// ---- Publish

struct Item {
    client_handle: u32,
    queue: VecDeque<DataValue>,
}

struct Subscription {
    items: BTreeMap<u32, Item>,
    kept: BTreeMap<u32, Rc<[u8]>>,
    last: u32,
}

fn subscription() -> Subscription {
    let item = |number| {
        let queue = VecDeque::with_capacity(1);
        (number, Item { client_handle: 7, queue })
    };
    Subscription {
        items: (1..EACH + 1).map(item).collect(),
        kept: BTreeMap::new(),
        last: 0,
    }
}

/// Each item queues a value.
fn queue(subscription: &mut Subscription) {
    for item in subscription.items.values_mut() {
        item.queue.push_back(DataValue {
            value: Some(Variant::UInt16(Content::Scalar(258))),
            status: Status(0),
            source_time: None,
            server_time: None,
        });
    }
}

/// The next message, with all that waits, which is kept; the one before is kept no more.
fn publish(subscription: &mut Subscription) -> Vec<u8> {
    subscription.kept.remove(&subscription.last);
    subscription.last += 1;
    let number = subscription.last;
    let mut message = Vec::with_capacity(256);
    number.encode(&mut message);
    Moment(0).encode(&mut message);
    1u32.encode(&mut message);
    let items = &mut subscription.items;
    object(811, &mut message, |out| {
        let place = out.len();
        0u32.encode(out);
        let mut count = 0u32;
        for item in items.values_mut() {
            while let Some(value) = item.queue.pop_front() {
                item.client_handle.encode(out);
                value.encode(out);
                count += 1;
            }
        }
        out[place..place + 4].copy_from_slice(&count.to_le_bytes());
        (-1i32).encode(out);
    });
    let message: Rc<[u8]> = message.into();
    subscription.kept.insert(number, message.clone());
    let mut out = begin(829);
    1u32.encode(&mut out);
    let available: Option<Vec<u32>> = Some(subscription.kept.keys().copied().collect());
    available.encode(&mut out);
    false.encode(&mut out);
    out.extend_from_slice(&message);
    1u32.encode(&mut out);
    Status(0).encode(&mut out);
    close(out)
}

/// A message that is kept.
fn again(subscription: &Subscription, number: u32) -> Vec<u8> {
    let mut out = begin(835);
    if let Some(message) = subscription.kept.get(&number) {
        out.extend_from_slice(message);
    }
    let length = out.len() as u32;
    out[4..8].copy_from_slice(&length.to_le_bytes());
    out
}

// ---- times

/// The nanoseconds of one, and how long the last one was.
fn time(name: &str, mut one: impl FnMut(u32) -> Vec<u8>) {
    let start = Instant::now();
    let mut length = 0;
    for round in 0..ROUNDS {
        length = black_box(one(round)).len();
    }
    let each = start.elapsed().as_nanos() / ROUNDS as u128;
    println!("{name}: {each} ns, {length} bytes");
}

fn main() {
    let space = space();
    time("a page of 1000 references", |round| browse(&space, (1, 0), 8, (round * EACH) as usize));
    let values = histories();
    time("a page of 1000 values", |round| history(&values, (round * EACH) as i64 + 1));
    let mut made = subscription();
    let (mut each, mut each_again) = (0, 0);
    let mut length = (0, 0);
    for _ in 0..ROUNDS {
        queue(&mut made);
        let start = Instant::now();
        length.0 = black_box(publish(&mut made)).len();
        each += start.elapsed().as_nanos();
        let start = Instant::now();
        length.1 = black_box(again(&made, made.last)).len();
        each_again += start.elapsed().as_nanos();
    }
    let rounds = ROUNDS as u128;
    println!("a message of 1000 notifications: {} ns, {} bytes", each / rounds, length.0);
    println!("the same again: {} ns, {} bytes", each_again / rounds, length.1);
}
