// GetEndpoints over a pipe, by hand in plain Rust: what `uaserver pipe` answers to a Hello, an OPN, GetEndpoints requests and a
// CLO, with the same checks of frames, channels and sequence numbers, for scripts/lab/pipe_costs.py to compare with. Only what such a
// conversation needs is here; a frame that it doesn't expect ends it.
//
//     rustc --edition 2021 -O scripts/lab/pipe_by_hand.rs -o by_hand && ./by_hand < conversation > answers
use std::io::{Read, Write};

const NONE: &str = "http://opcfoundation.org/UA/SecurityPolicy#None";
const PROFILE: &str = "http://opcfoundation.org/UA-Profile/Transport/uatcp-uasc-uabinary";
const URL: &str = "opc.tcp://localhost:4840";

struct Cursor<'a>(&'a [u8]);

impl<'a> Cursor<'a> {
    fn bytes(&mut self, n: usize) -> Option<&'a [u8]> {
        let (front, rest) = self.0.split_at_checked(n)?;
        self.0 = rest;
        Some(front)
    }
    fn byte(&mut self) -> Option<u8> {
        Some(self.bytes(1)?[0])
    }
    fn u16(&mut self) -> Option<u16> {
        Some(u16::from_le_bytes(self.bytes(2)?.try_into().ok()?))
    }
    fn u32(&mut self) -> Option<u32> {
        Some(u32::from_le_bytes(self.bytes(4)?.try_into().ok()?))
    }
    fn i64(&mut self) -> Option<i64> {
        Some(i64::from_le_bytes(self.bytes(8)?.try_into().ok()?))
    }
    fn byte_string(&mut self) -> Option<Option<Vec<u8>>> {
        let len = self.u32()? as i32;
        if len < 0 {
            return Some(None);
        }
        Some(Some(self.bytes(len as usize)?.to_vec()))
    }
    fn text(&mut self) -> Option<Option<String>> {
        match self.byte_string()? {
            None => Some(None),
            Some(bytes) => Some(Some(String::from_utf8(bytes).ok()?)),
        }
    }
    fn texts(&mut self) -> Option<Option<Vec<Option<String>>>> {
        let len = self.u32()? as i32;
        if len < 0 {
            return Some(None);
        }
        if len as usize > self.0.len() {
            return None;
        }
        (0..len).map(|_| self.text()).collect::<Option<Vec<_>>>().map(Some)
    }
    fn node_id(&mut self) -> Option<NodeId> {
        Some(match self.byte()? {
            0 => NodeId::Numeric(0, self.byte()? as u32),
            1 => NodeId::Numeric(self.byte()? as u16, self.u16()? as u32),
            2 => NodeId::Numeric(self.u16()?, self.u32()?),
            3 => NodeId::Text(self.u16()?, self.text()?),
            4 => NodeId::Guid(self.u16()?, self.bytes(16)?.try_into().ok()?),
            5 => NodeId::Opaque(self.u16()?, self.byte_string()?),
            _ => return None,
        })
    }
}

#[allow(dead_code)]
enum NodeId {
    Numeric(u16, u32),
    Text(u16, Option<String>),
    Guid(u16, [u8; 16]),
    Opaque(u16, Option<Vec<u8>>),
}

#[allow(dead_code)]
struct RequestHeader {
    token: NodeId,
    timestamp: i64,
    handle: u32,
    diagnostics: u32,
    audit: Option<String>,
    timeout: u32,
    additional: (NodeId, Option<Vec<u8>>),
}

fn request_header(c: &mut Cursor<'_>) -> Option<RequestHeader> {
    Some(RequestHeader {
        token: c.node_id()?,
        timestamp: c.i64()?,
        handle: c.u32()?,
        diagnostics: c.u32()?,
        audit: c.text()?,
        timeout: c.u32()?,
        additional: {
            let id = c.node_id()?;
            match c.byte()? {
                0 => (id, None),
                1 | 2 => (id, c.byte_string()?),
                _ => return None,
            }
        },
    })
}

fn put_text(text: Option<&str>, out: &mut Vec<u8>) {
    match text {
        None => out.extend_from_slice(&(-1i32).to_le_bytes()),
        Some(text) => {
            out.extend_from_slice(&(text.len() as u32).to_le_bytes());
            out.extend_from_slice(text.as_bytes());
        }
    }
}

fn put_response_header(type_id: u16, handle: u32, out: &mut Vec<u8>) {
    out.extend_from_slice(&[1, 0]);
    out.extend_from_slice(&type_id.to_le_bytes());
    out.extend_from_slice(&0i64.to_le_bytes());
    out.extend_from_slice(&handle.to_le_bytes());
    out.extend_from_slice(&0u32.to_le_bytes());
    out.push(0);
    out.extend_from_slice(&(-1i32).to_le_bytes());
    out.extend_from_slice(&[0, 0, 0]);
}

#[allow(dead_code)]
struct Endpoint {
    url: String,
    uri: String,
    name: String,
    discovery: Vec<String>,
    policy: String,
    profile: String,
}

fn put_endpoint(e: &Endpoint, out: &mut Vec<u8>) {
    put_text(Some(&e.url), out);
    put_text(Some(&e.uri), out);
    put_text(None, out);
    out.push(2);
    put_text(Some(&e.name), out);
    out.extend_from_slice(&0u32.to_le_bytes());
    put_text(None, out);
    put_text(None, out);
    out.extend_from_slice(&(e.discovery.len() as u32).to_le_bytes());
    for url in &e.discovery {
        put_text(Some(url), out);
    }
    put_text(None, out);
    out.extend_from_slice(&1u32.to_le_bytes());
    put_text(Some(&e.policy), out);
    out.extend_from_slice(&1u32.to_le_bytes());
    put_text(Some("anonymous"), out);
    out.extend_from_slice(&0u32.to_le_bytes());
    put_text(None, out);
    put_text(None, out);
    put_text(None, out);
    put_text(Some(&e.profile), out);
    out.push(0);
}

struct Server {
    held: Vec<u8>,
    receive_size: usize,
    sequence: Option<u32>,
    sent: u32,
    channel: Option<u32>,
    token: u32,
    greeted: bool,
    closed: bool,
}

impl Server {
    fn sequence(&mut self, number: u32) -> Option<()> {
        let follows = match self.sequence {
            None => true,
            Some(last) => last.checked_add(1) == Some(number) || (last > 4294966271 && number < 1024),
        };
        self.sequence = Some(number);
        follows.then_some(())
    }

    fn chunk(&mut self, request: u32, body: &[u8], out: &mut Vec<u8>) {
        self.sent += 1;
        out.extend_from_slice(b"MSGF");
        out.extend_from_slice(&(24 + body.len() as u32).to_le_bytes());
        out.extend_from_slice(&self.channel.unwrap_or(0).to_le_bytes());
        out.extend_from_slice(&self.token.to_le_bytes());
        out.extend_from_slice(&self.sent.to_le_bytes());
        out.extend_from_slice(&request.to_le_bytes());
        out.extend_from_slice(body);
    }

    fn frame(&mut self, letters: [u8; 4], body: &[u8], out: &mut Vec<u8>) -> Option<()> {
        let mut c = Cursor(body);
        match &letters {
            b"HELF" if !self.greeted => {
                let (_, receive, send) = (c.u32()?, c.u32()?, c.u32()?);
                let (_, _, _) = (c.u32()?, c.u32()?, c.text()?);
                self.greeted = true;
                self.receive_size = send.min(65536) as usize;
                out.extend_from_slice(b"ACKF\x1c\0\0\0\0\0\0\0");
                for n in [send.min(65536), receive.min(65536), 1048576, 64] {
                    out.extend_from_slice(&n.to_le_bytes());
                }
            }
            b"OPNF" => {
                let _ = c.u32()?;
                if c.text()?.as_deref() != Some(NONE) {
                    return None;
                }
                let (_, _) = (c.byte_string()?, c.byte_string()?);
                let (sequence, request) = (c.u32()?, c.u32()?);
                self.sequence(sequence)?;
                let _ = c.node_id()?;
                let header = request_header(&mut c)?;
                let (_, _, mode) = (c.u32()?, c.u32()?, c.u32()?);
                let (_, _) = (c.byte_string()?, c.u32()?);
                if mode != 1 {
                    return None;
                }
                self.channel = Some(1);
                self.token = 1;
                self.sent += 1;
                let start = out.len();
                out.extend_from_slice(b"OPNF\0\0\0\0\x01\0\0\0");
                put_text(Some(NONE), out);
                put_text(None, out);
                put_text(None, out);
                out.extend_from_slice(&self.sent.to_le_bytes());
                out.extend_from_slice(&request.to_le_bytes());
                put_response_header(449, header.handle, out);
                for n in [0u32, 1, 1] {
                    out.extend_from_slice(&n.to_le_bytes());
                }
                out.extend_from_slice(&0i64.to_le_bytes());
                out.extend_from_slice(&3600000u32.to_le_bytes());
                put_text(None, out);
                let size = (out.len() - start) as u32;
                out[start + 4..start + 8].copy_from_slice(&size.to_le_bytes());
            }
            b"MSGF" => {
                if self.channel != Some(c.u32()?) || self.token != c.u32()? {
                    return None;
                }
                let (sequence, request) = (c.u32()?, c.u32()?);
                self.sequence(sequence)?;
                let NodeId::Numeric(0, 428) = c.node_id()? else {
                    return None;
                };
                let header = request_header(&mut c)?;
                let (_, _, profiles) = (c.text()?, c.texts()?, c.texts()?);
                let wanted = profiles.is_none_or(|uris| uris.is_empty() || uris.iter().any(|uri| uri.as_deref() == Some(PROFILE)));
                let mut answer = Vec::new();
                put_response_header(431, header.handle, &mut answer);
                let endpoints: Vec<Endpoint> = wanted
                    .then(|| Endpoint {
                        url: URL.to_string(),
                        uri: "urn:uaserver".to_string(),
                        name: "uaserver".to_string(),
                        discovery: vec![URL.to_string()],
                        policy: NONE.to_string(),
                        profile: PROFILE.to_string(),
                    })
                    .into_iter()
                    .collect();
                answer.extend_from_slice(&(endpoints.len() as u32).to_le_bytes());
                for endpoint in &endpoints {
                    put_endpoint(endpoint, &mut answer);
                }
                self.chunk(request, &answer, out);
            }
            b"CLOF" => self.closed = true,
            _ => return None,
        }
        Some(())
    }

    fn feed(&mut self, piece: &[u8], out: &mut Vec<u8>) -> Option<()> {
        self.held.extend_from_slice(piece);
        let all = std::mem::take(&mut self.held);
        let mut rest = all.as_slice();
        while rest.len() >= 8 && !self.closed {
            let size = u32::from_le_bytes(rest[4..8].try_into().ok()?) as usize;
            if size < 8 || size > self.receive_size {
                return None;
            }
            if rest.len() < size {
                break;
            }
            self.frame(rest[..4].try_into().ok()?, &rest[8..size], out)?;
            rest = &rest[size..];
        }
        self.held = rest.to_vec();
        Some(())
    }
}

fn main() {
    let mut server = Server {
        held: Vec::new(),
        receive_size: 65536,
        sequence: None,
        sent: 0,
        channel: None,
        token: 0,
        greeted: false,
        closed: false,
    };
    let (mut input, mut output) = (std::io::stdin().lock(), std::io::stdout().lock());
    let mut piece = [0; 4096];
    while !server.closed {
        let count = input.read(&mut piece).expect("it can be read");
        if count == 0 {
            break;
        }
        let mut out = Vec::new();
        server.feed(&piece[..count], &mut out).expect("such a conversation");
        output.write_all(&out).expect("it can be written");
    }
}
