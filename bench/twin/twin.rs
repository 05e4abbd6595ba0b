//! What `uahist answer --now 116444736000000000` does with a client that reads the server's state, or updates the history of nodes
//! that aren't there, in plain Rust, unproved: the measure that the proved program is held against. It cuts and checks chunks,
//! joins messages, reads each field of a request with its limits, and answers in chunks; one buffer each for input, message, body
//! and output is used again.
#![allow(dead_code)] // what is decoded isn't looked at: no node has a history here

use std::io::{Read, Write};

const NOW: i64 = 116_444_736_000_000_000;
const LIMIT: usize = 65_536;
const POLICY: &[u8] = b"http://opcfoundation.org/UA/SecurityPolicy#None";

struct Cursor<'a>(&'a [u8]);

impl<'a> Cursor<'a> {
    fn take(&mut self, n: usize) -> Option<&'a [u8]> {
        if self.0.len() < n {
            return None;
        }
        let (head, rest) = self.0.split_at(n);
        self.0 = rest;
        Some(head)
    }
    fn u8(&mut self) -> Option<u8> { Some(self.take(1)?[0]) }
    fn u16(&mut self) -> Option<u16> { Some(u16::from_le_bytes(self.take(2)?.try_into().ok()?)) }
    fn u32(&mut self) -> Option<u32> { Some(u32::from_le_bytes(self.take(4)?.try_into().ok()?)) }
    fn i64(&mut self) -> Option<i64> { Some(i64::from_le_bytes(self.take(8)?.try_into().ok()?)) }
    fn bytes(&mut self) -> Option<Option<&'a [u8]>> {
        match self.u32()? as i32 {
            -1 => Some(None),
            n if n < 0 => None,
            n => Some(Some(self.take(n as usize)?)),
        }
    }
    fn text(&mut self) -> Option<Option<&'a str>> {
        match self.bytes()? {
            None => Some(None),
            Some(b) => Some(Some(std::str::from_utf8(b).ok()?)),
        }
    }
    fn count(&mut self) -> Option<usize> {
        match self.u32()? as i32 {
            -1 => Some(0),
            n if n < 0 => None,
            n => Some(n as usize),
        }
    }
    fn node(&mut self) -> Option<Node<'a>> {
        match self.u8()? {
            0 => Some(Node::Number(0, u32::from(self.u8()?))),
            1 => { let ns = self.u8()?; Some(Node::Number(u16::from(ns), u32::from(self.u16()?))) }
            2 => { let ns = self.u16()?; Some(Node::Number(ns, self.u32()?)) }
            3 => { let ns = self.u16()?; Some(Node::Name(ns, self.text()?.unwrap_or(""))) }
            4 => { let ns = self.u16()?; self.take(16)?; Some(Node::Other(ns)) }
            5 => { let ns = self.u16()?; self.bytes()?; Some(Node::Other(ns)) }
            _ => None,
        }
    }
    fn extension(&mut self) -> Option<()> {
        self.node()?;
        match self.u8()? {
            0 => Some(()),
            1 | 2 => { self.bytes()?; Some(()) }
            _ => None,
        }
    }
}

#[derive(Clone, Copy, PartialEq)]
enum Node<'a> {
    Number(u16, u32),
    Name(u16, &'a str),
    Other(u16),
}

struct Item<'a> {
    node: Node<'a>,
    attribute: u32,
    range: Option<&'a str>,
    encoding: Option<&'a str>,
}

#[derive(Default)]
struct Twin {
    greeted: bool,
    opened: bool,
    next: u32,
    heard: u32,
    user: bool,
    created: bool,
    message: Vec<u8>,
    chunks: usize,
    body: Vec<u8>,
}

fn put(out: &mut Vec<u8>, parts: &[&[u8]]) {
    for part in parts {
        out.extend_from_slice(part);
    }
}

fn header(out: &mut Vec<u8>, type_id: u16, handle: u32, status: u32) {
    put(out, &[&[1, 0], &type_id.to_le_bytes(), &NOW.to_le_bytes(), &handle.to_le_bytes(), &status.to_le_bytes(), &[0], &(-1i32).to_le_bytes(), &[0, 0, 0]]);
}

/// One value (Part 6, 5.2.2), or values of one type.
enum Value {
    Boolean(bool),
    SByte(i8),
    Byte(u8),
    Int16(i16),
    UInt16(u16),
    Int32(i32),
    UInt32(u32),
    Int64(i64),
    UInt64(u64),
    Float([u8; 4]),
    Double([u8; 8]),
    String(Option<String>),
    DateTime(i64),
    Guid([u8; 16]),
    ByteString(Option<Vec<u8>>),
    NodeId(OwnNode),
    StatusCode(u32),
    QualifiedName(u16, Option<String>),
    LocalizedText(Option<String>, Option<String>),
}

enum OwnNode {
    Number(u16, u32),
    Name(u16, String),
    Guid(u16, [u8; 16]),
    Opaque(u16, Vec<u8>),
}

enum Variant {
    Null,
    Scalar(Value),
    Array(Vec<Value>),
}

struct DataValue {
    value: Option<Variant>,
    status: Option<u32>,
    source_time: Option<i64>,
    source_pico: Option<u16>,
    server_time: Option<i64>,
    server_pico: Option<u16>,
}

enum Details<'a> {
    Update { node: Node<'a>, perform: u32, values: Vec<DataValue> },
    DeleteRaw { node: Node<'a>, modified: bool, start: i64, end: i64 },
    DeleteAt { node: Node<'a>, times: Vec<i64> },
    Other,
}

impl<'a> Cursor<'a> {
    fn own_node(&mut self) -> Option<OwnNode> {
        match self.u8()? {
            0 => Some(OwnNode::Number(0, u32::from(self.u8()?))),
            1 => { let ns = self.u8()?; Some(OwnNode::Number(u16::from(ns), u32::from(self.u16()?))) }
            2 => { let ns = self.u16()?; Some(OwnNode::Number(ns, self.u32()?)) }
            3 => { let ns = self.u16()?; Some(OwnNode::Name(ns, self.text()?.unwrap_or("").to_owned())) }
            4 => { let ns = self.u16()?; Some(OwnNode::Guid(ns, self.take(16)?.try_into().ok()?)) }
            5 => { let ns = self.u16()?; Some(OwnNode::Opaque(ns, self.bytes()?.unwrap_or(&[]).to_owned())) }
            _ => None,
        }
    }
    fn own_text(&mut self) -> Option<Option<String>> { Some(self.text()?.map(str::to_owned)) }
    fn scalar(&mut self, number: u8) -> Option<Value> {
        Some(match number {
            1 => Value::Boolean(self.u8()? != 0),
            2 => Value::SByte(self.u8()? as i8),
            3 => Value::Byte(self.u8()?),
            4 => Value::Int16(self.u16()? as i16),
            5 => Value::UInt16(self.u16()?),
            6 => Value::Int32(self.u32()? as i32),
            7 => Value::UInt32(self.u32()?),
            8 => Value::Int64(self.i64()?),
            9 => Value::UInt64(self.i64()? as u64),
            10 => Value::Float(self.take(4)?.try_into().ok()?),
            11 => Value::Double(self.take(8)?.try_into().ok()?),
            12 => Value::String(self.own_text()?),
            13 => Value::DateTime(self.i64()?),
            14 => Value::Guid(self.take(16)?.try_into().ok()?),
            15 => Value::ByteString(self.bytes()?.map(<[u8]>::to_owned)),
            17 => Value::NodeId(self.own_node()?),
            19 => Value::StatusCode(self.u32()?),
            20 => Value::QualifiedName(self.u16()?, self.own_text()?),
            21 => {
                let mask = self.u8()?;
                if mask > 3 {
                    return None;
                }
                let locale = if mask & 1 != 0 { self.own_text()? } else { None };
                let text = if mask & 2 != 0 { self.own_text()? } else { None };
                Value::LocalizedText(locale, text)
            }
            _ => return None,
        })
    }
    fn variant(&mut self) -> Option<Variant> {
        match self.u8()? {
            0 => Some(Variant::Null),
            number if number < 128 => Some(Variant::Scalar(self.scalar(number)?)),
            number => Some(Variant::Array(self.list(|cursor| cursor.scalar(number - 128))?)),
        }
    }
    fn data_value(&mut self) -> Option<DataValue> {
        let mask = self.u8()?;
        if mask > 63 {
            return None;
        }
        Some(DataValue {
            value: if mask & 1 != 0 { Some(self.variant()?) } else { None },
            status: if mask & 2 != 0 { Some(self.u32()?) } else { None },
            source_time: if mask & 4 != 0 { Some(self.i64()?) } else { None },
            source_pico: if mask & 16 != 0 { Some(self.u16()?.min(9999)) } else { None },
            server_time: if mask & 8 != 0 { Some(self.i64()?) } else { None },
            server_pico: if mask & 32 != 0 { Some(self.u16()?.min(9999)) } else { None },
        })
    }
    /// A list, of which the first 1,001 are kept.
    fn list<T>(&mut self, mut item: impl FnMut(&mut Cursor<'a>) -> Option<T>) -> Option<Vec<T>> {
        let count = self.count()?;
        if count > self.0.len() {
            return None;
        }
        let mut items = Vec::with_capacity(count.min(1001));
        for _ in 0..count {
            let one = item(self)?;
            if items.len() < 1001 {
                items.push(one);
            }
        }
        Some(items)
    }
    fn details(&mut self) -> Option<Details<'a>> {
        let type_id = self.node()?;
        if !matches!(type_id, Node::Number(0, 682 | 688 | 691)) {
            match self.u8()? {
                0 => {}
                1 | 2 => { self.bytes()?; }
                _ => return None,
            }
            return Some(Details::Other);
        }
        if self.u8()? != 1 {
            return None;
        }
        let mut body = Cursor(self.bytes()?.unwrap_or(&[]));
        let node = body.node()?;
        let details = match type_id {
            Node::Number(0, 682) => Details::Update { node, perform: body.u32()?, values: body.list(Cursor::data_value)? },
            Node::Number(0, 688) => Details::DeleteRaw { node, modified: body.u8()? != 0, start: body.i64()?, end: body.i64()? },
            _ => Details::DeleteAt { node, times: body.list(Cursor::i64)? },
        };
        body.0.is_empty().then_some(details)
    }
}

/// What is told of updates where no node has a history, or a service's refusal.
fn update(cursor: &mut Cursor, body: &mut Vec<u8>, handle: u32) -> Result<(), u32> {
    const BAD: u32 = 0x8007_0000;
    let details = cursor.list(Cursor::details).ok_or(BAD)?;
    if !cursor.0.is_empty() {
        return Err(BAD);
    }
    if details.is_empty() {
        return Err(0x800F_0000);
    }
    if details.len() > 100 {
        return Err(0x8010_0000);
    }
    header(body, 703, handle, 0);
    put(body, &[&(details.len() as u32).to_le_bytes()]);
    for details in &details {
        let status = match std::hint::black_box(details) {
            Details::Other => 0x8071_0000u32,
            _ => 0x8034_0000,
        };
        put(body, &[&status.to_le_bytes(), &0u32.to_le_bytes(), &(-1i32).to_le_bytes()]);
    }
    put(body, &[&(-1i32).to_le_bytes()]);
    Ok(())
}

/// The values read, or a service's refusal.
fn read(cursor: &mut Cursor, body: &mut Vec<u8>, handle: u32) -> Result<(), u32> {
    const BAD: u32 = 0x8007_0000;
    cursor.take(8).ok_or(BAD)?;
    let stamps = cursor.u32().ok_or(BAD)?;
    let count = cursor.count().ok_or(BAD)?;
    if count > cursor.0.len() {
        return Err(BAD);
    }
    let mut items = Vec::with_capacity(count);
    for _ in 0..count {
        let mut item = || Some(Item {
            node: cursor.node()?,
            attribute: cursor.u32()?,
            range: cursor.text()?,
            encoding: { cursor.u16()?; cursor.text()? },
        });
        items.push(item().ok_or(BAD)?);
    }
    if !cursor.0.is_empty() {
        return Err(BAD);
    }
    if count == 0 {
        return Err(0x800F_0000);
    }
    if count > 1000 {
        return Err(0x8010_0000);
    }
    if stamps > 3 {
        return Err(0x802B_0000);
    }
    header(body, 634, handle, 0);
    put(body, &[&(count as u32).to_le_bytes()]);
    for item in &items {
        let status = if item.node != Node::Number(0, 2259) {
            0x8034_0000u32
        } else if item.attribute != 13 {
            0x8035_0000
        } else if item.range.is_some_and(|range| !range.is_empty()) {
            0x8036_0000
        } else if item.encoding.is_some_and(|name| !name.is_empty() && name != "Default Binary") {
            0x8039_0000
        } else {
            0
        };
        if status != 0 {
            put(body, &[&[2], &status.to_le_bytes()]);
            continue;
        }
        let (source, server) = (stamps == 0 || stamps == 2, stamps == 1 || stamps == 2);
        put(body, &[&[1 | u8::from(source) << 2 | u8::from(server) << 3], &[6, 0, 0, 0, 0]]);
        if source {
            put(body, &[&NOW.to_le_bytes()]);
        }
        if server {
            put(body, &[&NOW.to_le_bytes()]);
        }
    }
    put(body, &[&(-1i32).to_le_bytes()]);
    Ok(())
}

impl Twin {
    fn send(&mut self, out: &mut Vec<u8>, request: u32) {
        let body = std::mem::take(&mut self.body);
        let parts = body.len().div_ceil(LIMIT - 24).max(1);
        for k in 0..parts {
            let part = &body[k * (LIMIT - 24)..body.len().min((k + 1) * (LIMIT - 24))];
            let letter = if k + 1 == parts { b"MSGF" } else { b"MSGC" };
            put(out, &[letter, &(part.len() as u32 + 24).to_le_bytes(), &1u32.to_le_bytes(), &1u32.to_le_bytes(), &self.next.to_le_bytes(), &request.to_le_bytes(), part]);
            self.next += 1;
        }
        self.body = body;
    }

    fn answer(&mut self, message: &[u8]) -> Option<u32> {
        const BAD: u32 = 0x8007_0000;
        self.body.clear();
        let mut cursor = Cursor(message);
        let type_id = cursor.node()?;
        let token = cursor.node()?;
        cursor.i64()?;
        let handle = cursor.u32()?;
        cursor.u32()?;
        cursor.text()?;
        cursor.u32()?;
        cursor.extension()?;
        let known = token == Node::Number(1, 3) && self.created;
        let done = match type_id {
            Node::Number(0, 461) => {
                self.created = true;
                self.body.extend_from_slice(&created(handle));
                Ok(())
            }
            Node::Number(0, 467) if known => {
                self.user = true;
                header(&mut self.body, 470, handle, 0);
                put(&mut self.body, &[&[255; 12]]);
                Ok(())
            }
            Node::Number(0, 473) if known => {
                self.user = false;
                header(&mut self.body, 476, handle, 0);
                Ok(())
            }
            Node::Number(0, 631) if known && self.user => read(&mut cursor, &mut self.body, handle),
            Node::Number(0, 700) if known && self.user => update(&mut cursor, &mut self.body, handle),
            Node::Number(0, 631 | 700) => Err(0x8025_0000),
            Node::Number(_, _) | Node::Name(_, _) => Err(0x800B_0000),
            Node::Other(_) => Err(BAD),
        };
        if let Err(status) = done {
            self.body.clear();
            header(&mut self.body, 397, handle, status);
        }
        Some(handle)
    }

    /// Answers one chunk; `None` ends the connection.
    fn chunk(&mut self, chunk: &[u8], out: &mut Vec<u8>) -> Option<()> {
        let mut cursor = Cursor(&chunk[8..]);
        match &chunk[..4] {
            b"HELF" if !self.greeted => {
                self.greeted = true;
                self.next = 1;
                put(out, &[b"ACKF", &28u32.to_le_bytes(), &0u32.to_le_bytes(), &65_536u32.to_le_bytes(), &65_536u32.to_le_bytes(), &4_194_304u32.to_le_bytes(), &64u32.to_le_bytes()]);
            }
            b"OPNF" if self.greeted => {
                cursor.u32()?;
                if cursor.bytes()?? != POLICY {
                    return None;
                }
                cursor.bytes()?;
                cursor.bytes()?;
                self.heard = cursor.u32()?;
                let request = cursor.u32()?;
                self.opened = true;
                let mut body = Vec::new();
                header(&mut body, 449, request, 0);
                put(&mut body, &[&0u32.to_le_bytes(), &1u32.to_le_bytes(), &1u32.to_le_bytes(), &NOW.to_le_bytes(), &3_600_000u32.to_le_bytes(), &(-1i32).to_le_bytes()]);
                put(out, &[b"OPNF", &(75 + 4 + body.len() as u32).to_le_bytes(), &1u32.to_le_bytes(), &47u32.to_le_bytes(), POLICY, &[255; 8], &self.next.to_le_bytes(), &request.to_le_bytes(), &body]);
                self.next += 1;
            }
            b"MSGF" | b"MSGC" if self.opened => {
                if cursor.u32()? != 1 || cursor.u32()? != 1 {
                    return None;
                }
                let sequence = cursor.u32()?;
                if sequence != self.heard + 1 {
                    return None;
                }
                self.heard = sequence;
                let request = cursor.u32()?;
                self.chunks += 1;
                if self.chunks > 64 || self.message.len() + cursor.0.len() > 4_194_304 {
                    return None;
                }
                if chunk[3] == b'C' {
                    self.message.extend_from_slice(cursor.0);
                    return Some(());
                }
                if self.message.is_empty() {
                    self.answer(cursor.0)?;
                } else {
                    let mut message = std::mem::take(&mut self.message);
                    message.extend_from_slice(cursor.0);
                    self.answer(&message)?;
                    message.clear();
                    self.message = message;
                }
                self.chunks = 0;
                self.send(out, request);
            }
            _ => return None,
        }
        Some(())
    }
}

fn text(body: &mut Vec<u8>, text: Option<&str>) {
    match text {
        None => put(body, &[&(-1i32).to_le_bytes()]),
        Some(text) => put(body, &[&(text.len() as i32).to_le_bytes(), text.as_bytes()]),
    }
}

/// CreateSession's answer, with the one endpoint.
fn created(handle: u32) -> Vec<u8> {
    let mut body = Vec::new();
    header(&mut body, 464, handle, 0);
    put(&mut body, &[&[1, 1, 2, 0, 1, 1, 3, 0], &60_000f64.to_le_bytes(), &[255; 8], &1u32.to_le_bytes()]);
    text(&mut body, Some("opc.tcp://localhost:4840"));
    text(&mut body, Some("urn:uahist"));
    text(&mut body, Some("urn:uahist"));
    put(&mut body, &[&[2]]);
    text(&mut body, Some("uahist"));
    put(&mut body, &[&0u32.to_le_bytes(), &[255; 8], &1u32.to_le_bytes()]);
    text(&mut body, Some("opc.tcp://localhost:4840"));
    put(&mut body, &[&[255; 4], &1u32.to_le_bytes()]);
    text(&mut body, Some("http://opcfoundation.org/UA/SecurityPolicy#None"));
    put(&mut body, &[&1u32.to_le_bytes()]);
    text(&mut body, Some("anonymous"));
    put(&mut body, &[&0u32.to_le_bytes(), &[255; 12]]);
    text(&mut body, Some("http://opcfoundation.org/UA-Profile/Transport/uatcp-uasc-uabinary"));
    put(&mut body, &[&[0], &[255; 12], &4_194_304u32.to_le_bytes()]);
    body
}

fn main() {
    let (mut input, mut output) = (std::io::stdin().lock(), std::io::stdout().lock());
    let (mut twin, mut waiting, mut out) = (Twin::default(), Vec::new(), Vec::new());
    let mut piece = vec![0; LIMIT];
    loop {
        let n = input.read(&mut piece).unwrap();
        if n == 0 {
            return;
        }
        waiting.extend_from_slice(&piece[..n]);
        let mut at = 0;
        while waiting.len() - at >= 8 {
            let size = u32::from_le_bytes(waiting[at + 4..at + 8].try_into().unwrap()) as usize;
            if size < 24 || size > LIMIT {
                return;
            }
            if waiting.len() - at < size {
                break;
            }
            if twin.chunk(&waiting[at..at + size], &mut out).is_none() {
                output.write_all(&out).unwrap();
                return;
            }
            at += size;
        }
        waiting.drain(..at);
        output.write_all(&out).unwrap();
        out.clear();
    }
}
