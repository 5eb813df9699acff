//! Protocol Buffers: varints and fields, as RULES, Messages, has them.

/// A part of a body: where it starts, and its length. What is absent is at 0 with length 0.
#[derive(Clone, Copy, Debug, Default, PartialEq, Eq)]
pub struct Span {
    pub at: usize,
    pub len: usize,
}

impl Span {
    pub fn of<'a>(&self, body: &'a [u8]) -> &'a [u8] {
        &body[self.at..self.at + self.len]
    }

    pub fn end(&self) -> usize {
        self.at + self.len
    }
}

/// What a field holds: wire type 0, wire type 2, or wire types 1 and 5, which no known field has.
#[derive(Clone, Copy, Debug, PartialEq, Eq)]
pub enum Held {
    Number(u64),
    Bytes(Span),
    Fixed,
}

#[derive(Clone, Copy, Debug, PartialEq, Eq)]
pub struct Field {
    pub number: u64,
    pub held: Held,
}

/// The varint at a position, of at most `most` bytes and 64 bits, and the position after it.
fn varint(body: &[u8], at: usize, end: usize, most: usize) -> Option<(u64, usize)> {
    let mut value: u128 = 0;
    for i in 0..most {
        if at + i >= end {
            return None;
        }
        let byte = body[at + i];
        value |= u128::from(byte & 0x7f) << (7 * i);
        if byte < 0x80 {
            return u64::try_from(value).ok().map(|v| (v, at + i + 1));
        }
    }
    None
}

/// "A varint over 10 bytes or 64 bits" gives 5; padding is allowed.
pub fn read_varint(body: &[u8], at: usize, end: usize) -> Option<(u64, usize)> {
    varint(body, at, end, 10)
}

/// The part of `len` bytes at a position, unless it runs past the end.
fn part(at: usize, len: u64, end: usize) -> Option<Span> {
    if len > (end - at) as u64 {
        None
    } else {
        Some(Span { at, len: len as usize })
    }
}

/// One field and the position after it.
fn field(body: &[u8], at: usize, end: usize) -> Option<(Field, usize)> {
    let (tag, at) = varint(body, at, end, 5)?;
    if tag > u64::from(u32::MAX) || tag >> 3 == 0 {
        return None;
    }
    let (held, at) = match tag & 7 {
        0 => read_varint(body, at, end).map(|(value, next)| (Held::Number(value), next))?,
        1 => (Held::Fixed, part(at, 8, end)?.end()),
        2 => {
            let (len, start) = read_varint(body, at, end)?;
            let span = part(start, len, end)?;
            (Held::Bytes(span), span.end())
        }
        5 => (Held::Fixed, part(at, 4, end)?.end()),
        _ => return None,
    };
    Some((Field { number: tag >> 3, held }, at))
}

/// All fields of a part of the body; none where it isn't well formed.
pub fn fields(body: &[u8], whole: Span) -> Option<Vec<Field>> {
    let mut found = Vec::new();
    let mut at = whole.at;
    while at < whole.end() {
        let (one, next) = field(body, at, whole.end())?;
        found.push(one);
        at = next;
    }
    Some(found)
}

/// The fields from a position on, up to the end or to one that isn't well formed.
pub fn fields_from(body: &[u8], from: usize, end: usize) -> Vec<Field> {
    let mut found = Vec::new();
    let mut at = from;
    while at < end {
        let Some((one, next)) = field(body, at, end) else { break };
        found.push(one);
        at = next;
    }
    found
}

/// Where the bytes fields of a number are.
pub fn spans(fields: &[Field], number: u64) -> Vec<Span> {
    fields.iter().filter(|f| f.number == number).filter_map(|f| if let Held::Bytes(s) = f.held { Some(s) } else { None }).collect()
}

/// The values of the varint fields of a number.
pub fn numbers(fields: &[Field], number: u64) -> Vec<u64> {
    fields.iter().filter(|f| f.number == number).filter_map(|f| if let Held::Number(v) = f.held { Some(v) } else { None }).collect()
}

/// A minimal varint.
pub fn minimal(mut value: u64) -> Vec<u8> {
    let mut bytes = Vec::new();
    while value >= 0x80 {
        bytes.push(value as u8 | 0x80);
        value >>= 7;
    }
    bytes.push(value as u8);
    bytes
}

pub fn put_number(out: &mut Vec<u8>, number: u64, value: u64) {
    out.extend(minimal(number << 3));
    out.extend(minimal(value));
}

pub fn put_bytes(out: &mut Vec<u8>, number: u64, bytes: &[u8]) {
    out.extend(minimal(number << 3 | 2));
    out.extend(minimal(bytes.len() as u64));
    out.extend(bytes);
}

/// "An empty single bytes field isn't written."
pub fn put_single(out: &mut Vec<u8>, number: u64, bytes: &[u8]) {
    if !bytes.is_empty() {
        put_bytes(out, number, bytes);
    }
}
