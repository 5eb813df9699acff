//! Messages, the ways to write them, and what is nearly one.

use super::{Rng, VALUE_BEFORE};
use crate::limits;
use crate::message::{encode, Message, Peer, Record};
use crate::wire::{minimal, put_bytes};

fn some_record(rng: &mut Rng) -> Record {
    let most = *rng.pick(&[300, 300, 300, limits::VALUE]);
    let (n, m) = (rng.size(0, limits::KEY), rng.size(0, most));
    Record { key: rng.bytes(n), value: rng.bytes(m) }
}

fn some_peer(rng: &mut Rng) -> Peer {
    let n = rng.size(0, limits::ID);
    let addresses = (0..rng.below(limits::ADDRESSES + 1)).map(|_| rng.size(0, limits::ADDRESS)).collect::<Vec<_>>();
    Peer { id: rng.bytes(n), addresses: addresses.into_iter().map(|a| rng.bytes(a)).collect(), connection: rng.below(4) as u64 }
}

fn some_peers(rng: &mut Rng) -> Vec<Peer> {
    let n = *rng.pick(&[0, 0, 0, 1, 2, 5]);
    (0..n).map(|_| some_peer(rng)).collect()
}

/// A message within the writer's limits.
pub fn message(rng: &mut Rng) -> Message {
    let n = rng.size(0, limits::KEY);
    Message {
        kind: rng.below(6) as u64,
        key: rng.bytes(n),
        record: if rng.one_in(2) { Some(some_record(rng)) } else { None },
        closer: some_peers(rng),
        providers: some_peers(rng),
    }
}

/// A message within the limits of its parts whose body has about the limit's length: as many of the largest peers as fit, and one that fills up.
fn just_as_long(length: usize) -> Message {
    let peer = |last: usize| Peer { id: vec![1; 64], addresses: vec![vec![2; 128], vec![3; last]], connection: 3 };
    let largest = Peer { id: vec![1; 64], addresses: vec![vec![2; 128]; 4], connection: 3 };
    let mut m = Message { kind: 4, closer: vec![largest; 27], ..Message::default() };
    m.closer.push(peer(100));
    let rest = length - encode(&m).len();
    m.closer.pop();
    m.closer.push(peer(100 + rest));
    m
}

/// A message to be written that is mostly within the limits: one thing may be at or just over its limit.
pub fn message_to_write(rng: &mut Rng) -> Message {
    let mut m = message(rng);
    if rng.one_in(20) {
        return just_as_long(rng.between(limits::BODY - 2, limits::BODY + 2));
    }
    match rng.below(12) {
        0 => m.kind = *rng.pick(&[6, 7, 255, 256, u64::MAX]),
        1 => m.key = vec![7; rng.between(127, 130)],
        2 => m.record = Some(Record { key: vec![7; rng.between(127, 130)], value: vec![] }),
        3 => {
            let length = *rng.pick(&[limits::VALUE - 1, limits::VALUE, limits::VALUE + 1, limits::VALUE + 2, VALUE_BEFORE, VALUE_BEFORE + 1]);
            m.record = Some(Record { key: vec![], value: vec![7; length] });
        }
        4 => m.closer.push(Peer { id: vec![7; rng.between(63, 66)], ..Peer::default() }),
        5 => m.providers.push(Peer { addresses: vec![vec![1]; rng.between(3, 6)], ..Peer::default() }),
        6 => m.closer.push(Peer { addresses: vec![vec![1; rng.between(127, 130)]], ..Peer::default() }),
        7 => m.providers.push(Peer { connection: rng.between(2, 5) as u64, ..Peer::default() }),
        8 => {
            let largest = Peer { id: vec![1; 64], addresses: vec![vec![2; 128]; 4], connection: 3 };
            m.closer = vec![largest; rng.between(22, 28)];
        }
        _ => {}
    }
    m
}

/// A varint that needn't be minimal, of at most `most` bytes.
pub fn padded_varint(rng: &mut Rng, value: u64, most: usize) -> Vec<u8> {
    let mut bytes = minimal(value);
    if rng.one_in(4) && bytes.len() < most {
        let length = rng.between(bytes.len() + 1, most);
        *bytes.last_mut().expect("a byte") |= 0x80;
        bytes.resize(length - 1, 0x80);
        bytes.push(0);
    }
    bytes
}

fn loose_tag(rng: &mut Rng, number: u64, wire: u64) -> Vec<u8> {
    padded_varint(rng, number << 3 | wire, 5)
}

fn loose_number(rng: &mut Rng, number: u64, value: u64) -> Vec<u8> {
    [loose_tag(rng, number, 0), padded_varint(rng, value, 10)].concat()
}

fn loose_bytes(rng: &mut Rng, number: u64, bytes: &[u8]) -> Vec<u8> {
    [loose_tag(rng, number, 2), padded_varint(rng, bytes.len() as u64, 10), bytes.to_vec()].concat()
}

/// A field that a reader passes over: unknown, or known with another wire type.
fn passed_over(rng: &mut Rng, known_numbers: &[u64], known_bytes: &[u64]) -> Vec<u8> {
    let unknown = *rng.pick(&[4, 6, 7, 11, 15, 16, 100, (1 << 29) - 1]);
    let bytes_or_unknown = if rng.one_in(2) || known_bytes.is_empty() { unknown } else { *rng.pick(known_bytes) };
    let number_or_unknown = if rng.one_in(2) || known_numbers.is_empty() { unknown } else { *rng.pick(known_numbers) };
    match rng.below(4) {
        0 => {
            let value = rng.number();
            loose_number(rng, bytes_or_unknown, value)
        }
        1 => [loose_tag(rng, bytes_or_unknown, 1), rng.bytes(8)].concat(),
        2 => [loose_tag(rng, number_or_unknown, 5), rng.bytes(4)].concat(),
        _ => {
            let n = rng.below(20);
            let inside = rng.bytes(n);
            loose_bytes(rng, number_or_unknown, &inside)
        }
    }
}

/// The pieces of some lists, each list in its own order, the lists mixed, with fields to be passed over between.
fn mixed_pieces(rng: &mut Rng, lists: Vec<Vec<Vec<u8>>>, known_numbers: &[u64], known_bytes: &[u64]) -> Vec<Vec<u8>> {
    let mut queues: Vec<std::collections::VecDeque<Vec<u8>>> = lists.into_iter().map(Into::into).collect();
    let mut out = Vec::new();
    loop {
        if rng.one_in(10) {
            out.push(passed_over(rng, known_numbers, known_bytes));
        }
        let waiting: Vec<usize> = (0..queues.len()).filter(|i| !queues[*i].is_empty()).collect();
        if waiting.is_empty() {
            return out;
        }
        let i = *rng.pick(&waiting);
        out.push(queues[i].pop_front().expect("waiting"));
    }
}

fn mixed(rng: &mut Rng, lists: Vec<Vec<Vec<u8>>>, known_numbers: &[u64], known_bytes: &[u64]) -> Vec<u8> {
    mixed_pieces(rng, lists, known_numbers, known_bytes).concat()
}

/// The occurrences of a single bytes field: the last counts; an empty one may be left out.
fn single(rng: &mut Rng, number: u64, bytes: &[u8]) -> Vec<Vec<u8>> {
    let mut all = Vec::new();
    let earlier = if rng.one_in(6) { rng.between(1, 2) } else { 0 };
    for _ in 0..earlier {
        let n = rng.below(9);
        let other = rng.bytes(n);
        all.push(loose_bytes(rng, number, &other));
    }
    if !bytes.is_empty() || earlier > 0 || rng.one_in(4) {
        all.push(loose_bytes(rng, number, bytes));
    }
    all
}

fn single_number(rng: &mut Rng, number: u64, value: u64) -> Vec<Vec<u8>> {
    let mut all = Vec::new();
    if rng.one_in(6) {
        let other = rng.number();
        all.push(loose_number(rng, number, other));
    }
    if value != 0 || !all.is_empty() || rng.one_in(2) {
        all.push(loose_number(rng, number, value));
    }
    all
}

/// A record in one to three occurrences: its fields, cut anywhere between two of them. An occurrence may be empty.
fn loose_record(rng: &mut Rng, record: &Record) -> Vec<Vec<u8>> {
    let (key, value) = (single(rng, 1, &record.key), single(rng, 2, &record.value));
    let received = if rng.one_in(4) { vec![loose_bytes(rng, 5, b"2026-11-15T00:00:00Z")] } else { vec![] };
    let mut rest = mixed_pieces(rng, vec![key, value, received], &[], &[1, 2, 5]);
    let mut occurrences = Vec::new();
    let more = if rng.one_in(3) { rng.between(1, 2) } else { 0 };
    for _ in 0..more {
        let after = rest.split_off(rng.below(rest.len() + 1));
        occurrences.push(rest.concat());
        rest = after;
    }
    occurrences.push(rest.concat());
    occurrences
}

fn loose_peer(rng: &mut Rng, peer: &Peer) -> Vec<u8> {
    let id = single(rng, 1, &peer.id);
    let addresses = peer.addresses.iter().map(|a| loose_bytes(rng, 2, a)).collect();
    let connection = if peer.connection == 0 && rng.one_in(4) { *rng.pick(&[4, 5, 1 << 32, u64::MAX]) } else { peer.connection };
    let connection = single_number(rng, 3, connection);
    mixed(rng, vec![id, addresses, connection], &[3], &[1, 2])
}

/// A body that means a message, written in some other way: fields mixed and repeated, varints padded, fields to be passed over.
pub fn loose_body(rng: &mut Rng, m: &Message) -> Vec<u8> {
    let kind = single_number(rng, 1, m.kind);
    let key = single(rng, 2, &m.key);
    let occurrences = m.record.as_ref().map(|r| loose_record(rng, r)).unwrap_or_default();
    let record = occurrences.iter().map(|o| loose_bytes(rng, 3, o)).collect();
    let mut peers = |number: u64, list: &[Peer]| -> Vec<Vec<u8>> {
        let entries: Vec<Vec<u8>> = list.iter().map(|p| loose_peer(rng, p)).collect();
        entries.iter().map(|e| loose_bytes(rng, number, e)).collect()
    };
    let (closer, providers) = (peers(8, &m.closer), peers(9, &m.providers));
    mixed(rng, vec![kind, key, record, closer, providers], &[1, 10], &[2, 3, 8, 9])
}

/// A field that breaks a rule of reading (5) wherever it stands, in what ends after it.
pub fn bad_field(rng: &mut Rng) -> Vec<u8> {
    match rng.below(12) {
        0 => vec![0x0b],
        1 => vec![0x14, 0],
        2 => vec![0x16, 0, 0],
        3 => vec![0x1f, 0],
        4 => vec![rng.below(8) as u8, 0],
        5 => vec![0x88, 0x80, 0x80, 0x80, 0x80, 0x00, 0x00],
        6 => vec![0x88, 0x80, 0x80, 0x80, 0x10, 0x00],
        // a part past its enclosing end
        9 => vec![0x0a, rng.between(3, 127) as u8, 1, 2],
        10 => vec![0x09, 1, 2, 3, 4, 5, 6, 7],
        11 => vec![0x0d, 1, 2, 3],
        7 => [vec![0x08], vec![0xff; 9], vec![*rng.pick(&[0x02, 0x7f, 0x80, 0xff]), 0]].concat(),
        _ => [vec![0x12], minimal(u64::MAX - rng.below(3) as u64)].concat(),
    }
}

/// A body with some damage: often malformed, sometimes still good.
pub fn damaged_body(rng: &mut Rng, body: &[u8]) -> Vec<u8> {
    let mut out = body.to_vec();
    let at = rng.below(out.len() + 1);
    match rng.below(9) {
        0 => out.truncate(at),
        1 if !out.is_empty() => out[at % body.len()] ^= 1 << rng.below(8),
        2 if !out.is_empty() => out[at % body.len()] = rng.byte(),
        3 => out.insert(at, rng.byte()),
        4 if !out.is_empty() => drop(out.remove(at % body.len())),
        5 => {
            let kind = *rng.pick(&[6, 7, 127, 128, 256, 1 << 32, (1 << 32) + 5, u64::MAX]);
            out.extend(loose_number(rng, 1, kind));
        }
        // in a record or a peer, with more after it
        6 => {
            let field = bad_field(rng);
            put_bytes(&mut out, *rng.pick(&[3, 8, 9, 8]), &field);
            put_bytes(&mut out, 4, &vec![7; rng.below(150)]);
        }
        // a field of the record across two of its occurrences: well formed only if they were joined
        7 => {
            let mut field = Vec::new();
            put_bytes(&mut field, *rng.pick(&[1, 2]), &vec![7; rng.between(1, 20)]);
            let rest = field.split_off(rng.between(1, field.len() - 1));
            put_bytes(&mut out, 3, &field);
            put_bytes(&mut out, 3, &rest);
        }
        _ => {
            let field = bad_field(rng);
            out.extend(field);
        }
    }
    out
}

/// A body that means a message, filled up to a length with a field that is passed over; as it is where there is no room for that.
pub fn filled_body(m: &Message, length: usize) -> Vec<u8> {
    let mut body = encode(m);
    let rest = length.saturating_sub(body.len());
    for width in 1..=3 {
        if rest > width && minimal((rest - 1 - width) as u64).len() == width {
            put_bytes(&mut body, 4, &vec![7; rest - 1 - width]);
            break;
        }
    }
    body
}

/// A body to be read: exact, loose, damaged or noise. The reader has no limit for values.
pub fn body(rng: &mut Rng) -> Vec<u8> {
    let mut m = message(rng);
    if rng.one_in(30) {
        let length = *rng.pick(&[limits::VALUE + 1, limits::VALUE + 1, 2 * limits::VALUE, limits::BODY - 200]);
        m.record = Some(Record { key: vec![], value: rng.bytes(length) });
    }
    if rng.one_in(30) {
        return filled_body(&m, *rng.pick(&[limits::BODY - 1, limits::BODY, limits::BODY, limits::BODY + 1, 65_536 + 10]));
    }
    match rng.below(10) {
        0 => {
            let n = rng.size(0, 40);
            rng.bytes(n)
        }
        1..=2 => encode(&m),
        3..=6 => loose_body(rng, &m),
        _ => {
            let loose = loose_body(rng, &m);
            damaged_body(rng, &loose)
        }
    }
}
