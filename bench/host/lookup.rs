// lookup ours|value|plain step|hash CANDIDATES MILLISECONDS: does the operation on a lookup with so many candidates for that time, and writes the
// nanoseconds of one and what came out. `ours` has the exported calls, which change lent bytes in place; `value` has lookups by value, which run
// inside lookup_c; `plain` has the same steps in ordinary Rust: a vector of candidates changed in place, slices, bounds tested, nothing done for
// speed.

const MESSAGE: usize = 1042;
const NAMED: usize = 20;

// ---- ours

// include/starterbell.h says what these are.
const BOX: usize = 616;
const LOOKUP: usize = 25256;
const CANDIDATES_AT: usize = 168;
const CANDIDATE: usize = 98;
const ID_LENGTH_AT: usize = 1;
const ID_AT: usize = 2;
const DONE: u32 = 64;
const GOING: u32 = 64;
const ASK: u32 = 66;
const LIMIT: usize = 3;

unsafe extern "C" {
    fn starterbell_sha256(source: *const u8, length: usize, out: *mut u8);
    fn starterbell_start(me: *mut u8, me_length: usize, id: *const u8, id_length: usize, addresses: *const u8, addresses_length: usize) -> u32;
    fn starterbell_read(body: *const u8, body_length: usize, out: *mut u64, out_length: usize) -> u32;
    fn starterbell_lookup_start(
        me: *const u8,
        me_length: usize,
        memory: *mut u8,
        memory_length: usize,
        contacts: *const u8,
        contacts_length: usize,
        key: *const u8,
        key_length: usize,
        limit: usize,
        out: *mut u64,
        out_length: usize,
    ) -> u32;
    fn starterbell_lookup_next(memory: *mut u8, memory_length: usize, out: *mut u64, out_length: usize) -> u32;
    fn starterbell_lookup_reply(
        me: *const u8,
        me_length: usize,
        memory: *mut u8,
        memory_length: usize,
        id: *const u8,
        id_length: usize,
        body: *const u8,
        body_length: usize,
        view: *const u64,
        view_length: usize,
        out: *mut u64,
        out_length: usize,
    ) -> u32;
    fn starterbell_lookup_turns(
        table: *const u8,
        table_length: usize,
        own: *const u8,
        own_length: usize,
        key: *const u8,
        key_length: usize,
        before: *const u8,
        before_length: usize,
        bodies: *const u8,
        bodies_length: usize,
        turns: usize,
    ) -> usize;
}

fn ours_hash(id: &[u8]) -> [u8; 32] {
    let mut out = [0; 32];
    unsafe { starterbell_sha256(id.as_ptr(), id.len(), out.as_mut_ptr()) };
    out
}

struct Ours {
    me: [u8; BOX],
    view: [u64; 8],
    out: [u64; 22],
}

impl Ours {
    fn step(&mut self, lookup: &mut [u8], body: &[u8]) {
        let (me, view, out) = (&self.me, &self.view, &mut self.out);
        let asked = unsafe { starterbell_lookup_next(lookup.as_mut_ptr(), lookup.len(), out.as_mut_ptr(), out.len()) };
        assert_eq!(asked, ASK);
        let at = CANDIDATES_AT + out[0] as usize * CANDIDATE;
        let n = lookup[at + ID_LENGTH_AT] as usize;
        let mut id = [0; 64];
        id.copy_from_slice(&lookup[at + ID_AT..at + ID_AT + 64]);
        let went = unsafe {
            starterbell_lookup_reply(
                me.as_ptr(),
                me.len(),
                lookup.as_mut_ptr(),
                lookup.len(),
                id.as_ptr(),
                n,
                body.as_ptr(),
                body.len(),
                view.as_ptr(),
                view.len(),
                out.as_mut_ptr(),
                out.len(),
            )
        };
        assert_eq!(went, GOING);
    }
}

fn ours_turns(c: &Case, turns: usize) -> usize {
    let mut o = Ours { me: [0; BOX], view: [0; 8], out: [0; 22] };
    let mut l = vec![0; LOOKUP];
    unsafe {
        assert_eq!(starterbell_start(o.me.as_mut_ptr(), BOX, c.own.as_ptr(), c.own.len(), c.own.as_ptr(), 0), DONE);
        assert_eq!(starterbell_read(c.bodies.as_ptr(), MESSAGE, o.view.as_mut_ptr(), o.view.len()), DONE);
        let went = starterbell_lookup_start(
            o.me.as_ptr(),
            BOX,
            l.as_mut_ptr(),
            LOOKUP,
            c.table.as_ptr(),
            c.table.len(),
            c.key.as_ptr(),
            c.key.len(),
            LIMIT,
            o.out.as_mut_ptr(),
            o.out.len(),
        );
        assert_eq!(went, GOING);
    }
    for body in c.before.chunks_exact(MESSAGE) {
        o.step(&mut l, body);
    }
    let mut k = l.clone();
    let mut sum = 0;
    for body in c.bodies.chunks_exact(MESSAGE).cycle().take(turns) {
        k.copy_from_slice(&l);
        o.step(&mut k, body);
        sum += k[0] as usize + k[1] as usize * 256;
    }
    sum
}

fn value_turns(c: &Case, turns: usize) -> usize {
    unsafe {
        starterbell_lookup_turns(
            c.table.as_ptr(),
            c.table.len(),
            c.own.as_ptr(),
            c.own.len(),
            c.key.as_ptr(),
            c.key.len(),
            c.before.as_ptr(),
            c.before.len(),
            c.bodies.as_ptr(),
            c.bodies.len(),
            turns,
        )
    }
}

// ---- plain: the hash

#[rustfmt::skip]
const ROUNDS: [u32; 64] = [
    0x428a2f98, 0x71374491, 0xb5c0fbcf, 0xe9b5dba5, 0x3956c25b, 0x59f111f1, 0x923f82a4, 0xab1c5ed5, 0xd807aa98, 0x12835b01, 0x243185be, 0x550c7dc3,
    0x72be5d74, 0x80deb1fe, 0x9bdc06a7, 0xc19bf174, 0xe49b69c1, 0xefbe4786, 0x0fc19dc6, 0x240ca1cc, 0x2de92c6f, 0x4a7484aa, 0x5cb0a9dc, 0x76f988da,
    0x983e5152, 0xa831c66d, 0xb00327c8, 0xbf597fc7, 0xc6e00bf3, 0xd5a79147, 0x06ca6351, 0x14292967, 0x27b70a85, 0x2e1b2138, 0x4d2c6dfc, 0x53380d13,
    0x650a7354, 0x766a0abb, 0x81c2c92e, 0x92722c85, 0xa2bfe8a1, 0xa81a664b, 0xc24b8b70, 0xc76c51a3, 0xd192e819, 0xd6990624, 0xf40e3585, 0x106aa070,
    0x19a4c116, 0x1e376c08, 0x2748774c, 0x34b0bcb5, 0x391c0cb3, 0x4ed8aa4a, 0x5b9cca4f, 0x682e6ff3, 0x748f82ee, 0x78a5636f, 0x84c87814, 0x8cc70208,
    0x90befffa, 0xa4506ceb, 0xbef9a3f7, 0xc67178f2,
];

fn block(state: &mut [u32; 8], bytes: &[u8]) {
    let mut w = [0u32; 64];
    for (word, four) in w.iter_mut().zip(bytes.chunks_exact(4)) {
        *word = u32::from_be_bytes(four.try_into().unwrap());
    }
    for t in 16..64 {
        let s0 = w[t - 15].rotate_right(7) ^ w[t - 15].rotate_right(18) ^ (w[t - 15] >> 3);
        let s1 = w[t - 2].rotate_right(17) ^ w[t - 2].rotate_right(19) ^ (w[t - 2] >> 10);
        w[t] = w[t - 16].wrapping_add(s0).wrapping_add(w[t - 7]).wrapping_add(s1);
    }
    let [mut a, mut b, mut c, mut d, mut e, mut f, mut g, mut h] = *state;
    for t in 0..64 {
        let s1 = e.rotate_right(6) ^ e.rotate_right(11) ^ e.rotate_right(25);
        let t1 = h.wrapping_add(s1).wrapping_add((e & f) ^ (!e & g)).wrapping_add(ROUNDS[t]).wrapping_add(w[t]);
        let s0 = a.rotate_right(2) ^ a.rotate_right(13) ^ a.rotate_right(22);
        let t2 = s0.wrapping_add((a & b) ^ (a & c) ^ (b & c));
        (h, g, f, e, d, c, b, a) = (g, f, e, d.wrapping_add(t1), c, b, a, t1.wrapping_add(t2));
    }
    for (s, v) in state.iter_mut().zip([a, b, c, d, e, f, g, h]) {
        *s = s.wrapping_add(v);
    }
}

fn plain_hash(source: &[u8]) -> [u8; 32] {
    let mut state = [0x6a09e667, 0xbb67ae85, 0x3c6ef372, 0xa54ff53a, 0x510e527f, 0x9b05688c, 0x1f83d9ab, 0x5be0cd19];
    let whole = source.chunks_exact(64);
    let rest = whole.remainder();
    whole.for_each(|b| block(&mut state, b));
    let mut last = [0u8; 128];
    last[..rest.len()].copy_from_slice(rest);
    last[rest.len()] = 0x80;
    let end = if rest.len() < 56 { 64 } else { 128 };
    last[end - 8..end].copy_from_slice(&(source.len() as u64 * 8).to_be_bytes());
    last[..end].chunks_exact(64).for_each(|b| block(&mut state, b));
    let mut out = [0; 32];
    out.chunks_exact_mut(4).zip(state).for_each(|(four, s)| four.copy_from_slice(&s.to_be_bytes()));
    out
}

// ---- plain: messages

type Span = std::ops::Range<usize>;

#[derive(Clone, PartialEq, Default)]
struct View {
    kind: u64,
    key: Span,
    held: Option<(Span, Span)>,
}

struct Field {
    number: u64,
    value: u64,
    bytes: Option<Span>,
}

fn varint(s: &[u8], at: &mut usize) -> Option<u64> {
    let mut value = 0u64;
    for i in 0..10 {
        let b = *s.get(*at)?;
        *at += 1;
        if i == 9 && b > 1 {
            return None;
        }
        value |= ((b & 127) as u64) << (7 * i);
        if b < 128 {
            return Some(value);
        }
    }
    None
}

fn field(s: &[u8], at: &mut usize) -> Option<Field> {
    let tag = varint(s, at)?;
    let mut skip = |n: u64| -> Option<Span> {
        let start = *at;
        let end = start.checked_add(usize::try_from(n).ok()?).filter(|&e| e <= s.len())?;
        *at = end;
        Some(start..end)
    };
    match tag & 7 {
        1 => skip(8).map(|_| Field { number: tag >> 3, value: 0, bytes: None }),
        5 => skip(4).map(|_| Field { number: tag >> 3, value: 0, bytes: None }),
        0 => varint(s, at).map(|value| Field { number: tag >> 3, value, bytes: None }),
        2 => {
            let n = varint(s, at)?;
            let start = *at;
            let end = start.checked_add(usize::try_from(n).ok()?).filter(|&e| e <= s.len())?;
            *at = end;
            Some(Field { number: tag >> 3, value: 0, bytes: Some(start..end) })
        }
        _ => None,
    }
}

// The last of the byte strings of a number in a part of the body; none where the part can't be read.
fn last_bytes(body: &[u8], part: Span, number: u64) -> Option<Span> {
    let (mut at, mut last) = (part.start, part.start..part.start);
    while at < part.end {
        let f = field(&body[..part.end], &mut at)?;
        if f.number == number {
            last = f.bytes?;
        }
    }
    Some(last)
}

fn read(body: &[u8]) -> Option<View> {
    let (mut at, mut view) = (0, View::default());
    while at < body.len() {
        let f = field(body, &mut at)?;
        match (f.number, f.bytes) {
            (1, None) => view.kind = f.value,
            (2, Some(key)) => view.key = key,
            (3, Some(part)) => view.held = Some((last_bytes(body, part.clone(), 1)?, last_bytes(body, part, 2)?)),
            (8 | 9, Some(part)) => {
                last_bytes(body, part, 1)?;
            }
            (1 | 2 | 3 | 8 | 9, _) => return None,
            _ => {}
        }
    }
    Some(view)
}

fn closer_ids(body: &[u8]) -> Vec<Span> {
    let (mut at, mut ids) = (0, Vec::new());
    while at < body.len() && ids.len() < 21 {
        match field(body, &mut at) {
            Some(Field { number: 8, bytes: Some(part), .. }) => ids.extend(last_bytes(body, part, 1)),
            Some(_) => {}
            None => break,
        }
    }
    ids
}

// ---- plain: the lookup

#[derive(Clone, Copy, PartialEq)]
enum Mark {
    Idle,
    InFlight,
    Answered,
    Failed,
}

#[derive(Clone)]
struct Candidate {
    id: [u8; 64],
    place: [u8; 32],
    mark: Mark,
    len: u8,
}

#[derive(Clone)]
struct Lookup {
    candidates: Vec<Candidate>,
    size: usize,
    target: [u8; 32],
    limit: usize,
    turned: bool,
}

enum Answer {
    Refused,
    Over(Vec<usize>, usize),
    Wait,
    Ask(usize),
    Going,
}

fn nearer(target: &[u8; 32], a: &[u8; 32], b: &[u8; 32]) -> bool {
    let distances = |p: &[u8; 32]| -> [u8; 32] { std::array::from_fn(|i| p[i] ^ target[i]) };
    distances(a) < distances(b)
}

fn candidate(id: &[u8]) -> Candidate {
    let mut kept = [0; 64];
    kept[..id.len()].copy_from_slice(id);
    Candidate { id: kept, place: plain_hash(id), mark: Mark::Idle, len: id.len() as u8 }
}

impl Lookup {
    fn in_form(&self) -> bool {
        (1..=128).contains(&self.size)
            && (1..=10).contains(&self.limit)
            && self.candidates.len() <= 256
            && self.candidates.iter().all(|c| (1..=64).contains(&c.len))
            && self.candidates.windows(2).all(|two| nearer(&self.target, &two[0].place, &two[1].place))
    }

    fn twenty(&self) -> impl Iterator<Item = (usize, &Candidate)> {
        self.candidates.iter().enumerate().filter(|(_, c)| c.mark != Mark::Failed).take(20)
    }

    fn over(&self) -> bool {
        self.twenty().all(|(_, c)| c.mark == Mark::Answered)
    }

    fn end(&self) -> Answer {
        Answer::Over(self.twenty().map(|(i, _)| i).collect(), self.candidates.iter().filter(|c| c.mark != Mark::Idle).count())
    }

    fn next(&mut self) -> Answer {
        if !self.in_form() {
            return Answer::Refused;
        }
        if self.over() {
            return self.end();
        }
        if self.candidates.iter().filter(|c| c.mark == Mark::InFlight).count() >= self.limit {
            return Answer::Wait;
        }
        let Some(i) = self.twenty().find(|(_, c)| c.mark == Mark::Idle).map(|(i, _)| i) else {
            return Answer::Wait;
        };
        self.candidates[i].mark = Mark::InFlight;
        Answer::Ask(i)
    }

    fn hear(&mut self, ours: &[u8; 32], id: &[u8]) {
        if !(1..=64).contains(&id.len()) {
            return;
        }
        let c = candidate(id);
        if c.place == *ours || self.candidates.iter().any(|d| d.place == c.place) {
            return;
        }
        if self.candidates.len() == 256 {
            self.turned = true;
            return;
        }
        let rank = self.candidates.iter().position(|d| !nearer(&self.target, &d.place, &c.place)).unwrap_or(self.candidates.len());
        self.candidates.insert(rank, c);
    }

    fn reply(&mut self, ours: &[u8; 32], id: &[u8], body: &[u8], view: &View) -> Answer {
        if read(body).as_ref() != Some(view) || !self.in_form() || !(1..=64).contains(&id.len()) {
            return Answer::Refused;
        }
        let place = plain_hash(id);
        if place == *ours || self.over() {
            return Answer::Refused;
        }
        let Some(sender) = self.candidates.iter_mut().find(|c| c.mark == Mark::InFlight && c.place == place) else {
            return Answer::Refused;
        };
        if view.kind == 4 {
            sender.mark = Mark::Answered;
            for span in closer_ids(body) {
                self.hear(ours, &body[span]);
            }
        } else {
            sender.mark = Mark::Failed;
        }
        if self.over() { self.end() } else { Answer::Going }
    }

    fn step(&mut self, ours: &[u8; 32], body: &[u8], view: &View) {
        if let Answer::Ask(i) = self.next() {
            let c = &self.candidates[i];
            let (id, n) = (c.id, c.len as usize);
            if let Answer::Over(found, sent) = self.reply(ours, &id[..n], body, view) {
                std::hint::black_box((found, sent));
            }
        }
    }
}

fn plain_turns(c: &Case, turns: usize) -> usize {
    let ours = plain_hash(&c.own);
    let mut l = Lookup { candidates: vec![candidate(&c.first)], size: c.key.len(), target: plain_hash(&c.key), limit: LIMIT, turned: false };
    let view = read(&c.bodies[..MESSAGE]).unwrap();
    for body in c.before.chunks_exact(MESSAGE) {
        l.step(&ours, body, &view);
    }
    let mut k = l.clone();
    let mut sum = 0;
    for body in c.bodies.chunks_exact(MESSAGE).cycle().take(turns) {
        k.clone_from(&l);
        k.step(&ours, body, &view);
        sum += k.candidates.len();
    }
    sum
}

// ---- cases

struct Random(u64);

impl Random {
    fn next(&mut self) -> u64 {
        self.0 ^= self.0 << 13;
        self.0 ^= self.0 >> 7;
        self.0 ^= self.0 << 17;
        self.0
    }

    fn id(&mut self) -> [u8; 34] {
        let mut id = [0; 34];
        id.iter_mut().for_each(|b| *b = self.next() as u8);
        id
    }
}

struct Case {
    first: [u8; 34],
    table: Vec<u8>,
    own: [u8; 34],
    key: [u8; 34],
    before: Vec<u8>,
    bodies: Vec<u8>,
}

// A FIND_NODE reply that names 20 peers: so many new ones, and for the others the last of those again.
fn message(random: &mut Random, new: usize) -> Vec<u8> {
    let mut body = vec![8, 4];
    let mut id = random.id();
    for i in 0..NAMED {
        if 0 < i && i < new {
            id = random.id();
        }
        body.extend([0x42, 50, 0x0a, 34]);
        body.extend(id);
        body.extend([0x12, 12, 4, 127, 0, 0, 1, 6, 15, 161, 0, 0, 0, 0]);
    }
    assert_eq!(body.len(), MESSAGE);
    body
}

// A lookup starts from one contact and hears of others until it has so many candidates; then come messages with 20 new ones each.
fn case(candidates: usize) -> Case {
    let mut random = Random(0x9e37_79b9_7f4a_7c15);
    let (first, own, key) = (random.id(), random.id(), random.id());
    let mut table = vec![0u8; 616];
    table[0] = 1;
    table[2] = 34;
    table[8..40].copy_from_slice(&plain_hash(&first));
    table[40..74].copy_from_slice(&first);
    let (mut before, mut have) = (Vec::new(), 1);
    while have < candidates {
        let new = NAMED.min(candidates - have);
        before.extend(message(&mut random, new));
        have += new;
    }
    let bodies = (0..16).flat_map(|_| message(&mut random, NAMED)).collect();
    Case { first, table, own, key, before, bodies }
}

// ---- time

#[repr(C)]
struct Timespec {
    seconds: i64,
    nanoseconds: i64,
}

unsafe extern "C" {
    fn clock_gettime(clock: i32, time: *mut Timespec) -> i32;
}

// Nanoseconds of processor time.
fn now_ns() -> f64 {
    let mut t = Timespec { seconds: 0, nanoseconds: 0 };
    unsafe { clock_gettime(2, &mut t) };
    t.seconds as f64 * 1e9 + t.nanoseconds as f64
}

fn time_of(act: &mut dyn FnMut(usize) -> usize, times: usize) -> f64 {
    let began = now_ns();
    std::hint::black_box(act(std::hint::black_box(times)));
    now_ns() - began
}

// 21 hashes, as many as a step makes: of the sender's id and of 20 named ones.
fn hashes(hash: fn(&[u8]) -> [u8; 32], c: &Case, times: usize) -> usize {
    let ids: Vec<&[u8]> = c.bodies[2..].chunks(52).take(NAMED + 1).map(|entry| &entry[4..38]).collect();
    let mut sum = 0usize;
    for _ in 0..times {
        for id in &ids {
            sum = sum.wrapping_add(hash(std::hint::black_box(id))[0] as usize);
        }
    }
    sum
}

fn main() {
    let words: Vec<String> = std::env::args().collect();
    let c = std::hint::black_box(case(words[3].parse().unwrap()));
    let wanted: f64 = words[4].parse::<f64>().unwrap() * 1e6;
    let mut act: Box<dyn FnMut(usize) -> usize> = match (words[1].as_str(), words[2].as_str()) {
        ("ours", "step") => Box::new(|n| ours_turns(&c, n)),
        ("value", "step") => Box::new(|n| value_turns(&c, n)),
        ("plain", "step") => Box::new(|n| plain_turns(&c, n)),
        ("ours", "hash") => Box::new(|n| hashes(ours_hash, &c, n)),
        ("plain", "hash") => Box::new(|n| hashes(plain_hash, &c, n)),
        _ => std::process::exit(2),
    };
    let said = act(16);
    let mut times = 16;
    while time_of(&mut *act, times) < wanted / 8.0 {
        times *= 2;
    }
    // the least of some stretches: what disturbs a run only ever makes it longer. What comes before the first turn is taken off.
    let before = (0..4).map(|_| time_of(&mut *act, 0)).fold(f64::INFINITY, f64::min);
    let best = (0..4).map(|_| (time_of(&mut *act, times) - before) / times as f64).fold(f64::INFINITY, f64::min);
    println!("{best:.2} {said}");
}
