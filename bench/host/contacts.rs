// contacts ours|plain form|nearest|seen|sighting|hash CASE MILLISECONDS: makes the table of CASE, does the operation on it for that time, and
// writes the nanoseconds of one and what came out. `plain` has the same steps in ordinary Rust: slices, bounds tested, nothing done for speed.
use std::cmp::Ordering;

const SLOT: usize = 616;
const MOST: usize = 5120;

// ---- ours

unsafe extern "C" {
    fn starterbell_in_form(table: *const u8, length: usize, ours: *const u8) -> bool;
    fn starterbell_contacts_nearest(table: *const u8, length: usize, target: *const u8, out: *mut usize) -> usize;
    fn starterbell_place(id: *const u8, length: usize, out: *mut u8);
    fn starterbell_contacts_seen(
        table: *mut u8, length: usize, ours: *const u8, id: *const u8, id_length: usize, client: bool,
        addresses: *const u8, addresses_length: usize, slot: *mut usize,
    ) -> u8;
    fn starterbell_sighting(
        table: *mut u8, length: usize, ours: *const u8, id: *const u8, id_length: usize, place: *const u8,
        addresses: *const u8, addresses_length: usize, slot: *mut usize,
    ) -> u8;
}

fn ours_in_form(table: &[u8], ours: &[u8; 32]) -> bool {
    unsafe { starterbell_in_form(table.as_ptr(), table.len(), ours.as_ptr()) }
}

fn ours_nearest(table: &[u8], target: &[u8; 32], out: &mut [usize; 20]) -> usize {
    unsafe { starterbell_contacts_nearest(table.as_ptr(), table.len(), target.as_ptr(), out.as_mut_ptr()) }
}

fn ours_place(id: &[u8]) -> [u8; 32] {
    let mut place = [0; 32];
    unsafe { starterbell_place(id.as_ptr(), id.len(), place.as_mut_ptr()) };
    place
}

fn ours_seen(table: &mut [u8], ours: &[u8; 32], id: &[u8], client: bool, addresses: &[u8]) -> (u8, usize) {
    let mut slot = 0;
    let code = unsafe {
        starterbell_contacts_seen(
            table.as_mut_ptr(), table.len(), ours.as_ptr(), id.as_ptr(), id.len(), client, addresses.as_ptr(), addresses.len(), &mut slot,
        )
    };
    (code, slot)
}

fn ours_sighting(table: &mut [u8], ours: &[u8; 32], id: &[u8], place: &[u8; 32], addresses: &[u8]) -> (u8, usize) {
    let mut slot = 0;
    let code = unsafe {
        starterbell_sighting(
            table.as_mut_ptr(), table.len(), ours.as_ptr(), id.as_ptr(), id.len(), place.as_ptr(), addresses.as_ptr(), addresses.len(), &mut slot,
        )
    };
    (code, slot)
}

// ---- plain

fn slots(table: &[u8]) -> usize {
    (table.len() / SLOT).min(MOST)
}

fn place(table: &[u8], i: usize) -> &[u8] {
    &table[i * SLOT + 8..i * SLOT + 40]
}

fn bucket(place: &[u8], ours: &[u8]) -> usize {
    for i in (0..32).step_by(8) {
        let a = u64::from_be_bytes(place[i..i + 8].try_into().unwrap());
        let b = u64::from_be_bytes(ours[i..i + 8].try_into().unwrap());
        if a != b {
            return i * 8 + (a ^ b).leading_zeros() as usize;
        }
    }
    256
}

fn fields_fit(s: &[u8]) -> bool {
    s[0] <= 20 && s[1] <= 1 && (1..=64).contains(&s[2]) && s[3] <= 4 && s[4..4 + s[3] as usize].iter().all(|n| (1..=128).contains(n))
}

fn plain_in_form(table: &[u8], ours: &[u8; 32]) -> bool {
    let mut at = [0u16; 5120];
    for i in 0..slots(table) {
        let s = &table[i * SLOT..i * SLOT + SLOT];
        if s[0] == 0 {
            continue;
        }
        if !fields_fit(s) {
            return false;
        }
        let b = bucket(&s[8..40], ours);
        if b == 256 {
            return false;
        }
        let k = b * 20 + s[0] as usize - 1;
        if at[k] != 0 {
            return false;
        }
        at[k] = i as u16 + 1;
    }
    for k in 0..5120 {
        if at[k] == 0 || k % 20 == 0 {
            continue;
        }
        if at[k - 1] == 0 {
            return false;
        }
        let mine = place(table, at[k] as usize - 1);
        for j in (k - k % 20..k).rev() {
            if at[j] != 0 && place(table, at[j] as usize - 1) == mine {
                return false;
            }
        }
    }
    true
}

fn distance_order(a: &[u8], b: &[u8], target: &[u8; 32]) -> Ordering {
    for i in 0..32 {
        match (a[i] ^ target[i]).cmp(&(b[i] ^ target[i])) {
            Ordering::Equal => {}
            other => return other,
        }
    }
    Ordering::Equal
}

fn plain_nearest(table: &[u8], target: &[u8; 32], out: &mut [usize; 20]) -> usize {
    let mut n = 0;
    *out = [0; 20];
    for k in 0..slots(table) {
        if table[k * SLOT] == 0 || table[k * SLOT + 1] != 0 {
            continue;
        }
        let nearer = |other: usize| distance_order(place(table, k), place(table, other), target) == Ordering::Less;
        if n == 20 && !nearer(out[19]) {
            continue;
        }
        let at = out[..n].partition_point(|&other| !nearer(other));
        if n < 20 {
            n += 1;
        }
        out[at..n].rotate_right(1);
        out[at] = k;
    }
    n
}

// The peer as its slot's bytes, with a mark of 0. The list has a length of two bytes before each address; the first four usable ones are kept.
fn peer_of(id: &[u8], place: &[u8; 32], mut list: &[u8]) -> [u8; SLOT] {
    let mut s = [0u8; SLOT];
    s[2] = id.len() as u8;
    s[8..40].copy_from_slice(place);
    s[40..40 + id.len()].copy_from_slice(id);
    let mut count = 0;
    while count < 4 && 2 <= list.len() {
        let n = u16::from_le_bytes([list[0], list[1]]) as usize;
        if list.len() < 2 + n {
            break;
        }
        if (1..=128).contains(&n) {
            s[4 + count] = n as u8;
            s[104 + count * 128..104 + count * 128 + n].copy_from_slice(&list[2..2 + n]);
            count += 1;
        }
        list = &list[2 + n..];
    }
    s[3] = count as u8;
    s
}

fn held_at(table: &[u8], p: &[u8]) -> Option<usize> {
    (0..slots(table)).find(|&i| table[i * SLOT] != 0 && place(table, i) == p)
}

fn tail_of(table: &[u8], ours: &[u8; 32], b: usize) -> u8 {
    let mut top = 0;
    for i in 0..slots(table) {
        let m = table[i * SLOT];
        if top < m && bucket(place(table, i), ours) == b {
            top = m;
        }
    }
    top
}

fn move_to_tail(table: &mut [u8], ours: &[u8; 32], i: usize) {
    let b = bucket(place(table, i), ours);
    let tail = tail_of(table, ours, b);
    let mark = table[i * SLOT];
    for j in 0..slots(table) {
        if mark < table[j * SLOT] && bucket(place(table, j), ours) == b {
            table[j * SLOT] -= 1;
        }
    }
    table[i * SLOT] = tail;
    table[i * SLOT + 1] = 0;
}

fn plain_sighting(table: &mut [u8], ours: &[u8; 32], id: &[u8], p: &[u8; 32], addresses: &[u8]) -> (u8, usize) {
    let mut peer = peer_of(id, p, addresses);
    if let Some(i) = held_at(table, p) {
        move_to_tail(table, ours, i);
        if peer[3] != 0 {
            table[i * SLOT + 3..i * SLOT + 8].copy_from_slice(&peer[3..8]);
            table[i * SLOT + 104..i * SLOT + SLOT].copy_from_slice(&peer[104..]);
        }
        return (64, i);
    }
    let b = bucket(p, ours);
    let tail = tail_of(table, ours, b);
    if 20 <= tail {
        let head = (0..slots(table)).find(|&i| table[i * SLOT] == 1 && bucket(place(table, i), ours) == b);
        return (13, head.unwrap());
    }
    let Some(i) = (0..slots(table)).find(|&i| table[i * SLOT] == 0) else {
        return (14, 0);
    };
    peer[0] = tail + 1;
    table[i * SLOT..i * SLOT + SLOT].copy_from_slice(&peer);
    (65, i)
}

fn plain_seen(table: &mut [u8], ours: &[u8; 32], id: &[u8], client: bool, addresses: &[u8]) -> (u8, usize) {
    if !plain_in_form(table, ours) {
        return (0, 0);
    }
    if !(1..=64).contains(&id.len()) {
        return (12, 0);
    }
    let place = plain_place(id);
    if place == *ours {
        return (12, 0);
    }
    if client {
        return (18, 0);
    }
    plain_sighting(table, ours, id, &place, addresses)
}

const ROUNDS: [u32; 64] = [
    0x428a2f98, 0x71374491, 0xb5c0fbcf, 0xe9b5dba5, 0x3956c25b, 0x59f111f1, 0x923f82a4, 0xab1c5ed5, 0xd807aa98, 0x12835b01, 0x243185be, 0x550c7dc3,
    0x72be5d74, 0x80deb1fe, 0x9bdc06a7, 0xc19bf174, 0xe49b69c1, 0xefbe4786, 0x0fc19dc6, 0x240ca1cc, 0x2de92c6f, 0x4a7484aa, 0x5cb0a9dc, 0x76f988da,
    0x983e5152, 0xa831c66d, 0xb00327c8, 0xbf597fc7, 0xc6e00bf3, 0xd5a79147, 0x06ca6351, 0x14292967, 0x27b70a85, 0x2e1b2138, 0x4d2c6dfc, 0x53380d13,
    0x650a7354, 0x766a0abb, 0x81c2c92e, 0x92722c85, 0xa2bfe8a1, 0xa81a664b, 0xc24b8b70, 0xc76c51a3, 0xd192e819, 0xd6990624, 0xf40e3585, 0x106aa070,
    0x19a4c116, 0x1e376c08, 0x2748774c, 0x34b0bcb5, 0x391c0cb3, 0x4ed8aa4a, 0x5b9cca4f, 0x682e6ff3, 0x748f82ee, 0x78a5636f, 0x84c87814, 0x8cc70208,
    0x90befffa, 0xa4506ceb, 0xbef9a3f7, 0xc67178f2,
];

fn block(state: &mut [u32; 8], bytes: &[u8]) {
    let mut w = [0u32; 64];
    for (word, part) in w.iter_mut().zip(bytes.chunks_exact(4)) {
        *word = u32::from_be_bytes(part.try_into().unwrap());
    }
    for t in 16..64 {
        let a = w[t - 15].rotate_right(7) ^ w[t - 15].rotate_right(18) ^ (w[t - 15] >> 3);
        let b = w[t - 2].rotate_right(17) ^ w[t - 2].rotate_right(19) ^ (w[t - 2] >> 10);
        w[t] = w[t - 16].wrapping_add(a).wrapping_add(w[t - 7]).wrapping_add(b);
    }
    let [mut a, mut b, mut c, mut d, mut e, mut f, mut g, mut h] = *state;
    for t in 0..64 {
        let s1 = e.rotate_right(6) ^ e.rotate_right(11) ^ e.rotate_right(25);
        let t1 = h.wrapping_add(s1).wrapping_add(e & f ^ !e & g).wrapping_add(ROUNDS[t]).wrapping_add(w[t]);
        let s0 = a.rotate_right(2) ^ a.rotate_right(13) ^ a.rotate_right(22);
        let t2 = s0.wrapping_add(a & b ^ a & c ^ b & c);
        (h, g, f, e, d, c, b, a) = (g, f, e, d.wrapping_add(t1), c, b, a, t1.wrapping_add(t2));
    }
    for (old, new) in state.iter_mut().zip([a, b, c, d, e, f, g, h]) {
        *old = old.wrapping_add(new);
    }
}

// The standard's SHA-256.
fn plain_place(id: &[u8]) -> [u8; 32] {
    let mut state = [0x6a09e667, 0xbb67ae85, 0x3c6ef372, 0xa54ff53a, 0x510e527f, 0x9b05688c, 0x1f83d9ab, 0x5be0cd19];
    let mut blocks = id.chunks_exact(64);
    for part in &mut blocks {
        block(&mut state, part);
    }
    let rest = blocks.remainder();
    let mut last = [0u8; 128];
    last[..rest.len()].copy_from_slice(rest);
    last[rest.len()] = 0x80;
    let size = if rest.len() < 56 { 64 } else { 128 };
    last[size - 8..size].copy_from_slice(&(id.len() as u64 * 8).to_be_bytes());
    for part in last[..size].chunks_exact(64) {
        block(&mut state, part);
    }
    let mut place = [0; 32];
    for (part, word) in place.chunks_exact_mut(4).zip(state) {
        part.copy_from_slice(&word.to_be_bytes());
    }
    place
}

// ---- tables

struct Random(u64);

impl Random {
    fn next(&mut self) -> u64 {
        self.0 ^= self.0 << 13;
        self.0 ^= self.0 >> 7;
        self.0 ^= self.0 << 17;
        self.0
    }

    fn place(&mut self) -> [u8; 32] {
        let mut p = [0; 32];
        for part in p.chunks_mut(8) {
            part.copy_from_slice(&self.next().to_be_bytes());
        }
        p
    }
}

// A place of a bucket: it has the first bits of ours, and differs in the next.
fn place_of_bucket(random: &mut Random, ours: &[u8; 32], bucket: usize) -> [u8; 32] {
    let mut p = random.place();
    for bit in 0..=bucket {
        let mask = 0x80 >> (bit % 8);
        let mine = ours[bit / 8] & mask;
        p[bit / 8] = p[bit / 8] & !mask | if bit == bucket { mine ^ mask } else { mine };
    }
    p
}

struct Contact {
    place: [u8; 32],
    rank: u8,
}

// As many contacts as can be in form: up to 20 for each of the first buckets, with no place twice.
fn contacts(random: &mut Random, ours: &[u8; 32], buckets: usize) -> Vec<Contact> {
    let mut all: Vec<Contact> = Vec::new();
    for b in 0..buckets {
        let room = if 255 - b < 5 { 1 << (255 - b) } else { 20 };
        let mut held: Vec<[u8; 32]> = Vec::new();
        while held.len() < room {
            let p = place_of_bucket(random, ours, b);
            if !held.contains(&p) {
                held.push(p);
            }
        }
        all.extend(held.iter().enumerate().map(|(rank, &place)| Contact { place, rank: rank as u8 }));
    }
    all
}

fn table_of(all: &[Contact], slots: usize) -> Vec<u8> {
    let mut table = vec![0u8; slots * SLOT];
    for (s, c) in table.chunks_exact_mut(SLOT).zip(all) {
        s[0] = c.rank + 1;
        s[2] = 34;
        s[3] = 2;
        s[4] = 20;
        s[5] = 128;
        s[8..40].copy_from_slice(&c.place);
        s[40..74].fill(7);
        s[104..124].fill(9);
        s[232..360].fill(9);
    }
    table
}

fn shuffle(random: &mut Random, all: &mut [Contact]) {
    for i in (1..all.len()).rev() {
        all.swap(i, (random.next() % (i as u64 + 1)) as usize);
    }
}

// Contacts in an order that strangers could bring about by when they come. `random`: any order. `falling`: each slot is nearer to the target
// than all before it, so that each is put first. `edge`: the nearest nineteen come first, then falling ones, so that each is put last.
// `middle`: the nearest ten come first, then falling ones, so that each is put in the middle. `mixed`: falling in groups of twenty, each group
// in any order, so that each slot goes somewhere among the twenty and no branch can be foreseen.
fn arrange(random: &mut Random, all: &mut [Contact], order: &str, target: &[u8; 32]) {
    shuffle(random, all);
    if order == "random" {
        return;
    }
    all.sort_by(|a, b| distance_order(&b.place, &a.place, target));
    match order {
        "falling" => {}
        "edge" => all.rotate_right(19.min(all.len())),
        "middle" => all.rotate_right(10.min(all.len())),
        "mixed" => all.chunks_mut(20).for_each(|group| shuffle(random, group)),
        _ => std::process::exit(2),
    }
}

// SLOTS-TARGET-ORDER. `far`: the target is any place; `near`: it is beside ours, so that it shares as many bits with a contact as we do.
fn case(name: &str) -> (Vec<u8>, [u8; 32], [u8; 32]) {
    let words: Vec<&str> = name.split('-').collect();
    let slots: usize = words[0].parse().unwrap();
    let mut random = Random(0x9e37_79b9_7f4a_7c15);
    let ours = random.place();
    let mut target = random.place();
    if words[1] == "near" {
        target = ours;
        target[31] ^= 1;
    }
    let mut all = contacts(&mut random, &ours, if slots == MOST { 256 } else { slots / 20 });
    arrange(&mut random, &mut all, words[2], &target);
    (table_of(&all, slots), ours, target)
}

// ---- peers that are seen

// An operation that changes the table: each time it is done, the next of `ids` is seen.
struct Sightings {
    table: Vec<u8>,
    ours: [u8; 32],
    ids: Vec<[u8; 34]>,
    places: Vec<[u8; 32]>,
    next: usize,
}

// The address list of each peer: 20 bytes, and 128.
fn addresses() -> Vec<u8> {
    let mut list = vec![20, 0];
    list.extend([9; 20]);
    list.extend([128, 0]);
    list.extend([9; 128]);
    list
}

// Ids of bucket 0. A stranger finds one of two that it tries.
fn ids_of_bucket_0(random: &mut Random, ours: &[u8; 32], n: usize) -> Vec<[u8; 34]> {
    let mut ids = Vec::new();
    while ids.len() < n {
        let mut id = [7u8; 34];
        id[..32].copy_from_slice(&random.place());
        if bucket(&plain_place(&id), ours) == 0 {
            ids.push(id);
        }
    }
    ids
}

// SLOTS-KIND. The peers that are seen are of bucket 0, and the other buckets are full, as far as the slots go.
// `held`: bucket 0 is full, any of it is seen, and all contacts stand in any order: the usual case.
// `last`: bucket 0 is full and has the last slots, and its head is seen each time, so that all others close up.
// `full`: a newcomer to the same table: refusal 13, and the head has the last slot.
// `half`: bucket 0 has 10, the tenth in the first slot, so that each other mark is as likely above its mark as not; a newcomer joins in the last slot.
// `empty`: bucket 0 has none, so that each slot's bucket is looked at; a newcomer joins in the last slot.
// `none`: the same, but every slot is used: refusal 14.
fn sightings(name: &str) -> Sightings {
    let (slots, kind) = name.split_once('-').unwrap();
    let slots: usize = slots.parse().unwrap();
    let mut random = Random(0x9e37_79b9_7f4a_7c15);
    let ours = random.place();
    let first = match kind {
        "held" | "last" | "full" => 20,
        "half" => 10,
        _ => 0,
    };
    let mut ids = ids_of_bucket_0(&mut random, &ours, first + 1);
    let mut others = contacts(&mut random, &ours, 256);
    others.drain(..20);
    others.truncate(if kind == "none" { slots } else if first == 20 { slots - 20 } else { slots - first - 1 });
    shuffle(&mut random, &mut others);
    let newcomer = ids.pop().unwrap();
    // slots are as many as there are contacts, and one for a newcomer that joins
    let size = others.len() + first + (kind == "half" || kind == "empty") as usize;
    let mut all: Vec<Contact> =
        ids.iter().enumerate().map(|(rank, id)| Contact { place: plain_place(id), rank: rank as u8 }).rev().collect();
    match kind {
        "half" => {
            let tail = all.remove(0);
            others.extend(all);
            shuffle(&mut random, &mut others);
            others.insert(0, tail);
        }
        _ => others.extend(all),
    }
    if kind == "held" {
        shuffle(&mut random, &mut others);
        ids = (0..1024).map(|_| ids[(random.next() % 20) as usize]).collect();
    } else if kind != "last" {
        ids = vec![newcomer];
    }
    let places = ids.iter().map(|id| plain_place(id)).collect();
    Sightings { table: table_of(&others, size), ours, ids, places, next: 0 }
}

impl Sightings {
    // Sees the next peer. One that joined goes again, so that the next time is like this.
    fn act(&mut self, see: &mut dyn FnMut(&mut [u8], &[u8; 32], &[u8; 34], &[u8; 32]) -> (u8, usize)) -> u64 {
        let k = self.next;
        self.next = if k + 1 == self.ids.len() { 0 } else { k + 1 };
        let (code, slot) = see(&mut self.table, &self.ours, &self.ids[k], &self.places[k]);
        if code == 65 {
            self.table[slot * SLOT..slot * SLOT + SLOT].fill(0);
        }
        slot as u64 * 256 + code as u64
    }

    // What forty sightings answer, with all bytes of the table after each.
    fn said(&mut self, see: &mut dyn FnMut(&mut [u8], &[u8; 32], &[u8; 34], &[u8; 32]) -> (u8, usize)) -> u64 {
        let mut sum = 0u64;
        for _ in 0..40 {
            let mut then = Vec::new();
            let answer = self.act(&mut |table, ours, id, place| {
                let answer = see(table, ours, id, place);
                then = table.to_vec();
                answer
            });
            sum = then.iter().fold(sum ^ answer, |sum, &b| (sum ^ b as u64).wrapping_mul(0x100_0000_01b3));
        }
        sum
    }
}

// ---- time

#[repr(C)]
struct Timespec {
    seconds: i64,
    nanoseconds: i64,
}

unsafe extern "C" {
    fn clock_gettime(clock: i32, time: *mut Timespec) -> i32;
}

// The processor's time of this process.
fn now_ns() -> f64 {
    let mut t = Timespec { seconds: 0, nanoseconds: 0 };
    unsafe { clock_gettime(2, &mut t) };
    t.seconds as f64 * 1e9 + t.nanoseconds as f64
}

fn time_of(act: &mut dyn FnMut() -> u64, times: usize) -> f64 {
    let began = now_ns();
    for _ in 0..times {
        std::hint::black_box(act());
    }
    now_ns() - began
}

fn time_and_say(act: &mut dyn FnMut() -> u64, said: u64, milliseconds: f64) {
    let mut times = 1;
    while time_of(act, times) < milliseconds * 1e6 / 8.0 {
        times *= 2;
    }
    // the least of some stretches: what disturbs a run only ever makes it longer
    let best = (0..4).map(|_| time_of(act, times) / times as f64).fold(f64::INFINITY, f64::min);
    println!("{best:.2} {said}");
}

fn time_table(way: &str, benchmark: &str, name: &str, milliseconds: f64) {
    let (table, ours, target) = std::hint::black_box(case(name));
    let mut out = [0usize; 20];
    let mut act: Box<dyn FnMut() -> u64> = match (way, benchmark) {
        ("ours", "form") => Box::new(|| ours_in_form(&table, &ours) as u64),
        ("plain", "form") => Box::new(|| plain_in_form(&table, &ours) as u64),
        ("ours", "nearest") => Box::new(|| {
            let n = ours_nearest(&table, &target, &mut out);
            out[..n].iter().fold(n as u64, |sum, &i| sum.wrapping_mul(31).wrapping_add(i as u64))
        }),
        ("plain", "nearest") => Box::new(|| {
            let n = plain_nearest(&table, &target, &mut out);
            out[..n].iter().fold(n as u64, |sum, &i| sum.wrapping_mul(31).wrapping_add(i as u64))
        }),
        _ => std::process::exit(2),
    };
    let said = act();
    time_and_say(&mut *act, said, milliseconds);
}

fn time_sightings(way: &str, benchmark: &str, name: &str, milliseconds: f64) {
    let list = std::hint::black_box(addresses());
    let mut see: Box<dyn FnMut(&mut [u8], &[u8; 32], &[u8; 34], &[u8; 32]) -> (u8, usize)> = match (way, benchmark) {
        ("ours", "seen") => Box::new(|table, ours, id, _| ours_seen(table, ours, id, false, &list)),
        ("plain", "seen") => Box::new(|table, ours, id, _| plain_seen(table, ours, id, false, &list)),
        ("ours", "sighting") => Box::new(|table, ours, id, place| ours_sighting(table, ours, id, place, &list)),
        ("plain", "sighting") => Box::new(|table, ours, id, place| plain_sighting(table, ours, id, place, &list)),
        ("ours", "hash") => Box::new(|_, _, id, _| (ours_place(id)[0] & 127, 0)),
        ("plain", "hash") => Box::new(|_, _, id, _| (plain_place(id)[0] & 127, 0)),
        _ => std::process::exit(2),
    };
    let said = sightings(name).said(&mut *see);
    let mut state = std::hint::black_box(sightings(name));
    time_and_say(&mut || state.act(&mut *see), said, milliseconds);
}

fn main() {
    let words: Vec<String> = std::env::args().collect();
    let time = if matches!(words[2].as_str(), "form" | "nearest") { time_table } else { time_sightings };
    time(&words[1], &words[2], &words[3], words[4].parse().unwrap());
}
