// records ours|plain form|find|put CASE MILLISECONDS: makes the store of CASE, does the operation on it for that time, and writes the
// nanoseconds of one and what came out. `plain` has the same steps in ordinary Rust: slices, bounds tested, nothing done for speed.
use std::time::{Duration, Instant};

const MOST: usize = 256;
const MOST_KEY: usize = 128;
const MOST_VALUE: usize = 3072;
const MOST_SETPOINTS: usize = 400;
// where a slot's value is, and how long a slot
const VALUE: usize = 8 + MOST_KEY;
const SLOT: usize = VALUE + MOST_VALUE;

// ---- ours

unsafe extern "C" {
    fn starterbell_records_in_form(store: *const u8, length: usize) -> bool;
    fn starterbell_records_find(store: *const u8, length: usize, key: *const u8, key_length: usize) -> usize;
    fn starterbell_records_put(store: *mut u8, length: usize, key: *const u8, key_length: usize, value: *const u8, value_length: usize) -> u8;
}

fn ours_form(store: &[u8]) -> bool {
    unsafe { starterbell_records_in_form(store.as_ptr(), store.len()) }
}

fn ours_find(store: &[u8], key: &[u8]) -> usize {
    unsafe { starterbell_records_find(store.as_ptr(), store.len(), key.as_ptr(), key.len()) }
}

fn ours_put(store: &mut [u8], key: &[u8], value: &[u8]) -> u8 {
    unsafe { starterbell_records_put(store.as_mut_ptr(), store.len(), key.as_ptr(), key.len(), value.as_ptr(), value.len()) }
}

// ---- plain

fn slots(store: &[u8]) -> impl Iterator<Item = &[u8]> {
    store.chunks_exact(SLOT).take(MOST)
}

fn key_of(s: &[u8]) -> &[u8] {
    &s[8..8 + s[0] as usize]
}

fn size_of(s: &[u8]) -> usize {
    s[2] as usize + s[3] as usize * 256
}

fn is_key(key: &[u8]) -> bool {
    (7..=MOST_KEY).contains(&key.len()) && key.starts_with(b"/wind/")
}

// the used slots in the order of their keys, each found by halving
fn plain_form(store: &[u8]) -> bool {
    let mut order: Vec<u8> = Vec::with_capacity(MOST);
    for (i, s) in slots(store).enumerate() {
        if s[0] == 0 {
            continue;
        }
        if !is_key(key_of(s)) || !(16..=MOST_VALUE).contains(&size_of(s)) {
            return false;
        }
        let key = |j: u8| key_of(&store[j as usize * SLOT..j as usize * SLOT + SLOT]);
        match order.binary_search_by(|&j| key(j).cmp(key_of(s))) {
            Ok(_) => return false,
            Err(place) => order.insert(place, i as u8),
        }
    }
    true
}

fn slot_with(store: &[u8], key: &[u8]) -> Option<usize> {
    slots(store).position(|s| s[0] != 0 && key_of(s) == key)
}

fn plain_find(store: &[u8], key: &[u8]) -> usize {
    if !plain_form(store) {
        return 0;
    }
    slot_with(store, key).map_or(0, |i| i * SLOT + VALUE)
}

fn varint(s: &[u8]) -> Option<(u32, &[u8])> {
    let mut value = 0;
    for i in 0..3 {
        let b = *s.get(i)?;
        value += (b as u32 & 127) << (7 * i);
        if b < 128 {
            return if b == 0 && i > 0 { None } else { Some((value, &s[i + 1..])) };
        }
    }
    None
}

fn is_list(mut s: &[u8], count: usize) -> bool {
    let mut before: Option<(u32, i32)> = None;
    for _ in 0..count {
        let Some((turn, rest)) = varint(s) else { return false };
        let Some((zigzag, rest)) = varint(rest) else { return false };
        let trim = (zigzag >> 1) as i32 ^ -((zigzag & 1) as i32);
        if turn > 1_000_000 || zigzag > 40_000 || before.is_some_and(|(last, level)| turn <= last || trim.abs_diff(level) > 5_000) {
            return false;
        }
        before = Some((turn, trim));
        s = rest;
    }
    s.is_empty()
}

fn is_recipe(value: &[u8]) -> bool {
    let n = value.len();
    if !(16..=MOST_VALUE).contains(&n) {
        return false;
    }
    // how far from the end a list begins, and how many setpoints it has
    let place = |at: usize| {
        let distance = u32::from_le_bytes(value[at..at + 4].try_into().unwrap()) as usize;
        (distance, u16::from_le_bytes(value[at + 4..at + 6].try_into().unwrap()) as usize)
    };
    let fills = |(from, count): (usize, usize), to: usize| (to..=n).contains(&from) && count <= MOST_SETPOINTS && is_list(&value[n - from..n - to], count);
    let wrap = place(n - 16);
    match u16::from_le_bytes(value[n - 10..n - 8].try_into().unwrap()) {
        1 => fills(wrap, 16),
        2 => n >= 24 && value[n - 18..n - 16] == [0, 0] && fills(wrap, 24) && fills(place(n - 24), wrap.0),
        _ => false,
    }
}

fn sequence(value: &[u8]) -> u64 {
    u64::from_le_bytes(value[value.len() - 8..].try_into().unwrap())
}

fn plain_put(store: &mut [u8], key: &[u8], value: &[u8]) -> u8 {
    if !plain_form(store) {
        return 0;
    }
    if !is_key(key) {
        return 8;
    }
    if !is_recipe(value) {
        return 9;
    }
    let i = match slot_with(store, key) {
        Some(i) => {
            let s = &store[i * SLOT..i * SLOT + SLOT];
            let held = &s[VALUE..VALUE + size_of(s)];
            if held == value {
                return 255;
            }
            if (sequence(held), held) > (sequence(value), value) {
                return 10;
            }
            i
        }
        None => match slots(store).position(|s| s[0] == 0) {
            Some(i) => i,
            None => return 11,
        },
    };
    let s = &mut store[i * SLOT..i * SLOT + SLOT];
    s.fill(0);
    s[0] = key.len() as u8;
    s[2] = value.len() as u8;
    s[3] = (value.len() >> 8) as u8;
    s[8..8 + key.len()].copy_from_slice(key);
    s[VALUE..VALUE + value.len()].copy_from_slice(value);
    255
}

// ---- stores

// The case of random keys and of values that are as large as a box of before request iii takes them.
const SHORTER: &str = "random-2048";

struct Random(u64);

impl Random {
    fn next(&mut self) -> u64 {
        self.0 ^= self.0 << 13;
        self.0 ^= self.0 >> 7;
        self.0 ^= self.0 << 17;
        self.0
    }
}

// A key of 128 bytes: after /wind/ any bytes, or the same ones but for two of them at a place, rising or falling with the number.
fn key(random: &mut Random, case: &str, number: usize) -> Vec<u8> {
    let mut key = b"/wind/".to_vec();
    key.resize(MOST_KEY, 7);
    let two = match case {
        "random" | SHORTER => {
            for b in &mut key[6..] {
                *b = random.next() as u8;
            }
            return key;
        }
        "last" | "middle" | "first" => number * 251 % 65536,
        "rising" => number,
        _ => 65535 - number,
    };
    let at = match case {
        "first" => 6,
        "middle" => 64,
        _ => 126,
    };
    key[at] = (two >> 8) as u8;
    key[at + 1] = two as u8;
    key
}

// The largest recipe of a case: setpoints of six bytes, of which the last of 400 comes close to turn 1,000,000, and a note before them.
fn recipe(case: &str, sequence: u64) -> Vec<u8> {
    let (length, count) = if case == SHORTER { (2048, 200) } else { (MOST_VALUE, MOST_SETPOINTS) };
    let mut points = Vec::new();
    for i in 0..count {
        let turn = 20_000 + i * 2_400;
        points.extend([turn as u8 | 128, (turn >> 7) as u8 | 128, (turn >> 14) as u8]);
        points.extend([0xBF, 0xB8, 0x02]);
    }
    let distance = points.len() + 16;
    let mut value = vec![9; length - distance];
    value.append(&mut points);
    value.extend((distance as u32).to_le_bytes());
    value.extend((count as u16).to_le_bytes());
    value.extend([1, 0]);
    value.extend(sequence.to_le_bytes());
    value
}

fn store_of(case: &str) -> (Vec<u8>, Vec<Vec<u8>>) {
    let mut random = Random(0x9E3779B97F4A7C15);
    let mut store = vec![0; SLOT * MOST];
    let keys: Vec<_> = (0..MOST).map(|n| key(&mut random, case, n)).collect();
    for k in &keys {
        assert_eq!(ours_put(&mut store, k, &recipe(case, 1)), 255);
    }
    (store, keys)
}

fn main() {
    let words: Vec<String> = std::env::args().collect();
    let (ours, operation, case) = (words[1] == "ours", words[2].as_str(), words[3].as_str());
    let time = Duration::from_millis(words[4].parse().unwrap());
    let (mut store, keys) = store_of(case);
    // the key of the last slot; each put of it has a higher sequence than the one before, so that it is written
    let key = &keys[MOST - 1];
    let mut value = recipe(case, 2);
    let mut sum: u64 = 0;
    let mut count: u64 = 0;
    let mut best = f64::MAX;
    let began = Instant::now();
    while began.elapsed() < time {
        let turn = Instant::now();
        for _ in 0..16 {
            count += 1;
            let end = value.len() - 8;
            value[end..].copy_from_slice(&(count + 2).to_le_bytes());
            let got = match (ours, operation) {
                (true, "form") => ours_form(&store) as u64,
                (false, "form") => plain_form(&store) as u64,
                (true, "find") => ours_find(&store, key) as u64,
                (false, "find") => plain_find(&store, key) as u64,
                (true, _) => ours_put(&mut store, key, &value) as u64,
                (false, _) => plain_put(&mut store, key, &value) as u64,
            };
            sum += got;
        }
        best = best.min(turn.elapsed().as_nanos() as f64 / 16.0);
    }
    println!("{} {}", best, sum / count);
}
