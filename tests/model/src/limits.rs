//! The numbers of docs/RULES.md, each in one place.

/// The longest message body, and the least receive buffer.
pub const BODY: usize = 16_384;
/// The least reply buffer: a body and its longest prefix.
pub const REPLY: usize = 16_387;
/// Keys of requests and lookups: 1 up to this.
pub const KEY: usize = 128;
pub const ID: usize = 64;
pub const ADDRESS: usize = 128;
pub const ADDRESSES: usize = 4;

/// What opens every record key; 1 to 122 bytes follow.
pub const WIND: &[u8] = b"/wind/";
/// The least value in form, in which a trailer of format 1 fits.
pub const VALUE_LEAST: usize = 16;
pub const VALUE: usize = 3_072;

/// In each list.
pub const SETPOINTS: usize = 400;
pub const TURN: u64 = 1_000_000;
/// How many millinewtons a trim has at most, either way.
pub const TRIM: i64 = 20_000;
/// By how many millinewtons neighbouring trims may differ.
pub const LEAP: i64 = 5_000;

/// A bucket's size, the length of a nearest list, and how many candidates decide a lookup.
pub const NEAREST: usize = 20;
pub const CONTACT_SLOT: usize = 616;
pub const CONTACT_SLOTS: usize = 5_120;
/// Eight bytes, among them the lengths; then room for a key and a value.
pub const RECORD_SLOT: usize = 8 + KEY + VALUE;
pub const RECORD_SLOTS: usize = 256;

pub const CANDIDATES: usize = 256;
pub const CONCURRENCY: u64 = 10;
/// Of a FIND_NODE reply's closerPeers, how many are heard.
pub const HEARD: usize = 21;
