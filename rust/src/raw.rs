//! The exported functions as they are: on slices and numbers, safe for any of them. The box, connections and lookups are bytes that the caller lends.
//!
//! Each returns a [refusal](crate::Refusal)'s number, 0 to 21, or an answer from 64 up, and writes further numbers to `out`, as many as fit. The types of
//! this crate are made of these; use them unless you lay out memory yourself.

/// The bytes of a box.
pub const BOX: usize = 616;
/// The bytes of a connection.
pub const CONNECTION: usize = 640;
/// The bytes of a lookup.
pub const LOOKUP: usize = 25_256;
/// The bytes of a contact's slot.
pub const CONTACT: usize = 616;
/// How many slots of contacts are used.
pub const MOST_CONTACTS: usize = 5_120;
/// The most bytes of a record's key.
pub const MOST_KEY: usize = 128;
/// The most bytes of a record's value.
pub const MOST_VALUE: usize = 3_072;
/// Where the key stands in a record's slot. Its length is byte 0, which is 0 where the slot is free.
pub const KEY_AT: usize = 8;
/// Where the value stands in a record's slot. Its length is in bytes 2 and 3, the lower first.
pub const VALUE_AT: usize = KEY_AT + MOST_KEY;
/// The bytes of a record's slot.
pub const RECORD: usize = VALUE_AT + MOST_VALUE;
/// How many slots of records are used.
pub const MOST_RECORDS: usize = 256;
/// The receive buffer of a connection.
pub const BUFFER: usize = 16_384;
/// The reply buffer: the longest body and its prefix.
pub const REPLY: usize = 16_387;

/// Says a function once: declares it as C has it, where a slice is a pointer and a length, and defines the safe function over it. The words for parameters are
/// `bytes`, `bytes_mut`, `numbers`, `numbers_mut`, `turns`, `turns_mut`, `trims`, `trims_mut`, and a number's type.
///
/// Safe, because the functions are proved to take any slices and to stay inside them, Rust's rules on `&mut` are what they ask of memory that is written, and
/// the pointer of an empty slice isn't null either.
macro_rules! exported {
    ($($(#[$about:meta])* fn $name:ident = $symbol:ident($($parameters:tt)*);)*) => {
        $(exported!(@next [$(#[$about])*] $name $symbol [$($parameters)*,] [] [] []);)*
    };
    (@next $about:tt $name:ident $symbol:ident [$p:ident: bytes, $($rest:tt)*] [$($safe:tt)*] [$($c:tt)*] [$($pass:tt)*]) => {
        exported!(@next $about $name $symbol [$($rest)*] [$($safe)* $p: &[u8],] [$($c)* _: *const u8, _: usize,] [$($pass)* $p.as_ptr(), $p.len(),]);
    };
    (@next $about:tt $name:ident $symbol:ident [$p:ident: bytes_mut, $($rest:tt)*] [$($safe:tt)*] [$($c:tt)*] [$($pass:tt)*]) => {
        exported!(@next $about $name $symbol [$($rest)*] [$($safe)* $p: &mut [u8],] [$($c)* _: *mut u8, _: usize,] [$($pass)* $p.as_mut_ptr(), $p.len(),]);
    };
    (@next $about:tt $name:ident $symbol:ident [$p:ident: numbers, $($rest:tt)*] [$($safe:tt)*] [$($c:tt)*] [$($pass:tt)*]) => {
        exported!(@next $about $name $symbol [$($rest)*] [$($safe)* $p: &[u64],] [$($c)* _: *const u64, _: usize,] [$($pass)* $p.as_ptr(), $p.len(),]);
    };
    (@next $about:tt $name:ident $symbol:ident [$p:ident: numbers_mut, $($rest:tt)*] [$($safe:tt)*] [$($c:tt)*] [$($pass:tt)*]) => {
        exported!(@next $about $name $symbol [$($rest)*] [$($safe)* $p: &mut [u64],] [$($c)* _: *mut u64, _: usize,] [$($pass)* $p.as_mut_ptr(), $p.len(),]);
    };
    (@next $about:tt $name:ident $symbol:ident [$p:ident: turns, $($rest:tt)*] [$($safe:tt)*] [$($c:tt)*] [$($pass:tt)*]) => {
        exported!(@next $about $name $symbol [$($rest)*] [$($safe)* $p: &[u32],] [$($c)* _: *const u32, _: usize,] [$($pass)* $p.as_ptr(), $p.len(),]);
    };
    (@next $about:tt $name:ident $symbol:ident [$p:ident: turns_mut, $($rest:tt)*] [$($safe:tt)*] [$($c:tt)*] [$($pass:tt)*]) => {
        exported!(@next $about $name $symbol [$($rest)*] [$($safe)* $p: &mut [u32],] [$($c)* _: *mut u32, _: usize,] [$($pass)* $p.as_mut_ptr(), $p.len(),]);
    };
    (@next $about:tt $name:ident $symbol:ident [$p:ident: trims, $($rest:tt)*] [$($safe:tt)*] [$($c:tt)*] [$($pass:tt)*]) => {
        exported!(@next $about $name $symbol [$($rest)*] [$($safe)* $p: &[i32],] [$($c)* _: *const i32, _: usize,] [$($pass)* $p.as_ptr(), $p.len(),]);
    };
    (@next $about:tt $name:ident $symbol:ident [$p:ident: trims_mut, $($rest:tt)*] [$($safe:tt)*] [$($c:tt)*] [$($pass:tt)*]) => {
        exported!(@next $about $name $symbol [$($rest)*] [$($safe)* $p: &mut [i32],] [$($c)* _: *mut i32, _: usize,] [$($pass)* $p.as_mut_ptr(), $p.len(),]);
    };
    (@next $about:tt $name:ident $symbol:ident [$p:ident: $number:ident, $($rest:tt)*] [$($safe:tt)*] [$($c:tt)*] [$($pass:tt)*]) => {
        exported!(@next $about $name $symbol [$($rest)*] [$($safe)* $p: $number,] [$($c)* _: $number,] [$($pass)* $p,]);
    };
    (@next [$(#[$about:meta])*] $name:ident $symbol:ident [] [$($safe:tt)*] [$($c:tt)*] [$($pass:tt)*]) => {
        $(#[$about])*
        #[allow(clippy::too_many_arguments)]
        pub fn $name($($safe)*) -> u32 {
            extern "C" {
                fn $symbol($($c)*) -> u32;
            }
            // SAFETY: see the macro
            unsafe { $symbol($($pass)*) }
        }
    };
}

exported! {
    /// Starts a box with its id and its addresses, each address with its length before it in two bytes, the lower first. 64.
    fn start = starterbell_start(me: bytes_mut, id: bytes, addresses: bytes);

    /// Opens a connection to a peer. 64; a refusal leaves it shut.
    fn open = starterbell_open(me: bytes, connection: bytes_mut, id: bytes, server: u32, asking: u32, addresses: bytes);

    /// Takes bytes of a piece up to the first event. 64 more are wanted, 65 a request was answered in `reply`, 66 a message for a lookup stands in `buffer`.
    /// `out`: bytes taken; length of the reply or the message; the sender's sighting (0 none, 1 moved, 2 joined, 3 bucket full, 4 no slot); its slot; for 66
    /// the message's view, as [`read`] gives it.
    fn receive = starterbell_receive(
        me: bytes, connection: bytes_mut, buffer: bytes_mut, piece: bytes, contacts: bytes_mut, records: bytes_mut, reply: bytes_mut, out: numbers_mut
    );

    /// The peer's bytes are over. 64 where they ended between messages.
    fn end = starterbell_end(me: bytes, connection: bytes_mut);

    /// A peer was seen. 64 moved, 65 joined, 13 its bucket is full. `out`: its slot, or that of the bucket's head.
    fn seen = starterbell_seen(me: bytes, contacts: bytes_mut, id: bytes, client: u32, addresses: bytes, out: numbers_mut);

    /// The probe of a head came back. 64 it is kept, 65 the newcomer has its slot.
    fn settle = starterbell_settle(me: bytes, contacts: bytes_mut, head: bytes, id: bytes, client: u32, addresses: bytes, answered: u32);

    /// Takes a contact out. 64.
    fn remove = starterbell_remove(me: bytes, contacts: bytes_mut, id: bytes);

    /// Marks a contact as doubtful. 64.
    fn doubt = starterbell_doubt(me: bytes, contacts: bytes_mut, id: bytes);

    /// Of the contacts that aren't doubtful, those nearest to a key. 64. `out`: how many, and twenty slots.
    fn nearest = starterbell_nearest(me: bytes, contacts: bytes, key: bytes, out: numbers_mut);

    /// Puts a record into the store. 64.
    fn put = starterbell_put(records: bytes_mut, key: bytes, value: bytes);

    /// Where a key's value stands in the store. 64 held, 65 not held. `out`: where it starts and ends.
    fn find = starterbell_find(records: bytes, key: bytes, out: numbers_mut);

    /// The recipe that a value is. 64. `out`: its format, 1 or 2; where its core starts, at which its note ends; where its wrap starts, at which its core ends; where
    /// its trailer starts, at which its wrap ends; how many setpoints its core has; how many its wrap; its sequence. Or 9, and `out`: the number of the
    /// [rule](crate::recipe::Rule) that is broken; by which [part](crate::recipe::Part); which setpoint, from 0, where it is a rule on setpoints, else 0.
    fn recipe_read = starterbell_recipe_read(value: bytes, out: numbers_mut);

    /// The setpoints of a recipe's wrap where `core` is 0, else of its core, from the first on, as many as fit. 64; or 9, and nothing is written.
    fn recipe_setpoints = starterbell_recipe_setpoints(value: bytes, core: u32, turns: turns_mut, trims: trims_mut);

    /// Writes a recipe at the start of `value`, as far as that goes. 64. `out`: the length of the whole. Or 9, and `out` as for [`recipe_read`].
    fn recipe_write = starterbell_recipe_write(
        value: bytes_mut, format: usize, note: bytes, wrap_turns: turns, wrap_trims: trims, core_turns: turns, core_trims: trims, sequence: u64, out: numbers_mut
    );

    /// The message that a body is. 64. `out`: its type; where its key starts and ends; 1 if it has a record, else 0; where the record's key starts and ends;
    /// where its value starts and ends.
    fn read = starterbell_read(body: bytes, out: numbers_mut);

    /// The next peer of a message from a position on, of closerPeers where `list` is 0, else of providerPeers. 64, or 65 where there is none. `out`: where it
    /// starts and ends; where its id starts and ends; its connection; how many addresses it has; where the first eight of those start and end, one after
    /// another, with zeros after the last.
    fn peer = starterbell_peer(body: bytes, list: u32, from: usize, out: numbers_mut);

    /// The next address of the peer at `start` to `end` from a position on. 64, or 65 where there is none. `out`: where it starts and ends.
    fn peer_address = starterbell_peer_address(body: bytes, start: usize, end: usize, from: usize, out: numbers_mut);

    /// Writes a message with its length before it. 64. `out`: its length with the prefix.
    fn write = starterbell_write(
        message: bytes_mut, kind: u64, key: bytes, held: u32, record_key: bytes, value: bytes, closer: bytes, providers: bytes, out: numbers_mut
    );

    /// Starts a lookup. 64 going, 67 complete. As for the three below, `out`: the rank to ask for 66, the requests sent for 67 and 68, else 0; how many peers
    /// were found; twenty ranks.
    fn lookup_start = starterbell_lookup_start(me: bytes, lookup: bytes_mut, contacts: bytes, key: bytes, limit: usize, out: numbers_mut);

    /// The next step of a lookup. 65 wait, 66 ask, 67 complete, 68 cut short.
    fn lookup_next = starterbell_lookup_next(lookup: bytes_mut, out: numbers_mut);

    /// A message came for a lookup, with its view as [`read`] or [`receive`] gave it. 64 going, 67 complete, 68 cut short.
    fn lookup_reply = starterbell_lookup_reply(me: bytes, lookup: bytes_mut, id: bytes, body: bytes, view: numbers, out: numbers_mut);

    /// A peer failed a lookup. Answers as a reply does.
    fn lookup_failure = starterbell_lookup_failure(me: bytes, lookup: bytes_mut, id: bytes, out: numbers_mut);
}
