//! Memory that version 0.1 laid out: its records are found there, and put anew.
//!
//! That version took values of up to 2,048 bytes, in slots of 2,184. Lent to a call of this one as it is, such memory is other bytes: the call gives 0, or finds some
//! records and not others. Form doesn't tell the two layouts apart, so hand in only what that version wrote. [`Node::restore_older`] takes a box that it saved,
//! [`Node::carry_over`] record memory, and [`records`] is for a host that lays out memory itself, and puts each by [`raw::put`].

use crate::message::Record;
use crate::node::{are_slots, Node};
use crate::raw;
use crate::refusal::Refusal;
use crate::saved;
use alloc::collections::BTreeSet;
use alloc::vec;
use alloc::vec::Vec;

/// What version 0.1 saved of a box.
const BOX: &[u8; 16] = b"starterbell/box1";

// its record slots, whose numbers don't move any more
const MOST_RECORDS: usize = 256;
const KEY_AT: usize = 8;
const VALUE_AT: usize = 136;
const RECORD: usize = 2_184;
const LEAST_VALUE: usize = 16;
const OPENING: &[u8] = b"/wind/";

/// What came of records that were [carried over](Node::carry_over).
#[must_use = "it says which records the box didn't take"]
#[derive(Clone, Debug, Default, PartialEq, Eq)]
pub struct CarriedOver<'a> {
    /// How many the box took.
    pub taken: usize,
    /// Those that it refused, and why. They stand in the old memory as they did.
    pub refused: Vec<(Record<'a>, Refusal)>,
}

impl Node {
    /// A box from a save of version 0.1 (`Node::save` of that version), and what came of its records. It has the id, the addresses, the contacts and the room that it
    /// had; its records are [carried over](Node::carry_over). Refused with 0 where the bytes aren't such a save, or not as it was written.
    ///
    /// Stack: as for [`nearest`](Node::nearest), which tests the form of the contacts.
    pub fn restore_older(saved: &[u8]) -> Result<(Node, CarriedOver<'_>), Refusal> {
        let [me, contacts, older] = saved::unpack(BOX, saved)?;
        if !are_slots(older, RECORD, MOST_RECORDS) {
            return Err(Refusal::OutOfForm);
        }
        let mut node = Node::of(me, contacts, vec![0; older.len() / RECORD * raw::RECORD].into())?;
        let carried = node.carry_over(older)?;
        Ok((node, carried))
    }

    /// Puts every record of [record memory that version 0.1 laid out](crate::older).
    ///
    /// Each is judged as by any [`put`](Node::put), so that the box holds what calls made, and all that is promised of a box holds of it. Refused are one from before a
    /// rule on recipes (9), as one whose trims leap; one that ranks lower than what is held (10); and one for which no slot is left (11). All others are taken whatever
    /// becomes of these. Where the old memory is out of form that is an error (0), and nothing is put.
    pub fn carry_over<'a>(&mut self, older: &'a [u8]) -> Result<CarriedOver<'a>, Refusal> {
        let mut carried = CarriedOver::default();
        for record in records(older)? {
            match self.put(record.key, record.value) {
                Ok(()) => carried.taken += 1,
                Err(refusal) => carried.refused.push((record, refusal)),
            }
        }
        Ok(carried)
    }
}

/// The records of record memory that version 0.1 laid out, where they lie: those in its whole slots, up to 256. Refused with 0 where it is out of form.
pub fn records(older: &[u8]) -> Result<Vec<Record<'_>>, Refusal> {
    let used = older.chunks_exact(RECORD).take(MOST_RECORDS).filter(|slot| slot[0] != 0);
    let records: Vec<Record> = used.map(record).collect::<Option<_>>().ok_or(Refusal::OutOfForm)?;
    let keys: BTreeSet<&[u8]> = records.iter().map(|record| record.key).collect();
    // no key stands twice
    if keys.len() == records.len() {
        return Ok(records);
    }
    Err(Refusal::OutOfForm)
}

/// The record in an old slot that is used; none where that is out of form.
fn record(slot: &[u8]) -> Option<Record<'_>> {
    let key = slot[KEY_AT..VALUE_AT].get(..usize::from(slot[0]))?;
    let value = slot[VALUE_AT..].get(..usize::from(u16::from_le_bytes([slot[2], slot[3]])))?;
    (key.len() > OPENING.len() && key.starts_with(OPENING) && value.len() >= LEAST_VALUE).then_some(Record { key, value })
}
