//! Request x: what a long run has to meet of doubtful contacts. It is told from the table before a call, from the call and from what it gave.

use crate::answer::Answer;
use crate::calls::{Call, Region};
use crate::coverage::whole_body;
use crate::twin::Twin;
use starterbell_model::contacts::{self, Entries, Entry};
use starterbell_model::limits::{CONTACT_SLOT, NEAREST};
use starterbell_model::message;
use starterbell_model::peer::usable;
use starterbell_model::place::{bucket, distance, place_of, Place};
use starterbell_model::steps::Step;

pub const MET: [&str; 49] = [
    "doubt: one is marked",
    "doubt: one is marked again",
    "doubt: 12 for the box",
    "doubt: 12 for our own id",
    "doubt: 12 for an id of no fitting length",
    "seen: a doubtful one with new addresses is seen",
    "seen: a doubtful one with no usable address is seen",
    "seen: 18 leaves a doubtful one",
    "seen: 13 names a doubtful head",
    "seen: 14 where some are doubtful",
    "seen: one joins in a free slot with a mark of doubt",
    "seen: doubtful ones behind one that moves stay so",
    "settle: a doubtful head answered",
    "settle: a doubtful head was silent",
    "settle: one joins in the slot of a doubtful head",
    "settle: 15 leaves a doubtful one that answered",
    "settle: 18 leaves a doubtful one that answered",
    "settle: doubtful ones behind the head stay so",
    "remove: a doubtful one goes",
    "remove: doubtful ones behind it stay so",
    "nearest: a doubtful one is passed over",
    "nearest: another comes in for a doubtful one",
    "nearest: fewer than 20 of more than 20",
    "nearest: all are doubtful",
    "lookup_start: a doubtful one is passed over",
    "lookup_start: another comes in for a doubtful one",
    "lookup_start: fewer than 20 of more than 20",
    "lookup_start: all are doubtful",
    "receive: FIND_NODE passes over a doubtful one",
    "receive: FIND_NODE gives another for a doubtful one",
    "receive: FIND_NODE's last entry is a doubtful requester",
    "receive: FIND_NODE for a doubtful one that isn't the requester",
    "receive: FIND_NODE for our place where some are doubtful",
    "receive: GET_VALUE passes over a doubtful one",
    "receive: GET_VALUE gives another for a doubtful one",
    "receive: a doubtful sender is seen",
    "receive: a doubtful client isn't seen",
    "receive: a doubtful sender whose request is refused",
    "receive: a doubtful sender on the asking side",
    "receive: the head of the sender's full bucket is doubtful",
    "receive: the sender joins in a free slot with a mark of doubt",
    "receive: byte 1 of a connection is no mark",
    "seen: 0 for a mark of doubt above 1",
    "settle: 0 for a mark of doubt above 1",
    "remove: 0 for a mark of doubt above 1",
    "doubt: 0 for a mark of doubt above 1",
    "nearest: 0 for a mark of doubt above 1",
    "lookup_start: 0 for a mark of doubt above 1",
    "receive: 0 for a mark of doubt above 1",
];

/// What a call met; `before` is as much of the table as it was lent.
pub fn met(before: &[u8], twin: &Twin, call: &Call, answer: &Answer) -> Vec<&'static str> {
    if !call.regions().contains(&Region::Contacts) {
        return vec![];
    }
    match contacts::entries(before, &twin.world.me.place) {
        Ok(all) => Table { bytes: before, all, twin, code: answer.code, numbers: &answer.numbers }.met(&call.step),
        Err(_) if in_form_but_for_marks(before, &twin.world.me.place) => vec![refused_for_a_mark(&call.step)],
        Err(_) => vec![],
    }
}

fn in_form_but_for_marks(table: &[u8], ours: &Place) -> bool {
    let mut unmarked = table.to_vec();
    unmarked.chunks_exact_mut(CONTACT_SLOT).for_each(|slot| slot[1] = 0);
    contacts::in_form(&unmarked, ours)
}

fn refused_for_a_mark(step: &Step) -> &'static str {
    match step {
        Step::Seen { .. } => "seen: 0 for a mark of doubt above 1",
        Step::Settle { .. } => "settle: 0 for a mark of doubt above 1",
        Step::Remove { .. } => "remove: 0 for a mark of doubt above 1",
        Step::Doubt { .. } => "doubt: 0 for a mark of doubt above 1",
        Step::Nearest { .. } => "nearest: 0 for a mark of doubt above 1",
        Step::Start { .. } => "lookup_start: 0 for a mark of doubt above 1",
        _ => "receive: 0 for a mark of doubt above 1",
    }
}

/// Whether something was met, and what.
type Case = (bool, &'static str);

/// A table in form before a call, what the call gave, and what there is after it.
struct Table<'a> {
    bytes: &'a [u8],
    all: Entries,
    twin: &'a Twin,
    code: u32,
    numbers: &'a [u64],
}

impl Table<'_> {
    fn met(&self, step: &Step) -> Vec<&'static str> {
        let cases = match step {
            Step::Doubt { id } => self.doubt(id),
            Step::Seen { id, addresses, .. } => self.seen(id, addresses),
            Step::Settle { head, newcomer, answered, .. } => self.settle(head, newcomer, *answered),
            Step::Remove { id } => self.remove(id),
            Step::Nearest { key } if self.code == 64 => self.nearest(key),
            Step::Start { key, .. } if self.code >= 64 => self.start(key),
            Step::Receive { line, piece } => self.receive(*line, piece),
            _ => vec![],
        };
        cases.into_iter().filter(|(came_up, _)| *came_up).map(|(_, what)| what).collect()
    }

    // ---- who is doubtful

    fn held(&self, place: &Place) -> Option<&Entry> {
        self.all.iter().flatten().find(|e| e.place == *place)
    }

    fn is_doubtful(&self, place: &Place) -> bool {
        self.held(place).is_some_and(|e| e.doubtful)
    }

    fn slot_is_doubtful(&self, slot: u64) -> bool {
        self.all[slot as usize].is_some_and(|e| e.doubtful)
    }

    /// A free slot can say anything but that it is used.
    fn free_slot_is_marked(&self, slot: u64) -> bool {
        self.bytes[slot as usize * CONTACT_SLOT + 1] != 0
    }

    /// Whether one who is doubtful ranks behind this one in its bucket.
    fn doubtful_behind(&self, place: &Place) -> bool {
        let ours = &self.twin.world.me.place;
        let behind = |e: &Entry, first: &Entry| bucket(&e.place, ours) == bucket(&first.place, ours) && e.rank > first.rank;
        self.held(place).is_some_and(|first| self.all.iter().flatten().any(|e| e.doubtful && behind(e, first)))
    }

    /// All contacts, nearest first, by whether they are doubtful.
    fn doubts_by_distance(&self, key: &[u8]) -> Vec<bool> {
        let target = place_of(key);
        let mut all: Vec<&Entry> = self.all.iter().flatten().collect();
        all.sort_by_key(|e| distance(&e.place, &target));
        all.into_iter().map(|e| e.doubtful).collect()
    }

    /// Whether one of the 20 nearest is passed over, and whether another comes in then.
    fn passed_over(&self, key: &[u8]) -> (bool, bool) {
        let doubts = self.doubts_by_distance(key);
        let passed = doubts.iter().take(NEAREST).any(|doubtful| *doubtful);
        (passed, passed && doubts.iter().skip(NEAREST).any(|doubtful| !doubtful))
    }

    /// Whether more than 20 are held and fewer than 20 given, and whether all that are held are doubtful.
    fn too_few(&self, key: &[u8]) -> (bool, bool) {
        let doubts = self.doubts_by_distance(key);
        let given = doubts.iter().filter(|doubtful| !**doubtful).count();
        (doubts.len() > NEAREST && (1..NEAREST).contains(&given), !doubts.is_empty() && given == 0)
    }

    /// Whether one stands after the call in the slot that another had before it.
    fn stands_at(&self, now: &Place, before: &Place) -> bool {
        let slot = self.all.iter().position(|e| e.is_some_and(|e| e.place == *before));
        slot.is_some_and(|i| self.twin.world.contacts[i * CONTACT_SLOT + 8..i * CONTACT_SLOT + 40] == *now)
    }

    // ---- the calls

    fn doubt(&self, id: &[u8]) -> Vec<Case> {
        let (me, again) = (&self.twin.world.me, self.is_doubtful(&place_of(id)));
        let (no_box, ours) = (me.stands().is_err(), place_of(id) == me.place);
        vec![
            (self.code == 64 && !again, "doubt: one is marked"),
            (self.code == 64 && again, "doubt: one is marked again"),
            (self.code == 12 && no_box, "doubt: 12 for the box"),
            (self.code == 12 && !no_box && ours, "doubt: 12 for our own id"),
            (self.code == 12 && !no_box && !ours, "doubt: 12 for an id of no fitting length"),
        ]
    }

    fn seen(&self, id: &[u8], addresses: &[u8]) -> Vec<Case> {
        let (doubtful, none_usable) = (self.is_doubtful(&place_of(id)), usable(addresses).is_empty());
        vec![
            (self.code == 64 && doubtful && !none_usable, "seen: a doubtful one with new addresses is seen"),
            (self.code == 64 && doubtful && none_usable, "seen: a doubtful one with no usable address is seen"),
            (self.code == 18 && doubtful, "seen: 18 leaves a doubtful one"),
            (self.code == 13 && self.slot_is_doubtful(self.numbers[0]), "seen: 13 names a doubtful head"),
            (self.code == 14 && self.all.iter().flatten().any(|e| e.doubtful), "seen: 14 where some are doubtful"),
            (self.code == 65 && self.free_slot_is_marked(self.numbers[0]), "seen: one joins in a free slot with a mark of doubt"),
            (self.code == 64 && self.doubtful_behind(&place_of(id)), "seen: doubtful ones behind one that moves stay so"),
        ]
    }

    fn settle(&self, head: &[u8], newcomer: &[u8], answered: bool) -> Vec<Case> {
        let doubtful = self.is_doubtful(&place_of(head));
        let silent = self.code == 65 && doubtful;
        vec![
            (self.code == 64 && doubtful, "settle: a doubtful head answered"),
            (silent, "settle: a doubtful head was silent"),
            (silent && self.stands_at(&place_of(newcomer), &place_of(head)), "settle: one joins in the slot of a doubtful head"),
            (self.code == 15 && doubtful && answered, "settle: 15 leaves a doubtful one that answered"),
            (self.code == 18 && doubtful && answered, "settle: 18 leaves a doubtful one that answered"),
            (self.code >= 64 && self.doubtful_behind(&place_of(head)), "settle: doubtful ones behind the head stay so"),
        ]
    }

    fn remove(&self, id: &[u8]) -> Vec<Case> {
        let place = place_of(id);
        vec![
            (self.code == 64 && self.is_doubtful(&place), "remove: a doubtful one goes"),
            (self.code == 64 && self.doubtful_behind(&place), "remove: doubtful ones behind it stay so"),
        ]
    }

    fn nearest(&self, key: &[u8]) -> Vec<Case> {
        let ((passed, comes_in), (few, none)) = (self.passed_over(key), self.too_few(key));
        vec![
            (passed, "nearest: a doubtful one is passed over"),
            (comes_in, "nearest: another comes in for a doubtful one"),
            (few, "nearest: fewer than 20 of more than 20"),
            (none, "nearest: all are doubtful"),
        ]
    }

    fn start(&self, key: &[u8]) -> Vec<Case> {
        let ((passed, comes_in), (few, none)) = (self.passed_over(key), self.too_few(key));
        vec![
            (passed, "lookup_start: a doubtful one is passed over"),
            (comes_in, "lookup_start: another comes in for a doubtful one"),
            (few, "lookup_start: fewer than 20 of more than 20"),
            (none, "lookup_start: all are doubtful"),
        ]
    }

    fn receive(&self, line: usize, piece: &[u8]) -> Vec<Case> {
        let sender = &self.twin.world.lines[line].conn.peer.place;
        let doubtful = self.is_doubtful(sender);
        let mut cases = vec![
            ((5..=11).contains(&self.code) && doubtful, "receive: a doubtful sender whose request is refused"),
            (self.code == 66 && doubtful, "receive: a doubtful sender on the asking side"),
        ];
        if self.code == 65 {
            cases.extend(self.sighting(line, doubtful));
            cases.extend(self.reply(sender, piece));
        }
        cases
    }

    fn sighting(&self, line: usize, doubtful: bool) -> Vec<Case> {
        let (sighting, slot) = (self.numbers[2], self.numbers[3]);
        let odd_connection = self.twin.bytes(Region::Connection(line))[1] != 0;
        vec![
            (sighting == 0 && doubtful, "receive: a doubtful client isn't seen"),
            (sighting == 1 && doubtful, "receive: a doubtful sender is seen"),
            (sighting == 2 && self.free_slot_is_marked(slot), "receive: the sender joins in a free slot with a mark of doubt"),
            (sighting == 3 && self.slot_is_doubtful(slot), "receive: the head of the sender's full bucket is doubtful"),
            ((1..=2).contains(&sighting) && odd_connection, "receive: byte 1 of a connection is no mark"),
        ]
    }

    /// What a request that a piece had whole is told.
    fn reply(&self, sender: &Place, piece: &[u8]) -> Vec<Case> {
        let Ok(request) = message::decode(whole_body(piece, self.numbers)) else { return vec![] };
        let (passed, comes_in) = self.passed_over(&request.key);
        match request.kind {
            message::FIND_NODE => {
                let target = place_of(&request.key);
                let doubtful = self.is_doubtful(&target);
                vec![
                    (passed, "receive: FIND_NODE passes over a doubtful one"),
                    (comes_in, "receive: FIND_NODE gives another for a doubtful one"),
                    (doubtful && target == *sender, "receive: FIND_NODE's last entry is a doubtful requester"),
                    (doubtful && target != *sender, "receive: FIND_NODE for a doubtful one that isn't the requester"),
                    (passed && target == self.twin.world.me.place, "receive: FIND_NODE for our place where some are doubtful"),
                ]
            }
            message::GET_VALUE => {
                vec![(passed, "receive: GET_VALUE passes over a doubtful one"), (comes_in, "receive: GET_VALUE gives another for a doubtful one")]
            }
            _ => vec![],
        }
    }
}
