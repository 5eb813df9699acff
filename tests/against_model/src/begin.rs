//! Worlds to begin with, each from its seed: mostly small, some at the limits of the rules.

use crate::script::Script;
use crate::twin::Twin;
use starterbell_model::gen::{self, Rng, Source};
use starterbell_model::limits::{CONTACT_SLOT, CONTACT_SLOTS, KEY, RECORD_SLOT, RECORD_SLOTS};
use starterbell_model::peer::Mode;
use starterbell_model::steps::{Step, World};

struct Size {
    contacts: usize,
    records: usize,
    peers: usize,
    steps: u64,
    /// Contacts, keys and values as large as they can be.
    largest: bool,
}

fn size(rng: &mut Rng) -> Size {
    let contacts = *rng.pick(&[0, 1, 2, 5, 19, 20, 21, 22, 25, 30, 30, 40, 40, 50]);
    let records = *rng.pick(&[0, 1, 1, 2, 3, 4, 6, 8]);
    let peers = *rng.pick(&[30, 60, 100, 150]);
    let usual = Size { contacts, records, peers, steps: 1_000, largest: false };
    match rng.below(160) {
        0..=1 => Size { contacts: rng.between(CONTACT_SLOTS - 2, CONTACT_SLOTS + 3), steps: 45, largest: rng.one_in(4), ..usual },
        2..=4 => Size { records: RECORD_SLOTS + rng.between(1, 5) - 2, steps: 150, largest: rng.one_in(2), ..usual },
        5..=10 => Size { contacts: rng.between(60, 300), records: rng.between(9, 30), peers: 400, steps: 400, ..usual },
        11..=35 => Size { contacts: rng.between(19, 40), records: rng.between(1, 12), largest: true, ..usual },
        _ => usual,
    }
}

/// Slots past the last that counts have noise.
fn past_the_last(rng: &mut Rng, memory: &mut Vec<u8>, slot: usize, most: usize, slots: usize) {
    if slots > most {
        memory.truncate(slot * most);
        let n = (slots - most) * slot + rng.below(slot);
        memory.extend(rng.bytes(n));
    }
}

/// All peers have been seen, and some are gone again or doubtful: there are full buckets, with free slots among theirs.
fn crowd(rng: &mut Rng, source: &Source, world: &mut World) {
    for id in &source.network.ids {
        world.run(&Step::Seen { id: id.clone(), mode: Mode::Server, addresses: gen::address_list(rng) });
    }
    for _ in 0..rng.below(6) {
        world.run(&Step::Remove { id: rng.pick(&source.network.ids).clone() });
    }
    for _ in 0..rng.below(20) {
        world.run(&Step::Doubt { id: rng.pick(&source.network.ids).clone() });
    }
}

fn world(rng: &mut Rng, source: &mut Source, size: &Size) -> World {
    let (contacts, records) = (size.contacts.min(CONTACT_SLOTS), size.records.min(RECORD_SLOTS));
    let (made_up, clean) = (rng.one_in(2), rng.one_in(2));
    if size.largest {
        source.keys.iter_mut().for_each(|key| key.resize(KEY, b'k'));
    }
    let mut world = source.world(contacts, records, rng.below(5), rng.below(4), made_up, clean);
    if size.largest {
        let n = contacts.min(5_000);
        world.contacts[..n * CONTACT_SLOT].copy_from_slice(&gen::largest_table(rng, &world.me.place, n));
        world.records[..records * RECORD_SLOT].copy_from_slice(&gen::full_store(rng, &source.keys, records));
    }
    if !made_up && rng.one_in(2) {
        crowd(rng, source, &mut world);
    }
    past_the_last(rng, &mut world.contacts, CONTACT_SLOT, CONTACT_SLOTS, size.contacts);
    past_the_last(rng, &mut world.records, RECORD_SLOT, RECORD_SLOTS, size.records);
    world
}

/// A world twice, what the host does with it, and for how many calls.
pub fn begin(seed: u64) -> (Twin, Script, u64) {
    let mut rng = Rng::new(seed ^ 0x05ee_d0fa_b0c5);
    let size = size(&mut rng);
    let mut source = Source::new(seed, size.peers);
    source.poke_one_in = *rng.pick(&[0, 20, 40]);
    let world = world(&mut rng, &mut source, &size);
    let n = rng.below(9);
    let twin = Twin::new(world, &rng.bytes(n));
    let script = Script::new(rng, source, &twin);
    (twin, script, size.steps)
}
