//! Saving: a box that is saved and restored goes on as though nothing had happened, in another process too; and what isn't a whole save is refused.

use starterbell::lookup::{Lookup, Step};
use starterbell::message::{Draft, Kind, Message, Named};
use starterbell::recipe::{Format, Recipe};
use starterbell::{raw, Event, Node, Peer, Probed, Refusal, Room};
use std::path::{Path, PathBuf};
use std::process::Command;

const STEPS: u64 = 600;
const STOP: u64 = 330;

/// Numbers that look random, the same in every run: splitmix64.
struct Rng(u64);

impl Rng {
    fn below(&mut self, n: usize) -> usize {
        self.0 = self.0.wrapping_add(0x9e37_79b9_7f4a_7c15);
        let z = (self.0 ^ (self.0 >> 30)).wrapping_mul(0xbf58_476d_1ce4_e5b9);
        let z = (z ^ (z >> 27)).wrapping_mul(0x94d0_49bb_1331_11eb);
        ((z ^ (z >> 31)) % n as u64) as usize
    }
}

// ---- a script

fn bench() -> Node {
    Node::start(b"bench", &[b"/ip4/10.0.0.1", b"/ip6/::1"], Room { contacts: 48, records: 5 }).expect("a good id")
}

fn id(n: usize) -> Vec<u8> {
    format!("peer {n}").into_bytes()
}

/// What a request of a server is answered with, on a connection of its own.
fn asked(node: &mut Node, sender: &[u8], draft: Draft) -> String {
    let mut connection = node.accept(Peer::server(sender, &[b"/asker"])).expect("a good id");
    let mut said = String::new();
    let request = draft.to_vec().expect("within the limits");
    let told = node.feed(&mut connection, &request, |_, received| {
        let Event::Reply(reply) = received.event else { panic!("a request is answered or refused") };
        said = format!("Reply({reply:?}) {:?}", received.seen);
    });
    format!("{said} {told:?}")
}

/// One call on the box, whichever the step's number gives, and what it answers.
fn step(node: &mut Node, number: u64) -> String {
    let mut rng = Rng(number);
    let (peer, other, key) = (id(rng.below(90)), id(rng.below(90)), [&b"/wind/"[..], &[b'a' + rng.below(7) as u8]].concat());
    // every second one is for two spools, and one in eight is as long as a value can be
    let (format, longest) = [(Format::One, 3_056), (Format::Two, 3_048)][number as usize % 2];
    let note = vec![7; Some(rng.below(40)).filter(|length| length % 8 > 0).unwrap_or(longest)];
    let value = Recipe { format, note, sequence: rng.below(9) as u64, ..Recipe::default() }.to_value().expect("a recipe");
    match rng.below(10) {
        0..=2 => format!("{:?}", node.seen(Peer::server(&peer, &[&other]))),
        3 => {
            let head = node.contacts().find(|contact| contact.rank() == 0).map(|contact| contact.id().to_vec()).unwrap_or_default();
            let did = [Probed::Answered, Probed::Silent][rng.below(2)];
            format!("{:?}", node.settle(&head, Peer::server(&peer, &[]), did))
        }
        4 => format!("{:?}", node.remove(&peer)),
        5 => format!("{:?}", node.doubt(&peer)),
        6 => format!("{:?} {:?}", node.put(&key, &value), node.find(&key)),
        7 => format!("{:?}", node.nearest(&key)),
        8 => asked(node, &peer, Draft::find_node(&other)),
        _ => asked(node, &peer, Draft::put_value(&key, &value)) + &asked(node, &other, Draft::get_value(&key)),
    }
}

/// The steps with these numbers, a line for each.
fn play(node: &mut Node, steps: std::ops::Range<u64>) -> String {
    steps.map(|number| step(node, number) + "\n").collect()
}

/// A box after the first steps.
fn played(steps: u64) -> Node {
    let mut node = bench();
    play(&mut node, 0..steps);
    node
}

// ---- goes on

#[test]
fn the_script_does_a_bit_of_everything() {
    let said = play(&mut bench(), 0..STEPS);
    for part in ["Moved(", "Joined(", "Probe(", "Kept", "Swapped", "NoContactSlot", "NoLongerFits", "NoRecordSlot", "Outranked", "Reply("] {
        assert!(said.contains(part), "{part} isn't met");
    }
    let node = played(STOP);
    assert!(node.contacts().count() > 20 && node.contacts().any(|contact| contact.is_doubtful()) && node.records().count() > 2, "{node:?}");
}

#[test]
fn a_box_goes_on_wherever_it_is_stopped() {
    let mut whole = bench();
    let mut stopped = bench();
    for number in 0..STEPS {
        assert_eq!(step(&mut stopped, number), step(&mut whole, number), "step {number}");
        let saved = whole.save();
        assert_eq!(stopped.save(), saved);
        stopped = Node::restore(&saved).expect("a whole save");
    }
}

/// A folder of this test's own, empty.
fn folder(name: &str) -> PathBuf {
    let folder = Path::new(env!("CARGO_TARGET_TMPDIR")).join(format!("{name}-{}", std::process::id()));
    let _ = std::fs::remove_dir_all(&folder);
    std::fs::create_dir_all(&folder).expect("a folder");
    folder
}

/// Saves as a host should: whole, beside the last save, and then in its place.
fn keep(saved: &[u8], file: &Path) {
    let second = file.with_extension("new");
    std::fs::write(&second, saved).expect("written");
    std::fs::File::open(&second).and_then(|file| file.sync_all()).expect("flushed");
    std::fs::rename(&second, file).expect("renamed");
}

#[test]
fn a_box_goes_on_in_another_process() {
    let folder = folder("saving");
    keep(&played(100).save(), &folder.join("box"));
    keep(&played(STOP).save(), &folder.join("box"));
    let this = std::env::current_exe().expect("this test");
    let other = Command::new(this).args(["the_other_process", "--exact", "--ignored"]).env("SAVING_FOLDER", &folder).output().expect("it starts");
    assert!(other.status.success(), "{}", String::from_utf8_lossy(&other.stdout));
    let read = |name: &str| std::fs::read(folder.join(name)).expect("the other process wrote it");
    let mut whole = played(STOP);
    let said = play(&mut whole, STOP..STEPS);
    assert_eq!(String::from_utf8_lossy(&read("said")), said);
    assert!(read("box") == whole.save(), "what it saved in the end is what a box has that wasn't stopped");
    std::fs::remove_dir_all(&folder).expect("an own folder");
}

/// The second half of the test above, which runs it.
#[test]
#[ignore = "it is run by a_box_goes_on_in_another_process"]
fn the_other_process() {
    let Some(folder) = std::env::var_os("SAVING_FOLDER").map(PathBuf::from) else { return };
    let mut node = Node::restore(&std::fs::read(folder.join("box")).expect("saved")).expect("a whole save");
    std::fs::write(folder.join("said"), play(&mut node, STOP..STEPS)).expect("written");
    keep(&node.save(), &folder.join("box"));
}

// ---- lookups

/// A FIND_NODE reply that names three peers, as the body of a message.
fn naming(n: usize) -> Vec<u8> {
    let ids = [id(n % 97), id(n * 7 % 97), id(n * 31 % 97)];
    let peers: Vec<Named> = ids.iter().map(|id| Named { id, ..Named::default() }).collect();
    Draft { closer_peers: &peers, ..Draft::new(Kind::FindNode) }.to_vec().expect("within the limits")[1..].to_vec()
}

/// Asks until it waits, then reports on one that was asked. What was said, or none where it is over.
fn round(lookup: &mut Lookup, node: &Node, n: usize) -> Option<String> {
    let mut said = String::new();
    while let Step::Ask(id) = lookup.next().expect("in form") {
        said += &format!("{:?} ", String::from_utf8_lossy(id));
    }
    // it may be over before all have answered
    let sender = lookup.in_flight().next().filter(|_| !lookup.is_over())?.to_vec();
    let body = naming(n);
    let told = if n % 4 == 0 { lookup.failure(node, &sender) } else { lookup.reply(node, &sender, &Message::read(&body).expect("a reply")) };
    Some(format!("{said}{told:?}"))
}

#[test]
fn a_lookup_goes_on_wherever_it_is_stopped() {
    let node = played(STOP);
    let mut whole = Lookup::start(&node, b"/wind/a", 3).expect("a good key");
    let mut stopped = whole.clone();
    let mut rounds = 0;
    loop {
        stopped = Lookup::restore(&stopped.save()).expect("a whole save");
        assert_eq!((stopped.key(), stopped.target(), stopped.is_over()), (whole.key(), whole.target(), whole.is_over()));
        assert!(stopped.in_flight().eq(whole.in_flight()));
        let said = round(&mut whole, &node, rounds);
        assert_eq!(round(&mut stopped, &node, rounds), said);
        rounds += 1;
        if said.is_none() {
            break;
        }
    }
    assert!(rounds > 20, "{rounds}");
    stopped = Lookup::restore(&stopped.save()).expect("a whole save");
    assert!(stopped.is_over());
    assert_eq!(stopped.next(), whole.next());
}

#[test]
fn requests_on_their_way_are_reported_as_failures() {
    let node = played(STOP);
    let mut lookup = Lookup::start(&node, b"/wind/a", 10).expect("a good key");
    while let Step::Ask(_) = lookup.next().expect("in form") {}
    let mut back = Lookup::restore(&lookup.save()).expect("a whole save");
    let asked: Vec<Vec<u8>> = back.in_flight().map(<[u8]>::to_vec).collect();
    assert_eq!(asked.len(), 10);
    for id in &asked {
        assert_eq!((back.failure(&node, id), back.failure(&node, id).is_err()), (Ok(()), true));
    }
    assert!(back.in_flight().next().is_none() && matches!(back.next(), Ok(Step::Ask(id)) if !asked.contains(&id.to_vec())));
}

// ---- torn and foreign bytes

fn refused(saved: &[u8]) -> bool {
    let (before, node, lookup) = (saved.to_vec(), Node::restore(saved), Lookup::restore(saved));
    assert!(saved == before);
    node.is_err_and(|refusal| refusal == Refusal::OutOfForm) && lookup.is_err_and(|refusal| refusal == Refusal::OutOfForm)
}

#[test]
fn a_part_of_a_save_is_refused() {
    let node = played(STOP);
    let lookup = Lookup::start(&node, b"/wind/a", 3).expect("a good key");
    for saved in [node.save(), lookup.save()] {
        let ends = (0..200).chain((200..saved.len()).step_by(613)).chain(saved.len() - 20..saved.len());
        for end in ends {
            assert!(refused(&saved[..end]), "{end} of {} bytes", saved.len());
            let blank = [&saved[..end], &vec![0; saved.len() - end]].concat();
            assert!(blank == saved || refused(&blank), "zeros from {end} on");
        }
        assert!(refused(&[&saved[..], &[0]].concat()) && refused(&saved.repeat(2)) && refused(&[&[0], &saved[..]].concat()));
    }
    assert!(Node::restore(&lookup.save()).is_err() && Lookup::restore(&node.save()).is_err(), "one for the other");
}

#[test]
fn a_changed_save_is_refused() {
    let mut rng = Rng(5);
    let node = played(STOP);
    let lookup = Lookup::start(&node, b"/wind/a", 3).expect("a good key");
    for saved in [node.save(), lookup.save()] {
        for n in 0..3_000 {
            let mut changed = saved.clone();
            let at = if n < 700 { n } else { rng.below(saved.len()) };
            changed[at] ^= 1 << rng.below(8);
            assert!(refused(&changed), "byte {at}");
        }
    }
}

/// A file that was written over in place when the power went: blocks of the new save, and blocks of the old one.
#[test]
fn a_mixture_of_two_saves_is_refused() {
    let (old, new) = (played(STOP).save(), played(STEPS).save());
    assert_eq!(old.len(), new.len());
    let mut refusals = 0;
    for size in [512, 4_096] {
        for cut in (0..new.len()).step_by(size) {
            let torn = [&new[..cut], &old[cut..]].concat();
            assert!(torn == old || torn == new || refused(&torn), "the first {cut} bytes are new");
            refusals += usize::from(torn != old && torn != new);
        }
    }
    assert!(refusals > 20, "{refusals}");
}

// ---- bytes that somebody made up, with a right sum

/// Where the parts of a save stand.
const ME: usize = 16 + 3 * 8;
const CONTACTS: usize = ME + raw::BOX;

/// A save with these changes, and the sum over what it has now (FNV-1a).
fn forged(mut saved: Vec<u8>, change: impl FnOnce(&mut Vec<u8>)) -> Vec<u8> {
    saved.truncate(saved.len() - 8);
    change(&mut saved);
    let sum = saved.iter().fold(0xcbf2_9ce4_8422_2325u64, |sum, byte| (sum ^ u64::from(*byte)).wrapping_mul(0x0100_0000_01b3));
    saved.extend_from_slice(&sum.to_le_bytes());
    saved
}

/// A change to a save.
type Change = fn(&mut Vec<u8>);

#[test]
fn what_is_out_of_form_is_refused_whatever_its_sum() {
    const RECORDS: usize = CONTACTS + 48 * raw::CONTACT;
    let saved = played(STOP).save();
    assert_eq!(saved.len(), 48 * raw::CONTACT + 5 * raw::RECORD + 664, "as the documentation says");
    assert!(Node::restore(&forged(saved.clone(), |_| {})).is_ok(), "nothing is changed");
    let changes: [(&str, Change); 18] = [
        ("the box has no id", |save| save[ME + 2] = 0),
        ("its id has 65 bytes", |save| save[ME + 2] = 65),
        ("it has five addresses", |save| save[ME + 3] = 5),
        ("an address of 129 bytes", |save| save[ME + 4] = 129),
        ("an empty address", |save| save[ME + 5] = 0),
        ("its place isn't its id's", |save| save[ME + 8] ^= 1),
        ("bytes after its id", |save| save[ME + 40 + 63] = 1),
        ("the box as a contact", |save| save.copy_within(ME..ME + 616, CONTACTS)),
        ("a contact twice", |save| save.copy_within(CONTACTS..CONTACTS + 616, CONTACTS + 616)),
        ("a rank of 21", |save| save[CONTACTS] = 22),
        ("a mark of doubt of 2", |save| save[CONTACTS + 1] = 2),
        ("a contact without an id", |save| save[CONTACTS + 2] = 0),
        ("a key twice", |save| save.copy_within(RECORDS..RECORDS + raw::RECORD, RECORDS + raw::RECORD)),
        ("a key of 129 bytes", |save| save[RECORDS] = 129),
        ("a value of 15 bytes", |save| save[RECORDS + 2..RECORDS + 4].copy_from_slice(&[15, 0])),
        ("a value of 3,073 bytes", |save| save[RECORDS + 2..RECORDS + 4].copy_from_slice(&[1, 12])),
        ("a byte more than its parts have", |save| save.push(0)),
        ("a part of a slot", |save| {
            save[16 + 8..16 + 16].copy_from_slice(&(48 * 616u64 - 1).to_le_bytes());
            save.remove(RECORDS - 1);
        }),
    ];
    for (what, change) in changes {
        assert!(refused(&forged(saved.clone(), change)), "{what}");
    }
}

#[test]
fn lengths_that_are_wrong_are_refused_whatever_the_sum() {
    let saved = played(STOP).save();
    for length in [[0xff; 8], (1u64 << 40).to_le_bytes(), [0; 8]] {
        assert!(refused(&forged(saved.clone(), |save| save[16..24].copy_from_slice(&length))), "{length:?} bytes of a box");
    }
    let over = Room { contacts: raw::MOST_CONTACTS, records: 0 };
    let most = Node::start(b"bench", &[], over).expect("a good id").save();
    assert!(Node::restore(&most).is_ok());
    let more = |save: &mut Vec<u8>| {
        save[24..32].copy_from_slice(&(616 * 5_121u64).to_le_bytes());
        save.extend_from_slice(&[0; 616]);
    };
    assert!(refused(&forged(most, more)), "more slots than are used");
}

/// Nothing is promised of such a box but that it is one: whatever is asked of it, calls return and it can be saved again.
#[test]
fn what_is_in_form_is_dealt_with() {
    let saved = played(STOP).save();
    let mut rng = Rng(6);
    let mut taken = 0;
    for n in 0..2_000 {
        let changed = forged(saved.clone(), |save| {
            for _ in 0..1 + rng.below(3) {
                let at = CONTACTS + rng.below(save.len() - CONTACTS);
                save[at] = rng.below(256) as u8;
            }
        });
        let Ok(mut node) = Node::restore(&changed) else { continue };
        taken += 1;
        assert!(node.save() == changed);
        play(&mut node, n..n + 5);
        assert!(Node::restore(&node.save()).is_ok(), "form is kept");
        let _ = (format!("{node:?}"), node.contacts().map(|contact| contact.addresses().len()).sum::<usize>());
    }
    assert!((200..2_000).contains(&taken), "{taken} of 2,000 were in form");
}

#[test]
fn made_up_lookups_are_dealt_with() {
    let node = played(STOP);
    let mut lookup = Lookup::start(&node, b"/wind/a", 3).expect("a good key");
    while let Step::Ask(_) = lookup.next().expect("in form") {}
    let saved = lookup.save();
    let mut rng = Rng(7);
    let mut taken = 0;
    for n in 0..2_000 {
        let changed = forged(saved.clone(), |save| {
            let at = if n % 2 == 0 { 24 + rng.below(8) } else { 24 + rng.below(168 + 20 * 98) };
            save[at] = rng.below(256) as u8;
        });
        let Ok(mut back) = Lookup::restore(&changed) else { continue };
        taken += 1;
        assert!(back.save() == changed);
        let _ = (format!("{back:?}"), round(&mut back, &node, n));
    }
    assert!((200..2_000).contains(&taken), "{taken} of 2,000 were in form");
    assert!(refused(&forged(saved, |save| save[24 + 2] = 0)), "a lookup without a key");
}
