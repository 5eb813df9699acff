//! A bench: a box, and the host around it. The box does what is proved; the host dials, waits, and keeps whom it asked what.

use crate::job::{Goal, Job, Request, Why};
use crate::liar::Liar;
use crate::net::{Link, News, What};
use crate::path::Path;
use crate::tally::Around;
use starterbell::message::{Draft, Message};
use starterbell::{Connection, Contact, Event, Node, Peer, Probed, Seen, Settled};
use std::collections::{BTreeMap, VecDeque};

/// So many connections without a request on them are kept for the next one.
const IDLE_LINKS: usize = 2;

pub enum Role {
    Honest,
    /// It joins, and then never answers.
    Silent,
    Liar(Liar),
}

/// What benches make of a request that went unanswered.
#[derive(Clone, Copy, PartialEq)]
pub enum Habit {
    /// They mark whom they asked as doubtful, and send nobody there until it is seen again.
    Doubts,
    /// They mark nobody: what marking saves shows beside such a run.
    Trusts,
}

/// A peer as the host keeps it.
#[derive(Clone)]
struct Known {
    id: Vec<u8>,
    addresses: Vec<Vec<u8>>,
}

/// What a bench waits for on a connection.
enum Waiting {
    /// An answer for the job of this number.
    Job(u64, Why),
    /// The PING of a bucket's head, for which a newcomer waits.
    Probe(Known),
}

/// A connection on which we ask.
struct Asking {
    connection: Connection,
    peer: Known,
    waiting: VecDeque<Waiting>,
    /// Since when the first of these is awaited: bytes that come to nothing gain a peer no time.
    since: u64,
}

enum End {
    /// Somebody connected, and is saying who it is.
    Greeting(Vec<u8>),
    Serving(Connection),
    Asking(Asking),
    /// A liar's, on which it sent rubbish; or one to a silent bench.
    Mute,
}

pub struct Bench {
    pub node: Node,
    pub role: Role,
    pub goals: VecDeque<Goal>,
    /// What came of the goals to get something.
    pub got: Vec<(Vec<u8>, Option<Vec<u8>>)>,
    /// The path of its first lookup, by which it became known.
    pub first: Option<Path>,
    number: usize,
    habit: Habit,
    job: Option<Job>,
    jobs: u64,
    links: BTreeMap<Link, End>,
    probing: bool,
}

/// Calls `act` with a peer as the box takes it.
fn with_peer<T>(known: &Known, act: impl FnOnce(Peer<'_>) -> T) -> T {
    let addresses: Vec<&[u8]> = known.addresses.iter().map(Vec::as_slice).collect();
    act(Peer::server(&known.id, &addresses))
}

impl Bench {
    pub fn new(number: usize, node: Node, role: Role, habit: Habit) -> Bench {
        Bench { node, role, goals: VecDeque::new(), got: Vec::new(), first: None, number, habit, job: None, jobs: 0, links: BTreeMap::new(), probing: false }
    }

    pub fn is_honest(&self) -> bool {
        matches!(self.role, Role::Honest)
    }

    pub fn is_silent(&self) -> bool {
        matches!(self.role, Role::Silent)
    }

    pub fn is_idle(&self) -> bool {
        self.job.is_none() && self.goals.is_empty()
    }

    // ---- what comes

    pub fn on(&mut self, news: News, around: &mut Around) {
        let link = news.link;
        match (news.what, self.links.remove(&link)) {
            (What::Opened, _) => {
                self.links.insert(link, End::Greeting(Vec::new()));
            }
            (What::Bytes(bytes), Some(end)) => match self.take(link, end, &bytes, around) {
                Some(end) => {
                    self.links.insert(link, end);
                }
                None => around.net.close(link),
            },
            (What::Closed, Some(end)) => self.closed(end, around),
            (_, None) => {}
        }
    }

    /// Takes a piece. None where the connection is over.
    fn take(&mut self, link: Link, end: End, piece: &[u8], around: &mut Around) -> Option<End> {
        match end {
            End::Greeting(mut so_far) => {
                so_far.extend_from_slice(piece);
                self.greeted(link, so_far, around)
            }
            End::Serving(mut connection) => self.serve(link, &mut connection, piece, around).then_some(End::Serving(connection)),
            End::Asking(mut asking) => {
                if self.hear(&mut asking, piece, around) {
                    return Some(End::Asking(asking));
                }
                self.closed(End::Asking(asking), around);
                None
            }
            End::Mute => Some(End::Mute),
        }
    }

    /// Who connects says its id and address, each with its length before it. In a workshop that is what encryption and identification give.
    fn greeted(&mut self, link: Link, so_far: Vec<u8>, around: &mut Around) -> Option<End> {
        let Some((id, address, rest)) = read_greeting(&so_far) else { return Some(End::Greeting(so_far)) };
        if self.is_silent() {
            return Some(End::Mute);
        }
        let opened = self.node.accept(Peer::server(id, &[address]));
        let mut connection = around.told(opened)?;
        self.serve(link, &mut connection, rest, around).then_some(End::Serving(connection))
    }

    /// Answers requests. False where one was refused.
    fn serve(&mut self, link: Link, connection: &mut Connection, piece: &[u8], around: &mut Around) -> bool {
        let mut replies = Vec::new();
        let mut head = None;
        let told = self.node.feed(connection, piece, |_, received| {
            if let Event::Reply(reply) = received.event {
                replies.push(reply.to_vec());
            }
            match received.seen {
                Some(Ok(Seen::Probe(contact))) => head = Some(known(contact)),
                Some(Err(refusal)) => around.refused(refusal),
                _ => {}
            }
        });
        for reply in replies {
            match &mut self.role {
                Role::Liar(liar) => {
                    let lie = liar.lie(&reply, around.rng);
                    around.send(link, &lie);
                }
                _ => around.send(link, &reply),
            }
        }
        if let Some(head) = head {
            self.probe(head, known(connection.peer()), around);
        }
        around.told(told).is_some()
    }

    /// Takes what answers our requests. False where a message was refused.
    fn hear(&mut self, asking: &mut Asking, piece: &[u8], around: &mut Around) -> bool {
        let mut rest = piece;
        while !rest.is_empty() {
            let received = self.node.receive(&mut asking.connection, rest);
            rest = &rest[received.taken..];
            match received.event {
                Event::Heard(message) => {
                    let waiting = asking.waiting.pop_front();
                    if waiting.is_some() {
                        asking.since = around.net.now();
                    }
                    self.heard(&asking.peer, waiting, &message, around);
                }
                Event::Refused(refusal) => {
                    around.refused(refusal);
                    return false;
                }
                Event::More | Event::Reply(_) => {}
            }
        }
        true
    }

    fn heard(&mut self, peer: &Known, waiting: Option<Waiting>, message: &Message, around: &mut Around) {
        let (jobs, node) = (self.jobs, &self.node);
        match (waiting, &mut self.job) {
            (Some(Waiting::Job(number, why)), Some(job)) if number == jobs => job.heard(node, &peer.id, why, message, around),
            (Some(Waiting::Job(..)), _) => {}
            (Some(Waiting::Probe(newcomer)), _) => self.settle(peer, &newcomer, Probed::Answered, around),
            (None, job) => {
                around.tally.unasked += 1;
                if let Some(job) = job {
                    job.heard_of(node, &peer.id, message, around);
                }
                return;
            }
        }
        self.saw(peer, around);
    }

    /// A peer answered, so it is seen.
    fn saw(&mut self, peer: &Known, around: &mut Around) {
        let seen = with_peer(peer, |peer| self.node.seen(peer));
        let head = match seen {
            Ok(Seen::Probe(head)) => known(head),
            Ok(_) => return,
            Err(refusal) => return around.refused(refusal),
        };
        self.probe(head, peer.clone(), around);
    }

    // ---- what fails

    fn closed(&mut self, end: End, around: &mut Around) {
        match end {
            End::Asking(mut asking) => {
                self.end(&mut asking.connection, around);
                for waiting in asking.waiting {
                    self.failed(&asking.peer, waiting, around);
                }
            }
            End::Serving(mut connection) => self.end(&mut connection, around),
            End::Greeting(_) | End::Mute => {}
        }
    }

    /// One that refused a message is shut already.
    fn end(&self, connection: &mut Connection, around: &mut Around) {
        if !connection.is_shut() {
            let told = self.node.end(connection);
            around.told(told);
        }
    }

    fn failed(&mut self, peer: &Known, waiting: Waiting, around: &mut Around) {
        around.tally.failures += 1;
        match waiting {
            Waiting::Job(number, why) => {
                if self.habit == Habit::Doubts {
                    // it may be no contact: then there is nothing to mark
                    let _ = self.node.doubt(&peer.id);
                }
                if let (Some(job), true) = (&mut self.job, number == self.jobs) {
                    job.failed(&self.node, &peer.id, why, around);
                }
            }
            Waiting::Probe(newcomer) => self.settle(peer, &newcomer, Probed::Silent, around),
        }
    }

    // ---- full buckets

    /// Pings a bucket's head, for a newcomer. One at a time: a newcomer that is dropped comes again.
    fn probe(&mut self, head: Known, newcomer: Known, around: &mut Around) {
        if self.probing {
            return;
        }
        let Ok(message) = Draft::ping().to_vec() else { return };
        self.probing = true;
        around.tally.probes += 1;
        self.send(head, &message, Waiting::Probe(newcomer), around);
    }

    fn settle(&mut self, head: &Known, newcomer: &Known, head_did: Probed, around: &mut Around) {
        self.probing = false;
        let settled = with_peer(newcomer, |newcomer| self.node.settle(&head.id, newcomer, head_did));
        if let Some(Settled::Swapped) = around.told(settled) {
            around.tally.swaps += 1;
        }
    }

    // ---- what goes

    /// Does what can be done now.
    pub fn advance(&mut self, around: &mut Around) {
        self.time_out(around);
        if self.job.is_none() {
            let Some(goal) = self.goals.pop_front() else { return };
            self.jobs += 1;
            let started = Job::start(&self.node, goal, around);
            self.job = around.told(started);
        }
        while let Some(request) = self.job.as_mut().and_then(|job| job.next(around)) {
            let Request { id, addresses, message, why } = request;
            self.send(Known { id, addresses }, &message, Waiting::Job(self.jobs, why), around);
        }
        if let Some(mut job) = self.job.take_if(|job| job.is_over()) {
            self.first.get_or_insert_with(|| job.take_path());
            if let Goal::Get { key } = &job.goal {
                let key = key.clone();
                let best = job.best(around);
                self.got.push((key, best));
            }
        }
    }

    /// Sends a request, on a connection that is there or on a new one.
    fn send(&mut self, peer: Known, message: &[u8], waiting: Waiting, around: &mut Around) {
        let Some(link) = self.link_to(&peer, around) else { return self.failed(&peer, waiting, around) };
        around.ask(link, &peer.id, message);
        if let Some(End::Asking(asking)) = self.links.get_mut(&link) {
            if asking.waiting.is_empty() {
                asking.since = around.net.now();
            }
            asking.waiting.push_back(waiting);
        }
    }

    fn link_to(&mut self, peer: &Known, around: &mut Around) -> Option<Link> {
        let open = self.links.iter().find(|(_, end)| matches!(end, End::Asking(asking) if asking.peer.id == peer.id));
        if let Some((link, _)) = open {
            return Some(*link);
        }
        self.close_idle(around);
        let opened = with_peer(peer, |peer| self.node.connect(peer));
        let connection = around.told(opened)?;
        let link = peer.addresses.iter().find_map(|address| around.net.dial(self.number, address))?;
        let greeting = self.greeting();
        around.net.send(link, &greeting);
        self.links.insert(link, End::Asking(Asking { connection, peer: peer.clone(), waiting: VecDeque::new(), since: 0 }));
        Some(link)
    }

    fn greeting(&self) -> Vec<u8> {
        let address = self.node.addresses().next().unwrap_or_default();
        let id = self.node.id();
        [&[id.len() as u8][..], id, &[address.len() as u8], address].concat()
    }

    /// Closes the oldest connections on which nothing is awaited, if there are many.
    fn close_idle(&mut self, around: &mut Around) {
        let idle = |end: &End| matches!(end, End::Asking(asking) if asking.waiting.is_empty());
        let links: Vec<Link> = self.links.iter().filter(|(_, end)| idle(end)).map(|(link, _)| *link).collect();
        for link in links.iter().rev().skip(IDLE_LINKS) {
            self.links.remove(link);
            around.net.close(*link);
        }
    }

    /// Who let too much time pass has failed.
    fn time_out(&mut self, around: &mut Around) {
        let (now, patience) = (around.net.now(), around.net.patience());
        let late = |end: &End| matches!(end, End::Asking(asking) if !asking.waiting.is_empty() && asking.since + patience < now);
        let links: Vec<Link> = self.links.iter().filter(|(_, end)| late(end)).map(|(link, _)| *link).collect();
        for link in links {
            around.net.close(link);
            if let Some(end) = self.links.remove(&link) {
                self.closed(end, around);
            }
        }
    }

    /// A liar bothers somebody it knows.
    pub fn bother(&mut self, around: &mut Around) {
        let Role::Liar(liar) = &self.role else { return };
        let known: Vec<_> = self.node.contacts().flat_map(|contact| contact.addresses()).collect();
        if known.is_empty() {
            return;
        }
        let address = known[around.rng.below(known.len())].to_vec();
        let rubbish = liar.rubbish(around.rng);
        if let Some(link) = around.net.dial(self.number, &address) {
            let greeting = self.greeting();
            around.net.send(link, &greeting);
            around.send(link, &rubbish);
            around.net.close(link);
        }
    }
}

fn known(contact: Contact<'_>) -> Known {
    Known { id: contact.id().to_vec(), addresses: contact.addresses().map(<[u8]>::to_vec).collect() }
}

/// The id, the address and what comes after them, once all of both is there.
fn read_greeting(bytes: &[u8]) -> Option<(&[u8], &[u8], &[u8])> {
    let (&length, rest) = bytes.split_first()?;
    let (id, rest) = rest.split_at_checked(usize::from(length))?;
    let (&length, rest) = rest.split_first()?;
    let (address, rest) = rest.split_at_checked(usize::from(length))?;
    Some((id, address, rest))
}
