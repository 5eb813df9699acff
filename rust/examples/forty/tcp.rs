//! A net over TCP on this machine: sockets that don't block, read into buffers of random size. A tick is a millisecond of its own clock.

use crate::net::{ip_and_port, multiaddr, Link, Net, News, Traffic, What};
use crate::rng::{Rng, LARGEST_PIECE};
use std::collections::{BTreeMap, VecDeque};
use std::io::{self, ErrorKind, Read, Write};
use std::net::{Ipv4Addr, TcpListener, TcpStream};
use std::time::{Duration, Instant};

/// No more time than this passes between two looks at the sockets, however busy the machine is: all benches are in one process, and one that had no time to
/// answer isn't silent.
const LONGEST_STEP: Duration = Duration::from_millis(20);

struct End {
    bench: usize,
    stream: TcpStream,
    /// Bytes that the socket hasn't taken yet.
    going: VecDeque<u8>,
    /// To be dropped once they are gone.
    closing: bool,
}

pub struct Tcp {
    listeners: Vec<TcpListener>,
    ends: BTreeMap<Link, End>,
    last: Link,
    clock: Duration,
    looked: Instant,
    rng: Rng,
    traffic: Traffic,
}

impl Tcp {
    /// A listener for each bench, on a port that the system picks.
    pub fn new(benches: usize, seed: u64) -> io::Result<Tcp> {
        let mut listeners = Vec::new();
        for _ in 0..benches {
            let listener = TcpListener::bind((Ipv4Addr::LOCALHOST, 0))?;
            listener.set_nonblocking(true)?;
            listeners.push(listener);
        }
        let (rng, traffic) = (Rng(seed), Traffic::default());
        Ok(Tcp { listeners, ends: BTreeMap::new(), last: 0, clock: Duration::ZERO, looked: Instant::now(), rng, traffic })
    }

    fn add(&mut self, bench: usize, stream: TcpStream) -> Option<Link> {
        stream.set_nonblocking(true).ok()?;
        stream.set_nodelay(true).ok()?;
        self.last += 1;
        self.ends.insert(self.last, End { bench, stream, going: VecDeque::new(), closing: false });
        Some(self.last)
    }

    fn accept(&mut self, news: &mut Vec<News>) {
        for bench in 0..self.listeners.len() {
            while let Ok((stream, _)) = self.listeners[bench].accept() {
                if let Some(link) = self.add(bench, stream) {
                    news.push(News { bench, link, what: What::Opened });
                }
            }
        }
    }
}

impl End {
    /// Sends what the socket takes. False where the connection is broken.
    fn flush(&mut self) -> bool {
        while !self.going.is_empty() {
            match self.stream.write(self.going.as_slices().0) {
                Ok(0) => return false,
                Ok(n) => drop(self.going.drain(..n)),
                Err(why) => return why.kind() == ErrorKind::WouldBlock,
            }
        }
        true
    }

    fn read(&mut self, piece: &mut [u8]) -> Option<What> {
        match self.stream.read(piece) {
            Ok(0) => Some(What::Closed),
            Ok(n) => Some(What::Bytes(piece[..n].to_vec())),
            Err(why) if why.kind() == ErrorKind::WouldBlock => None,
            Err(_) => Some(What::Closed),
        }
    }
}

impl Net for Tcp {
    fn address(&self, bench: usize) -> Vec<u8> {
        let port = self.listeners[bench].local_addr().map_or(0, |address| address.port());
        multiaddr(Ipv4Addr::LOCALHOST.octets(), port)
    }

    fn dial(&mut self, bench: usize, address: &[u8]) -> Option<Link> {
        let (ip, port) = ip_and_port(address)?;
        // liars name any address; nothing leaves this machine
        if ip != Ipv4Addr::LOCALHOST.octets() {
            return None;
        }
        let stream = TcpStream::connect((Ipv4Addr::from(ip), port)).ok()?;
        self.traffic.connections += 1;
        self.add(bench, stream)
    }

    fn send(&mut self, link: Link, bytes: &[u8]) {
        if let Some(end) = self.ends.get_mut(&link) {
            end.going.extend(bytes);
            end.flush();
        }
    }

    fn close(&mut self, link: Link) {
        if let Some(end) = self.ends.get_mut(&link) {
            end.closing = true;
        }
    }

    fn poll(&mut self) -> Vec<News> {
        self.clock += self.looked.elapsed().min(LONGEST_STEP);
        self.looked = Instant::now();
        let mut news = Vec::new();
        self.accept(&mut news);
        let (rng, traffic) = (&mut self.rng, &mut self.traffic);
        let mut buffer = [0; LARGEST_PIECE];
        self.ends.retain(|&link, end| {
            let sound = end.flush();
            if end.closing {
                return sound && !end.going.is_empty();
            }
            let what = end.read(&mut buffer[..rng.piece()]);
            if let Some(What::Bytes(bytes)) = &what {
                traffic.pieces += 1;
                traffic.bytes += bytes.len() as u64;
            }
            let open = !matches!(what, Some(What::Closed));
            news.extend(what.map(|what| News { bench: end.bench, link, what }));
            open
        });
        if news.is_empty() {
            std::thread::sleep(Duration::from_micros(200));
        }
        news
    }

    fn now(&self) -> u64 {
        self.clock.as_millis() as u64
    }

    fn patience(&self) -> u64 {
        300
    }

    fn traffic(&self) -> Traffic {
        self.traffic
    }
}
