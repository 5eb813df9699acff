//! What carries bytes between benches: memory or TCP. Both cut them at random.

/// One end of a connection.
pub type Link = u64;

pub enum What {
    /// Somebody connected.
    Opened,
    Bytes(Vec<u8>),
    /// The other end is gone, and all its bytes have come.
    Closed,
}

/// Something that happened to a bench.
pub struct News {
    pub bench: usize,
    pub link: Link,
    pub what: What,
}

/// What was carried.
#[derive(Clone, Copy, Default)]
pub struct Traffic {
    pub connections: u64,
    pub bytes: u64,
    pub pieces: u64,
}

pub trait Net {
    /// Where a bench can be reached, as libp2p writes addresses.
    fn address(&self, bench: usize) -> Vec<u8>;
    /// Connects to an address; none where nobody listens.
    fn dial(&mut self, bench: usize, address: &[u8]) -> Option<Link>;
    fn send(&mut self, link: Link, bytes: &[u8]);
    /// Closes an end once all that was sent is on its way.
    fn close(&mut self, link: Link);
    /// What happened since the last time. Time passes here.
    fn poll(&mut self) -> Vec<News>;
    /// The time in ticks.
    fn now(&self) -> u64;
    /// After how many ticks without an answer a peer counts as silent.
    fn patience(&self) -> u64;
    fn traffic(&self) -> Traffic;
}

/// An address in libp2p's binary form: /ip4/a.b.c.d/tcp/port.
pub fn multiaddr(ip: [u8; 4], port: u16) -> Vec<u8> {
    let [high, low] = port.to_be_bytes();
    vec![4, ip[0], ip[1], ip[2], ip[3], 6, high, low]
}

/// Reads such an address. Liars send others.
pub fn ip_and_port(address: &[u8]) -> Option<([u8; 4], u16)> {
    match *address {
        [4, a, b, c, d, 6, high, low] => Some(([a, b, c, d], u16::from_be_bytes([high, low]))),
        _ => None,
    }
}
