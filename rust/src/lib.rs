#![doc = include_str!("../README.md")]
#![no_std]
#![deny(missing_docs)]
#![deny(unsafe_code)]

extern crate alloc;

mod connection;
pub mod lookup;
pub mod message;
mod node;
pub mod older;
mod peer;
#[allow(unsafe_code)]
pub mod raw;
pub mod recipe;
mod refusal;
mod saved;
mod show;

pub use connection::{Connection, Event, Received, Side};
pub use lookup::Lookup;
pub use message::Message;
pub use node::{Node, Probed, Room, Seen, Settled};
pub use older::CarriedOver;
pub use peer::{Contact, Mode, Peer};
pub use refusal::Refusal;
