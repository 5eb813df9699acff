//! A model of the box in plain Rust, the obvious slow way, written from docs/RULES.md and the readings in docs/DECISIONS.md alone.
//! It exists to be compared with the proved code: results, refusals, bytes taken, and every byte of lent memory.
//! README.md lists what these leave open to the byte and what is chosen here.
#![forbid(unsafe_code)]

pub mod answers;
pub mod contacts;
pub mod gen;
pub mod limits;
pub mod lookup;
pub mod message;
pub mod node;
pub mod peer;
pub mod place;
pub mod program;
pub mod recipe;
pub mod records;
pub mod refusal;
pub mod sha256;
pub mod steps;
pub mod stream;
pub mod wire;
pub mod writer;

pub use refusal::Refusal;
