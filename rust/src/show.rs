//! How byte strings are printed: what a person can read as text, the rest in hex, and never more than a line.

use core::fmt;

/// Of a longer byte string only the start is shown: an id has at most so many bytes.
const SHOWN: usize = 64;

/// Bytes to be printed: `"bench-1"` where all are printable ASCII, else `0x00ff`. What is cut off is said by the length of the whole.
pub(crate) struct Bytes<'a>(pub &'a [u8]);

impl fmt::Debug for Bytes<'_> {
    fn fmt(&self, f: &mut fmt::Formatter<'_>) -> fmt::Result {
        let shown = &self.0[..self.0.len().min(SHOWN)];
        if shown.iter().all(|byte| (b' '..=b'~').contains(byte)) {
            write!(f, "\"{}\"", shown.escape_ascii())?;
        } else {
            f.write_str("0x")?;
            shown.iter().try_for_each(|byte| write!(f, "{byte:02x}"))?;
        }
        if shown.len() < self.0.len() {
            write!(f, ".. ({} bytes)", self.0.len())?;
        }
        Ok(())
    }
}

/// Byte strings to be printed as a list.
pub(crate) struct List<I>(pub I);

impl<'a, I: Iterator<Item = &'a [u8]> + Clone> fmt::Debug for List<I> {
    fn fmt(&self, f: &mut fmt::Formatter<'_>) -> fmt::Result {
        f.debug_list().entries(self.0.clone().map(Bytes)).finish()
    }
}

/// How many there are, of as many as there can be.
pub(crate) struct Of(pub usize, pub usize);

impl fmt::Debug for Of {
    fn fmt(&self, f: &mut fmt::Formatter<'_>) -> fmt::Result {
        write!(f, "{} of {}", self.0, self.1)
    }
}

/// So many bytes, where what they are says nothing to a reader.
pub(crate) struct Length(pub usize);

impl fmt::Debug for Length {
    fn fmt(&self, f: &mut fmt::Formatter<'_>) -> fmt::Result {
        write!(f, "{} bytes", self.0)
    }
}
