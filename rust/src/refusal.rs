//! What the box refuses, and why.

use core::fmt;

/// Says the refusals once: name, number, plain words.
macro_rules! refusals {
    ($($name:ident = $number:literal, $words:literal;)*) => {
        /// A refusal, with its number in the rule book (docs/RULES.md, Refusals).
        ///
        /// ```
        /// use starterbell::Refusal;
        /// assert_eq!(Refusal::BrokenRecipe.number(), 9);
        /// assert_eq!(Refusal::from_number(9), Some(Refusal::BrokenRecipe));
        /// assert_eq!(Refusal::BrokenRecipe.to_string(), "the value is no recipe");
        /// ```
        #[derive(Clone, Copy, Debug, PartialEq, Eq, PartialOrd, Ord, Hash)]
        pub enum Refusal {
            $(#[doc = concat!(stringify!($number), ": ", $words, ".")] $name = $number,)*
        }

        impl Refusal {
            /// All of them, by number.
            pub const ALL: [Refusal; 22] = [$(Refusal::$name,)*];

            /// Why, in plain words.
            pub const fn words(self) -> &'static str {
                match self {
                    $(Refusal::$name => $words,)*
                }
            }
        }
    };
}

refusals! {
    OutOfForm = 0, "the memory of contacts, records, a lookup or a connection is out of form";
    SmallBuffer = 1, "a buffer is too small: 16,384 bytes to receive, 16,387 to write";
    Shut = 2, "the connection is shut";
    PrefixNotMinimal = 3, "the message's length has a needless last byte";
    TooLong = 4, "the message is longer than 16,384 bytes";
    Malformed = 5, "the message isn't well formed";
    UnknownType = 6, "the message's type isn't 0 to 5";
    Providers = 7, "the box keeps no providers";
    BreaksRules = 8, "the key or the record breaks the rules of a request";
    BrokenRecipe = 9, "the value is no recipe";
    Outranked = 10, "the record that is held ranks higher";
    NoRecordSlot = 11, "every record slot holds another key";
    BadPeer = 12, "the peer's id isn't 1 to 64 bytes, or is of the box's own place";
    BucketFull = 13, "the peer's bucket holds 20";
    NoContactSlot = 14, "every contact slot is used";
    NoLongerFits = 15, "the contacts have changed since, or don't hold that peer";
    NotInFlight = 16, "the lookup hasn't asked that peer, or has heard of it already";
    LookupOver = 17, "the lookup is over";
    Client = 18, "the peer is a client";
    EndedInside = 19, "the connection ended inside a message";
    BadConcurrency = 20, "a lookup asks 1 to 10 peers at a time";
    Unwritable = 21, "the message can't be written: it, or a part of it, is over its limit";
}

impl Refusal {
    /// Its number, 0 to 21.
    pub const fn number(self) -> u32 {
        self as u32
    }

    /// The refusal with this number, if there is one.
    pub fn from_number(number: u32) -> Option<Refusal> {
        Refusal::ALL.get(usize::try_from(number).ok()?).copied()
    }
}

impl fmt::Display for Refusal {
    fn fmt(&self, f: &mut fmt::Formatter<'_>) -> fmt::Result {
        f.write_str(self.words())
    }
}

impl core::error::Error for Refusal {}

/// What an exported function returned: an answer from 64 up, or a refusal.
pub(crate) fn answer(returned: u32) -> Result<u32, Refusal> {
    Refusal::from_number(returned).map_or(Ok(returned), Err)
}
