//! The refusals by name; the number of each is that of RULES, Refusals.

#[derive(Clone, Copy, Debug, PartialEq, Eq, PartialOrd, Ord, Hash)]
#[repr(u8)]
pub enum Refusal {
    OutOfForm = 0,
    SmallBuffer = 1,
    Shut = 2,
    PrefixNotMinimal = 3,
    TooLong = 4,
    Malformed = 5,
    UnknownType = 6,
    Providers = 7,
    BreaksRules = 8,
    BrokenRecipe = 9,
    Outranked = 10,
    NoRecordSlot = 11,
    BadPeer = 12,
    BucketFull = 13,
    NoContactSlot = 14,
    NoLongerFits = 15,
    NotInFlight = 16,
    LookupOver = 17,
    Client = 18,
    EndedInside = 19,
    BadConcurrency = 20,
    Unwritable = 21,
}

impl Refusal {
    pub fn number(self) -> u8 {
        self as u8
    }
}
