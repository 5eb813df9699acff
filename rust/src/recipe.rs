//! Winding recipes, and both ways between their fields and the values that are stored. What is shown of a value here is the proved reading of it, and of a value that is
//! refused nothing is shown but the rule that it breaks.
//!
//! ```
//! use starterbell::recipe::{self, Format, Recipe, Setpoint};
//!
//! // for one spool
//! let wrap = vec![Setpoint { turn: 0, trim: -1 }];
//! let recipe = Recipe { note: b"G string".to_vec(), wrap, sequence: 7, ..Recipe::default() };
//! let value = recipe.to_value()?;
//! assert_eq!(value[8..], [0, 1, 18, 0, 0, 0, 1, 0, 1, 0, 7, 0, 0, 0, 0, 0, 0, 0]);
//! assert_eq!(Recipe::from_value(&value)?, recipe);
//!
//! // the same for two, and newer
//! let core = vec![Setpoint { turn: 0, trim: 250 }, Setpoint { turn: 900, trim: -40 }];
//! let newer = Recipe { format: Format::Two, core, sequence: 8, ..recipe }.to_value()?;
//! assert_eq!(Recipe::from_value(&newer)?.core[1], Setpoint { turn: 900, trim: -40 });
//! assert!(recipe::outranks(&newer, &value));
//! # Ok::<(), starterbell::recipe::Broken>(())
//! ```
//!
//! A recipe that is refused says why, and at which setpoint of which list:
//!
//! ```
//! use starterbell::recipe::{Broken, Format, Part, Recipe, Rule, Setpoint};
//! use starterbell::Refusal;
//!
//! let trims = [0, 2_000, 11_000, 9_000];
//! let core = trims.iter().zip(0..).map(|(&trim, turn)| Setpoint { turn, trim }).collect();
//! let broken = Recipe { format: Format::Two, note: b"silver wrap".to_vec(), core, ..Recipe::default() }.to_value().unwrap_err();
//! assert_eq!(broken, Broken { rule: Rule::TrimLeaps, part: Part::Core, setpoint: Some(2) });
//! assert_eq!(broken.to_string(), "core[2]: its trim differs from the one before it by more than 5,000 millinewtons");
//! assert_eq!(Refusal::from(broken), Refusal::BrokenRecipe);
//! ```

use crate::raw;
use crate::refusal::{answer, Refusal};
use crate::show::Bytes;
use alloc::vec;
use alloc::vec::Vec;
use core::fmt;

/// The most bytes of a value.
pub const VALUE_MAX: usize = raw::MOST_VALUE;
/// The most setpoints of a wrap or of a core.
pub const SETPOINTS_MAX: usize = 400;
/// The highest turn.
pub const TURN_MAX: u32 = 1_000_000;
/// The highest trim either way, in millinewtons.
pub const TRIM_MAX: u32 = 20_000;
/// By how much the trims of neighbouring setpoints may differ, in millinewtons.
pub const LEAP_MAX: u32 = 5_000;

/// How many spools a recipe is for, with its number in the value.
#[derive(Clone, Copy, Debug, Default, PartialEq, Eq, Hash)]
pub enum Format {
    /// One spool, the wrap.
    #[default]
    One = 1,
    /// Two spools, the wrap and the core.
    Two = 2,
}

impl Format {
    /// All of them, by number.
    pub const ALL: [Format; 2] = [Format::One, Format::Two];
}

/// At this turn, pull so much more or less.
#[derive(Clone, Copy, Debug, PartialEq, Eq)]
pub struct Setpoint {
    /// The turn, at most [`TURN_MAX`].
    pub turn: u32,
    /// The trim in millinewtons, at most [`TRIM_MAX`] either way.
    pub trim: i32,
}

/// A winding recipe.
#[derive(Clone, Default, PartialEq, Eq)]
pub struct Recipe {
    /// For one spool or for two.
    pub format: Format,
    /// Bytes that the box doesn't read.
    pub note: Vec<u8>,
    /// At most [`SETPOINTS_MAX`], with rising turns, and trims of which neighbours differ by at most [`LEAP_MAX`].
    pub wrap: Vec<Setpoint>,
    /// The same for the second spool; empty where there is one alone.
    pub core: Vec<Setpoint>,
    /// Its version: of two recipes under one key the higher one is kept.
    pub sequence: u64,
}

impl fmt::Debug for Recipe {
    fn fmt(&self, f: &mut fmt::Formatter<'_>) -> fmt::Result {
        let mut shown = f.debug_struct("Recipe");
        shown.field("format", &self.format).field("note", &Bytes(&self.note));
        shown.field("wrap", &Setpoints(&self.wrap)).field("core", &Setpoints(&self.core)).field("sequence", &self.sequence).finish()
    }
}

/// Setpoints to be printed, each as `turn: trim`.
struct Setpoints<'a>(&'a [Setpoint]);

impl fmt::Debug for Setpoints<'_> {
    fn fmt(&self, f: &mut fmt::Formatter<'_>) -> fmt::Result {
        f.debug_map().entries(self.0.iter().map(|setpoint| (setpoint.turn, setpoint.trim))).finish()
    }
}

// ---- what is broken

/// Says the rules once: name, number, plain words.
macro_rules! rules {
    ($($name:ident = $number:literal, $words:literal;)*) => {
        /// A rule of recipes (docs/RULES.md, Recipes), by what breaks it, with the number that the exported functions have for it.
        #[derive(Clone, Copy, Debug, PartialEq, Eq, Hash)]
        #[non_exhaustive]
        pub enum Rule {
            $(#[doc = concat!($words, ".")] $name = $number,)*
        }

        impl Rule {
            /// All of them, by number.
            pub const ALL: &'static [Rule] = &[$(Rule::$name,)*];

            /// What is wrong, in plain words.
            pub const fn words(self) -> &'static str {
                match self {
                    $(Rule::$name => $words,)*
                }
            }
        }
    };
}

rules! {
    Unnamed = 0, "the linked library refuses it by a rule that this crate has no name for";
    TooShort = 1, "the value has fewer bytes than its trailer, which has 16, or 24 in format 2";
    TooLong = 2, "the value has more than 3,072 bytes";
    UnknownFormat = 3, "the format isn't 1 or 2";
    CoreInFormatOne = 4, "format 1 has no core";
    PadNotZero = 5, "one of the two zero bytes of format 2 isn't zero";
    BadDistance = 6, "by its distance it begins before the value, or past its own end";
    TooManySetpoints = 7, "there are more than 400 setpoints";
    Unpaired = 8, "there aren't as many trims as turns";
    NoSetpoint = 9, "its turn or its trim isn't a varint of at most three bytes, none of them needless, inside the list";
    TurnTooHigh = 10, "its turn is over 1,000,000";
    TurnNotRising = 11, "its turn isn't higher than the one before it";
    TrimOutOfRange = 12, "its trim isn't from -20,000 to 20,000 millinewtons";
    TrimLeaps = 13, "its trim differs from the one before it by more than 5,000 millinewtons";
    BytesLeft = 14, "there are bytes between its last setpoint and its end";
}

impl Rule {
    /// Its number, from 1 up; 0 for the unnamed one.
    pub const fn number(self) -> u32 {
        self as u32
    }

    /// The rule with this number, as it stands in `out`; the unnamed one where this crate has no name for it.
    pub fn from_number(number: u64) -> Rule {
        Rule::ALL.iter().copied().find(|rule| u64::from(rule.number()) == number).unwrap_or(Rule::Unnamed)
    }

    /// Whether it is a rule on single setpoints.
    const fn is_on_setpoints(self) -> bool {
        matches!(self, Rule::NoSetpoint | Rule::TurnTooHigh | Rule::TurnNotRising | Rule::TrimOutOfRange | Rule::TrimLeaps)
    }
}

/// A part of a recipe, with the number that the exported functions have for it.
#[derive(Clone, Copy, Debug, PartialEq, Eq, Hash)]
pub enum Part {
    /// The value as a whole.
    Whole = 0,
    /// The wrap.
    Wrap = 1,
    /// The core.
    Core = 2,
}

impl Part {
    /// All of them, by number.
    pub const ALL: [Part; 3] = [Part::Whole, Part::Wrap, Part::Core];

    /// The part with this number, as it stands in `out`.
    pub fn from_number(number: u64) -> Option<Part> {
        Part::ALL.into_iter().find(|part| *part as u64 == number)
    }
}

/// Why a recipe is refused: where several rules are broken, the first that is met, from the value as a whole to the wrap and then the core, each from its first setpoint
/// on. Of fields that are [to be a value](Recipe::to_value) the length is looked at last.
#[derive(Clone, Copy, Debug, PartialEq, Eq, Hash)]
pub struct Broken {
    /// The rule.
    pub rule: Rule,
    /// What breaks it.
    pub part: Part,
    /// Which setpoint of that part, from 0, where it is a rule on setpoints.
    pub setpoint: Option<usize>,
}

impl Broken {
    /// What an exported function that gave 9 tells.
    fn told(out: &[u64]) -> Broken {
        let (rule, part) = (Rule::from_number(out[0]), Part::from_number(out[1]));
        Broken { rule, part: part.unwrap_or(Part::Whole), setpoint: rule.is_on_setpoints().then_some(out[2] as usize) }
    }

    /// The linked library isn't the one that this crate was written for.
    const UNNAMED: Broken = Broken { rule: Rule::Unnamed, part: Part::Whole, setpoint: None };
}

impl fmt::Display for Broken {
    fn fmt(&self, f: &mut fmt::Formatter<'_>) -> fmt::Result {
        match self.part {
            Part::Whole => return f.write_str(self.rule.words()),
            Part::Wrap => f.write_str("wrap")?,
            Part::Core => f.write_str("core")?,
        }
        if let Some(setpoint) = self.setpoint {
            write!(f, "[{setpoint}]")?;
        }
        write!(f, ": {}", self.rule.words())
    }
}

impl core::error::Error for Broken {}

impl From<Broken> for Refusal {
    /// Each of them is [`Refusal::BrokenRecipe`], 9.
    fn from(_: Broken) -> Refusal {
        Refusal::BrokenRecipe
    }
}

// ---- both ways

impl Recipe {
    /// The value to put under its key. Refused where it is no recipe that the box takes.
    ///
    /// Stack: under 512 bytes.
    pub fn to_value(&self) -> Result<Vec<u8>, Broken> {
        let (wrap_turns, wrap_trims) = apart(&self.wrap);
        let (core_turns, core_trims) = apart(&self.core);
        let mut value = vec![0; VALUE_MAX];
        let mut out = [0; 3];
        let format = self.format as usize;
        let told = raw::recipe_write(&mut value, format, &self.note, &wrap_turns, &wrap_trims, &core_turns, &core_trims, self.sequence, &mut out);
        answer(told).map_err(|_| Broken::told(&out))?;
        value.truncate(out[0] as usize);
        Ok(value)
    }

    /// The recipe that a value is. Refused where it is none, as one may be that is held from before a rule; its bytes are still what a box finds and serves.
    ///
    /// Stack: under 512 bytes.
    pub fn from_value(value: &[u8]) -> Result<Recipe, Broken> {
        let [format, core_at, _, _, core_count, wrap_count, sequence] = read(value)?;
        Ok(Recipe {
            format: Format::ALL.into_iter().find(|known| *known as u64 == format).ok_or(Broken::UNNAMED)?,
            note: value[..core_at as usize].to_vec(),
            wrap: setpoints(value, Part::Wrap, wrap_count)?,
            core: setpoints(value, Part::Core, core_count)?,
            sequence,
        })
    }
}

/// Refuses a value that is no recipe, as a put does; without copying anything of it.
///
/// Stack: under 512 bytes.
pub fn check(value: &[u8]) -> Result<(), Broken> {
    read(value).map(|_| ())
}

/// Whether a recipe's value ranks higher than another's: by its sequence, then by its bytes.
pub fn outranks(value: &[u8], other: &[u8]) -> bool {
    (sequence(value), value) > (sequence(other), other)
}

/// The sequence by which a value ranks, from its last eight bytes; 0 where it has fewer. A value that is no recipe has such bytes too: [`check`] it first.
pub fn sequence(value: &[u8]) -> u64 {
    value.last_chunk().map_or(0, |last| u64::from_le_bytes(*last))
}

/// What is read of a value that is a recipe: its format; where its core, its wrap and its trailer start; how many setpoints its core has, and its wrap; its sequence.
fn read(value: &[u8]) -> Result<[u64; 7], Broken> {
    let mut out = [0; 7];
    answer(raw::recipe_read(value, &mut out)).map_err(|_| Broken::told(&out))?;
    Ok(out)
}

/// The setpoints, so many, of a part of a recipe's value.
fn setpoints(value: &[u8], part: Part, count: u64) -> Result<Vec<Setpoint>, Broken> {
    let mut turns = vec![0; count as usize];
    let mut trims = vec![0; count as usize];
    let told = raw::recipe_setpoints(value, u32::from(part == Part::Core), &mut turns, &mut trims);
    answer(told).map_err(|_| Broken::UNNAMED)?;
    Ok(turns.into_iter().zip(trims).map(|(turn, trim)| Setpoint { turn, trim }).collect())
}

/// Setpoints as the library takes them.
fn apart(setpoints: &[Setpoint]) -> (Vec<u32>, Vec<i32>) {
    setpoints.iter().map(|setpoint| (setpoint.turn, setpoint.trim)).unzip()
}
