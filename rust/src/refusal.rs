//! Refusals: their reasons, numbers, places and sentences.

use std::fmt;

/// Why a call was refused. The variants stand in the order of the checks: the first that applies is the one that is given.
///
/// ```
/// use limbatue::Reason;
///
/// let refusal = limbatue::numbers(b"no sheet").unwrap_err();
/// assert_eq!(refusal.reason, Reason::NoHeader);
///
/// // A library that is newer than this crate may know more reasons, so a `match` needs an arm for those.
/// let is_about_the_call = match refusal.reason {
///     Reason::Desk | Reason::Number | Reason::RoundLimit => true,
///     Reason::Size | Reason::ShelfNumber | Reason::EmptySquad | Reason::Entry | Reason::TooShort => true,
///     _ => false,
/// };
/// assert!(!is_about_the_call);
/// ```
#[non_exhaustive]
#[derive(Clone, Copy, Debug, PartialEq, Eq, Hash)]
pub enum Reason {
    /// 16: the desk is over 7.
    Desk,
    /// 1: the sheet has under 20 bytes.
    NoHeader,
    /// 2: the number of kinds is not from 1 to 32.
    Kinds,
    /// 3: the number of codes is not from 1 to 64.
    Codes,
    /// 4: there are over 256 lines.
    Lines,
    /// 5: there are over 64 fields.
    Fields,
    /// 6: the offset of the lines (place 0), the offset of the fields (1), the total (2) or the number of bytes given (3) is not what the layout asks.
    Layout,
    /// 7: a line's kind is not under the number of kinds. The place is the line.
    LineKind,
    /// 8: a line's code is not under the number of codes. The place is the line.
    LineCode,
    /// 9: a kind that is reached has no norm, since it can not be cleared. The place is the lowest such kind. Of a kind that is out no norm is asked.
    NoNorm,
    /// 10: the norm of a kind that is reached is over 1,000,000,000. The place is the lowest such kind.
    NormOverLimit,
    /// 11: a field or kind number is too large. The place is 0 for the first number, 1 for the second.
    Number,
    /// 13: the round limit is over 8.
    RoundLimit,
    /// 14: the field or the size is over 16 tokens.
    Size,
    /// 15: no field of this size has so large a number.
    ShelfNumber,
    /// 17: the squad is empty. The place is 1, that of the second number.
    EmptySquad,
    /// 18: there are over 65,536 fields of this size.
    Entry,
    /// 12: a buffer or table is too short.
    TooShort,
    /// A number that this crate does not know.
    Other(u32),
}

/// A refusal: the reason and the place. Everything that was lent to the refused call is as it was.
///
/// `Display` says it in a sentence, `Debug` names the reason and the place, and [`Refusal::number`] gives the number of the format's table. It is an [`Error`](std::error::Error), so `?` passes it on.
///
/// ```
/// use limbatue::{Reason, Refusal};
///
/// fn first_two(path: &str) -> Result<limbatue::Verdict, Box<dyn std::error::Error>> {
///     let sheet = std::fs::read(path)?;
///     Ok(limbatue::compare(&sheet, 0, 1)?)
/// }
///
/// let error = first_two("testdata/bad_line1_kind.sheet").unwrap_err();
/// assert_eq!(error.to_string(), "line 1: its kind is not under the number of kinds");
///
/// let refusal = error.downcast_ref::<Refusal>().unwrap();
/// assert_eq!(*refusal, Refusal { reason: Reason::LineKind, place: 1 });
/// assert_eq!(format!("{refusal:?}"), "Refusal { reason: LineKind, place: 1 }");
/// assert_eq!(format!("refused {} {}", refusal.number(), refusal.place), "refused 7 1");
/// ```
#[derive(Clone, Copy, Debug, PartialEq, Eq, Hash)]
pub struct Refusal {
    /// Why.
    pub reason: Reason,
    /// Where: a line, a kind, or which of several numbers, as the [`Reason`] says; else 0.
    pub place: u32,
}

impl Refusal {
    /// The number of the reason in the table of refusals.
    ///
    /// ```
    /// use limbatue::{Reason, Refusal};
    ///
    /// assert_eq!(Refusal { reason: Reason::NoHeader, place: 0 }.number(), 1);
    /// assert_eq!(Refusal { reason: Reason::RoundLimit, place: 0 }.number(), 13);
    /// ```
    pub fn number(&self) -> u32 {
        match self.reason {
            Reason::NoHeader => 1,
            Reason::Kinds => 2,
            Reason::Codes => 3,
            Reason::Lines => 4,
            Reason::Fields => 5,
            Reason::Layout => 6,
            Reason::LineKind => 7,
            Reason::LineCode => 8,
            Reason::NoNorm => 9,
            Reason::NormOverLimit => 10,
            Reason::Number => 11,
            Reason::TooShort => 12,
            Reason::RoundLimit => 13,
            Reason::Size => 14,
            Reason::ShelfNumber => 15,
            Reason::Desk => 16,
            Reason::EmptySquad => 17,
            Reason::Entry => 18,
            Reason::Other(number) => number,
        }
    }

    /// The refusal that a returned number other than 0 says: its number, and 256 times its place.
    pub(crate) fn from_returned(returned: u32) -> Refusal {
        let reason = match returned % 256 {
            1 => Reason::NoHeader,
            2 => Reason::Kinds,
            3 => Reason::Codes,
            4 => Reason::Lines,
            5 => Reason::Fields,
            6 => Reason::Layout,
            7 => Reason::LineKind,
            8 => Reason::LineCode,
            9 => Reason::NoNorm,
            10 => Reason::NormOverLimit,
            11 => Reason::Number,
            12 => Reason::TooShort,
            13 => Reason::RoundLimit,
            14 => Reason::Size,
            15 => Reason::ShelfNumber,
            16 => Reason::Desk,
            17 => Reason::EmptySquad,
            18 => Reason::Entry,
            number => Reason::Other(number),
        };
        Refusal { reason, place: returned / 256 }
    }
}

/// The sentence of the table of refusals.
impl fmt::Display for Refusal {
    fn fmt(&self, f: &mut fmt::Formatter<'_>) -> fmt::Result {
        let place = self.place;
        match (self.reason, place) {
            (Reason::Desk, _) => f.write_str("the desk is over 7"),
            (Reason::NoHeader, _) => f.write_str("the sheet has under 20 bytes"),
            (Reason::Kinds, _) => f.write_str("the number of kinds is not from 1 to 32"),
            (Reason::Codes, _) => f.write_str("the number of codes is not from 1 to 64"),
            (Reason::Lines, _) => f.write_str("there are over 256 lines"),
            (Reason::Fields, _) => f.write_str("there are over 64 fields"),
            (Reason::Layout, 0) => f.write_str("the offset of the lines is not 20"),
            (Reason::Layout, 1) => f.write_str("the offset of the fields is not where the lines end"),
            (Reason::Layout, 2) => f.write_str("the total is not where the fields end"),
            (Reason::Layout, 3) => f.write_str("the bytes given are not as many as the total"),
            (Reason::LineKind, _) => write!(f, "line {place}: its kind is not under the number of kinds"),
            (Reason::LineCode, _) => write!(f, "line {place}: its code is not under the number of codes"),
            (Reason::NoNorm, _) => write!(f, "kind {place}: it has no norm, since it can not be cleared"),
            (Reason::NormOverLimit, _) => write!(f, "kind {place}: its norm is over 1,000,000,000"),
            (Reason::Number, 0) => f.write_str("the first field or kind number is too large"),
            (Reason::Number, 1) => f.write_str("the second field number is too large"),
            (Reason::RoundLimit, _) => f.write_str("the round limit is over 8"),
            (Reason::Size, _) => f.write_str("the field or the size is over 16 tokens"),
            (Reason::ShelfNumber, _) => f.write_str("no field of this size has so large a number"),
            (Reason::EmptySquad, _) => f.write_str("the squad is empty"),
            (Reason::Entry, _) => f.write_str("there are over 65,536 fields of this size"),
            (Reason::TooShort, _) => f.write_str("a buffer or table is too short"),
            (Reason::Layout | Reason::Number | Reason::Other(_), _) => {
                write!(f, "refusal {} at place {place}", self.number())
            }
        }
    }
}

impl std::error::Error for Refusal {}
