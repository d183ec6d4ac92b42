//! Request 7 of document 02: "same, with the number still out".
//!
//! Settling, stages, forms and verdicts are found in two senses, which differ in what stage 0 asks: "stage 0 relates
//! equal norm and equal total, later stages are built as before".

/// What two fields must share so that stage 0 relates them.
#[derive(Clone, Copy, Debug, PartialEq, Eq, Hash)]
pub enum Sense {
    /// That of Compare and Prime form: equal norm.
    Plain,
    /// That of the finer Compare and Prime form: "equal norm and equal total".
    Finer,
}

impl Sense {
    /// Both senses.
    pub const BOTH: [Sense; 2] = [Sense::Plain, Sense::Finer];

    /// Whether two fields of these totals may be related: any in the plain sense, those of equal totals in the finer.
    pub fn allows<T: PartialEq>(self, total: T, other: T) -> bool {
        self == Sense::Plain || total == other
    }
}
