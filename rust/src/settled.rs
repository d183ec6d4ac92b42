//! What settling a sheet gives, owned.

use std::slice::ChunksExact;

use crate::{Refusal, row};

/// A settled sheet: the settled stage, and for each kind its row of counts and since what stage it has this row. [`settle`](crate::settle) gives it.
///
/// A kind is reached where some field of the sheet holds it, or where a line of a reached kind leaves it. Any other kind is out: its row is zeros, and nothing else depends on it.
///
/// ```
/// let sheet = std::fs::read("testdata/page36.sheet")?;
/// let settled = limbatue::settle(&sheet)?;
/// assert_eq!(settled.stage(), 1);
/// for (kind, row) in settled.rows().enumerate() {
///     println!("kind {kind} is {row:?}");
/// }
/// # Ok::<(), Box<dyn std::error::Error>>(())
/// ```
#[derive(Clone, Debug, PartialEq, Eq, Hash)]
pub struct Settled {
    stage: u32,
    kinds: usize,
    table: Vec<u32>,
    since: Vec<u32>,
}

impl Settled {
    /// What [`settle_since_into`](crate::settle_since_into) answered and wrote: the stage, a table of `kinds` × `kinds` counts, and `kinds` marks.
    pub(crate) fn new(stage: u32, kinds: usize, table: Vec<u32>, since: Vec<u32>) -> Settled {
        Settled { stage, kinds, table, since }
    }

    /// The settled stage: the least, from 1 up, that relates no two fields of reached kinds but those that are the same. The page has it after `stages`.
    ///
    /// ```
    /// let sheet = std::fs::read("testdata/stage3.sheet")?;
    /// assert_eq!(limbatue::settle(&sheet)?.stage(), 3);
    /// assert!(limbatue::page(&sheet).starts_with("kinds 3 stages 3\n"));
    /// # Ok::<(), Box<dyn std::error::Error>>(())
    /// ```
    pub fn stage(&self) -> u32 {
        self.stage
    }

    /// The number of kinds, from 1 to 32. So many rows are there, of so many counts each.
    ///
    /// ```
    /// let sheet = std::fs::read("testdata/page36.sheet")?;
    /// let settled = limbatue::settle(&sheet)?;
    /// assert_eq!(settled.kinds(), 2);
    /// assert_eq!(settled.rows().len(), settled.kinds());
    /// # Ok::<(), Box<dyn std::error::Error>>(())
    /// ```
    pub fn kinds(&self) -> usize {
        self.kinds
    }

    /// The row of a kind: of which prime kinds it is the product, as a count for each kind. A prime kind's row is itself once, and that of a kind that is out is zeros. Refused (11) is a number that is not under
    /// the number of kinds.
    ///
    /// ```
    /// use limbatue::Reason;
    ///
    /// let sheet = std::fs::read("testdata/page36.sheet")?;
    /// let settled = limbatue::settle(&sheet)?;
    /// assert_eq!(settled.row(0)?, [1, 0]); // prime
    /// assert_eq!(settled.row(1)?, [2, 0]); // the same as two of kind 0
    /// assert_eq!(settled.row(2).unwrap_err().reason, Reason::Number);
    /// # Ok::<(), Box<dyn std::error::Error>>(())
    /// ```
    pub fn row(&self, kind: usize) -> Result<&[u32], Refusal> {
        row(&self.table, self.kinds, kind)
    }

    /// The rows of all kinds, from kind 0 on.
    ///
    /// ```
    /// let sheet = std::fs::read("testdata/page36.sheet")?;
    /// let settled = limbatue::settle(&sheet)?;
    /// let rows: Vec<&[u32]> = settled.rows().collect();
    /// assert_eq!(rows, [[1, 0], [2, 0]]);
    /// # Ok::<(), Box<dyn std::error::Error>>(())
    /// ```
    pub fn rows(&self) -> ChunksExact<'_, u32> {
        self.table.chunks_exact(self.kinds)
    }

    /// Whether a kind is prime: reached, and no product of other kinds. Refused (11) is a number that is not under the number of kinds.
    ///
    /// ```
    /// let sheet = std::fs::read("testdata/page36.sheet")?;
    /// let settled = limbatue::settle(&sheet)?;
    /// assert!(settled.is_prime(0)?);
    /// assert!(!settled.is_prime(1)?);
    /// assert!(settled.is_prime(2).is_err());
    /// # Ok::<(), Box<dyn std::error::Error>>(())
    /// ```
    pub fn is_prime(&self, kind: usize) -> Result<bool, Refusal> {
        Ok(self.row(kind)?[kind] == 1)
    }

    /// The first stage, from 1 up, at which the row of a kind became the one that is settled, and is at every later stage: of a prime kind, since when it is prime. The page has it after `since`. It is at most the settled
    /// stage. Nothing for a kind that is out. Refused (11) is a number that is not under the number of kinds.
    ///
    /// ```
    /// let sheet = std::fs::read("testdata/stage3.sheet")?;
    /// let settled = limbatue::settle(&sheet)?;
    /// assert_eq!(settled.since(0)?, Some(1));
    /// assert_eq!(settled.since(1)?, Some(2)); // stage 1 does not tell it from kind 0
    /// assert_eq!(settled.since(2)?, Some(3)); // stage 2 does not tell it from kind 1
    /// assert!(settled.since(3).is_err());
    ///
    /// let sheet = std::fs::read("testdata/part_used.sheet")?; // kind 0 is out
    /// assert_eq!(limbatue::settle(&sheet)?.since(0)?, None);
    /// # Ok::<(), Box<dyn std::error::Error>>(())
    /// ```
    pub fn since(&self, kind: usize) -> Result<Option<u32>, Refusal> {
        self.row(kind)?;
        Ok(Some(self.since[kind]).filter(|&mark| mark > 0))
    }

    /// Whether a kind is out: no field of the sheet holds it, and no line leads to it from those that are held. The page has `out` for it. Refused (11) is a number that is not under the number of kinds.
    ///
    /// ```
    /// let sheet = std::fs::read("testdata/part_used.sheet")?; // one of kind 3, which leaves kind 1; two of kind 1
    /// let settled = limbatue::settle(&sheet)?;
    /// assert!(settled.is_out(0)? && settled.is_out(2)?);
    /// assert_eq!(settled.row(0)?, [0, 0, 0, 0]);
    /// assert!(!settled.is_prime(0)?);
    /// assert_eq!(settled.row(3)?, [0, 2, 0, 0]);
    /// assert!(settled.is_out(4).is_err());
    /// # Ok::<(), Box<dyn std::error::Error>>(())
    /// ```
    pub fn is_out(&self, kind: usize) -> Result<bool, Refusal> {
        Ok(self.row(kind)?.iter().all(|&count| count == 0))
    }

    /// The rows one after another: the table that [`settle_into`](crate::settle_into) writes, and that [`row`](crate::row) takes.
    ///
    /// ```
    /// let sheet = std::fs::read("testdata/page36.sheet")?;
    /// let settled = limbatue::settle(&sheet)?;
    /// assert_eq!(settled.table(), [1, 0, 2, 0]);
    /// # Ok::<(), Box<dyn std::error::Error>>(())
    /// ```
    pub fn table(&self) -> &[u32] {
        &self.table
    }
}
