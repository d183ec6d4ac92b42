//! Walk and its session.

use crate::{DESKS, Refusal, done, ffi};

/// What each of eight desks has left of its allowance of pairs. A walk names its desk, and draws the pairs that it examined from what this desk has left; what the others have left neither counts nor changes.
/// It has no `Clone`, since a copy would be allowances that nobody gave.
///
/// A session over several walks of two desks:
///
/// ```
/// use limbatue::{Session, Walked};
///
/// let sheet = std::fs::read("testdata/walk_three.sheet")?;
/// let mut session = Session::open([50, 30, 0, 0, 0, 0, 0, 0]);
///
/// // Desk 0, fields 0 and 1: some challenge of two rounds has no reply. The walk examined 10 pairs.
/// assert_eq!(limbatue::walk(&sheet, 0, 1, 8, 0, &mut session)?, Walked::Apart { rounds: 2, drawn: 10 });
/// assert_eq!(session.allowances(), [40, 30, 0, 0, 0, 0, 0, 0]);
///
/// // A field against itself is never parted.
/// assert_eq!(limbatue::walk(&sheet, 0, 0, 3, 0, &mut session)?, Walked::Together { drawn: 23 });
/// assert_eq!(session.allowances(), [17, 30, 0, 0, 0, 0, 0, 0]);
///
/// // The same walk again needs 23 pairs, and desk 0 finds 17: it says neither together nor apart, and has used them up.
/// assert_eq!(limbatue::walk(&sheet, 0, 0, 3, 0, &mut session)?, Walked::Spent { drawn: 17 });
/// assert_eq!(session.allowances(), [0, 30, 0, 0, 0, 0, 0, 0]);
///
/// // Desk 1 is answered as if it were alone.
/// assert_eq!(limbatue::walk(&sheet, 0, 0, 3, 1, &mut session)?, Walked::Together { drawn: 23 });
/// assert_eq!(session.allowances(), [0, 7, 0, 0, 0, 0, 0, 0]);
///
/// // A refused walk draws nothing. There is no desk 8, and this is found before anything else, even on no bytes at all.
/// let refusal = limbatue::walk(&sheet, 0, 0, 9, 1, &mut session).unwrap_err();
/// assert_eq!(refusal.to_string(), "the round limit is over 8");
/// let refusal = limbatue::walk(&[], 0, 0, 9, 8, &mut session).unwrap_err();
/// assert_eq!((refusal.number(), refusal.to_string()), (16, "the desk is over 7".to_string()));
/// assert_eq!(session.allowances(), [0, 7, 0, 0, 0, 0, 0, 0]);
/// # Ok::<(), Box<dyn std::error::Error>>(())
/// ```
#[derive(Debug, PartialEq, Eq)]
pub struct Session {
    allowances: [u32; DESKS],
}

impl Session {
    /// Opens a session, with an allowance for each desk. No desk is given more later.
    ///
    /// ```
    /// let session = limbatue::Session::open([1_000_000; 8]);
    /// assert_eq!(session.allowances(), [1_000_000; 8]);
    /// ```
    pub fn open(allowances: [u32; DESKS]) -> Session {
        Session { allowances }
    }

    /// What each desk has left of its allowance.
    ///
    /// ```
    /// let sheet = std::fs::read("testdata/page36.sheet")?;
    /// let mut session = limbatue::Session::open([100; 8]);
    /// limbatue::walk(&sheet, 0, 1, 4, 5, &mut session)?;
    /// assert_eq!(session.allowances(), [100, 100, 100, 100, 100, 76, 100, 100]);
    /// # Ok::<(), Box<dyn std::error::Error>>(())
    /// ```
    pub fn allowances(&self) -> [u32; DESKS] {
        self.allowances
    }
}

/// What a walk found, with the pairs that it drew from its desk's allowance.
///
/// ```
/// use limbatue::{Session, Walked};
///
/// let sheet = std::fs::read("testdata/page36.sheet")?;
/// match limbatue::walk(&sheet, 0, 1, 4, 0, &mut Session::open([1000; 8]))? {
///     Walked::Apart { rounds, drawn } => println!("apart {rounds} drawn {drawn}"),
///     Walked::Together { drawn } => println!("together drawn {drawn}"),
///     Walked::Spent { drawn } => println!("spent drawn {drawn}"),
/// }
/// # Ok::<(), Box<dyn std::error::Error>>(())
/// ```
#[derive(Clone, Copy, Debug, PartialEq, Eq, Hash)]
pub enum Walked {
    /// The game parts the fields: they are not the same.
    Apart {
        /// The least number of rounds within which it does.
        rounds: u32,
        /// The pairs drawn.
        drawn: u32,
    },
    /// The game does not part the fields up to the round limit. More rounds may.
    Together {
        /// The pairs drawn.
        drawn: u32,
    },
    /// What the desk had left of its allowance did not suffice.
    Spent {
        /// The pairs drawn: all that were left.
        drawn: u32,
    },
}

/// Plays two fields against each other with 1, 2, up to `limit` rounds, and draws the pairs examined from what a desk, 0 to 7, has left in the session. Refused are 16, before the sheet is looked at, 1 to 8, 11 and
/// 13; a kind may lack a norm.
///
/// ```
/// use limbatue::{Session, Walked};
///
/// let sheet = std::fs::read("testdata/walk_three.sheet")?;
/// let mut session = Session::open([1000; 8]);
/// assert_eq!(limbatue::walk(&sheet, 2, 3, 8, 0, &mut session)?, Walked::Apart { rounds: 2, drawn: 26 });
/// # Ok::<(), Box<dyn std::error::Error>>(())
/// ```
///
/// [`Session`] shows several walks of two desks in one session.
pub fn walk(
    sheet: &[u8],
    first: usize,
    second: usize,
    limit: u64,
    desk: usize,
    session: &mut Session,
) -> Result<Walked, Refusal> {
    let mut answer = [0; 3];
    // SAFETY: three slices, none of which overlaps one that is written.
    done(unsafe {
        ffi::limbatue_walk(
            sheet.as_ptr(),
            sheet.len(),
            first,
            second,
            limit,
            desk,
            session.allowances.as_mut_ptr(),
            session.allowances.len(),
            answer.as_mut_ptr(),
            answer.len(),
        )
    })?;
    let drawn = answer[2] as u32;
    Ok(match answer[0] {
        0 => Walked::Together { drawn },
        1 => Walked::Apart { rounds: answer[1] as u32, drawn },
        _ => Walked::Spent { drawn },
    })
}
