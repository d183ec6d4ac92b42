//! Squads: how often one field goes into another, and what remains.

use crate::{Refusal, done, ffi, numbers};

/// How often a squad goes into a whole, and what remains. [`squads`] gives it.
///
/// ```
/// use limbatue::Squads;
///
/// let sheet = std::fs::read("testdata/full00.sheet")?;
/// let Squads { count, remainder } = limbatue::squads(&sheet, 1, 3)?;
/// assert_eq!((count, remainder), (11, vec![1, 0])); // field 1 is the same as eleven of field 3 and one of kind 0
/// # Ok::<(), Box<dyn std::error::Error>>(())
/// ```
#[derive(Clone, Debug, PartialEq, Eq, Hash)]
pub struct Squads {
    /// The largest number such that the whole is the same as so many squads joined with some remainder.
    pub count: u64,
    /// The prime form of that remainder, a count for each kind.
    pub remainder: Vec<u64>,
}

/// How often a field, the squad, goes into another, the whole: the largest number such that the whole is the same as so many squads joined with some remainder; and that remainder's prime form. So many times the
/// prime form of the squad and the remainder are the prime form of the whole, and no other prime form is such a remainder. Refused are 1 to 11, and 17 where the squad is empty.
///
/// ```
/// use limbatue::{Reason, Squads};
///
/// let sheet = std::fs::read("testdata/page36.sheet")?;
/// assert_eq!(limbatue::squads(&sheet, 1, 0)?, Squads { count: 1, remainder: vec![0, 0] }); // the two are the same
///
/// let sheet = std::fs::read("testdata/full00.sheet")?;
/// let Squads { count, remainder } = limbatue::squads(&sheet, 1, 3)?;
/// let (whole, squad) = (limbatue::prime_form(&sheet, 1)?, limbatue::prime_form(&sheet, 3)?);
/// for kind in 0..whole.len() {
///     assert_eq!(whole[kind], count * squad[kind] + remainder[kind]);
/// }
///
/// let refusal = limbatue::squads(&sheet, 1, 2).unwrap_err();
/// assert_eq!((refusal.reason, refusal.place), (Reason::EmptySquad, 1));
/// assert_eq!(refusal.to_string(), "the squad is empty");
/// # Ok::<(), Box<dyn std::error::Error>>(())
/// ```
pub fn squads(sheet: &[u8], whole: usize, squad: usize) -> Result<Squads, Refusal> {
    let mut remainder = vec![0; numbers(sheet)?.kinds];
    let count = squads_into(sheet, whole, squad, &mut remainder)?;
    Ok(Squads { count, remainder })
}

/// Writes what remains to a lent buffer, a count for each kind, and answers how often the squad goes into the whole, as [`squads`] has both. Entries past those keep their values. Refused are 1 to 11, 17 where the
/// squad is empty, and 12 where the buffer is too short; [`COUNTS_MOST`](crate::COUNTS_MOST) entries always suffice.
///
/// ```
/// let sheet = std::fs::read("testdata/full00.sheet")?;
/// let mut remainder = [7; 3];
/// assert_eq!(limbatue::squads_into(&sheet, 1, 3, &mut remainder)?, 11);
/// assert_eq!(remainder, [1, 0, 7]);
/// # Ok::<(), Box<dyn std::error::Error>>(())
/// ```
pub fn squads_into(sheet: &[u8], whole: usize, squad: usize, remainder: &mut [u64]) -> Result<u64, Refusal> {
    let mut answer = [0; 1];
    // SAFETY: three slices, none of which overlaps one that is written.
    done(unsafe {
        ffi::limbatue_squads(
            sheet.as_ptr(),
            sheet.len(),
            whole,
            squad,
            remainder.as_mut_ptr(),
            remainder.len(),
            answer.as_mut_ptr(),
            answer.len(),
        )
    })?;
    Ok(answer[0])
}
