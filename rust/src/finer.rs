//! The finer comparison, in which the number of tokens counts too, and its prime forms.

use crate::{Refusal, Verdict, counts_of, done, ffi};

/// Whether two fields of a sheet are the same in the finer sense, or from which stage and within how many rounds they part. The total of a field is the number of its tokens. Two fields are finer same where whatever
/// is done with one can be done with the other, without end, and the two have equal totals, at the start and after whatever is done; so they are the same for [`compare`](crate::compare) too. Stage 0 relates fields of
/// equal norm and equal total, and a challenger also wins as soon as the totals differ. Refused are 1 to 11.
///
/// ```
/// use limbatue::Verdict;
///
/// let sheet = std::fs::read("testdata/page36.sheet")?; // one token of kind 1, and two of kind 0
/// assert_eq!(limbatue::compare(&sheet, 0, 1)?, Verdict::Same);
/// assert_eq!(limbatue::finer_compare(&sheet, 0, 1)?, Verdict::Different { stage: 0, rounds: 3 });
///
/// let sheet = std::fs::read("testdata/finer_later.sheet")?; // the totals are equal at the start, and not after some reads
/// assert_eq!(limbatue::compare(&sheet, 0, 1)?, Verdict::Same);
/// assert_eq!(limbatue::finer_compare(&sheet, 0, 1)?, Verdict::Different { stage: 2, rounds: 5 });
///
/// let sheet = std::fs::read("testdata/self_loop_both.sheet")?; // one token of kind 0, and one of kind 1, which does the same
/// assert_eq!(limbatue::finer_compare(&sheet, 0, 1)?, Verdict::Same);
/// # Ok::<(), Box<dyn std::error::Error>>(())
/// ```
pub fn finer_compare(sheet: &[u8], first: usize, second: usize) -> Result<Verdict, Refusal> {
    let mut answer = [0; 3];
    // SAFETY: two slices, of which the one that is written overlaps nothing.
    done(unsafe {
        ffi::limbatue_finer_compare(sheet.as_ptr(), sheet.len(), first, second, answer.as_mut_ptr(), answer.len())
    })?;
    Ok(Verdict::from_answer(answer))
}

/// The finer prime form of a field: a count for each kind, of which only kinds that are prime in the finer sense have one over 0. Each token stands as one token, of its own kind or of an earlier one, so that the form has as
/// many tokens as the field. Two fields of a sheet are finer same just when their finer prime forms are equal. Refused are 1 to 11.
///
/// ```
/// let sheet = std::fs::read("testdata/page36.sheet")?;
/// assert_eq!(limbatue::prime_form(&sheet, 0)?, [2, 0]);
/// assert_eq!(limbatue::finer_prime_form(&sheet, 0)?, [0, 1]); // one token of kind 1 is finer same as no tokens of kind 0
/// assert_eq!(limbatue::finer_prime_form(&sheet, 1)?, [2, 0]);
///
/// let sheet = std::fs::read("testdata/self_loop_both.sheet")?; // a token of kind 1 is finer same as one of kind 0
/// assert_eq!(limbatue::finer_prime_form(&sheet, 2)?, [5, 0]); // two of kind 0, and three of kind 1
/// # Ok::<(), Box<dyn std::error::Error>>(())
/// ```
pub fn finer_prime_form(sheet: &[u8], field: usize) -> Result<Vec<u64>, Refusal> {
    counts_of(sheet, |counts| finer_prime_form_into(sheet, field, counts))
}

/// Writes the finer prime form of a field to a lent buffer, a count for each kind. Entries past those keep their values. Refused are 1 to 11, and 12 where the buffer is too short;
/// [`COUNTS_MOST`](crate::COUNTS_MOST) entries always suffice.
///
/// ```
/// let sheet = std::fs::read("testdata/page36.sheet")?;
/// let mut counts = [7; 3];
/// limbatue::finer_prime_form_into(&sheet, 0, &mut counts)?;
/// assert_eq!(counts, [0, 1, 7]);
/// # Ok::<(), Box<dyn std::error::Error>>(())
/// ```
pub fn finer_prime_form_into(sheet: &[u8], field: usize, counts: &mut [u64]) -> Result<(), Refusal> {
    // SAFETY: two slices, of which the one that is written overlaps nothing.
    done(unsafe {
        ffi::limbatue_finer_prime_form(sheet.as_ptr(), sheet.len(), field, counts.as_mut_ptr(), counts.len())
    })
}
