//! How common each answer is: of the fields of a size, how many are the same as a field, and how many part from it at each stage.

use crate::{Refusal, done, ffi, numbers};

/// How many of the fields of a size get each answer with a field of the sheet. [`frequencies`] gives it.
///
/// ```
/// use limbatue::Frequencies;
///
/// let sheet = std::fs::read("testdata/stage3.sheet")?;
/// let Frequencies { same, stages } = limbatue::frequencies(&sheet, 0, 1)?;
/// assert_eq!((same, stages), (1, vec![0, 0, 1, 1])); // of the three fields of one token one is field 0 itself, and the others part from it at stage 2 and at stage 3
/// # Ok::<(), Box<dyn std::error::Error>>(())
/// ```
#[derive(Clone, Debug, PartialEq, Eq, Hash)]
pub struct Frequencies {
    /// How many of the fields are the same as the given one.
    pub same: u32,
    /// How many of them part from it at stage 0, at stage 1 and so on, up to the stage of the number of kinds.
    pub stages: Vec<u32>,
}

/// How common each answer is: how many of the fields of a size are the same as a field of the sheet, and how many part from it at each stage. The fields of a size are those that [`shelf_field`](crate::shelf_field)
/// finds, each by its number; each counts in one place, so that the counts add up to how many there are. The given field may have any number of tokens. Refused are 1 to 11, 14 where the size is over 16, and 18 where
/// there are over 65,536 fields of that size.
///
/// ```
/// use limbatue::{Frequencies, Reason};
///
/// let sheet = std::fs::read("testdata/page36.sheet")?; // field 0 is one of kind 1, which is the same as two of kind 0
/// assert_eq!(limbatue::frequencies(&sheet, 0, 1)?, Frequencies { same: 1, stages: vec![1, 0, 0] }); // 0 1; 1 0
/// assert_eq!(limbatue::frequencies(&sheet, 0, 2)?, Frequencies { same: 1, stages: vec![2, 0, 0] }); // 2 0; 1 1 and 0 2
/// assert_eq!(limbatue::frequencies(&sheet, 0, 17).unwrap_err().reason, Reason::Size);
///
/// let sheet = std::fs::read("testdata/chain32.sheet")?; // 32 kinds
/// let refusal = limbatue::frequencies(&sheet, 0, 5).unwrap_err();
/// assert_eq!(refusal.reason, Reason::Entry);
/// assert_eq!(refusal.to_string(), "there are over 65,536 fields of this size");
/// # Ok::<(), Box<dyn std::error::Error>>(())
/// ```
pub fn frequencies(sheet: &[u8], field: usize, size: usize) -> Result<Frequencies, Refusal> {
    let mut counts = vec![0; numbers(sheet)?.kinds + 2];
    frequencies_into(sheet, field, size, &mut counts)?;
    let stages = counts.split_off(1);
    Ok(Frequencies { same: counts[0], stages })
}

/// Writes how common each answer is to a lent buffer, two counts more than there are kinds: first how many fields of the size are the same as the given one, then how many part from it at stage 0, at stage 1 and so on,
/// as [`frequencies`] has them. Entries past those keep their values. Refused are 1 to 11, 14 where the size is over 16, 18 where there are over 65,536 fields of that size, and 12 where the buffer is too short;
/// [`FREQUENCIES_MOST`](crate::FREQUENCIES_MOST) entries always suffice.
///
/// ```
/// let sheet = std::fs::read("testdata/page36.sheet")?;
/// let mut counts = [7; 5];
/// limbatue::frequencies_into(&sheet, 0, 2, &mut counts)?;
/// assert_eq!(counts, [1, 2, 0, 0, 7]);
/// # Ok::<(), Box<dyn std::error::Error>>(())
/// ```
pub fn frequencies_into(sheet: &[u8], field: usize, size: usize, counts: &mut [u32]) -> Result<(), Refusal> {
    // SAFETY: two slices, of which the one that is written overlaps nothing.
    done(unsafe {
        ffi::limbatue_frequencies(sheet.as_ptr(), sheet.len(), field, size, counts.as_mut_ptr(), counts.len())
    })
}
