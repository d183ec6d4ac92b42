//! Shelf numbers: a small field's number among the fields of its size, and the field of a number.

use crate::{Refusal, counts_of, done, ffi};

/// A field's size, its tokens in all, and its number among the fields of that size. [`shelf_number`] gives it.
///
/// ```
/// use limbatue::ShelfNumber;
///
/// let sheet = std::fs::read("testdata/page36.sheet")?;
/// let ShelfNumber { size, number } = limbatue::shelf_number(&sheet, 0)?;
/// assert_eq!(limbatue::shelf_field(&sheet, size, number)?, [0, 1]); // field 0 again
/// # Ok::<(), Box<dyn std::error::Error>>(())
/// ```
#[derive(Clone, Copy, Debug, PartialEq, Eq, Hash)]
pub struct ShelfNumber {
    /// The tokens of the field, up to 16.
    pub size: usize,
    /// Its number among the fields of that size, from 0.
    pub number: u64,
}

/// The size of a field and its number among the fields of that size. These are listed with the smaller count of the last kind first, then of the one before it, and so on, from number 0; fields that have a kind
/// that is out are not among them. Refused are 1 to 11, and 14 where the field has over 16 tokens.
///
/// ```
/// use limbatue::{Reason, ShelfNumber};
///
/// let sheet = std::fs::read("testdata/page36.sheet")?;
/// assert_eq!(limbatue::shelf_number(&sheet, 0)?, ShelfNumber { size: 1, number: 1 }); // one of kind 1: 1 0 is before it
/// assert_eq!(limbatue::shelf_number(&sheet, 1)?, ShelfNumber { size: 2, number: 0 }); // two of kind 0
///
/// let sheet = std::fs::read("testdata/chain32.sheet")?;
/// assert_eq!(limbatue::shelf_number(&sheet, 2).unwrap_err().reason, Reason::Size);
/// # Ok::<(), Box<dyn std::error::Error>>(())
/// ```
pub fn shelf_number(sheet: &[u8], field: usize) -> Result<ShelfNumber, Refusal> {
    let mut answer = [0; 2];
    // SAFETY: two slices, of which the one that is written overlaps nothing.
    done(unsafe { ffi::limbatue_shelf_number(sheet.as_ptr(), sheet.len(), field, answer.as_mut_ptr(), answer.len()) })?;
    Ok(ShelfNumber { size: answer[0] as usize, number: answer[1] })
}

/// The field of a size and a number, as a count for each kind, 0 for one that is out, whether or not the sheet has it. Refused are 1 to 10, 14 where the size is over 16, and 15 where there are not so many fields
/// of that size.
///
/// ```
/// let sheet = std::fs::read("testdata/page36.sheet")?;
/// let of_two_tokens = [[2, 0], [1, 1], [0, 2]];
/// for (number, field) in (0..).zip(of_two_tokens) {
///     assert_eq!(limbatue::shelf_field(&sheet, 2, number)?, field);
/// }
/// let refusal = limbatue::shelf_field(&sheet, 2, 3).unwrap_err();
/// assert_eq!(refusal.to_string(), "no field of this size has so large a number");
///
/// let sheet = std::fs::read("testdata/part_used.sheet")?; // kinds 1 and 3 are reached, 0 and 2 are out
/// assert_eq!(limbatue::shelf_field(&sheet, 2, 1)?, [0, 1, 0, 1]);
/// # Ok::<(), Box<dyn std::error::Error>>(())
/// ```
pub fn shelf_field(sheet: &[u8], size: usize, number: u64) -> Result<Vec<u16>, Refusal> {
    counts_of(sheet, |counts| shelf_field_into(sheet, size, number, counts))
}

/// Writes the field of a size and a number to a lent buffer, a count for each kind. Entries past those keep their values. Refused are 1 to 10, 14, 15, and 12 where the buffer is too short;
/// [`COUNTS_MOST`](crate::COUNTS_MOST) entries always suffice.
///
/// ```
/// let sheet = std::fs::read("testdata/page36.sheet")?;
/// let mut counts = [7; 3];
/// limbatue::shelf_field_into(&sheet, 2, 1, &mut counts)?;
/// assert_eq!(counts, [1, 1, 7]);
/// # Ok::<(), Box<dyn std::error::Error>>(())
/// ```
pub fn shelf_field_into(sheet: &[u8], size: usize, number: u64, counts: &mut [u16]) -> Result<(), Refusal> {
    // SAFETY: two slices, of which the one that is written overlaps nothing.
    done(unsafe {
        ffi::limbatue_shelf_field(sheet.as_ptr(), sheet.len(), size, number, counts.as_mut_ptr(), counts.len())
    })
}
