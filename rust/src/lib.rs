//! Race cards, fields and their prime forms: safe Rust over the verified library.
//!
//! A sheet of bytes (`docs/SHEET.md` has the format) describes kinds of token, lines by which a token gives a read of a code and leaves other tokens, and fields of tokens. The library tells
//! exactly which fields are the same and which are not.
//!
//! | asked | owned | into what is lent |
//! |---|---|---|
//! | a sheet's numbers of kinds, codes, lines and fields | [`numbers`] | |
//! | its settled stage, and each kind as a product of prime kinds | [`settle`], [`Settled`] | [`settle_into`], [`row`] |
//! | since what stage each kind is that product | [`settle`], [`Settled::since`] | [`settle_since_into`] |
//! | whether two fields are the same | [`compare`] | |
//! | a field's prime form | [`prime_form`] | [`prime_form_into`] |
//! | the page, all of this as text | [`page`] | [`page_into`] |
//! | how a bounded game on two fields ends | [`walk`], [`Session`] | |
//! | the size of a small field, and its number among the fields of that size | [`shelf_number`] | |
//! | the field of a size and a number | [`shelf_field`] | [`shelf_field_into`] |
//! | how often a field goes into another, and what remains | [`squads`], [`Squads`] | [`squads_into`] |
//! | whether two fields are the same where the number of tokens counts too | [`finer_compare`] | |
//! | a field's prime form where the number of tokens counts too | [`finer_prime_form`] | [`finer_prime_form_into`] |
//! | of the fields of a size, how many are the same as a field, and how many part from it at each stage | [`frequencies`], [`Frequencies`] | [`frequencies_into`] |
//!
//! Every function may be given any bytes and any numbers. What it can not do it refuses: a [`Refusal`] says why and where, and whatever was lent is as it was.
//! The functions keep no state, so any number of threads may call them. A call takes under 256 KB of stack (`include/limbatue.h` has each call's figure).
//! [`row`], [`compare`], [`finer_compare`], [`walk`], [`numbers`], [`shelf_number`] and the forms that end in `_into` allocate nothing.
//!
//! The functions are proved in crate `exports` of the repository. The `unsafe` here, one call in each function, is sound because a Rust slice is what `include/limbatue.h` asks for:
//! not null, aligned, of its length, and a `&mut` overlaps nothing.
//!
//! ```
//! use limbatue::Verdict;
//!
//! let sheet = [
//!     2, 0, 1, 0, 2, 0, 2, 0, 20, 0, 0, 0, 28, 0, 0, 0, 36, 0, 0, 0, // two kinds, one code, two lines, two fields
//!     0, 0, 0, 0, 1, 0, 1, 0, // kind 0 leaves nothing, kind 1 leaves one of kind 0
//!     0, 0, 1, 0, 2, 0, 0, 0, // one of kind 1; two of kind 0
//! ];
//! let settled = limbatue::settle(&sheet)?;
//! assert!(settled.is_prime(0)?);
//! assert_eq!(settled.row(1)?, [2, 0]); // kind 1 is the same as two of kind 0
//! assert_eq!(limbatue::compare(&sheet, 0, 1)?, Verdict::Same);
//! assert_eq!(limbatue::prime_form(&sheet, 0)?, [2, 0]);
//! assert!(limbatue::page(&sheet).ends_with("pair 0 1 same\n"));
//! # Ok::<(), limbatue::Refusal>(())
//! ```

#![deny(missing_docs)]

/// The examples of README.md are run as tests.
#[cfg(doctest)]
#[doc = include_str!("../README.md")]
mod readme {}

mod ffi;
mod finer;
mod frequencies;
mod refusal;
mod settled;
mod shelf;
mod squads;
mod walk;

pub use finer::{finer_compare, finer_prime_form, finer_prime_form_into};
pub use frequencies::{Frequencies, frequencies, frequencies_into};
pub use refusal::{Reason, Refusal};
pub use settled::Settled;
pub use shelf::{ShelfNumber, shelf_field, shelf_field_into, shelf_number};
pub use squads::{Squads, squads, squads_into};
pub use walk::{Session, Walked, walk};

/// The bytes of the longest sheet that can be accepted.
///
/// ```
/// // Whatever is longer is refused, so no more needs to be read than one byte past it.
/// use std::io::Read;
///
/// let mut sheet = Vec::new();
/// std::fs::File::open("testdata/long_12821.sheet")?.take(limbatue::SHEET_MOST as u64 + 1).read_to_end(&mut sheet)?;
/// assert_eq!(limbatue::page(&sheet), "refused 6 3\n");
/// # Ok::<(), std::io::Error>(())
/// ```
pub const SHEET_MOST: usize = 12_820;

/// The entries that a table needs for any sheet, 32 × 32.
///
/// ```
/// let mut table = [0; limbatue::TABLE_MOST];
/// let sheet = std::fs::read("testdata/full_12820.sheet")?;
/// limbatue::settle_into(&sheet, &mut table)?;
/// # Ok::<(), Box<dyn std::error::Error>>(())
/// ```
pub const TABLE_MOST: usize = 1024;

/// The counts of a prime form, plain or finer, of a field found by its number, or of what remains beside squads, and the marks of [`settle_since_into`], for any sheet.
///
/// ```
/// let mut counts = [0; limbatue::COUNTS_MOST];
/// let sheet = std::fs::read("testdata/full_12820.sheet")?;
/// limbatue::prime_form_into(&sheet, 63, &mut counts)?;
/// # Ok::<(), Box<dyn std::error::Error>>(())
/// ```
pub const COUNTS_MOST: usize = 32;

/// The counts of [`frequencies_into`] for any sheet: two more than there are kinds at most.
///
/// ```
/// let mut counts = [0; limbatue::FREQUENCIES_MOST];
/// let sheet = std::fs::read("testdata/chain32.sheet")?;
/// limbatue::frequencies_into(&sheet, 0, 1, &mut counts)?;
/// assert_eq!(counts.iter().sum::<u32>(), 32); // the fields of one token
/// # Ok::<(), Box<dyn std::error::Error>>(())
/// ```
pub const FREQUENCIES_MOST: usize = 34;

/// The bytes that no page passes.
///
/// ```
/// let mut page = vec![0; limbatue::PAGE_MOST];
/// let length = limbatue::page_into(b"any bytes at all", &mut page)?;
/// assert_eq!(page[..length], *b"refused 1 0\n");
/// # Ok::<(), limbatue::Refusal>(())
/// ```
pub const PAGE_MOST: usize = 74_183;

/// The tokens of the largest fields that have shelf numbers.
///
/// ```
/// let sheet = std::fs::read("testdata/chain32.sheet")?;
/// assert!(limbatue::shelf_field(&sheet, limbatue::TOKENS_MOST, 0).is_ok());
/// let refusal = limbatue::shelf_field(&sheet, limbatue::TOKENS_MOST + 1, 0).unwrap_err();
/// assert_eq!(refusal.to_string(), "the field or the size is over 16 tokens");
/// # Ok::<(), std::io::Error>(())
/// ```
pub const TOKENS_MOST: usize = 16;

/// The desks of a session, numbered from 0.
///
/// ```
/// use limbatue::{DESKS, Reason, Session};
///
/// let sheet = std::fs::read("testdata/page36.sheet")?;
/// let mut session = Session::open([100; DESKS]);
/// assert!(limbatue::walk(&sheet, 0, 1, 4, DESKS - 1, &mut session).is_ok());
/// let refusal = limbatue::walk(&sheet, 0, 1, 4, DESKS, &mut session).unwrap_err();
/// assert_eq!(refusal.reason, Reason::Desk);
/// # Ok::<(), std::io::Error>(())
/// ```
pub const DESKS: usize = 8;

/// A sheet's numbers of kinds, codes, lines and fields. [`numbers`] gives them.
///
/// ```
/// use limbatue::Numbers;
///
/// let sheet = std::fs::read("testdata/page36.sheet")?;
/// assert_eq!(limbatue::numbers(&sheet)?, Numbers { kinds: 2, codes: 1, lines: 2, fields: 2 });
/// # Ok::<(), Box<dyn std::error::Error>>(())
/// ```
#[derive(Clone, Copy, Debug, PartialEq, Eq, Hash)]
pub struct Numbers {
    /// The kinds, from 1 to 32.
    pub kinds: usize,
    /// The codes, from 1 to 64.
    pub codes: usize,
    /// The lines, up to 256.
    pub lines: usize,
    /// The fields, up to 64.
    pub fields: usize,
}

/// The verdict on two fields, of [`compare`] and of [`finer_compare`].
///
/// ```
/// use limbatue::Verdict;
///
/// let sheet = std::fs::read("testdata/stage3.sheet")?;
/// match limbatue::compare(&sheet, 0, 1)? {
///     Verdict::Same => println!("same"),
///     Verdict::Different { stage, rounds } => println!("different {stage} {rounds}"),
/// }
/// # Ok::<(), Box<dyn std::error::Error>>(())
/// ```
#[derive(Clone, Copy, Debug, PartialEq, Eq, Hash)]
pub enum Verdict {
    /// The fields are the same: whatever is done with one can be done with the other, without end. Of [`finer_compare`]: and the two have as many tokens as each other, then and after whatever is done.
    Same,
    /// The fields are not the same.
    Different {
        /// The least stage that does not relate them; 0 where their norms differ, and of [`finer_compare`] where their numbers of tokens do.
        stage: u32,
        /// A number of rounds within which the game parts them, whatever the replies.
        rounds: u64,
    },
}

impl Verdict {
    /// The verdict that an answer array of Compare holds, in either sense.
    fn from_answer(answer: [u64; 3]) -> Verdict {
        match answer {
            [0, ..] => Verdict::Same,
            [_, stage, rounds] => Verdict::Different { stage: stage as u32, rounds },
        }
    }
}

/// The result of a call by the number that it returned.
fn done(returned: u32) -> Result<(), Refusal> {
    if returned == 0 { Ok(()) } else { Err(Refusal::from_returned(returned)) }
}

/// A count for each kind of a sheet, as a function writes them into a buffer of so many.
fn counts_of<T: Clone + Default>(
    sheet: &[u8],
    write: impl FnOnce(&mut [T]) -> Result<(), Refusal>,
) -> Result<Vec<T>, Refusal> {
    let mut counts = vec![T::default(); numbers(sheet)?.kinds];
    write(&mut counts)?;
    Ok(counts)
}

/// The version of the library that is linked: 10000 × major + 100 × minor + patch.
///
/// ```
/// let version = limbatue::version();
/// println!("Limbatue {}.{}.{}", version / 10_000, version / 100 % 100, version % 100);
/// assert!(version >= 200); // 0.2.0
/// ```
pub fn version() -> u32 {
    ffi::limbatue_version()
}

/// The numbers of kinds, codes, lines and fields of a sheet. Refused are 1 to 8: the sheet's header and lines are checked, not its norms.
///
/// ```
/// let sheet = std::fs::read("testdata/page36.sheet")?;
/// for field in 0..limbatue::numbers(&sheet)?.fields {
///     println!("field {field} is {:?}", limbatue::prime_form(&sheet, field)?);
/// }
/// # Ok::<(), Box<dyn std::error::Error>>(())
/// ```
pub fn numbers(sheet: &[u8]) -> Result<Numbers, Refusal> {
    let mut answer = [0; 4];
    // SAFETY: two slices, of which the one that is written overlaps nothing.
    done(unsafe { ffi::limbatue_numbers(sheet.as_ptr(), sheet.len(), answer.as_mut_ptr(), answer.len()) })?;
    let [kinds, codes, lines, fields] = answer.map(|number| number as usize);
    Ok(Numbers { kinds, codes, lines, fields })
}

/// Settles a sheet: the settled stage, and for each kind its row and since what stage it has this row. Refused are 1 to 10. A kind that no field holds and that no line leads to from those that are held is out: it
/// needs no norm, its row is zeros, and there is no such stage.
///
/// ```
/// let sheet = std::fs::read("testdata/page36.sheet")?;
/// let settled = limbatue::settle(&sheet)?;
/// assert_eq!(settled.stage(), 1);
/// assert_eq!(settled.row(1)?, [2, 0]);
/// assert_eq!(settled.since(1)?, Some(1));
///
/// let sheet = std::fs::read("testdata/billion_and_one.sheet")?;
/// let refusal = limbatue::settle(&sheet).unwrap_err();
/// assert_eq!(refusal.to_string(), "kind 5: its norm is over 1,000,000,000");
/// # Ok::<(), Box<dyn std::error::Error>>(())
/// ```
pub fn settle(sheet: &[u8]) -> Result<Settled, Refusal> {
    let kinds = numbers(sheet)?.kinds;
    let (mut table, mut since) = (vec![0; kinds * kinds], vec![0; kinds]);
    let stage = settle_since_into(sheet, &mut table, &mut since)?;
    Ok(Settled::new(stage, kinds, table, since))
}

/// Settles a sheet into a lent table: writes the rows one after another, kinds × kinds counts, and answers the settled stage. Entries past those keep their values. Refused are 1 to 10, and 12 where the
/// table is too short; [`TABLE_MOST`] entries always suffice.
///
/// ```
/// let sheet = std::fs::read("testdata/page36.sheet")?;
/// let mut table = [7; 5];
/// assert_eq!(limbatue::settle_into(&sheet, &mut table)?, 1);
/// assert_eq!(table, [1, 0, 2, 0, 7]);
/// # Ok::<(), Box<dyn std::error::Error>>(())
/// ```
pub fn settle_into(sheet: &[u8], table: &mut [u32]) -> Result<u32, Refusal> {
    let mut answer = [0; 1];
    // SAFETY: three slices, none of which overlaps one that is written.
    done(unsafe {
        ffi::limbatue_settle(
            sheet.as_ptr(),
            sheet.len(),
            table.as_mut_ptr(),
            table.len(),
            answer.as_mut_ptr(),
            answer.len(),
        )
    })?;
    Ok(answer[0] as u32)
}

/// Settles a sheet into a lent table and lent marks: writes what [`settle_into`] writes, and for each kind in number order its mark: the first stage, from 1 up, at which its row became the one that is settled, and
/// is at every later stage; 0 for a kind that is out. Answers the settled stage, which no mark passes. Entries past those keep their values. Refused are 1 to 10, and 12 where the table or the buffer of the marks is
/// too short; [`TABLE_MOST`] and [`COUNTS_MOST`] entries always suffice.
///
/// ```
/// let sheet = std::fs::read("testdata/row_changes_not_prime.sheet")?;
/// let (mut table, mut since) = ([0; 9], [7; 4]);
/// assert_eq!(limbatue::settle_since_into(&sheet, &mut table, &mut since)?, 2);
/// assert_eq!(table, [1, 0, 0, 0, 1, 0, 0, 1, 0]);
/// assert_eq!(since, [1, 2, 2, 7]); // kind 1 is prime since stage 2, and kind 2 is the same as it since then
/// # Ok::<(), Box<dyn std::error::Error>>(())
/// ```
pub fn settle_since_into(sheet: &[u8], table: &mut [u32], since: &mut [u32]) -> Result<u32, Refusal> {
    let mut answer = [0; 1];
    // SAFETY: four slices, none of which overlaps one that is written.
    done(unsafe {
        ffi::limbatue_settle_since(
            sheet.as_ptr(),
            sheet.len(),
            table.as_mut_ptr(),
            table.len(),
            since.as_mut_ptr(),
            since.len(),
            answer.as_mut_ptr(),
            answer.len(),
        )
    })?;
    Ok(answer[0] as u32)
}

/// The row of a kind in a table that [`settle_into`] wrote for a sheet of so many kinds. It judges no table: refused are a number of kinds that is not from 1 to 32 (2), a kind that is not under it (11) and a
/// table that is too short (12).
///
/// ```
/// let sheet = std::fs::read("testdata/page36.sheet")?;
/// let mut table = [0; limbatue::TABLE_MOST];
/// limbatue::settle_into(&sheet, &mut table)?;
/// let kinds = limbatue::numbers(&sheet)?.kinds;
/// assert_eq!(limbatue::row(&table, kinds, 1)?, [2, 0]);
/// # Ok::<(), Box<dyn std::error::Error>>(())
/// ```
pub fn row(table: &[u32], kinds: usize, kind: usize) -> Result<&[u32], Refusal> {
    let mut answer = [0; 2];
    // SAFETY: two slices, of which the one that is written overlaps nothing.
    done(unsafe {
        ffi::limbatue_row_check(table.as_ptr(), table.len(), kinds, kind, answer.as_mut_ptr(), answer.len())
    })?;
    Ok(&table[answer[0] as usize..][..answer[1] as usize])
}

/// Whether two fields of a sheet are the same, or from which stage and within how many rounds they part. Refused are 1 to 11.
///
/// ```
/// use limbatue::Verdict;
///
/// let sheet = std::fs::read("testdata/page36.sheet")?;
/// assert_eq!(limbatue::compare(&sheet, 0, 1)?, Verdict::Same);
///
/// let sheet = std::fs::read("testdata/stage3.sheet")?;
/// assert_eq!(limbatue::compare(&sheet, 0, 1)?, Verdict::Different { stage: 3, rounds: 4 });
/// # Ok::<(), Box<dyn std::error::Error>>(())
/// ```
pub fn compare(sheet: &[u8], first: usize, second: usize) -> Result<Verdict, Refusal> {
    let mut answer = [0; 3];
    // SAFETY: two slices, of which the one that is written overlaps nothing.
    done(unsafe {
        ffi::limbatue_compare(sheet.as_ptr(), sheet.len(), first, second, answer.as_mut_ptr(), answer.len())
    })?;
    Ok(Verdict::from_answer(answer))
}

/// The prime form of a field: a count for each kind, of which only prime kinds have one over 0. Two fields of a sheet are the same just when their prime forms are equal. Refused are 1 to 11.
///
/// ```
/// let sheet = std::fs::read("testdata/page36.sheet")?;
/// assert_eq!(limbatue::prime_form(&sheet, 0)?, [2, 0]);
/// assert_eq!(limbatue::prime_form(&sheet, 1)?, [2, 0]);
/// # Ok::<(), Box<dyn std::error::Error>>(())
/// ```
pub fn prime_form(sheet: &[u8], field: usize) -> Result<Vec<u64>, Refusal> {
    counts_of(sheet, |counts| prime_form_into(sheet, field, counts))
}

/// Writes the prime form of a field to a lent buffer, a count for each kind. Entries past those keep their values. Refused are 1 to 11, and 12 where the buffer is too short; [`COUNTS_MOST`] entries always suffice.
///
/// ```
/// let sheet = std::fs::read("testdata/page36.sheet")?;
/// let mut counts = [7; 3];
/// limbatue::prime_form_into(&sheet, 0, &mut counts)?;
/// assert_eq!(counts, [2, 0, 7]);
/// # Ok::<(), Box<dyn std::error::Error>>(())
/// ```
pub fn prime_form_into(sheet: &[u8], field: usize, counts: &mut [u64]) -> Result<(), Refusal> {
    // SAFETY: two slices, of which the one that is written overlaps nothing.
    done(unsafe { ffi::limbatue_prime_form(sheet.as_ptr(), sheet.len(), field, counts.as_mut_ptr(), counts.len()) })
}

/// The page of a sheet. A sheet that is refused has a page too, `refused NUMBER PLACE`.
///
/// ```
/// let sheet = std::fs::read("testdata/page36.sheet")?;
/// let page = "kinds 2 stages 1\nkind 0 norm 1 since 1 prime\nkind 1 norm 2 since 1 = 2 0\nfield 0 = 2 0\nfield 1 = 2 0\npair 0 1 same\n";
/// assert_eq!(limbatue::page(&sheet), page);
/// assert_eq!(limbatue::page(b"no sheet"), "refused 1 0\n");
/// # Ok::<(), std::io::Error>(())
/// ```
pub fn page(sheet: &[u8]) -> String {
    let mut page = vec![0; PAGE_MOST];
    let length = page_into(sheet, &mut page).expect("no page is longer");
    let text =
        std::str::from_utf8(&page[..length]).expect("a page has letters, digits, spaces, \"=\" and ends of lines");
    text.to_owned()
}

/// Writes the page of a sheet to a lent buffer and answers its length. Bytes past that keep their values. Refused is only a buffer that is too short (12); [`PAGE_MOST`] bytes always suffice.
///
/// ```
/// let sheet = std::fs::read("testdata/page36.sheet")?;
/// let mut page = [0; limbatue::PAGE_MOST];
/// let length = limbatue::page_into(&sheet, &mut page)?;
/// assert!(page[..length].ends_with(b"pair 0 1 same\n"));
/// # Ok::<(), Box<dyn std::error::Error>>(())
/// ```
pub fn page_into(sheet: &[u8], page: &mut [u8]) -> Result<usize, Refusal> {
    let mut answer = [0; 1];
    // SAFETY: three slices, none of which overlaps one that is written.
    done(unsafe {
        ffi::limbatue_page(
            sheet.as_ptr(),
            sheet.len(),
            page.as_mut_ptr(),
            page.len(),
            answer.as_mut_ptr(),
            answer.len(),
        )
    })?;
    Ok(answer[0] as usize)
}
