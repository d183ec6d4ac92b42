//! Request 2 of document 02: "a shelf number for small fields".
//!
//! A field's number is counted, from the last kind down, as the fields that have a smaller count there;
//! the field of a number is found by trying the counts 0, 1, 2 and so on of the last kind, then of the
//! one before it. The kinds are those that are reached (request 6): "shelf numbers run over the reached kinds
//! alone, in number order, with k their number and every other count 0".

use crate::norm::accept;
use crate::sheet::{Refusal, refused};

/// "Fields of up to 16 tokens" have numbers.
pub const MOST_TOKENS: u64 = 16;

/// How many fields there are, for some kinds and tokens and all fewer.
pub struct Entries {
    /// By kinds, then by tokens.
    rows: Vec<Vec<u64>>,
}

impl Entries {
    /// The entries up to so many kinds and tokens: "1 at (0, 0), 0 at (0, t) for t above 0, else the entry
    /// for k - 1 and t plus, for t above 0, the entry for k and t - 1".
    pub fn new(kinds: usize, tokens: u64) -> Entries {
        let mut rows: Vec<Vec<u64>> = Vec::with_capacity(kinds + 1);
        rows.push((0..=tokens).map(|count| u64::from(count == 0)).collect());
        for kind in 1..=kinds {
            let mut row: Vec<u64> = Vec::with_capacity(rows[kind - 1].len());
            for (place, &entry) in rows[kind - 1].iter().enumerate() {
                row.push(entry + if place > 0 { row[place - 1] } else { 0 });
            }
            rows.push(row);
        }
        Entries { rows }
    }

    /// The fields of so many tokens of so many kinds.
    pub fn of(&self, kinds: usize, tokens: u64) -> u64 {
        self.rows[kinds][tokens as usize]
    }
}

/// The tokens of a field.
pub fn tokens_of(counts: &[u64]) -> u64 {
    counts.iter().sum()
}

/// Field to number: how many fields of as many tokens are listed before this one.
pub fn number_of(counts: &[u64]) -> u64 {
    let mut left = tokens_of(counts);
    let entries = Entries::new(counts.len(), left);
    let mut before = 0;
    for (kind, &count) in counts.iter().enumerate().rev() {
        // Those that have the same counts of the later kinds and a smaller one of this: the kinds before
        // it, as many as its number says, have the rest of the tokens.
        before += (0..count).map(|smaller| entries.of(kind, left - smaller)).sum::<u64>();
        left -= count;
    }
    before
}

/// Number to field, for so many kinds; none where the number is not under the entry.
pub fn field_of(kinds: usize, tokens: u64, number: u64) -> Option<Vec<u64>> {
    let entries = Entries::new(kinds, tokens);
    if number >= entries.of(kinds, tokens) {
        return None;
    }
    let mut counts = vec![0; kinds];
    let (mut left, mut ahead) = (tokens, number);
    for (kind, count) in counts.iter_mut().enumerate().rev() {
        while ahead >= entries.of(kind, left) {
            ahead -= entries.of(kind, left);
            *count += 1;
            left -= 1;
        }
    }
    Some(counts)
}

/// A field's tokens, and its number among the fields of as many.
#[derive(Clone, Copy, Debug, PartialEq, Eq)]
pub struct ShelfNumber {
    pub size: u64,
    pub number: u64,
}

/// Shelf number of a field of a sheet. It checks 1 to 11 and 14.
pub fn shelf_number(sheet: &[u8], field: usize) -> Result<ShelfNumber, Refusal> {
    let normed = accept(sheet)?;
    normed.card.check_fields(&[field])?;
    let counts = normed.card.field(field);
    let size = tokens_of(&counts);
    if size > MOST_TOKENS {
        return refused(14, 0);
    }
    let of_reached: Vec<u64> = normed.reached.iter().map(|&kind| counts[kind]).collect();
    Ok(ShelfNumber { size, number: number_of(&of_reached) })
}

/// Shelf field: "a field found by number is written as n counts of 16 bits to a lent buffer". It checks
/// 1 to 10, 14, 15 and 12.
pub fn shelf_field(sheet: &[u8], size: usize, number: u64, counts: &mut [u16]) -> Result<(), Refusal> {
    let normed = accept(sheet)?;
    let tokens = size as u64;
    if tokens > MOST_TOKENS {
        return refused(14, 0);
    }
    let Some(of_reached) = field_of(normed.reached.len(), tokens, number) else {
        return refused(15, 0);
    };
    let Some(written) = counts.get_mut(..normed.card.kinds) else {
        return refused(12, 0);
    };
    written.fill(0);
    for (&kind, count) in normed.reached.iter().zip(of_reached) {
        written[kind] = count as u16;
    }
    Ok(())
}
