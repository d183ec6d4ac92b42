//! Request 8 of document 02: "how common is each answer?"
//!
//! Every field of the size is made, one after another, and held against the given one: the least stage that does not
//! relate the two, from the bases of all stages, tells where it counts.

use crate::filer::{bases, parting_stage};
use crate::norm::accept;
use crate::sheet::{Refusal, refused};
use crate::shelf::{Entries, MOST_TOKENS};

/// "18 an entry over 65,536": so many fields are listed at most.
pub const MOST_LISTED: u64 = 65_536;

/// Looks at a pair of fields with each field of so many tokens of some kinds in the second place: of the first of the kinds
/// any number of these tokens, and of the others the rest. Of no kinds there is a field of no tokens alone.
fn each_field(kinds: &[usize], tokens: u64, pair: &mut [Vec<u64>; 2], look: &mut impl FnMut(&[Vec<u64>; 2])) {
    let Some((&kind, others)) = kinds.split_first() else {
        if tokens == 0 {
            look(pair);
        }
        return;
    };
    for count in 0..=tokens {
        pair[1][kind] = count;
        each_field(others, tokens - count, pair, look);
    }
}

/// Frequencies: "how many of the fields of t tokens are the same as it and how many part from it at each stage from 0 to
/// n, in a lent buffer of n + 2 counts of 32 bits". It checks 1 to 11, 14 of the size alone, 18 and 12.
pub fn frequencies(sheet: &[u8], field: usize, size: usize, counts: &mut [u32]) -> Result<(), Refusal> {
    let normed = accept(sheet)?;
    normed.card.check_fields(&[field])?;
    let tokens = size as u64;
    if tokens > MOST_TOKENS {
        return refused(14, 0);
    }
    let kinds = normed.reached.len();
    if Entries::new(kinds, tokens).of(kinds, tokens) > MOST_LISTED {
        return refused(18, 0);
    }
    let Some(written) = counts.get_mut(..normed.card.kinds + 2) else {
        return refused(12, 0);
    };
    written.fill(0);
    let bases = bases(&normed);
    let mut pair = [normed.card.field(field), vec![0; normed.card.kinds]];
    each_field(&normed.reached, tokens, &mut pair, &mut |pair| {
        // "Same first", then the stages from 0 on.
        let place = parting_stage(&normed, &bases, pair).map_or(0, |stage| stage as usize + 1);
        written[place] += 1;
    });
    Ok(())
}
