//! What is promised of Frequencies: it tells "how many of the fields of t tokens are the same as it and how many part from
//! it at each stage", and "each shelved field counts in one place, so the counts add to the table's entry". The counts are
//! held against Shelf field, which finds the fields one by one, against Compare, which judges each of them where it is put
//! on the sheet, against Settle, and against those of other fields.

use std::collections::BTreeMap;
use std::ops::Range;

use crate::asked::{Asked, ask_each, hold};
use crate::calls::{Implementation, frequencies_near};
use crate::filer::Verdict;
use crate::sense::Sense;
use crate::shelf::{MOST_TOKENS, tokens_of};

/// A promise.
#[derive(Clone, Copy, Debug, PartialEq, Eq, PartialOrd, Ord)]
pub enum Promise {
    /// The counts add up to a number such that Shelf field finds a field of the last number under it, and none of it.
    Adds,
    /// Of all fields that Shelf field finds, put on the sheet, as many get each verdict of Compare as are counted there.
    Judged,
    /// No field parts at a stage past the settled one.
    Settled,
    /// Fields that are the same have equal counts.
    Alike,
}

/// What was tried.
#[derive(Clone, Debug, Default)]
pub struct Tried {
    pub sheets: u64,
    /// Fields and sizes for which there is an answer.
    pub answered: u64,
    /// Of them, those of which the field has more tokens than a field that has a shelf number.
    pub of_large_fields: u64,
    /// Those of which each field of the size was put on the sheet and compared with the given one.
    pub judged: u64,
    /// The fields that were put on the sheet.
    pub fields: u64,
    /// Of them, those that are the same as the given one and have other counts.
    pub same_unequal: u64,
    /// Of them, those that part from the given one at stage 1.
    pub first: u64,
    /// Of them, those that part from it at a later stage.
    pub later: u64,
    /// Pairs of fields that are the same and have other counts, whose answers were held against each other.
    pub alike: u64,
    /// How often each promise was broken.
    pub broken: BTreeMap<Promise, u64>,
}

/// So many fields of a size are put on a sheet at most.
const MOST_JUDGED: u64 = 100;

/// Asks some questions on the sheets of some numbers of a seed, and looks at what is answered.
pub fn try_counts(seed: u64, numbers: Range<u64>, implementation: Implementation) -> Tried {
    let mut tried = Tried::default();
    ask_each(seed, numbers, implementation, |asked, random| {
        let fields = asked.normed.card.fields;
        tried.sheets += 1;
        for _ in 0..2 {
            let (field, size) = frequencies_near(&asked.normed.card, asked.normed.reached.len(), random);
            let Ok(counts) = asked.frequencies(field, size) else { continue };
            tried.answered += 1;
            tried.of_large_fields += u64::from(tokens_of(&asked.normed.card.field(field)) > MOST_TOKENS);
            tried.try_sum(asked, size, &counts);
            tried.try_fields(asked, field, size, &counts);
            tried.try_alike(asked, [field, (field + 1) % fields], size, &counts);
            tried.try_alike(asked, [field, random.below(fields)], size, &counts);
        }
    });
    tried
}

impl Tried {
    /// Asks for the last field of a size, and for one past it; and for the settled stage.
    fn try_sum(&mut self, asked: &Asked, size: usize, counts: &[u32]) {
        let sum: u64 = counts.iter().map(|&count| u64::from(count)).sum();
        let has_last = sum.checked_sub(1).is_none_or(|last| asked.shelf_field(size, last).is_some());
        hold(&mut self.broken, Promise::Adds, has_last && asked.shelf_field(size, sum).is_none());
        let settled = asked.settled_stage() as usize;
        hold(&mut self.broken, Promise::Settled, counts[settled + 2..].iter().all(|&count| count == 0));
    }

    /// Asks for each field of a size and for the verdict on it and the given one, where there are few and there is room.
    fn try_fields(&mut self, asked: &Asked, field: usize, size: usize, counts: &[u32]) {
        let card = &asked.normed.card;
        let given = card.field(field);
        if asked.shelf_field(size, MOST_JUDGED).is_some() {
            return;
        }
        let mut judged = vec![0; counts.len()];
        for number in 0.. {
            let Some(shelved) = asked.shelf_field(size, number) else { break };
            let Some(bytes) = card.with_field(asked.bytes, &shelved) else { return };
            let place = match asked.verdict(Sense::Plain, &bytes, field, card.fields) {
                Verdict::Same => 0,
                Verdict::Different { stage, .. } => stage as usize + 1,
            };
            judged[place] += 1;
            self.fields += 1;
            let unequal = !shelved.iter().map(|&count| u64::from(count)).eq(given.iter().copied());
            self.same_unequal += u64::from(place == 0 && unequal);
            self.first += u64::from(place == 2);
            self.later += u64::from(place > 2);
        }
        hold(&mut self.broken, Promise::Judged, judged == counts);
        self.judged += 1;
    }

    /// Asks for the verdict on two fields and, where they are the same, for the counts of the second.
    fn try_alike(&mut self, asked: &Asked, pair: [usize; 2], size: usize, counts: &[u32]) {
        if asked.verdict(Sense::Plain, asked.bytes, pair[0], pair[1]) == Verdict::Same {
            hold(&mut self.broken, Promise::Alike, asked.frequencies(pair[1], size).is_ok_and(|other| other == counts));
            let [field, other] = pair.map(|field| asked.normed.card.field(field));
            self.alike += u64::from(field != other);
        }
    }
}
