//! Questions on accepted sheets, put to an implementation, and the promises that its answers keep or break.

use std::collections::BTreeMap;
use std::ops::Range;

use crate::calls::{Answer, Call, Implementation, form_of, make, page_of, verdict_of};
use crate::filer::Verdict;
use crate::generator::sample;
use crate::norm::{NormedCard, accept};
use crate::random::Random;
use crate::sense::Sense;
use crate::sheet::Refusal;

/// An accepted sheet, and who is asked.
pub struct Asked<'a> {
    pub bytes: &'a [u8],
    pub normed: &'a NormedCard<'a>,
    pub implementation: Implementation,
}

impl Asked<'_> {
    /// The verdict on two fields of a sheet.
    pub fn verdict(&self, sense: Sense, bytes: &[u8], first: usize, second: usize) -> Verdict {
        verdict_of(self.implementation, sense, bytes, first, second)
    }

    /// The prime form of a field of a sheet of as many kinds.
    pub fn form(&self, sense: Sense, bytes: &[u8], field: usize) -> Vec<u64> {
        form_of(self.implementation, sense, bytes, field, self.normed.card.kinds)
    }

    /// The settled stage of the sheet.
    pub fn settled_stage(&self) -> u32 {
        self.settled().0
    }

    /// The settled stage of the sheet, and its table.
    pub fn settled(&self) -> (u32, Vec<u32>) {
        let kinds = self.normed.card.kinds;
        match make(self.implementation, &Call::Settle { entries: kinds * kinds }, self.bytes) {
            (Answer::Settled { stage }, lent) => (stage, lent.table.lent().to_vec()),
            (other, _) => panic!("{other:?} is no settled stage"),
        }
    }

    /// The settled stage of the sheet, its table and the marks of its kinds.
    pub fn settled_since(&self) -> (u32, Vec<u32>, Vec<u32>) {
        let kinds = self.normed.card.kinds;
        let call = Call::SettleSince { entries: kinds * kinds, marks: kinds };
        match make(self.implementation, &call, self.bytes) {
            (Answer::Settled { stage }, lent) => (stage, lent.table.lent().to_vec(), lent.since.lent().to_vec()),
            (other, _) => panic!("{other:?} is no settled stage"),
        }
    }

    /// The page of the sheet.
    pub fn page(&self) -> String {
        page_of(self.implementation, self.bytes)
    }

    /// The field of a size and a number, if there are so many.
    pub fn shelf_field(&self, size: usize, number: u64) -> Option<Vec<u16>> {
        let call = Call::ShelfField { size, number, entries: self.normed.card.kinds };
        match make(self.implementation, &call, self.bytes) {
            (Answer::FieldWritten, lent) => Some(lent.field.lent().to_vec()),
            (Answer::Refused(Refusal { number: 15, place: 0 }), _) => None,
            (other, _) => panic!("{other:?} is no field"),
        }
    }

    /// The counts of Frequencies of a field and a size, or the refusal.
    pub fn frequencies(&self, field: usize, size: usize) -> Result<Vec<u32>, Refusal> {
        let call = Call::Frequencies { field, size, entries: self.normed.card.kinds + 2 };
        match make(self.implementation, &call, self.bytes) {
            (Answer::FrequenciesWritten, lent) => Ok(lent.frequencies.lent().to_vec()),
            (Answer::Refused(refusal), _) => Err(refusal),
            (other, _) => panic!("{other:?} is no answer of Frequencies"),
        }
    }
}

/// Asks on each accepted one of the sheets of some numbers of a seed.
pub fn ask_each(
    seed: u64,
    numbers: Range<u64>,
    implementation: Implementation,
    mut ask: impl FnMut(&Asked, &mut Random),
) {
    for number in numbers {
        let bytes = sample(seed, number).bytes;
        let Ok(normed) = accept(&bytes) else { continue };
        let asked = Asked { bytes: &bytes, normed: &normed, implementation };
        ask(&asked, &mut Random::new(seed.rotate_left(32) ^ number));
    }
}

/// Counts a promise that is not kept.
pub fn hold<Promise: Ord>(broken: &mut BTreeMap<Promise, u64>, promise: Promise, kept: bool) {
    if !kept {
        *broken.entry(promise).or_default() += 1;
    }
}
