//! What is promised of squads: "the largest q such that the whole is the same as q squads joined with some
//! remainder", and "the remainder is exact: q squads and it give the whole's prime form, and no other prime form
//! does so with that q". The fields that are spoken of are put on the sheet, and Compare and Prime form tell of them.

use std::collections::BTreeMap;
use std::ops::Range;

use crate::asked::{Asked, ask_each, hold};
use crate::calls::{Answer, Call, Implementation, make, squads_near};
use crate::filer::Verdict;
use crate::norm::NormedCard;
use crate::random::Random;
use crate::sense::Sense;

/// A promise.
#[derive(Clone, Copy, Debug, PartialEq, Eq, PartialOrd, Ord)]
pub enum Promise {
    /// The whole is the same as q squads joined with the remainder.
    Joined,
    /// It is not the same as q + 1 squads joined with a remainder.
    Largest,
    /// The remainder is a prime form, and q times the prime form of the squad and it are that of the whole.
    Exact,
}

/// What was tried.
#[derive(Clone, Debug, Default)]
pub struct Tried {
    pub sheets: u64,
    /// Calls that were answered.
    pub answered: u64,
    /// Of them, those whose q squads and remainder were put on the sheet and compared with the whole.
    pub joined: u64,
    /// Of these, those with two squads or more.
    pub several: u64,
    /// Of these, those whose counts are not the whole's.
    pub of_other_counts: u64,
    /// Fields of q + 1 squads and a remainder that were put on the sheet and compared with the whole.
    pub one_more: u64,
    /// Of them, those whose remainder is the prime form of the whole less those of the squads, as far as it goes.
    pub obvious: u64,
    /// Of them, those that have the norm of the whole.
    pub of_equal_norm: u64,
    /// Remainders that were put on the sheet, and whose prime form was asked for.
    pub forms: u64,
    /// How often each promise was broken.
    pub broken: BTreeMap<Promise, u64>,
}

/// Asks some questions on the sheets of some numbers of a seed, and looks at what is answered.
pub fn try_squads(seed: u64, numbers: Range<u64>, implementation: Implementation) -> Tried {
    let mut tried = Tried::default();
    ask_each(seed, numbers, implementation, |asked, random| {
        tried.sheets += 1;
        for _ in 0..4 {
            let (whole, squad) = squads_near(asked.normed.card.fields, random);
            tried.try_pair(asked, whole, squad, random);
        }
    });
    tried
}

impl Tried {
    /// Asks how often a squad goes into a whole, and looks at the answer where there is one.
    fn try_pair(&mut self, asked: &Asked, whole: usize, squad: usize, random: &mut Random) {
        let call = Call::Squads { whole, squad, entries: asked.normed.card.kinds };
        let (Answer::Squads { count }, lent) = make(asked.implementation, &call, asked.bytes) else { return };
        let remainder = lent.counts.lent();
        self.answered += 1;
        let [counts, one] = [whole, squad].map(|field| asked.normed.card.field(field));
        let [whole_form, squad_form] = [whole, squad].map(|field| asked.form(Sense::Plain, asked.bytes, field));

        let joined = join(&one, count, remainder);
        if let Some(verdict) = verdict_with(asked, whole, &joined) {
            hold(&mut self.broken, Promise::Joined, verdict == Verdict::Same);
            self.joined += 1;
            self.several += u64::from(count > 1);
            self.of_other_counts +=
                u64::from(count > 1 && !joined.iter().copied().eq(counts.iter().map(|&n| n.into())));
        }

        // The prime form of the whole less that of one squad more, and others of the norm that is left, if any is.
        let more = count.saturating_add(1);
        let left =
            whole_form.iter().zip(&squad_form).map(|(held, taken)| held.saturating_sub(more.saturating_mul(*taken)));
        let mut remainders = vec![left.collect()];
        let taken = u128::from(more) * u128::from(asked.normed.norm(&one));
        let norm = u128::from(asked.normed.norm(&counts)).saturating_sub(taken) as u64;
        remainders.extend((0..4).map(|_| field_of_norm(asked.normed, norm, random)));
        for (place, other) in remainders.into_iter().enumerate() {
            if let Some(verdict) = verdict_with(asked, whole, &join(&one, more, &other)) {
                hold(&mut self.broken, Promise::Largest, verdict != Verdict::Same);
                self.one_more += 1;
                self.obvious += u64::from(place == 0);
                self.of_equal_norm += u64::from(!matches!(verdict, Verdict::Different { stage: 0, .. }));
            }
        }

        let sum = join(&squad_form, count, remainder);
        hold(&mut self.broken, Promise::Exact, sum.iter().copied().eq(whole_form.iter().map(|&tokens| tokens.into())));
        if let Some(bytes) = asked.normed.card.with_field(asked.bytes, remainder) {
            hold(
                &mut self.broken,
                Promise::Exact,
                asked.form(Sense::Plain, &bytes, asked.normed.card.fields) == remainder,
            );
            self.forms += 1;
        }
    }
}

/// What Compare says of a field of the sheet and one that is put on it.
fn verdict_with(asked: &Asked, field: usize, put: &[u128]) -> Option<Verdict> {
    let bytes = asked.normed.card.with_field(asked.bytes, put)?;
    Some(asked.verdict(Sense::Plain, &bytes, field, asked.normed.card.fields))
}

/// Some field of a norm, of kinds that are reached: of some any number, then of each, from the last in order to the
/// first, as many as there is norm left for. The first has norm 1. Some kind is reached: a squad is not empty.
fn field_of_norm(normed: &NormedCard, norm: u64, random: &mut Random) -> Vec<u64> {
    let mut counts = vec![0; normed.card.kinds];
    let mut left = norm;
    for _ in 0..random.below(2 * counts.len() + 2) {
        let kind = random.choose(&normed.reached);
        let most = (left / normed.norms[kind]).min(9);
        let count = random.below(most as usize + 1) as u64;
        counts[kind] += count;
        left -= count * normed.norms[kind];
    }
    for &kind in normed.order.iter().rev() {
        counts[kind] += left / normed.norms[kind];
        left %= normed.norms[kind];
    }
    counts
}

/// So many times some counts, and others.
fn join(counts: &[u64], times: u64, others: &[u64]) -> Vec<u128> {
    counts
        .iter()
        .zip(others)
        .map(|(&count, &other)| u128::from(times) * u128::from(count) + u128::from(other))
        .collect()
}
