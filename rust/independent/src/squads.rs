//! Request 5 of document 02: "how many squads?"
//!
//! How often a squad goes into a whole is searched for, by doubling and then by halving: so many squads go in
//! where their prime form has, of each kind, at most as many tokens as the whole's.

use crate::base::{Base, Refinement};
use crate::norm::accept;
use crate::sense::Sense;
use crate::sheet::{Card, Refusal, refused};

/// The prime form of a field, a count for each kind.
fn form(base: &Base, card: &Card, field: usize) -> Vec<u128> {
    let counts = base.form(card.field(field).into_iter());
    counts[..card.kinds].iter().map(|&count| count as u128).collect()
}

/// So many times a form.
fn times(form: &[u128], count: u128) -> Vec<u128> {
    form.iter().map(|tokens| count * tokens).collect()
}

/// Whether a form has, of each kind, at most as many tokens as another.
fn goes_into(form: &[u128], whole: &[u128]) -> bool {
    form.iter().zip(whole).all(|(tokens, held)| tokens <= held)
}

/// The largest number of squads that go into a whole, of their prime forms. That of the squad is not empty, so that
/// more squads than the whole has tokens do not.
fn how_often(whole: &[u128], squad: &[u128]) -> u128 {
    assert!(squad.iter().any(|&tokens| tokens > 0), "an empty squad goes into every whole without end");
    let mut over = 1;
    while goes_into(&times(squad, over), whole) {
        over *= 2;
    }
    // So many go in, and `over` do not.
    let mut found = over / 2;
    while over - found > 1 {
        let middle = (found + over) / 2;
        if goes_into(&times(squad, middle), whole) { found = middle } else { over = middle }
    }
    found
}

/// Squads: "the largest q such that the whole is the same as q squads joined with some remainder"; it writes "that
/// remainder's prime form to a lent buffer of n counts of 64 bits". It checks 1 to 11, 17 and 12.
pub fn squads(sheet: &[u8], whole: usize, squad: usize, remainder: &mut [u64]) -> Result<u64, Refusal> {
    let normed = accept(sheet)?;
    let card = &normed.card;
    card.check_fields(&[whole, squad])?;
    if card.field(squad).iter().all(|&tokens| tokens == 0) {
        return refused(17, 1);
    }
    if remainder.len() < card.kinds {
        return refused(12, 0);
    }
    let settled = Refinement::first(&normed, Sense::Plain).settle();
    let [whole, squad] = [whole, squad].map(|field| form(settled.base(), card, field));
    let found = how_often(&whole, &squad);
    for (written, (held, taken)) in remainder.iter_mut().zip(whole.iter().zip(times(&squad, found))) {
        *written = (held - taken) as u64;
    }
    Ok(found as u64)
}
