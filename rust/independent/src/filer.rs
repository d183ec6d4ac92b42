//! "What the filer offers": Settle, alone and with the marks, Row, Compare, Prime form, and the last two in the finer
//! sense as well.

use crate::base::{Base, Refinement};
use crate::norm::{NormedCard, accept};
use crate::sense::Sense;
use crate::sheet::{MOST_KINDS, Refusal, refused};
use crate::shelf::tokens_of;

/// "A verdict is same, or different with its stage and its rounds."
#[derive(Clone, Copy, Debug, PartialEq, Eq)]
pub enum Verdict {
    Same,
    Different { stage: u32, rounds: u64 },
}

/// Settle: "writes the final base to a lent table of 32-bit counts, row by row in kind number, n × n
/// of them, and reports the settled stage".
pub fn settle(sheet: &[u8], table: &mut [u32]) -> Result<u32, Refusal> {
    let normed = accept(sheet)?;
    let kinds = normed.card.kinds;
    if table.len() < kinds * kinds {
        return refused(12, 0);
    }
    let settled = Refinement::first(&normed, Sense::Plain).settle();
    write_table(settled.base(), kinds, table);
    Ok(settled.stage())
}

/// Settle with the marks: writes what Settle writes, and to a second lent buffer of 32-bit numbers, "for each kind, the
/// first stage, from 1 up, at which its row became the one finally settled", in kind number, n of them; 0 for a kind
/// that is out. It reports the settled stage, and checks 1 to 10 and 12.
pub fn settle_since(sheet: &[u8], table: &mut [u32], since: &mut [u32]) -> Result<u32, Refusal> {
    let normed = accept(sheet)?;
    let kinds = normed.card.kinds;
    if table.len() < kinds * kinds || since.len() < kinds {
        return refused(12, 0);
    }
    let settled = Refinement::first(&normed, Sense::Plain).settle();
    write_table(settled.base(), kinds, table);
    for (kind, mark) in since[..kinds].iter_mut().enumerate() {
        *mark = settled.base().since(kind);
    }
    Ok(settled.stage())
}

/// Writes the rows of so many kinds.
fn write_table(base: &Base, kinds: usize, table: &mut [u32]) {
    for kind in 0..kinds {
        for (entry, &count) in table[kind * kinds..].iter_mut().zip(base.row(kind)) {
            *entry = count as u32;
        }
    }
}

/// Row's check: "Row checks 2, 11, 12 only".
pub fn row_check(table: &[u32], kinds: usize, kind: usize) -> Result<(), Refusal> {
    if !(1..=MOST_KINDS).contains(&kinds) {
        return refused(2, 0);
    }
    if kind >= kinds {
        return refused(11, 0);
    }
    if table.len() < kinds * kinds {
        return refused(12, 0);
    }
    Ok(())
}

/// Row: "handed out as that part of the lent table; a refusal hands out an empty part".
pub fn row(table: &[u32], kinds: usize, kind: usize) -> &[u32] {
    match row_check(table, kinds, kind) {
        Ok(()) => &table[kind * kinds..(kind + 1) * kinds],
        Err(_) => &[],
    }
}

/// Compare: the verdict on two fields, in a sense.
pub fn compare(sense: Sense, sheet: &[u8], first: usize, second: usize) -> Result<Verdict, Refusal> {
    let normed = accept(sheet)?;
    normed.card.check_fields(&[first, second])?;
    let pair = [normed.card.field(first), normed.card.field(second)];
    if !related_at_start(&normed, sense, &pair) {
        return Ok(different(&normed, &pair, 0));
    }
    let mut refinement = Refinement::first(&normed, sense);
    loop {
        if !related(refinement.base(), &pair) {
            return Ok(different(&normed, &pair, refinement.stage()));
        }
        if refinement.is_settled() {
            return Ok(Verdict::Same);
        }
        refinement.refine();
    }
}

/// Whether stage 0 relates two fields.
pub fn related_at_start(normed: &NormedCard, sense: Sense, pair: &[Vec<u64>; 2]) -> bool {
    normed.norm(&pair[0]) == normed.norm(&pair[1]) && sense.allows(tokens_of(&pair[0]), tokens_of(&pair[1]))
}

/// Whether the stage of a base relates two fields.
pub fn related(base: &Base, pair: &[Vec<u64>; 2]) -> bool {
    base.form(pair[0].iter().copied()) == base.form(pair[1].iter().copied())
}

/// The verdict on two fields where a stage is the least that does not relate them: rounds is N + 1 at
/// stage 0 and N + 1 + (s - 1)(g + 1) at stage s, where N is the smaller of the two norms.
pub fn different(normed: &NormedCard, pair: &[Vec<u64>; 2], stage: u32) -> Verdict {
    let norm = normed.norm(&pair[0]).min(normed.norm(&pair[1]));
    let later_stages = u64::from(stage).saturating_sub(1);
    Verdict::Different { stage, rounds: norm + 1 + later_stages * (normed.gain() + 1) }
}

/// The bases of the stages from 1 to the settled one, in the plain sense.
pub fn bases(normed: &NormedCard) -> Vec<Base> {
    let mut refinement = Refinement::first(normed, Sense::Plain);
    let mut bases = vec![refinement.base().clone()];
    while !refinement.is_settled() {
        refinement.refine();
        bases.push(refinement.base().clone());
    }
    bases
}

/// The least stage that does not relate two fields, from the bases of all stages; none where they are the same.
pub fn parting_stage(normed: &NormedCard, bases: &[Base], pair: &[Vec<u64>; 2]) -> Option<u32> {
    if !related_at_start(normed, Sense::Plain, pair) {
        return Some(0);
    }
    bases.iter().position(|base| !related(base, pair)).map(|index| index as u32 + 1)
}

/// Prime form: "n counts of 64 bits to a lent buffer", in a sense.
pub fn prime_form(sense: Sense, sheet: &[u8], field: usize, counts: &mut [u64]) -> Result<(), Refusal> {
    let normed = accept(sheet)?;
    normed.card.check_fields(&[field])?;
    if counts.len() < normed.card.kinds {
        return refused(12, 0);
    }
    let settled = Refinement::first(&normed, sense).settle();
    let form = settled.base().form(normed.card.field(field).into_iter());
    for (written, count) in counts.iter_mut().zip(&form[..normed.card.kinds]) {
        *written = *count as u64;
    }
    Ok(())
}
