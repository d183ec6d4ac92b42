//! "The norm of a field is the fewest reads to the empty field."
//!
//! Only the kinds that are reached "must have norms", and their order and g "are taken over these alone". Lines of
//! reached kinds leave reached kinds, so that what is said of them needs no other line.

use crate::reached::reached_kinds;
use crate::sheet::{Card, Refusal, read, refused};

/// "The greatest norm taken", which document 02 raises to 1,000,000,000.
pub const NORM_LIMIT: u64 = 1_000_000_000;

/// A card whose reached kinds all have a norm within the limit.
#[derive(Clone, Debug)]
pub struct NormedCard<'a> {
    /// The card with the lines of its reached kinds alone.
    pub card: Card<'a>,
    /// The kinds that are reached, in number order.
    pub reached: Vec<usize>,
    /// The norm of each kind that is reached; 0 for one that is out.
    pub norms: Vec<u64>,
    /// The kinds that are reached: "kinds are ordered by norm, then by number".
    pub order: Vec<usize>,
    /// For each line, the norm of what it leaves.
    pub left_norms: Vec<u64>,
}

impl NormedCard<'_> {
    /// Whether a kind is reached.
    pub fn is_reached(&self, kind: usize) -> bool {
        self.reached.contains(&kind)
    }

    /// The norm of a field of reached kinds.
    pub fn norm(&self, counts: &[u64]) -> u64 {
        counts.iter().zip(&self.norms).map(|(count, norm)| count * norm).sum()
    }

    /// Whether a line lowers the norm of the field that uses it.
    pub fn lowers(&self, line: usize) -> bool {
        self.left_norms[line] < self.norms[self.card.lines[line].kind]
    }

    /// "g is the greatest of 0 and, over all lines, the norm left minus the kind's norm."
    pub fn gain(&self) -> u64 {
        let gains = self.card.lines.iter().zip(&self.left_norms);
        gains.map(|(line, left)| left.saturating_sub(self.norms[line.kind])).max().unwrap_or(0)
    }
}

/// The card that the bytes hold with its norms, or the first of refusals 1 to 10 that applies.
pub fn accept(bytes: &[u8]) -> Result<NormedCard<'_>, Refusal> {
    let mut card = read(bytes)?;
    let reached = reached_kinds(&card);
    card.lines.retain(|line| reached.contains(&line.kind));
    let norms = kind_norms(&card);
    if let Some(&kind) = reached.iter().find(|&&kind| norms[kind].is_none()) {
        return refused(9, kind);
    }
    // A kind that is out has no line left, and so no norm.
    let norms: Vec<u64> = norms.into_iter().map(|norm| norm.unwrap_or(0)).collect();
    if let Some(&kind) = reached.iter().find(|&&kind| norms[kind] > NORM_LIMIT) {
        return refused(10, kind);
    }
    let mut order = reached.clone();
    order.sort_by_key(|&kind| (norms[kind], kind));
    let left_norms = card
        .lines
        .iter()
        .map(|line| line.left.iter().zip(&norms).map(|(&count, norm)| u64::from(count) * norm).sum())
        .collect();
    Ok(NormedCard { card, reached, norms, order, left_norms })
}

/// The norm of each kind, cut one past the limit; none where a kind cannot be cleared.
///
/// The least norm not yet known is found first, as in Dijkstra's and Knuth's algorithm: the reads
/// that a line takes are more than those of any kind that it leaves.
pub fn kind_norms(card: &Card) -> Vec<Option<u64>> {
    let mut norms: Vec<Option<u64>> = vec![None; card.kinds];
    // For each line: how many of the kinds that it leaves have no norm yet, and the reads of the others.
    let mut waits: Vec<usize> =
        card.lines.iter().map(|line| line.left.iter().filter(|&&count| count > 0).count()).collect();
    let mut reads: Vec<u64> = vec![1; card.lines.len()];
    loop {
        let ready = (0..card.lines.len()).filter(|&line| waits[line] == 0 && norms[card.lines[line].kind].is_none());
        let Some(least) = ready.min_by_key(|&line| reads[line]) else {
            return norms;
        };
        let (kind, norm) = (card.lines[least].kind, reads[least]);
        norms[kind] = Some(norm);
        for (line, leaves) in card.lines.iter().enumerate() {
            let count = u64::from(leaves.left[kind]);
            if count > 0 {
                waits[line] -= 1;
                reads[line] = (reads[line] + count * norm).min(NORM_LIMIT + 1);
            }
        }
    }
}
