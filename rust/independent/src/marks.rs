//! What is promised of the marks: "for each kind, the first stage, from 1 up, at which its row became the one finally
//! settled", and "a kind that is out has no such mark". They are held against Settle, against each other by the rows,
//! against Compare, which tells at what stages one token of a prime kind parts from the fields of earlier kinds, and
//! against the page.

use std::collections::BTreeMap;
use std::ops::Range;

use crate::asked::{Asked, ask_each, hold};
use crate::calls::{Implementation, verdict_of};
use crate::filer::Verdict;
use crate::norm::NormedCard;
use crate::sense::Sense;
use crate::sheet::read;

/// A promise.
#[derive(Clone, Copy, Debug, PartialEq, Eq, PartialOrd, Ord)]
pub enum Promise {
    /// The settled stage and the table are those of Settle.
    AsSettled,
    /// The mark of a reached kind is a stage from 1 to the settled one; that of a kind that is out is 0.
    Within,
    /// At the settled stage some row is new, or this stage is 1: it is the greatest mark.
    Greatest,
    /// A row of several tokens or of another kind is there from when the last of its kinds became an atom: the mark is the
    /// greatest of theirs.
    OfRow,
    /// A prime kind is an atom from the stage on at which one token of it has parted from every field of earlier kinds.
    Parted,
    /// The page has the marks, each before the word prime or the equals sign, and none for a kind that is out.
    Printed,
}

/// What was tried.
#[derive(Clone, Debug, Default)]
pub struct Tried {
    pub sheets: u64,
    /// Kinds that are reached.
    pub kinds: u64,
    /// Of them, those that have a mark over 1.
    pub later: u64,
    /// Of these, those whose mark is under the settled stage.
    pub between: u64,
    /// Of them, those that are no primes and have a mark over 1.
    pub changed: u64,
    /// Kinds that are out.
    pub out: u64,
    /// Prime kinds of which one token was compared with every field of earlier kinds that has its norm.
    pub parted: u64,
    /// Of them, those that have a mark over 1.
    pub parted_later: u64,
    /// These fields.
    pub fields: u64,
    /// How often each promise was broken.
    pub broken: BTreeMap<Promise, u64>,
}

/// So many prime kinds of a sheet are tried, and so many fields of earlier kinds are compared with one at most.
const MOST_PRIMES: usize = 4;
const MOST_FIELDS: usize = 12;

/// Asks for the marks of the sheets of some numbers of a seed, and looks at what is answered.
pub fn try_marks(seed: u64, numbers: Range<u64>, implementation: Implementation) -> Tried {
    let mut tried = Tried::default();
    ask_each(seed, numbers, implementation, |asked, random| {
        let kinds = asked.normed.card.kinds;
        let (stage, table, marks) = asked.settled_since();
        let rows: Vec<&[u32]> = table.chunks(kinds).collect();
        tried.sheets += 1;
        hold(&mut tried.broken, Promise::AsSettled, asked.settled() == (stage, table.clone()));
        hold(&mut tried.broken, Promise::Greatest, marks.iter().max() == Some(&stage) || is_at_1(asked, stage));
        for kind in 0..kinds {
            tried.try_kind(asked, stage, &rows, &marks, kind);
        }
        hold(
            &mut tried.broken,
            Promise::Printed,
            asked.page().lines().skip(1).take(kinds).eq(printed(asked, &rows, &marks)),
        );
        let primes: Vec<usize> = asked.normed.reached.iter().copied().filter(|&kind| rows[kind][kind] == 1).collect();
        for _ in 0..MOST_PRIMES.min(primes.len()) {
            tried.try_prime(asked, &marks, random.choose(&primes));
        }
    });
    tried
}

/// Whether a sheet reaches no kind, and settles at stage 1.
fn is_at_1(asked: &Asked, stage: u32) -> bool {
    asked.normed.reached.is_empty() && stage == 1
}

/// The lines of the kinds as a page has them.
fn printed<'a>(asked: &'a Asked, rows: &'a [&[u32]], marks: &'a [u32]) -> impl Iterator<Item = String> + 'a {
    (0..rows.len()).map(|kind| {
        let counts: Vec<String> = rows[kind].iter().map(u32::to_string).collect();
        let said = if rows[kind][kind] == 1 { "prime".to_string() } else { format!("= {}", counts.join(" ")) };
        if asked.normed.is_reached(kind) {
            format!("kind {kind} norm {} since {} {said}", asked.normed.norms[kind], marks[kind])
        } else {
            format!("kind {kind} out")
        }
    })
}

/// The fields of some kinds that have a norm, where there are at most so many.
fn fields_of_norm(normed: &NormedCard, kinds: &[usize], norm: u64, most: usize) -> Option<Vec<Vec<u64>>> {
    let Some((&kind, others)) = kinds.split_first() else {
        return Some(if norm == 0 { vec![vec![0; normed.card.kinds]] } else { Vec::new() });
    };
    let mut fields = Vec::new();
    for count in 0..=norm / normed.norms[kind] {
        for mut field in fields_of_norm(normed, others, norm - count * normed.norms[kind], most)? {
            field[kind] = count;
            fields.push(field);
        }
        if fields.len() > most {
            return None;
        }
    }
    Some(fields)
}

impl Tried {
    /// Looks at the mark of a kind, by its row and the marks of others.
    fn try_kind(&mut self, asked: &Asked, stage: u32, rows: &[&[u32]], marks: &[u32], kind: usize) {
        let mark = marks[kind];
        if !asked.normed.is_reached(kind) {
            hold(&mut self.broken, Promise::Within, mark == 0);
            self.out += 1;
            return;
        }
        hold(&mut self.broken, Promise::Within, (1..=stage).contains(&mark));
        let of_row = rows[kind].iter().zip(marks).filter(|&(&count, _)| count > 0).map(|(_, &other)| other).max();
        hold(&mut self.broken, Promise::OfRow, of_row == Some(mark));
        self.kinds += 1;
        self.later += u64::from(mark > 1);
        self.between += u64::from(mark > 1 && mark < stage);
        self.changed += u64::from(mark > 1 && rows[kind][kind] != 1);
    }

    /// Puts one token of a prime kind on the sheet and then each field of earlier kinds that has its norm, and asks for the
    /// verdicts, where there are few such fields and there is room.
    fn try_prime(&mut self, asked: &Asked, marks: &[u32], kind: usize) {
        let (normed, kinds) = (asked.normed, asked.normed.card.kinds);
        let earlier: Vec<usize> = normed.order.iter().copied().take_while(|&other| other != kind).collect();
        let norm = normed.norms[kind];
        // The search goes by the counts of each kind, up to the norm.
        if norm > MOST_FIELDS as u64 {
            return;
        }
        let Some(fields) = fields_of_norm(normed, &earlier, norm, MOST_FIELDS) else { return };
        let token: Vec<u64> = (0..kinds).map(|other| u64::from(other == kind)).collect();
        let Some(with_token) = normed.card.with_field(asked.bytes, &token) else { return };
        let card = read(&with_token).expect("a sheet with a field more");
        let mut last = 1;
        for field in &fields {
            let Some(bytes) = card.with_field(&with_token, field) else { return };
            match verdict_of(asked.implementation, Sense::Plain, &bytes, card.fields - 1, card.fields) {
                Verdict::Different { stage, .. } => last = last.max(stage),
                Verdict::Same => last = u32::MAX,
            }
        }
        hold(&mut self.broken, Promise::Parted, marks[kind] == last);
        self.parted += 1;
        self.parted_later += u64::from(last > 1);
        self.fields += fields.len() as u64;
    }
}
