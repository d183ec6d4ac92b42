//! What is promised of a sheet that uses a part of its card: "Numbers 9 and 10, the order of kinds, the fields that the
//! stages and the settled stage speak of, g and the greatest stage are taken over" the reached kinds alone, "other kinds
//! get a row of zeros", "shelf numbers run over the reached kinds alone", and "a kind that is out has no .. mark". Its
//! answers are held against those of the sheet without the lines of the other kinds, and of the sheet that has the
//! reached kinds alone.

use std::collections::BTreeMap;
use std::ops::Range;

use crate::calls::{Answer, Call, Implementation, calls, make, page_of};
use crate::filer::Verdict;
use crate::generator::{Draft, DraftLine, sample};
use crate::random::Random;
use crate::reached::reached_kinds;
use crate::sheet::{Card, Refusal, read};
use crate::shelf::{MOST_TOKENS, ShelfNumber};

/// A promise.
#[derive(Clone, Copy, Debug, PartialEq, Eq, PartialOrd, Ord)]
pub enum Promise {
    /// What the lines of kinds that are out leave changes no answer.
    Dropped,
    /// The answers are those of the sheet that has the reached kinds alone, and every other count is 0.
    Alone,
    /// A sheet that reaches no kind settles at stage 1, and all its counts are 0.
    Nothing,
}

/// What was tried.
#[derive(Clone, Debug, Default)]
pub struct Tried {
    /// Sheets that pass the checks of header and lines, and have a kind that is out.
    pub sheets: u64,
    /// Of them, those that reach no kind.
    pub nothing: u64,
    /// How often each answer was held against another.
    pub held: BTreeMap<Promise, u64>,
    /// Of them, those that are refused by 9 or 10.
    pub refused: u64,
    /// How often each promise was broken.
    pub broken: BTreeMap<Promise, u64>,
}

/// Makes calls on the part-used sheets of some numbers of a seed, and looks at what is answered.
pub fn try_parts(seed: u64, numbers: Range<u64>, implementation: Implementation) -> Tried {
    let mut tried = Tried::default();
    for number in numbers {
        let bytes = sample(seed, number).bytes;
        let Ok(card) = read(&bytes) else { continue };
        let reached = reached_kinds(&card);
        if reached.len() == card.kinds {
            continue;
        }
        tried.sheets += 1;
        tried.nothing += u64::from(reached.is_empty());
        let asked = Asked { bytes: &bytes, card: &card, reached: &reached, implementation };
        for call in calls(std::slice::from_ref(&bytes), &mut Random::new(seed.rotate_left(32) ^ number)) {
            asked.try_call(&call, &mut tried);
        }
    }
    tried
}

/// The bytes of a card with some of its kinds, which take their place in number order as the numbers, and the lines of some.
pub fn bytes_of(card: &Card, kinds: &[usize], of_lines: &[usize]) -> Vec<u8> {
    let mut draft = Draft::new(kinds.len(), card.codes);
    for line in card.lines.iter().filter(|line| of_lines.contains(&line.kind)) {
        let kind = kinds.iter().position(|&kind| kind == line.kind).expect("one of the kinds");
        let left = kinds.iter().map(|&kind| line.left[kind]).collect();
        draft.lines.push(DraftLine { kind, code: line.code, left });
    }
    for field in 0..card.fields {
        let counts = card.field(field);
        draft.fields.push(kinds.iter().map(|&kind| counts[kind] as u16).collect());
    }
    draft.bytes()
}

/// A call with as much room as a sheet of so many kinds needs; none for one that has no counts to answer.
fn with_room(call: &Call, kinds: usize) -> Option<Call> {
    match *call {
        Call::Settle { .. } => Some(Call::Settle { entries: kinds * kinds }),
        Call::SettleSince { .. } => Some(Call::SettleSince { entries: kinds * kinds, marks: kinds }),
        Call::PrimeForm { sense, field, .. } => Some(Call::PrimeForm { sense, field, entries: kinds }),
        Call::ShelfField { size, number, .. } => Some(Call::ShelfField { size, number, entries: kinds }),
        Call::Squads { whole, squad, .. } => Some(Call::Squads { whole, squad, entries: kinds }),
        Call::Frequencies { field, size, .. } => Some(Call::Frequencies { field, size, entries: kinds + 2 }),
        Call::Compare { .. } | Call::ShelfNumber { .. } => Some(call.clone()),
        Call::Page { .. } | Call::Numbers | Call::RowCheck { .. } | Call::Row { .. } | Call::Day(_) => None,
    }
}

/// An answer with all counts that were written: of one sheet the whole, of another what it should be.
#[derive(Debug, PartialEq, Eq)]
struct Found {
    answer: Answer,
    /// The rows of Settle, else the counts of the form, of the remainder or of the field that was found.
    counts: Vec<Vec<u64>>,
    /// The marks, of Settle with the marks.
    since: Vec<u32>,
    /// The counts of Frequencies, which are of no kinds.
    frequencies: Vec<u32>,
}

/// A part-used sheet, and who is asked.
struct Asked<'a> {
    bytes: &'a [u8],
    card: &'a Card<'a>,
    reached: &'a [usize],
    implementation: Implementation,
}

impl Asked<'_> {
    /// Makes a call on the sheet and on those that it is held against.
    fn try_call(&self, call: &Call, tried: &mut Tried) {
        let all: Vec<usize> = (0..self.card.kinds).collect();
        let dropped = bytes_of(self.card, &all, self.reached);
        let mut hold = |promise, kept: bool| {
            *tried.held.entry(promise).or_default() += 1;
            if !kept {
                *tried.broken.entry(promise).or_default() += 1;
            }
        };
        if let Call::Page { .. } = call {
            let [page, of_dropped] = [self.bytes, &dropped].map(|bytes| page_of(self.implementation, bytes));
            hold(Promise::Dropped, page == of_dropped);
        }
        let Some(asked) = with_room(call, self.card.kinds) else { return };
        let found = self.found(self.bytes, &asked, self.card.kinds);
        hold(Promise::Dropped, found == self.found(&dropped, &asked, self.card.kinds));
        if self.reached.is_empty() {
            hold(Promise::Nothing, found == self.of_nothing(&asked));
        } else {
            hold(Promise::Alone, found == self.of_reached(call));
        }
        tried.refused += u64::from(matches!(found.answer, Answer::Refused(Refusal { number: 9 | 10, .. })));
    }

    /// Makes a call on a sheet of so many kinds.
    fn found(&self, bytes: &[u8], call: &Call, kinds: usize) -> Found {
        let (answer, lent) = make(self.implementation, call, bytes);
        let written: Vec<u64> = match answer {
            Answer::Settled { .. } => lent.table.lent().iter().map(|&count| count.into()).collect(),
            Answer::FormWritten | Answer::Squads { .. } => lent.counts.lent().to_vec(),
            Answer::FieldWritten => lent.field.lent().iter().map(|&count| count.into()).collect(),
            _ => Vec::new(),
        };
        let frequencies =
            if answer == Answer::FrequenciesWritten { lent.frequencies.lent().to_vec() } else { Vec::new() };
        let since = if answer.is_settled() { lent.since.lent().to_vec() } else { Vec::new() };
        Found { answer, counts: written.chunks(kinds).map(<[u64]>::to_vec).collect(), since, frequencies }
    }

    /// Makes a call on the sheet that has the reached kinds alone, and gives the kinds their numbers again. No field
    /// parts at a stage past the number of reached kinds.
    fn of_reached(&self, call: &Call) -> Found {
        let kinds = self.reached.len();
        let bytes = bytes_of(self.card, self.reached, self.reached);
        let call = with_room(call, kinds).expect("a call with room");
        let Found { answer, counts, mut since, mut frequencies } = self.found(&bytes, &call, kinds);
        let answer = match answer {
            Answer::Refused(Refusal { number: number @ (9 | 10), place }) => {
                Answer::Refused(Refusal { number, place: self.reached[place as usize] as u32 })
            }
            other => other,
        };
        let mut rows: Vec<Vec<u64>> = counts.into_iter().map(|row| self.spread(&row, 0)).collect();
        if answer.is_settled() {
            rows = self.spread(&rows, vec![0; self.card.kinds]);
        }
        if !since.is_empty() {
            since = self.spread(&since, 0);
        }
        if answer == Answer::FrequenciesWritten {
            frequencies.resize(self.card.kinds + 2, 0);
        }
        Found { answer, counts: rows, since, frequencies }
    }

    /// What the reached kinds have, in number order, and for any other kind something else.
    fn spread<T: Clone>(&self, of_reached: &[T], of_others: T) -> Vec<T> {
        let mut all = vec![of_others; self.card.kinds];
        for (&kind, of_kind) in self.reached.iter().zip(of_reached) {
            all[kind] = of_kind.clone();
        }
        all
    }

    /// What a sheet that reaches no kind answers: there is one field, the empty one.
    fn of_nothing(&self, call: &Call) -> Found {
        let refused = |number, place| Answer::Refused(Refusal { number, place });
        let over = |field: usize| field >= self.card.fields;
        let answer = match *call {
            Call::Compare { first, .. } | Call::Squads { whole: first, .. } if over(first) => refused(11, 0),
            Call::Compare { second, .. } | Call::Squads { squad: second, .. } if over(second) => refused(11, 1),
            Call::PrimeForm { field, .. } | Call::ShelfNumber { field } | Call::Frequencies { field, .. }
                if over(field) =>
            {
                refused(11, 0)
            }
            Call::Settle { .. } | Call::SettleSince { .. } => Answer::Settled { stage: 1 },
            Call::Compare { .. } => Answer::Verdict(Verdict::Same),
            Call::PrimeForm { .. } => Answer::FormWritten,
            Call::ShelfNumber { .. } => Answer::ShelfNumber(ShelfNumber { size: 0, number: 0 }),
            Call::ShelfField { size: 0, number: 0, .. } => Answer::FieldWritten,
            Call::ShelfField { size, .. } | Call::Frequencies { size, .. } if size > MOST_TOKENS as usize => {
                refused(14, 0)
            }
            Call::ShelfField { .. } => refused(15, 0),
            Call::Squads { .. } => refused(17, 1),
            Call::Frequencies { .. } => Answer::FrequenciesWritten,
            _ => panic!("{call:?} has no counts to answer"),
        };
        let rows = match answer {
            Answer::Settled { .. } => self.card.kinds,
            Answer::FormWritten | Answer::FieldWritten => 1,
            _ => 0,
        };
        let mut frequencies = Vec::new();
        if let (Answer::FrequenciesWritten, Call::Frequencies { size, .. }) = (&answer, call) {
            frequencies.resize(self.card.kinds + 2, 0);
            frequencies[0] = u32::from(*size == 0);
        }
        let marks = if let Call::SettleSince { marks, .. } = *call { marks } else { 0 };
        Found { answer, counts: vec![vec![0; self.card.kinds]; rows], since: vec![0; marks], frequencies }
    }
}
