//! What is promised of the finer Compare and Prime form: "two fields are alike exactly when they are bisimilar by a relation
//! whose every pair also has equal token totals", and "finer same always implies same". The answers in the finer sense are
//! held against each other, against those in the plain sense, and against the totals.

use std::collections::BTreeMap;
use std::ops::Range;

use crate::asked::{Asked, ask_each, hold};
use crate::calls::Implementation;
use crate::filer::Verdict;
use crate::sense::Sense;
use crate::shelf::tokens_of;

/// A promise.
#[derive(Clone, Copy, Debug, PartialEq, Eq, PartialOrd, Ord)]
pub enum Promise {
    /// Fields that are finer same are the same; those that differ in both senses are not parted later in the finer, and
    /// within as many rounds where the stages are equal.
    ImpliesSame,
    /// Fields that are finer same have equal totals; those of unequal totals are different at stage 0.
    Totals,
    /// Two fields have equal finer prime forms just when they are finer same.
    Forms,
    /// A finer prime form has the total of its field. It is a field that is finer same, and its own prime form.
    OwnForm,
    /// The finer row of a kind is one token: of itself, or of an earlier kind of its norm that is a row of itself.
    OneToken,
}

/// What was tried.
#[derive(Clone, Debug, Default)]
pub struct Tried {
    pub sheets: u64,
    /// Pairs of fields.
    pub pairs: u64,
    /// Of them, those that are finer same and have other counts.
    pub finer_same: u64,
    /// Pairs that are the same and have unequal totals.
    pub unequal_totals: u64,
    /// Pairs that are the same and have equal totals, and are parted at stage 1 or a later one in the finer sense.
    pub later: u64,
    /// Prime forms that were put on the sheet and compared with their field.
    pub forms: u64,
    /// Of them, those that are not the counts of the field.
    pub of_other_counts: u64,
    /// Kinds of which one token was put on the sheet, and its prime form asked for.
    pub rows: u64,
    /// Of them, those whose row is one token of an earlier kind.
    pub of_earlier: u64,
    /// Of them, those that have a row of themselves, and are no primes in the plain sense.
    pub products: u64,
    /// How often each promise was broken.
    pub broken: BTreeMap<Promise, u64>,
}

/// Asks some questions on the sheets of some numbers of a seed, and looks at what is answered.
pub fn try_finer(seed: u64, numbers: Range<u64>, implementation: Implementation) -> Tried {
    let mut tried = Tried::default();
    ask_each(seed, numbers, implementation, |asked, random| {
        let (fields, reached) = (asked.normed.card.fields, &asked.normed.reached);
        tried.sheets += 1;
        for _ in 0..4 * usize::from(fields > 0) {
            let first = random.below(fields);
            tried.try_pair(asked, first, random.below(fields));
            tried.try_pair(asked, first, (first + 1) % fields);
            tried.try_form(asked, first);
        }
        for _ in 0..2 * usize::from(!reached.is_empty()) {
            tried.try_row(asked, random.choose(reached));
        }
    });
    tried
}

impl Tried {
    /// Asks for the verdicts on two fields, and for their finer prime forms.
    fn try_pair(&mut self, asked: &Asked, first: usize, second: usize) {
        let [plain, finer] = Sense::BOTH.map(|sense| asked.verdict(sense, asked.bytes, first, second));
        let counts = [first, second].map(|field| asked.normed.card.field(field));
        let forms = [first, second].map(|field| asked.form(Sense::Finer, asked.bytes, field));
        let equal_totals = tokens_of(&counts[0]) == tokens_of(&counts[1]);
        hold(
            &mut self.broken,
            Promise::ImpliesSame,
            match (plain, finer) {
                (Verdict::Same, _) => true,
                (Verdict::Different { .. }, Verdict::Same) => false,
                (
                    Verdict::Different { stage, rounds },
                    Verdict::Different { stage: finer_stage, rounds: finer_rounds },
                ) => finer_stage < stage || (finer_stage, finer_rounds) == (stage, rounds),
            },
        );
        hold(&mut self.broken, Promise::Totals, equal_totals || matches!(finer, Verdict::Different { stage: 0, .. }));
        hold(&mut self.broken, Promise::Forms, (forms[0] == forms[1]) == (finer == Verdict::Same));
        self.pairs += 1;
        self.finer_same += u64::from(finer == Verdict::Same && counts[0] != counts[1]);
        self.unequal_totals += u64::from(plain == Verdict::Same && !equal_totals);
        self.later +=
            u64::from(plain == Verdict::Same && matches!(finer, Verdict::Different { stage, .. } if stage > 0));
    }

    /// Asks for the finer prime form of a field, and for the verdict on the two.
    fn try_form(&mut self, asked: &Asked, field: usize) {
        let (card, counts) = (&asked.normed.card, asked.normed.card.field(field));
        let form = asked.form(Sense::Finer, asked.bytes, field);
        hold(&mut self.broken, Promise::OwnForm, tokens_of(&form) == tokens_of(&counts));
        if let Some(bytes) = card.with_field(asked.bytes, &form) {
            hold(
                &mut self.broken,
                Promise::OwnForm,
                asked.verdict(Sense::Finer, &bytes, field, card.fields) == Verdict::Same,
            );
            hold(&mut self.broken, Promise::OwnForm, asked.form(Sense::Finer, &bytes, card.fields) == form);
            self.forms += 1;
            self.of_other_counts += u64::from(form != counts);
        }
    }

    /// Asks for the finer prime form of one token of a kind, and of the token that it is.
    fn try_row(&mut self, asked: &Asked, kind: usize) {
        let (kinds, fields, norms) = (asked.normed.card.kinds, asked.normed.card.fields, &asked.normed.norms);
        let token = |kind: usize| -> Vec<u64> { (0..kinds).map(|other| u64::from(other == kind)).collect() };
        let Some(bytes) = asked.normed.card.with_field(asked.bytes, &token(kind)) else { return };
        let row = asked.form(Sense::Finer, &bytes, fields);
        let held = row.iter().position(|&count| count > 0);
        let is_one_token = held.is_some_and(|held| {
            let own = asked.normed.card.with_field(asked.bytes, &token(held)).expect("room for a field");
            row == token(held)
                && norms[held] == norms[kind]
                && held <= kind
                && asked.form(Sense::Finer, &own, fields) == row
        });
        hold(&mut self.broken, Promise::OneToken, is_one_token);
        self.rows += 1;
        self.of_earlier += u64::from(held != Some(kind));
        self.products += u64::from(held == Some(kind) && asked.form(Sense::Plain, &bytes, fields) != row);
    }
}
