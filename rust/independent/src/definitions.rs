//! The reached kinds, norms, stages, rows, their marks, primes, the settled stage, squads, how common each answer is, the round game,
//! bisimilar fields, the walk and the list of the fields of a size straight from their definitions, by search, in the plain
//! and the finer sense where there are two. Only for small cards: nothing here is meant to be fast, and nothing here uses
//! `reached`, `base`, `filer`, `walker`, `shelf`, `squads` or `frequencies`.

use std::cmp::Ordering;
use std::collections::{BTreeSet, HashMap};

use crate::filer::Verdict;
use crate::sense::Sense;
use crate::sheet::Card;
use crate::walker::{Answer, Walked};

/// "A field is any count of each kind, of no fixed width."
pub type Field = Vec<u64>;

/// A search took more work than was allowed to it.
#[derive(Clone, Copy, Debug, PartialEq, Eq)]
pub struct TooLarge;

/// What uses of lines a kind of expansion considers.
#[derive(Clone, Copy, PartialEq, Eq)]
enum Reads {
    All,
    /// "Norm-reducing expansion considers only reads that lower the norm, for challenge and reply alike."
    NormReducing,
}

/// A card with what has been found about it so far, in a sense.
pub struct Definitions<'a> {
    card: &'a Card<'a>,
    sense: Sense,
    /// The kinds that are reached, in number order.
    reached: Vec<usize>,
    norms: Vec<u64>,
    order: Vec<usize>,
    stages: HashMap<(u32, Field, Field), bool>,
    rounds: HashMap<(u64, Field, Field), bool>,
    /// How many more pairs may be looked at.
    work_left: u64,
}

/// The field that is left where a field uses a line; none where it has no token for it.
pub fn use_line(card: &Card, field: &Field, line: usize) -> Option<Field> {
    let used = &card.lines[line];
    let mut left = field.clone();
    left[used.kind] = left[used.kind].checked_sub(1)?;
    for (count, &more) in left.iter_mut().zip(used.left) {
        *count += u64::from(more);
    }
    Some(left)
}

/// Whether some reads, at most `reads` of them, lead from a field to the empty one. A read takes away
/// one token, so a field of more tokens than reads is not cleared.
pub fn clears(card: &Card, field: &Field, reads: u64) -> bool {
    let tokens: u64 = field.iter().sum();
    tokens == 0
        || tokens <= reads
            && (0..card.lines.len())
                .any(|line| use_line(card, field, line).is_some_and(|left| clears(card, &left, reads - 1)))
}

/// The norm of a field, if it is at most `most`: "the fewest reads to the empty field".
pub fn fewest_reads(card: &Card, field: &Field, most: u64) -> Option<u64> {
    (0..=most).find(|&reads| clears(card, field, reads))
}

/// The field of one token of a kind.
pub fn one_token(card: &Card, kind: usize) -> Field {
    (0..card.kinds).map(|other| u64::from(other == kind)).collect()
}

/// Whether a field, or one that some reads, at most `reads` of them, leave of it, holds a token of a kind.
fn comes_to_hold(card: &Card, field: &Field, kind: usize, reads: usize) -> bool {
    field[kind] > 0
        || reads > 0
            && (0..card.lines.len())
                .any(|line| use_line(card, field, line).is_some_and(|left| comes_to_hold(card, &left, kind, reads - 1)))
}

/// Whether a kind is reached: "that some field of the sheet holds, or that a line can leave starting from those". Each
/// read on the way brings a kind that was not there before, so that no more reads are needed than there are other kinds.
pub fn is_reached(card: &Card, kind: usize) -> bool {
    (0..card.fields).any(|field| comes_to_hold(card, &card.field(field), kind, card.kinds - 1))
}

impl<'a> Definitions<'a> {
    /// A card whose reached kinds all have norms of at most `most`; none for another.
    pub fn new(card: &'a Card<'a>, sense: Sense, most: u64, work: u64) -> Option<Definitions<'a>> {
        let reached: Vec<usize> = (0..card.kinds).filter(|&kind| is_reached(card, kind)).collect();
        let mut norms = vec![0; card.kinds];
        for &kind in &reached {
            norms[kind] = fewest_reads(card, &one_token(card, kind), most)?;
        }
        let mut order = reached.clone();
        order.sort_by_key(|&kind| (norms[kind], kind));
        let (stages, rounds) = (HashMap::new(), HashMap::new());
        Some(Definitions { card, sense, reached, norms, order, stages, rounds, work_left: work })
    }

    /// The kinds that are reached, in number order.
    pub fn reached(&self) -> &[usize] {
        &self.reached
    }

    /// The norm of each kind that is reached; 0 for one that is out.
    pub fn norms(&self) -> &[u64] {
        &self.norms
    }

    /// "The norm of its first kind's tokens plus the norm of the rest."
    pub fn norm(&self, field: &Field) -> u64 {
        field.iter().zip(&self.norms).map(|(count, norm)| count * norm).sum()
    }

    /// "g is the greatest of 0 and, over all lines, the norm left minus the kind's norm": over those of reached kinds.
    pub fn gain(&self) -> u64 {
        let left = |line: usize| self.norm(&self.card.lines[line].left.iter().map(|&count| u64::from(count)).collect());
        (0..self.card.lines.len())
            .filter(|&line| self.reached.contains(&self.card.lines[line].kind))
            .map(|line| left(line).saturating_sub(self.norms[self.card.lines[line].kind]))
            .max()
            .unwrap_or(0)
    }

    /// One pair more has been looked at.
    fn look(&mut self) -> Result<(), TooLarge> {
        self.work_left = self.work_left.checked_sub(1).ok_or(TooLarge)?;
        Ok(())
    }

    /// Whether a stage relates two fields.
    pub fn stage(&mut self, stage: u32, first: &Field, second: &Field) -> Result<bool, TooLarge> {
        if stage == 0 {
            return Ok(self.norm(first) == self.norm(second) && may_be_related(self.sense, first, second));
        }
        let key = (stage, first.clone(), second.clone());
        if let Some(&known) = self.stages.get(&key) {
            return Ok(known);
        }
        self.look()?;
        let related = self.stage(stage - 1, first, second)?
            && (stage == 1 || self.expands(Reads::All, stage - 1, first, second)?)
            && self.expands(Reads::NormReducing, stage, first, second)?;
        self.stages.insert(key, related);
        Ok(related)
    }

    /// Whether two fields satisfy expansion in a stage.
    pub fn satisfies_expansion(&mut self, stage: u32, first: &Field, second: &Field) -> Result<bool, TooLarge> {
        self.expands(Reads::All, stage, first, second)
    }

    /// "Each read of either side has a read of the same code on the other and the results are related."
    fn expands(&mut self, reads: Reads, stage: u32, first: &Field, second: &Field) -> Result<bool, TooLarge> {
        let (of_first, of_second) = (self.reads(reads, first), self.reads(reads, second));
        for (code, left) in &of_first {
            let mut met = false;
            for (_, other) in of_second.iter().filter(|(other_code, _)| other_code == code) {
                met = met || self.stage(stage, left, other)?;
            }
            if !met {
                return Ok(false);
            }
        }
        for (code, other) in &of_second {
            let mut met = false;
            for (_, left) in of_first.iter().filter(|(other_code, _)| other_code == code) {
                met = met || self.stage(stage, left, other)?;
            }
            if !met {
                return Ok(false);
            }
        }
        Ok(true)
    }

    /// The reads of a field, each with its code and the field that it leaves.
    fn reads(&self, reads: Reads, field: &Field) -> Vec<(usize, Field)> {
        (0..self.card.lines.len())
            .filter_map(|line| Some((self.card.lines[line].code, use_line(self.card, field, line)?)))
            .filter(|(_, left)| reads == Reads::All || self.norm(left) < self.norm(field))
            .collect()
    }

    /// "A base at a stage gives each kind the counts of earlier atoms that the stage relates to it; where
    /// there are none it gives the kind itself, an atom." All such counts are searched for. Kinds that are not reached
    /// "get a row of zeros".
    pub fn base(&mut self, stage: u32) -> Result<Vec<Field>, TooLarge> {
        let mut rows = vec![vec![0; self.card.kinds]; self.card.kinds];
        let mut atoms: Vec<usize> = Vec::new();
        for kind in self.order.clone() {
            let found = self.related_fields(stage, kind, &atoms)?;
            assert!(found.len() <= 1, "at most one product of atoms is related to a kind");
            rows[kind] = match found.into_iter().next() {
                Some(row) => row,
                None => {
                    atoms.push(kind);
                    one_token(self.card, kind)
                }
            };
        }
        Ok(rows)
    }

    /// The fields of some kinds that a stage relates to one token of another.
    fn related_fields(&mut self, stage: u32, kind: usize, kinds: &[usize]) -> Result<Vec<Field>, TooLarge> {
        let token = one_token(self.card, kind);
        let mut found = Vec::new();
        for field in self.fields_of_norm(self.norms[kind], kinds) {
            if self.stage(stage, &token, &field)? {
                found.push(field);
            }
        }
        Ok(found)
    }

    /// All fields of some kinds that have a norm.
    fn fields_of_norm(&self, norm: u64, kinds: &[usize]) -> Vec<Field> {
        let Some((&kind, others)) = kinds.split_first() else {
            return if norm == 0 { vec![vec![0; self.card.kinds]] } else { Vec::new() };
        };
        let mut fields = Vec::new();
        for count in 0..=norm / self.norms[kind] {
            for mut field in self.fields_of_norm(norm - count * self.norms[kind], others) {
                field[kind] = count;
                fields.push(field);
            }
        }
        fields
    }

    /// "The settled stage is the least s from 1 up in which every related pair satisfies expansion."
    /// The pairs tried are each reached kind's with its row; that these are enough is document 000's Lemma 3.
    pub fn settled_stage(&mut self) -> Result<u32, TooLarge> {
        for stage in 1.. {
            let rows = self.base(stage)?;
            let mut settled = true;
            for kind in self.reached.clone() {
                settled = settled && self.satisfies_expansion(stage, &one_token(self.card, kind), &rows[kind])?;
            }
            if settled {
                return Ok(stage);
            }
        }
        unreachable!("the stages do not end")
    }

    /// "For each kind, the first stage, from 1 up, at which its row became the one" that it is at a stage, the settled one
    /// where this is asked of it: the rows of all stages up to it are found, and looked through from stage 1 on. "A kind
    /// that is out has no such mark", and 0 stands for it.
    pub fn marks(&mut self, stage: u32) -> Result<Vec<u32>, TooLarge> {
        let bases = (1..=stage).map(|stage| self.base(stage)).collect::<Result<Vec<_>, _>>()?;
        let last = bases.last().expect("a stage from 1 up");
        let first_like_last = |kind: usize| bases.iter().position(|rows| rows[kind] == last[kind]).expect("the last");
        let mark = |kind| if self.reached.contains(&kind) { first_like_last(kind) as u32 + 1 } else { 0 };
        Ok((0..self.card.kinds).map(mark).collect())
    }

    /// "A kind is prime if no field of earlier kinds is bisimilar to it": the settled stage is bisimilarity. The kind is
    /// one that is reached.
    pub fn is_prime(&mut self, settled: u32, kind: usize) -> Result<bool, TooLarge> {
        let earlier: Vec<usize> = self.order.iter().copied().take_while(|&other| other != kind).collect();
        Ok(self.related_fields(settled, kind, &earlier)?.is_empty())
    }

    /// The verdict on two fields: "the stage is the least that does not relate the pair".
    pub fn verdict(&mut self, settled: u32, first: &Field, second: &Field) -> Result<Verdict, TooLarge> {
        for stage in 0..=settled {
            if !self.stage(stage, first, second)? {
                let norm = self.norm(first).min(self.norm(second));
                let rounds = norm + 1 + u64::from(stage.max(1) - 1) * (self.gain() + 1);
                return Ok(Verdict::Different { stage, rounds });
            }
        }
        Ok(Verdict::Same)
    }

    /// "The largest q such that the whole is the same as q squads joined with some remainder", and all such
    /// remainders. Fields that are the same have equal norms, so that no more squads are tried than the whole's norm
    /// has room for, and of remainders those of the norm that is left.
    pub fn squads(&mut self, settled: u32, whole: &Field, squad: &Field) -> Result<(u64, Vec<Field>), TooLarge> {
        let (norm, taken) = (self.norm(whole), self.norm(squad));
        let kinds = self.reached.clone();
        for times in (0..=norm / taken).rev() {
            let mut remainders = Vec::new();
            for remainder in self.fields_of_norm(norm - times * taken, &kinds) {
                let joined = squad.iter().zip(&remainder).map(|(tokens, more)| times * tokens + more).collect();
                if self.stage(settled, whole, &joined)? {
                    remainders.push(remainder);
                }
            }
            if !remainders.is_empty() {
                return Ok((times, remainders));
            }
        }
        unreachable!("no squads, and the whole itself as the remainder")
    }

    /// "How many of the fields of t tokens are the same as it and how many part from it at each stage from 0 to n": the
    /// verdict on each of them, one after another.
    pub fn frequencies(&mut self, settled: u32, field: &Field, tokens: u64) -> Result<Vec<u32>, TooLarge> {
        let mut counts = vec![0; self.card.kinds + 2];
        for listed in shelf_of(self.card, tokens) {
            let place = match self.verdict(settled, field, &listed)? {
                Verdict::Same => 0,
                Verdict::Different { stage, .. } => 1 + stage as usize,
            };
            counts[place] += 1;
        }
        Ok(counts)
    }

    /// "A pair holds at 0 rounds. It holds at r + 1 rounds just when every challenge has a reply that
    /// leaves a pair which holds at r." In the finer sense "a challenger also wins as soon as the totals differ, at the
    /// start included".
    pub fn holds(&mut self, rounds: u64, first: &Field, second: &Field) -> Result<bool, TooLarge> {
        if !may_be_related(self.sense, first, second) {
            return Ok(false);
        }
        if rounds == 0 {
            return Ok(true);
        }
        let key = (rounds, first.clone(), second.clone());
        if let Some(&known) = self.rounds.get(&key) {
            return Ok(known);
        }
        self.look()?;
        let held = self.every_challenge_has_reply(rounds - 1, first, second)?;
        self.rounds.insert(key, held);
        Ok(held)
    }

    fn every_challenge_has_reply(&mut self, rounds: u64, first: &Field, second: &Field) -> Result<bool, TooLarge> {
        let (of_first, of_second) = (self.reads(Reads::All, first), self.reads(Reads::All, second));
        let codes = of_first.iter().map(|(code, left)| (true, code, left));
        for (by_first, code, left) in codes.chain(of_second.iter().map(|(code, left)| (false, code, left))) {
            let replies = if by_first { &of_second } else { &of_first };
            let mut met = false;
            for (_, reply) in replies.iter().filter(|(other_code, _)| other_code == code) {
                met = met || if by_first { self.holds(rounds, left, reply)? } else { self.holds(rounds, reply, left)? };
            }
            if !met {
                return Ok(false);
            }
        }
        Ok(true)
    }
}

/// Whether the totals of two fields are such that a sense may relate them: any, or "equal token totals".
fn may_be_related(sense: Sense, first: &Field, second: &Field) -> bool {
    match sense {
        Sense::Plain => true,
        Sense::Finer => first.iter().sum::<u64>() == second.iter().sum::<u64>(),
    }
}

/// The fields that reads lead to from some, these first, where there are at most `most`.
fn led_to(card: &Card, fields: &[Field], most: usize) -> Result<Vec<Field>, TooLarge> {
    let mut found = fields.to_vec();
    let mut place = 0;
    while place < found.len() {
        if found.len() > most {
            return Err(TooLarge);
        }
        for line in 0..card.lines.len() {
            found.extend(use_line(card, &found[place], line).filter(|left| !found.contains(left)));
        }
        place += 1;
    }
    Ok(found)
}

/// For each of some fields the number of its class: equal for two of them just when they are bisimilar, in the finer sense
/// "by a relation whose every pair also has equal token totals". Of all fields that reads lead to, at most `most`, those
/// that a sense may relate start in one class, and a class is divided as long as two fields of it can not do the same
/// reads to the same classes.
pub fn classes(card: &Card, sense: Sense, fields: &[Field], most: usize) -> Result<Vec<usize>, TooLarge> {
    let all = led_to(card, fields, most)?;
    let place = |wanted: &Field| all.iter().position(|field| field == wanted).expect("a field that reads lead to");
    let reads: Vec<Vec<(usize, usize)>> = all
        .iter()
        .map(|field| {
            let used = (0..card.lines.len()).filter_map(|line| Some((line, use_line(card, field, line)?)));
            used.map(|(line, left)| (card.lines[line].code, place(&left))).collect()
        })
        .collect();
    let first_related = |field| all.iter().position(|other| may_be_related(sense, other, field)).expect("itself");
    let mut classes: Vec<usize> = all.iter().map(first_related).collect();
    loop {
        let seen: Vec<(usize, BTreeSet<(usize, usize)>)> = (0..all.len())
            .map(|field| (classes[field], reads[field].iter().map(|&(code, left)| (code, classes[left])).collect()))
            .collect();
        let divided: Vec<usize> =
            seen.iter().map(|own| seen.iter().position(|other| other == own).expect("itself")).collect();
        if divided == classes {
            classes.truncate(fields.len());
            return Ok(classes);
        }
        classes = divided;
    }
}

/// Whether a pair holds at some rounds, and the pairs examined: "lines of the first side in line order,
/// then of the second, replies in line order up to the first that holds; the first challenge with no
/// such reply ends the pair".
pub fn examine(card: &Card, first: &Field, second: &Field, rounds: u64) -> (bool, u64) {
    let mut count = 1;
    if rounds == 0 {
        return (true, count);
    }
    for by_first in [true, false] {
        for challenge in 0..card.lines.len() {
            let (side, other) = if by_first { (first, second) } else { (second, first) };
            let Some(left) = use_line(card, side, challenge) else {
                continue;
            };
            let mut met = false;
            for reply in 0..card.lines.len() {
                if met || card.lines[reply].code != card.lines[challenge].code {
                    continue;
                }
                let Some(answered) = use_line(card, other, reply) else {
                    continue;
                };
                let (next_first, next_second) = if by_first { (&left, &answered) } else { (&answered, &left) };
                let (held, examined) = examine(card, next_first, next_second, rounds - 1);
                met = held;
                count += examined;
            }
            if !met {
                return (false, count);
            }
        }
    }
    (true, count)
}

/// A walk with its full count: "spent is given if the full count would pass the allowance left, and
/// draws all of it".
pub fn walk(card: &Card, first: &Field, second: &Field, limit: u64, allowance: u32) -> Walked {
    let mut count = 0;
    let mut answer = Answer::Together;
    for rounds in 1..=limit {
        let (held, examined) = examine(card, first, second, rounds);
        count += examined;
        if !held {
            answer = Answer::Apart { rounds };
            break;
        }
    }
    match u32::try_from(count) {
        Ok(drawn) if drawn <= allowance => Walked { answer, drawn },
        _ => Walked { answer: Answer::Spent, drawn: allowance },
    }
}

/// Which of two fields is listed first: "with the smaller count of the last kind first, then of the one
/// before it, and so on".
pub fn shelf_order(first: &Field, second: &Field) -> Ordering {
    for kind in (0..first.len()).rev() {
        if first[kind] != second[kind] {
            return first[kind].cmp(&second[kind]);
        }
    }
    Ordering::Equal
}

/// The fields of so many tokens of so many kinds, as they are listed: of all ways to give each kind a
/// count, those with so many tokens in all.
pub fn shelf(kinds: usize, tokens: u64) -> Vec<Field> {
    let mut fields: Vec<Field> = vec![Vec::new()];
    for _ in 0..kinds {
        fields =
            fields.iter().flat_map(|field| (0..=tokens).map(move |count| [&field[..], &[count]].concat())).collect();
    }
    fields.retain(|field| field.iter().sum::<u64>() == tokens);
    fields.sort_by(shelf_order);
    fields
}

/// The fields of so many tokens that a sheet numbers, as they are listed: "over the reached kinds alone, .. and every
/// other count 0".
pub fn shelf_of(card: &Card, tokens: u64) -> Vec<Field> {
    let out: Vec<usize> = (0..card.kinds).filter(|&kind| !is_reached(card, kind)).collect();
    let mut fields = shelf(card.kinds, tokens);
    fields.retain(|field| out.iter().all(|&kind| field[kind] == 0));
    fields
}
