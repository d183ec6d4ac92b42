//! The decomposition base from stage to stage, after document 000, section 3.
//!
//! What makes it polynomial is document 000's remark that using a line X -> β is multiplication by
//! β/X. The *effect* of a line at a stage is that quotient, decomposed into atoms: a signed count of
//! each atom. Two fields with the same decomposition are left with the same decomposition by two
//! lines exactly when the lines have the same effect. So a pair of related fields satisfies expansion
//! exactly when the two sides may use lines of the same codes and effects.

use crate::norm::NormedCard;
use crate::sense::Sense;
use crate::sheet::{MOST_KINDS, MOST_LINES};

/// A count of each kind, which may be below zero where it is an effect.
pub type Counts = [i64; MOST_KINDS];

/// "A base at a stage gives each kind the counts of earlier atoms that the stage relates to it; where
/// there are none it gives the kind itself, an atom." It speaks of the kinds that are reached: "other kinds get
/// a row of zeros". "The base now keeps, for each kind, the first stage, from 1 up, at which its row became the one"
/// that it is, its mark (request 9 of document 02); "a kind that is out has no such mark".
#[derive(Clone, Debug)]
pub struct Base {
    rows: Vec<Counts>,
    /// The mark of each kind; 0 for one that is out.
    since: Vec<u32>,
}

impl Base {
    /// The row of a kind.
    pub fn row(&self, kind: usize) -> &[i64] {
        &self.rows[kind][..self.rows.len()]
    }

    /// The mark of a kind: the first stage, from 1 up, from which on its row is the one that it is. 0 for a kind that is out.
    pub fn since(&self, kind: usize) -> u32 {
        self.since[kind]
    }

    /// Whether a kind is an atom.
    pub fn is_atom(&self, kind: usize) -> bool {
        self.rows[kind][kind] == 1
    }

    /// The decomposition of a field into atoms.
    pub fn form<'a>(&self, counts: impl Iterator<Item = u64> + 'a) -> Counts {
        let mut form = [0; MOST_KINDS];
        for (kind, count) in counts.enumerate().filter(|&(_, count)| count > 0) {
            let count = count as i64;
            if self.is_atom(kind) {
                form[kind] += count;
            } else {
                add_times(&mut form, &self.rows[kind], count);
            }
        }
        form
    }
}

/// Adds a row some number of times.
fn add_times(sum: &mut Counts, row: &Counts, times: i64) {
    for (total, count) in sum.iter_mut().zip(row) {
        *total += times * count;
    }
}

/// One count less another, kind by kind.
fn difference(counts: &Counts, taken: &Counts) -> Counts {
    std::array::from_fn(|kind| counts[kind] - taken[kind])
}

/// A field of one token of a kind.
fn unit(kind: usize) -> Counts {
    std::array::from_fn(|other| i64::from(other == kind))
}

/// A set of classes of lines.
#[derive(Clone, Copy, PartialEq, Eq)]
struct ClassSet([u64; MOST_LINES / 64]);

impl ClassSet {
    const EMPTY: ClassSet = ClassSet([0; MOST_LINES / 64]);

    fn insert(&mut self, class: usize) {
        self.0[class / 64] |= 1 << (class % 64);
    }

    fn join(&mut self, other: &ClassSet) {
        for (word, more) in self.0.iter_mut().zip(other.0) {
            *word |= more;
        }
    }
}

/// The lines of a card by code and effect at a stage.
struct Classes {
    /// The class of each line: equal for two lines exactly when code and effect are.
    of_line: Vec<usize>,
    /// For each kind, the classes of its lines.
    of_kind: Vec<ClassSet>,
}

impl Classes {
    fn new(normed: &NormedCard, base: &Base) -> Classes {
        let lines = &normed.card.lines;
        let effects: Vec<Counts> = lines
            .iter()
            .map(|line| difference(&base.form(line.left.iter().map(|&count| u64::from(count))), &base.rows[line.kind]))
            .collect();
        let mut sorted: Vec<usize> = (0..lines.len()).collect();
        sorted.sort_unstable_by_key(|&line| (lines[line].code, &effects[line]));
        let mut of_line = vec![0; lines.len()];
        for pair in sorted.windows(2) {
            let (line, next) = (pair[0], pair[1]);
            let equal = lines[line].code == lines[next].code && effects[line] == effects[next];
            of_line[next] = of_line[line] + usize::from(!equal);
        }
        let mut of_kind = vec![ClassSet::EMPTY; normed.card.kinds];
        for (line, &class) in lines.iter().zip(&of_line) {
            of_kind[line.kind].insert(class);
        }
        Classes { of_line, of_kind }
    }

    /// The classes of the lines that a field may use.
    fn usable(&self, counts: &[i64]) -> ClassSet {
        let mut usable = ClassSet::EMPTY;
        for (classes, _) in self.of_kind.iter().zip(counts).filter(|&(_, &count)| count > 0) {
            usable.join(classes);
        }
        usable
    }
}

/// A norm-reducing line of an atom, one for each code and effect.
struct Reduction {
    line: usize,
    kind: usize,
    code: usize,
    effect: Counts,
}

/// The base of a card at a stage, from stage 1 up, in a sense.
pub struct Refinement<'a, 'b> {
    normed: &'a NormedCard<'b>,
    sense: Sense,
    base: Base,
    classes: Classes,
    stage: u32,
}

impl<'a, 'b> Refinement<'a, 'b> {
    /// Stage 1: "a pair in stage 0 that satisfies norm-reducing expansion in stage 1".
    pub fn first(normed: &'a NormedCard<'b>, sense: Sense) -> Refinement<'a, 'b> {
        let base = Extension::new(normed, sense, None).finish(1);
        let classes = Classes::new(normed, &base);
        Refinement { normed, sense, base, classes, stage: 1 }
    }

    /// The next stage: "a pair in stage s that satisfies expansion in stage s and norm-reducing
    /// expansion in stage s + 1".
    pub fn refine(&mut self) {
        self.stage += 1;
        self.base = Extension::new(self.normed, self.sense, Some((&self.base, &self.classes))).finish(self.stage);
        self.classes = Classes::new(self.normed, &self.base);
    }

    /// The settled stage: refines until each kind's pair with its row satisfies expansion.
    pub fn settle(mut self) -> Refinement<'a, 'b> {
        while !self.is_settled() {
            self.refine();
        }
        self
    }

    /// Whether every related pair satisfies expansion. By document 000's Lemma 3 it is enough that
    /// each kind does with its row, of those that are reached.
    pub fn is_settled(&self) -> bool {
        self.normed.reached.iter().all(|&kind| {
            self.base.is_atom(kind) || self.classes.of_kind[kind] == self.classes.usable(self.base.row(kind))
        })
    }

    /// The number of the stage.
    pub fn stage(&self) -> u32 {
        self.stage
    }

    /// The base at the stage.
    pub fn base(&self) -> &Base {
        &self.base
    }
}

/// A base under way, kind by kind in their order (the proof of document 000's Lemma 5).
struct Extension<'a, 'b> {
    normed: &'a NormedCard<'b>,
    sense: Sense,
    /// The base and the classes of the stage before, from stage 2 on.
    before: Option<(&'a Base, &'a Classes)>,
    base: Base,
    reductions: Vec<Reduction>,
    /// The norm-reducing lines of each kind.
    reducing_lines: Vec<Vec<usize>>,
}

impl<'a, 'b> Extension<'a, 'b> {
    fn new(normed: &'a NormedCard<'b>, sense: Sense, before: Option<(&'a Base, &'a Classes)>) -> Extension<'a, 'b> {
        let mut reducing_lines = vec![Vec::new(); normed.card.kinds];
        for (line, leaves) in normed.card.lines.iter().enumerate() {
            if normed.lowers(line) {
                reducing_lines[leaves.kind].push(line);
            }
        }
        let base = Base { rows: vec![[0; MOST_KINDS]; normed.card.kinds], since: vec![0; normed.card.kinds] };
        Extension { normed, sense, before, base, reductions: Vec::new(), reducing_lines }
    }

    /// Gives each kind that is reached its row at a stage, and its mark: that of the stage before where the row is the
    /// one that it was there.
    fn finish(mut self, stage: u32) -> Base {
        for &kind in &self.normed.order {
            let lefts = self.lefts(kind);
            match self.decomposition(kind, &lefts) {
                Some(row) => self.base.rows[kind] = row,
                None => self.add_atom(kind, &lefts),
            }
            let kept = self.before.filter(|(base, _)| base.rows[kind] == self.base.rows[kind]);
            self.base.since[kind] = kept.map_or(stage, |(base, _)| base.since[kind]);
        }
        self.base
    }

    /// What the norm-reducing lines of a kind leave, decomposed, once for each code and decomposition.
    /// They leave earlier kinds only, whose rows are known.
    fn lefts(&self, kind: usize) -> Vec<(usize, Counts)> {
        let lines = &self.normed.card.lines;
        let form = |line: usize| self.base.form(lines[line].left.iter().map(|&count| u64::from(count)));
        let mut lefts: Vec<(usize, Counts)> =
            self.reducing_lines[kind].iter().map(|&line| (line, form(line))).collect();
        lefts.sort_by(|(line, left), (other, other_left)| {
            (lines[*line].code, left).cmp(&(lines[*other].code, other_left))
        });
        lefts.dedup_by(|(line, left), (other, other_left)| {
            lines[*line].code == lines[*other].code && left == other_left
        });
        lefts
    }

    /// Makes a kind an atom.
    fn add_atom(&mut self, kind: usize, lefts: &[(usize, Counts)]) {
        let row = unit(kind);
        for (line, left) in lefts {
            let code = self.normed.card.lines[*line].code;
            self.reductions.push(Reduction { line: *line, kind, code, effect: difference(left, &row) });
        }
        self.base.rows[kind] = row;
    }

    /// The product of atoms that the stage relates to a kind, if there is one; there is at most one.
    ///
    /// "There are only as many possibilities .. as there are productions": some reduction of the
    /// product must reply to a reduction of the kind, and kind and effect of the reply give the product. In the finer
    /// sense it has the total of the kind, one token, and so has every row: what is left has equal totals then where it
    /// has equal decompositions.
    fn decomposition(&self, kind: usize, lefts: &[(usize, Counts)]) -> Option<Counts> {
        // An atom stays an atom: a later stage relates no more than an earlier one.
        if self.before.is_some_and(|(base, _)| base.is_atom(kind)) {
            return None;
        }
        let code_of = |line: usize| self.normed.card.lines[line].code;
        let replies = |line: usize| self.reductions.iter().filter(move |reduction| reduction.code == code_of(line));
        let (challenge, left) = lefts.iter().min_by_key(|(line, _)| replies(*line).count())?;
        replies(*challenge)
            .filter(|reply| self.related_before(*challenge, reply.line))
            .map(|reply| difference(left, &reply.effect))
            .filter(|product| product.iter().all(|&count| count >= 0))
            .filter(|product| self.sense.allows(product.iter().sum(), 1))
            .find(|product| self.expands_before(kind, product) && self.expands_by_reductions(product, lefts))
    }

    /// Whether the stage before relates the kind of `challenge` and the product that `reply` gives for
    /// it: the product is what `challenge` leaves, divided by the effect of `reply`.
    fn related_before(&self, challenge: usize, reply: usize) -> bool {
        self.before.is_none_or(|(_, classes)| classes.of_line[challenge] == classes.of_line[reply])
    }

    /// Whether a kind and a product satisfy expansion in the stage before, which relates them.
    fn expands_before(&self, kind: usize, product: &Counts) -> bool {
        self.before.is_none_or(|(_, classes)| classes.of_kind[kind] == classes.usable(product))
    }

    /// Whether a kind, by what its norm-reducing lines leave, and a product satisfy norm-reducing
    /// expansion in this stage. Both `lefts` and `reductions` are without repetition, so every
    /// challenge has a reply on both sides when there are equally many and each of `lefts` is met.
    fn expands_by_reductions(&self, product: &Counts, lefts: &[(usize, Counts)]) -> bool {
        let usable = || self.reductions.iter().filter(|reduction| product[reduction.kind] > 0);
        usable().count() == lefts.len()
            && lefts.iter().all(|(line, left)| {
                let effect = difference(left, product);
                let code = self.normed.card.lines[*line].code;
                usable().any(|reduction| reduction.code == code && reduction.effect == effect)
            })
    }
}
