//! Sheets from a seed: valid and damaged, small and at the limits, and families that make settling
//! costly.

use crate::norm::{NORM_LIMIT, kind_norms};
use crate::random::Random;
use crate::sheet::{HEADER_BYTES, MOST_CODES, MOST_FIELDS, MOST_KINDS, MOST_LINES, read};
use crate::shelf::MOST_TOKENS;

/// A sheet as its parts, before it becomes bytes.
#[derive(Clone, Debug)]
pub struct Draft {
    pub kinds: usize,
    pub codes: usize,
    pub lines: Vec<DraftLine>,
    pub fields: Vec<Vec<u16>>,
    /// For a kind that was made to act as a product of others, that product.
    products: Vec<Option<Vec<u16>>>,
}

/// A line of a draft.
#[derive(Clone, Debug)]
pub struct DraftLine {
    pub kind: usize,
    pub code: usize,
    pub left: Vec<u8>,
}

impl Draft {
    /// A draft without lines and fields.
    pub fn new(kinds: usize, codes: usize) -> Draft {
        Draft { kinds, codes, lines: Vec::new(), fields: Vec::new(), products: vec![None; kinds] }
    }

    /// Adds a line that leaves the given counts of kinds.
    fn add_line(&mut self, kind: usize, code: usize, left: &[(usize, u8)]) {
        let mut counts = vec![0; self.kinds];
        for &(other, count) in left {
            counts[other] = count;
        }
        self.lines.push(DraftLine { kind, code, left: counts });
    }

    /// The sheet's bytes.
    pub fn bytes(&self) -> Vec<u8> {
        let fields_offset = HEADER_BYTES + self.lines.len() * (2 + self.kinds);
        let total = fields_offset + 2 * self.kinds * self.fields.len();
        let mut bytes = Vec::with_capacity(total);
        for number in [self.kinds, self.codes, self.lines.len(), self.fields.len()] {
            bytes.extend((number as u16).to_le_bytes());
        }
        for number in [HEADER_BYTES, fields_offset, total] {
            bytes.extend((number as u32).to_le_bytes());
        }
        for line in &self.lines {
            bytes.extend([line.kind as u8, line.code as u8]);
            bytes.extend(&line.left);
        }
        for count in self.fields.iter().flatten() {
            bytes.extend(count.to_le_bytes());
        }
        bytes
    }
}

/// The families of sheets.
#[derive(Clone, Copy, Debug, PartialEq, Eq, Hash, PartialOrd, Ord)]
pub enum Family {
    /// Random lines; every kind can be cleared.
    Normed,
    /// Random lines; kinds may have no norm.
    Free,
    /// Kinds that act as products of others, some with one line altered.
    Products,
    /// Norms that grow up to the limit and past it.
    Ladder,
    /// A well-formed header over random bytes.
    Noise,
    /// A chain of kinds, each told apart from the next one stage later.
    Chain,
    /// One code only, and many norm-reducing lines.
    OneCode,
    /// Each line many times.
    EqualLines,
    /// A chain, and products of its kinds that pass every stage but the last ones.
    NearPassing,
    /// A chain whose lines leave many of every kind.
    DenseCounts,
    /// A chain, and kinds whose rows hold every kind of it.
    DenseRows,
    /// Fields of equal norm are the same, and some of them differ in how many tokens they hold or come to hold.
    Totals,
}

/// The families that make settling costly.
pub const COSTLY: [Family; 6] =
    [Family::Chain, Family::OneCode, Family::EqualLines, Family::NearPassing, Family::DenseCounts, Family::DenseRows];

/// All families.
pub const FAMILIES: [Family; 12] = [
    Family::Normed,
    Family::Free,
    Family::Products,
    Family::Ladder,
    Family::Noise,
    Family::Chain,
    Family::OneCode,
    Family::EqualLines,
    Family::NearPassing,
    Family::DenseCounts,
    Family::DenseRows,
    Family::Totals,
];

/// What was done to a sheet's bytes.
#[derive(Clone, Copy, Debug, PartialEq, Eq, Hash, PartialOrd, Ord)]
pub enum Damage {
    None,
    /// A few bits flipped.
    Flipped,
    /// The end cut off.
    Truncated,
    /// Bytes added.
    Extended,
    /// A number of the header set to one at or past its limits.
    Header,
}

/// How large a sheet is made.
#[derive(Clone, Copy, Debug, PartialEq, Eq, Hash, PartialOrd, Ord)]
pub enum Size {
    /// For the search by definitions.
    Tiny,
    Small,
    Middle,
    /// 32 kinds, and in most cases 256 lines and 64 fields.
    Limit,
}

/// A sheet and how it was made.
#[derive(Clone, Debug)]
pub struct Sample {
    pub family: Family,
    pub size: Size,
    pub damage: Damage,
    pub bytes: Vec<u8>,
}

/// Sheet number `number` of a seed. Most are small; one in 25 is at the limits; two in five are damaged.
/// One in four has some fields of few tokens in the place of others, one in two some multiples of others, and one in four,
/// or all of the family that is about totals, some fields of as many tokens as others.
/// One in three is made to use a part of its card, and one in two to use all of it.
pub fn sample(seed: u64, number: u64) -> Sample {
    let state = seed ^ number.wrapping_mul(0xd134_2543_de82_ef95);
    let mut random = Random::new(state);
    let size = match random.below(100) {
        0..=39 => Size::Tiny,
        40..=84 => Size::Small,
        85..=95 => Size::Middle,
        _ => Size::Limit,
    };
    let family = random.choose(&FAMILIES);
    let mut draft = draft(family, size, &mut random);
    // From numbers of their own, so that everything else of a sheet does not depend on them.
    let mut of_few = Random::new(!state);
    if of_few.once_in(4) {
        put_few_tokens(&mut draft, &mut of_few);
    }
    let mut of_multiples = Random::new(state.rotate_left(32));
    if of_multiples.once_in(2) {
        put_multiples(&mut draft, &mut of_multiples);
    }
    let mut of_totals = Random::new(state.rotate_left(48));
    if family == Family::Totals || of_totals.once_in(4) {
        put_equal_totals(&mut draft, &mut of_totals);
    }
    use_some(&mut draft, &mut Random::new(state.rotate_left(16)));
    let mut bytes = draft.bytes();
    let damage = match random.below(10) {
        0..=5 => Damage::None,
        6..=7 => Damage::Flipped,
        8 => random.choose(&[Damage::Truncated, Damage::Extended]),
        _ => Damage::Header,
    };
    apply(damage, &mut bytes, &mut random);
    Sample { family, size, damage, bytes }
}

/// A draft of a family and a size.
pub fn draft(family: Family, size: Size, random: &mut Random) -> Draft {
    let (kinds, lines) = match size {
        Size::Tiny => (random.between(1, 4), random.between(1, 8)),
        Size::Small => (random.between(1, 8), random.between(1, 24)),
        Size::Middle => (random.between(6, 20), random.between(10, 100)),
        Size::Limit => (MOST_KINDS, if random.once_in(4) { random.between(64, MOST_LINES) } else { MOST_LINES }),
    };
    let mut draft = card(family, kinds, lines, size, random);
    let fields = match size {
        _ if random.once_in(20) => 0,
        Size::Tiny => random.between(1, 4),
        Size::Small => random.between(1, 8),
        Size::Middle => random.between(1, 20),
        Size::Limit => random.choose(&[1, 2, 63, MOST_FIELDS, MOST_FIELDS]),
    };
    add_fields(&mut draft, fields, size, random);
    draft
}

/// A sheet of a family with two fields, for measuring. One of them holds each kind, so that none is out.
pub fn measured(family: Family, kinds: usize, lines: usize, seed: u64) -> Vec<u8> {
    let mut random = Random::new(seed);
    let mut draft = card(family, kinds, lines, Size::Limit, &mut random);
    add_fields(&mut draft, 2, Size::Small, &mut random);
    hold_every_kind(&mut draft);
    draft.bytes()
}

/// A sheet of 32 kinds with two fields, for measuring: those of a sheet of a family that has fewer kinds, at even distances
/// among the 32. No field and no line has any other kind, so that the others are out.
pub fn measured_among(family: Family, kinds: usize, lines: usize, seed: u64) -> Vec<u8> {
    let few = measured(family, kinds, lines, seed);
    let card = read(&few).expect("a well-formed sheet");
    let number = |kind: usize| MOST_KINDS / kinds * kind;
    let mut draft = Draft::new(MOST_KINDS, card.codes);
    for line in &card.lines {
        let left: Vec<(usize, u8)> = line.left.iter().zip(0..).map(|(&count, kind)| (number(kind), count)).collect();
        draft.add_line(number(line.kind), line.code, &left);
    }
    for field in 0..card.fields {
        let mut counts = vec![0; MOST_KINDS];
        card.field(field).iter().enumerate().for_each(|(kind, &count)| counts[number(kind)] = count as u16);
        draft.fields.push(counts);
    }
    draft.bytes()
}

/// A sheet of 32 kinds with two fields, for measuring what kinds that are out cost: eight random cards of 4 kinds and so
/// many lines each, up to 32, that lie side by side. A card has every eighth kind, and lines that leave these alone; the
/// fields hold each kind of the fourth card, and no other. The lines are in the order of their kinds.
pub fn side_by_side(lines: usize, seed: u64) -> Vec<u8> {
    let mut random = Random::new(seed);
    let cards: Vec<Draft> = (0..8).map(|_| card(Family::Normed, 4, lines, Size::Small, &mut random)).collect();
    let codes = cards.iter().map(|card| card.codes).max().expect("a card");
    let mut draft = Draft::new(MOST_KINDS, codes);
    for (first, card) in cards.iter().enumerate() {
        let number = |kind: usize| first + 8 * kind;
        for line in &card.lines {
            let left: Vec<(usize, u8)> =
                line.left.iter().zip(0..).map(|(&count, kind)| (number(kind), count)).collect();
            draft.add_line(number(line.kind), line.code, &left);
        }
    }
    draft.lines.sort_by_key(|line| line.kind);
    add_fields(&mut draft, 2, Size::Small, &mut random);
    hold_every_kind(&mut draft);
    hold_alone(&mut draft, &[3, 11, 19, 27], &mut random);
    draft.bytes()
}

/// The kinds and lines of a draft. It has at least a line for each kind where the family needs it, and
/// never more than the greatest number.
fn card(family: Family, kinds: usize, lines: usize, size: Size, random: &mut Random) -> Draft {
    let mut draft = match family {
        Family::Normed => normed(kinds, lines, size, random),
        Family::Free => free(kinds, lines, size, random),
        Family::Products => products(kinds, lines, size, random),
        Family::Ladder => ladder(kinds, random),
        Family::Noise => noise(kinds, lines, random),
        Family::Chain => chain(kinds, lines, random),
        Family::OneCode => one_code(kinds, lines, random),
        Family::EqualLines => equal_lines(kinds, lines, random),
        Family::NearPassing => near_passing(kinds, lines, random),
        Family::DenseCounts => dense_counts(kinds, lines, random),
        Family::DenseRows => dense_rows(kinds, lines, random),
        Family::Totals => totals(kinds, lines, random),
    };
    draft.lines.truncate(MOST_LINES);
    draft
}

/// The kinds in a random order.
fn shuffled(kinds: usize, random: &mut Random) -> Vec<usize> {
    let mut order: Vec<usize> = (0..kinds).collect();
    for last in (1..kinds).rev() {
        order.swap(last, random.below(last + 1));
    }
    order
}

/// A few of some kinds, small counts.
fn some_of(kinds: &[usize], most_kinds: usize, most_count: usize, random: &mut Random) -> Vec<(usize, u8)> {
    if kinds.is_empty() {
        return Vec::new();
    }
    (0..random.between(0, most_kinds)).map(|_| (random.choose(kinds), random.between(1, most_count) as u8)).collect()
}

/// A line for each kind that clears it, by kinds before it in a random order; then random lines.
fn normed(kinds: usize, lines: usize, size: Size, random: &mut Random) -> Draft {
    let codes = random.between(1, if size == Size::Limit { MOST_CODES } else { 3 });
    let mut draft = Draft::new(kinds, codes);
    let order = shuffled(kinds, random);
    let most_count = if size == Size::Tiny { 1 } else { 2 };
    for (place, &kind) in order.iter().enumerate() {
        let left = some_of(&order[..place.min(6)], 2, most_count, random);
        let code = random.below(codes);
        draft.add_line(kind, code, &left);
    }
    add_random_lines(&mut draft, lines, most_count, random);
    draft
}

/// Random lines until a draft has that many.
fn add_random_lines(draft: &mut Draft, lines: usize, most_count: usize, random: &mut Random) {
    let all: Vec<usize> = (0..draft.kinds).collect();
    while draft.lines.len() < lines {
        let left = some_of(&all, 2, most_count, random);
        let (kind, code) = (random.below(draft.kinds), random.below(draft.codes));
        draft.add_line(kind, code, &left);
    }
}

/// Random lines only.
fn free(kinds: usize, lines: usize, size: Size, random: &mut Random) -> Draft {
    let mut draft = Draft::new(kinds, random.between(1, 4));
    let most_count = if size == Size::Tiny { 2 } else { random.choose(&[1, 3, 255]) };
    add_random_lines(&mut draft, lines, most_count, random);
    draft
}

/// Gives a kind, for each line of each kind of a product, a line of the same code that leaves what the
/// product is left with. The kind then is bisimilar to the product.
fn act_as(draft: &mut Draft, kind: usize, product: &[u16]) {
    let lines: Vec<DraftLine> = draft.lines.iter().filter(|line| product[line.kind] > 0).cloned().collect();
    for mut line in lines {
        for (other, count) in line.left.iter_mut().enumerate() {
            let rest = product[other] - u16::from(other == line.kind);
            *count = count.saturating_add(rest.min(255) as u8);
        }
        line.kind = kind;
        draft.lines.push(line);
    }
    draft.products[kind] = Some(product.to_vec());
}

/// A product of one to three of some kinds.
fn product_of(draft: &Draft, kinds: &[usize], random: &mut Random) -> Vec<u16> {
    let mut product = vec![0; draft.kinds];
    for _ in 0..random.between(1, 3) {
        product[random.choose(kinds)] += 1;
    }
    product
}

/// Some random kinds first; the others act as products of them, some with one line altered.
fn products(kinds: usize, lines: usize, size: Size, random: &mut Random) -> Draft {
    let own = random.between(1, kinds);
    let mut draft = normed(own, own + lines / 8, size, random);
    draft.kinds = kinds;
    draft.products = vec![None; kinds];
    for line in &mut draft.lines {
        line.left.resize(kinds, 0);
    }
    for kind in own..kinds {
        let earlier: Vec<usize> = (0..kind).collect();
        let product = product_of(&draft, &earlier, random);
        let before = draft.lines.len();
        act_as(&mut draft, kind, &product);
        if draft.lines.len() > MOST_LINES - (kinds - kind) {
            // No room for so many lines: the kind has only what clears it.
            draft.lines.truncate(before);
            draft.products[kind] = None;
            draft.add_line(kind, 0, &[]);
        } else if random.once_in(4) {
            alter_line(&mut draft, before, random);
        }
    }
    renumber(&mut draft, random);
    shuffle_lines(&mut draft, random);
    draft
}

/// Alters one of the lines from a number on.
fn alter_line(draft: &mut Draft, from: usize, random: &mut Random) {
    let number = random.between(from, draft.lines.len() - 1);
    let (kind, code) = (random.below(draft.kinds), random.below(draft.codes));
    if random.once_in(2) {
        draft.lines[number].code = code;
    } else {
        draft.lines[number].left[kind] ^= 1;
    }
}

/// Gives the kinds other numbers.
fn renumber(draft: &mut Draft, random: &mut Random) {
    let number = shuffled(draft.kinds, random);
    for line in &mut draft.lines {
        let left = line.left.clone();
        line.kind = number[line.kind];
        for (kind, count) in left.into_iter().enumerate() {
            line.left[number[kind]] = count;
        }
    }
    let products = draft.products.clone();
    for (kind, product) in products.into_iter().enumerate() {
        draft.products[number[kind]] = product.map(|counts| {
            let mut renumbered = counts.clone();
            for (other, count) in counts.into_iter().enumerate() {
                renumbered[number[other]] = count;
            }
            renumbered
        });
    }
}

/// Puts the lines in a random order.
fn shuffle_lines(draft: &mut Draft, random: &mut Random) {
    let order = shuffled(draft.lines.len(), random);
    draft.lines = order.into_iter().map(|number| draft.lines[number].clone()).collect();
}

/// Each kind leaves a number of the one before it. The norms stay below a limit, come close to it, meet
/// it or pass it: the greatest norm taken, or a tenth more, or 1,000,000, which four kinds can pass.
fn ladder(kinds: usize, random: &mut Random) -> Draft {
    let mut draft = Draft::new(kinds, random.between(1, 2));
    let limit = random.choose(&[1_000_000, NORM_LIMIT, NORM_LIMIT, NORM_LIMIT + NORM_LIMIT / 10]);
    let mut norm = 1;
    draft.add_line(0, 0, &[]);
    for kind in 1..kinds {
        let most = (limit / norm).min(255);
        let count = if random.once_in(3) { most } else { 1 + random.below(most.max(1) as usize) as u64 };
        // One kind 0 beside it, in some cases, so that the norm meets other numbers.
        let rest = if kind > 1 && random.once_in(4) { random.between(1, 255) as u8 } else { 0 };
        let mut left = vec![(kind - 1, count as u8)];
        if rest > 0 {
            left.push((0, rest));
        }
        norm = 1 + count * norm + u64::from(rest);
        let code = random.below(draft.codes);
        draft.add_line(kind, code, &left);
        if norm > limit / 2 {
            norm = 1;
            draft.lines.pop();
            let code = random.below(draft.codes);
            draft.add_line(kind, code, &[]);
            draft.add_line(kind, 0, &left);
            if random.once_in(2) {
                draft.lines.remove(draft.lines.len() - 2);
                norm = limit;
            }
        }
    }
    if random.once_in(3) {
        clear_last_in(&mut draft, NORM_LIMIT - 1 + random.below(3) as u64);
    }
    draft
}

/// Gives the last kind a single line, so that it is cleared in that many reads where the norms of the
/// others make up that number, and in fewer where they do not. No line leaves the last kind.
fn clear_last_in(draft: &mut Draft, reads: u64) {
    let last = draft.kinds - 1;
    draft.lines.retain(|line| line.kind != last);
    let bytes = draft.bytes();
    let norms = kind_norms(&read(&bytes).expect("a ladder is well formed"));
    let mut by_norm: Vec<(u64, usize)> =
        norms.into_iter().zip(0..).filter_map(|(norm, kind)| Some((norm?, kind))).collect();
    by_norm.sort();
    let mut rest = reads - 1;
    let mut left = Vec::new();
    for (norm, kind) in by_norm.into_iter().rev() {
        let count = (rest / norm).min(255);
        rest -= count * norm;
        left.push((kind, count as u8));
    }
    draft.add_line(last, 0, &left);
}

/// Lines of random bytes; in most cases their kinds and codes are in range.
fn noise(kinds: usize, lines: usize, random: &mut Random) -> Draft {
    let mut draft = Draft::new(kinds, random.between(1, MOST_CODES));
    let in_range = !random.once_in(3);
    for _ in 0..lines {
        let kind = if in_range { random.below(kinds) } else { random.below(kinds + 1) };
        let code = if in_range { random.below(draft.codes) } else { random.below(draft.codes + 1) };
        let left = (0..kinds).map(|_| if random.once_in(3) { random.below(256) as u8 } else { 0 }).collect();
        draft.lines.push(DraftLine { kind, code, left });
    }
    draft
}

/// "0 a -> none; 1 a -> none; 1 b -> 0; 2 a -> none; 2 b -> 1", and so on. Further lines, if there are
/// to be more, leave a fixed field under a code of their own, the same for every kind.
fn chain(kinds: usize, lines: usize, random: &mut Random) -> Draft {
    let mut draft = chain_of(kinds, kinds, (lines / kinds).clamp(2, MOST_CODES));
    let all: Vec<usize> = (0..kinds).collect();
    for code in 2..draft.codes {
        let left = some_of(&all, 3, 2, random);
        for kind in 0..kinds {
            draft.add_line(kind, code, &left);
        }
    }
    if random.once_in(2) {
        renumber(&mut draft, random);
    }
    draft
}

/// A chain of the first `length` kinds, each of norm 1.
fn chain_of(kinds: usize, length: usize, codes: usize) -> Draft {
    let mut draft = Draft::new(kinds, codes);
    for kind in 0..length {
        draft.add_line(kind, 0, &[]);
        if kind > 0 {
            draft.add_line(kind, 1, &[(kind - 1, 1)]);
        }
    }
    draft
}

/// One code: a chain in which a kind may become two of the one before, then kinds with many
/// norm-reducing lines, each of which leaves a field of the same norm.
fn one_code(kinds: usize, lines: usize, random: &mut Random) -> Draft {
    let mut draft = Draft::new(kinds, 1);
    let length = kinds.div_ceil(2);
    for kind in 0..length {
        draft.add_line(kind, 0, &[]);
        if kind > 0 {
            draft.add_line(kind, 0, &[(kind - 1, 2)]);
        }
    }
    let many = (lines.saturating_sub(draft.lines.len()) / (kinds - length).max(1)).max(1);
    for kind in length..kinds {
        let norm = random.between(2, 6);
        for _ in 0..many {
            let mut left = vec![0u8; kinds];
            for _ in 1..norm {
                left[random.below(length)] += 1;
            }
            draft.lines.push(DraftLine { kind, code: 0, left });
        }
    }
    draft
}

/// A small card of another family, its lines repeated.
fn equal_lines(kinds: usize, lines: usize, random: &mut Random) -> Draft {
    let mut draft =
        if random.once_in(2) { chain(kinds, lines / 4, random) } else { normed(kinds, lines / 8, Size::Small, random) };
    let different = draft.lines.len();
    while draft.lines.len() < lines {
        let line = draft.lines[random.below(different)].clone();
        draft.lines.push(line);
    }
    shuffle_lines(&mut draft, random);
    draft
}

/// A chain of half the kinds; the others act as products of its last kinds, half of them with their
/// line to the chain altered by one kind: at an early stage every such product passes.
fn near_passing(kinds: usize, lines: usize, random: &mut Random) -> Draft {
    let length = kinds.div_ceil(2);
    let each = (lines / kinds).clamp(2, MOST_CODES);
    let mut draft = chain_of(kinds, length, each.div_ceil(2).max(2));
    let last: Vec<usize> = (length / 2..length).collect();
    for code in 2..draft.codes {
        let left = some_of(&last, 3, 2, random);
        for kind in 0..length {
            draft.add_line(kind, code, &left);
        }
    }
    for kind in length..kinds {
        let before = draft.lines.len();
        let product = product_of(&draft, &last, random);
        act_as(&mut draft, kind, &product);
        if draft.lines.len() + (kinds - kind - 1) > lines.max(2 * kinds).min(MOST_LINES) {
            // No room for so many lines: the kind leaves one of the chain.
            draft.lines.truncate(before);
            draft.products[kind] = None;
            draft.add_line(kind, 0, &[(random.choose(&last), 1)]);
        } else if random.once_in(2) {
            lower_link(&mut draft, before);
        }
    }
    if random.once_in(2) {
        renumber(&mut draft, random);
    }
    draft
}

/// In the first of the lines from a number on that leaves a kind of the chain above the first, puts the
/// kind before it in the place of one.
fn lower_link(draft: &mut Draft, from: usize) {
    for line in &mut draft.lines[from..] {
        if let Some(kind) = (1..line.left.len()).find(|&kind| line.left[kind] > 0 && line.code == 1) {
            line.left[kind] -= 1;
            line.left[kind - 1] += 1;
            return;
        }
    }
}

/// A chain whose kinds have further lines, the same for each, that leave up to 255 of every kind.
fn dense_counts(kinds: usize, lines: usize, random: &mut Random) -> Draft {
    let each = (lines.saturating_sub(2 * kinds) / kinds).min(MOST_CODES - 2);
    let mut draft = chain_of(kinds, kinds, 2 + each);
    for code in 2..draft.codes {
        let left: Vec<(usize, u8)> = (0..kinds).map(|kind| (kind, random.between(1, 255) as u8)).collect();
        for kind in 0..kinds {
            draft.add_line(kind, code, &left);
        }
    }
    if random.once_in(2) {
        renumber(&mut draft, random);
    }
    draft
}

/// A chain of half the kinds; as many of the others as there are lines for act as products of all of it,
/// and each of the rest leaves many of every kind of the chain and of those.
fn dense_rows(kinds: usize, lines: usize, random: &mut Random) -> Draft {
    let length = kinds.div_ceil(2);
    let mut draft = chain_of(kinds, length, 2);
    let most_lines = lines.max(2 * kinds).min(MOST_LINES);
    for kind in length..kinds {
        let before = draft.lines.len();
        let product: Vec<u16> =
            (0..kinds).map(|other| if other < length { random.between(1, 9) as u16 } else { 0 }).collect();
        act_as(&mut draft, kind, &product);
        if draft.lines.len() + 2 * (kinds - kind - 1) > most_lines {
            draft.lines.truncate(before);
            draft.products[kind] = None;
            let left: Vec<(usize, u8)> = (0..kind).map(|other| (other, random.between(1, 3) as u8)).collect();
            draft.add_line(kind, 0, &left[..length]);
            draft.add_line(kind, 1, &left);
        }
    }
    if random.once_in(2) {
        renumber(&mut draft, random);
    }
    draft
}

/// Some tokens that have a norm together, each of any kind that there is room for. The first kind has norm 1.
fn tokens_of_norm(norms: &[usize], norm: usize, random: &mut Random) -> Vec<u8> {
    let mut counts = vec![0; norms.len()];
    let mut left = norm;
    while left > 0 {
        let room: Vec<usize> = (0..norms.len()).filter(|&kind| norms[kind] <= left).collect();
        let kind = random.choose(&room);
        counts[kind] += 1;
        left -= norms[kind];
    }
    counts
}

/// Every line of a code changes the norm by as much, that of code 0 by one down, and every kind has a line of each code, so
/// that fields of equal norm are the same. What a line leaves are any tokens of the norm; some kinds have the lines of
/// another, and one in four of the drafts has one line altered.
fn totals(kinds: usize, lines: usize, random: &mut Random) -> Draft {
    let codes = random.between(1, (lines / kinds).clamp(1, 4));
    // By how much a line of each code leaves more than the norm of its kind less one.
    let raised: Vec<usize> = (0..codes).map(|code| if code == 0 { 0 } else { random.between(1, 3) }).collect();
    let norms: Vec<usize> = (0..kinds).map(|kind| if kind == 0 { 1 } else { random.between(1, 4) }).collect();
    let mut draft = Draft::new(kinds, codes);
    for kind in 0..kinds {
        let alike: Vec<usize> = (0..kind).filter(|&other| norms[other] == norms[kind]).collect();
        if !alike.is_empty() && random.once_in(2) {
            let other = random.choose(&alike);
            let copies: Vec<DraftLine> = draft.lines.iter().filter(|line| line.kind == other).cloned().collect();
            draft.lines.extend(copies.into_iter().map(|line| DraftLine { kind, ..line }));
        } else {
            for (code, more) in raised.iter().enumerate() {
                let left = tokens_of_norm(&norms, norms[kind] - 1 + more, random);
                draft.lines.push(DraftLine { kind, code, left });
            }
        }
        let product = tokens_of_norm(&norms[..kind.max(1)], norms[kind], random);
        draft.products[kind] = (kind > 0).then(|| {
            let counts = product.into_iter().chain(std::iter::repeat(0)).take(kinds);
            counts.map(u16::from).collect()
        });
    }
    if random.once_in(4) {
        alter_line(&mut draft, 0, random);
    }
    renumber(&mut draft, random);
    draft
}

/// Fields: random ones, and ones made from those before by putting a product in the place of a kind
/// that acts as it, or one kind in the place of another.
fn add_fields(draft: &mut Draft, fields: usize, size: Size, random: &mut Random) {
    let most_count = match size {
        Size::Tiny => 2,
        _ => random.choose(&[3, 40, 65535]),
    };
    for number in 0..fields {
        let field = if number == 0 || random.once_in(5) {
            (0..draft.kinds).map(|_| if random.once_in(2) { random.between(0, most_count) as u16 } else { 0 }).collect()
        } else {
            let mut field = draft.fields[random.below(number)].clone();
            exchange(draft, &mut field, random);
            field
        };
        draft.fields.push(field);
    }
}

/// Puts fields of few tokens, up to two more than a field may have that has a shelf number, in the place of
/// half of the fields. A token is in half of the cases of the kind of the one before it. One in eight of
/// these fields has 65,535 tokens of a kind, so that it has few if its tokens are added up in 16 bits.
fn put_few_tokens(draft: &mut Draft, random: &mut Random) {
    for field in &mut draft.fields {
        if random.once_in(2) {
            field.fill(0);
            let mut kind = random.below(draft.kinds);
            for _ in 0..random.between(0, MOST_TOKENS as usize + 2) {
                if random.once_in(2) {
                    kind = random.below(draft.kinds);
                }
                field[kind] += 1;
            }
            if random.once_in(8) {
                field[random.below(draft.kinds)] = u16::MAX;
            }
        }
    }
}

/// Puts multiples in the place of most of the fields but the first: a field before it, in most cases the last one, in
/// which kinds may have given way to the products that they act as, some times or as often as there is room for; and in
/// half of the cases a few tokens more. A field that leaves no room for a second is made smaller before that.
fn put_multiples(draft: &mut Draft, random: &mut Random) {
    for number in 1..draft.fields.len() {
        let chosen = random.below(6);
        if chosen == 0 {
            put_far_apart(draft, number, random);
        }
        if chosen < 2 {
            continue;
        }
        let before = if random.once_in(4) { random.below(number) } else { number - 1 };
        if draft.fields[before].iter().any(|&count| count > u16::MAX / 2) {
            draft.fields[before].iter_mut().for_each(|count| *count /= 16);
        }
        let mut field = draft.fields[before].clone();
        for _ in 0..random.below(3) {
            put_product(draft, &mut field, random);
        }
        let room = usize::from(u16::MAX / field.iter().copied().max().unwrap_or(0).max(1));
        let times = match random.below(8) {
            0 => 0,
            1 => room,
            2 => random.between(1, room),
            _ => random.between(1, room.min(9)),
        };
        field.iter_mut().for_each(|count| *count *= times as u16);
        if random.once_in(2) {
            for _ in 0..random.between(1, 5) {
                let kind = random.below(draft.kinds);
                field[kind] = field[kind].saturating_add(1);
            }
        }
        draft.fields[number] = field;
    }
}

/// Gives a field 65,535 tokens of one kind, in half of the cases the last, and the field before it one token of kind 0:
/// where norms are large, this one goes into that one as often as no 32 bits hold.
fn put_far_apart(draft: &mut Draft, number: usize, random: &mut Random) {
    let kind = if random.once_in(2) { draft.kinds - 1 } else { random.below(draft.kinds) };
    for (field, kind, tokens) in [(number - 1, 0, 1), (number, kind, u16::MAX)] {
        draft.fields[field].fill(0);
        draft.fields[field][kind] = tokens;
    }
}

/// Puts, in the place of all tokens of a kind that acts as a product, that product as often, where there is such a
/// kind and room for it.
fn put_product(draft: &Draft, field: &mut Vec<u16>, random: &mut Random) {
    for kind in shuffled(draft.kinds, random) {
        let Some(product) = draft.products[kind].as_ref().filter(|_| field[kind] > 0) else {
            continue;
        };
        let mut put = field.clone();
        let times = std::mem::take(&mut put[kind]);
        let fits = put.iter_mut().zip(product).all(|(count, &more)| {
            let sum = more.checked_mul(times).and_then(|more| more.checked_add(*count));
            *count = sum.unwrap_or(0);
            sum.is_some()
        });
        if fits {
            *field = put;
            return;
        }
    }
}

/// Exchanges tokens of a field: a kind for the product that it acts as, where there is one, or that
/// product for the kind, or a token for one of another kind.
fn exchange(draft: &Draft, field: &mut [u16], random: &mut Random) {
    for kind in shuffled(draft.kinds, random) {
        let Some(product) = draft.products[kind].as_ref().filter(|_| !random.once_in(4)) else {
            continue;
        };
        if field[kind] > 0 {
            field[kind] -= 1;
            for (count, &more) in field.iter_mut().zip(product) {
                *count = count.saturating_add(more);
            }
            return;
        }
        if field.iter().zip(product).all(|(count, needed)| count >= needed) {
            for (count, needed) in field.iter_mut().zip(product) {
                *count -= needed;
            }
            field[kind] += 1;
            return;
        }
    }
    let held: Vec<usize> = (0..draft.kinds).filter(|&kind| field[kind] > 0).collect();
    if !held.is_empty() {
        field[random.choose(&held)] -= 1;
        let other = random.below(draft.kinds);
        field[other] = field[other].saturating_add(1);
    }
}

/// Puts, in the place of fields but the first, one before it whose tokens have been exchanged until it has as many as at the
/// start and other counts. Where kinds act as products, the two are often the same, and it is the totals that reads leave
/// that part them in the finer sense, if anything does.
pub fn put_equal_totals(draft: &mut Draft, random: &mut Random) {
    let total = |field: &[u16]| field.iter().map(|&count| u32::from(count)).sum::<u32>();
    for number in 1..draft.fields.len() {
        let before = &draft.fields[random.below(number)];
        let mut field = before.clone();
        for _ in 0..8 {
            exchange(draft, &mut field, random);
            if total(&field) == total(before) && field != *before {
                draft.fields[number] = field;
                break;
            }
        }
    }
}

/// Of six sheets makes two use a part of their card, and three all of it, with one field more; the last stays as it is.
pub fn use_some(draft: &mut Draft, random: &mut Random) {
    let chosen = random.below(6);
    let is_held = |kind: usize| draft.fields.iter().any(|field| field[kind] > 0);
    if chosen < 5 && !(0..draft.kinds).all(is_held) {
        if draft.fields.len() < MOST_FIELDS {
            draft.fields.push(vec![0; draft.kinds]);
        }
        hold_every_kind(draft);
    }
    if chosen < 2 {
        use_part(draft, random);
    }
}

/// Puts one token of each kind that no field holds into the last field.
fn hold_every_kind(draft: &mut Draft) {
    let last = draft.fields.len() - 1;
    for kind in 0..draft.kinds {
        if draft.fields.iter().all(|field| field[kind] == 0) {
            draft.fields[last][kind] = 1;
        }
    }
}

/// Makes a sheet use a part of its card: it has no fields, or only empty ones; or its fields hold one to three kinds
/// alone, so that any other is reached through lines, if at all; or one alone, where each kind leaves 255 of the one
/// before it in a random order, and the last may have no line; or some kinds are set apart.
fn use_part(draft: &mut Draft, random: &mut Random) {
    let order = shuffled(draft.kinds, random);
    match random.below(10) {
        0 => draft.fields.clear(),
        1 => draft.fields.iter_mut().for_each(|field| field.fill(0)),
        2..=4 => hold_alone(draft, &order[..random.between(1, draft.kinds.min(3))], random),
        5 => {
            draft.lines.iter_mut().for_each(|line| line.left.fill(0));
            raise(draft, &order);
            hold_alone(draft, &[random.choose(&order)], random);
            if random.once_in(2) {
                draft.lines.retain(|line| Some(&line.kind) != order.last());
            }
        }
        _ => set_apart(draft, order, random),
    }
}

/// Turns the tokens of all other kinds that the fields hold into ones of some kinds, or into none where there are no
/// such kinds.
fn hold_alone(draft: &mut Draft, held: &[usize], random: &mut Random) {
    for field in &mut draft.fields {
        for kind in (0..draft.kinds).filter(|kind| !held.contains(kind)) {
            let count = std::mem::take(&mut field[kind]);
            if !held.is_empty() {
                let other = random.choose(held);
                field[other] = field[other].saturating_add(count);
            }
        }
    }
}

/// Sets the first of some kinds apart, all but one at most where there are several: neither a field holds one nor does a line of
/// another kind leave one. Their own lines leave what they left, or are made such that they have no norms or that these
/// pass the greatest norm taken.
fn set_apart(draft: &mut Draft, mut apart: Vec<usize>, random: &mut Random) {
    let used = apart.split_off(random.between(1, (draft.kinds - 1).max(1)));
    hold_alone(draft, &used, random);
    for line in draft.lines.iter_mut().filter(|line| used.contains(&line.kind)) {
        apart.iter().for_each(|&kind| line.left[kind] = 0);
    }
    match random.below(4) {
        0 => {}
        1 => draft.lines.retain(|line| used.contains(&line.kind) || !random.once_in(3)),
        2 => {
            let lines = draft.lines.iter_mut().filter(|line| apart.contains(&line.kind));
            lines.for_each(|line| line.left[line.kind] |= 1);
        }
        _ => raise(draft, &apart),
    }
}

/// Makes each line of some kinds but the first of them leave 255 of the one before: the fifth and any after it are over
/// the greatest norm taken, if they have a norm.
fn raise(draft: &mut Draft, kinds: &[usize]) {
    for pair in kinds.windows(2) {
        draft.lines.iter_mut().filter(|line| line.kind == pair[1]).for_each(|line| line.left[pair[0]] = 255);
    }
}

/// Damages a sheet's bytes.
pub fn apply(damage: Damage, bytes: &mut Vec<u8>, random: &mut Random) {
    match damage {
        Damage::None => {}
        Damage::Flipped => {
            for _ in 0..random.between(1, 4) {
                let within = if random.once_in(4) { HEADER_BYTES } else { bytes.len() };
                let place = random.below(within);
                bytes[place] ^= 1 << random.below(8);
            }
        }
        Damage::Truncated => {
            let cut = if random.once_in(2) { random.between(1, 3) } else { random.between(1, bytes.len()) };
            bytes.truncate(bytes.len() - cut);
        }
        Damage::Extended => {
            for _ in 0..random.between(1, 5) {
                bytes.push(random.below(256) as u8);
            }
        }
        Damage::Header => {
            let (place, numbers): (usize, [u16; 4]) = random.choose(&[
                (0, [0, 32, 33, 257]),
                (2, [0, 64, 65, 256]),
                (4, [0, 256, 257, 512]),
                (6, [0, 64, 65, 256]),
                (8, [0, 19, 21, 20]),
                (10, [1, 20, 256, 65535]),
                (12, [0, 20, 21, 65535]),
                (16, [0, 20, 12820, 12821]),
                (18, [1, 20, 256, 65535]),
            ]);
            bytes[place..place + 2].copy_from_slice(&random.choose(&numbers).to_le_bytes());
        }
    }
}
