//! Calls as values, and what two implementations do with one.
//!
//! An implementation is a function: it makes the call with what is lent and answers. Two of them agree on a
//! call when the answers are equal and everything lent is equal afterwards: the sheets, each buffer, what
//! stands before and past it, and the session.
//!
//! Walks are made in days: a session is opened, and several desks walk, each walk on the session that the
//! last one left. An answer to a day has the answer of each walk and the session after it.

use std::collections::BTreeMap;

use crate::filer::{Verdict, compare, prime_form, row, row_check, settle, settle_since};
use crate::frequencies::{MOST_LISTED, frequencies};
use crate::generator::sample;
use crate::page::{page, write_page};
use crate::random::Random;
use crate::reached::reached_kinds;
use crate::sense::Sense;
use crate::sheet::{Card, MOST_KINDS, Numbers, Refusal, numbers, read};
use crate::shelf::{Entries, MOST_TOKENS, ShelfNumber, shelf_field, shelf_number, tokens_of};
use crate::squads::squads;
use crate::walker::{self, DESKS, Walked, walk_lent};

/// Makes a call with what is lent, and answers.
pub type Implementation = fn(&Call, &mut Lent) -> Answer;

/// A call, with the numbers that it gives and the lengths of the buffers that it lends.
#[derive(Clone, Debug, PartialEq, Eq)]
pub enum Call {
    Settle { entries: usize },
    SettleSince { entries: usize, marks: usize },
    RowCheck { kinds: usize, kind: usize, entries: usize },
    Row { kinds: usize, kind: usize, entries: usize },
    Compare { sense: Sense, first: usize, second: usize },
    PrimeForm { sense: Sense, field: usize, entries: usize },
    Day(Day),
    Page { bytes: usize },
    Numbers,
    ShelfNumber { field: usize },
    ShelfField { size: usize, number: u64, entries: usize },
    Squads { whole: usize, squad: usize, entries: usize },
    Frequencies { field: usize, size: usize, entries: usize },
}

/// A day: a session from its opening to its last walk.
#[derive(Clone, Debug, PartialEq, Eq)]
pub struct Day {
    /// What each desk is given when the session opens.
    pub allowances: [u32; DESKS],
    /// The length of the session array that is lent.
    pub entries: usize,
    /// The walks in their order, each on the session that the last one left.
    pub walks: Vec<Walk>,
}

/// A walk of a day.
#[derive(Clone, Copy, Debug, PartialEq, Eq)]
pub struct Walk {
    /// Which of the lent sheets.
    pub sheet: usize,
    pub first: usize,
    pub second: usize,
    pub limit: u64,
    pub desk: usize,
}

/// A walk that was made.
#[derive(Clone, Debug, PartialEq, Eq)]
pub struct Made {
    pub answer: Result<Walked, Refusal>,
    /// The session array after the walk.
    pub session: Margined<u32>,
}

impl Day {
    /// Makes the walks one after another, each by a function, on what is lent.
    pub fn make(&self, lent: &mut Lent, mut walk: impl FnMut(&Walk, &mut Lent) -> Result<Walked, Refusal>) -> Answer {
        let made = self.walks.iter().map(|asked| {
            let answer = walk(asked, lent);
            Made { answer, session: lent.session.clone() }
        });
        Answer::Day(made.collect())
    }
}

/// What a call answers.
#[derive(Clone, Debug, PartialEq, Eq)]
pub enum Answer {
    Refused(Refusal),
    /// Settle, alone or with the marks, with the settled stage.
    Settled {
        stage: u32,
    },
    /// Row's check.
    RowThere,
    /// Row: where in the lent table the part starts, and its entries. An empty part starts at 0.
    Row {
        start: usize,
        entries: usize,
    },
    /// Compare, in either sense.
    Verdict(Verdict),
    /// Prime form, in either sense.
    FormWritten,
    /// A day, with its walks in their order.
    Day(Vec<Made>),
    /// The page, with its length.
    PageWritten {
        bytes: usize,
    },
    /// A sheet's numbers.
    Numbers(Numbers),
    /// Shelf number.
    ShelfNumber(ShelfNumber),
    /// Shelf field.
    FieldWritten,
    /// Squads, with how often the squad goes into the whole.
    Squads {
        count: u64,
    },
    /// Frequencies.
    FrequenciesWritten,
}

impl Answer {
    /// Whether it is that of Settle, alone or with the marks, and no refusal.
    pub fn is_settled(&self) -> bool {
        matches!(self, Answer::Settled { .. })
    }
}

/// Entries before and past each buffer that must stay as they are.
pub const MARGIN: usize = 8;

/// A buffer between two margins.
#[derive(Clone, Debug, PartialEq, Eq)]
pub struct Margined<T> {
    all: Vec<T>,
}

impl<T: Copy> Margined<T> {
    /// A buffer of some entries; it and its margins are filled by number.
    pub fn new(entries: usize, fill: impl Fn(usize) -> T) -> Margined<T> {
        Margined { all: (0..entries + 2 * MARGIN).map(fill).collect() }
    }

    /// The buffer without its margins.
    pub fn lent(&self) -> &[T] {
        &self.all[MARGIN..self.all.len() - MARGIN]
    }

    /// The buffer without its margins, to be written.
    pub fn lent_mut(&mut self) -> &mut [T] {
        let end = self.all.len() - MARGIN;
        &mut self.all[MARGIN..end]
    }
}

/// Everything that a call lends.
#[derive(Clone, Debug, PartialEq, Eq)]
pub struct Lent {
    /// The sheets of a day; of any other call the one that it reads.
    pub sheets: Vec<Margined<u8>>,
    /// The table of Settle, alone and with the marks, and of Row.
    pub table: Margined<u32>,
    /// The marks of Settle with the marks.
    pub since: Margined<u32>,
    /// The buffer of Prime form in either sense, and that of the remainder of Squads.
    pub counts: Margined<u64>,
    /// The buffer of the page.
    pub page: Margined<u8>,
    /// The buffer of Shelf field.
    pub field: Margined<u16>,
    /// The buffer of Frequencies.
    pub frequencies: Margined<u32>,
    /// The session array of a day: what each desk has left, and entries that are nobody's.
    pub session: Margined<u32>,
}

impl Lent {
    /// What a call lends: all the sheets for a day, else the first, and buffers of the lengths that it says,
    /// with contents that no call writes by chance.
    pub fn new(call: &Call, sheets: &[Vec<u8>]) -> Lent {
        let table = match *call {
            Call::Settle { entries }
            | Call::SettleSince { entries, .. }
            | Call::RowCheck { entries, .. }
            | Call::Row { entries, .. } => entries,
            _ => 0,
        };
        let since = if let Call::SettleSince { marks, .. } = *call { marks } else { 0 };
        let counts = match *call {
            Call::PrimeForm { entries, .. } | Call::Squads { entries, .. } => entries,
            _ => 0,
        };
        let page = if let Call::Page { bytes } = *call { bytes } else { 0 };
        let field = if let Call::ShelfField { entries, .. } = *call { entries } else { 0 };
        let frequencies = if let Call::Frequencies { entries, .. } = *call { entries } else { 0 };
        // The allowances that a short session array has no room for stand past it, where a call must not read them.
        let (read, session, allowances) = match call {
            Call::Day(day) => (sheets, day.entries, &day.allowances[..]),
            _ => (&sheets[..1], 0, &[][..]),
        };
        Lent {
            sheets: read.iter().map(|sheet| Margined::new(sheet.len(), or_else(sheet, |_| 0xa5))).collect(),
            table: Margined::new(table, |index| 0xa5a5_0000 + index as u32),
            since: Margined::new(since, |index| 0xa5a5_0000 + index as u32),
            counts: Margined::new(counts, |index| 0xa5a5_a5a5_0000_0000 + index as u64),
            page: Margined::new(page, |index| 0x80 | index as u8),
            field: Margined::new(field, |index| 0xa500 + index as u16),
            frequencies: Margined::new(frequencies, |index| 0xa5a5_0000 + index as u32),
            session: Margined::new(session, or_else(allowances, |index| 0x5a5a_0000 + index as u32)),
        }
    }
}

/// Fills a buffer from its first entry on with what is given, and all else by number.
fn or_else<T: Copy>(given: &[T], fill: impl Fn(usize) -> T) -> impl Fn(usize) -> T {
    move |index| index.checked_sub(MARGIN).and_then(|place| given.get(place)).copied().unwrap_or_else(|| fill(index))
}

/// Makes a call on the independent implementation.
pub fn independent(call: &Call, lent: &mut Lent) -> Answer {
    let sheet = lent.sheets[0].lent();
    let answer = match *call {
        Call::Settle { .. } => settle(sheet, lent.table.lent_mut()).map(|stage| Answer::Settled { stage }),
        Call::SettleSince { .. } => {
            settle_since(sheet, lent.table.lent_mut(), lent.since.lent_mut()).map(|stage| Answer::Settled { stage })
        }
        Call::RowCheck { kinds, kind, .. } => row_check(lent.table.lent(), kinds, kind).map(|()| Answer::RowThere),
        Call::Row { kinds, kind, .. } => Ok(row_place(lent.table.lent(), row(lent.table.lent(), kinds, kind))),
        Call::Compare { sense, first, second } => compare(sense, sheet, first, second).map(Answer::Verdict),
        Call::PrimeForm { sense, field, .. } => {
            prime_form(sense, sheet, field, lent.counts.lent_mut()).map(|()| Answer::FormWritten)
        }
        Call::Day(ref day) => Ok(day.make(lent, independent_walk)),
        Call::Page { .. } => write_page(sheet, lent.page.lent_mut()).map(|bytes| Answer::PageWritten { bytes }),
        Call::Numbers => numbers(sheet).map(Answer::Numbers),
        Call::ShelfNumber { field } => shelf_number(sheet, field).map(Answer::ShelfNumber),
        Call::ShelfField { size, number, .. } => {
            shelf_field(sheet, size, number, lent.field.lent_mut()).map(|()| Answer::FieldWritten)
        }
        Call::Squads { whole, squad, .. } => {
            squads(sheet, whole, squad, lent.counts.lent_mut()).map(|count| Answer::Squads { count })
        }
        Call::Frequencies { field, size, .. } => {
            frequencies(sheet, field, size, lent.frequencies.lent_mut()).map(|()| Answer::FrequenciesWritten)
        }
    };
    answer.unwrap_or_else(Answer::Refused)
}

/// Makes a call on a sheet, with buffers of its own: the answer, and all that was lent.
pub fn make(implementation: Implementation, call: &Call, sheet: &[u8]) -> (Answer, Lent) {
    let mut lent = Lent::new(call, &[sheet.to_vec()]);
    (implementation(call, &mut lent), lent)
}

/// The verdict on two fields of a sheet, in a sense.
pub fn verdict_of(implementation: Implementation, sense: Sense, sheet: &[u8], first: usize, second: usize) -> Verdict {
    match make(implementation, &Call::Compare { sense, first, second }, sheet).0 {
        Answer::Verdict(verdict) => verdict,
        other => panic!("{other:?} is no verdict"),
    }
}

/// The prime form of a field of a sheet of so many kinds, in a sense.
pub fn form_of(implementation: Implementation, sense: Sense, sheet: &[u8], field: usize, kinds: usize) -> Vec<u64> {
    match make(implementation, &Call::PrimeForm { sense, field, entries: kinds }, sheet) {
        (Answer::FormWritten, lent) => lent.counts.lent().to_vec(),
        (other, _) => panic!("{other:?} is no prime form"),
    }
}

/// The page of a sheet.
pub fn page_of(implementation: Implementation, sheet: &[u8]) -> String {
    match make(implementation, &Call::Page { bytes: 1 << 17 }, sheet) {
        (Answer::PageWritten { bytes }, lent) => {
            std::str::from_utf8(&lent.page.lent()[..bytes]).expect("a page is text").to_owned()
        }
        (other, _) => panic!("{other:?} is no page"),
    }
}

/// Makes a walk of a day on the independent implementation.
pub fn independent_walk(walk: &Walk, lent: &mut Lent) -> Result<Walked, Refusal> {
    let Walk { sheet, first, second, limit, desk } = *walk;
    walk_lent(lent.sheets[sheet].lent(), first, second, limit, desk, lent.session.lent_mut())
}

/// Where a part of a table lies in it.
pub fn row_place(table: &[u32], part: &[u32]) -> Answer {
    let start = if part.is_empty() { 0 } else { (part.as_ptr() as usize - table.as_ptr() as usize) / size_of::<u32>() };
    Answer::Row { start, entries: part.len() }
}

/// The sheets that the calls of a number are made on: the sheet of that number, and beside it those of the two
/// next numbers, which only the walks of its day read.
pub fn sheets(seed: u64, number: u64) -> Vec<Vec<u8>> {
    (number..number + 3).map(|number| sample(seed, number).bytes).collect()
}

/// A byte of a sheet's header, or 0 where the sheet has none there.
fn header(sheet: &[u8], place: usize) -> usize {
    usize::from(*sheet.get(place).unwrap_or(&0))
}

/// The calls that are tried on a sheet, the first of some: each entry with buffers that are too short, just
/// long enough or longer, and with numbers in range and out of it; and a day on all of them.
pub fn calls(sheets: &[Vec<u8>], random: &mut Random) -> Vec<Call> {
    let sheet = &sheets[0];
    let (kinds, fields) = (header(sheet, 0).min(40), header(sheet, 6));
    let card = read(sheet).ok();
    let reached = card.as_ref().map_or(kinds, |card| reached_kinds(card).len());
    let mut calls = vec![Call::Settle { entries: around(kinds * kinds, random) }];
    for _ in 0..2 {
        let (kinds, kind) =
            (if random.once_in(4) { number_near(40, random) } else { kinds }, number_near(kinds, random));
        let entries = around(kinds.min(40) * kinds.min(40), random);
        calls.push(Call::RowCheck { kinds, kind, entries });
        calls.push(Call::Row { kinds, kind, entries });
    }
    for _ in 0..2 {
        let (first, second) = pair_near(fields, random);
        calls.push(Call::Compare { sense: Sense::Plain, first, second });
    }
    calls.push(prime_form_near(Sense::Plain, kinds, fields, random));
    calls.push(Call::Day(day(sheets, random)));
    calls.push(Call::Page { bytes: around(page(sheet).len(), random) });
    calls.push(Call::Numbers);
    for _ in 0..2 {
        calls.push(Call::ShelfNumber { field: number_near(fields, random) });
        let size = number_near(MOST_TOKENS as usize + 1, random);
        let numbered = if random.once_in(4) { kinds } else { reached };
        let number = shelf_number_near(numbered, size, random);
        calls.push(Call::ShelfField { size, number, entries: around(kinds, random) });
    }
    for _ in 0..4 {
        let (whole, squad) = squads_near(fields, random);
        calls.push(Call::Squads { whole, squad, entries: around(kinds, random) });
    }
    for _ in 0..2 {
        let (first, second) = pair_near(fields, random);
        calls.push(Call::Compare { sense: Sense::Finer, first, second });
    }
    calls.push(prime_form_near(Sense::Finer, kinds, fields, random));
    for _ in 0..2 {
        let (field, size) = match &card {
            Some(card) => frequencies_near(card, reached, random),
            None => (number_near(fields, random), listed_size_near(reached, random)),
        };
        calls.push(Call::Frequencies { field, size, entries: around(kinds + 2, random) });
    }
    calls.push(Call::SettleSince { entries: around(kinds * kinds, random), marks: around(kinds, random) });
    calls
}

/// A call of Prime form on a sheet of so many kinds and fields.
fn prime_form_near(sense: Sense, kinds: usize, fields: usize, random: &mut Random) -> Call {
    Call::PrimeForm { sense, field: number_near(fields, random), entries: around(kinds, random) }
}

/// A day on some sheets: walks by up to four of the desks and, at times, by one that there is not. Often a
/// walk is asked for once more, by any of them, so that it may be spent for one and answered for another. All
/// eight allowances are small, so that a walk ends soon whichever of them it reads.
pub fn day(sheets: &[Vec<u8>], random: &mut Random) -> Day {
    let allowances = [0; DESKS].map(|_| {
        let bound = if random.once_in(10) { 100_000 } else { random.choose(&[20, 200, 2_000, 20_000]) };
        random.below(bound) as u32
    });
    let desks: Vec<usize> = (0..random.between(1, 4)).map(|_| random.below(DESKS)).collect();
    let mut walks: Vec<Walk> = Vec::new();
    for _ in 0..random.between(2, 10) {
        let mut desk = random.choose(&desks);
        if random.once_in(8) {
            desk = random.choose(&[DESKS, DESKS + 1, 255, 256 + desk, (1 << 16) + desk, (1 << 32) + desk, usize::MAX]);
        }
        walks.push(match walks.last() {
            Some(&last) if random.once_in(3) => Walk { desk, ..last },
            _ => {
                let sheet = random.below(sheets.len());
                let (first, second) = pair_near(header(&sheets[sheet], 6), random);
                Walk { sheet, first, second, limit: number_near(9, random) as u64, desk }
            }
        });
    }
    let entries = match random.below(8) {
        0 => random.below(DESKS),
        1..=2 => DESKS + random.below(20),
        _ => DESKS,
    };
    Day { allowances, entries, walks }
}

/// How many fields of 16 tokens of 32 kinds there are: no entry is greater.
const GREATEST_ENTRY: u64 = 1_503_232_609_098;

/// A number of a field of a size, in most cases under the entry: any, one of the first or one of the last;
/// else the entry or a number past it. For a size that has no numbers, it goes by the greatest that has.
fn shelf_number_near(kinds: usize, size: usize, random: &mut Random) -> u64 {
    let tokens = (size as u64).min(MOST_TOKENS);
    let entry = Entries::new(kinds.min(MOST_KINDS), tokens).of(kinds.min(MOST_KINDS), tokens);
    match random.below(12) {
        0 => entry,
        1 => random.choose(&[entry + 1, 1 << 32, GREATEST_ENTRY - 1, GREATEST_ENTRY, 1 << 63, u64::MAX]),
        2 => random.below(3) as u64,
        3..=5 => entry.saturating_sub(1 + random.below(3) as u64),
        _ => random.below(entry.max(1) as usize) as u64,
    }
}

/// So many fields of a size are few.
const FEW_FIELDS: u64 = 600;

/// The greatest size of which there are at most so many fields of some kinds.
fn greatest_size(kinds: usize, most: u64) -> usize {
    let entries = Entries::new(kinds.min(MOST_KINDS), MOST_TOKENS);
    let sizes = (0..=MOST_TOKENS).filter(|&tokens| entries.of(kinds.min(MOST_KINDS), tokens) <= most);
    sizes.max().expect("there is one field of no tokens") as usize
}

/// A size of which Frequencies lists the fields of so many kinds, in most cases one of which there are few; else the
/// greatest of which it lists them, or one token more, or any, which may be over what is listed or over what is numbered.
fn listed_size_near(kinds: usize, random: &mut Random) -> usize {
    match random.below(64) {
        0 => greatest_size(kinds, MOST_LISTED),
        1..=4 => greatest_size(kinds, MOST_LISTED) + 1,
        5..=8 => number_near(MOST_TOKENS as usize + 1, random),
        _ => random.below(greatest_size(kinds, FEW_FIELDS) + 1),
    }
}

/// A field of a card that reaches so many kinds, and a size for Frequencies. In half of the cases it is a field of a size
/// of which there are few, at times of any that is listed, where there is one, and this size or one token more or less, so
/// that some of those that are listed have its norm.
pub fn frequencies_near(card: &Card, reached: usize, random: &mut Random) -> (usize, usize) {
    let greatest = greatest_size(reached, if random.once_in(16) { MOST_LISTED } else { FEW_FIELDS });
    let size_of = |field: usize| tokens_of(&card.field(field)) as usize;
    let small: Vec<usize> = (0..card.fields).filter(|&field| size_of(field) <= greatest).collect();
    if small.is_empty() || random.once_in(2) {
        return (number_near(card.fields, random), listed_size_near(reached, random));
    }
    let field = random.choose(&small);
    let size = size_of(field);
    (field, random.choose(&[size, size, size + 1, size.saturating_sub(1)]))
}

/// A length: in most cases one that is long enough, by nothing or a little; else one too short.
fn around(length: usize, random: &mut Random) -> usize {
    match random.below(8) {
        0 => length.saturating_sub(1),
        1 => random.below(length + 1),
        2..=4 => length,
        _ => length + random.below(20),
    }
}

/// A number, in most cases under `count`.
fn number_near(count: usize, random: &mut Random) -> usize {
    match random.below(16) {
        0 => count,
        1 => random.choose(&[count + 1, 64, 255, 256, 1 << 16, 1 << 32, usize::MAX]),
        _ => random.below(count.max(1)),
    }
}

/// Two numbers, in most cases under `count` and not equal.
fn pair_near(count: usize, random: &mut Random) -> (usize, usize) {
    let first = number_near(count, random);
    let second = number_near(count, random);
    if first == second && !random.once_in(4) {
        (first, (first.wrapping_add(1)) % count.max(1))
    } else {
        (first, second)
    }
}

/// A whole and a squad, in most cases fields of so many that there are. The squad is often the field before the whole,
/// where there is one, and one in eight wholes is its own squad.
pub fn squads_near(fields: usize, random: &mut Random) -> (usize, usize) {
    let whole = number_near(fields, random);
    let squad = match random.below(8) {
        0 => whole,
        1..=4 if whole > 0 => whole - 1,
        _ => number_near(fields, random),
    };
    (whole, squad)
}

/// A call on which two implementations differ.
#[derive(Clone, Debug)]
pub struct Difference {
    /// The number of the sheet, for `generator::sample`.
    pub number: u64,
    pub call: Call,
    pub answers: [Answer; 2],
    /// Whether what was lent differs afterwards.
    pub lent_differs: bool,
}

/// What a comparison of two implementations found.
#[derive(Clone, Debug, Default)]
pub struct Comparison {
    pub sheets: u64,
    /// The calls that were made; of a day its walks are counted.
    pub calls: u64,
    pub days: u64,
    /// How often each answer was given by the first implementation, by its name and number.
    pub answers: BTreeMap<String, u64>,
    /// Of these, those on sheets that have a kind that is out. Where they are walks of a day, this is its first sheet.
    pub part_used: BTreeMap<String, u64>,
    pub differences: Vec<Difference>,
}

/// Makes the calls of some sheets of a seed on two implementations.
pub fn compare_implementations(
    seed: u64,
    numbers: std::ops::Range<u64>,
    first: Implementation,
    second: Implementation,
) -> Comparison {
    let mut comparison = Comparison::default();
    for number in numbers {
        let sheets = sheets(seed, number);
        let mut random = Random::new(seed.rotate_left(32) ^ number);
        let part_used = read(&sheets[0]).is_ok_and(|card| reached_kinds(&card).len() < card.kinds);
        comparison.sheets += 1;
        for call in calls(&sheets, &mut random) {
            let mut lent = [Lent::new(&call, &sheets), Lent::new(&call, &sheets)];
            let answers = [first(&call, &mut lent[0]), second(&call, &mut lent[1])];
            let lent_differs = lent[0] != lent[1];
            comparison.days += u64::from(matches!(call, Call::Day(_)));
            for name in names(&call, &answers[0]) {
                comparison.calls += 1;
                *comparison.part_used.entry(name.clone()).or_default() += u64::from(part_used);
                *comparison.answers.entry(name).or_default() += 1;
            }
            if answers[0] != answers[1] || lent_differs {
                comparison.differences.push(Difference { number, call, answers, lent_differs });
            }
        }
    }
    comparison
}

/// The name of a call's entry and of its answer, for a day those of each walk; of Shelf number, Shelf field and
/// Frequencies the size is the answer, of Squads how often, from 2 on by its bits.
fn names(call: &Call, answer: &Answer) -> Vec<String> {
    let entry = match call {
        Call::Settle { .. } => "settle",
        Call::SettleSince { .. } => "settle since",
        Call::RowCheck { .. } => "row check",
        Call::Row { .. } => "row",
        Call::Compare { sense: Sense::Plain, .. } => "compare",
        Call::Compare { sense: Sense::Finer, .. } => "finer compare",
        Call::PrimeForm { sense: Sense::Plain, .. } => "prime form",
        Call::PrimeForm { sense: Sense::Finer, .. } => "finer prime form",
        Call::Day(_) => "walk",
        Call::Page { .. } => "page",
        Call::Numbers => "numbers",
        Call::ShelfNumber { .. } => "shelf number",
        Call::ShelfField { .. } => "shelf field",
        Call::Squads { .. } => "squads",
        Call::Frequencies { .. } => "frequencies",
    };
    let answer = match (answer, call) {
        (Answer::Day(made), _) => {
            return made.iter().map(|made| format!("{entry}: {}", walk_name(made.answer))).collect();
        }
        (Answer::Refused(refusal), _) => format!("refused {}", refusal.number),
        (Answer::Settled { stage }, _) => format!("stage {stage}"),
        (Answer::Row { entries: 0, .. }, _) => "empty".to_string(),
        (Answer::Verdict(Verdict::Same), _) => "same".to_string(),
        (Answer::Verdict(Verdict::Different { stage, .. }), _) => format!("different {stage}"),
        (Answer::ShelfNumber(ShelfNumber { size, .. }), _) => format!("size {size}"),
        (Answer::FieldWritten, Call::ShelfField { size, .. })
        | (Answer::FrequenciesWritten, Call::Frequencies { size, .. }) => format!("size {size}"),
        (Answer::Squads { count: count @ 0..=1 }, _) => format!("{count}"),
        (Answer::Squads { count }, _) if count >> 16 == 0 => "of 16 bits".to_string(),
        (Answer::Squads { count }, _) if count >> 32 == 0 => "of 32 bits".to_string(),
        (Answer::Squads { .. }, _) => "of 64 bits".to_string(),
        (
            Answer::RowThere
            | Answer::Row { .. }
            | Answer::FormWritten
            | Answer::PageWritten { .. }
            | Answer::Numbers(_)
            | Answer::FieldWritten
            | Answer::FrequenciesWritten,
            _,
        ) => "done".to_string(),
    };
    vec![format!("{entry}: {answer}")]
}

/// The name of a walk's answer.
fn walk_name(answer: Result<Walked, Refusal>) -> String {
    match answer.map(|walked| walked.answer) {
        Err(refusal) => format!("refused {}", refusal.number),
        Ok(walker::Answer::Apart { .. }) => "apart".to_string(),
        Ok(walker::Answer::Together) => "together".to_string(),
        Ok(walker::Answer::Spent) => "spent".to_string(),
    }
}
