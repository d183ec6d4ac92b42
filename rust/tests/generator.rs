//! The generator and the independent implementation on the generator's sheets, by themselves.

use std::collections::{BTreeMap, BTreeSet};

use independent::base::{Base, Refinement};
use independent::calls::{Answer, Call, Lent, calls, compare_implementations, day, independent, make, sheets};
use independent::counting::try_counts;
use independent::finer::try_finer;
use independent::frequencies::MOST_LISTED;
use independent::generator::{COSTLY, Damage, FAMILIES, Family, Size, apply, draft, measured, sample, use_some};
use independent::marks::try_marks;
use independent::norm::{NORM_LIMIT, NormedCard, accept, kind_norms};
use independent::page::page;
use independent::parts::{Promise, try_parts};
use independent::random::Random;
use independent::reached::{kinds_left, lines_to, reached_kinds};
use independent::sense::Sense;
use independent::sheet::{Card, MOST_BYTES, MOST_KINDS, Refusal, read};
use independent::shelf::{Entries, MOST_TOKENS, tokens_of};
use independent::walker::{Answer as Found, Walked};

const SEED: u64 = 20_261_115;

#[test]
fn a_seed_gives_the_same_sheets() {
    for number in 0..200 {
        assert_eq!(sample(SEED, number).bytes, sample(SEED, number).bytes);
    }
    assert_ne!(sample(SEED, 0).bytes, sample(SEED + 1, 0).bytes);
}

#[test]
fn every_refusal_and_every_answer_is_met() {
    let comparison = compare_implementations(SEED, 0..20_000, independent, independent);
    for (name, count) in &comparison.answers {
        println!("{count:8} {name}");
    }
    let met = |name: &str| assert!(comparison.answers.contains_key(name), "{name}");
    for number in 1..=12 {
        met(&format!("settle: refused {number}").replace("settle: refused 11", "compare: refused 11"));
    }
    met("compare: same");
    for name in [
        "row: empty",
        "row: done",
        "row check: refused 2",
        "row check: refused 11",
        "row check: refused 12",
        "page: refused 12",
        "page: done",
    ] {
        met(name);
    }
    for number in 1..=8 {
        met(&format!("numbers: refused {number}"));
    }
    met("settle since: stage 32");
    met("numbers: done");
    for stage in 0..=8 {
        met(&format!("compare: different {stage}"));
    }
    for sense in ["prime form", "finer prime form"] {
        met(&format!("{sense}: done"));
    }
    met("settle: stage 32");
    assert_eq!(comparison.differences.len(), 0);
    // Of walks, of Settle with the marks, of the two calls on shelf numbers, of squads and of frequencies each answer is met often.
    let often = |name: &str| assert!(comparison.answers.get(name).is_some_and(|&count| count > 100), "{name}");
    for name in ["apart", "together", "spent"] {
        often(&format!("walk: {name}"));
    }
    for stage in 1..=3 {
        often(&format!("settle since: stage {stage}"));
    }
    for number in [1, 2, 3, 4, 5, 6, 7, 8, 9, 10, 12] {
        often(&format!("settle since: refused {number}"));
    }
    for number in [16, 1, 2, 3, 4, 5, 6, 7, 8, 11, 13, 12] {
        often(&format!("walk: refused {number}"));
    }
    for size in 0..=16 {
        often(&format!("shelf number: size {size}"));
        often(&format!("shelf field: size {size}"));
    }
    for number in [1, 2, 3, 4, 5, 6, 7, 8, 9, 10] {
        often(&format!("shelf number: refused {number}"));
        often(&format!("shelf field: refused {number}"));
    }
    for name in
        ["number: refused 11", "number: refused 14", "field: refused 14", "field: refused 15", "field: refused 12"]
    {
        often(&format!("shelf {name}"));
    }
    for name in ["0", "1", "of 16 bits"] {
        often(&format!("squads: {name}"));
    }
    for number in [1, 2, 3, 4, 5, 6, 7, 8, 9, 10, 11, 17, 12] {
        often(&format!("squads: refused {number}"));
    }
    for size in 0..=16 {
        often(&format!("frequencies: size {size}"));
    }
    for number in [1, 2, 3, 4, 5, 6, 7, 8, 9, 10, 11, 14, 18, 12] {
        often(&format!("frequencies: refused {number}"));
    }
    // In the finer sense each refusal is met often, and each stage.
    for number in [1, 2, 3, 4, 5, 6, 7, 8, 9, 10, 11] {
        often(&format!("finer compare: refused {number}"));
        often(&format!("finer prime form: refused {number}"));
    }
    for name in ["finer prime form: refused 12", "finer prime form: done", "finer compare: same"] {
        often(name);
    }
    for stage in 0..=8 {
        met(&format!("finer compare: different {stage}"));
    }
    met("squads: of 32 bits");
    met("squads: of 64 bits");
    // On sheets that have a kind that is out each call is answered, and refused by 9 and by 10.
    let on_parts = |name: &str| assert!(comparison.part_used.get(name).is_some_and(|&count| count > 10), "{name}");
    for name in ["settle: stage 1", "settle: stage 2", "settle: stage 3", "compare: same", "finer compare: same"] {
        on_parts(name);
    }
    for stage in 1..=3 {
        on_parts(&format!("settle since: stage {stage}"));
    }
    for stage in 0..=3 {
        on_parts(&format!("compare: different {stage}"));
        on_parts(&format!("finer compare: different {stage}"));
    }
    for name in [
        "prime form: done",
        "finer prime form: done",
        "page: done",
        "numbers: done",
        "squads: 0",
        "squads: 1",
        "squads: of 16 bits",
    ] {
        on_parts(name);
    }
    for entry in [
        "settle",
        "settle since",
        "compare",
        "finer compare",
        "prime form",
        "finer prime form",
        "shelf number",
        "shelf field",
        "squads",
        "frequencies",
    ] {
        on_parts(&format!("{entry}: refused 9"));
        on_parts(&format!("{entry}: refused 10"));
    }
    for size in 0..=16 {
        on_parts(&format!("shelf number: size {size}"));
        on_parts(&format!("shelf field: size {size}"));
        on_parts(&format!("frequencies: size {size}"));
    }
    for name in [
        "shelf number: refused 14",
        "shelf field: refused 15",
        "shelf field: refused 12",
        "squads: refused 17",
        "frequencies: refused 18",
        "frequencies: refused 12",
    ] {
        on_parts(name);
    }
}

/// Of what sorts a sheet is by the kinds that are out, where it passes the checks of header and lines.
fn sorts_of_parts(card: &Card) -> BTreeSet<&'static str> {
    let (steps, norms, reached) = (lines_to(card), kind_norms(card), reached_kinds(card));
    let is_out = |kind: &usize| steps[*kind].is_none();
    let out: Vec<usize> = (0..card.kinds).filter(is_out).collect();
    let missing = |kind: &usize| norms[*kind].is_none();
    let over = |kind: &usize| norms[*kind] > Some(NORM_LIMIT);
    let refused = |fault: &dyn Fn(&usize) -> bool| {
        reached.iter().any(fault) && (0..card.kinds).find(fault) != reached.iter().copied().find(fault)
    };
    // Whether some line of a kind that is out leaves one of which the like is said.
    let out_leaves = |said: &dyn Fn(&usize) -> bool| {
        card.lines.iter().any(|line| is_out(&line.kind) && kinds_left(line).any(|kind| said(&kind)))
    };
    let accepted = !reached.iter().any(missing) && !reached.iter().any(over);
    let part_used = !out.is_empty() && !reached.is_empty();
    let others = [
        ("no kind is out", out.is_empty()),
        ("some kinds are out, and others are reached", part_used),
        ("there is no field", card.fields == 0),
        ("there are fields, all of them empty", card.fields > 0 && reached.is_empty()),
        ("a kind is reached through one line", steps.contains(&Some(1))),
        ("a kind is reached through two lines", steps.contains(&Some(2))),
        ("a kind is reached through three lines or more", steps.iter().any(|&step| step > Some(2))),
        ("a kind that is out has no norm, and the sheet is accepted", accepted && part_used && out.iter().any(missing)),
        ("one is over the limit, and the sheet is accepted", accepted && part_used && out.iter().any(over)),
        ("all that are out have norms", accepted && part_used && out.iter().all(|kind| !missing(kind) && !over(kind))),
        ("a kind is left by ones that are out alone", part_used && out_leaves(&is_out)),
        ("a kind that is out leaves one that is reached", out_leaves(&|kind| !is_out(kind))),
        ("refused by 9, and a lower kind without a norm is out", refused(&missing)),
        ("refused by 10, and a lower kind over the limit is out", !reached.iter().any(missing) && refused(&over)),
        (
            "refused by 10, and a kind without a norm is out",
            !reached.iter().any(missing) && reached.iter().any(over) && out.iter().any(missing),
        ),
        ("a kind that is out has a lower number than one that is reached", part_used && out.first() < reached.last()),
        ("of 32 kinds some are out", part_used && card.kinds == MOST_KINDS),
    ];
    others.into_iter().filter(|&(_, there)| there).map(|(name, _)| name).collect()
}

/// What the comparison with the library meets of sheets that use a part of their card.
#[test]
fn parts_of_every_sort() {
    let mut sorts: BTreeMap<&str, u64> = BTreeMap::new();
    let mut sheets = 0;
    for number in 0..20_000 {
        let bytes = sample(SEED, number).bytes;
        let Ok(card) = read(&bytes) else { continue };
        sheets += 1;
        for sort in sorts_of_parts(&card) {
            *sorts.entry(sort).or_default() += 1;
        }
    }
    println!("{sheets} {sorts:#?}");
    assert!(sorts.len() == 17 && sorts.values().all(|&count| count > 20), "{sorts:#?}");
    let [all, some] = ["no kind is out", "some kinds are out, and others are reached"].map(|sort| sorts[sort]);
    assert!(all > sheets / 3 && some > sheets / 5, "{all} {some} {sheets}");
}

/// A sheet that uses a part of its card is answered as the sheet of that part.
#[test]
fn the_promises_of_parts_are_kept() {
    let tried = try_parts(SEED, 0..20_000, independent);
    println!("{tried:?}");
    assert!(tried.broken.is_empty(), "{tried:?}");
    assert!(tried.sheets > 4_000 && tried.nothing > 500 && tried.refused > 500, "{tried:?}");
    for (promise, least) in [(Promise::Dropped, 40_000), (Promise::Alone, 20_000), (Promise::Nothing, 5_000)] {
        assert!(tried.held[&promise] > least, "{tried:?}");
    }
}

/// The finer answers go with each other, with the plain ones and with the totals, on sheets of any size.
#[test]
fn the_promises_of_the_finer_sense_are_kept() {
    let tried = try_finer(SEED, 0..20_000, independent);
    println!("{tried:?}");
    assert!(tried.broken.is_empty(), "{tried:?}");
    assert!(tried.sheets > 8_000 && tried.pairs > 30_000 && tried.finer_same > 500, "{tried:?}");
    assert!(tried.unequal_totals > 500 && tried.later > 50, "{tried:?}");
    assert!(tried.forms > 20_000 && tried.of_other_counts > 2_000, "{tried:?}");
    assert!(tried.rows > 10_000 && tried.of_earlier > 1_000 && tried.products > 1_000, "{tried:?}");
}

/// The marks go with Settle, with the rows, with Compare and with the page, on sheets of any size.
#[test]
fn the_promises_of_the_marks_are_kept() {
    let tried = try_marks(SEED, 0..20_000, independent);
    println!("{tried:?}");
    assert!(tried.broken.is_empty(), "{tried:?}");
    assert!(tried.sheets > 8_000 && tried.kinds > 50_000 && tried.out > 10_000, "{tried:?}");
    assert!(tried.later > 10_000 && tried.between > 5_000 && tried.changed > 500, "{tried:?}");
    assert!(tried.parted > 10_000 && tried.parted_later > 1_000 && tried.fields > 10_000, "{tried:?}");
}

/// Of what sorts a call of Settle with the marks is on an accepted sheet.
fn sorts_of_marks(sheet: &[u8], entries: usize, marks: usize) -> BTreeSet<&'static str> {
    let Ok(normed) = accept(sheet) else { return BTreeSet::new() };
    let kinds = normed.card.kinds;
    let (table_room, room) = (entries >= kinds * kinds, marks >= kinds);
    let (answer, lent) = make(independent, &Call::SettleSince { entries: kinds * kinds, marks: kinds }, sheet);
    let Answer::Settled { stage } = answer else { panic!("{answer:?} is no settled stage") };
    let (rows, since) = (lent.table.lent(), lent.since.lent());
    let of = |wanted: &dyn Fn(usize, u32) -> bool| (0..kinds).any(|kind| wanted(kind, since[kind]));
    let is_prime = |kind: usize| rows[kind * kinds + kind] == 1;
    let written = table_room && room;
    let others = [
        ("the table is too short, and the marks have room", !table_room && room),
        ("the marks have no room, and the table does", table_room && !room),
        ("both are too short", !table_room && !room),
        ("both have room for just what is written", entries == kinds * kinds && marks == kinds),
        ("both have more", entries > kinds * kinds && marks > kinds),
        ("no kind is reached", written && normed.reached.is_empty()),
        (
            "a kind that is out stands before one whose mark is over 1",
            written && {
                let out = since.iter().position(|&mark| mark == 0);
                out.is_some_and(|out| since[out..].iter().any(|&mark| mark > 1))
            },
        ),
        ("all marks are 1", written && stage == 1 && !normed.reached.is_empty()),
        ("a prime kind has a mark over 1", written && of(&|kind, mark| is_prime(kind) && mark > 1)),
        ("a kind that is no prime has a mark over 1", written && of(&|kind, mark| !is_prime(kind) && mark > 1)),
        ("a mark is over 1 and under the settled stage", written && of(&|_, mark| mark > 1 && mark < stage)),
        ("that of a kind that is no prime", written && of(&|kind, mark| !is_prime(kind) && mark > 1 && mark < stage)),
        ("a mark is over 8", written && of(&|_, mark| mark > 8)),
        (
            "there are three marks or more",
            written && { since.iter().filter(|&&mark| mark > 0).collect::<BTreeSet<_>>().len() > 2 },
        ),
        (
            "a later kind has an earlier mark",
            written && normed.order.windows(2).any(|pair| since[pair[1]] < since[pair[0]]),
        ),
    ];
    others.into_iter().filter(|&(_, there)| there).map(|(name, _)| name).collect()
}

/// What the comparison with the library meets of Settle with the marks.
#[test]
fn marks_of_every_sort() {
    let mut sorts: BTreeMap<&str, u64> = BTreeMap::new();
    for number in 0..20_000 {
        let sheets = sheets(SEED, number);
        for call in calls(&sheets, &mut Random::new(SEED.rotate_left(32) ^ number)) {
            let Call::SettleSince { entries, marks } = call else { continue };
            for sort in sorts_of_marks(&sheets[0], entries, marks) {
                *sorts.entry(sort).or_default() += 1;
            }
        }
    }
    println!("{sorts:#?}");
    assert!(sorts.len() == 15 && sorts.values().all(|&count| count > 20), "{sorts:#?}");
}

/// Of what sorts a call of Squads on an accepted sheet is, with the forms and the counts of its fields.
fn sorts_of_squads(sheet: &[u8], whole: usize, squad: usize, entries: usize) -> BTreeSet<&'static str> {
    let Ok(normed) = accept(sheet) else { return BTreeSet::new() };
    let (fields, room) = (normed.card.fields, entries >= normed.card.kinds);
    if whole >= fields || squad >= fields {
        let empty = squad < fields && tokens_of(&normed.card.field(squad)) == 0;
        let others = [
            ("the number of the whole is too large", squad < fields),
            ("the number of the squad is too large", whole < fields),
            ("both numbers are too large", whole >= fields && squad >= fields),
            ("the number of the whole is too large, and the squad is empty", empty),
            ("a number is too large, and the buffer too short", !room),
        ];
        return others.into_iter().filter(|&(_, there)| there).map(|(name, _)| name).collect();
    }
    let call = Call::Squads { whole, squad, entries: normed.card.kinds };
    let mut lent = Lent::new(&call, &[sheet.to_vec()]);
    let answer = independent(&call, &mut lent);
    let [counts, one] = [whole, squad].map(|field| normed.card.field(field));
    let empty = tokens_of(&one) == 0;
    let by_counts = counts.iter().zip(&one).filter_map(|(held, taken)| held.checked_div(*taken)).min();
    let count = if let Answer::Squads { count } = answer { count } else { 0 };
    let rest = lent.counts.lent().iter().any(|&tokens| tokens > 0);
    let others = [
        ("the whole is its own squad", whole == squad && !empty),
        ("the squad is empty", empty && room),
        ("the squad is empty, and the buffer too short", empty && !room),
        ("the squad and the whole are empty", empty && tokens_of(&counts) == 0),
        ("the whole is empty", !empty && tokens_of(&counts) == 0),
        ("the buffer is too short", !empty && !room),
        ("several, and nothing remains", count > 1 && !rest),
        ("several, and something remains", count > 1 && rest),
        ("none, of a whole that is not empty", !empty && count == 0 && rest),
        ("more than by the counts", !empty && by_counts.is_some_and(|by_counts| by_counts < count)),
        ("over 65,535", count > u64::from(u16::MAX)),
        ("a count that remains is over 65,535", !empty && lent.counts.lent().iter().any(|&tokens| tokens > 65_535)),
    ];
    others.into_iter().filter(|&(_, there)| there).map(|(name, _)| name).collect()
}

/// What the comparison with the library meets of Squads.
#[test]
fn squads_of_every_sort() {
    let mut sorts: BTreeMap<&str, u64> = BTreeMap::new();
    for number in 0..20_000 {
        let sheets = sheets(SEED, number);
        for call in calls(&sheets, &mut Random::new(SEED.rotate_left(32) ^ number)) {
            let Call::Squads { whole, squad, entries } = call else { continue };
            for sort in sorts_of_squads(&sheets[0], whole, squad, entries) {
                *sorts.entry(sort).or_default() += 1;
            }
        }
    }
    println!("{sorts:#?}");
    assert!(sorts.len() == 5 + 12 && sorts.values().all(|&count| count > 50), "{sorts:#?}");
}

/// The counts of Frequencies go with Shelf field, with Compare, with Settle and with each other, on sheets of any size.
#[test]
fn the_promises_of_frequencies_are_kept() {
    let tried = try_counts(SEED, 0..20_000, independent);
    println!("{tried:?}");
    assert!(tried.broken.is_empty(), "{tried:?}");
    assert!(tried.answered > 16_000 && tried.of_large_fields > 2_000 && tried.alike > 400, "{tried:?}");
    assert!(tried.judged > 12_000 && tried.fields > 120_000 && tried.same_unequal > 1_200, "{tried:?}");
    assert!(tried.first > 2_000 && tried.later > 8_000, "{tried:?}");
}

/// Of what sorts a call of Frequencies on an accepted sheet is that is refused by a number or a size.
fn sorts_of_refused_frequencies(
    normed: &NormedCard,
    field: usize,
    size: usize,
    room: bool,
) -> Option<BTreeSet<&'static str>> {
    let tokens = size as u64;
    let (number_over, size_over) = (field >= normed.card.fields, tokens > MOST_TOKENS);
    let entry_over = |kinds: usize| !size_over && Entries::new(kinds, tokens).of(kinds, tokens) > MOST_LISTED;
    let (kinds, entry_over_reached) = (normed.card.kinds, entry_over(normed.reached.len()));
    let others = [
        ("the number of the field is too large", number_over),
        ("the number of the field and the size are too large", number_over && size_over),
        ("the number of the field and the entry are too large", number_over && entry_over_reached),
        ("the number of the field is too large, and the buffer too short", number_over && !room),
        ("the size is over 16", !number_over && size_over),
        ("the size is over 16, and the buffer too short", !number_over && size_over && !room),
        ("the entry is too large", !number_over && entry_over_reached),
        ("the entry is too large, and the buffer too short", !number_over && entry_over_reached && !room),
        ("the entry for all kinds alone is too large", !number_over && !entry_over_reached && entry_over(kinds)),
    ];
    let refused = number_over || size_over || entry_over_reached || entry_over(kinds);
    refused.then(|| others.into_iter().filter(|&(_, there)| there).map(|(name, _)| name).collect())
}

/// Of what sorts a call of Frequencies on an accepted sheet is, with the counts that are written.
fn sorts_of_frequencies(sheet: &[u8], field: usize, size: usize, entries: usize) -> BTreeSet<&'static str> {
    let Ok(normed) = accept(sheet) else { return BTreeSet::new() };
    let kinds = normed.card.kinds;
    if let Some(sorts) = sorts_of_refused_frequencies(&normed, field, size, entries >= kinds + 2) {
        return sorts;
    }
    let (answer, lent) = make(independent, &Call::Frequencies { field, size, entries: kinds + 2 }, sheet);
    assert_eq!(answer, Answer::FrequenciesWritten);
    let (counts, tokens) = (lent.frequencies.lent(), tokens_of(&normed.card.field(field)));
    let sum: u32 = counts.iter().sum();
    let (same, of_size, nothing) = (counts[0], tokens == size as u64, normed.reached.is_empty());
    let others = [
        ("the buffer has no room for a count of each kind", entries < kinds),
        ("the buffer has room for a count of each kind alone", entries == kinds),
        ("the buffer is one count too short", entries == kinds + 1),
        ("the buffer has room for the counts alone", entries == kinds + 2),
        ("the given field has over 16 tokens", tokens > MOST_TOKENS),
        ("the given field is of the size", of_size && size > 0),
        ("no kind is reached, and the empty field is listed", nothing && size == 0),
        ("no kind is reached, and nothing is listed", nothing && size > 0),
        ("some kinds are out, and others are reached", !nothing && normed.reached.len() < kinds),
        ("none is the same, and some are listed", same == 0 && sum > 0),
        ("the given field alone is the same", of_size && same == 1 && sum > 1),
        ("several are the same", same > 1),
        ("some are the same, and the given field is of another size", !of_size && same > 0),
        ("all are the same, several", same == sum && same > 1),
        ("some part at stage 1", counts[2] > 0),
        ("some part at stage 2", counts.get(3).is_some_and(|&count| count > 0)),
        ("some part past stage 2", counts.iter().skip(4).any(|&count| count > 0)),
        ("some part past stage 8", counts.iter().skip(10).any(|&count| count > 0)),
        ("some part at the last stage that there may be", counts[kinds + 1] > 0 && kinds > 1),
        ("some part at three stages or more", counts[1..].iter().filter(|&&count| count > 0).count() > 2),
        ("over 20,000 are listed", sum > 20_000),
        ("over 50,000 are listed", sum > 50_000),
    ];
    others.into_iter().filter(|&(_, there)| there).map(|(name, _)| name).collect()
}

/// What the comparison with the library meets of Frequencies.
#[test]
fn frequencies_of_every_sort() {
    let mut sorts: BTreeMap<&str, u64> = BTreeMap::new();
    for number in 0..20_000 {
        let sheets = sheets(SEED, number);
        for call in calls(&sheets, &mut Random::new(SEED.rotate_left(32) ^ number)) {
            let Call::Frequencies { field, size, entries } = call else { continue };
            for sort in sorts_of_frequencies(&sheets[0], field, size, entries) {
                *sorts.entry(sort).or_default() += 1;
            }
        }
    }
    println!("{sorts:#?}");
    assert!(sorts.len() == 9 + 22 && sorts.values().all(|&count| count > 20), "{sorts:#?}");
}

/// What comes up in a day, given the desk and the answer of each walk: refusals beside walks that are not refused, and what several desks are answered.
fn met_in_a_day(walks: &[(usize, Result<Walked, Refusal>)]) -> BTreeSet<String> {
    let desks = |wanted: fn(Found) -> bool| -> Vec<usize> {
        let answered = walks.iter().filter(|(_, answer)| answer.is_ok_and(|walked| wanted(walked.answer)));
        answered.map(|&(desk, _)| desk).collect()
    };
    let spent = desks(|answer| answer == Found::Spent);
    let apart = desks(|answer| matches!(answer, Found::Apart { .. }));
    let together = desks(|answer| answer == Found::Together);
    let unspent: BTreeSet<usize> = apart.iter().chain(&together).copied().collect();
    let mut met = BTreeSet::new();
    if walks.iter().any(|(_, answer)| answer.is_ok()) {
        met.extend(walks.iter().filter_map(|(_, answer)| Some(format!("refused {}", answer.err()?.number))));
    }
    let every = !met.is_empty() && !spent.is_empty() && !apart.is_empty() && !together.is_empty();
    let others = [
        ("every answer and a refusal", every),
        ("three desks that are not spent", unspent.len() > 2),
        ("a desk that is spent twice", spent.iter().collect::<BTreeSet<_>>().len() < spent.len()),
        (
            "a desk that is spent beside one that is not",
            spent.iter().any(|desk| unspent.iter().any(|other| other != desk)),
        ),
    ];
    met.extend(others.into_iter().filter(|&(_, there)| there).map(|(name, _)| name.to_string()));
    met
}

/// What comes up within single days.
#[test]
fn days_of_several_desks() {
    let mut days: BTreeMap<String, u64> = BTreeMap::new();
    for number in 0..20_000 {
        let sheets = sheets(SEED, number);
        let day = day(&sheets, &mut Random::new(number));
        let desks: Vec<usize> = day.walks.iter().map(|walk| walk.desk).collect();
        let call = Call::Day(day);
        let Answer::Day(made) = independent(&call, &mut Lent::new(&call, &sheets)) else { panic!("no day") };
        let walks: Vec<_> = desks.into_iter().zip(made.into_iter().map(|made| made.answer)).collect();
        for name in met_in_a_day(&walks) {
            *days.entry(name).or_default() += 1;
        }
    }
    println!("{days:?}");
    // 16, 1 to 8, 11 and 13, and what several desks are answered.
    assert!(days.len() == 11 + 4 && days.values().all(|&count| count > 100), "{days:?}");
}

/// What the comparison with the library meets near the greatest size that has shelf numbers, at the greatest
/// number of kinds, and where tokens added up in 16 bits would be few.
#[test]
fn fields_of_16_tokens_and_of_17() {
    let (mut most, mut one_over, mut of_32_kinds, mut few_in_16_bits) = (0, 0, 0, 0);
    for number in 0..20_000 {
        let bytes = sample(SEED, number).bytes;
        let Ok(normed) = accept(&bytes) else { continue };
        for field in 0..normed.card.fields {
            let tokens = tokens_of(&normed.card.field(field));
            most += u64::from(tokens == MOST_TOKENS);
            one_over += u64::from(tokens == MOST_TOKENS + 1);
            of_32_kinds += u64::from(normed.card.kinds == MOST_KINDS && tokens <= MOST_TOKENS);
            few_in_16_bits += u64::from(tokens >= 1 << 16 && tokens % (1 << 16) <= MOST_TOKENS);
        }
    }
    println!("16 tokens {most}, 17 {one_over}, at most 16 of 32 kinds {of_32_kinds}, few in 16 bits {few_in_16_bits}");
    assert!(most > 300 && one_over > 300 && of_32_kinds > 1_000 && few_in_16_bits > 300);
}

#[test]
fn sheets_of_every_family_size_and_damage() {
    let mut accepted: BTreeMap<(Family, Size), u64> = BTreeMap::new();
    let mut damaged: BTreeMap<(Damage, bool), u64> = BTreeMap::new();
    let mut largest = 0;
    for number in 0..40_000 {
        let made = sample(SEED, number);
        let is_accepted = accept(&made.bytes).is_ok();
        if made.damage == Damage::None {
            largest = largest.max(made.bytes.len());
            *accepted.entry((made.family, made.size)).or_default() += u64::from(is_accepted);
        }
        *damaged.entry((made.damage, is_accepted)).or_default() += 1;
    }
    println!("{accepted:?}\n{damaged:?}");
    assert_eq!(largest, MOST_BYTES);
    for family in FAMILIES {
        for size in [Size::Tiny, Size::Small, Size::Middle, Size::Limit] {
            let free = matches!(family, Family::Free | Family::Noise);
            assert!(free || accepted.get(&(family, size)).is_some_and(|&count| count > 0), "{family:?} {size:?}");
        }
    }
    // A few flipped bits leave some sheets acceptable.
    assert!(damaged[&(Damage::Flipped, true)] > 100);
    assert!(damaged[&(Damage::Flipped, false)] > 100);
    assert!(!damaged.contains_key(&(Damage::Truncated, true)));
    assert!(!damaged.contains_key(&(Damage::Extended, true)));
}

/// What the comparison with the library meets near the greatest norm taken.
#[test]
fn norms_at_the_limit_and_past_it() {
    let (mut close, mut one_less, mut equal, mut over) = (0, 0, 0, 0);
    for number in 0..40_000 {
        match accept(&sample(SEED, number).bytes) {
            Err(refusal) => over += u64::from(refusal.number == 10),
            Ok(normed) => match NORM_LIMIT - normed.norms.into_iter().max().expect("a kind") {
                0 => equal += 1,
                1 => one_less += 1,
                less => close += u64::from(less < NORM_LIMIT / 2),
            },
        }
    }
    println!("over half the limit {close}, one less {one_less}, at the limit {equal}, over it {over}");
    assert!(close > 20 && one_less > 20 && equal > 20 && over > 20, "{close} {one_less} {equal} {over}");
}

#[test]
fn truncations_and_extensions_are_refused() {
    let mut random = Random::new(SEED);
    for _ in 0..200 {
        let bytes = draft(Family::Normed, Size::Small, &mut random).bytes();
        for length in 0..bytes.len() {
            let number = accept(&bytes[..length]).expect_err("truncated").number;
            assert_eq!(number, if length < 20 { 1 } else { 6 });
        }
        let mut longer = bytes.clone();
        apply(Damage::Extended, &mut longer, &mut random);
        assert_eq!(accept(&longer).err(), Some(Refusal { number: 6, place: 3 }));
    }
}

/// The settled bases of sheets of any size are bisimulations, tested pair by pair of lines; in the finer sense each pair has equal totals.
#[test]
fn settled_bases_are_bisimulations() {
    let mut checked = 0;
    for number in 0..4_000 {
        let bytes = sample(SEED + 1, number).bytes;
        let Ok(normed) = accept(&bytes) else { continue };
        for sense in Sense::BOTH {
            let settled = Refinement::first(&normed, sense).settle();
            for &kind in &normed.reached {
                let total = settled.base().row(kind).iter().sum::<i64>();
                assert!(sense.allows(total, 1), "sheet {number} kind {kind} {sense:?}");
                assert!(expands(&normed, settled.base(), kind), "sheet {number} kind {kind} {sense:?}");
            }
        }
        checked += 1;
    }
    assert!(checked > 1_500, "{checked}");
}

/// Whether a kind and its row satisfy expansion under a base.
fn expands(normed: &NormedCard, base: &Base, kind: usize) -> bool {
    let lines = &normed.card.lines;
    let token: Vec<u64> = (0..normed.card.kinds).map(|other| u64::from(other == kind)).collect();
    let row: Vec<u64> = base.row(kind).iter().map(|&count| count as u64).collect();
    let reads = |field: &[u64]| {
        let usable = lines.iter().filter(|line| field[line.kind] > 0);
        let mut reads: Vec<_> = usable
            .map(|line| {
                let left = (0..field.len())
                    .map(|other| field[other] - u64::from(other == line.kind) + u64::from(line.left[other]));
                (line.code, base.form(left))
            })
            .collect();
        reads.sort();
        reads.dedup();
        reads
    };
    reads(&token) == reads(&row)
}

/// Neither the order of the lines nor equal lines change a page.
#[test]
fn order_and_repetition_of_lines_change_no_page() {
    let mut random = Random::new(SEED);
    for number in 0..2_000 {
        let size = if number % 40 == 0 { Size::Limit } else { Size::Small };
        let family = random.choose(&FAMILIES);
        let mut made = draft(family, size, &mut random);
        use_some(&mut made, &mut random);
        let before = page(&made.bytes());
        if before.starts_with("refused 7") || before.starts_with("refused 8") {
            continue;
        }
        if (1..256).contains(&made.lines.len()) {
            made.lines.push(made.lines[random.below(made.lines.len())].clone());
        }
        for last in (1..made.lines.len()).rev() {
            made.lines.swap(last, random.below(last + 1));
        }
        assert_eq!(page(&made.bytes()), before, "sheet {number}");
    }
}

#[test]
fn costly_families_settle_late() {
    for family in COSTLY {
        let sheet = measured(family, 32, 256, SEED);
        let normed = accept(&sheet).expect("an accepted sheet");
        let stage = Refinement::first(&normed, Sense::Plain).settle().stage();
        println!("{family:?}: {} lines, stage {stage}", normed.card.lines.len());
        assert!(stage >= 10, "{family:?} {stage}");
    }
}
