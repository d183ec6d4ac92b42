//! The fast implementation held against the definitions on small random cards, in the plain and the finer sense where there are two.

use independent::base::Refinement;
use independent::definitions::{
    Definitions, Field, TooLarge, classes, fewest_reads, is_reached, one_token, shelf, shelf_of, shelf_order,
    walk as walk_by_definition,
};
use independent::filer::{Verdict, compare};
use independent::frequencies::frequencies;
use independent::generator::{Draft, DraftLine, FAMILIES, Family, Size, draft, put_equal_totals, use_some};
use independent::norm::{NORM_LIMIT, NormedCard, accept, kind_norms};
use independent::random::Random;
use independent::reached::reached_kinds;
use independent::sense::Sense;
use independent::sheet::{MOST_FIELDS, MOST_KINDS, Refusal, read};
use independent::shelf::{Entries, MOST_TOKENS, ShelfNumber, field_of, number_of, shelf_field, shelf_number};
use independent::squads::squads;
use independent::walker::{DESKS, Session, walk};

/// The greatest norm of a kind that is searched.
const MOST_NORM: u64 = 6;

/// The sheets that are tried.
const SHEETS: u64 = 12_000;

/// A small sheet of some family.
fn tiny_sheet(number: u64) -> Vec<u8> {
    let mut random = Random::new(number);
    let family = random.choose(&FAMILIES);
    let mut made = draft(family, Size::Tiny, &mut random);
    use_some(&mut made, &mut random);
    made.bytes()
}

/// A small sheet on which fields of equal norm are the same, in most cases: its fields are a few tokens, and as many others of as much norm.
fn tiny_totals(number: u64) -> Vec<u8> {
    let mut random = Random::new(number);
    let mut made = draft(Family::Totals, Size::Tiny, &mut random);
    let mut field = vec![0; made.kinds];
    for _ in 0..random.between(2, 3) {
        field[random.below(made.kinds)] += 1;
    }
    made.fields = vec![field; 4];
    put_equal_totals(&mut made, &mut random);
    made.bytes()
}

/// The sheets on which the plain and the finer sense are tried, with their numbers: small ones, and from the last number of these on ones that are about totals.
fn tiny_sheets() -> impl Iterator<Item = (u64, Vec<u8>)> {
    (0..).zip((0..SHEETS).map(tiny_sheet).chain((0..SHEETS / 4).map(tiny_totals)))
}

/// What was compared.
#[derive(Default, Debug)]
struct Compared {
    cards: u64,
    /// Cards that have a kind that is out, and one that is reached.
    part_used: u64,
    /// Cards of which no kind is reached.
    nothing: u64,
    /// Cards given up because the search by definitions took too long.
    too_large: u64,
    /// Cards that settle past stage 1.
    later_stages: u64,
    /// Kinds whose mark is over 1; of them, those whose mark is under the settled stage.
    marks: [u64; 2],
    /// Kinds that are no primes and whose mark is over 1.
    changed_products: u64,
    /// Kinds that are no primes.
    products: u64,
    /// Fields called same that have other counts.
    same_unequal: u64,
    /// Fields called different, by stage.
    different: [u64; 5],
    /// Fields called different that the round game was played on.
    parted: u64,
    /// Fields called different in the finer sense alone.
    parted_by_totals: u64,
    /// Of them, those of equal totals, so that the totals that reads leave part them.
    parted_later: u64,
}

#[test]
fn norms_are_fewest_reads() {
    let mut compared = 0;
    for number in 0..SHEETS {
        let bytes = tiny_sheet(number);
        let Ok(card) = read(&bytes) else { continue };
        for (kind, norm) in kind_norms(&card).into_iter().enumerate() {
            let within = norm.filter(|&norm| norm <= 4);
            assert_eq!(fewest_reads(&card, &one_token(&card, kind), 4), within, "sheet {number} kind {kind}");
            compared += 1;
        }
    }
    assert!(compared > SHEETS, "{compared}");
}

/// A kind is reached where reads lead from some field to one that holds it, and of these kinds alone is a norm asked.
#[test]
fn reached_kinds_are_those_that_reads_lead_to() {
    let (mut out, mut refused, mut passed_over) = (0, 0, 0);
    for number in 0..SHEETS {
        let bytes = tiny_sheet(number);
        let Ok(card) = read(&bytes) else { continue };
        let reached: Vec<usize> = (0..card.kinds).filter(|&kind| is_reached(&card, kind)).collect();
        assert_eq!(reached_kinds(&card), reached, "sheet {number}");
        let norms = kind_norms(&card);
        let missing = reached.iter().copied().find(|&kind| norms[kind].is_none());
        let over = reached.iter().copied().find(|&kind| norms[kind] > Some(NORM_LIMIT));
        let expected = missing.map(|kind| (9, kind)).or(over.map(|kind| (10, kind)));
        let given = accept(&bytes).err().map(|refusal| (refusal.number, refusal.place as usize));
        assert_eq!(given, expected, "sheet {number}");
        out += card.kinds - reached.len();
        refused += u64::from(expected.is_some());
        passed_over += u64::from(norms.iter().position(|norm| norm.is_none()) != missing);
    }
    println!(
        "kinds that are out {out}, refused {refused}, a lower kind without a norm or another is out {passed_over}"
    );
    assert!(out > 1_000 && refused > 500 && passed_over > 500, "{out} {refused} {passed_over}");
}

/// Compares all that is found of small cards in a sense.
fn compare_cards(sense: Sense) -> Compared {
    let mut compared = Compared::default();
    for (number, bytes) in tiny_sheets() {
        let Ok(normed) = accept(&bytes) else { continue };
        if normed.norms.iter().any(|&norm| norm > MOST_NORM) || normed.gain() > 3 {
            continue;
        }
        match compare_card(number, &bytes, &normed, sense, &mut compared) {
            Ok(()) => compared.cards += 1,
            Err(TooLarge) => compared.too_large += 1,
        }
    }
    println!("{compared:?}");
    compared
}

#[test]
fn bases_and_verdicts() {
    let compared = compare_cards(Sense::Plain);
    assert!(compared.cards > 3_000, "{compared:?}");
    assert!(compared.part_used > 500 && compared.nothing > 100, "{compared:?}");
    assert!(compared.same_unequal > 1_000, "{compared:?}");
    assert!(compared.different.iter().all(|&count| count > 100), "{compared:?}");
    assert!(compared.parted > 5_000, "{compared:?}");
    assert!(compared.marks.iter().all(|&kinds| kinds > 1_000) && compared.changed_products > 50, "{compared:?}");
}

/// The game is the one in which a challenger also wins as soon as the totals differ.
#[test]
fn finer_bases_and_verdicts() {
    let compared = compare_cards(Sense::Finer);
    assert!(compared.cards > 3_000, "{compared:?}");
    assert!(compared.part_used > 500 && compared.nothing > 100, "{compared:?}");
    assert!(compared.same_unequal > 2_000 && compared.parted_by_totals > 500, "{compared:?}");
    assert!(compared.parted_later > 200, "{compared:?}");
    assert!(compared.marks.iter().all(|&kinds| kinds > 1_000) && compared.changed_products > 50, "{compared:?}");
    assert!(compared.different.iter().all(|&count| count > 100), "{compared:?}");
    assert!(compared.parted > 5_000, "{compared:?}");
}

/// Compares bases, their marks at every stage, settled stage, primes, verdicts and rounds on one card.
fn compare_card(
    number: u64,
    bytes: &[u8],
    normed: &NormedCard,
    sense: Sense,
    compared: &mut Compared,
) -> Result<(), TooLarge> {
    let card = read(bytes).expect("an accepted sheet");
    let mut definitions = Definitions::new(&card, sense, MOST_NORM, 20_000).expect("norms within the search");
    assert_eq!(definitions.reached(), normed.reached, "sheet {number}");
    assert_eq!(definitions.norms(), normed.norms, "sheet {number}");
    assert_eq!(definitions.gain(), normed.gain(), "sheet {number}");
    let settled = definitions.settled_stage()?;
    let mut refinement = Refinement::first(normed, sense);
    loop {
        let rows = definitions.base(refinement.stage())?;
        for (kind, row) in rows.iter().enumerate() {
            let counts: Vec<u64> = refinement.base().row(kind).iter().map(|&count| count as u64).collect();
            assert_eq!(&counts, row, "sheet {number} stage {} kind {kind}", refinement.stage());
            let one_token = counts.iter().sum::<u64>() == u64::from(normed.is_reached(kind));
            assert!(sense == Sense::Plain || one_token, "sheet {number} stage {} kind {kind}", refinement.stage());
        }
        let marks: Vec<u32> = (0..card.kinds).map(|kind| refinement.base().since(kind)).collect();
        assert_eq!(marks, definitions.marks(refinement.stage())?, "sheet {number} stage {}", refinement.stage());
        if refinement.is_settled() {
            break;
        }
        refinement.refine();
    }
    assert_eq!(refinement.stage(), settled, "sheet {number}");
    assert!(settled as usize <= normed.reached.len().max(1));
    for &kind in &normed.reached {
        assert_eq!(definitions.is_prime(settled, kind)?, refinement.base().is_atom(kind), "sheet {number} kind {kind}");
        compared.products += u64::from(!refinement.base().is_atom(kind));
        let mark = refinement.base().since(kind);
        compared.marks[0] += u64::from(mark > 1);
        compared.marks[1] += u64::from(mark > 1 && mark < settled);
        compared.changed_products += u64::from(mark > 1 && !refinement.base().is_atom(kind));
    }
    compared.later_stages += u64::from(settled > 1);
    compared.nothing += u64::from(normed.reached.is_empty());
    compared.part_used += u64::from((1..card.kinds).contains(&normed.reached.len()));
    compare_verdicts(number, bytes, normed, sense, settled, &mut definitions, compared)
}

/// Compares the verdicts on every two fields, and plays the round game.
fn compare_verdicts(
    number: u64,
    bytes: &[u8],
    normed: &NormedCard,
    sense: Sense,
    settled: u32,
    definitions: &mut Definitions,
    compared: &mut Compared,
) -> Result<(), TooLarge> {
    for first in 0..normed.card.fields {
        for second in 0..normed.card.fields {
            let pair: [Field; 2] = [first, second].map(|field| normed.card.field(field));
            let verdict = compare(sense, bytes, first, second).expect("an accepted sheet");
            let plain = compare(Sense::Plain, bytes, first, second).expect("an accepted sheet");
            assert_eq!(
                definitions.verdict(settled, &pair[0], &pair[1])?,
                verdict,
                "sheet {number} fields {first} {second}"
            );
            match verdict {
                Verdict::Same => {
                    assert!(
                        definitions.satisfies_expansion(settled, &pair[0], &pair[1])?,
                        "sheet {number} fields {first} {second}"
                    );
                    assert!(definitions.holds(4, &pair[0], &pair[1])?, "sheet {number} fields {first} {second}");
                    assert_eq!(plain, Verdict::Same, "sheet {number} fields {first} {second}");
                    compared.same_unequal += u64::from(pair[0] != pair[1]);
                }
                Verdict::Different { stage, rounds } => {
                    compared.different[stage as usize] += 1;
                    compared.parted_by_totals += u64::from(plain == Verdict::Same);
                    compared.parted_later += u64::from(plain == Verdict::Same && stage > 0);
                    if rounds <= 9 {
                        assert!(
                            !definitions.holds(rounds, &pair[0], &pair[1])?,
                            "sheet {number} fields {first} {second}"
                        );
                        compared.parted += 1;
                    }
                }
            }
        }
    }
    Ok(())
}

/// Where reads lead to few fields: two fields are called same just when they are bisimilar, in the finer sense by a relation
/// whose every pair has equal totals. The relation is found without norms, stages and rounds.
#[test]
fn fields_called_same_are_bisimilar() {
    for sense in Sense::BOTH {
        let (mut cards, mut pairs, mut same_unequal, mut parted_by_totals) = (0, 0, 0, 0);
        for (number, bytes) in tiny_sheets() {
            let Ok(normed) = accept(&bytes) else { continue };
            let fields: Vec<Field> = (0..normed.card.fields).map(|field| normed.card.field(field)).collect();
            let Ok(found) = classes(&normed.card, sense, &fields, 60) else { continue };
            cards += 1;
            for first in 0..fields.len() {
                for second in 0..fields.len() {
                    let [plain, verdict] = [Sense::Plain, sense]
                        .map(|sense| compare(sense, &bytes, first, second).expect("an accepted sheet"));
                    let bisimilar = found[first] == found[second];
                    assert_eq!(verdict == Verdict::Same, bisimilar, "sheet {number} fields {first} {second} {sense:?}");
                    pairs += 1;
                    same_unequal += u64::from(bisimilar && fields[first] != fields[second]);
                    parted_by_totals += u64::from(!bisimilar && plain == Verdict::Same);
                }
            }
        }
        println!(
            "{sense:?}: cards {cards}, pairs {pairs}, same with other counts {same_unequal}, finer different {parted_by_totals}"
        );
        assert!(cards > 3_000 && pairs > 10_000 && same_unequal > 500, "{cards} {pairs} {same_unequal}");
        assert_eq!(sense == Sense::Finer, parted_by_totals > 500, "{parted_by_totals}");
    }
}

/// What was compared of Squads.
#[derive(Default, Debug)]
struct Divided {
    /// Pairs of a whole and a squad.
    pairs: u64,
    /// Pairs given up because the search by definitions took too long.
    too_large: u64,
    /// Pairs on a sheet that has a kind that is out.
    part_used: u64,
    /// Pairs whose squad goes in twice or more.
    several: u64,
    /// Pairs whose squad goes in, and something remains.
    with_rest: u64,
    /// Remainders found that are not the one written: each is bisimilar to it, and has a kind that is no prime.
    other_remainders: u64,
}

/// Squads by its definition: every number of squads that the norms leave room for is joined with every field of the
/// norm that is left, and the largest number that is bisimilar to the whole with some of them is the one answered. Of
/// the fields found with it exactly one has prime kinds alone, and this one is written.
#[test]
fn squads_are_the_most_that_can_be_joined() {
    let mut divided = Divided::default();
    for number in 0..SHEETS {
        let bytes = tiny_multiples(number);
        let Ok(normed) = accept(&bytes) else { continue };
        if normed.norms.iter().any(|&norm| norm > MOST_NORM) || normed.gain() > 3 {
            continue;
        }
        for whole in 0..normed.card.fields {
            for squad in 0..normed.card.fields {
                match divide(number, &bytes, &normed, whole, squad, &mut divided) {
                    Ok(()) => divided.pairs += 1,
                    Err(TooLarge) => divided.too_large += 1,
                }
            }
        }
    }
    println!("{divided:?}");
    assert!(divided.pairs > 10_000 && divided.part_used > 1_000 && divided.several > 1_000, "{divided:?}");
    assert!(divided.with_rest > 1_000 && divided.other_remainders > 1_000, "{divided:?}");
}

/// A small sheet of some family, whose fields are a few tokens, and multiples of the first of them with a few tokens more.
fn tiny_multiples(number: u64) -> Vec<u8> {
    let mut random = Random::new(number);
    let family = random.choose(&FAMILIES);
    let mut made = draft(family, Size::Tiny, &mut random);
    let mut tokens = |most: usize| {
        let mut field = vec![0; made.kinds];
        for _ in 0..random.between(0, most) {
            field[random.below(made.kinds)] += 1;
        }
        field
    };
    let (squad, other, rest) = (tokens(2), tokens(3), tokens(2));
    let whole = squad.iter().zip(rest).map(|(one, more)| 2 * one + more).collect();
    made.fields = vec![squad, whole, other];
    use_some(&mut made, &mut random);
    made.bytes()
}

/// Compares Squads of two fields of one card.
fn divide(
    number: u64,
    bytes: &[u8],
    normed: &NormedCard,
    whole: usize,
    squad: usize,
    divided: &mut Divided,
) -> Result<(), TooLarge> {
    let context = format!("sheet {number} fields {whole} {squad}");
    let mut remainder = vec![7; normed.card.kinds];
    let given = squads(bytes, whole, squad, &mut remainder);
    let [whole, squad]: [Field; 2] = [whole, squad].map(|field| normed.card.field(field));
    if squad.iter().all(|&tokens| tokens == 0) {
        assert_eq!(given, Err(Refusal { number: 17, place: 1 }), "{context}");
        return Ok(());
    }
    let card = read(bytes).expect("an accepted sheet");
    let mut definitions = Definitions::new(&card, Sense::Plain, MOST_NORM, 20_000).expect("norms within the search");
    let settled = definitions.settled_stage()?;
    let (count, found) = definitions.squads(settled, &whole, &squad)?;
    assert_eq!(given, Ok(count), "{context}");
    let mut primes = vec![false; card.kinds];
    for &kind in &normed.reached {
        primes[kind] = definitions.is_prime(settled, kind)?;
    }
    let is_prime_form = |field: &Field| field.iter().zip(&primes).all(|(&tokens, &prime)| prime || tokens == 0);
    let (forms, others): (Vec<Field>, Vec<Field>) = found.into_iter().partition(is_prime_form);
    assert_eq!(forms, [remainder.clone()], "{context}");
    for other in &others {
        assert!(definitions.stage(settled, other, &remainder)?, "{context}");
    }
    divided.part_used += u64::from(normed.reached.len() < card.kinds);
    divided.several += u64::from(count > 1);
    divided.with_rest += u64::from(count > 0 && remainder.iter().any(|&tokens| tokens > 0));
    divided.other_remainders += others.len() as u64;
    Ok(())
}

/// What was compared of Frequencies.
#[derive(Default, Debug)]
struct Counted {
    cards: u64,
    /// Cards given up because the search by definitions took too long.
    too_large: u64,
    /// Cards that have a kind that is out.
    part_used: u64,
    /// Fields and sizes.
    calls: u64,
    /// Fields that are listed and the same as the given one.
    same: u64,
    /// Fields that are listed and part from it, by stage.
    parted: [u64; 5],
}

/// Frequencies by its definition: of each field of up to three tokens the verdict, by search, tells where it counts.
#[test]
fn frequencies_are_verdicts_counted() {
    let mut counted = Counted::default();
    for (number, bytes) in tiny_sheets() {
        let Ok(normed) = accept(&bytes) else { continue };
        if normed.norms.iter().any(|&norm| norm > MOST_NORM) || normed.gain() > 3 {
            continue;
        }
        match count(number, &bytes, &normed, &mut counted) {
            Ok(()) => counted.cards += 1,
            Err(TooLarge) => counted.too_large += 1,
        }
    }
    println!("{counted:?}");
    assert!(counted.cards > 5_000 && counted.part_used > 1_000 && counted.calls > 50_000, "{counted:?}");
    assert!(counted.same > 10_000 && counted.parted.iter().all(|&fields| fields > 100), "{counted:?}");
}

/// Compares Frequencies of the fields of one card.
fn count(number: u64, bytes: &[u8], normed: &NormedCard, counted: &mut Counted) -> Result<(), TooLarge> {
    let card = read(bytes).expect("an accepted sheet");
    let mut definitions = Definitions::new(&card, Sense::Plain, MOST_NORM, 20_000).expect("norms within the search");
    let settled = definitions.settled_stage()?;
    for field in 0..card.fields {
        for size in 0..=3 {
            let expected = definitions.frequencies(settled, &card.field(field), size)?;
            let mut counts = vec![7; card.kinds + 3];
            let given = frequencies(bytes, field, size as usize, &mut counts);
            let context = format!("sheet {number} field {field} size {size}");
            assert_eq!((given, counts.pop()), (Ok(()), Some(7)), "{context}");
            assert_eq!(counts, expected, "{context}");
            counted.calls += 1;
            counted.same += u64::from(counts[0]);
            counted.parted.iter_mut().zip(&counts[1..]).for_each(|(sum, &fields)| *sum += u64::from(fields));
        }
    }
    counted.part_used += u64::from(normed.reached.len() < card.kinds);
    Ok(())
}

/// Of every number of kinds and every size: just the entries over 65,536 are refused, which is found before the buffer is.
#[test]
fn entries_over_the_limit_are_refused() {
    let (mut listed, mut refused) = (Vec::new(), Vec::new());
    for kinds in 1..=MOST_KINDS {
        let sheet = sheet_of(kinds, &[]);
        let mut entry = 1;
        for size in 0..=MOST_TOKENS {
            let refusal = frequencies(&sheet, 0, size as usize, &mut [7; 2]).expect_err("two counts are too few");
            let number = if entry > 65_536 { 18 } else { 12 };
            assert_eq!((refusal.number, refusal.place), (number, 0), "{kinds} kinds, {size} tokens");
            if number == 12 {
                listed.push(entry)
            } else {
                refused.push(entry)
            }
            entry = entry * (kinds as u64 + size) / (size + 1);
        }
        assert_eq!(frequencies(&sheet, 0, 17, &mut [7; 2]), Err(Refusal { number: 14, place: 0 }), "{kinds} kinds");
    }
    assert_eq!((listed.into_iter().max(), refused.into_iter().min()), (Some(54_264), Some(65_780)));
}

/// A walk by any desk is that of the definition on what this desk has left, whatever the others have.
#[test]
fn walks_and_their_counts() {
    let mut compared = 0;
    for number in 0..SHEETS {
        let bytes = tiny_sheet(number);
        let Ok(card) = read(&bytes) else { continue };
        let mut random = Random::new(number);
        for _ in 0..3 * usize::from(card.fields > 0) {
            let (first, second) = (random.below(card.fields), random.below(card.fields));
            let limit = random.between(0, 3) as u64;
            let full = walk_by_definition(&card, &card.field(first), &card.field(second), limit, u32::MAX);
            for allowance in [full.drawn, full.drawn.saturating_sub(1), full.drawn + 1, random.below(50) as u32] {
                let desk = random.below(DESKS);
                let mut session = Session { allowances: [0; DESKS].map(|_| random.below(50) as u32) };
                session.allowances[desk] = allowance;
                let mut after = session;
                let expected = walk_by_definition(&card, &card.field(first), &card.field(second), limit, allowance);
                let given = walk(&bytes, first, second, limit, desk, &mut session);
                let context =
                    format!("sheet {number} fields {first} {second} limit {limit} desk {desk} allowance {allowance}");
                assert_eq!(given, Ok(expected), "{context}");
                after.allowances[desk] -= expected.drawn;
                assert_eq!(session, after, "{context}");
                compared += 1;
            }
        }
    }
    assert!(compared > SHEETS, "{compared}");
}

#[test]
fn a_missing_norm_comes_before_one_over_the_limit() {
    // Kind 0 leaves 255 of kind 1, which leaves 255 of kind 2, and so on up to kind 4; kind 5 has no line.
    let mut draft = Draft::new(6, 1);
    for kind in 0..5 {
        let left = (0..6).map(|other| if other == kind + 1 && other < 5 { 255 } else { 0 }).collect();
        draft.lines.push(DraftLine { kind, code: 0, left });
    }
    let holding = |draft: &Draft, fields: &[Vec<u16>]| {
        let mut held = draft.clone();
        held.fields = fields.to_vec();
        accept(&held.bytes()).err().map(|refusal| (refusal.number, refusal.place))
    };
    let [first, second, last] = [vec![1, 0, 0, 0, 0, 0], vec![0, 1, 0, 0, 0, 0], vec![0, 0, 0, 0, 0, 1]];
    assert_eq!(holding(&draft, &[first.clone(), last.clone()]), Some((9, 5)));
    // Of a kind that is out neither is said: kind 5 where kind 0 alone is held, and where kind 1 is, kind 0 too.
    assert_eq!(holding(&draft, std::slice::from_ref(&first)), Some((10, 0)));
    assert_eq!(holding(&draft, &[second.clone(), last.clone()]), Some((9, 5)));
    assert_eq!(holding(&draft, &[second]), None);
    assert_eq!(holding(&draft, &[vec![0; 6]]), None);
    assert_eq!(holding(&draft, &[]), None);
    // With one more line, kind 5 leaves kind 0 and is over the limit as well; kind 0 is the lowest.
    draft.lines.push(DraftLine { kind: 5, code: 0, left: vec![1, 0, 0, 0, 0, 0] });
    assert_eq!(holding(&draft, &[last]), Some((10, 0)));
}

/// A sheet of some fields, each kind of which leaves nothing, and of one more that holds each kind.
fn sheet_of(kinds: usize, fields: &[Field]) -> Vec<u8> {
    let mut draft = Draft::new(kinds, 1);
    draft.lines = (0..kinds).map(|kind| DraftLine { kind, code: 0, left: vec![0; kinds] }).collect();
    draft.fields = fields.iter().map(|field| field.iter().map(|&count| count as u16).collect()).collect();
    draft.fields.push(vec![1; kinds]);
    draft.bytes()
}

/// Both directions against the list of all fields of a size: every number under the entry is that of one
/// field, and the field's is that number again.
#[test]
fn shelf_numbers_are_places_in_the_list() {
    // For each number of kinds the greatest size that is listed.
    for (kinds, most) in [(1, 16), (2, 16), (3, 16), (4, 10), (5, 6), (6, 4), (7, 3), (8, 2)] {
        for tokens in 0..=most {
            let listed = shelf(kinds, tokens);
            let entry = listed.len() as u64;
            assert_eq!(Entries::new(kinds, tokens).of(kinds, tokens), entry, "{kinds} kinds, {tokens} tokens");
            for (from, fields) in (0..).step_by(MOST_FIELDS - 1).zip(listed.chunks(MOST_FIELDS - 1)) {
                let sheet = sheet_of(kinds, fields);
                for (place, field) in fields.iter().enumerate() {
                    let number = from + place as u64;
                    let context = format!("{kinds} kinds, {tokens} tokens, number {number}");
                    assert_eq!(shelf_number(&sheet, place), Ok(ShelfNumber { size: tokens, number }), "{context}");
                    let mut counts = vec![7; kinds + 1];
                    assert_eq!(shelf_field(&sheet, tokens as usize, number, &mut counts), Ok(()), "{context}");
                    let written: Field = counts[..kinds].iter().map(|&count| u64::from(count)).collect();
                    assert_eq!((&written, counts[kinds]), (field, 7), "{context}");
                }
                for number in [entry, entry + 1, u64::MAX] {
                    let refusal = shelf_field(&sheet, tokens as usize, number, &mut [7; 8]).expect_err("no such field");
                    assert_eq!((refusal.number, refusal.place), (15, 0), "{kinds} kinds, {tokens} tokens");
                }
            }
        }
    }
}

/// On small sheets that use a part of their card: the list of the fields of a size has those of the reached kinds alone.
#[test]
fn shelf_numbers_are_places_among_the_fields_of_reached_kinds() {
    let (mut found, mut of_fields, mut nothing) = (0, 0, 0);
    for number in 0..SHEETS {
        let bytes = tiny_sheet(number);
        let Ok(normed) = accept(&bytes) else { continue };
        let card = read(&bytes).expect("an accepted sheet");
        if normed.reached.len() == card.kinds {
            continue;
        }
        nothing += u64::from(normed.reached.is_empty());
        for tokens in 0..=3 {
            let listed = shelf_of(&card, tokens);
            for (place, field) in listed.iter().enumerate() {
                let mut counts = vec![7; card.kinds];
                assert_eq!(shelf_field(&bytes, tokens as usize, place as u64, &mut counts), Ok(()), "sheet {number}");
                assert!(counts.iter().map(|&count| u64::from(count)).eq(field.iter().copied()), "sheet {number}");
                found += 1;
            }
            let refusal =
                shelf_field(&bytes, tokens as usize, listed.len() as u64, &mut [7; 4]).expect_err("no such field");
            assert_eq!((refusal.number, refusal.place), (15, 0), "sheet {number}");
        }
        for field in 0..card.fields {
            let counts = card.field(field);
            let size = counts.iter().sum();
            if size <= 5 {
                let place =
                    shelf_of(&card, size).iter().position(|other| *other == counts).expect("a field of the list");
                assert_eq!(
                    shelf_number(&bytes, field),
                    Ok(ShelfNumber { size, number: place as u64 }),
                    "sheet {number}"
                );
                of_fields += 1;
            }
        }
    }
    assert!(found > 10_000 && of_fields > 1_000 && nothing > 100, "{found} {of_fields} {nothing}");
}

/// With any number of kinds, where no list can be made: the fields of the numbers from 0 up come one after
/// another in the order, have the tokens, and have these numbers; and the first and the last are known.
#[test]
fn shelf_numbers_of_many_kinds() {
    let mut random = Random::new(16);
    for kinds in 1..=MOST_KINDS {
        for tokens in 0..=MOST_TOKENS {
            let entry = Entries::new(kinds, tokens).of(kinds, tokens);
            let field = |number: u64| field_of(kinds, tokens, number).expect("a number under the entry");
            assert_eq!(field(0)[0], tokens);
            assert_eq!(field(entry - 1)[kinds - 1], tokens);
            assert_eq!(field_of(kinds, tokens, entry), None);
            for _ in 0..20 {
                let number = random.below(entry as usize) as u64;
                let found = field(number);
                assert_eq!(found.iter().sum::<u64>(), tokens);
                assert_eq!(number_of(&found), number, "{found:?}");
                if number > 0 {
                    assert!(shelf_order(&field(number - 1), &found).is_lt(), "{found:?}");
                }
            }
        }
    }
}

#[test]
fn entries_are_the_known_ones() {
    let entries = Entries::new(MOST_KINDS, MOST_TOKENS);
    assert_eq!((0..=MOST_TOKENS).map(|tokens| entries.of(0, tokens)).sum::<u64>(), 1);
    let known = [(0, 0, 1), (3, 2, 6), (32, 1, 32), (32, 2, 528), (32, 3, 5_984), (32, 16, 1_503_232_609_098)];
    for (kinds, tokens, entry) in known {
        assert_eq!(entries.of(kinds, tokens), entry, "{kinds} kinds, {tokens} tokens");
    }
    // The closed form: k (k + 1) .. (k + t - 1) / (1 · 2 .. t).
    for kinds in 0..=MOST_KINDS {
        let mut closed = 1;
        for tokens in 0..=MOST_TOKENS {
            assert_eq!(entries.of(kinds, tokens), closed, "{kinds} kinds, {tokens} tokens");
            closed = closed * (kinds as u64 + tokens) / (tokens + 1);
        }
    }
}
