//! The stored pages, walks, shelf numbers, squads, finer answers and frequencies, and document 01's examples, of the independent side; the stored pages and frequencies are asked of the library too.

use std::fs;
use std::path::{Path, PathBuf};

use independent::filer::{Verdict, compare, prime_form, row, settle, settle_since};
use independent::frequencies::frequencies;
use independent::page::page;
use independent::reached::reached_kinds;
use independent::sense::Sense;
use independent::sheet::{Refusal, numbers, read};
use independent::shelf::{shelf_field, shelf_number};
use independent::squads::squads;
use independent::walker::{Answer, DESKS, Session, walk, walk_lent};

/// The folder of the stored sheets, pages, walks, shelf numbers, squads, finer answers and frequencies.
fn stored() -> PathBuf {
    Path::new(env!("CARGO_MANIFEST_DIR")).join("testdata")
}

/// The stored sheet of that name.
fn sheet(name: &str) -> Vec<u8> {
    fs::read(stored().join(format!("{name}.sheet"))).expect(name)
}

/// The stored sheets, each with its name and its page, in the order of the names.
fn pages() -> Vec<(String, Vec<u8>, String)> {
    let entries = fs::read_dir(stored()).expect("testdata").map(|entry| entry.expect("an entry").path());
    let mut pages: Vec<_> = entries
        .filter(|path| path.extension().is_some_and(|extension| extension == "sheet"))
        .map(|path| {
            let name = path.file_stem().expect("a name").to_string_lossy().into_owned();
            let page = fs::read_to_string(path.with_extension("page")).expect("a page for each sheet");
            (name, fs::read(&path).expect("a sheet"), page)
        })
        .collect();
    pages.sort();
    pages
}

#[test]
fn pages_agree() {
    let pages = pages();
    for (name, sheet, expected) in &pages {
        assert_eq!(page(sheet), *expected, "{name}");
        assert_eq!(limbatue::page(sheet), *expected, "{name}");
    }
    assert_eq!(pages.len(), 86);
}

/// The marks of the stored pages are those that Settle writes: the numbers after `since`, and 0 for a kind that is out.
#[test]
fn marks_agree() {
    let (mut kinds, mut out, mut later) = (0, 0, 0);
    for (name, sheet, page) in pages() {
        let printed: Vec<u32> = page
            .lines()
            .filter(|line| line.starts_with("kind "))
            .map(|line| match line.split(' ').collect::<Vec<_>>()[..] {
                ["kind", _, "norm", _, "since", mark, "prime" | "=", ..] => mark.parse().expect("a number"),
                ["kind", _, "out"] => 0,
                _ => panic!("{name}: {line}"),
            })
            .collect();
        let (mut table, mut since) = ([7; 1024], [7; 32]);
        let settled = settle_since(&sheet, &mut table, &mut since);
        assert_eq!(settled.is_err(), page.starts_with("refused "), "{name}");
        assert_eq!(since[..printed.len()], printed, "{name}");
        assert!(since[printed.len()..].iter().all(|&mark| mark == 7), "{name}");
        kinds += printed.len();
        out += printed.iter().filter(|&&mark| mark == 0).count();
        later += printed.iter().filter(|&&mark| mark > 1).count();
    }
    assert!(kinds > 300 && out > 50 && later > 50, "{kinds} {out} {later}");
}

/// The stored sheets that have a kind that is out. The pages of all others are those that they had before there were such.
const PART_USED: [&str; 14] = [
    "full_12820",
    "no_fields",
    "no_norm_unused",
    "only_zero_fields",
    "part01",
    "part04",
    "part05",
    "part07",
    "part08",
    "part09",
    "part10",
    "part11",
    "part_used",
    "zero_fields",
];

#[test]
fn pages_of_sheets_that_use_all_kinds_name_none_that_is_out() {
    let mut part_used = Vec::new();
    for (name, sheet, page) in pages() {
        let out = |kind: &usize| page.contains(&format!("\nkind {kind} out\n"));
        let Ok(card) = read(&sheet) else { continue };
        let reached = reached_kinds(&card);
        if reached.len() < card.kinds {
            assert!((0..card.kinds).filter(out).eq((0..card.kinds).filter(|kind| !reached.contains(kind))), "{name}");
            part_used.push(name);
        } else {
            assert!(!page.contains("out"), "{name}");
        }
    }
    assert_eq!(part_used, PART_USED);
}

/// The stored walks, each by desk 0 where the others have none, and by another desk where the others have as much as any can.
#[test]
fn walks_agree() {
    let text = fs::read_to_string(stored().join("walks.txt")).expect("walks.txt");
    for (place, line) in text.lines().enumerate() {
        let (call, expected) = line.split_once(" = ").expect("a call and its answer");
        let words: Vec<&str> = call.split(' ').collect();
        let number = |place: usize| words[place].parse::<usize>().expect("a number");
        for (desk, others) in [(0, 0), (1 + place % (DESKS - 1), u32::MAX)] {
            let mut session = Session { allowances: [others; DESKS] };
            session.allowances[desk] = number(4) as u32;
            let mut after = session;
            let given = match walk(&sheet(words[0]), number(1), number(2), number(3) as u64, desk, &mut session) {
                Err(refusal) => format!("refused {} {}", refusal.number, refusal.place),
                Ok(walked) => {
                    after.allowances[desk] -= walked.drawn;
                    match walked.answer {
                        Answer::Apart { rounds } => format!("apart {rounds} drawn {}", walked.drawn),
                        Answer::Together => format!("together drawn {}", walked.drawn),
                        Answer::Spent => format!("spent drawn {}", walked.drawn),
                    }
                }
            };
            assert_eq!(given, expected, "{line}, by desk {desk}");
            assert_eq!(session, after, "{line}, by desk {desk}");
        }
    }
    assert!(text.lines().count() > 100);
}

/// What a call answers and the counts that it writes, a count for each kind and some more: an entry past them keeps its value, and all do where it is refused.
fn written_and_more<T: Copy + From<u8> + PartialEq + ToString, A>(
    sheet: &[u8],
    more: usize,
    write: impl FnOnce(&mut [T]) -> Result<A, Refusal>,
) -> Result<(A, String), Refusal> {
    let mut counts = [T::from(7); 35];
    let answer = write(&mut counts);
    let named = if answer.is_ok() { numbers(sheet)?.kinds + more } else { 0 };
    let (counts, past) = counts.split_at(named);
    assert!(past.iter().all(|&entry| entry == T::from(7)));
    Ok((answer?, counts.iter().map(T::to_string).collect::<Vec<_>>().join(" ")))
}

/// What a call answers and the counts that it writes, a count for each kind.
fn written<T: Copy + From<u8> + PartialEq + ToString, A>(
    sheet: &[u8],
    write: impl FnOnce(&mut [T]) -> Result<A, Refusal>,
) -> Result<(A, String), Refusal> {
    written_and_more(sheet, 0, write)
}

/// The answer of Frequencies, as a line has it: the first of the counts that are written, and the others.
fn common(sheet: &[u8], write: impl FnOnce(&mut [u32]) -> Result<(), Refusal>) -> Result<String, Refusal> {
    let ((), counts) = written_and_more(sheet, 2, write)?;
    let (same, stages) = counts.split_once(' ').expect("three counts or more");
    Ok(format!("same {same} stages {stages}"))
}

/// The answer to a line's call, as the line has it.
fn answer(sheet: &[u8], verb: &str, given: &[u64]) -> Result<String, Refusal> {
    let places: Vec<usize> = given.iter().map(|&number| number as usize).collect();
    match (verb, &places[..]) {
        ("number", &[field]) => {
            let found = shelf_number(sheet, field)?;
            Ok(format!("size {} number {}", found.size, found.number))
        }
        ("field", &[size, _]) => Ok(written(sheet, |counts| shelf_field(sheet, size, given[1], counts))?.1),
        ("squads", &[whole, squad]) => {
            let (count, remainder) = written(sheet, |counts| squads(sheet, whole, squad, counts))?;
            Ok(format!("squads {count} = {remainder}"))
        }
        ("finer", &[first, second]) => Ok(match compare(Sense::Finer, sheet, first, second)? {
            Verdict::Same => "same".to_string(),
            Verdict::Different { stage, rounds } => format!("different {stage} {rounds}"),
        }),
        ("finer-form", &[field]) => Ok(written(sheet, |counts| prime_form(Sense::Finer, sheet, field, counts))?.1),
        ("common", &[field, size]) => common(sheet, |counts| frequencies(sheet, field, size, counts)),
        other => panic!("{other:?} is no call"),
    }
}

/// The library's answer to a line's call of Frequencies.
fn library_answer(sheet: &[u8], verb: &str, given: &[u64]) -> Result<String, Refusal> {
    let (&[field, size], "common") = (given, verb) else { panic!("{verb} {given:?} is no call of Frequencies") };
    common(sheet, |counts| {
        limbatue::frequencies_into(sheet, field as usize, size as usize, counts)
            .map_err(|refusal| Refusal { number: refusal.number(), place: refusal.place })
    })
}

/// Answers a call: a sheet, a verb and its numbers.
type Answers = fn(&[u8], &str, &[u64]) -> Result<String, Refusal>;

/// Asserts the lines of two stored files, each of at least so many: one of sheets that use all kinds, and one of sheets that have a kind that is out. Their calls are those of some verbs, answered by a function.
fn assert_lines(files: [&str; 2], least: [usize; 2], verbs: &[&str], answer: Answers) {
    for (place, name) in files.into_iter().enumerate() {
        let text = fs::read_to_string(stored().join(name)).expect(name);
        assert!(text.lines().count() >= least[place], "{name}");
        for line in text.lines() {
            let (call, expected) = line.split_once(" = ").expect("a call and its answer");
            let words: Vec<&str> = call.split(' ').collect();
            assert_eq!(PART_USED.contains(&words[0]), place == 1, "{line}");
            assert!(verbs.contains(&words[1]), "{line}");
            let numbers: Vec<u64> = words[2..].iter().map(|word| word.parse().expect("a number")).collect();
            let given = answer(&sheet(words[0]), words[1], &numbers)
                .unwrap_or_else(|refusal| format!("refused {} {}", refusal.number, refusal.place));
            assert_eq!(given, expected, "{line}");
        }
    }
}

#[test]
fn shelf_numbers_agree() {
    assert_lines(["shelf.txt", "shelf_part_used.txt"], [1_166, 303], &["number", "field"], answer);
}

#[test]
fn squads_agree() {
    assert_lines(["squads.txt", "squads_part_used.txt"], [394, 137], &["squads"], answer);
}

#[test]
fn finer_answers_agree() {
    assert_lines(["finer.txt", "finer_part_used.txt"], [750, 221], &["finer", "finer-form"], answer);
}

#[test]
fn frequencies_agree() {
    for answer in [answer as Answers, library_answer] {
        assert_lines(["frequencies.txt", "frequencies_part_used.txt"], [666, 266], &["common"], answer);
    }
}

#[test]
fn refused_calls_alter_nothing() {
    let mut table = [7; 3];
    let refusal = settle(&sheet("page36"), &mut table).expect_err("a table of three entries is too short");
    assert_eq!((refusal.number, refusal.place, table), (12, 0, [7; 3]));
    // With the marks: a table of four entries and two marks are needed, and a sheet that is refused is so before.
    let (mut table, mut since) = ([7; 4], [7; 2]);
    for (sheet, entries, marks, refused) in
        [("page36", 3, 2, (12, 0)), ("page36", 4, 1, (12, 0)), ("page36", 0, 0, (12, 0)), ("two_traps", 0, 0, (9, 0))]
    {
        let refusal = settle_since(&self::sheet(sheet), &mut table[..entries], &mut since[..marks]).expect_err("short");
        assert_eq!(((refusal.number, refusal.place), table, since), (refused, [7; 4], [7; 2]));
    }
    assert_eq!(settle_since(&sheet("page36"), &mut table, &mut since), Ok(1));
    assert_eq!((table, since), ([1, 0, 2, 0], [1, 1]));
    // 16 comes before everything else, on no bytes too; 12 comes last.
    let mut session = Session { allowances: [5; DESKS] };
    let mut short = [5; DESKS - 1];
    let (no_sheet, accepted) = (sheet("empty"), sheet("page36"));
    for (sheet, second, limit, desk, refused) in [
        (&no_sheet, 2, 9, 8, 16),
        (&no_sheet, 2, 9, usize::MAX, 16),
        (&no_sheet, 2, 9, 7, 1),
        (&accepted, 2, 9, 8, 16),
        (&accepted, 2, 9, 7, 11),
        (&accepted, 0, 9, 7, 13),
        (&accepted, 0, 8, 6, 12),
    ] {
        let refusal = walk_lent(sheet, 0, second, limit, desk, &mut short).expect_err("a session of seven desks");
        assert_eq!((refusal.number, short), (refused, [5; DESKS - 1]));
        if refused != 12 {
            assert_eq!(walk(sheet, 0, second, limit, desk, &mut session), Err(refusal));
            assert_eq!(session.allowances, [5; DESKS]);
        }
    }
    // 14 comes before 15, and both before 12: two counts are needed, and two tokens of two kinds are numbered 0 to 2.
    for (size, number, refused) in [(17, u64::MAX, 14), (2, 3, 15), (2, 2, 12)] {
        let mut counts = [7; 1];
        let refusal = shelf_field(&sheet("page36"), size, number, &mut counts).expect_err("one count is too few");
        assert_eq!((refusal.number, refusal.place, counts), (refused, 0, [7; 1]));
    }
    // 11 comes before 17, of the whole and of the squad, and 17 before 12: field 2 of seven is empty, and two counts are needed.
    for (whole, squad, refused) in [(7, 7, (11, 0)), (7, 2, (11, 0)), (2, 7, (11, 1)), (2, 2, (17, 1)), (2, 3, (12, 0))]
    {
        let mut counts = [7; 1];
        let refusal = squads(&sheet("full00"), whole, squad, &mut counts).expect_err("one count is too few");
        assert_eq!((refusal.number, refusal.place), refused);
        assert_eq!(counts, [7; 1]);
    }
    assert_eq!(squads(&no_sheet, 0, 0, &mut []), Err(Refusal { number: 1, place: 0 }));
    // 11 comes before 14, 14 before 18, and 18 before 12: 34 counts are needed, of 17 tokens there is no list, and of 5 tokens of 32 kinds there are 376,992 fields. Field 2 has over 16 tokens, and is taken.
    for (field, size, refused) in
        [(4, 17, 11), (4, usize::MAX, 11), (2, 17, 14), (2, usize::MAX, 14), (2, 16, 18), (2, 5, 18), (2, 4, 12)]
    {
        let mut counts = [7; 33];
        let refusal = frequencies(&sheet("chain32"), field, size, &mut counts).expect_err("33 counts are too few");
        assert_eq!((refusal.number, refusal.place, counts), (refused, 0, [7; 33]));
    }
    assert_eq!(frequencies(&no_sheet, 4, 17, &mut []), Err(Refusal { number: 1, place: 0 }));
    // 11 comes before 12, in either sense: two counts are needed.
    for sense in Sense::BOTH {
        for (field, refused) in [(7, (11, 0)), (6, (12, 0))] {
            let mut counts = [7; 1];
            let refusal = prime_form(sense, &sheet("full00"), field, &mut counts).expect_err("one count is too few");
            assert_eq!((refusal.number, refusal.place), refused);
            assert_eq!(counts, [7; 1]);
        }
        assert_eq!(prime_form(sense, &no_sheet, 0, &mut []), Err(Refusal { number: 1, place: 0 }));
    }
}

#[test]
fn rows_of_great_norms() {
    for (name, norm) in [("million", 1_000_000), ("million_and_one", 1_000_001), ("billion", 1_000_000_000)] {
        let mut table = [7; 40];
        assert_eq!(settle(&sheet(name), &mut table), Ok(1));
        assert_eq!(row(&table, 6, 5), [norm, 0, 0, 0, 0, 0]);
        assert_eq!(table[36..], [7; 4]);
        assert!(row(&table, 7, 0).is_empty());
    }
    let mut table = [7; 36];
    let refusal = settle(&sheet("billion_and_one"), &mut table).expect_err("one over the limit");
    assert_eq!((refusal.number, refusal.place, table), (10, 5, [7; 36]));
}

#[test]
fn verdicts_of_the_examples() {
    let verdict = |name: &str| compare(Sense::Plain, &sheet(name), 0, 1);
    assert_eq!(verdict("stage1"), Ok(Verdict::Different { stage: 1, rounds: 3 }));
    assert_eq!(verdict("stage2_g1"), Ok(Verdict::Different { stage: 2, rounds: 4 }));
    assert_eq!(verdict("stage3"), Ok(Verdict::Different { stage: 3, rounds: 4 }));
    assert_eq!(verdict("page36"), Ok(Verdict::Same));
}
