//! What the crate shares with the documents: the sentences of refusals, from calls that are refused, and the constants.

use std::fs;
use std::path::Path;

use limbatue::{DESKS, Refusal, Session};

/// The text of a file of the repository.
fn document(path: &str) -> String {
    let file = Path::new(env!("CARGO_MANIFEST_DIR")).join("..").join(path);
    fs::read_to_string(&file).unwrap_or_else(|error| panic!("{}: {error}", file.display()))
}

/// A stored sheet.
fn sheet(name: &str) -> Vec<u8> {
    let file = Path::new(env!("CARGO_MANIFEST_DIR")).join("testdata").join(format!("{name}.sheet"));
    fs::read(&file).unwrap_or_else(|error| panic!("{}: {error}", file.display()))
}

/// A row of the table of refusals, with a call that is refused so.
struct Row {
    number: u32,
    /// As the table has it: the place, or of what it is the number.
    place: &'static str,
    /// With `P` for the place.
    sentence: &'static str,
    refusal: Refusal,
}

/// The refusal of Settle on a stored sheet, at a row of the table.
fn settle(name: &str, number: u32, place: &'static str, sentence: &'static str) -> Row {
    Row { number, place, sentence, refusal: limbatue::settle(&sheet(name)).expect_err(name) }
}

/// The refusal of Compare on two fields, at a row of the table.
fn compare(first: usize, second: usize, place: &'static str, sentence: &'static str) -> Row {
    let refusal = limbatue::compare(&sheet("page36"), first, second).expect_err("two fields");
    Row { number: 11, place, sentence, refusal }
}

/// The table of refusals, in the order of the checks.
fn table() -> Vec<Row> {
    let accepted = sheet("page36");
    let walk = |limit, desk| limbatue::walk(&accepted, 0, 1, limit, desk, &mut Session::open([1; DESKS]));
    vec![
        Row { number: 16, place: "0", sentence: "the desk is over 7", refusal: walk(9, 8).expect_err("desk eight") },
        settle("nineteen", 1, "0", "the sheet has under 20 bytes"),
        settle("bad_kinds33", 2, "0", "the number of kinds is not from 1 to 32"),
        settle("bad_codes65", 3, "0", "the number of codes is not from 1 to 64"),
        settle("bad_lines257", 4, "0", "there are over 256 lines"),
        settle("bad_fields65", 5, "0", "there are over 64 fields"),
        settle("bad_off_lines", 6, "0", "the offset of the lines is not 20"),
        settle("bad_off_fields", 6, "1", "the offset of the fields is not where the lines end"),
        settle("bad_total", 6, "2", "the total is not where the fields end"),
        settle("long37", 6, "3", "the bytes given are not as many as the total"),
        settle("bad_line1_kind", 7, "line", "line P: its kind is not under the number of kinds"),
        settle("bad_line1_code", 8, "line", "line P: its code is not under the number of codes"),
        settle("used_through_line", 9, "kind", "kind P: it has no norm, since it can not be cleared"),
        settle("billion_and_one", 10, "kind", "kind P: its norm is over 1,000,000,000"),
        compare(2, 2, "0", "the first field or kind number is too large"),
        compare(1, 2, "1", "the second field number is too large"),
        Row {
            number: 13,
            place: "0",
            sentence: "the round limit is over 8",
            refusal: walk(9, 7).expect_err("nine rounds"),
        },
        Row {
            number: 14,
            place: "0",
            sentence: "the field or the size is over 16 tokens",
            refusal: limbatue::shelf_field(&accepted, 17, 0).expect_err("seventeen tokens"),
        },
        Row {
            number: 15,
            place: "0",
            sentence: "no field of this size has so large a number",
            refusal: limbatue::shelf_field(&accepted, 16, 17).expect_err("seventeen fields of sixteen tokens"),
        },
        Row {
            number: 17,
            place: "1",
            sentence: "the squad is empty",
            refusal: limbatue::squads(&sheet("full00"), 0, 2).expect_err("a squad of no tokens"),
        },
        Row {
            number: 18,
            place: "0",
            sentence: "there are over 65,536 fields of this size",
            refusal: limbatue::frequencies(&sheet("chain32"), 0, 5).expect_err("376,992 fields of five tokens"),
        },
        Row {
            number: 12,
            place: "0",
            sentence: "a buffer or table is too short",
            refusal: limbatue::settle_into(&accepted, &mut [0; 3]).expect_err("three entries"),
        },
    ]
}

#[test]
fn refusals_say_their_sentences() {
    for row in table() {
        let Row { number, place, sentence, refusal } = row;
        assert_eq!(refusal.number(), number, "{sentence}");
        match place.parse::<u32>() {
            Ok(place) => assert_eq!(refusal.place, place, "{sentence}"),
            Err(_) => assert!(refusal.place > 0, "{sentence}: the place should not be the one that others have"),
        }
        assert_eq!(refusal.to_string(), sentence.replace('P', &refusal.place.to_string()));
    }
}

/// Asserts that a document has every row of the table, a line with the number, the place and the sentence, and that they stand in the order of the checks.
fn assert_table(path: &str) {
    let text = document(path);
    let place_of = |row: &Row| {
        text.lines().position(|line| {
            line.split_once(row.sentence).is_some_and(|(before, _)| {
                let words: Vec<&str> = before.split(|c: char| !c.is_ascii_alphanumeric()).collect();
                words.contains(&&*row.number.to_string()) && words.contains(&row.place)
            })
        })
    };
    let table = table();
    let lacking: Vec<String> = table
        .iter()
        .filter(|row| place_of(row).is_none())
        .map(|row| format!("  {} {} {}", row.number, row.place, row.sentence))
        .collect();
    assert!(lacking.is_empty(), "{path} lacks these rows of the table of refusals:\n{}", lacking.join("\n"));
    assert!(table.iter().map(place_of).is_sorted(), "{path} has the table of refusals in another order");
}

#[test]
fn the_page_on_the_format_has_the_sentences() {
    assert_table("docs/SHEET.md");
}

#[test]
fn the_header_has_the_sentences() {
    assert_table("include/limbatue.h");
}

/// The number that the header defines a name as.
fn defined(name: &str) -> usize {
    let header = document("include/limbatue.h");
    let value = header.lines().find_map(|line| line.strip_prefix("#define ")?.strip_prefix(name)?.strip_prefix(' '));
    value
        .and_then(|value| value.trim().parse().ok())
        .unwrap_or_else(|| panic!("the header defines {name} as no number"))
}

#[test]
fn the_constants_are_the_header_s() {
    assert_eq!(limbatue::SHEET_MOST, defined("LIMBATUE_SHEET_MOST"));
    assert_eq!(limbatue::TABLE_MOST, defined("LIMBATUE_TABLE_MOST"));
    assert_eq!(limbatue::COUNTS_MOST, defined("LIMBATUE_COUNTS_MOST"));
    assert_eq!(limbatue::FREQUENCIES_MOST, defined("LIMBATUE_FREQUENCIES_MOST"));
    assert_eq!(limbatue::PAGE_MOST, defined("LIMBATUE_PAGE_MOST"));
    assert_eq!(limbatue::TOKENS_MOST, defined("LIMBATUE_TOKENS_MOST"));
    assert_eq!(limbatue::DESKS, defined("LIMBATUE_DESKS"));
    assert_eq!(limbatue::version() as usize, defined("LIMBATUE_VERSION"));
}
