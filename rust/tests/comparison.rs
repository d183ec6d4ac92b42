//! The library against the independent implementation: every answer, every buffer, what stands before and past it, and every session after each of its walks; and what is promised of the desks
//! of a session, over whole days, of squads, by Compare and Prime form, of sheets that use a part of their card, by the sheets of that part, of the finer sense, by the plain one and the totals, of frequencies, by
//! Shelf field and Compare, and of the marks, by the rows, Compare and the page, on both. The comparison, the days, the squads, the parts, the finer sense, the frequencies and the marks are tried themselves too: they
//! find each kind of difference, and each broken promise.

use std::collections::BTreeSet;
use std::fmt::Debug;

use independent::base::Refinement;
use independent::calls::{
    Answer, Call, Comparison, Implementation, Lent, Margined, Walk, compare_implementations, independent,
    independent_walk, row_place,
};
use independent::counting::{Promise as Counting, try_counts};
use independent::days::{Promise, play_days};
use independent::filer::{Verdict, bases, compare, parting_stage, prime_form, settle_since};
use independent::finer::{Promise as Finer, try_finer};
use independent::frequencies::{MOST_LISTED, frequencies};
use independent::generator::sample;
use independent::joining::{Promise as Joining, try_squads};
use independent::marks::{Promise as Marked, try_marks};
use independent::norm::accept;
use independent::page::page;
use independent::parts::{Promise as Part, try_parts};
use independent::reached::reached_kinds;
use independent::sense::Sense;
use independent::sheet::{Numbers, Refusal, read};
use independent::shelf::{Entries, MOST_TOKENS, ShelfNumber, field_of, number_of, tokens_of};
use independent::squads::squads;
use independent::walker::{Answer as Found, DESKS, Walked, walk_lent};

/// The crate's own declarations of the C functions.
#[path = "../src/ffi.rs"]
mod ffi;

const SEED: u64 = 20_261_115;

/// The answer array that the library is lent, with contents that no call writes by chance.
fn answer_array(entries: usize) -> Margined<u64> {
    Margined::new(entries, |index| 0x5a5a_5a5a_0000_0000 + index as u64)
}

/// The refusal that a returned number says.
fn refusal(code: u32) -> Refusal {
    Refusal { number: code % 256, place: code / 256 }
}

/// The refusal of a buffer that is too short.
const TOO_SHORT: Refusal = Refusal { number: 12, place: 0 };

/// A sheet's numbers as an answer.
fn numbers(kinds: usize, codes: usize, lines: usize, fields: usize) -> Answer {
    Answer::Numbers(Numbers { kinds, codes, lines, fields })
}

/// Makes a call other than a day on the library's C functions, with an answer array of so many entries: the returned number, and the array.
fn call_library(call: &Call, lent: &mut Lent, entries: usize) -> (u32, Margined<u64>) {
    let mut array = answer_array(entries);
    let answer = array.lent_mut();
    let (values, room) = (answer.as_mut_ptr(), answer.len());
    let (sheet, bytes) = (lent.sheets[0].lent().as_ptr(), lent.sheets[0].lent().len());
    // SAFETY: what is lent are slices, and those that are written overlap nothing.
    let code = unsafe {
        match *call {
            Call::Settle { .. } => {
                let table = lent.table.lent_mut();
                ffi::limbatue_settle(sheet, bytes, table.as_mut_ptr(), table.len(), values, room)
            }
            Call::SettleSince { .. } => {
                let (table, since) = (lent.table.lent_mut(), lent.since.lent_mut());
                let (rows, marks) = (table.as_mut_ptr(), since.as_mut_ptr());
                ffi::limbatue_settle_since(sheet, bytes, rows, table.len(), marks, since.len(), values, room)
            }
            Call::RowCheck { kinds, kind, .. } | Call::Row { kinds, kind, .. } => {
                let table = lent.table.lent();
                ffi::limbatue_row_check(table.as_ptr(), table.len(), kinds, kind, values, room)
            }
            Call::Compare { sense, first, second } => match sense {
                Sense::Plain => ffi::limbatue_compare(sheet, bytes, first, second, values, room),
                Sense::Finer => ffi::limbatue_finer_compare(sheet, bytes, first, second, values, room),
            },
            Call::PrimeForm { sense, field, .. } => {
                let counts = lent.counts.lent_mut();
                match sense {
                    Sense::Plain => ffi::limbatue_prime_form(sheet, bytes, field, counts.as_mut_ptr(), counts.len()),
                    Sense::Finer => {
                        ffi::limbatue_finer_prime_form(sheet, bytes, field, counts.as_mut_ptr(), counts.len())
                    }
                }
            }
            Call::Day(_) => panic!("a day is several calls"),
            Call::Page { .. } => {
                let page = lent.page.lent_mut();
                ffi::limbatue_page(sheet, bytes, page.as_mut_ptr(), page.len(), values, room)
            }
            Call::Numbers => ffi::limbatue_numbers(sheet, bytes, values, room),
            Call::ShelfNumber { field } => ffi::limbatue_shelf_number(sheet, bytes, field, values, room),
            Call::ShelfField { size, number, .. } => {
                let counts = lent.field.lent_mut();
                ffi::limbatue_shelf_field(sheet, bytes, size, number, counts.as_mut_ptr(), counts.len())
            }
            Call::Squads { whole, squad, .. } => {
                let remainder = lent.counts.lent_mut();
                ffi::limbatue_squads(sheet, bytes, whole, squad, remainder.as_mut_ptr(), remainder.len(), values, room)
            }
            Call::Frequencies { field, size, .. } => {
                let counts = lent.frequencies.lent_mut();
                ffi::limbatue_frequencies(sheet, bytes, field, size, counts.as_mut_ptr(), counts.len())
            }
        }
    };
    (code, array)
}

/// Makes a walk of a day on the library's C function, with an answer array of so many entries: the returned number, and the array.
fn call_walk(walk: &Walk, lent: &mut Lent, entries: usize) -> (u32, Margined<u64>) {
    let mut array = answer_array(entries);
    let (sheet, session, answer) = (lent.sheets[walk.sheet].lent(), lent.session.lent_mut(), array.lent_mut());
    // SAFETY: three slices, none of which overlaps one that is written.
    let code = unsafe {
        ffi::limbatue_walk(
            sheet.as_ptr(),
            sheet.len(),
            walk.first,
            walk.second,
            walk.limit,
            walk.desk,
            session.as_mut_ptr(),
            session.len(),
            answer.as_mut_ptr(),
            answer.len(),
        )
    };
    (code, array)
}

/// How many values the answer of a call has; of a day, that of each walk.
fn values_of(call: &Call) -> usize {
    match call {
        Call::Settle { .. } | Call::SettleSince { .. } | Call::Page { .. } | Call::Squads { .. } => 1,
        Call::RowCheck { .. } | Call::Row { .. } | Call::ShelfNumber { .. } => 2,
        Call::Compare { .. } | Call::Day(_) => 3,
        Call::Numbers => 4,
        Call::PrimeForm { .. } | Call::ShelfField { .. } | Call::Frequencies { .. } => 0,
    }
}

/// Asserts that of an answer array, one entry longer than the values named, what is past them is as it was; so must be all of it where the call was refused.
fn assert_kept(call: &dyn Debug, code: u32, array: &Margined<u64>, named: usize) {
    let written = if code == 0 { named } else { 0 };
    let mut kept = answer_array(named + 1);
    kept.lent_mut()[..written].copy_from_slice(&array.lent()[..written]);
    assert!(kept == *array, "{call:?}: values past those named were written");
}

/// A walk of a day on the library's side, whose answer has so many values.
fn library_walk(walk: &Walk, lent: &mut Lent, named: usize) -> Result<Walked, Refusal> {
    let (code, array) = call_walk(walk, lent, named + 1);
    assert_kept(walk, code, &array, named);
    if code != 0 {
        return Err(refusal(code));
    }
    let values = array.lent();
    let answer = match (values[0], values[1]) {
        (0, 0) => Found::Together,
        (1, rounds) => Found::Apart { rounds },
        (2, 0) => Found::Spent,
        other => panic!("{walk:?}: no answer of a walk is {other:?}"),
    };
    Ok(Walked { answer, drawn: values[2].try_into().expect("at most what was left") })
}

/// The library's side.
fn library(call: &Call, lent: &mut Lent) -> Answer {
    let named = values_of(call);
    if let Call::Day(day) = call {
        return day.make(lent, |walk, lent| library_walk(walk, lent, named));
    }
    let (code, array) = call_library(call, lent, named + 1);
    assert_kept(call, code, &array, named);
    let values = array.lent();
    match *call {
        Call::Row { .. } if code != 0 => row_place(lent.table.lent(), &[]),
        _ if code != 0 => Answer::Refused(refusal(code)),
        Call::Day(_) => panic!("a day is several calls"),
        Call::Settle { .. } | Call::SettleSince { .. } => Answer::Settled { stage: values[0] as u32 },
        Call::RowCheck { .. } => Answer::RowThere,
        Call::Row { .. } => Answer::Row { start: values[0] as usize, entries: values[1] as usize },
        Call::Compare { .. } if values[..3] == [0, 0, 0] => Answer::Verdict(Verdict::Same),
        Call::Compare { .. } => {
            assert_eq!(values[0], 1);
            Answer::Verdict(Verdict::Different { stage: values[1] as _, rounds: values[2] })
        }
        Call::PrimeForm { .. } => Answer::FormWritten,
        Call::Page { .. } => Answer::PageWritten { bytes: values[0] as usize },
        Call::Numbers => numbers(values[0] as _, values[1] as _, values[2] as _, values[3] as _),
        Call::ShelfNumber { .. } => Answer::ShelfNumber(ShelfNumber { size: values[0], number: values[1] }),
        Call::ShelfField { .. } => Answer::FieldWritten,
        Call::Squads { .. } => Answer::Squads { count: values[0] },
        Call::Frequencies { .. } => Answer::FrequenciesWritten,
    }
}

/// With an answer array that is one entry too short, a call is refused as it was before, else with 12 at place 0; nothing lent is written.
fn library_short(call: &Call, lent: &mut Lent) -> Answer {
    let named = values_of(call);
    if let Call::Day(day) = call {
        return day.make(lent, |walk, lent| {
            let (code, array) = call_walk(walk, lent, named - 1);
            assert!(array == answer_array(named - 1), "{walk:?}: a short answer array was written");
            Err(refusal(code))
        });
    }
    if named == 0 {
        return independent(call, lent);
    }
    let (code, array) = call_library(call, lent, named - 1);
    assert!(array == answer_array(named - 1), "{call:?}: a short answer array was written");
    Answer::Refused(refusal(code))
}

/// What the independent side would answer there.
fn independent_short(call: &Call, lent: &mut Lent) -> Answer {
    if let Call::Day(day) = call {
        return day.make(lent, |walk, lent| Err(independent_walk(walk, &mut lent.clone()).err().unwrap_or(TOO_SHORT)));
    }
    if values_of(call) == 0 {
        return independent(call, lent);
    }
    let tried = match *call {
        Call::Row { kinds, kind, entries } => Call::RowCheck { kinds, kind, entries },
        ref other => other.clone(),
    };
    match independent(&tried, &mut lent.clone()) {
        refused @ Answer::Refused(_) => refused,
        _ => Answer::Refused(TOO_SHORT),
    }
}

/// A refusal of the safe wrappers.
fn refusal_of(refusal: limbatue::Refusal) -> Refusal {
    Refusal { number: refusal.number(), place: refusal.place }
}

/// A refusal of the safe wrappers as an answer.
fn refused(refusal: limbatue::Refusal) -> Answer {
    Answer::Refused(refusal_of(refusal))
}

/// A walk of a day through the safe wrapper, on a session that its walks share. A session array that is too short is refused, as where it is lent to the library.
fn wrapped_walk(walk: &Walk, lent: &mut Lent, session: &mut limbatue::Session) -> Result<Walked, Refusal> {
    let sheet = lent.sheets[walk.sheet].lent();
    let walked = limbatue::walk(sheet, walk.first, walk.second, walk.limit, walk.desk, session);
    let room = lent.session.lent_mut().first_chunk_mut().map(|left| *left = session.allowances());
    let walked = walked.map_err(refusal_of)?;
    room.ok_or(TOO_SHORT)?;
    let (answer, drawn) = match walked {
        limbatue::Walked::Together { drawn } => (Found::Together, drawn),
        limbatue::Walked::Apart { rounds, drawn } => (Found::Apart { rounds: rounds.into() }, drawn),
        limbatue::Walked::Spent { drawn } => (Found::Spent, drawn),
    };
    Ok(Walked { answer, drawn })
}

/// The library's side through the safe wrappers, those that write into what is lent.
fn wrappers(call: &Call, lent: &mut Lent) -> Answer {
    let sheet = lent.sheets[0].lent();
    match *call {
        Call::Settle { .. } => {
            limbatue::settle_into(sheet, lent.table.lent_mut()).map_or_else(refused, |stage| Answer::Settled { stage })
        }
        Call::SettleSince { .. } => limbatue::settle_since_into(sheet, lent.table.lent_mut(), lent.since.lent_mut())
            .map_or_else(refused, |stage| Answer::Settled { stage }),
        Call::RowCheck { kinds, kind, .. } => {
            limbatue::row(lent.table.lent(), kinds, kind).map_or_else(refused, |_| Answer::RowThere)
        }
        Call::Row { kinds, kind, .. } => {
            row_place(lent.table.lent(), limbatue::row(lent.table.lent(), kinds, kind).unwrap_or_default())
        }
        Call::Compare { sense, first, second } => {
            let verdict = match sense {
                Sense::Plain => limbatue::compare(sheet, first, second),
                Sense::Finer => limbatue::finer_compare(sheet, first, second),
            };
            verdict.map_or_else(refused, |verdict| {
                Answer::Verdict(match verdict {
                    limbatue::Verdict::Same => Verdict::Same,
                    limbatue::Verdict::Different { stage, rounds } => Verdict::Different { stage: stage as _, rounds },
                })
            })
        }
        Call::PrimeForm { sense, field, .. } => {
            let form = match sense {
                Sense::Plain => limbatue::prime_form_into(sheet, field, lent.counts.lent_mut()),
                Sense::Finer => limbatue::finer_prime_form_into(sheet, field, lent.counts.lent_mut()),
            };
            form.map_or_else(refused, |()| Answer::FormWritten)
        }
        Call::Day(ref day) => {
            let mut session = limbatue::Session::open(day.allowances);
            day.make(lent, |walk, lent| wrapped_walk(walk, lent, &mut session))
        }
        Call::Page { .. } => {
            limbatue::page_into(sheet, lent.page.lent_mut()).map_or_else(refused, |bytes| Answer::PageWritten { bytes })
        }
        Call::Numbers => limbatue::numbers(sheet)
            .map_or_else(refused, |said| numbers(said.kinds, said.codes, said.lines, said.fields)),
        Call::ShelfNumber { field } => limbatue::shelf_number(sheet, field).map_or_else(refused, |found| {
            Answer::ShelfNumber(ShelfNumber { size: found.size as _, number: found.number })
        }),
        Call::ShelfField { size, number, .. } => limbatue::shelf_field_into(sheet, size, number, lent.field.lent_mut())
            .map_or_else(refused, |()| Answer::FieldWritten),
        Call::Squads { whole, squad, .. } => limbatue::squads_into(sheet, whole, squad, lent.counts.lent_mut())
            .map_or_else(refused, |count| Answer::Squads { count }),
        Call::Frequencies { field, size, .. } => {
            limbatue::frequencies_into(sheet, field, size, lent.frequencies.lent_mut())
                .map_or_else(refused, |()| Answer::FrequenciesWritten)
        }
    }
}

/// Writes what an owned form gave to what was lent, and answers; a part that is too short is refused, as where it is lent to the library.
fn written<T: Copy>(given: &[T], lent: &mut [T], answer: Answer) -> Answer {
    match lent.get_mut(..given.len()) {
        Some(part) => {
            part.copy_from_slice(given);
            answer
        }
        None => Answer::Refused(TOO_SHORT),
    }
}

/// The library's side through the owned forms, where there is one.
fn owned_forms(call: &Call, lent: &mut Lent) -> Answer {
    let sheet = lent.sheets[0].lent();
    match *call {
        Call::Settle { .. } => limbatue::settle(sheet).map_or_else(refused, |settled| {
            written(settled.table(), lent.table.lent_mut(), Answer::Settled { stage: settled.stage() })
        }),
        Call::SettleSince { .. } => limbatue::settle(sheet).map_or_else(refused, |settled| {
            let mark = |kind| settled.since(kind).expect("a kind").unwrap_or(0);
            let marks: Vec<u32> = (0..settled.kinds()).map(mark).collect();
            let answer = Answer::Settled { stage: settled.stage() };
            if lent.since.lent().len() < marks.len() {
                return Answer::Refused(TOO_SHORT);
            }
            match written(settled.table(), lent.table.lent_mut(), answer) {
                refused @ Answer::Refused(_) => refused,
                answer => written(&marks, lent.since.lent_mut(), answer),
            }
        }),
        Call::PrimeForm { sense, field, .. } => {
            let form = match sense {
                Sense::Plain => limbatue::prime_form(sheet, field),
                Sense::Finer => limbatue::finer_prime_form(sheet, field),
            };
            form.map_or_else(refused, |counts| written(&counts, lent.counts.lent_mut(), Answer::FormWritten))
        }
        Call::Page { .. } => {
            let page = limbatue::page(sheet);
            written(page.as_bytes(), lent.page.lent_mut(), Answer::PageWritten { bytes: page.len() })
        }
        Call::ShelfField { size, number, .. } => limbatue::shelf_field(sheet, size, number)
            .map_or_else(refused, |counts| written(&counts, lent.field.lent_mut(), Answer::FieldWritten)),
        Call::Squads { whole, squad, .. } => limbatue::squads(sheet, whole, squad).map_or_else(refused, |found| {
            written(&found.remainder, lent.counts.lent_mut(), Answer::Squads { count: found.count })
        }),
        Call::Frequencies { field, size, .. } => {
            limbatue::frequencies(sheet, field, size).map_or_else(refused, |limbatue::Frequencies { same, stages }| {
                written(&[&[same], &stages[..]].concat(), lent.frequencies.lent_mut(), Answer::FrequenciesWritten)
            })
        }
        _ => wrappers(call, lent),
    }
}

/// Asserts that two implementations do not differ, and says what was tried.
fn assert_equal(name: &str, comparison: Comparison) {
    let Comparison { sheets, calls, days, .. } = comparison;
    println!("{name}: {sheets} sheets, {calls} calls, {days} days");
    for (answer, times) in &comparison.answers {
        println!("  {answer}: {times}");
    }
    assert!(
        comparison.differences.is_empty(),
        "{} differences, the first: {:?}",
        comparison.differences.len(),
        comparison.differences[0]
    );
}

#[test]
fn the_library_does_not_differ() {
    assert_equal("library", compare_implementations(SEED, 0..100_000, independent, library));
}

#[test]
fn a_short_answer_array_is_refused() {
    assert_equal("short answer arrays", compare_implementations(SEED, 0..5_000, independent_short, library_short));
}

#[test]
fn the_wrappers_do_not_differ() {
    assert_equal("wrappers", compare_implementations(SEED + 1, 0..5_000, independent, wrappers));
}

#[test]
fn the_owned_forms_do_not_differ() {
    assert_equal("owned forms", compare_implementations(SEED + 2, 0..5_000, independent, owned_forms));
}

/// What the page says of a kind past its number, and past its norm where it has one.
fn said_of(settled: &limbatue::Settled, kind: usize) -> String {
    if settled.is_out(kind).expect("a kind") {
        assert!(!settled.is_prime(kind).expect("a kind"));
        assert_eq!(settled.since(kind), Ok(None));
        return "out".to_string();
    }
    let since = settled.since(kind).expect("a kind").expect("a mark of a reached kind");
    assert!(since >= 1 && since <= settled.stage());
    if settled.is_prime(kind).expect("a kind") {
        return format!("since {since} prime");
    }
    let counts: Vec<String> = settled.row(kind).expect("a kind").iter().map(u32::to_string).collect();
    format!("since {since} = {}", counts.join(" "))
}

#[test]
fn a_settled_sheet_says_what_its_page_says() {
    let (mut primes, mut products, mut out, mut later) = (0, 0, 0, 0);
    for number in 0..3_000 {
        let sheet = sample(SEED + 3, number).bytes;
        let Ok(settled) = limbatue::settle(&sheet) else { continue };
        let text = page(&sheet);
        let mut lines = text.lines();
        let first = format!("kinds {} stages {}", settled.kinds(), settled.stage());
        assert_eq!(lines.next(), Some(first.as_str()), "sheet {number}");
        for (kind, row) in settled.rows().enumerate() {
            let line = lines.next().expect("a line for each kind");
            let said = match line.splitn(5, ' ').collect::<Vec<_>>()[..] {
                ["kind", _, "norm", _, said] => said,
                ["kind", _, said] => said,
                _ => panic!("sheet {number} kind {kind}: {line}"),
            };
            assert_eq!(said, said_of(&settled, kind), "sheet {number} kind {kind}");
            assert_eq!(settled.row(kind), Ok(row), "sheet {number} kind {kind}");
            match said.rsplit(' ').next() {
                Some("prime") => primes += 1,
                Some("out") => out += 1,
                _ => products += 1,
            }
            later += u64::from(settled.since(kind).expect("a kind") > Some(1));
        }
        assert!(lines.all(|line| !line.starts_with("kind ")), "sheet {number}");
        let past = settled.kinds();
        assert!(settled.row(past).is_err() && settled.is_prime(past).is_err() && settled.is_out(past).is_err());
        assert_eq!(settled.since(past).map_err(|refusal| refusal.number()), Err(11));
    }
    assert!(primes > 1_000 && products > 1_000 && out > 1_000 && later > 1_000, "{primes} {products} {out} {later}");
}

#[test]
fn the_version_is_that_of_the_crate() {
    let part = |text: &str| text.parse::<u32>().expect("a number");
    let (major, minor) = (part(env!("CARGO_PKG_VERSION_MAJOR")), part(env!("CARGO_PKG_VERSION_MINOR")));
    let version = 10_000 * major + 100 * minor + part(env!("CARGO_PKG_VERSION_PATCH"));
    assert_eq!([ffi::limbatue_version(), limbatue::version()], [version; 2]);
}

/// Compares an implementation with the independent one on some sheets.
fn differences(other: Implementation) -> Comparison {
    compare_implementations(7, 0..400, independent, other)
}

#[test]
fn equal_implementations_do_not_differ() {
    let comparison = differences(independent);
    assert!(comparison.differences.is_empty());
    assert_eq!(comparison.sheets, 400);
    assert!(comparison.calls > 4_000);
}

#[test]
fn another_answer_is_found() {
    let comparison = differences(|call, lent| match independent(call, lent) {
        Answer::Verdict(Verdict::Different { stage, rounds }) if stage > 0 => {
            Answer::Verdict(Verdict::Different { stage, rounds: rounds + 1 })
        }
        answer => answer,
    });
    assert!(!comparison.differences.is_empty());
    assert!(comparison.differences.iter().all(|difference| matches!(difference.call, Call::Compare { .. })));
}

#[test]
fn a_write_past_the_named_entries_is_found() {
    let comparison = differences(|call, lent| {
        let answer = independent(call, lent);
        if let (Call::PrimeForm { .. }, Answer::FormWritten) = (call, &answer) {
            if let Some(last) = lent.counts.lent_mut().last_mut() {
                *last = 0;
            }
        }
        answer
    });
    assert!(comparison.differences.iter().any(|difference| difference.lent_differs));
}

#[test]
fn a_write_on_refusal_is_found() {
    let comparison = differences(|call, lent| {
        let answer = independent(call, lent);
        if let (Call::Settle { .. }, Answer::Refused(_), Some(first)) =
            (call, &answer, lent.table.lent_mut().first_mut())
        {
            *first = 0;
        }
        answer
    });
    assert!(comparison.differences.iter().any(|difference| difference.lent_differs));
}

#[test]
fn another_shelf_number_is_found() {
    let comparison = differences(|call, lent| match independent(call, lent) {
        Answer::ShelfNumber(ShelfNumber { size: 16, number }) => {
            Answer::ShelfNumber(ShelfNumber { size: 16, number: number + 1 })
        }
        answer => answer,
    });
    assert!(!comparison.differences.is_empty());
    assert!(comparison.differences.iter().all(|difference| matches!(difference.call, Call::ShelfNumber { .. })));
}

#[test]
fn a_write_to_the_buffer_of_a_field_is_found() {
    let comparison = differences(|call, lent| {
        let answer = independent(call, lent);
        match (&answer, lent.field.lent_mut()) {
            (Answer::FieldWritten, [.., last]) => *last ^= 1,
            (Answer::Refused(_), [first, ..]) => *first = 0,
            _ => {}
        }
        answer
    });
    let mut found = BTreeSet::new();
    for difference in &comparison.differences {
        assert!(difference.lent_differs && matches!(difference.call, Call::ShelfField { .. }), "{difference:?}");
        found.insert(match difference.answers[0] {
            Answer::Refused(refusal) => refusal.number,
            _ => 0,
        });
    }
    assert!([0, 9, 12, 14, 15].iter().all(|number| found.contains(number)), "{found:?}");
}

/// Makes a walk on its sheet and a session array.
type Walker = fn(&[u8], &Walk, &mut [u32]) -> Result<Walked, Refusal>;

/// Makes the walks of a day by a walker, and all other calls on the independent side.
fn with_walker(call: &Call, lent: &mut Lent, walker: Walker) -> Answer {
    match call {
        Call::Day(day) => {
            day.make(lent, |walk, lent| walker(lent.sheets[walk.sheet].lent(), walk, lent.session.lent_mut()))
        }
        _ => independent(call, lent),
    }
}

/// The walker that does what is asked.
fn right(sheet: &[u8], walk: &Walk, session: &mut [u32]) -> Result<Walked, Refusal> {
    walk_lent(sheet, walk.first, walk.second, walk.limit, walk.desk, session)
}

/// Draws from desk 0, whoever walks.
fn draws_from_desk_0(call: &Call, lent: &mut Lent) -> Answer {
    with_walker(call, lent, |sheet, walk, session| {
        let walked = right(sheet, walk, &mut session.to_vec())?;
        session[0] = session[0].saturating_sub(walked.drawn);
        Ok(walked)
    })
}

/// Walks with what all desks have left together, and draws from the desk that walks.
fn reads_the_sum(call: &Call, lent: &mut Lent) -> Answer {
    with_walker(call, lent, |sheet, walk, session| {
        let sum = session.iter().take(DESKS).sum();
        let mut all_have = vec![sum; session.len()];
        let walked = right(sheet, walk, &mut all_have)?;
        session[walk.desk] = session[walk.desk].saturating_sub(walked.drawn);
        Ok(walked)
    })
}

/// Empties the desk that walks where its walk is refused, and tells no draw.
fn empties_on_refusal(call: &Call, lent: &mut Lent) -> Answer {
    with_walker(call, lent, |sheet, walk, session| {
        let walked = right(sheet, walk, session);
        if walked.is_err() && walk.desk < session.len().min(DESKS) {
            session[walk.desk] = 0;
        }
        walked
    })
}

/// Empties the next desk where a walk is spent.
fn empties_the_next(call: &Call, lent: &mut Lent) -> Answer {
    with_walker(call, lent, |sheet, walk, session| {
        let walked = right(sheet, walk, session)?;
        if walked.answer == Found::Spent {
            session[(walk.desk + 1) % DESKS] = 0;
        }
        Ok(walked)
    })
}

/// Writes past the eighth entry of the session array, where it has one more.
fn writes_past_the_desks(call: &Call, lent: &mut Lent) -> Answer {
    with_walker(call, lent, |sheet, walk, session| {
        let walked = right(sheet, walk, session)?;
        if let Some(past) = session.get_mut(DESKS) {
            *past ^= 1;
        }
        Ok(walked)
    })
}

#[test]
fn an_altered_session_is_found() {
    for wrong in [draws_from_desk_0, empties_on_refusal, empties_the_next, writes_past_the_desks] {
        let comparison = differences(wrong);
        assert!(comparison.differences.iter().all(|difference| matches!(difference.call, Call::Day(_))));
        assert!(comparison.differences.iter().any(|difference| difference.lent_differs));
    }
}

#[test]
fn an_answer_by_another_allowance_is_found() {
    let comparison = differences(reads_the_sum);
    assert!(comparison.differences.iter().all(|difference| difference.answers[0] != difference.answers[1]));
    assert!(!comparison.differences.is_empty());
}

/// A session that is altered after one walk and as it was after the next is equal at the end of the day.
#[test]
fn a_session_is_compared_after_each_walk() {
    let comparison = differences(|call, lent| {
        let mut answer = independent(call, lent);
        if let Answer::Day(made) = &mut answer {
            if let [first, _, ..] = &mut made[..] {
                first.session.lent_mut().iter_mut().for_each(|left| *left ^= 1);
            }
        }
        answer
    });
    assert!(comparison.differences.iter().all(|difference| !difference.lent_differs));
    assert!(!comparison.differences.is_empty());
}

#[test]
fn the_promises_of_the_desks_are_kept() {
    for (name, implementation) in
        [("independent", independent as Implementation), ("library", library), ("wrappers", wrappers)]
    {
        let played = play_days(SEED, 0..10_000, implementation);
        println!("{name}: {played:?}");
        assert!(played.broken.is_empty(), "{name}: {played:?}");
        assert!(played.days == 10_000 && played.walks > 40_000 && played.beside_others > 10_000, "{name}: {played:?}");
    }
}

#[test]
fn a_broken_promise_is_found() {
    for (name, wrong, promises) in [
        ("draws from desk 0", draws_from_desk_0 as Implementation, &[Promise::Loss, Promise::Alone][..]),
        ("reads the sum", reads_the_sum, &[Promise::Loss, Promise::Alone]),
        ("empties on refusal", empties_on_refusal, &[Promise::Loss]),
        ("empties the next", empties_the_next, &[Promise::Loss, Promise::Alone]),
    ] {
        let played = play_days(SEED, 0..1_000, wrong);
        println!("{name}: {played:?}");
        assert!(promises.iter().eq(played.broken.keys()), "{name}: {played:?}");
    }
}

/// Makes a call of Squads on its sheet and a buffer.
type Divider = fn(&[u8], usize, usize, &mut [u64]) -> Result<u64, Refusal>;

/// Makes the calls of Squads by a function, and all others on the independent side.
fn with_divider(call: &Call, lent: &mut Lent, divider: Divider) -> Answer {
    match *call {
        Call::Squads { whole, squad, .. } => divider(lent.sheets[0].lent(), whole, squad, lent.counts.lent_mut())
            .map_or_else(Answer::Refused, |count| Answer::Squads { count }),
        _ => independent(call, lent),
    }
}

/// The counts of a field, and its prime form, of an accepted sheet.
fn counts_and_form(sheet: &[u8], field: usize) -> [Vec<u64>; 2] {
    let normed = accept(sheet).expect("an accepted sheet");
    let counts = normed.card.field(field);
    let form = Refinement::first(&normed, Sense::Plain).settle().base().form(counts.iter().copied());
    let form = form[..counts.len()].iter().map(|&count| count as u64).collect();
    [counts, form]
}

/// Writes some counts less others, so many times, as far as there are such tokens.
fn write_less(whole: &[u64], times: u64, squad: &[u64], remainder: &mut [u64]) {
    for (written, (held, taken)) in remainder.iter_mut().zip(whole.iter().zip(squad)) {
        *written = held.saturating_sub(times.saturating_mul(*taken));
    }
}

/// Divides the counts as they stand on the sheet, and not the prime forms.
fn divides_the_counts(call: &Call, lent: &mut Lent) -> Answer {
    with_divider(call, lent, |sheet, whole, squad, remainder| {
        squads(sheet, whole, squad, remainder)?;
        let [[whole, _], [squad, _]] = [whole, squad].map(|field| counts_and_form(sheet, field));
        let quotients = whole.iter().zip(&squad).filter_map(|(held, taken)| held.checked_div(*taken));
        let count = quotients.min().expect("a squad that is not empty");
        write_less(&whole, count, &squad, remainder);
        Ok(count)
    })
}

/// Stops one squad before the last that goes in.
fn one_short(call: &Call, lent: &mut Lent) -> Answer {
    with_divider(call, lent, |sheet, whole, squad, remainder| {
        let count = squads(sheet, whole, squad, remainder)?.saturating_sub(1);
        let [[_, whole], [_, squad]] = [whole, squad].map(|field| counts_and_form(sheet, field));
        write_less(&whole, count, &squad, remainder);
        Ok(count)
    })
}

/// Goes by the first kind of the squad's prime form alone.
fn by_the_first_kind(call: &Call, lent: &mut Lent) -> Answer {
    with_divider(call, lent, |sheet, whole, squad, remainder| {
        squads(sheet, whole, squad, remainder)?;
        let [[_, whole], [_, squad]] = [whole, squad].map(|field| counts_and_form(sheet, field));
        let kind = squad.iter().position(|&taken| taken > 0).expect("a squad that is not empty");
        let count = whole[kind] / squad[kind];
        write_less(&whole, count, &squad, remainder);
        Ok(count)
    })
}

/// Takes the squad's prime form away once, however often it goes in.
fn taken_once(call: &Call, lent: &mut Lent) -> Answer {
    with_divider(call, lent, |sheet, whole, squad, remainder| {
        let count = squads(sheet, whole, squad, remainder)?;
        let [[_, whole], [_, squad]] = [whole, squad].map(|field| counts_and_form(sheet, field));
        write_less(&whole, count.min(1), &squad, remainder);
        Ok(count)
    })
}

/// Answers in 32 bits.
fn in_32_bits(call: &Call, lent: &mut Lent) -> Answer {
    with_divider(call, lent, |sheet, whole, squad, remainder| {
        Ok(squads(sheet, whole, squad, remainder)? & u64::from(u32::MAX))
    })
}

/// Takes the squad for the whole, and the whole for the squad.
fn the_other_way_round(call: &Call, lent: &mut Lent) -> Answer {
    with_divider(call, lent, |sheet, whole, squad, remainder| squads(sheet, squad, whole, remainder))
}

/// Answers 0 to an empty squad, and the whole as what remains.
fn empty_squad_taken(call: &Call, lent: &mut Lent) -> Answer {
    with_divider(call, lent, |sheet, whole, squad, remainder| match squads(sheet, whole, squad, remainder) {
        Err(Refusal { number: 17, .. }) => {
            let [_, whole] = counts_and_form(sheet, whole);
            let room = remainder.get_mut(..whole.len()).ok_or(TOO_SHORT)?;
            room.copy_from_slice(&whole);
            Ok(0)
        }
        other => other,
    })
}

/// Refuses an empty squad at the place of the first number.
fn at_place_0(call: &Call, lent: &mut Lent) -> Answer {
    with_divider(call, lent, |sheet, whole, squad, remainder| {
        squads(sheet, whole, squad, remainder).map_err(|refusal| match refusal.number {
            17 => Refusal { place: 0, ..refusal },
            _ => refusal,
        })
    })
}

/// Looks at the buffer before the squad.
fn room_before_squad(call: &Call, lent: &mut Lent) -> Answer {
    with_divider(call, lent, |sheet, whole, squad, remainder| {
        squads(sheet, whole, squad, remainder).map_err(|refusal| match accept(sheet) {
            Ok(normed) if refusal.number == 17 && remainder.len() < normed.card.kinds => TOO_SHORT,
            _ => refusal,
        })
    })
}

/// Looks at the squad before the number of the whole.
fn squad_before_number(call: &Call, lent: &mut Lent) -> Answer {
    with_divider(call, lent, |sheet, whole, squad, remainder| {
        squads(sheet, whole, squad, remainder).map_err(|refusal| match squads(sheet, squad, squad, remainder) {
            Err(empty @ Refusal { number: 17, .. }) => empty,
            _ => refusal,
        })
    })
}

/// Clears the buffer where the squad is empty.
fn clears_on_refusal(call: &Call, lent: &mut Lent) -> Answer {
    with_divider(call, lent, |sheet, whole, squad, remainder| {
        let found = squads(sheet, whole, squad, remainder);
        if found.is_err_and(|refusal| refusal.number == 17) {
            remainder.fill(0);
        }
        found
    })
}

/// Clears the buffer past the counts.
fn clears_past_the_counts(call: &Call, lent: &mut Lent) -> Answer {
    with_divider(call, lent, |sheet, whole, squad, remainder| {
        let kinds = accept(sheet).map_or(0, |normed| normed.card.kinds);
        let count = squads(sheet, whole, squad, remainder)?;
        remainder[kinds..].fill(0);
        Ok(count)
    })
}

#[test]
fn other_squads_are_found() {
    for (name, wrong) in [
        ("divides the counts", divides_the_counts as Implementation),
        ("one short", one_short),
        ("by the first kind", by_the_first_kind),
        ("taken once", taken_once),
        ("in 32 bits", in_32_bits),
        ("the other way round", the_other_way_round),
        ("empty squad taken", empty_squad_taken),
        ("at place 0", at_place_0),
        ("room before squad", room_before_squad),
        ("squad before number", squad_before_number),
        ("clears on refusal", clears_on_refusal),
        ("clears past the counts", clears_past_the_counts),
    ] {
        let comparison = compare_implementations(SEED, 0..2_000, independent, wrong);
        println!("{name}: {} of {} calls", comparison.differences.len(), comparison.calls);
        assert!(!comparison.differences.is_empty(), "{name}");
        for difference in &comparison.differences {
            assert!(matches!(difference.call, Call::Squads { .. }), "{name}: {difference:?}");
        }
    }
}

#[test]
fn the_promises_of_squads_are_kept() {
    for (name, implementation) in
        [("independent", independent as Implementation), ("library", library), ("wrappers", wrappers)]
    {
        let tried = try_squads(SEED, 0..10_000, implementation);
        println!("{name}: {tried:?}");
        assert!(tried.broken.is_empty(), "{name}: {tried:?}");
        assert!(tried.joined > 10_000 && tried.several > 1_000 && tried.of_other_counts > 300, "{name}: {tried:?}");
        assert!(tried.one_more > 50_000 && tried.obvious > 10_000 && tried.of_equal_norm > 5_000, "{name}: {tried:?}");
        assert!(tried.forms > 10_000, "{name}: {tried:?}");
    }
}

#[test]
fn a_broken_promise_of_squads_is_found() {
    for (name, wrong, promises) in [
        ("divides the counts", divides_the_counts as Implementation, &[Joining::Largest, Joining::Exact][..]),
        ("one short", one_short, &[Joining::Largest]),
        ("by the first kind", by_the_first_kind, &[Joining::Joined, Joining::Exact]),
        ("taken once", taken_once, &[Joining::Joined, Joining::Exact]),
        ("the other way round", the_other_way_round, &[Joining::Joined, Joining::Largest, Joining::Exact]),
    ] {
        let tried = try_squads(SEED, 0..1_000, wrong);
        println!("{name}: {tried:?}");
        assert!(promises.iter().eq(tried.broken.keys()), "{name}: {tried:?}");
    }
}

/// Makes a call as if no kind were out: on the sheet with one field more, which holds each kind, where there is room for it.
fn no_kind_is_out(call: &Call, lent: &mut Lent) -> Answer {
    let bytes = lent.sheets[0].lent().to_vec();
    let field_more = match (call, read(&bytes)) {
        (Call::Page { .. } | Call::Day(_) | Call::Numbers, _) | (_, Err(_)) => None,
        (_, Ok(card)) => card.with_field(&bytes, &vec![1; card.kinds]).map(|more| (more, card.fields)),
    };
    let Some((more, fields)) = field_more else { return independent(call, lent) };
    let is_over = |field: usize| field >= fields;
    let too_large = match *call {
        Call::Compare { first, second, .. } | Call::Squads { whole: first, squad: second, .. } => {
            is_over(first) || is_over(second)
        }
        Call::PrimeForm { field, .. } | Call::ShelfNumber { field } | Call::Frequencies { field, .. } => is_over(field),
        _ => false,
    };
    if too_large {
        return independent(call, lent);
    }
    let mut other = Lent::new(call, &[more]);
    let answer = independent(call, &mut other);
    other.sheets = lent.sheets.clone();
    *lent = other;
    answer
}

/// Gives a kind that is out the row of a prime kind, itself once.
fn out_is_prime(call: &Call, lent: &mut Lent) -> Answer {
    let answer = independent(call, lent);
    if let (Answer::Settled { .. }, Ok(normed)) = (&answer, accept(lent.sheets[0].lent())) {
        let kinds = normed.card.kinds;
        for kind in (0..kinds).filter(|kind| !normed.reached.contains(kind)) {
            lent.table.lent_mut()[kind * kinds + kind] = 1;
        }
    }
    answer
}

/// Counts the fields of all kinds that are listed before one, and not those of the reached kinds alone.
fn numbered_over_all(call: &Call, lent: &mut Lent) -> Answer {
    let answer = independent(call, lent);
    let (Call::ShelfNumber { field }, Answer::ShelfNumber(found)) = (call, &answer) else { return answer };
    let normed = accept(lent.sheets[0].lent()).expect("an accepted sheet");
    let counts = normed.card.field(*field);
    Answer::ShelfNumber(ShelfNumber { number: number_of(&counts), ..*found })
}

/// Settles a sheet that reaches no kind at stage 0.
fn stage_0_of_nothing(call: &Call, lent: &mut Lent) -> Answer {
    let answer = independent(call, lent);
    match (&answer, accept(lent.sheets[0].lent())) {
        (Answer::Settled { .. }, Ok(normed)) if normed.reached.is_empty() => Answer::Settled { stage: 0 },
        _ => answer,
    }
}

#[test]
fn other_answers_of_parts_are_found() {
    for (name, wrong) in [
        ("no kind is out", no_kind_is_out as Implementation),
        ("out is prime", out_is_prime),
        ("numbered over all", numbered_over_all),
        ("stage 0 of nothing", stage_0_of_nothing),
    ] {
        let comparison = compare_implementations(SEED, 0..2_000, independent, wrong);
        println!("{name}: {} of {} calls", comparison.differences.len(), comparison.calls);
        assert!(!comparison.differences.is_empty(), "{name}");
    }
}

/// Where no kind is out, nothing depends on it.
#[test]
fn sheets_that_use_all_kinds_are_answered_as_before() {
    let comparison = compare_implementations(SEED, 0..2_000, independent, no_kind_is_out);
    for difference in &comparison.differences {
        let bytes = sample(SEED, difference.number).bytes;
        let card = read(&bytes).expect("a sheet that passes the checks of header and lines");
        assert!(reached_kinds(&card).len() < card.kinds, "{difference:?}");
    }
}

#[test]
fn the_promises_of_parts_are_kept() {
    for (name, implementation) in
        [("independent", independent as Implementation), ("library", library), ("wrappers", wrappers)]
    {
        let tried = try_parts(SEED, 0..10_000, implementation);
        println!("{name}: {tried:?}");
        assert!(tried.broken.is_empty(), "{name}: {tried:?}");
        assert!(tried.sheets > 2_000 && tried.nothing > 200 && tried.refused > 200, "{name}: {tried:?}");
    }
}

#[test]
fn a_broken_promise_of_parts_is_found() {
    for (name, wrong, promises) in [
        ("no kind is out", no_kind_is_out as Implementation, &[Part::Dropped, Part::Alone, Part::Nothing][..]),
        ("out is prime", out_is_prime, &[Part::Alone, Part::Nothing]),
        ("numbered over all", numbered_over_all, &[Part::Alone]),
        ("stage 0 of nothing", stage_0_of_nothing, &[Part::Nothing]),
    ] {
        let tried = try_parts(SEED, 0..2_000, wrong);
        println!("{name}: {tried:?}");
        assert!(promises.iter().eq(tried.broken.keys()), "{name}: {tried:?}");
    }
}

/// Makes a call of the finer Compare on its sheet.
type Comparer = fn(&[u8], usize, usize) -> Result<Verdict, Refusal>;

/// Makes a call of the finer Prime form on its sheet and a buffer.
type Former = fn(&[u8], usize, &mut [u64]) -> Result<(), Refusal>;

/// Makes the calls in the finer sense by two functions, and all others on the independent side.
fn with_finer(call: &Call, lent: &mut Lent, comparer: Comparer, former: Former) -> Answer {
    let sheet = lent.sheets[0].lent();
    match *call {
        Call::Compare { sense: Sense::Finer, first, second } => {
            comparer(sheet, first, second).map_or_else(Answer::Refused, Answer::Verdict)
        }
        Call::PrimeForm { sense: Sense::Finer, field, .. } => {
            former(sheet, field, lent.counts.lent_mut()).map_or_else(Answer::Refused, |()| Answer::FormWritten)
        }
        _ => independent(call, lent),
    }
}

/// The finer Compare that does what is asked.
fn finer_compare(sheet: &[u8], first: usize, second: usize) -> Result<Verdict, Refusal> {
    compare(Sense::Finer, sheet, first, second)
}

/// The finer Prime form that does what is asked.
fn finer_form(sheet: &[u8], field: usize, counts: &mut [u64]) -> Result<(), Refusal> {
    prime_form(Sense::Finer, sheet, field, counts)
}

/// Whether two fields of an accepted sheet have equal totals.
fn equal_totals(sheet: &[u8], first: usize, second: usize) -> bool {
    let normed = accept(sheet).expect("an accepted sheet");
    let [total, other] = [first, second].map(|field| tokens_of(&normed.card.field(field)));
    total == other
}

/// Takes the finer sense for the plain one.
fn totals_not_looked_at(call: &Call, lent: &mut Lent) -> Answer {
    with_finer(
        call,
        lent,
        |sheet, first, second| compare(Sense::Plain, sheet, first, second),
        |sheet, field, counts| prime_form(Sense::Plain, sheet, field, counts),
    )
}

/// Looks at the totals of the two fields, and not at those that reads leave.
fn totals_at_the_start_alone(call: &Call, lent: &mut Lent) -> Answer {
    let comparer = |sheet: &[u8], first, second| {
        let verdict = compare(Sense::Plain, sheet, first, second)?;
        if equal_totals(sheet, first, second) { Ok(verdict) } else { finer_compare(sheet, first, second) }
    };
    with_finer(call, lent, comparer, finer_form)
}

/// Finds that the totals differ one stage late.
fn one_stage_late(call: &Call, lent: &mut Lent) -> Answer {
    let comparer = |sheet: &[u8], first, second| match finer_compare(sheet, first, second)? {
        Verdict::Different { stage, rounds } if !equal_totals(sheet, first, second) => {
            Ok(Verdict::Different { stage: stage + 1, rounds })
        }
        verdict => Ok(verdict),
    };
    with_finer(call, lent, comparer, finer_form)
}

/// Calls no fields the same but those of equal counts.
fn counts_are_compared(call: &Call, lent: &mut Lent) -> Answer {
    let comparer = |sheet: &[u8], first, second| match finer_compare(sheet, first, second)? {
        Verdict::Same => {
            let normed = accept(sheet).expect("an accepted sheet");
            let equal = normed.card.field(first) == normed.card.field(second);
            Ok(if equal { Verdict::Same } else { Verdict::Different { stage: 1, rounds: 1 } })
        }
        verdict => Ok(verdict),
    };
    with_finer(call, lent, comparer, finer_form)
}

/// Takes the smaller total in the place of the smaller norm for the rounds.
fn rounds_by_totals(call: &Call, lent: &mut Lent) -> Answer {
    let comparer = |sheet: &[u8], first, second| match finer_compare(sheet, first, second)? {
        Verdict::Different { stage, rounds } => {
            let normed = accept(sheet).expect("an accepted sheet");
            let [total, other] = [first, second].map(|field| tokens_of(&normed.card.field(field)));
            let [norm, other_norm] = [first, second].map(|field| normed.norm(&normed.card.field(field)));
            Ok(Verdict::Different { stage, rounds: rounds - norm.min(other_norm) + total.min(other) })
        }
        verdict => Ok(verdict),
    };
    with_finer(call, lent, comparer, finer_form)
}

/// Calls fields of equal totals the same.
fn totals_alone(call: &Call, lent: &mut Lent) -> Answer {
    let comparer = |sheet: &[u8], first, second| {
        let verdict = finer_compare(sheet, first, second)?;
        Ok(if equal_totals(sheet, first, second) { Verdict::Same } else { verdict })
    };
    with_finer(call, lent, comparer, finer_form)
}

/// Leaves a field as it stands on the sheet for its finer prime form.
fn form_is_the_field(call: &Call, lent: &mut Lent) -> Answer {
    with_finer(call, lent, finer_compare, |sheet, field, counts| {
        finer_form(sheet, field, counts)?;
        let normed = accept(sheet).expect("an accepted sheet");
        counts[..normed.card.kinds].copy_from_slice(&normed.card.field(field));
        Ok(())
    })
}

/// Gives the plain prime form for the finer one.
fn plain_form(call: &Call, lent: &mut Lent) -> Answer {
    with_finer(call, lent, finer_compare, |sheet, field, counts| prime_form(Sense::Plain, sheet, field, counts))
}

#[test]
fn other_finer_answers_are_found() {
    for (name, wrong) in [
        ("totals not looked at", totals_not_looked_at as Implementation),
        ("totals at the start alone", totals_at_the_start_alone),
        ("one stage late", one_stage_late),
        ("counts are compared", counts_are_compared),
        ("rounds by totals", rounds_by_totals),
        ("totals alone", totals_alone),
        ("form is the field", form_is_the_field),
        ("plain form", plain_form),
    ] {
        let comparison = compare_implementations(SEED, 0..2_000, independent, wrong);
        println!("{name}: {} of {} calls", comparison.differences.len(), comparison.calls);
        assert!(!comparison.differences.is_empty(), "{name}");
        for difference in &comparison.differences {
            let finer = matches!(
                difference.call,
                Call::Compare { sense: Sense::Finer, .. } | Call::PrimeForm { sense: Sense::Finer, .. }
            );
            assert!(finer, "{name}: {difference:?}");
        }
    }
}

#[test]
fn the_promises_of_the_finer_sense_are_kept() {
    for (name, implementation) in
        [("independent", independent as Implementation), ("library", library), ("wrappers", wrappers)]
    {
        let tried = try_finer(SEED, 0..5_000, implementation);
        println!("{name}: {tried:?}");
        assert!(tried.broken.is_empty(), "{name}: {tried:?}");
        assert!(tried.sheets > 2_000 && tried.pairs > 15_000 && tried.finer_same > 200, "{name}: {tried:?}");
        assert!(tried.unequal_totals > 100 && tried.later > 20, "{name}: {tried:?}");
        assert!(tried.forms > 5_000 && tried.of_other_counts > 500, "{name}: {tried:?}");
        assert!(tried.rows > 2_000 && tried.of_earlier > 200 && tried.products > 200, "{name}: {tried:?}");
    }
}

#[test]
fn a_broken_promise_of_the_finer_sense_is_found() {
    for (name, wrong, promises) in [
        (
            "totals not looked at",
            totals_not_looked_at as Implementation,
            &[Finer::Totals, Finer::OwnForm, Finer::OneToken][..],
        ),
        ("totals at the start alone", totals_at_the_start_alone, &[Finer::Forms]),
        ("one stage late", one_stage_late, &[Finer::ImpliesSame, Finer::Totals]),
        ("counts are compared", counts_are_compared, &[Finer::Forms, Finer::OwnForm]),
        ("rounds by totals", rounds_by_totals, &[Finer::ImpliesSame]),
        ("totals alone", totals_alone, &[Finer::ImpliesSame, Finer::Forms]),
        ("form is the field", form_is_the_field, &[Finer::Forms]),
        ("plain form", plain_form, &[Finer::Forms, Finer::OwnForm, Finer::OneToken]),
    ] {
        let tried = try_finer(SEED, 0..2_000, wrong);
        println!("{name}: {tried:?}");
        assert!(promises.iter().eq(tried.broken.keys()), "{name}: {tried:?}");
    }
}

/// Makes a call of Frequencies on its sheet and a buffer.
type Counter = fn(&[u8], usize, usize, &mut [u32]) -> Result<(), Refusal>;

/// Makes the calls of Frequencies by a function, and all others on the independent side.
fn with_counter(call: &Call, lent: &mut Lent, counter: Counter) -> Answer {
    match *call {
        Call::Frequencies { field, size, .. } => {
            counter(lent.sheets[0].lent(), field, size, lent.frequencies.lent_mut())
                .map_or_else(Answer::Refused, |()| Answer::FrequenciesWritten)
        }
        _ => independent(call, lent),
    }
}

/// Does what is asked, and then something to the counts that were written, of an accepted sheet.
fn with_counts(call: &Call, lent: &mut Lent, alter: fn(&mut [u32])) -> Answer {
    let answer = independent(call, lent);
    if let (Call::Frequencies { .. }, Answer::FrequenciesWritten) = (call, &answer) {
        let kinds = read(lent.sheets[0].lent()).expect("an accepted sheet").kinds;
        alter(&mut lent.frequencies.lent_mut()[..kinds + 2]);
    }
    answer
}

/// The fields of so many tokens of some kinds of a sheet.
fn fields_of(sheet: &[u8], kinds: &[usize], tokens: u64) -> Vec<Vec<u64>> {
    let all = read(sheet).expect("an accepted sheet").kinds;
    let spread = |counts: Vec<u64>| {
        let mut field = vec![0; all];
        kinds.iter().zip(counts).for_each(|(&kind, count)| field[kind] = count);
        field
    };
    (0..).map_while(|number| field_of(kinds.len(), tokens, number)).map(spread).collect()
}

/// Writes how many of some fields get each answer with a field of an accepted sheet.
fn write_counted(sheet: &[u8], field: usize, others: Vec<Vec<u64>>, counts: &mut [u32]) {
    let normed = accept(sheet).expect("an accepted sheet");
    let bases = bases(&normed);
    counts[..normed.card.kinds + 2].fill(0);
    for other in others {
        let stage = parting_stage(&normed, &bases, &[normed.card.field(field), other]);
        counts[stage.map_or(0, |stage| stage as usize + 1)] += 1;
    }
}

/// Writes those that are the same last.
fn same_last(call: &Call, lent: &mut Lent) -> Answer {
    with_counts(call, lent, |counts| counts.rotate_left(1))
}

/// Counts from stage 1 on, those of stage 0 there too, one stage late.
fn a_stage_late(call: &Call, lent: &mut Lent) -> Answer {
    with_counts(call, lent, |counts| counts[1..].rotate_right(1))
}

/// Tells of each stage how many fields it relates to the given one, and not how many it parts.
fn related_ones(call: &Call, lent: &mut Lent) -> Answer {
    with_counts(call, lent, |counts| {
        let mut related: u32 = counts.iter().sum();
        for count in &mut counts[1..] {
            related -= *count;
            *count = related;
        }
    })
}

/// Tells of each stage how many fields part there or before.
fn parted_so_far(call: &Call, lent: &mut Lent) -> Answer {
    with_counts(call, lent, |counts| (2..counts.len()).for_each(|place| counts[place] += counts[place - 1]))
}

/// Counts all that differ at stage 0.
fn stages_not_told(call: &Call, lent: &mut Lent) -> Answer {
    with_counts(call, lent, |counts| {
        counts[1] = counts[1..].iter().sum();
        counts[2..].fill(0);
    })
}

/// Leaves the count of the last stage as it was.
fn last_stage_not_written(call: &Call, lent: &mut Lent) -> Answer {
    with_counter(call, lent, |sheet, field, size, counts| {
        let before = counts.to_vec();
        frequencies(sheet, field, size, counts)?;
        let last = read(sheet).expect("an accepted sheet").kinds + 1;
        counts[last] = before[last];
        Ok(())
    })
}

/// Lists the fields of all kinds, and not of the reached ones alone.
fn listed_over_all(call: &Call, lent: &mut Lent) -> Answer {
    with_counter(call, lent, |sheet, field, size, counts| {
        frequencies(sheet, field, size, counts)?;
        let kinds = read(sheet).expect("an accepted sheet").kinds;
        if Entries::new(kinds, size as u64).of(kinds, size as u64) > MOST_LISTED {
            return Err(Refusal { number: 18, place: 0 });
        }
        let all: Vec<usize> = (0..kinds).collect();
        write_counted(sheet, field, fields_of(sheet, &all, size as u64), counts);
        Ok(())
    })
}

/// Lists the fields of fewer tokens too.
fn fewer_tokens_too(call: &Call, lent: &mut Lent) -> Answer {
    with_counter(call, lent, |sheet, field, size, counts| {
        frequencies(sheet, field, size, counts)?;
        let reached = accept(sheet).expect("an accepted sheet").reached;
        let listed = (0..=size as u64).flat_map(|tokens| fields_of(sheet, &reached, tokens)).collect();
        write_counted(sheet, field, listed, counts);
        Ok(())
    })
}

/// Leaves out the given field, where it has the size.
fn given_left_out(call: &Call, lent: &mut Lent) -> Answer {
    with_counter(call, lent, |sheet, field, size, counts| {
        frequencies(sheet, field, size, counts)?;
        let given = read(sheet).expect("an accepted sheet").field(field);
        counts[0] -= u32::from(tokens_of(&given) == size as u64);
        Ok(())
    })
}

/// Calls no field the same but the given one, and parts all others that are at stage 1.
fn counts_decide(call: &Call, lent: &mut Lent) -> Answer {
    with_counter(call, lent, |sheet, field, size, counts| {
        frequencies(sheet, field, size, counts)?;
        let given = read(sheet).expect("an accepted sheet").field(field);
        let same = u32::from(tokens_of(&given) == size as u64);
        counts[2] += counts[0] - same;
        counts[0] = same;
        Ok(())
    })
}

/// Parts fields of another number of tokens than the given one at stage 0, as the finer comparison does.
fn totals_looked_at(call: &Call, lent: &mut Lent) -> Answer {
    with_counter(call, lent, |sheet, field, size, counts| {
        frequencies(sheet, field, size, counts)?;
        let card = read(sheet).expect("an accepted sheet");
        if tokens_of(&card.field(field)) != size as u64 {
            let written = &mut counts[..card.kinds + 2];
            written[1] = written.iter().sum();
            written[0] = 0;
            written[2..].fill(0);
        }
        Ok(())
    })
}

/// Takes the given field for the next one.
fn of_the_next_field(call: &Call, lent: &mut Lent) -> Answer {
    with_counter(call, lent, |sheet, field, size, counts| {
        frequencies(sheet, field, size, counts)?;
        let fields = read(sheet).expect("an accepted sheet").fields;
        frequencies(sheet, (field + 1) % fields, size, counts)
    })
}

/// Refuses a given field of over 16 tokens.
fn given_too_large(call: &Call, lent: &mut Lent) -> Answer {
    with_counter(call, lent, |sheet, field, size, counts| match accept(sheet) {
        Ok(normed) if field < normed.card.fields && tokens_of(&normed.card.field(field)) > MOST_TOKENS => {
            Err(Refusal { number: 14, place: 0 })
        }
        _ => frequencies(sheet, field, size, counts),
    })
}

/// Looks at the size before the number of the field.
fn size_before_number(call: &Call, lent: &mut Lent) -> Answer {
    with_counter(call, lent, |sheet, field, size, counts| {
        frequencies(sheet, field, size, counts).map_err(|refusal| match refusal.number {
            11 if size as u64 > MOST_TOKENS => Refusal { number: 14, place: 0 },
            _ => refusal,
        })
    })
}

/// Refuses by the entry for all kinds, and not for the reached ones.
fn entry_of_all_kinds(call: &Call, lent: &mut Lent) -> Answer {
    with_counter(call, lent, |sheet, field, size, counts| match accept(sheet) {
        Ok(normed) if field < normed.card.fields && size as u64 <= MOST_TOKENS => {
            let kinds = normed.card.kinds;
            if Entries::new(kinds, size as u64).of(kinds, size as u64) > MOST_LISTED {
                return Err(Refusal { number: 18, place: 0 });
            }
            frequencies(sheet, field, size, counts)
        }
        _ => frequencies(sheet, field, size, counts),
    })
}

/// Refuses from 50,000 fields on.
fn lower_limit(call: &Call, lent: &mut Lent) -> Answer {
    with_counter(call, lent, |sheet, field, size, counts| {
        let mut tried = counts.to_vec();
        frequencies(sheet, field, size, &mut tried)?;
        let kinds = read(sheet).expect("an accepted sheet").kinds;
        if tried[..kinds + 2].iter().sum::<u32>() > 50_000 {
            return Err(Refusal { number: 18, place: 0 });
        }
        counts.copy_from_slice(&tried);
        Ok(())
    })
}

/// Refuses an entry that is too large as a size that is.
fn entry_told_as_size(call: &Call, lent: &mut Lent) -> Answer {
    with_counter(call, lent, |sheet, field, size, counts| {
        frequencies(sheet, field, size, counts).map_err(|refusal| match refusal.number {
            18 => Refusal { number: 14, place: 0 },
            _ => refusal,
        })
    })
}

/// Looks at the buffer before the entry.
fn room_before_entry(call: &Call, lent: &mut Lent) -> Answer {
    with_counter(call, lent, |sheet, field, size, counts| {
        frequencies(sheet, field, size, counts).map_err(|refusal| match read(sheet) {
            Ok(card) if refusal.number == 18 && counts.len() < card.kinds + 2 => TOO_SHORT,
            _ => refusal,
        })
    })
}

/// Takes a buffer that has room for a count of each kind, and writes as many counts as there is room for.
fn room_for_kinds(call: &Call, lent: &mut Lent) -> Answer {
    with_counter(call, lent, |sheet, field, size, counts| match frequencies(sheet, field, size, counts) {
        Err(TOO_SHORT) if counts.len() >= read(sheet).expect("an accepted sheet").kinds => {
            let mut longer = [0; 34];
            frequencies(sheet, field, size, &mut longer)?;
            counts.copy_from_slice(&longer[..counts.len()]);
            Ok(())
        }
        other => other,
    })
}

/// Clears the buffer where the entry is too large.
fn clears_where_entry_is_refused(call: &Call, lent: &mut Lent) -> Answer {
    with_counter(call, lent, |sheet, field, size, counts| {
        let found = frequencies(sheet, field, size, counts);
        if found.is_err_and(|refusal| refusal.number == 18) {
            counts.fill(0);
        }
        found
    })
}

/// Clears the buffer past the counts.
fn clears_past_the_frequencies(call: &Call, lent: &mut Lent) -> Answer {
    with_counter(call, lent, |sheet, field, size, counts| {
        frequencies(sheet, field, size, counts)?;
        let kinds = read(sheet).expect("an accepted sheet").kinds;
        counts[kinds + 2..].fill(0);
        Ok(())
    })
}

#[test]
fn other_frequencies_are_found() {
    for (name, wrong) in [
        ("same last", same_last as Implementation),
        ("a stage late", a_stage_late),
        ("related ones", related_ones),
        ("parted so far", parted_so_far),
        ("stages not told", stages_not_told),
        ("last stage not written", last_stage_not_written),
        ("listed over all", listed_over_all),
        ("fewer tokens too", fewer_tokens_too),
        ("given left out", given_left_out),
        ("counts decide", counts_decide),
        ("totals looked at", totals_looked_at),
        ("of the next field", of_the_next_field),
        ("given too large", given_too_large),
        ("size before number", size_before_number),
        ("entry of all kinds", entry_of_all_kinds),
        ("lower limit", lower_limit),
        ("entry told as size", entry_told_as_size),
        ("room before entry", room_before_entry),
        ("room for kinds", room_for_kinds),
        ("clears where the entry is refused", clears_where_entry_is_refused),
        ("clears past the frequencies", clears_past_the_frequencies),
    ] {
        let comparison = compare_implementations(SEED, 0..2_000, independent, wrong);
        println!("{name}: {} of {} calls", comparison.differences.len(), comparison.calls);
        assert!(!comparison.differences.is_empty(), "{name}");
        for difference in &comparison.differences {
            assert!(matches!(difference.call, Call::Frequencies { .. }), "{name}: {difference:?}");
        }
    }
}

#[test]
fn the_promises_of_frequencies_are_kept() {
    for (name, implementation) in
        [("independent", independent as Implementation), ("library", library), ("wrappers", wrappers)]
    {
        let tried = try_counts(SEED, 0..5_000, implementation);
        println!("{name}: {tried:?}");
        assert!(tried.broken.is_empty(), "{name}: {tried:?}");
        assert!(tried.answered > 4_000 && tried.of_large_fields > 500 && tried.alike > 100, "{name}: {tried:?}");
        assert!(tried.judged > 3_000 && tried.fields > 30_000 && tried.same_unequal > 300, "{name}: {tried:?}");
        assert!(tried.first > 500 && tried.later > 2_000, "{name}: {tried:?}");
    }
}

#[test]
fn a_broken_promise_of_frequencies_is_found() {
    for (name, wrong, promises) in [
        ("same last", same_last as Implementation, &[Counting::Judged, Counting::Settled][..]),
        ("a stage late", a_stage_late, &[Counting::Judged, Counting::Settled]),
        ("related ones", related_ones, &[Counting::Adds, Counting::Judged, Counting::Settled]),
        ("parted so far", parted_so_far, &[Counting::Adds, Counting::Judged, Counting::Settled]),
        ("stages not told", stages_not_told, &[Counting::Judged]),
        ("last stage not written", last_stage_not_written, &[Counting::Adds, Counting::Judged, Counting::Settled]),
        ("listed over all", listed_over_all, &[Counting::Adds, Counting::Judged]),
        ("fewer tokens too", fewer_tokens_too, &[Counting::Adds, Counting::Judged]),
        ("given left out", given_left_out, &[Counting::Adds, Counting::Judged, Counting::Alike]),
        ("counts decide", counts_decide, &[Counting::Judged, Counting::Alike]),
        ("totals looked at", totals_looked_at, &[Counting::Judged, Counting::Alike]),
        ("of the next field", of_the_next_field, &[Counting::Judged, Counting::Alike]),
    ] {
        let tried = try_counts(SEED, 0..2_000, wrong);
        println!("{name}: {tried:?}");
        assert!(promises.iter().eq(tried.broken.keys()), "{name}: {tried:?}");
    }
}

/// Makes a call of Settle with the marks on its sheet, a table and a buffer of marks.
type Marker = fn(&[u8], &mut [u32], &mut [u32]) -> Result<u32, Refusal>;

/// Makes the calls of Settle with the marks by a function, and all others on the independent side.
fn with_marker(call: &Call, lent: &mut Lent, marker: Marker) -> Answer {
    match *call {
        Call::SettleSince { .. } => marker(lent.sheets[0].lent(), lent.table.lent_mut(), lent.since.lent_mut())
            .map_or_else(Answer::Refused, |stage| Answer::Settled { stage }),
        _ => independent(call, lent),
    }
}

/// Does what is asked, and then something to the marks that were written: a function gives each reached kind another, by its own and the settled stage.
fn with_marks(sheet: &[u8], table: &mut [u32], since: &mut [u32], other: fn(u32, u32) -> u32) -> Result<u32, Refusal> {
    let stage = settle_since(sheet, table, since)?;
    let kinds = read(sheet).expect("an accepted sheet").kinds;
    for mark in since[..kinds].iter_mut().filter(|mark| **mark > 0) {
        *mark = other(*mark, stage);
    }
    Ok(stage)
}

/// Tells the stage after the one at which the row became what it is.
fn one_stage_more(call: &Call, lent: &mut Lent) -> Answer {
    with_marker(call, lent, |sheet, table, since| with_marks(sheet, table, since, |mark, _| mark + 1))
}

/// Counts the stages from 0 up.
fn from_stage_0(call: &Call, lent: &mut Lent) -> Answer {
    with_marker(call, lent, |sheet, table, since| with_marks(sheet, table, since, |mark, _| mark - 1))
}

/// Tells the last stage at which the row was another, where there is one.
fn last_of_the_other_row(call: &Call, lent: &mut Lent) -> Answer {
    with_marker(call, lent, |sheet, table, since| with_marks(sheet, table, since, |mark, _| mark.max(2) - 1))
}

/// Tells the settled stage of every kind.
fn settled_for_all(call: &Call, lent: &mut Lent) -> Answer {
    with_marker(call, lent, |sheet, table, since| with_marks(sheet, table, since, |_, stage| stage))
}

/// Tells stage 1 of every kind.
fn first_for_all(call: &Call, lent: &mut Lent) -> Answer {
    with_marker(call, lent, |sheet, table, since| with_marks(sheet, table, since, |_, _| 1))
}

/// Tells how many stages the row has been what it is.
fn for_how_long(call: &Call, lent: &mut Lent) -> Answer {
    with_marker(call, lent, |sheet, table, since| with_marks(sheet, table, since, |mark, stage| stage - mark + 1))
}

/// Tells since when a kind is an atom, and stage 1 of one that is none.
fn of_primes_alone(call: &Call, lent: &mut Lent) -> Answer {
    with_marker(call, lent, |sheet, table, since| {
        let stage = settle_since(sheet, table, since)?;
        let normed = accept(sheet).expect("an accepted sheet");
        let kinds = normed.card.kinds;
        for kind in normed.reached.into_iter().filter(|kind| table[kind * kinds + kind] != 1) {
            since[kind] = 1;
        }
        Ok(stage)
    })
}

/// Tells of each reached kind the mark of the next one.
fn of_the_next_kind(call: &Call, lent: &mut Lent) -> Answer {
    with_marker(call, lent, |sheet, table, since| {
        let stage = settle_since(sheet, table, since)?;
        let reached = accept(sheet).expect("an accepted sheet").reached;
        let marks: Vec<u32> = reached.iter().map(|&kind| since[kind]).collect();
        for (place, &kind) in reached.iter().enumerate() {
            since[kind] = marks[(place + 1) % marks.len()];
        }
        Ok(stage)
    })
}

/// Writes the marks in the order of the kinds, by norm, and not in kind number.
fn in_order_of_norms(call: &Call, lent: &mut Lent) -> Answer {
    with_marker(call, lent, |sheet, table, since| {
        let stage = settle_since(sheet, table, since)?;
        let normed = accept(sheet).expect("an accepted sheet");
        let marks: Vec<u32> = normed.order.iter().map(|&kind| since[kind]).collect();
        for (&kind, mark) in normed.reached.iter().zip(marks) {
            since[kind] = mark;
        }
        Ok(stage)
    })
}

/// Tells since when a kind has its row in the finer sense.
fn in_the_finer_sense(call: &Call, lent: &mut Lent) -> Answer {
    with_marker(call, lent, |sheet, table, since| {
        let stage = settle_since(sheet, table, since)?;
        let normed = accept(sheet).expect("an accepted sheet");
        let settled = Refinement::first(&normed, Sense::Finer).settle();
        for (kind, mark) in since[..normed.card.kinds].iter_mut().enumerate() {
            *mark = settled.base().since(kind);
        }
        Ok(stage)
    })
}

/// Tells stage 1 of a kind that is out.
fn out_since_stage_1(call: &Call, lent: &mut Lent) -> Answer {
    with_marker(call, lent, |sheet, table, since| {
        let stage = settle_since(sheet, table, since)?;
        let kinds = read(sheet).expect("an accepted sheet").kinds;
        since[..kinds].iter_mut().filter(|mark| **mark == 0).for_each(|mark| *mark = 1);
        Ok(stage)
    })
}

/// Leaves the mark of a kind that is out as it was.
fn out_not_written(call: &Call, lent: &mut Lent) -> Answer {
    with_marker(call, lent, |sheet, table, since| {
        let before = since.to_vec();
        let stage = settle_since(sheet, table, since)?;
        let kinds = read(sheet).expect("an accepted sheet").kinds;
        for (mark, before) in since[..kinds].iter_mut().zip(before).filter(|(mark, _)| **mark == 0) {
            *mark = before;
        }
        Ok(stage)
    })
}

/// Writes the marks one after another, without a place for kinds that are out.
fn of_reached_kinds_alone(call: &Call, lent: &mut Lent) -> Answer {
    with_marker(call, lent, |sheet, table, since| {
        let stage = settle_since(sheet, table, since)?;
        let kinds = read(sheet).expect("an accepted sheet").kinds;
        since[..kinds].sort_by_key(|&mark| mark == 0);
        Ok(stage)
    })
}

/// Has the mark of a prime kind in the table, in the place of its count.
fn marks_in_the_table(call: &Call, lent: &mut Lent) -> Answer {
    with_marker(call, lent, |sheet, table, since| {
        let stage = settle_since(sheet, table, since)?;
        let kinds = read(sheet).expect("an accepted sheet").kinds;
        for kind in (0..kinds).filter(|kind| table[kind * kinds + kind] == 1).collect::<Vec<_>>() {
            table[kind * kinds + kind] = since[kind];
        }
        Ok(stage)
    })
}

/// Writes as many marks as there is room for.
fn marks_cut(call: &Call, lent: &mut Lent) -> Answer {
    with_marker(call, lent, |sheet, table, since| match settle_since(sheet, table, since) {
        Err(TOO_SHORT) => {
            let mut longer = [0; 32];
            let stage = settle_since(sheet, table, &mut longer)?;
            let length = since.len().min(32);
            since[..length].copy_from_slice(&longer[..length]);
            Ok(stage)
        }
        other => other,
    })
}

/// Writes the table where the marks have no room.
fn table_written_first(call: &Call, lent: &mut Lent) -> Answer {
    with_marker(call, lent, |sheet, table, since| match settle_since(sheet, table, since) {
        Err(TOO_SHORT) => {
            settle_since(sheet, table, &mut [0; 32])?;
            Err(TOO_SHORT)
        }
        other => other,
    })
}

/// Writes the marks where the table has no room.
fn marks_written_first(call: &Call, lent: &mut Lent) -> Answer {
    with_marker(call, lent, |sheet, table, since| match settle_since(sheet, table, since) {
        Err(TOO_SHORT) => {
            settle_since(sheet, &mut [0; 1024], since)?;
            Err(TOO_SHORT)
        }
        other => other,
    })
}

/// Refuses marks that have no room at another place than the table.
fn short_marks_at_place_1(call: &Call, lent: &mut Lent) -> Answer {
    with_marker(call, lent, |sheet, table, since| match settle_since(sheet, table, since) {
        Err(TOO_SHORT) if settle_since(sheet, &mut table.to_vec(), &mut [0; 32]).is_ok() => {
            Err(Refusal { place: 1, ..TOO_SHORT })
        }
        other => other,
    })
}

/// Looks at the buffer of the marks before the norms.
fn room_before_norms(call: &Call, lent: &mut Lent) -> Answer {
    with_marker(call, lent, |sheet, table, since| {
        settle_since(sheet, table, since).map_err(|refusal| match read(sheet) {
            Ok(card) if since.len() < card.kinds => TOO_SHORT,
            _ => refusal,
        })
    })
}

/// Clears the buffer past the marks.
fn clears_past_the_marks(call: &Call, lent: &mut Lent) -> Answer {
    with_marker(call, lent, |sheet, table, since| {
        let stage = settle_since(sheet, table, since)?;
        let kinds = read(sheet).expect("an accepted sheet").kinds;
        since[kinds..].fill(0);
        Ok(stage)
    })
}

#[test]
fn other_marks_are_found() {
    for (name, wrong) in [
        ("one stage more", one_stage_more as Implementation),
        ("from stage 0", from_stage_0),
        ("last of the other row", last_of_the_other_row),
        ("settled for all", settled_for_all),
        ("first for all", first_for_all),
        ("for how long", for_how_long),
        ("of primes alone", of_primes_alone),
        ("of the next kind", of_the_next_kind),
        ("in order of norms", in_order_of_norms),
        ("in the finer sense", in_the_finer_sense),
        ("out since stage 1", out_since_stage_1),
        ("out not written", out_not_written),
        ("of reached kinds alone", of_reached_kinds_alone),
        ("marks in the table", marks_in_the_table),
        ("marks cut", marks_cut),
        ("table written first", table_written_first),
        ("marks written first", marks_written_first),
        ("short marks at place 1", short_marks_at_place_1),
        ("room before norms", room_before_norms),
        ("clears past the marks", clears_past_the_marks),
    ] {
        let comparison = compare_implementations(SEED, 0..2_000, independent, wrong);
        println!("{name}: {} of {} calls", comparison.differences.len(), comparison.calls);
        assert!(!comparison.differences.is_empty(), "{name}");
        for difference in &comparison.differences {
            assert!(matches!(difference.call, Call::SettleSince { .. }), "{name}: {difference:?}");
        }
    }
}

#[test]
fn the_promises_of_the_marks_are_kept() {
    for (name, implementation) in
        [("independent", independent as Implementation), ("library", library), ("wrappers", wrappers)]
    {
        let tried = try_marks(SEED, 0..5_000, implementation);
        println!("{name}: {tried:?}");
        assert!(tried.broken.is_empty(), "{name}: {tried:?}");
        assert!(tried.sheets > 2_000 && tried.kinds > 10_000 && tried.out > 2_000, "{name}: {tried:?}");
        assert!(tried.later > 5_000 && tried.between > 2_000 && tried.changed > 300, "{name}: {tried:?}");
        assert!(tried.parted > 4_000 && tried.parted_later > 1_000 && tried.fields > 6_000, "{name}: {tried:?}");
    }
}

#[test]
fn a_broken_promise_of_the_marks_is_found() {
    use Marked::{AsSettled, Greatest, OfRow, Parted, Printed, Within};
    for (name, wrong, promises) in [
        ("one stage more", one_stage_more as Implementation, &[Within, Greatest, Parted, Printed][..]),
        ("from stage 0", from_stage_0, &[Within, Greatest, Parted, Printed]),
        ("last of the other row", last_of_the_other_row, &[Greatest, Parted, Printed]),
        ("settled for all", settled_for_all, &[Parted, Printed]),
        ("first for all", first_for_all, &[Greatest, Parted, Printed]),
        ("for how long", for_how_long, &[OfRow, Parted, Printed]),
        ("of primes alone", of_primes_alone, &[OfRow, Printed]),
        ("of the next kind", of_the_next_kind, &[OfRow, Parted, Printed]),
        ("in order of norms", in_order_of_norms, &[OfRow, Parted, Printed]),
        ("in the finer sense", in_the_finer_sense, &[Within, Greatest, OfRow, Parted, Printed]),
        ("out since stage 1", out_since_stage_1, &[Within]),
        ("out not written", out_not_written, &[Within, Greatest]),
        ("of reached kinds alone", of_reached_kinds_alone, &[Within, OfRow, Parted, Printed]),
        ("marks in the table", marks_in_the_table, &[AsSettled, Printed]),
    ] {
        let tried = try_marks(SEED, 0..2_000, wrong);
        println!("{name}: {tried:?}");
        assert!(promises.iter().eq(tried.broken.keys()), "{name}: {tried:?}");
    }
}
