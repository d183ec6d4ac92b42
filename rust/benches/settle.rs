//! The library's times beside those of the independent implementation, in one run: settling the costly families, alone and with the marks, prime forms in the plain and the finer sense, frequencies of as many fields as are listed, walks, how time grows with kinds and
//! lines, and what kinds that are out cost.
//!
//! Each time is the least of the runs of a fifth of a second, over the same sheet and the same buffers, which are not cleared between the runs.

use std::hint::black_box;
use std::time::{Duration, Instant};

use independent::generator::{COSTLY, Family, measured, measured_among, side_by_side};
use independent::parts::bytes_of;
use independent::reached::reached_kinds;
use independent::sense::Sense;
use independent::sheet::read;

const SEED: u64 = 20_261_115;

/// The least time of one run, over runs that take a fifth of a second together.
fn least_time(mut run: impl FnMut()) -> Duration {
    let started = Instant::now();
    let mut least = Duration::MAX;
    while started.elapsed() < Duration::from_millis(200) {
        let before = Instant::now();
        run();
        least = least.min(before.elapsed());
    }
    least
}

/// A time in milliseconds.
fn milliseconds(time: Duration) -> f64 {
    time.as_secs_f64() * 1e3
}

/// A time in microseconds.
fn microseconds(time: Duration) -> f64 {
    time.as_secs_f64() * 1e6
}

/// Settling a sheet: the stage, the library's time and the independent one's.
fn settle_times(sheet: &[u8]) -> (u32, Duration, Duration) {
    let (mut table, mut other) = ([0; 1024], [0; 1024]);
    let stage = limbatue::settle_into(sheet, &mut table).expect("an accepted sheet");
    assert_eq!(independent::filer::settle(sheet, &mut other), Ok(stage));
    assert!(table == other, "the tables differ");
    let library = least_time(|| {
        black_box(limbatue::settle_into(black_box(sheet), &mut table)).ok();
    });
    let independent = least_time(|| {
        black_box(independent::filer::settle(black_box(sheet), &mut other)).ok();
    });
    (stage, library, independent)
}

/// Settling a sheet with the marks: the library's time and the independent one's.
fn since_times(sheet: &[u8]) -> (Duration, Duration) {
    let ((mut table, mut other), (mut since, mut other_since)) = (([0; 1024], [0; 1024]), ([0; 32], [0; 32]));
    let stage = limbatue::settle_since_into(sheet, &mut table, &mut since).expect("an accepted sheet");
    assert_eq!(independent::filer::settle_since(sheet, &mut other, &mut other_since), Ok(stage));
    assert!(table == other && since == other_since, "the tables or the marks differ");
    let library = least_time(|| {
        black_box(limbatue::settle_since_into(black_box(sheet), &mut table, &mut since)).ok();
    });
    let independent = least_time(|| {
        black_box(independent::filer::settle_since(black_box(sheet), &mut other, &mut other_since)).ok();
    });
    (library, independent)
}

/// The prime form of the first field in a sense, which settles the sheet: the library's time and the independent one's.
fn form_times(sense: Sense, sheet: &[u8]) -> (Duration, Duration) {
    let write = |sheet: &[u8], counts: &mut [u64]| match sense {
        Sense::Plain => limbatue::prime_form_into(sheet, 0, counts),
        Sense::Finer => limbatue::finer_prime_form_into(sheet, 0, counts),
    };
    let (mut counts, mut other) = ([0; 32], [0; 32]);
    write(sheet, &mut counts).expect("an accepted sheet");
    assert_eq!(independent::filer::prime_form(sense, sheet, 0, &mut other), Ok(()));
    assert!(counts == other, "the forms differ");
    let library = least_time(|| {
        black_box(write(black_box(sheet), &mut counts)).ok();
    });
    let independent = least_time(|| {
        black_box(independent::filer::prime_form(sense, black_box(sheet), 0, &mut other)).ok();
    });
    (library, independent)
}

/// Of some sheets of a family, the one that takes the independent implementation longest in a single run.
fn costliest(family: Family) -> Vec<u8> {
    let single_run = |sheet: &Vec<u8>| {
        let started = Instant::now();
        independent::filer::settle(sheet, &mut [0; 1024]).expect("an accepted sheet");
        started.elapsed()
    };
    (0..50).map(|number| measured(family, 32, 256, SEED + number)).max_by_key(single_run).expect("a sheet")
}

/// A line of times: the library's in milliseconds, and in brackets the ratio to the independent one's.
fn growth(sheets: impl Iterator<Item = Vec<u8>>) -> String {
    let cell = |sheet: Vec<u8>| {
        let (_, library, independent) = settle_times(&sheet);
        format!("{:9.3} ({:5.2})", milliseconds(library), library.as_secs_f64() / independent.as_secs_f64())
    };
    sheets.map(cell).collect::<Vec<_>>().join(" ")
}

/// The 4 reached kinds of a sheet of 32, in a sheet of their own. Both sheets settle at the same stage with the same rows, and the rows of the other kinds are zeros.
fn reached_alone(sheet: &[u8]) -> Vec<u8> {
    let card = read(sheet).expect("a well-formed sheet");
    let kinds = reached_kinds(&card);
    let alone = bytes_of(&card, &kinds, &kinds);
    let [all, part] = [sheet, &alone].map(|sheet| limbatue::settle(sheet).expect("an accepted sheet"));
    assert_eq!((all.kinds(), part.kinds()), (32, 4));
    let mut table = vec![0; 32 * 32];
    for (&kind, row) in kinds.iter().zip(part.rows()) {
        for (&other, &count) in kinds.iter().zip(row) {
            table[32 * kind + other] = count;
        }
    }
    assert_eq!(all.stage(), part.stage());
    assert!(all.rows().flatten().eq(&table), "the rows differ");
    alone
}

/// Frequencies of the last field of a sheet and a size: the library's time and the independent one's.
fn frequencies_times(sheet: &[u8], size: usize) -> (Duration, Duration) {
    let field = limbatue::numbers(sheet).expect("an accepted sheet").fields - 1;
    let (mut counts, mut other) = ([0; 34], [0; 34]);
    limbatue::frequencies_into(sheet, field, size, &mut counts).expect("fields that are listed");
    assert_eq!(independent::frequencies::frequencies(sheet, field, size, &mut other), Ok(()));
    assert!(counts == other, "the counts differ");
    let library = least_time(|| {
        black_box(limbatue::frequencies_into(black_box(sheet), field, size, &mut counts)).ok();
    });
    let independent = least_time(|| {
        black_box(independent::frequencies::frequencies(black_box(sheet), field, size, &mut other)).ok();
    });
    (library, independent)
}

/// A sheet with one field more, of so many tokens of some of its reached kinds.
fn with_tokens(sheet: &[u8], kinds: &[usize], tokens: u16) -> Vec<u8> {
    let card = read(sheet).expect("a well-formed sheet");
    let mut counts = vec![0; card.kinds];
    kinds.iter().for_each(|&kind| counts[kind] = tokens);
    card.with_field(sheet, &counts).expect("room for a field")
}

/// A sheet with one field more, of so many tokens of one kind: that for which counting the fields of as many tokens takes the independent implementation longest in a single run.
fn with_costliest_field(sheet: &[u8], size: usize) -> Vec<u8> {
    let single_run = |with_field: &Vec<u8>| {
        let field = read(with_field).expect("a well-formed sheet").fields - 1;
        let started = Instant::now();
        independent::frequencies::frequencies(with_field, field, size, &mut [0; 34]).expect("fields that are listed");
        started.elapsed()
    };
    let reached = reached_kinds(&read(sheet).expect("a well-formed sheet"));
    let sheets = reached.into_iter().map(|kind| with_tokens(sheet, &[kind], size as u16));
    sheets.max_by_key(single_run).expect("a reached kind")
}

/// Prints the times of Frequencies on a sheet of a family: of a field of the size, and of one of which each token of any field of the size can be taken away, at every stage.
fn print_frequencies(family: Family, sheet: &[u8], size: usize) {
    let reached = reached_kinds(&read(sheet).expect("a well-formed sheet"));
    let given = [with_costliest_field(sheet, size), with_tokens(sheet, &reached, u16::MAX)];
    let [(library, independent), (large_library, large_independent)] =
        given.each_ref().map(|sheet| frequencies_times(sheet, size));
    let stage = limbatue::settle(sheet).expect("an accepted sheet").stage();
    println!(
        "{:22} {:7} {size:4} {stage:7} {:12.3} {:15.3} {:6.2} {:13.3} {:15.3} {:6.2}",
        format!("{family:?}"),
        reached.len(),
        milliseconds(library),
        milliseconds(independent),
        library.as_secs_f64() / independent.as_secs_f64(),
        milliseconds(large_library),
        milliseconds(large_independent),
        large_library.as_secs_f64() / large_independent.as_secs_f64()
    );
}

/// The library's time of a walk on a field against itself and the independent one's, and the pairs drawn.
fn walk_times(sheet: &[u8]) -> (u32, Duration, Duration) {
    let (mut drawn, mut other) = (0, 0);
    let library = least_time(|| {
        let mut session = limbatue::Session::open([1_000_000; 8]);
        black_box(limbatue::walk(black_box(sheet), 0, 0, 8, 0, &mut session)).expect("a well-formed sheet");
        drawn = 1_000_000 - session.allowances()[0];
    });
    let independent = least_time(|| {
        let mut session = independent::walker::Session { allowances: [1_000_000; 8] };
        let walked = independent::walker::walk(black_box(sheet), 0, 0, 8, 0, &mut session);
        other = walked.expect("a well-formed sheet").drawn;
    });
    assert_eq!(drawn, other);
    (drawn, library, independent)
}

fn main() {
    println!(
        "settle, 32 kinds, the costliest of 50\n                        lines  stages   library ms  independent ms  ratio"
    );
    let costly = COSTLY.map(|family| (family, costliest(family)));
    for (family, sheet) in &costly {
        let (stage, library, independent) = settle_times(sheet);
        let lines = limbatue::numbers(sheet).expect("an accepted sheet").lines;
        println!(
            "{:22} {lines:6} {stage:7} {:12.3} {:15.3} {:6.2}",
            format!("{family:?}"),
            milliseconds(library),
            milliseconds(independent),
            library.as_secs_f64() / independent.as_secs_f64()
        );
    }
    println!(
        "\nsettle alone and with the marks, the same sheets\n                           alone ms   with marks  ratio  independent ratio"
    );
    for (family, sheet) in &costly {
        let (_, alone, independent_alone) = settle_times(sheet);
        let (marked, independent_marked) = since_times(sheet);
        println!(
            "{:22} {:12.3} {:12.3} {:6.2} {:18.2}",
            format!("{family:?}"),
            milliseconds(alone),
            milliseconds(marked),
            marked.as_secs_f64() / alone.as_secs_f64(),
            independent_marked.as_secs_f64() / independent_alone.as_secs_f64()
        );
    }
    println!(
        "\nprime form in the plain and the finer sense, the same sheets\n                           plain ms     finer ms  ratio  independent ratio"
    );
    for (family, sheet) in &costly {
        let [(plain, independent_plain), (finer, independent_finer)] =
            Sense::BOTH.map(|sense| form_times(sense, sheet));
        println!(
            "{:22} {:12.3} {:12.3} {:6.2} {:18.2}",
            format!("{family:?}"),
            milliseconds(plain),
            milliseconds(finer),
            finer.as_secs_f64() / plain.as_secs_f64(),
            independent_finer.as_secs_f64() / independent_plain.as_secs_f64()
        );
    }
    println!(
        "\nfrequencies, 32 kinds: 52,360 fields of 4 tokens, 54,264 of 6 and of 15; the given field has the size, and then 65,535 tokens of each kind\n                       reached size  stages   library ms  independent ms  ratio    library ms  independent ms  ratio"
    );
    for (family, sheet) in &costly {
        print_frequencies(*family, sheet, 4);
    }
    for (kinds, size) in [(16, 6), (7, 15)] {
        for family in COSTLY {
            print_frequencies(family, &measured_among(family, kinds, 256, SEED), size);
        }
    }
    println!("\nsettle by kinds, 4 to 32, 8 lines each: library ms (ratio)");
    for family in COSTLY {
        let sheets = [4, 8, 16, 32].into_iter().map(|kinds| measured(family, kinds, 8 * kinds, SEED));
        println!("{:22} {}", format!("{family:?}"), growth(sheets));
    }
    println!("\nsettle by lines, 16 kinds, 32 to 256 lines: library ms (ratio)");
    for family in COSTLY {
        let sheets = [32, 64, 128, 256].into_iter().map(|lines| measured(family, 16, lines, SEED));
        println!("{:22} {}", format!("{family:?}"), growth(sheets));
    }
    println!(
        "\nsettle, 4 kinds alone and among 32, the others out\nlines  among 32  stages   alone µs  among 32 µs  ratio  independent ratio"
    );
    for lines in [8, 32] {
        for number in 0..4 {
            let sheet = side_by_side(lines, SEED + number);
            let alone = reached_alone(&sheet);
            let [few, many] = [&alone, &sheet].map(|sheet| limbatue::numbers(sheet).expect("an accepted sheet").lines);
            let (stage, library, independent) = settle_times(&alone);
            let (_, library_among, independent_among) = settle_times(&sheet);
            println!(
                "{few:5} {many:9} {stage:7} {:10.2} {:12.2} {:6.2} {:18.2}",
                microseconds(library),
                microseconds(library_among),
                library_among.as_secs_f64() / library.as_secs_f64(),
                independent_among.as_secs_f64() / independent.as_secs_f64()
            );
        }
    }
    println!(
        "\nwalk, 32 kinds, limit 8, allowance 1,000,000\n                           drawn   library ms  independent ms  ratio"
    );
    for family in COSTLY.into_iter().chain([Family::Free]) {
        let (drawn, library, independent) = walk_times(&measured(family, 32, 256, SEED));
        println!(
            "{:22} {drawn:9} {:12.3} {:15.3} {:6.2}",
            format!("{family:?}"),
            milliseconds(library),
            milliseconds(independent),
            library.as_secs_f64() / independent.as_secs_f64()
        );
    }
}
