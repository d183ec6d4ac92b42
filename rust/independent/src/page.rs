//! "The printed page."

use std::fmt::Write;

use crate::base::Base;
use crate::filer::{Verdict, bases, different, parting_stage};
use crate::norm::{NormedCard, accept};
use crate::sheet::{MOST_BYTES, Refusal, refused};

/// "The filing program reads standard input, at most 12,821 bytes": one past the largest sheet.
pub const MOST_READ: usize = MOST_BYTES + 1;

/// The page that the filing program prints for its input.
pub fn page(input: &[u8]) -> String {
    match accept(&input[..input.len().min(MOST_READ)]) {
        Ok(normed) => accepted_page(&normed),
        Err(Refusal { number, place }) => format!("refused {number} {place}\n"),
    }
}

/// Writes the page to a lent buffer and answers its length.
pub fn write_page(input: &[u8], buffer: &mut [u8]) -> Result<usize, Refusal> {
    let text = page(input);
    match buffer.get_mut(..text.len()) {
        Some(part) => part.copy_from_slice(text.as_bytes()),
        None => return refused(12, 0),
    }
    Ok(text.len())
}

/// The page of an accepted sheet.
fn accepted_page(normed: &NormedCard) -> String {
    let bases = bases(normed);
    let kinds = normed.card.kinds;
    let settled = &bases[bases.len() - 1];
    let mut page = format!("kinds {kinds} stages {}\n", bases.len());
    for kind in 0..kinds {
        push_kind(&mut page, kind, normed, settled);
    }
    let fields: Vec<Vec<u64>> = (0..normed.card.fields).map(|number| normed.card.field(number)).collect();
    for (number, field) in fields.iter().enumerate() {
        push(&mut page, format_args!("field {number}"));
        push_counts(&mut page, &settled.form(field.iter().copied())[..kinds]);
    }
    for later in 1..fields.len() {
        match verdict(normed, &bases, &[fields[0].clone(), fields[later].clone()]) {
            Verdict::Same => push(&mut page, format_args!("pair 0 {later} same\n")),
            Verdict::Different { stage, rounds } => {
                push(&mut page, format_args!("pair 0 {later} different {stage} {rounds}\n"))
            }
        }
    }
    page
}

/// Adds the line of a kind: its norm, "`since S` .. before the word prime or the equals sign", and that it is prime or what
/// its row is; or that it is out.
fn push_kind(page: &mut String, kind: usize, normed: &NormedCard, settled: &Base) {
    if !normed.is_reached(kind) {
        return push(page, format_args!("kind {kind} out\n"));
    }
    push(page, format_args!("kind {kind} norm {} since {}", normed.norms[kind], settled.since(kind)));
    if settled.is_atom(kind) {
        page.push_str(" prime\n");
    } else {
        push_counts(page, settled.row(kind));
    }
}

/// The verdict on two fields from the bases of all stages.
fn verdict(normed: &NormedCard, bases: &[Base], pair: &[Vec<u64>; 2]) -> Verdict {
    parting_stage(normed, bases, pair).map_or(Verdict::Same, |stage| different(normed, pair, stage))
}

/// Adds text to a page.
fn push(page: &mut String, text: std::fmt::Arguments) {
    page.write_fmt(text).expect("a String takes any text");
}

/// Ends a line with "=" and the counts by kind.
fn push_counts(page: &mut String, counts: &[i64]) {
    page.push_str(" =");
    for count in counts {
        push(page, format_args!(" {count}"));
    }
    page.push('\n');
}
