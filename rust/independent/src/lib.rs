//! Document 01 ("Race cards, fields and their prime forms", the paper that asks for Limbatue), as
//! requests 1, 2 and 4 to 9 of document 02 change it, implemented a second time, from that document's definitions
//! and document 000 (Hirshfeld, Jerrum, Moller, 1996, the algorithm). It shares no code with the verified library. The tests hold the two against each other, and the measurements compare
//! their times. Sentences in quotes are these documents' own.

/// Questions on accepted sheets, and the promises that the answers keep or break.
pub mod asked;
/// The decomposition base from stage to stage: document 000's algorithm.
pub mod base;
/// Calls as values, the buffers that they lend, and one call after another on two implementations.
pub mod calls;
/// What is promised of Frequencies, held against Shelf field and Compare.
pub mod counting;
/// What is promised of the desks of a session, over whole days.
pub mod days;
/// Stages, rows and their marks, primes and the round game straight from their definitions, for small cards.
pub mod definitions;
/// Settle, alone and with the marks, Row, Compare and Prime form.
pub mod filer;
/// What is promised of the finer Compare and Prime form, held against the plain ones and the totals.
pub mod finer;
/// Frequencies.
pub mod frequencies;
/// Sheets from a seed: valid and damaged, small and at the limits.
pub mod generator;
/// What is promised of squads, held against Compare and Prime form.
pub mod joining;
/// What is promised of the marks, held against Settle, Compare and the page.
pub mod marks;
/// Norms of the reached kinds, their order, g, and refusals 9 and 10.
pub mod norm;
/// The printed page.
pub mod page;
/// What is promised of sheets that use a part of their card.
pub mod parts;
/// Pseudorandom numbers from a seed.
pub mod random;
/// Which kinds are reached, and which are out.
pub mod reached;
/// The plain and the finer sense of same.
pub mod sense;
/// The bytes of a sheet, and refusals 1 to 8.
pub mod sheet;
/// Shelf number and Shelf field.
pub mod shelf;
/// Squads.
pub mod squads;
/// Walk and its session.
pub mod walker;
