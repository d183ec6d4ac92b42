//! What is promised of the desks of a session: "No call by one desk, refused or spent, alters another desk's
//! answer or what it has left, and over calls each made on the session that the last one left, each desk's
//! draws sum to the loss in its own allowance." Days are played, and each desk is looked at.

use std::collections::BTreeMap;

use crate::asked::hold;
use crate::calls::{Answer, Call, Day, Implementation, Lent, Made, day, sheets};
use crate::random::Random;
use crate::walker::DESKS;

/// A promise.
#[derive(Clone, Copy, Debug, PartialEq, Eq, PartialOrd, Ord)]
pub enum Promise {
    /// Over the day, a desk's draws sum to the loss in its allowance.
    Loss,
    /// A desk's answers and draws, and what it has left after each walk of the day, are those of the day that has
    /// its own walks alone.
    Alone,
}

/// Days that were played.
#[derive(Clone, Debug, Default)]
pub struct Played {
    pub days: u64,
    pub walks: u64,
    /// How often a desk walked on a day that has other walks too.
    pub beside_others: u64,
    /// How often each promise was broken, to a desk on a day.
    pub broken: BTreeMap<Promise, u64>,
}

/// Plays a day of each of some numbers of a seed on an implementation.
pub fn play_days(seed: u64, numbers: std::ops::Range<u64>, implementation: Implementation) -> Played {
    let mut played = Played::default();
    for number in numbers {
        let sheets = sheets(seed, number);
        let day = day(&sheets, &mut Random::new(seed.rotate_left(32) ^ number));
        let play = |day: &Day| play_day(day, &sheets, implementation);
        let made = play(&day);
        played.days += 1;
        played.walks += made.len() as u64;
        for desk in 0..DESKS.min(day.entries) {
            let own = day.of_desk(desk);
            played.beside_others += u64::from(!own.walks.is_empty() && own.walks.len() < day.walks.len());
            hold(&mut played.broken, Promise::Loss, sums_to_the_loss(&day, &made, desk));
            hold(&mut played.broken, Promise::Alone, is_as_alone(&day, &made, desk, &play(&own)));
        }
    }
    played
}

/// The walks of a day, made from its opening on.
fn play_day(day: &Day, sheets: &[Vec<u8>], implementation: Implementation) -> Vec<Made> {
    let call = Call::Day(day.clone());
    match implementation(&call, &mut Lent::new(&call, sheets)) {
        Answer::Day(made) => made,
        other => panic!("{other:?} is no answer to a day"),
    }
}

impl Day {
    /// The day that has the walks of one desk alone.
    pub fn of_desk(&self, desk: usize) -> Day {
        let walks = self.walks.iter().copied().filter(|walk| walk.desk == desk).collect();
        Day { walks, ..self.clone() }
    }
}

/// Whether a desk's draws over a day sum to the loss in its allowance.
fn sums_to_the_loss(day: &Day, made: &[Made], desk: usize) -> bool {
    let own = day.walks.iter().zip(made).filter(|(walk, _)| walk.desk == desk);
    let drawn: i64 = own.map(|(_, made)| made.answer.map_or(0, |walked| i64::from(walked.drawn))).sum();
    let left = made.last().map_or(day.allowances[desk], |last| last.session.lent()[desk]);
    i64::from(day.allowances[desk]) - i64::from(left) == drawn
}

/// Whether a desk is answered as on the day that has its own walks alone, and has as much left after each walk of
/// the day as after those of its own that are made by then.
fn is_as_alone(day: &Day, made: &[Made], desk: usize, alone: &[Made]) -> bool {
    let mut left = day.allowances[desk];
    let mut alone = alone.iter();
    day.walks.iter().zip(made).all(|(walk, made)| {
        let mut equal = true;
        if walk.desk == desk {
            let alone = alone.next().expect("a walk alone for each of the desk's");
            left = alone.session.lent()[desk];
            equal = made.answer == alone.answer;
        }
        equal && made.session.lent()[desk] == left
    })
}
