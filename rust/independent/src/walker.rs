//! Walk: "two fields, a round limit 0 to 8, a session", and a desk of the session, whose allowance it reads.

use crate::sheet::{Card, MOST_CODES, MOST_KINDS, Refusal, read, refused};

/// The greatest round limit.
pub const MOST_ROUNDS: u64 = 8;

/// "Eight desks, 0 to 7."
pub const DESKS: usize = 8;

/// A session: "each given an allowance of its own once, when the session opens", as what each desk has left.
#[derive(Clone, Copy, Debug, PartialEq, Eq)]
pub struct Session {
    pub allowances: [u32; DESKS],
}

/// What a walk answers.
#[derive(Clone, Copy, Debug, PartialEq, Eq)]
pub enum Answer {
    /// "Apart with the first number of rounds that parts the pair."
    Apart {
        rounds: u64,
    },
    Together,
    /// "If the full count would pass the allowance left."
    Spent,
}

/// A walk's answer and what it drew from its desk's allowance.
#[derive(Clone, Copy, Debug, PartialEq, Eq)]
pub struct Walked {
    pub answer: Answer,
    pub drawn: u32,
}

/// Walk: "tries 1, 2, up to the limit". It checks 16, 1 to 8, 11 and 13.
pub fn walk(
    sheet: &[u8],
    first: usize,
    second: usize,
    limit: u64,
    desk: usize,
    session: &mut Session,
) -> Result<Walked, Refusal> {
    let card = check(sheet, first, second, limit, desk)?;
    Ok(draw(&card, first, second, limit, &mut session.allowances[desk]))
}

/// Walk on a session that is lent as an array, an entry for each desk. After the checks of Walk it checks 12:
/// the array has under eight entries. Entries past the eighth are nobody's.
pub fn walk_lent(
    sheet: &[u8],
    first: usize,
    second: usize,
    limit: u64,
    desk: usize,
    session: &mut [u32],
) -> Result<Walked, Refusal> {
    let card = check(sheet, first, second, limit, desk)?;
    if session.len() < DESKS {
        return refused(12, 0);
    }
    Ok(draw(&card, first, second, limit, &mut session[desk]))
}

/// The checks of Walk in their order: "16 a desk over 7, place 0, before the header is looked at", 1 to 8, 11 and 13.
fn check(sheet: &[u8], first: usize, second: usize, limit: u64, desk: usize) -> Result<Card<'_>, Refusal> {
    if desk >= DESKS {
        return refused(16, 0);
    }
    let card = read(sheet)?;
    card.check_fields(&[first, second])?;
    if limit > MOST_ROUNDS {
        return refused(13, 0);
    }
    Ok(card)
}

/// Plays within what a desk has left of its allowance, and draws from that.
fn draw(card: &Card, first: usize, second: usize, limit: u64, left: &mut u32) -> Walked {
    let mut game = Game::new(card, first, second, *left);
    let answer = game.play(limit);
    let drawn = match answer {
        Answer::Spent => *left,
        _ => game.examined as u32,
    };
    *left -= drawn;
    Walked { answer, drawn }
}

/// The count of pairs has passed the allowance.
struct Passed;

/// The side that a line is used on.
#[derive(Clone, Copy)]
enum Side {
    First,
    Second,
}

/// A line as the game uses it.
struct Move {
    kind: usize,
    code: usize,
    /// The kinds that it leaves, with their counts.
    left: Vec<(usize, u32)>,
}

/// The pair on the board and the pairs examined so far.
struct Game {
    moves: Vec<Move>,
    /// For each code its lines, in line order.
    replies: Vec<Vec<usize>>,
    pair: [[u32; MOST_KINDS]; 2],
    examined: u64,
    allowance: u64,
}

impl Game {
    fn new(card: &Card, first: usize, second: usize, allowance: u32) -> Game {
        let mut replies = vec![Vec::new(); MOST_CODES];
        let mut moves = Vec::with_capacity(card.lines.len());
        for (number, line) in card.lines.iter().enumerate() {
            let left = line
                .left
                .iter()
                .enumerate()
                .filter(|&(_, &count)| count > 0)
                .map(|(kind, &count)| (kind, u32::from(count)))
                .collect();
            moves.push(Move { kind: line.kind, code: line.code, left });
            replies[line.code].push(number);
        }
        let pair = [first, second].map(|number| {
            let mut counts = [0; MOST_KINDS];
            for (place, count) in counts.iter_mut().zip(card.field(number)) {
                *place = count as u32;
            }
            counts
        });
        Game { moves, replies, pair, examined: 0, allowance: u64::from(allowance) }
    }

    /// The answer with a round limit.
    fn play(&mut self, limit: u64) -> Answer {
        for rounds in 1..=limit {
            match self.holds(rounds) {
                Err(Passed) => return Answer::Spent,
                Ok(false) => return Answer::Apart { rounds },
                Ok(true) => {}
            }
        }
        Answer::Together
    }

    /// Whether the pair holds at that number of rounds. "A pair examined at r rounds counts 1."
    fn holds(&mut self, rounds: u64) -> Result<bool, Passed> {
        self.examined += 1;
        if self.examined > self.allowance {
            return Err(Passed);
        }
        if rounds == 0 {
            return Ok(true);
        }
        for side in [Side::First, Side::Second] {
            for line in 0..self.moves.len() {
                if self.usable(side, line) && !self.has_reply(side, line, rounds - 1)? {
                    return Ok(false);
                }
            }
        }
        Ok(true)
    }

    /// Whether a challenge has a reply that leaves a pair which holds at that number of rounds.
    fn has_reply(&mut self, side: Side, challenge: usize, rounds: u64) -> Result<bool, Passed> {
        let other = match side {
            Side::First => Side::Second,
            Side::Second => Side::First,
        };
        let code = self.moves[challenge].code;
        self.make(side, challenge);
        let mut found = false;
        for number in 0..self.replies[code].len() {
            let reply = self.replies[code][number];
            if self.usable(other, reply) {
                self.make(other, reply);
                found = self.holds(rounds)?;
                self.take_back(other, reply);
                if found {
                    break;
                }
            }
        }
        self.take_back(side, challenge);
        Ok(found)
    }

    /// Whether a side has a token for a line.
    fn usable(&self, side: Side, line: usize) -> bool {
        self.pair[side as usize][self.moves[line].kind] > 0
    }

    /// Uses a line on a side.
    fn make(&mut self, side: Side, line: usize) {
        let (used, counts) = (&self.moves[line], &mut self.pair[side as usize]);
        counts[used.kind] -= 1;
        for &(kind, count) in &used.left {
            counts[kind] += count;
        }
    }

    /// Takes the use of a line back.
    fn take_back(&mut self, side: Side, line: usize) {
        let (used, counts) = (&self.moves[line], &mut self.pair[side as usize]);
        for &(kind, count) in &used.left {
            counts[kind] -= count;
        }
        counts[used.kind] += 1;
    }
}
