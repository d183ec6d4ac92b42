//! Request 6 of document 02: "kinds that nobody enters".
//!
//! A kind is reached that "some field of the sheet holds, or that a line can leave starting from those". Any other
//! kind is out: no reads lead from a field of the sheet to one that holds it.

use crate::sheet::{Card, Line};

/// For each kind, how many lines lead to it from the fields: none where a field holds it, else one more than to the
/// nearest kind of which a line leaves it. Nothing for a kind that is out.
pub fn lines_to(card: &Card) -> Vec<Option<usize>> {
    let mut steps = vec![None; card.kinds];
    for field in 0..card.fields {
        for (kind, count) in card.field(field).into_iter().enumerate() {
            if count > 0 {
                steps[kind] = Some(0);
            }
        }
    }
    let mut taken = 0;
    while steps.contains(&Some(taken)) {
        let mut next = steps.clone();
        for line in card.lines.iter().filter(|line| steps[line.kind] == Some(taken)) {
            for kind in kinds_left(line) {
                next[kind] = next[kind].or(Some(taken + 1));
            }
        }
        steps = next;
        taken += 1;
    }
    steps
}

/// The kinds of the tokens that a line leaves.
pub fn kinds_left<'a>(line: &Line<'a>) -> impl Iterator<Item = usize> + 'a {
    line.left.iter().enumerate().filter(|&(_, &count)| count > 0).map(|(kind, _)| kind)
}

/// The kinds that are reached, in number order.
pub fn reached_kinds(card: &Card) -> Vec<usize> {
    let steps = lines_to(card);
    (0..card.kinds).filter(|&kind| steps[kind].is_some()).collect()
}
