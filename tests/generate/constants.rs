// Formulas with constants, made backwards: such that fold to one of the constants, and such that fold to a given formula.

use crate::formulas::{formula, TEMPORAL};
use crate::random::Random;

const NOT: u8 = 2;
const AND: u8 = 3;
const OR: u8 = 4;
const NEXT: u8 = 5;
const UNTIL: u8 = 6;
const EVENTUALLY: u8 = 7;
const ALWAYS: u8 = 8;

pub const EVERYWHERE: usize = usize::MAX; // at as many places as there is room for

// A formula of at most so many nodes that folds to this constant: by an operand that decides a joint, by the right operand of an
// until, or because all operands are constants. What falls away is any formula over the lowest `propositions`.
pub fn constant(random: &mut Random, value: bool, most: usize, propositions: usize) -> Vec<u8> {
    if most < 3 || random.percent(15) {
        return vec![value.into()];
    }
    let left = random.within(1, most - 2);
    let right = most - 1 - left;
    let deciding = if value { OR } else { AND };
    match random.below(7) {
        0 | 1 => [vec![NOT], constant(random, !value, most - 1, propositions)].concat(),
        2 => [vec![random.pick(&[NEXT, EVENTUALLY, ALWAYS])], constant(random, value, most - 1, propositions)].concat(),
        3 => [vec![deciding], dropped(random, left, propositions), constant(random, value, right, propositions)].concat(),
        4 => [vec![deciding], constant(random, value, left, propositions), dropped(random, right, propositions)].concat(),
        5 => [vec![UNTIL], dropped(random, left, propositions), constant(random, value, right, propositions)].concat(),
        _ => {
            [vec![AND + OR - deciding], constant(random, value, left, propositions), constant(random, value, right, propositions)].concat()
        }
    }
}

fn dropped(random: &mut Random, most: usize, propositions: usize) -> Vec<u8> {
    let (nodes, constants) = (random.within(1, most), random.pick(&[0, 10, 50]));
    formula(random, nodes, TEMPORAL.over(propositions).with(constants))
}

// Puts constants that say nothing into a formula, at so many places by chance or until it has about `most` nodes. What stands at a
// place gets beside it, below one operator, something that folds to such a constant. All of it folds to what was given, where that
// is folded.
pub fn padded(random: &mut Random, mut bytes: Vec<u8>, places: usize, most: usize, propositions: usize) -> Vec<u8> {
    for _ in 0..places {
        let place = random.below(bytes.len());
        let operator = random.pick(&[AND, AND, OR, OR, UNTIL]);
        let room = random.pick(&[1, 1, 1, 5, 15]);
        let nothing = constant(random, operator == AND, room, propositions);
        if bytes.len() + 1 + nothing.len() > most {
            break;
        }
        let beside = if operator == UNTIL || random.percent(50) { place } else { end_of(&bytes, place) };
        bytes.splice(beside..beside, nothing);
        bytes.insert(place, operator);
    }
    bytes
}

// Where the operand that begins at a place ends.
fn end_of(bytes: &[u8], place: usize) -> usize {
    let (mut owed, mut end) = (1, place);
    while owed > 0 {
        match bytes[end] {
            AND | OR | UNTIL => owed += 1,
            NOT | NEXT | EVENTUALLY | ALWAYS => (),
            _ => owed -= 1,
        }
        end += 1;
    }
    end
}
