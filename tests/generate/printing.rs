// Requests for print: formulas of every shape and size, and such as the call refuses.

use crate::formulas::*;
use crate::random::Random;
use crate::request::Request;

pub const TEXT: usize = 8192;
const NODES: usize = 1024;

fn print(formula: Vec<u8>) -> Request {
    Request::print(formula, TEXT)
}

fn nodes(random: &mut Random, large: bool) -> usize {
    if large {
        NODES - random.pick(&[0, 0, 1, 100])
    } else {
        random.within(1, 40)
    }
}

pub fn small(random: &mut Random, _: bool) -> Request {
    let nodes = random.within(1, 8);
    print(formula(random, nodes, TEMPORAL.over(3)))
}

pub fn any(random: &mut Random, large: bool) -> Request {
    let (nodes, constants) = (nodes(random, large), random.pick(&[0, 10, 60]));
    print(formula(random, nodes, TEMPORAL.with(constants)))
}

// Infix operators alone, in a chain to either side: brackets everywhere or nowhere.
pub fn chain(random: &mut Random, large: bool) -> Request {
    let count = (nodes(random, large) - 1) / 2;
    let operators = random.pick::<&[u8]>(&[&[3], &[4], &[6], &[3, 4], &[4, 6], &[3, 4, 6]]);
    let joints: Vec<u8> = (0..count).map(|_| random.pick(operators)).collect();
    let operands: Vec<Vec<u8>> = (0..=count).map(|_| vec![TEMPORAL.leaf(random)]).collect();
    print(if random.percent(50) { left_chain(&joints, &operands) } else { right_chain(&joints, &operands) })
}

// The longest words, with brackets around each operator but the outermost, or nearly.
pub fn longest(random: &mut Random, large: bool) -> Request {
    let nodes = nodes(random, large);
    let (operator, nots) = (random.pick(&[3, 4, 6]), (nodes + 1) % 2);
    let leaf = random.pick(&[0, 0, 127]);
    let count = (nodes - nots) / 2;
    print([vec![2; nots], left_chain(&vec![operator; count], &vec![vec![leaf]; count + 1])].concat())
}

pub fn damaged(random: &mut Random, large: bool) -> Request {
    let nodes = nodes(random, large).min(NODES - 3);
    let f = formula(random, nodes, TEMPORAL);
    print(damage(random, f, 64))
}

pub fn bytes(random: &mut Random, _: bool) -> Request {
    print((0..random.within(1, 12)).map(|_| random.word() as u8).collect())
}

// None, or more than a rule may have, whether it is a formula or not.
pub fn wrong_size(random: &mut Random, large: bool) -> Request {
    let nodes = if large { random.within(NODES + 1, 8000) } else { random.pick(&[0, NODES + 1]) };
    match random.below(3) {
        _ if nodes == 0 => print(vec![]),
        0 => print(vec![random.word() as u8; nodes]),
        1 => print(nested(2, nodes - 1)),
        _ => print(formula(random, nodes, TEMPORAL)),
    }
}

// Whatever the formula is.
pub fn wrong_lent(random: &mut Random, _: bool) -> Request {
    let nodes = random.pick(&[1, 5, NODES, NODES + 1]);
    let f = formula(random, nodes, TEMPORAL);
    let f = if random.percent(30) { damage(random, f, 64) } else { f };
    Request::print(f, random.pick(&[0, 1, 1024, 4097, TEXT - 1]))
}
