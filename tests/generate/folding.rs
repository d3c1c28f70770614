// Requests for central with constants: at every place, few and many, so that nothing or all is left, and where folding decides over 8.

use crate::constants::{constant, padded, EVERYWHERE};
use crate::formulas::*;
use crate::random::Random;
use crate::request::Request;

const MOST: usize = 4096;

fn central(random: &mut Random, formula: Vec<u8>) -> Request {
    let event = random.event();
    Request::central(formula, event, MOST)
}

fn nodes(random: &mut Random, large: bool) -> usize {
    if large {
        MOST - random.below(3)
    } else {
        random.pick(&[3, 6, 12, 40]) + random.below(10)
    }
}

// All formulas of up to three nodes over the constants and proposition 0.
pub fn smallest() -> Vec<Vec<u8>> {
    let leaves = [0, 1, 64];
    let one: Vec<Vec<u8>> = leaves.iter().map(|&leaf| vec![leaf]).collect();
    let over = |operands: &[Vec<u8>]| -> Vec<Vec<u8>> {
        let all = [2, 5, 7, 8].iter().flat_map(|operator| operands.iter().map(move |operand| [&[*operator], &operand[..]].concat()));
        all.collect()
    };
    let two = over(&one);
    let pairs = leaves.iter().flat_map(|&f| leaves.iter().map(move |&g| [f, g]));
    let three = pairs.flat_map(|[f, g]| [3, 4, 6].iter().map(move |&operator| vec![operator, f, g]));
    [one, over(&two), two, three.collect()].concat()
}

pub fn each_small() -> Vec<Request> {
    smallest().into_iter().zip(0..).map(|(formula, i)| Request::central(formula, i % 2, MOST)).collect()
}

pub fn few(random: &mut Random, large: bool) -> Request {
    let (nodes, constants) = (nodes(random, large), random.pick(&[1, 3, 10]));
    let f = formula(random, nodes, TEMPORAL.with(constants));
    central(random, f)
}

pub fn many(random: &mut Random, large: bool) -> Request {
    let (nodes, constants) = (nodes(random, large), random.pick(&[25, 50, 75]));
    let f = formula(random, nodes, TEMPORAL.over(2).with(constants));
    central(random, f)
}

// Constants that say nothing around the nodes of a small formula.
pub fn around(random: &mut Random, large: bool) -> Request {
    let count = random.within(1, 30);
    let f = formula(random, count, TEMPORAL.over(4).with(0));
    let (places, most) = if large { (EVERYWHERE, MOST) } else { (random.within(1, 12), 200) };
    let f = padded(random, f, places, most, 4);
    central(random, f)
}

// The same around what just has room when it is unfolded, or just has none: as written it has none.
pub fn around_limit(random: &mut Random, large: bool) -> Request {
    let target = random.pick(&[MOST - 1, MOST, MOST, MOST + 1]);
    let f = unfolding_to(random, target);
    let places = if large { EVERYWHERE } else { random.within(2, 20) };
    let f = padded(random, f, places, MOST, 64);
    central(random, f)
}

// A constant is all that is left.
pub fn decided(random: &mut Random, large: bool) -> Request {
    let (nodes, value) = (nodes(random, large), random.percent(50));
    let f = if random.percent(50) { constant(random, value, nodes, 64) } else { formula(random, nodes, TEMPORAL.with(100)) };
    central(random, f)
}

// What is far too large unfolded stands beside a constant that decides, or that says nothing.
pub fn too_large_beside(random: &mut Random, large: bool) -> Request {
    let count = if large { MOST - 12 } else { random.within(88, 400) };
    let (tower, value) = (nested(random.pick(&[7, 8]), count), random.percent(50));
    let beside = constant(random, value, 6, 64);
    let joint = random.pick(&[3, 4, 6]);
    let f = if random.percent(50) { [vec![joint], beside, tower].concat() } else { [vec![joint], tower, beside].concat() };
    let wrap = random.pick(&[&[][..], &[2], &[5], &[8], &[4, 66]]);
    central(random, [wrap, &f].concat())
}

// Until with true on the left, written so or folded to it, more than once in a chain: the same again is a member.
pub fn true_until(random: &mut Random, large: bool) -> Request {
    let count = if large { 300 } else { random.within(1, 6) };
    let mut until = || {
        let room = random.pick(&[1, 1, 6]);
        let left = constant(random, true, room, 64);
        [vec![5, 6], left, vec![64 + random.below(3) as u8]].concat()
    };
    let operands: Vec<Vec<u8>> = (0..=count).map(|_| until()).collect();
    let joints = joints(random, count);
    let f = if random.percent(50) { right_chain(&joints, &operands) } else { left_chain(&joints, &operands) };
    let f = if random.percent(50) { f } else { [vec![6, 1], f].concat() };
    central(random, f)
}

// Something that is no formula, wherever: in a part that would fall away too.
pub fn damaged(random: &mut Random, large: bool) -> Request {
    let nodes = nodes(random, large) - 2;
    let f = formula(random, nodes, TEMPORAL.with(30));
    let f = damage(random, f, 64);
    let f = if random.percent(50) { f } else { [vec![random.pick(&[3, 4]), random.below(2) as u8], f].concat() };
    central(random, f)
}
