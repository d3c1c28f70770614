// Requests for central: formulas for each resolve rule, for the limits of the call on both sides, and damaged ones.

use crate::formulas::*;
use crate::random::Random;
use crate::request::Request;

const OUTPUT: usize = 4096;
const MOST: usize = 4096;

fn accepted(random: &mut Random, formula: Vec<u8>) -> Request {
    let event = random.event();
    Request::central(formula, event, OUTPUT)
}

// Under an event that settles what is known.
fn accepted_knowing(random: &mut Random, formula: Vec<u8>) -> Request {
    let event = random.event() & !3 | 1;
    Request::central(formula, event, OUTPUT)
}

fn wrong_output(random: &mut Random) -> usize {
    random.pick(&[0, 1, OUTPUT - 1, OUTPUT + 1, 2 * OUTPUT])
}

pub fn small(random: &mut Random, _: bool) -> Request {
    let nodes = random.within(1, 12);
    let f = formula(random, nodes, TEMPORAL.over(3));
    accepted(random, f)
}

// Of the longest of these some need more than 4,096 nodes unfolded.
pub fn temporal(random: &mut Random, _: bool) -> Request {
    let nodes = random.pick(&[20, 60, 200, 500]) + random.below(20);
    let (propositions, constants) = (random.pick(&[2, 64]), random.pick(&[0, 10]));
    let f = formula(random, nodes, TEMPORAL.over(propositions).with(constants));
    accepted(random, f)
}

pub fn plain(random: &mut Random, large: bool) -> Request {
    let nodes = if large { random.pick(&[MOST - 1, MOST]) } else { random.within(50, 300) };
    let (propositions, constants) = (random.pick(&[1, 4, 64]), random.pick(&[0, 3]));
    let f = formula(random, nodes, PLAIN.over(propositions).with(constants));
    accepted(random, f)
}

fn chain(random: &mut Random, large: bool, build: fn(&mut Random, &[u8], usize) -> Vec<u8>) -> Request {
    let (count, most) = if large { (2000, MOST) } else { (random.within(1, 40), 200) };
    let joints = joints(random, count);
    let f = build(random, &joints, most);
    accepted_knowing(random, f)
}

pub fn left_chain_of(random: &mut Random, large: bool) -> Request {
    chain(random, large, left_leaning)
}

pub fn right_chain_of(random: &mut Random, large: bool) -> Request {
    chain(random, large, right_leaning)
}

// A joint with a constant on one side or both: written so, a proposition, or what a longer operand becomes.
pub fn constants(random: &mut Random, _: bool) -> Request {
    let (value, other) = (random.percent(50), random.percent(50));
    let constant = known(random, value);
    let (left, right) = match random.below(3) {
        0 => (constant, pending(random)),
        1 => (pending(random), constant),
        _ => (constant, known(random, other)),
    };
    let joint = random.pick(&[3, 4]);
    accepted_knowing(random, [vec![joint], left, right].concat())
}

// Different pending formulas of like sizes, so that only the bytes tell them apart.
fn pool(random: &mut Random, count: usize) -> Vec<Vec<u8>> {
    let tails: [&[u8]; 4] = [&[], &[7], &[2, 8], &[5, 5]];
    let tail = random.pick(&tails);
    (0..count).map(|i| [&[5], tail, &[64 + i as u8]].concat()).collect()
}

// The same with so many nexts more, which makes it another formula.
fn stacked(operand: Vec<u8>, nexts: usize) -> Vec<u8> {
    [vec![5; nexts], operand].concat()
}

// The left operand is a member of the right: one of its left operands, the end of the chain from some way down, or all of it.
pub fn member(random: &mut Random, large: bool) -> Request {
    let joint = random.pick(&[3, 4]);
    let count = if large { random.within(200, 230) } else { random.within(1, 24) };
    let operands: Vec<Vec<u8>> = pool(random, 60).into_iter().cycle().take(count).enumerate().map(|(i, x)| stacked(x, i / 60)).collect();
    let end_from = |from: usize| right_chain(&vec![joint; count - 1 - from], &operands[from..]);
    let from = random.below(count);
    let left = match random.below(4) {
        0 | 1 => operands[from].clone(),
        2 => end_from(from),
        _ => end_from(0),
    };
    accepted(random, [vec![joint], left, end_from(0)].concat())
}

// What looks like a member and is none: a member of a left operand, of the other joint's chain, right inside left, none of the
// chain's operands, or the whole chain changed at its end.
pub fn no_member(random: &mut Random, large: bool) -> Request {
    let joint = random.pick(&[3u8, 4]);
    let other = 7 - joint;
    let x = pool(random, 60);
    let count = if large { 60 } else { random.within(4, 12) };
    let same = vec![joint; count - 2];
    let f = match random.below(6) {
        0 => [vec![joint], x[0].clone(), vec![joint, joint], x[0].clone(), x[1].clone(), x[2].clone()].concat(),
        1 => [vec![joint], x[0].clone(), vec![other], x[0].clone(), x[1].clone()].concat(),
        2 => [vec![joint, joint], x[0].clone(), x[1].clone(), x[0].clone()].concat(),
        3 => [vec![joint], x[0].clone(), vec![joint], x[1].clone(), vec![other], x[0].clone(), x[2].clone()].concat(),
        4 => [vec![joint], x[count - 1].clone(), right_chain(&same, &x[..count - 1])].concat(),
        _ => {
            let changed = [&x[..count - 2], &x[count - 1..count]].concat();
            [vec![joint], right_chain(&same, &changed), right_chain(&same, &x[..count - 1])].concat()
        }
    };
    accepted(random, f)
}

// Many operands out of few, so that the member rule hits and misses often.
pub fn members(random: &mut Random, large: bool) -> Request {
    let kinds = if large { 40 } else { random.within(2, 8) };
    let count = if large { 800 } else { random.within(3, 50) };
    let few = pool(random, kinds);
    let operands: Vec<Vec<u8>> = (0..count).map(|_| few[random.below(kinds)].clone()).collect();
    let joint = random.pick(&[3, 4]);
    let same = vec![joint; count - 1];
    let mixed = joints(random, count - 1);
    let f = match random.below(4) {
        0 => right_chain(&same, &operands),
        1 => left_chain(&same, &operands),
        2 => right_chain(&mixed, &operands),
        _ => left_chain(&mixed, &operands),
    };
    accepted(random, f)
}

pub fn negations(random: &mut Random, _: bool) -> Request {
    let count = random.within(1, 9);
    let value = random.percent(50);
    let inner = if random.percent(60) { pending(random) } else { known(random, value) };
    let wrap = random.pick(&[&[][..], &[5], &[8], &[4, 66]]);
    accepted_knowing(random, [wrap.to_vec(), vec![2; count], inner].concat())
}

pub fn unfold_limit(random: &mut Random, _: bool) -> Request {
    let target = if random.percent(60) { random.pick(&[MOST, MOST + 1]) } else { random.within(MOST - 6, MOST + 6) };
    let f = unfolding_to(random, target);
    accepted(random, f)
}

// 87 always or eventually unfold to 4,090 nodes, 88 to too many.
pub fn nested_limit(random: &mut Random, _: bool) -> Request {
    let (code, count) = (random.pick(&[7, 8]), random.within(86, 89));
    accepted(random, nested(code, count))
}

pub fn far_too_large(random: &mut Random, large: bool) -> Request {
    let f = if large {
        let nodes = random.pick(&[MOST - 1, MOST]);
        formula(random, nodes, TEMPORAL)
    } else {
        let (code, count) = (random.pick(&[7, 8]), random.within(88, 400));
        nested(code, count)
    };
    accepted(random, f)
}

// A formula of 0 bytes, or of one more than allowed.
pub fn wrong_size(random: &mut Random, large: bool) -> Request {
    let f = if large { formula(random, MOST + 1, PLAIN) } else { Vec::new() };
    accepted(random, f)
}

pub fn wrong_lent(random: &mut Random, _: bool) -> Request {
    let nodes = random.within(1, 12);
    let mut f = formula(random, nodes, TEMPORAL);
    if random.percent(40) {
        f = damage(random, f, 64);
    }
    Request::central(f, random.event(), wrong_output(random))
}

pub fn damaged(random: &mut Random, _: bool) -> Request {
    let nodes = random.within(1, 30);
    let f = formula(random, nodes, TEMPORAL);
    let f = damage(random, f, 64);
    accepted(random, f)
}

// Refused with 6, though its unfolding would be too large as well.
pub fn damaged_and_large(random: &mut Random, large: bool) -> Request {
    let f = if large { formula(random, MOST - 4, TEMPORAL) } else { nested(8, 120) };
    let f = damage(random, f, 64);
    accepted(random, f)
}

// Few bytes, any of them: a single one goes through all codes and all others.
pub fn any_bytes(random: &mut Random, _: bool) -> Request {
    let borders = [0, 1, 2, 3, 4, 5, 6, 7, 8, 9, 63, 64, 65, 127, 128, 191, 192, 255];
    let f = match random.below(4) {
        0 | 1 => vec![random.word() as u8],
        2 => vec![random.pick(&[2, 5, 7, 8]), random.pick(&borders)],
        _ => (0..3).map(|_| random.pick(&borders)).collect(),
    };
    accepted(random, f)
}
