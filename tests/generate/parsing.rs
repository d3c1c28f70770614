// Requests for parse: texts typed in all ways, up to and past the limit of nodes, brackets nested deep, and texts that are none.

use crate::formulas::{formula, nested, TEMPORAL};
use crate::random::Random;
use crate::request::Request;
use crate::texts::{any_bytes, any_signs, damaged, typed, Hand, BARE};

pub const FORMULA: usize = 1024;
const NODES: usize = 1024;
const MOST: usize = 8192; // bytes of a request's text

fn parse(text: Vec<u8>) -> Request {
    Request::parse(text, FORMULA)
}

fn any_formula(random: &mut Random, nodes: usize) -> Vec<u8> {
    let (propositions, constants) = (random.pick(&[1, 10, 64]), random.pick(&[0, 10, 50]));
    formula(random, nodes, TEMPORAL.over(propositions).with(constants))
}

fn nodes(random: &mut Random, large: bool) -> usize {
    if large {
        NODES - random.pick(&[0, 0, 1, 100])
    } else {
        random.within(1, 40)
    }
}

// The text of a formula, typed so; without anything that is not needed where it gets too long.
fn written(random: &mut Random, formula: &[u8], hand: Hand) -> Vec<u8> {
    let text = typed(random, formula, hand);
    if text.len() > MOST {
        typed(random, formula, BARE)
    } else {
        text
    }
}

fn any_text(random: &mut Random, large: bool) -> Vec<u8> {
    let nodes = nodes(random, large);
    let hand = Hand { spaces: random.pick(&[0, 5, 30]), brackets: random.pick(&[0, 5, 30]) };
    let formula = any_formula(random, nodes);
    written(random, &formula, hand)
}

pub fn any(random: &mut Random, large: bool) -> Request {
    parse(any_text(random, large))
}

pub fn bare(random: &mut Random, large: bool) -> Request {
    let nodes = nodes(random, large);
    let formula = any_formula(random, nodes);
    parse(typed(random, &formula, BARE))
}

pub fn spaced(random: &mut Random, large: bool) -> Request {
    let nodes = nodes(random, large);
    let formula = any_formula(random, nodes);
    parse(written(random, &formula, Hand { spaces: 60, brackets: 0 }))
}

pub fn bracketed(random: &mut Random, large: bool) -> Request {
    let nodes = nodes(random, large);
    let formula = any_formula(random, nodes);
    parse(written(random, &formula, Hand { spaces: 0, brackets: 40 }))
}

// A text with more nodes than a rule may have: just so, many more, or a tower.
fn too_long(random: &mut Random, large: bool) -> Vec<u8> {
    let nodes = if large { random.within(NODES + 1, 2200) } else { NODES + random.pick(&[1, 1, 2]) };
    let formula = match random.below(3) {
        0 => nested(random.pick(&[2, 5, 7, 8]), nodes - 1),
        _ => formula(random, nodes, TEMPORAL.over(10).with(0)),
    };
    let hand = Hand { spaces: random.pick(&[0, 10]), brackets: 0 };
    written(random, &formula, hand)
}

pub fn too_many_nodes(random: &mut Random, large: bool) -> Request {
    parse(too_long(random, large))
}

// 16 comes before 3, wherever the text goes wrong.
pub fn damaged_and_long(random: &mut Random, large: bool) -> Request {
    let text = too_long(random, large);
    let mut text = damaged(random, text);
    if random.percent(30) {
        text.push(b')');
    }
    parse(text)
}

// Many brackets around a text, now and then one too few or one too many on a side.
pub fn brackets(random: &mut Random, large: bool) -> Request {
    let nodes = random.within(1, 5);
    let formula = any_formula(random, nodes);
    let inner = typed(random, &formula, BARE);
    let count = if large { (MOST - inner.len() - 1) / 2 } else { random.within(1, 60) };
    let (opened, closed) = random.pick(&[(0, 0), (0, 0), (1, 0), (0, 1)]);
    parse([vec![b'('; count + opened], inner, vec![b')'; count + closed]].concat())
}

pub fn cut(random: &mut Random, large: bool) -> Request {
    let mut text = any_text(random, large);
    text.truncate(random.below(text.len() + 1));
    parse(text)
}

pub fn damaged_text(random: &mut Random, large: bool) -> Request {
    let mut text = any_text(random, large);
    for _ in 0..random.pick(&[1, 1, 1, 2]) {
        if !text.is_empty() && text.len() < MOST {
            text = damaged(random, text);
        }
    }
    parse(text)
}

// Two texts, one behind the other.
pub fn twice(random: &mut Random, _: bool) -> Request {
    parse([any_text(random, false), any_text(random, false)].concat())
}

pub fn signs(random: &mut Random, large: bool) -> Request {
    let count = if large { 1000 } else { random.within(0, 8) };
    parse(any_signs(random, count))
}

pub fn bytes(random: &mut Random, large: bool) -> Request {
    let count = if large { 500 } else { random.within(0, 6) };
    parse(any_bytes(random, count))
}

// Whatever the text is.
pub fn wrong_lent(random: &mut Random, large: bool) -> Request {
    let text = match random.below(3) {
        0 => any_text(random, large),
        1 => too_long(random, false),
        _ => any_signs(random, 5),
    };
    Request::parse(text, random.pick(&[0, 1, FORMULA - 1, FORMULA + 1, MOST]))
}
