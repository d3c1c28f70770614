// Requests for write: good rules, and rules with one thing or several things wrong.

use crate::formulas::{formula, TEMPORAL};
use crate::random::Random;
use crate::request::Request;
use crate::rules::{doubtful, rule, Rule};

const FILE: usize = 1168;

fn lending(rule: &Rule, file_lent: usize) -> Request {
    Request::write(&rule.masks, rule.propositions, &rule.formula, file_lent)
}

pub fn of(rule: &Rule) -> Request {
    lending(rule, FILE)
}

fn wrong_file(random: &mut Random) -> usize {
    random.pick(&[0, 35, FILE - 1, FILE + 1, 8192])
}

// A count out of range. Propositions are compared whole: high bits above a good number do not go unseen.
fn break_range(rule: &mut Rule, random: &mut Random, large: bool) {
    let p = rule.propositions;
    match random.below(6) {
        0 => rule.masks.clear(),
        1 => rule.masks.resize(random.pick(&[17, 32]), 0),
        2 => rule.formula.clear(),
        3 | 4 if large => rule.formula = formula(random, 1025, TEMPORAL.over(p as usize)),
        _ => rule.propositions = random.pick(&[0, 65, 65, p | 1 << 8, p | 1 << 16, p | 1 << 32, p | 1 << 63, u64::MAX]),
    }
}

pub fn length(random: &mut Random, large: bool) -> Request {
    lending(&rule(random, large), wrong_file(random))
}

pub fn range(random: &mut Random, large: bool) -> Request {
    let mut rule = rule(random, large);
    break_range(&mut rule, random, large);
    of(&rule)
}

// Several things wrong at once: the first in the order of the checks decides.
pub fn several(random: &mut Random, _: bool) -> Request {
    let mut rule = doubtful(random);
    if random.percent(30) {
        break_range(&mut rule, random, false);
    }
    let lent = if random.percent(30) { wrong_file(random) } else { FILE };
    lending(&rule, lent)
}
