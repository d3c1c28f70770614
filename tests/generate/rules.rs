// Rules and the ways to break their masks and formula, for the calls that take a rule.

use crate::formulas::*;
use crate::random::Random;

pub struct Rule {
    pub masks: Vec<u64>,
    pub propositions: u64,
    pub formula: Vec<u8>,
}

// A good rule at or between the limits. Few boards get propositions, so that some masks are empty.
pub fn rule(random: &mut Random, large: bool) -> Rule {
    let boards = match random.below(4) {
        0 | 1 if large => 16,
        0 => random.pick(&[1, 16]),
        1 => 2,
        _ => random.within(1, 16),
    };
    let propositions = match random.below(4) {
        0 | 1 if large => 64,
        0 => random.pick(&[1, 64, 64]),
        1 => random.within(2, 4),
        _ => random.within(1, 64),
    };
    let nodes = match random.below(4) {
        _ if large => random.pick(&[1023, 1024, 1024]),
        0 => 1,
        _ => random.within(2, 30),
    };
    let used: Vec<usize> = (0..random.within(1, boards)).map(|_| random.below(boards)).collect();
    let mut masks = vec![0; boards];
    for i in 0..propositions {
        masks[random.pick(&used)] |= 1 << i;
    }
    let constants = random.pick(&[0, 10]);
    Rule { masks, propositions: propositions as u64, formula: formula(random, nodes, TEMPORAL.over(propositions).with(constants)) }
}

impl Rule {
    fn clear(&mut self, bit: u64) {
        self.masks.iter_mut().for_each(|mask| *mask &= !(1 << bit));
    }

    fn set(&mut self, random: &mut Random, bit: u64) {
        let board = random.below(self.masks.len());
        self.masks[board] |= 1 << bit;
    }

    // Gives a proposition to a second board.
    fn overlap(&mut self, bit: u64) {
        if self.masks.len() == 1 {
            self.masks.push(0);
        }
        let board = self.masks.iter().position(|mask| mask >> bit & 1 == 0).expect("of two boards or more one lacks it");
        self.masks[board] |= 1 << bit;
    }

    fn break_masks(&mut self, random: &mut Random) {
        let p = self.propositions;
        let bit = if random.percent(40) { p - 1 } else { random.word() % p };
        let beyond = random.pick(&[p, (p + 63) / 2, 63]);
        match random.below(8) {
            0 => self.overlap(bit),
            1 => self.clear(bit),
            2 if p < 64 => self.set(random, beyond),
            // the ones still add up, but not to the lowest bits
            3 if p < 64 => {
                self.clear(bit);
                self.set(random, beyond);
            }
            4 | 5 if p > 1 => {
                self.overlap((bit + 1) % p);
                self.clear(bit);
            }
            6 if p < 64 => self.propositions += 1,
            _ => self.masks.fill(0),
        }
    }

    // Damage adds up to three nodes: a long formula is made anew, a little shorter, so that nothing but the formula is wrong.
    fn break_formula(&mut self, random: &mut Random) {
        let p = self.propositions as usize;
        let f = match self.formula.len() {
            1022.. => formula(random, 1021, TEMPORAL.over(p)),
            _ => std::mem::take(&mut self.formula),
        };
        self.formula = if p < 64 && random.percent(35) { foreign_proposition(random, f, p) } else { damage(random, f, p) };
    }
}

// One board, one proposition, one node.
pub fn smallest(random: &mut Random, _: bool) -> Rule {
    Rule { masks: vec![1], propositions: 1, formula: vec![TEMPORAL.over(1).leaf(random)] }
}

pub fn bad_masks(random: &mut Random, large: bool) -> Rule {
    let mut rule = rule(random, large);
    rule.break_masks(random);
    rule
}

pub fn bad_formula(random: &mut Random, large: bool) -> Rule {
    let mut rule = rule(random, large);
    rule.break_formula(random);
    rule
}

// Masks, formula, both or neither broken.
pub fn doubtful(random: &mut Random) -> Rule {
    let mut rule = rule(random, false);
    if random.percent(50) {
        rule.break_formula(random);
    }
    if random.percent(50) {
        rule.break_masks(random);
    }
    rule
}
