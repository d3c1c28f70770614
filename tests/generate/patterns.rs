// Rules worth watching: small ones over several boards, the shapes that bench staff write, and shapes that grow to the limits.

use crate::formulas::{formula, left_chain, nested, right_chain, unfolding_to, TEMPORAL};
use crate::random::Random;
use crate::rules::Rule;

const AND: u8 = 3;
const NEXT: u8 = 5;
const UNTIL: u8 = 6;

// The rule over these masks.
pub fn over(masks: &[u64], formula: &[u8]) -> Rule {
    let union = masks.iter().fold(0, |union, mask| union | mask);
    Rule { masks: masks.to_vec(), propositions: u64::from(union.count_ones()), formula: formula.to_vec() }
}

// A rule over the lowest propositions, dealt out in turn to the boards.
pub fn dealt(boards: usize, propositions: usize, formula: Vec<u8>) -> Rule {
    let mut masks = vec![0; boards];
    for i in 0..propositions {
        masks[i % boards] |= 1 << i;
    }
    Rule { masks, propositions: propositions as u64, formula }
}

// The same with the boards in some other order.
pub fn shuffled(random: &mut Random, mut rule: Rule) -> Rule {
    for i in 1..rule.masks.len() {
        rule.masks.swap(i, random.below(i + 1));
    }
    rule
}

pub fn small(random: &mut Random, _: bool) -> Rule {
    let boards = random.within(2, 4);
    let propositions = random.within(boards, 7);
    let nodes = random.within(3, 16);
    let formula = formula(random, nodes, TEMPORAL.over(propositions));
    let mut rule = dealt(boards, propositions, formula);
    rule.masks.resize(boards + random.pick(&[0, 0, 1]), 0); // a board without propositions samples too
    shuffled(random, rule)
}

// No propositions at all: nothing but a constant is left, on board 0.
pub fn constants(random: &mut Random, _: bool) -> Rule {
    let nodes = random.within(2, 9);
    dealt(2, 2, formula(random, nodes, TEMPORAL.with(100)))
}

// Over 16 boards and 64 propositions, of some size.
pub fn wide(random: &mut Random, large: bool) -> Rule {
    let nodes = if large { random.within(150, 300) } else { random.within(10, 40) };
    let constants = random.pick(&[0, 10]);
    dealt(16, 64, formula(random, nodes, TEMPORAL.with(constants)))
}

// Until over two boards, itself or inside something.
pub fn until(random: &mut Random, _: bool) -> Rule {
    let shapes: [&[u8]; 7] =
        [&[6, 64, 65], &[8, 6, 64, 65], &[2, 6, 64, 65], &[6, 64, 7, 65], &[6, 8, 64, 65], &[5, 6, 65, 64], &[6, 64, 6, 65, 64]];
    let shape = random.pick(&shapes).to_vec();
    shuffled(random, dealt(2, 2, shape))
}

pub fn conjunction(links: &[Vec<u8>]) -> Vec<u8> {
    right_chain(&vec![AND; links.len() - 1], links)
}

// Always (a or eventually b), one link from each board to the next, over 4 boards or 16.
pub fn alternatives(_: &mut Random, large: bool) -> Rule {
    let boards = if large { 16 } else { 4 };
    let links: Vec<Vec<u8>> = (1..boards as u8).map(|i| vec![8, 4, 63 + i, 7, 64 + i]).collect();
    dealt(boards, boards, conjunction(&links))
}

// After a comes b, or nothing of c until b.
pub fn responses(random: &mut Random, large: bool) -> Rule {
    let boards = random.within(2, 4);
    let count = if large { 6 } else { random.within(1, 3) };
    let mut link = || {
        let mut leaf = || 64 + random.below(boards) as u8;
        let (a, b, c) = (leaf(), leaf(), leaf());
        if random.percent(50) {
            vec![8, 4, 2, a, 7, b]
        } else {
            vec![8, 4, 2, a, 6, 2, c, b]
        }
    };
    let links: Vec<Vec<u8>> = (0..count).map(|_| link()).collect();
    shuffled(random, dealt(boards, boards, conjunction(&links)))
}

// Copies of a or b in an and-chain: each costs a slot.
pub fn copies(count: usize) -> Rule {
    dealt(2, 2, conjunction(&vec![vec![4, 64, 65]; count]))
}

pub fn chain(random: &mut Random, large: bool) -> Rule {
    let count = if large { random.within(62, 65) } else { random.within(2, 8) };
    copies(count)
}

// ((a until b) until c) ..: its unfolding grows with the square of its length.
pub fn untils(random: &mut Random, large: bool) -> Rule {
    let count = if large { random.within(50, 66) } else { random.within(2, 6) };
    let boards = if large { random.pick(&[1, 2, 16]) } else { random.within(2, 5) };
    let leaves: Vec<Vec<u8>> = (0..=count).map(|i| vec![64 + (i % boards) as u8]).collect();
    dealt(boards, boards, left_chain(&vec![UNTIL; count], &leaves))
}

// The longest of them, nearly all on board 0: few enough slots, but scores past 16 bits choose where they are cut.
pub fn crowded(random: &mut Random, _: bool) -> Rule {
    let count = 510;
    let mut leaves = vec![vec![64]; count + 1];
    for _ in 0..random.within(45, 60) {
        leaves[random.below(count + 1)] = vec![65];
    }
    dealt(2, 2, left_chain(&vec![UNTIL; count], &leaves))
}

pub fn nested_always(random: &mut Random, large: bool) -> Rule {
    let count = if large { random.within(86, 89) } else { random.within(1, 5) };
    dealt(random.within(1, 3), 3, nested(random.pick(&[7, 8]), count))
}

// Nested until the unfolding has half a million nodes.
pub fn far_too_large(random: &mut Random, _: bool) -> Rule {
    let count = random.pick(&[100, 255, 512, 1023]);
    dealt(2, 2, nested(random.pick(&[7, 8]), count))
}

// A layout of about 4,096 nodes: the unfolding, and a place holder for each cut.
pub fn node_limit(random: &mut Random, large: bool) -> Rule {
    let boards = if large { random.within(2, 4) } else { 1 };
    let target = 4096 - if boards == 1 { 0 } else { random.below(60) } + random.below(2);
    loop {
        let formula = unfolding_to(random, target);
        if formula.len() < 1024 {
            return dealt(boards, 64, formula);
        }
    }
}

// Over 64 slots and over 4,096 nodes at once.
pub fn slots_and_nodes(random: &mut Random, _: bool) -> Rule {
    let deep = nested(8, random.within(88, 200));
    let wide = copies(random.within(64, 80)).formula;
    let formula = if random.percent(50) { [vec![AND], deep, wide].concat() } else { [vec![AND], wide, deep].concat() };
    dealt(2, 2, formula)
}

// The same rule, to begin a tick later.
pub fn later(rule: Rule) -> Rule {
    Rule { formula: [vec![NEXT], rule.formula].concat(), ..rule }
}
