// Rules with constants, for load, watches and inputs: at every place, few and many, so that nothing or all is left, and where folding
// decides over 7 and 8, for the rule and against it.

use crate::constants::{constant, padded, EVERYWHERE};
use crate::files;
use crate::folding::smallest;
use crate::formulas::{formula, nested, unfolded_size, TEMPORAL};
use crate::patterns::{self, conjunction, dealt, shuffled};
use crate::random::Random;
use crate::rules::Rule;
use crate::script::Script;

const MOST: usize = 1024;

pub fn loaded(script: &mut Script) {
    script.case = "folding: small";
    for formula in smallest() {
        script.load(files::of(&dealt(2, 2, formula)));
    }
}

// Constants among the leaves.
pub fn any(random: &mut Random, large: bool) -> Rule {
    let boards = random.within(2, 4);
    let (nodes, constants) =
        if large { (MOST - random.below(3), random.pick(&[1, 3, 10])) } else { (random.within(3, 24), random.pick(&[20, 40, 70])) };
    let rule = dealt(boards, 6, formula(random, nodes, TEMPORAL.over(6).with(constants)));
    shuffled(random, rule)
}

// Constants that say nothing, around the nodes of a rule as there are others. There is room left to put it below next.
fn around(random: &mut Random, rule: Rule, places: usize) -> Rule {
    let formula = padded(random, rule.formula, places, MOST - 1, rule.propositions as usize);
    Rule { formula, ..rule }
}

pub fn around_any(random: &mut Random, large: bool) -> Rule {
    let pattern = random.pick::<fn(&mut Random, bool) -> Rule>(&[
        patterns::small,
        patterns::until,
        patterns::responses,
        patterns::alternatives,
        patterns::chain,
        patterns::nested_always,
    ]);
    let rule = pattern(random, false);
    let places = if large { EVERYWHERE } else { random.within(1, 10) };
    around(random, rule, places)
}

// Right at the limit of slots or of nodes when they are gone.
pub fn around_limit(random: &mut Random, large: bool) -> Rule {
    let rule = match random.below(4) {
        0 => patterns::copies(random.within(62, 65)),
        1 => patterns::nested_always(random, true),
        _ => patterns::node_limit(random, large),
    };
    let places = if large { EVERYWHERE } else { random.within(1, 20) };
    around(random, rule, places)
}

// A constant is all that is left: the watch is finished when it is loaded.
pub fn decided(random: &mut Random, large: bool) -> Rule {
    let (nodes, value) = (if large { MOST } else { random.within(2, 40) }, random.percent(50));
    dealt(3, 3, constant(random, value, nodes, 3))
}

// More than 64 slots as written. Some of the copies fall away, and of what is left there may still be too many.
pub fn fewer_slots(random: &mut Random, _: bool) -> Rule {
    let mut links = vec![vec![4, 64, 65]; random.within(62, 64)];
    for _ in 0..random.within(3, 40) {
        let place = random.below(links.len() + 1);
        links.insert(place, [vec![4], constant(random, true, 4, 2), vec![4, 64, 65]].concat());
    }
    now_and_then_a_tower(random, links)
}

// Each copy has one slot as written, and two when 6 0 64 has become 64.
pub fn more_slots(random: &mut Random, _: bool) -> Rule {
    let count = random.pick(&[30, 31, 32, 33, 63, 64]);
    now_and_then_a_tower(random, vec![vec![8, 3, 7, 65, 6, 0, 64]; count])
}

// An and-chain of these, and one in four times a tower with too many nodes for any layout: 7 goes before 8.
fn now_and_then_a_tower(random: &mut Random, mut links: Vec<Vec<u8>>) -> Rule {
    if random.percent(25) {
        links.push(nested(8, random.within(88, 120)));
    }
    dealt(2, 2, conjunction(&links))
}

// An and-chain of a and b in turn, whose last operand is b: where that counts twice, as 6 0 65 does, each part but the a's chooses
// b's board; where it counts once the parts choose in turn, and each is cut. Beside it a tower and nots, so that it is about the
// cuts whether there are too many nodes.
pub fn more_nodes(random: &mut Random, _: bool) -> Rule {
    let pairs = random.within(20, 31);
    let chain = [vec![3, 65, 3, 64].repeat(pairs), vec![6, 0, 65]].concat();
    let (cut, folded_chain) = (2 * pairs, 4 * pairs + 1);
    let over = random.within(1, pairs - 6);
    let target = 4096 + random.pick(&[0, 0, 1, over]);
    let mut tower = vec![65];
    loop {
        let higher = [&[8], &tower[..]].concat();
        if 1 + unfolded_size(&higher) + folded_chain + cut > target {
            break;
        }
        tower = higher;
    }
    let nots = target - (1 + unfolded_size(&tower) + folded_chain + cut);
    dealt(2, 2, [vec![3], vec![2; nots], tower, chain].concat())
}
