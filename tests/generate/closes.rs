// Closes at the limits: refused for room (7, 8) or for the counter's end (15), or just fitting.

use crate::files;
use crate::folded_rules;
use crate::formulas::nested;
use crate::model::formula::parse_slot;
use crate::model::state::{Board, Network, Slot};
use crate::patterns;
use crate::random::Random;
use crate::rules::Rule;
use crate::script::Script;
use crate::watches::finish_tick;

const TICKS_AT: usize = 12;

pub fn slots(script: &mut Script, random: &mut Random, large: bool) {
    let rule = match random.below(4) {
        0 => patterns::slots_and_nodes(random, large),
        _ => patterns::copies(random.within(63, 66)),
    };
    close_later(script, random, rule);
}

pub fn nodes(script: &mut Script, random: &mut Random, large: bool) {
    let rule = match random.below(4) {
        0 => patterns::nested_always(random, true),
        1 => patterns::crowded(random, large),
        _ => patterns::node_limit(random, large),
    };
    close_later(script, random, rule);
}

// With constants around: load takes them out.
pub fn folding(script: &mut Script, random: &mut Random, large: bool) {
    let rule = folded_rules::around_limit(random, large);
    close_later(script, random, rule);
}

// Below next the rule is small; the close lays it out. Half of these ticks go unseen up to the close.
fn close_later(script: &mut Script, random: &mut Random, rule: Rule) {
    let file = files::of(&patterns::later(rule));
    if random.percent(50) {
        script.load(file);
        finish_tick(script, random);
    } else {
        let mut unseen = Script::new();
        unseen.load(file);
        finish_tick(&mut unseen, random);
        script.become_state(unseen.state());
    }
    script.close();
    script.ask();
}

// Always (a is answered by b) with a and b in turn, which gains a slot in each tick, shortly before its 63rd close.
pub fn growing(script: &mut Script, random: &mut Random, _: bool) {
    let rule = Rule { masks: vec![1, 2], propositions: 2, formula: vec![8, 4, 2, 64, 7, 65] };
    let mut unseen = Script::new();
    unseen.load(files::of(&rule));
    let closes = random.pick(&[61, 62, 63, 63]);
    for tick in 1..=closes {
        let event = 2 - tick as u64 % 2;
        unseen.sample(0, event & 1);
        unseen.sample(1, event & 2);
        finish_tick(&mut unseen, random);
        if tick < closes {
            unseen.close();
        }
    }
    script.become_state(unseen.state());
    script.close();
    script.ask();
}

// A handed state with a formula longer than any rule: its unfolding may have millions of nodes.
pub fn handed(script: &mut Script, random: &mut Random, large: bool) {
    let count = if large { random.pick(&[4000, 4095]) } else { random.within(80, 120) };
    let formula = parse_slot(&nested(random.pick(&[7, 8]), count)).expect("one whole formula");
    let boards = vec![Board { mask: 1, sample: 1, sampled: true }];
    let slots = vec![Slot { board: 0, stepped: true, start: 0, formula }];
    script.become_state(&Network { ticks: 1, nodes: count + 1, boards, slots }.bytes());
    script.close();
    script.ask();
}

// The counter at its end or one before it; now and then room lacks as well.
pub fn last_ticks(script: &mut Script, random: &mut Random, large: bool) {
    let rule = match random.below(4) {
        0 => patterns::copies(64),
        1 => patterns::nested_always(random, true),
        2 => patterns::until(random, large),
        _ => patterns::small(random, large),
    };
    if script.load(files::of(&patterns::later(rule))) {
        let ticks = random.pick(&[u32::MAX, u32::MAX, u32::MAX - 1]);
        script.poke(TICKS_AT, &ticks.to_le_bytes());
        finish_tick(script, random);
        script.close();
        script.ask();
    }
}
