// States of watches that ran unseen, at various moments.

use crate::files;
use crate::model::formula::parse_rule;
use crate::model::splitting::lay_rule;
use crate::model::state::Network;
use crate::patterns;
use crate::random::Random;
use crate::rules::Rule;
use crate::script::Script;
use crate::watches;

// A watch of this rule after so many calls, mostly in the middle of a tick; no state where the rule is refused.
pub fn of_rule(random: &mut Random, rule: &Rule, calls: usize) -> Option<Network> {
    let mut unseen = Script::new();
    if !unseen.load(files::of(rule)) {
        return None;
    }
    watches::go_on(&mut unseen, random, calls);
    unseen.network()
}

// A watch that was begun when constants were not folded yet: the rule is laid as it is written. No state where it has no room.
pub fn saved(random: &mut Random, rule: &Rule, calls: usize) -> Option<Network> {
    let whole = parse_rule(&rule.formula).expect("a good rule");
    let begun = Network::of(&rule.masks, lay_rule(&whole, &rule.masks), 0).ok()?;
    let mut unseen = Script::new();
    unseen.become_state(&begun.bytes());
    watches::go_on(&mut unseen, random, calls);
    unseen.network()
}

// Of small watches, and some with many slots.
pub fn moment(random: &mut Random) -> Network {
    loop {
        let rule = match random.below(8) {
            0 | 1 => patterns::until(random, false),
            2 => patterns::responses(random, false),
            3 => patterns::alternatives(random, false),
            4 => patterns::chain(random, false),
            5 if random.percent(30) => patterns::constants(random, false),
            _ => patterns::small(random, false),
        };
        let calls = random.below(60);
        let network = if random.percent(20) { saved(random, &rule, calls) } else { of_rule(random, &rule, calls) };
        if let Some(network) = network {
            return network;
        }
    }
}
