// Captures that come to a stop of a given kind, at the first event, the last one or between.

use crate::captures::begin_pending;
use crate::events::{inside, to_verdict};
use crate::files;
use crate::formulas::nested;
use crate::handed;
use crate::model::formula::Formula::{self, Proposition};
use crate::model::formula::{and, next, or};
use crate::model::state::Network;
use crate::model::watch::is_finished;
use crate::moments;
use crate::patterns::{self, dealt, later, over};
use crate::random::Random;
use crate::rules::Rule;
use crate::script::Script;

const TICKS_AT: usize = 12;

// A watch just begun, or a state before its tick that no watch reaches; not finished.
fn begun(random: &mut Random) -> Network {
    loop {
        let network = if random.percent(30) {
            Some(handed::between_ticks(random, false))
        } else {
            let pattern =
                random.pick::<fn(&mut Random, bool) -> Rule>(&[patterns::small, patterns::small, patterns::until, patterns::chain]);
            let rule = pattern(random, false);
            moments::of_rule(random, &rule, 0)
        };
        if let Some(network) = network.filter(|network| !is_finished(network)) {
            return network;
        }
    }
}

// The verdict comes with the first event of a capture, with its last one, or with one between.
pub fn verdict(script: &mut Script, random: &mut Random, _: bool) {
    let (state, union, mut events) = loop {
        let network = begun(random);
        if let Some(events) = to_verdict(random, &network.bytes(), network.union()) {
            break (network.bytes(), network.union(), events);
        }
    };
    script.become_state(&state);
    if random.percent(40) {
        let before = events.len() - 1;
        script.capture(&events[..before]);
        events.drain(..before);
    }
    if random.percent(60) {
        // what is behind a verdict may have any bits
        let (bits, behind) = (random.pick(&[union, u64::MAX]), random.within(1, 5));
        events.extend(inside(random, bits, behind));
    }
    script.capture(&events);
    script.capture(&events);
    script.ask();
}

// The counter comes to its end, at once or a few ticks on; now and then room lacks as well.
pub fn last_ticks(script: &mut Script, random: &mut Random, large: bool) {
    let left = random.below(6);
    let count = random.within(1, left + 3);
    let events = match random.below(4) {
        0 => {
            script.load(files::of(&much_later(patterns::copies(64), left + 1)));
            inside(random, 3, count)
        }
        1 => {
            let rule = patterns::responses(random, large);
            script.load(files::of(&rule));
            inside(random, union_of(&rule), count)
        }
        _ => begin_pending(script, random, count),
    };
    script.poke(TICKS_AT, &(u32::MAX - left as u32).to_le_bytes());
    script.capture(&events);
    script.capture(&events[count - 1..]);
    script.ask();
}

fn union_of(rule: &Rule) -> u64 {
    u64::MAX >> (64 - rule.propositions)
}

// A rule so many ticks before what it leads to.
fn much_later(rule: Rule, ticks: usize) -> Rule {
    (0..ticks).fold(rule, |rule, _| later(rule))
}

// At the limit of slots, or just past it, some ticks on; or gaining slots in each tick that leaves something unanswered.
pub fn slots(script: &mut Script, random: &mut Random, large: bool) {
    let ticks = random.within(1, 8);
    let (rule, events) = match random.below(5) {
        0 => (much_later(patterns::slots_and_nodes(random, large), ticks), ticks + 1),
        1 => (much_later(patterns::copies(random.within(63, 66)), ticks), ticks + 1),
        2 => (patterns::alternatives(random, large), random.within(10, 16)),
        3 => (patterns::responses(random, true), random.within(10, 30)),
        _ => (over(&[1, 2], &[8, 4, 64, 7, 65]), random.within(40, 70)),
    };
    let union = if random.percent(70) { 1 } else { u64::MAX };
    no_room(script, random, rule, events, union);
}

// The same with nodes. Always next next .. a gains as many as there are nexts, less one in each tick, up to the limit or past it.
pub fn nodes(script: &mut Script, random: &mut Random, large: bool) {
    let ticks = random.within(1, 8);
    let (rule, events) = match random.below(4) {
        0 => (much_later(patterns::nested_always(random, true), ticks), ticks + 1),
        1 => (much_later(dealt(2, 2, nested(random.pick(&[7, 8]), random.within(88, 200))), ticks), ticks + 1),
        2 if large => (patterns::node_limit(random, large), 3),
        _ => {
            let nexts = random.pick(&[80, 89, 90, 91, 120, 300, 500, 1000]);
            (over(&[1, 2], &[vec![8], vec![5; nexts], vec![64]].concat()), random.within(1, 12) * 4096 / (10 * nexts) + 1)
        }
    };
    no_room(script, random, rule, events, 1);
}

// So many events from the load on, in one capture or two, and the last of them once more.
fn no_room(script: &mut Script, random: &mut Random, rule: Rule, count: usize, union: u64) {
    let events = inside(random, union & union_of(&rule), count);
    let place = random.below(count) * random.below(2);
    if script.load(files::of(&rule)) {
        script.capture(&events[..place]);
        script.capture(&events[place..]);
        script.capture(&events[count - 1..]);
        script.ask();
    }
}

// A handed state in which steps, after some ticks, leave a slot a lone proposition of another board.
pub fn foreign(script: &mut Script, random: &mut Random, large: bool) {
    let network = loop {
        let mut network = handed::between_ticks(random, large);
        if put_foreign(random, &mut network) {
            break network;
        }
    };
    script.become_state(&network.bytes());
    for _ in 0..random.within(1, 2) {
        let count = random.within(1, 7);
        script.capture(&inside(random, network.union(), count));
    }
    script.ask();
}

// Makes a slot of its network such a one, where another board has propositions.
fn put_foreign(random: &mut Random, network: &mut Network) -> bool {
    let number = if random.percent(30) { random.below(network.slots.len()) } else { 0 };
    let own = network.boards[network.slots[number].board].mask;
    let strangers: Vec<u8> = (0..64).filter(|i| (network.union() & !own) >> i & 1 == 1).collect();
    if strangers.is_empty() {
        return false;
    }
    let stranger = Proposition(random.pick(&strangers));
    let delayed = (0..random.within(1, 5)).fold(stranger, |formula, _| next(formula));
    network.slots[number].formula = beside(random, delayed, own);
    if number == 0 && random.percent(50) {
        network.slots.truncate(1);
    }
    network.ticks = random.pick(&[0, 0, u32::MAX - 2]);
    network.nodes = 0;
    for slot in &mut network.slots {
        slot.start = network.nodes;
        network.nodes += slot.formula.nodes() as usize;
    }
    true
}

// The formula alone, or joined to a proposition of the board's own, which may decide it.
fn beside(random: &mut Random, formula: Formula, own: u64) -> Formula {
    let joint = random.pick::<fn(Formula, Formula) -> Formula>(&[and, or]);
    match own {
        0 => formula,
        _ if random.percent(60) => formula,
        _ => joint(Proposition(own.trailing_zeros() as u8), formula),
    }
}
