// Captures that follow one another on a state, of any length, with single calls between them.

use crate::events::{inside, leave_masks, MOST};
use crate::files;
use crate::model::state::{Network, STATE};
use crate::model::watch::is_finished;
use crate::patterns::over;
use crate::random::Random;
use crate::rules::Rule;
use crate::script::Script;
use crate::watches::{finish_tick, go_on, is_before_tick, wrong_length};

// Captures from the load of a rule on.
pub fn of_rule(script: &mut Script, random: &mut Random, rule: &Rule) {
    if script.load(files::of(rule)) {
        go_through(script, random);
    }
}

// Captures over a state that is handed over.
pub fn of_network(script: &mut Script, random: &mut Random, network: &Network) {
    script.become_state(&network.bytes());
    go_through(script, random);
}

// Goes on from any moment with some captures. One that stops at a refusal is followed by others.
fn go_through(script: &mut Script, random: &mut Random) {
    for _ in 0..random.within(6, 14) {
        match script.network() {
            None => {
                // a step has left a handed state that fails its check
                script.capture(&[0]);
                return;
            }
            Some(network) if is_finished(&network) => {
                after_verdict(script, random);
                return;
            }
            Some(network) if is_before_tick(&network) || random.percent(40) => any_capture(script, random, &network),
            Some(_) => {
                finish_tick(script, random);
                script.close();
            }
        }
    }
}

fn any_capture(script: &mut Script, random: &mut Random, network: &Network) {
    let count = random.within(1, 12);
    let mut events = inside(random, network.union(), count);
    match random.below(16) {
        0 => script.capture(&[]),
        1 => script.capture_lent(wrong_length(random), STATE, &events),
        2 => script.capture_lent(random.pick(&[STATE, STATE - 1]), wrong_length(random), &events),
        3 | 4 => {
            leave_masks(random, network.union(), &mut events);
            script.capture(&events)
        }
        5 => {
            let requests = random.within(1, 6);
            go_on(script, random, requests);
            script.capture(&events)
        }
        _ => script.capture(&events),
    };
}

// 10 whatever the events, and 1 before it.
fn after_verdict(script: &mut Script, random: &mut Random) {
    let count = random.below(3);
    let events = inside(random, u64::MAX, count);
    script.capture(&events);
    if random.percent(20) {
        script.capture_lent(STATE, wrong_length(random), &events);
    }
}

// Rules that stay pending under these events, one after the other and over again: masks, formula, events.
const PENDING: &[(&[u64], &[u8], &[u64])] = &[
    (&[1, 2], &[6, 64, 65], &[1]),
    (&[1], &[8, 7, 64], &[0, 1, 0, 0]),
    (&[2, 1], &[8, 4, 64, 7, 65], &[0, 2]),
    (&[2, 1], &[8, 4, 64, 7, 65], &[0, 3, 1]),
    (&[2, 1, 4], &[8, 4, 2, 64, 6, 2, 65, 66], &[1, 0, 4]),
];

// Begins a watch of one of these; so many events of its own.
pub fn begin_pending(script: &mut Script, random: &mut Random, count: usize) -> Vec<u64> {
    let (masks, formula, turns) = random.pick(PENDING);
    script.load(files::of(&over(masks, formula)));
    turns.iter().copied().cycle().take(count).collect()
}

// As many events as a request may have, or nearly: at once, or in two calls.
pub fn long(script: &mut Script, random: &mut Random, _: bool) {
    let count = if random.percent(50) { MOST } else { random.within(200, MOST) };
    let events = begin_pending(script, random, count);
    let place = random.below(count) * random.below(2);
    script.capture(&events[..place]);
    script.capture(&events[place..]);
    script.ask();
}

// An event has a bit that no mask has; the watch goes on all the same.
pub fn outside(script: &mut Script, random: &mut Random, _: bool) {
    let count = random.within(1, 12);
    let events = begin_pending(script, random, count);
    let union = script.network().expect("a state just loaded").union();
    for _ in 0..random.within(1, 3) {
        let mut outside = events.clone();
        leave_masks(random, union, &mut outside);
        script.capture(&outside);
    }
    script.capture(&events);
    script.ask();
}
