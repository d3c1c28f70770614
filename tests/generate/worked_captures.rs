// Named examples of capture: each way to stop, the state in the middle of a tick, the same events in one call and in two, and the
// refusals at its start. They stand in every stream.

use crate::model::formula::Formula::Proposition;
use crate::model::formula::{and, next};
use crate::model::state::STATE;
use crate::patterns::{copies, later, over};
use crate::script::{Script, KEPT};
use crate::worked_watches::{hand, load, TWO};

const TICKS_AT: usize = 12;

const EXAMPLES: &[(&str, fn(&mut Script))] = &[
    ("capture: to the end", end),
    ("capture: to a verdict", verdict),
    ("capture: to an event outside the masks", outside),
    ("capture: from the middle of a tick", in_a_tick),
    ("capture: to a lone foreign proposition", foreign),
    ("capture: to the last tick", last_tick),
    ("capture: to too many slots", slots),
    ("capture: to too many nodes", nodes),
    ("capture: in one call and in two", split),
    ("capture: wrong lengths", lengths),
    ("capture: finished", finished),
    ("capture: damaged", damaged),
];

pub fn captured(script: &mut Script) {
    for (case, example) in EXAMPLES {
        script.case = case;
        example(script);
    }
}

fn load_until(script: &mut Script) {
    load(script, &over(TWO, &[6, 64, 65]));
}

// Always (a is answered by b), which gains slots.
fn load_response(script: &mut Script) {
    load(script, &over(TWO, &[8, 4, 2, 64, 7, 65]));
}

fn a_and_b_in_turn(count: u64) -> Vec<u64> {
    (0..count).map(|tick| 1 + tick % 2).collect()
}

fn end(script: &mut Script) {
    load_until(script);
    script.capture(&[]);
    script.capture(&[1]);
    script.capture(&[1, 1, 1]);
    script.capture(&[1; 256]);
    script.ask();
}

// What is behind the verdict is not looked at.
fn verdict(script: &mut Script) {
    for events in [&[2][..], &[1, 3], &[1, 2, 4, 1], &[0], &[1, 1, 0], &[1, 0, 4]] {
        load_until(script);
        script.capture(events);
        script.ask();
    }
}

fn outside(script: &mut Script) {
    load_until(script);
    script.capture(&[4]);
    script.capture(&[1, 1 << 63 | 1, 2]);
    script.capture(&[1, 1, 6]);
    script.capture(&[1, 2]);
}

// From each moment of a tick but its start 13 stops it, and an event outside the masks before that.
fn in_a_tick(script: &mut Script) {
    load_until(script);
    let moments: [fn(&mut Script) -> bool; 4] =
        [|script| script.sample(1, 0), |script| script.step(1), |script| script.sample(0, 1), |script| script.step(0)];
    for moment in moments {
        moment(script);
        script.capture(&[1, 1]);
        script.capture(&[5]);
        script.capture(&[]);
    }
    script.close();
    script.capture(&[1, 1]);
}

// One slot on board 0 that two ticks, the first with a, turn into b alone: the step is accepted, and what comes behind it gets 9.
fn foreign(script: &mut Script) {
    let formula = || and(Proposition(0), next(next(Proposition(1))));
    hand(script, false, &[formula()]);
    script.capture(&[1, 0]);
    script.capture(&[4]);
    script.capture(&[0]);
    script.sample(0, 0);
    script.sample(1, 0);
    script.step(0);
    script.capture(&[0]);
    hand(script, false, &[formula()]);
    script.capture(&[0, 0]);
    // nobody holds the second slot, and another step comes behind its own
    hand(script, false, &[next(Proposition(0)), next(Proposition(1))]);
    script.capture(&[1]);
    hand(script, false, &[formula()]);
    script.poke(TICKS_AT, &(u32::MAX - 1).to_le_bytes());
    script.capture(&[1, 0]);
}

fn last_tick(script: &mut Script) {
    load_until(script);
    script.poke(TICKS_AT, &(u32::MAX - 2).to_le_bytes());
    script.capture(&[1, 1, 2, 2]);
    script.capture(&[2]);
    script.ask();
    load_until(script);
    script.poke(TICKS_AT, &(u32::MAX - 2).to_le_bytes());
    script.capture(&[1, 2, 2]);
    load(script, &later(later(copies(64))));
    script.poke(TICKS_AT, &(u32::MAX - 1).to_le_bytes());
    script.capture(&[0, 0]);
}

fn slots(script: &mut Script) {
    load_response(script);
    script.capture(&a_and_b_in_turn(70));
    script.capture(&[1]);
    script.capture(&[2]);
    script.ask();
}

fn nodes(script: &mut Script) {
    load(script, &over(&[1], &[vec![5; 3], vec![8; 88], vec![64]].concat()));
    script.capture(&[0, 1, 0, 1]);
    script.capture(&[0]);
    script.ask();
}

fn split(script: &mut Script) {
    let events = a_and_b_in_turn(5);
    for place in 0..=events.len() {
        load_response(script);
        script.capture(&events[..place]);
        script.capture(&events[place..]);
    }
}

fn lengths(script: &mut Script) {
    load_until(script);
    for lent in [0, 1, STATE - 1, STATE + 1, KEPT] {
        script.capture_lent(lent, STATE, &[1]);
        script.capture_lent(STATE, lent, &[1]);
        script.capture_lent(lent, lent, &[]);
    }
}

fn finished(script: &mut Script) {
    load(script, &over(&[1], &[1]));
    script.capture(&[]);
    script.capture(&[4]);
    script.capture_lent(STATE, STATE - 1, &[0]);
    script.capture_lent(STATE - 1, STATE, &[0]);
}

fn damaged(script: &mut Script) {
    load_until(script);
    script.poke(STATE - 1, &[7]);
    script.capture(&[1]);
    script.capture(&[]);
    script.capture_lent(STATE, STATE + 1, &[1]);
    script.poke(STATE - 1, &[0]);
    script.capture(&[1]);
}
