// Watches through ticks in random orders, with calls in between that are refused.

use crate::events::{bits_outside, inside};
use crate::model::formula::Formula::PlaceHolder;
use crate::model::state::{Network, STATE};
use crate::model::watch::is_finished;
use crate::random::Random;
use crate::script::{Script, KEPT};

// Goes on with the watch at hand, from any moment of a tick: to its verdict, to a close that is refused, or for so many requests.
pub fn go_on(script: &mut Script, random: &mut Random, requests: usize) {
    let enough = script.waiting() + requests;
    while let Some(network) = script.network() {
        if is_finished(&network) {
            afterwards(script, random, &network);
            return;
        }
        let calls = left_of(&network);
        let only_samples_left = !calls.is_empty() && network.slots.iter().all(|slot| slot.stepped);
        if script.waiting() >= enough {
            return;
        } else if only_samples_left && random.percent(30) {
            script.close(); // too early
        } else if is_before_tick(&network) && random.percent(15) {
            let count = random.below(4);
            script.capture(&inside(random, network.union(), count));
        } else if random.percent(40) {
            refused(script, random, &network);
        } else if calls.is_empty() {
            let accepted = script.close();
            script.ask();
            if !accepted {
                return;
            }
        } else {
            let call = random_call(random, &network, &calls);
            make(script, random, &network, call);
        }
    }
    // a step has left a handed state that fails its check
    script.ask();
    script.close();
}

// Whether nothing of the tick has come.
pub fn is_before_tick(network: &Network) -> bool {
    network.boards.iter().all(|board| !board.sampled)
}

// A tick from any moment up to its close, with no call that is refused for being early; nothing where the watch is finished.
pub fn finish_tick(script: &mut Script, random: &mut Random) {
    while let Some(network) = script.network() {
        let ready: Vec<Call> = left_of(&network).into_iter().filter(|call| call.is_ready(&network)).collect();
        if ready.is_empty() || is_finished(&network) {
            break;
        }
        let call = random.pick(&ready);
        make(script, random, &network, call);
    }
}

#[derive(Clone, Copy)]
enum Call {
    Sample(usize),
    Step(usize),
}

impl Call {
    fn is_ready(self, network: &Network) -> bool {
        match self {
            Call::Sample(_) => true,
            Call::Step(slot) => is_ready(network, slot),
        }
    }
}

// Whether a slot's board has sampled and all it holds is stepped.
pub fn is_ready(network: &Network, slot: usize) -> bool {
    let slot = &network.slots[slot];
    let held_stepped = slot.formula.all(&|node| !matches!(node, PlaceHolder(other) if !network.slots[*other].stepped));
    network.boards[slot.board].sampled && held_stepped
}

// The samples and steps that the tick still lacks.
fn left_of(network: &Network) -> Vec<Call> {
    let samples = (0..network.boards.len()).filter(|&i| !network.boards[i].sampled).map(Call::Sample);
    samples.chain((0..network.slots.len()).filter(|&i| !network.slots[i].stepped).map(Call::Step)).collect()
}

// Of the calls left mostly one that is ready.
fn random_call(random: &mut Random, network: &Network, calls: &[Call]) -> Call {
    let ready: Vec<Call> = calls.iter().copied().filter(|call| call.is_ready(network)).collect();
    if ready.is_empty() || random.percent(8) {
        random.pick(calls)
    } else {
        random.pick(&ready)
    }
}

fn make(script: &mut Script, random: &mut Random, network: &Network, call: Call) {
    match call {
        Call::Sample(board) => script.sample(board as u64, random.event() & network.boards[board].mask),
        Call::Step(slot) => script.step(slot as u64),
    };
}

// A number that is none of the lowest `count`: compared whole, high bits above a good number do not go unseen.
fn none_of(random: &mut Random, count: usize) -> u64 {
    let good = random.below(count) as u64;
    let count = count as u64;
    random
        .pick(&[count, count, count + 1, 16, 64, 255, 256, 1 << 16, 1 << 32, good | 1 << 8, good | 1 << 32, good | 1 << 63, u64::MAX])
        .max(count)
}

pub fn wrong_length(random: &mut Random) -> usize {
    random.pick(&[0, 1, 15, 16, STATE - 1, STATE - 1, STATE + 1, STATE + 1, KEPT])
}

// A call that is refused at this moment, or, where the moment has no such call, perhaps accepted.
fn refused(script: &mut Script, random: &mut Random, network: &Network) {
    let board = random.below(network.boards.len());
    let slot = random.below(network.slots.len());
    let mask = network.boards[board].mask;
    let inside = random.event() & mask;
    let sampled = (0..network.boards.len()).find(|&i| network.boards[i].sampled);
    let stepped = (0..network.slots.len()).find(|&i| network.slots[i].stepped);
    let unready = (0..network.slots.len()).find(|&i| !network.slots[i].stepped && !is_ready(network, i));
    match random.below(20) {
        0..=2 => script.sample(sampled.unwrap_or(board) as u64, 0),
        3 | 4 => script.sample(board as u64, bits_outside(random, mask)),
        5 => script.sample(none_of(random, network.boards.len()), inside),
        6 => script.sample(none_of(random, network.boards.len()), u64::MAX),
        7..=9 => script.step(stepped.unwrap_or(slot) as u64),
        10 => script.step(unready.unwrap_or(slot) as u64),
        11 | 12 => script.step(none_of(random, network.slots.len())),
        13 | 14 if !left_of(network).is_empty() => script.close(),
        13..=15 => script.close_lent(random.pick(&[STATE, STATE, STATE - 1]), wrong_length(random)),
        16 => wrongly_lent(script, random, board, inside, slot),
        17 => script.ask(),
        18 => script.capture(&[inside]),
        _ => script.capture(&[bits_outside(random, network.union())]),
    };
}

// A call that would be good if it were not for the length of the state.
fn wrongly_lent(script: &mut Script, random: &mut Random, board: usize, bits: u64, slot: usize) -> bool {
    let lent = wrong_length(random);
    match random.below(5) {
        0 => script.sample_lent(lent, board as u64, bits),
        1 => script.step_lent(lent, slot as u64),
        2 => script.close_lent(lent, STATE),
        3 => script.capture_lent(lent, STATE, &[bits]),
        _ => script.ask_lent(lent),
    }
}

// Calls on a watch that is finished: all but ask are refused.
fn afterwards(script: &mut Script, random: &mut Random, network: &Network) {
    script.ask();
    for _ in 0..3 {
        let board = random.below(network.boards.len()) as u64;
        match random.below(8) {
            0 => script.sample(board, 0),
            1 => script.sample(none_of(random, network.boards.len()), u64::MAX),
            2 => script.step(0),
            3 => script.step(none_of(random, 1)),
            4 | 5 => script.close(),
            6 => script.capture(&[random.event()]),
            _ => script.close_lent(STATE, wrong_length(random)),
        };
    }
}
