// States that differ from a valid one in one clause of the state check: poked in, answered with 9, and mended again.

use crate::events::inside;
use crate::handed;
use crate::model::check::network_of;
use crate::model::state::{Network, STATE};
use crate::moments;
use crate::random::Random;
use crate::script::Script;
use crate::spoilt_formulas::*;
use crate::spoilt_records::*;
use crate::watches;

pub type Spoil = fn(&Network, &mut Random) -> Option<Vec<u8>>;

pub const SPOILS: &[(&str, Spoil)] = &[
    ("state: boards", boards_count),
    ("state: slots", slots_count),
    ("state: nodes", nodes_count),
    ("state: offset of boards", boards_offset),
    ("state: offset of slots", slots_offset),
    ("state: offset of nodes", nodes_offset),
    ("state: 17 boards", seventeen_boards),
    ("state: 65 slots", sixty_five_slots),
    ("state: 4,097 nodes", too_many_nodes),
    ("state: masks overlap", masks_overlap),
    ("state: masks with a hole", masks_with_a_hole),
    ("state: masks over 64 bits", masks_over_64),
    ("state: masks empty", masks_empty),
    ("state: sample outside the mask", sample_outside),
    ("state: sample though unsampled", sample_unsampled),
    ("state: mark of a sampled board", mark_of_sampled),
    ("state: mark of an unsampled board", mark_of_unsampled),
    ("state: board of a slot", slot_board),
    ("state: mark of a stepped slot", mark_of_stepped),
    ("state: mark of an unstepped slot", mark_of_unstepped),
    ("state: start of slot 0", first_start),
    ("state: start", start),
    ("state: length 0", length_zero),
    ("state: length over the stretch", length_over),
    ("state: wrong length", length_wrong),
    ("state: unstepped slot short", unstepped_short),
    ("state: gap", gap),
    ("state: rest", rest),
    ("state: byte without code", byte_without_code),
    ("state: formula too short", formula_too_short),
    ("state: formula too long", formula_too_long),
    ("state: proposition not covered", uncovered),
    ("state: place holder inside next", place_holder_inside_next),
    ("state: place holder inside until", place_holder_inside_until),
    ("state: place holder inside eventually", place_holder_inside_eventually),
    ("state: place holder inside always", place_holder_inside_always),
    ("state: place holder of its own slot", own_number),
    ("state: place holder of a lower slot", lower_number),
    ("state: place holder past the slots", number_past_the_slots),
    ("state: place holder twice in a slot", number_twice_in_a_slot),
    ("state: place holder twice in two slots", number_twice_in_two_slots),
    ("state: until in an unstepped slot", until_not_unfolded),
    ("state: eventually in an unstepped slot", eventually_not_unfolded),
    ("state: always in an unstepped slot", always_not_unfolded),
    ("state: foreign proposition outside next", foreign_outside_next),
    ("state: stepped on unsampled board", stepped_on_unsampled_board),
    ("state: stepped holding unstepped", stepped_holding_unstepped),
    ("state: stepped holding constant", stepped_holding_constant),
    ("state: lone foreign proposition", lone_foreign_proposition),
];

// A valid state and the same one spoilt: the state at hand now and then, where it will do.
fn pair(random: &mut Random, at_hand: Option<Network>, spoil: Spoil) -> (Vec<u8>, Vec<u8>) {
    let mut network = at_hand.filter(|_| random.percent(60)).unwrap_or_else(|| moments::moment(random));
    loop {
        let spoilt = spoil(&network, random).filter(|state| network_of(state).is_none());
        if let Some(spoilt) = spoilt {
            return (network.bytes(), spoilt);
        }
        network = if random.percent(60) { moments::moment(random) } else { handed::handed(random, false) };
    }
}

pub fn spoilt(script: &mut Script, random: &mut Random, spoil: Spoil) {
    let (valid, spoilt) = pair(random, script.network(), spoil);
    script.become_state(&valid);
    script.become_state(&spoilt);
    for _ in 0..random.within(1, 2) {
        any_call(script, random, &valid);
    }
    if random.percent(10) {
        script.close_lent(STATE, STATE - 1); // 1 comes before 9
        script.capture_lent(STATE, STATE - 1, &[0]);
    }
    script.become_state(&valid);
    watches::go_on(script, random, 1);
}

// A call that would mostly be good on the valid state.
fn any_call(script: &mut Script, random: &mut Random, valid: &[u8]) {
    let network = network_of(valid).expect("a valid state");
    let board = random.below(network.boards.len());
    let ready: Vec<usize> = (0..network.slots.len()).filter(|&i| watches::is_ready(&network, i)).collect();
    let slot = if ready.is_empty() { 0 } else { random.pick(&ready) };
    match random.below(5) {
        0 => script.sample(board as u64, random.event() & network.boards[board].mask),
        1 => script.step(slot as u64),
        2 => script.close(),
        3 => {
            let count = random.below(3);
            script.capture(&inside(random, network.union(), count))
        }
        _ => script.ask(),
    };
}

// A few bits changed anywhere in what the state uses, or a byte that is all its own.
pub fn flipped(script: &mut Script, random: &mut Random) {
    let network = if random.percent(50) { moments::moment(random) } else { handed::handed(random, false) };
    let valid = network.bytes();
    let used = valid.iter().rposition(|&byte| byte != 0).unwrap_or(0) + 2;
    let mut state = valid.clone();
    for _ in 0..random.within(1, 2) {
        let place = random.below(used.min(STATE));
        state[place] = if random.percent(60) { state[place] ^ 1 << random.below(8) } else { random.word() as u8 };
    }
    script.become_state(&valid);
    script.become_state(&state);
    for _ in 0..3 {
        any_call(script, random, &valid);
    }
}
