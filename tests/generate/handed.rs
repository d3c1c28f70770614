// Valid states that no watch reaches, but someone might hand over.

use crate::formulas::{formula, TEMPORAL};
use crate::model::check::network_of;
use crate::model::formula::{bytes_of, constant, parse_slot, Formula};
use crate::model::state::{Board, Network, Slot};
use crate::random::Random;
use crate::spots::{spots, Spot};

// A few slots of any shape that the check lets pass, held by one another or by nobody, mostly in the middle of a tick.
pub fn handed(random: &mut Random, large: bool) -> Network {
    passing(random, large, 70)
}

// The same before anything of the tick has come.
pub fn between_ticks(random: &mut Random, large: bool) -> Network {
    passing(random, large, 0)
}

fn passing(random: &mut Random, large: bool, sampled: usize) -> Network {
    loop {
        let network = any_network(random, large, sampled);
        if network_of(&network.bytes()).is_some() {
            return network;
        }
    }
}

// So many in a hundred boards have sampled.
fn any_network(random: &mut Random, large: bool, sampled: usize) -> Network {
    let (boards, propositions) = (random.within(1, 4), random.within(1, 6));
    let mut masks = vec![0; boards];
    for i in 0..propositions {
        masks[random.below(boards)] |= 1 << i;
    }
    let boards: Vec<Board> = masks.into_iter().map(|mask| any_board(random, mask, sampled)).collect();
    let ticks = random.pick(&[0, 1, 1000, u32::MAX - 1, u32::MAX]);
    let count = random.within(1, if large { 20 } else { 6 });
    let mut slots: Vec<Slot> = (0..count).map(|_| any_slot(random, &boards, propositions)).collect();
    if random.percent(20) {
        // looks finished, and is where it is the only slot
        (slots[0].stepped, slots[0].formula) = (false, constant(random.percent(50)));
    }
    for number in 1..count {
        let holder = random.below(number + 1);
        if holder < number {
            hold(random, &mut slots, holder, number);
        }
    }
    let mut nodes = 0;
    for slot in &mut slots {
        slot.start = nodes;
        nodes += slot.formula.nodes() as usize;
        if slot.stepped && random.percent(40) {
            nodes += random.below(5);
        }
    }
    Network { ticks, nodes, boards, slots }
}

fn any_board(random: &mut Random, mask: u64, sampled: usize) -> Board {
    let sampled = random.percent(sampled);
    Board { mask, sample: if sampled { random.word() & mask } else { 0 }, sampled }
}

fn any_slot(random: &mut Random, boards: &[Board], propositions: usize) -> Slot {
    let board = random.below(boards.len());
    let stepped = boards[board].sampled && random.percent(50);
    let nodes = random.within(1, 12);
    let mut bytes = formula(random, nodes, TEMPORAL.over(propositions));
    if !stepped {
        unfold_on(random, &mut bytes, boards[board].mask);
    }
    Slot { board, stepped, start: 0, formula: whole(&bytes) }
}

fn whole(bytes: &[u8]) -> Formula {
    parse_slot(bytes).expect("one whole formula")
}

// Makes of a formula, outside next, an unfolded one over the board's propositions.
fn unfold_on(random: &mut Random, bytes: &mut [u8], mask: u64) {
    for i in 0..bytes.len() {
        let spot = spots(bytes)[i];
        if spot.inside_next {
            continue;
        }
        bytes[i] = match spot.byte {
            6 => random.pick(&[3, 4]),
            7 | 8 => random.pick(&[2, 5]),
            64.. if mask >> (spot.byte - 64) & 1 == 0 => random.below(2) as u8,
            byte => byte,
        };
    }
}

// Puts the place holder of a slot into a leaf of another, if it has one for it and the marks allow it.
fn hold(random: &mut Random, slots: &mut [Slot], holder: usize, held: usize) {
    if slots[holder].stepped && (!slots[held].stepped || slots[held].formula.is_constant()) {
        return;
    }
    let mut bytes = bytes_of(&slots[holder].formula);
    let leaves: Vec<Spot> =
        spots(&bytes).into_iter().filter(|spot| spot.is_leaf() && spot.is_outside() && !spot.is_place_holder()).collect();
    if !leaves.is_empty() {
        bytes[random.pick(&leaves).place] = 128 + held as u8;
        slots[holder].formula = whole(&bytes);
    }
}
