// States in which one clause of the state check about header, boards, slot records, gaps or rest fails. Each function makes such
// a state out of a valid one, or none where that one has no place for it.

use crate::model::formula::Formula;
use crate::model::state::{nodes_at, slots_at, Board, Network, Slot, BOARD, BOARDS_AT, SLOT, STATE};
use crate::random::Random;

fn pick<T: Clone>(random: &mut Random, choices: Vec<T>) -> Option<T> {
    (!choices.is_empty()).then(|| choices[random.below(choices.len())].clone())
}

// ---- The header

fn with_field(network: &Network, random: &mut Random, field: usize, most: u16) -> Option<Vec<u8>> {
    let mut state = network.bytes();
    let good = u16::from_le_bytes([state[2 * field], state[2 * field + 1]]);
    let wrong = random.pick(&[0, 1, good.wrapping_sub(1), good + 1, good + 1, most + 1, good ^ 0x0100, good | 0x8000, 0xffff]);
    state[2 * field..2 * field + 2].copy_from_slice(&wrong.to_le_bytes());
    Some(state)
}

pub fn boards_count(network: &Network, random: &mut Random) -> Option<Vec<u8>> {
    with_field(network, random, 0, 16)
}

pub fn slots_count(network: &Network, random: &mut Random) -> Option<Vec<u8>> {
    with_field(network, random, 1, 64)
}

pub fn nodes_count(network: &Network, random: &mut Random) -> Option<Vec<u8>> {
    with_field(network, random, 2, 4096)
}

pub fn boards_offset(network: &Network, random: &mut Random) -> Option<Vec<u8>> {
    with_field(network, random, 3, 17)
}

pub fn slots_offset(network: &Network, random: &mut Random) -> Option<Vec<u8>> {
    with_field(network, random, 4, 288)
}

pub fn nodes_offset(network: &Network, random: &mut Random) -> Option<Vec<u8>> {
    with_field(network, random, 5, 672)
}

// The state's bytes, where the network has room in them.
fn fitting(network: &Network) -> Option<Vec<u8>> {
    (nodes_at(network.boards.len(), network.slots.len()) + network.nodes <= STATE).then(|| network.bytes())
}

// A count past its range with all else in order.
pub fn seventeen_boards(network: &Network, _: &mut Random) -> Option<Vec<u8>> {
    let mut network = network.clone();
    network.boards.resize(17, Board { mask: 0, sample: 0, sampled: false });
    fitting(&network)
}

pub fn sixty_five_slots(network: &Network, random: &mut Random) -> Option<Vec<u8>> {
    let mut network = network.clone();
    while network.slots.len() < 65 {
        let board = random.below(network.boards.len());
        network.slots.push(Slot { board, stepped: false, start: network.nodes, formula: Formula::True });
        network.nodes += 1;
    }
    fitting(&network)
}

pub fn too_many_nodes(network: &Network, _: &mut Random) -> Option<Vec<u8>> {
    let mut network = network.clone();
    network.nodes = 4097;
    network.slots.last()?.stepped.then(|| fitting(&network))?
}

// ---- Boards

fn with_board(network: &Network, number: usize, change: impl Fn(&mut Board)) -> Option<Vec<u8>> {
    let mut network = network.clone();
    change(&mut network.boards[number]);
    Some(network.bytes())
}

fn any_board(network: &Network, random: &mut Random, wanted: impl Fn(&Board) -> bool) -> Option<usize> {
    pick(random, (0..network.boards.len()).filter(|&i| wanted(&network.boards[i])).collect())
}

fn any_bit(random: &mut Random, bits: u64) -> Option<u64> {
    pick(random, (0..64).map(|i| 1 << i).filter(|bit| bits & bit != 0).collect())
}

pub fn masks_overlap(network: &Network, random: &mut Random) -> Option<Vec<u8>> {
    let board = any_board(network, random, |board| board.mask != network.union())?;
    let bit = any_bit(random, network.union() & !network.boards[board].mask)?;
    with_board(network, board, |board| board.mask |= bit)
}

// A proposition past the next one: that one is the hole.
pub fn masks_with_a_hole(network: &Network, random: &mut Random) -> Option<Vec<u8>> {
    let board = any_board(network, random, |_| true)?;
    let bit = any_bit(random, !(network.union() << 1 | 1))?;
    with_board(network, board, |board| board.mask |= bit)
}

// Ones for over 64 bits: a sum in eight bits is 0 again with four boards.
pub fn masks_over_64(network: &Network, _: &mut Random) -> Option<Vec<u8>> {
    let mut network = network.clone();
    network.boards.iter_mut().for_each(|board| board.mask = u64::MAX);
    (network.boards.len() > 1).then(|| network.bytes())
}

pub fn masks_empty(network: &Network, _: &mut Random) -> Option<Vec<u8>> {
    let mut network = network.clone();
    network.boards.iter_mut().for_each(|board| (board.mask, board.sample) = (0, 0));
    let no_proposition = |slot: &Slot| slot.formula.all(&|node| !matches!(node, Formula::Proposition(_)));
    network.slots.iter().all(no_proposition).then(|| network.bytes())
}

pub fn sample_outside(network: &Network, random: &mut Random) -> Option<Vec<u8>> {
    let board = any_board(network, random, |board| board.sampled && board.mask != u64::MAX)?;
    let bit = any_bit(random, !network.boards[board].mask)?;
    with_board(network, board, |board| board.sample |= bit)
}

pub fn sample_unsampled(network: &Network, random: &mut Random) -> Option<Vec<u8>> {
    let board = any_board(network, random, |board| !board.sampled && board.mask != 0)?;
    let bit = any_bit(random, network.boards[board].mask)?;
    with_board(network, board, |board| board.sample = bit)
}

fn no_flag(random: &mut Random) -> u8 {
    random.pick(&[2, 3, 128, 129, 254, 255])
}

fn with_sampled(network: &Network, random: &mut Random, sampled: bool) -> Option<Vec<u8>> {
    let board = any_board(network, random, |board| board.sampled == sampled)?;
    let mut state = network.bytes();
    state[BOARDS_AT + BOARD * board + 16] = no_flag(random);
    Some(state)
}

// On a board that has sampled any mark but 0 might be taken for 1, on another any but 1 for 0.
pub fn mark_of_sampled(network: &Network, random: &mut Random) -> Option<Vec<u8>> {
    with_sampled(network, random, true)
}

pub fn mark_of_unsampled(network: &Network, random: &mut Random) -> Option<Vec<u8>> {
    with_sampled(network, random, false)
}

// ---- Slot records

fn slot_at(network: &Network, slot: usize) -> usize {
    slots_at(network.boards.len()) + SLOT * slot
}

fn any_slot(network: &Network, random: &mut Random, wanted: impl Fn(usize) -> bool) -> Option<usize> {
    pick(random, (0..network.slots.len()).filter(|&i| wanted(i)).collect())
}

fn put_16(state: &mut [u8], at: usize, value: usize) {
    state[at..at + 2].copy_from_slice(&(value as u16).to_le_bytes());
}

fn length(network: &Network, slot: usize) -> usize {
    network.slots[slot].formula.nodes() as usize
}

fn stretch(network: &Network, slot: usize) -> std::ops::Range<usize> {
    let at = nodes_at(network.boards.len(), network.slots.len());
    let end = network.slots.get(slot + 1).map_or(network.nodes, |next| next.start);
    at + network.slots[slot].start..at + end
}

pub fn slot_board(network: &Network, random: &mut Random) -> Option<Vec<u8>> {
    let mut state = network.bytes();
    let slot = random.below(network.slots.len());
    let boards = network.boards.len() as u8;
    state[slot_at(network, slot)] = if random.percent(70) { boards } else { random.pick(&[boards + 1, 128, 255]) };
    Some(state)
}

fn with_stepped(network: &Network, random: &mut Random, stepped: bool) -> Option<Vec<u8>> {
    let slot = any_slot(network, random, |slot| network.slots[slot].stepped == stepped)?;
    let mut state = network.bytes();
    state[slot_at(network, slot) + 1] = no_flag(random);
    Some(state)
}

pub fn mark_of_stepped(network: &Network, random: &mut Random) -> Option<Vec<u8>> {
    with_stepped(network, random, true)
}

pub fn mark_of_unstepped(network: &Network, random: &mut Random) -> Option<Vec<u8>> {
    with_stepped(network, random, false)
}

// Slot 0 one byte further on, inside its own stretch.
pub fn first_start(network: &Network, _: &mut Random) -> Option<Vec<u8>> {
    let mut state = network.bytes();
    let stretch = stretch(network, 0);
    put_16(&mut state, slot_at(network, 0) + 2, 1);
    state[stretch.clone()].rotate_right(1);
    (network.slots[0].stepped && length(network, 0) < stretch.len()).then_some(state)
}

pub fn start(network: &Network, random: &mut Random) -> Option<Vec<u8>> {
    let slot = any_slot(network, random, |slot| slot > 0)?;
    let good = network.slots[slot].start;
    let before = network.slots[slot - 1].start;
    let mut state = network.bytes();
    put_16(
        &mut state,
        slot_at(network, slot) + 2,
        random.pick(&[0, before, good - 1, good + 1, good + 1, good ^ 0x0100, network.nodes, 0xffff]),
    );
    Some(state)
}

pub fn length_zero(network: &Network, random: &mut Random) -> Option<Vec<u8>> {
    let mut state = network.bytes();
    put_16(&mut state, slot_at(network, random.below(network.slots.len())) + 4, 0);
    Some(state)
}

// A stepped slot of nots over its whole stretch, and then one node more: the next slot's first, or the rest's first zero.
pub fn length_over(network: &Network, random: &mut Random) -> Option<Vec<u8>> {
    let mut state = network.bytes();
    let is_leaf_behind = |slot: usize| state.get(stretch(network, slot).end).map_or(false, |byte| matches!(byte, 0 | 1 | 64..=127));
    let slot = any_slot(network, random, |slot| network.slots[slot].stepped && is_leaf_behind(slot))?;
    let stretch = stretch(network, slot);
    put_16(&mut state, slot_at(network, slot) + 4, stretch.len() + 1);
    state[stretch].fill(2);
    Some(state)
}

pub fn length_wrong(network: &Network, random: &mut Random) -> Option<Vec<u8>> {
    let mut state = network.bytes();
    let slot = random.below(network.slots.len());
    let good = length(network, slot);
    put_16(&mut state, slot_at(network, slot) + 4, random.pick(&[good - 1, good + 1, good ^ 0x0100, good | 0x8000, 0xffff]));
    Some(state)
}

// A constant or a proposition of its board and zeros, as if the slot were stepped.
pub fn unstepped_short(network: &Network, random: &mut Random) -> Option<Vec<u8>> {
    let slot = any_slot(network, random, |slot| !network.slots[slot].stepped && length(network, slot) > 1)?;
    let mask = network.boards[network.slots[slot].board].mask;
    let leaf = if mask != 0 && random.percent(30) { 64 + mask.trailing_zeros() as u8 } else { random.below(2) as u8 };
    let mut state = network.bytes();
    let stretch = stretch(network, slot);
    put_16(&mut state, slot_at(network, slot) + 4, 1);
    state[stretch.clone()].fill(0);
    state[stretch.start] = leaf;
    Some(state)
}

// ---- Gaps and rest

fn with_byte(network: &Network, random: &mut Random, places: std::ops::Range<usize>) -> Option<Vec<u8>> {
    if places.is_empty() {
        return None;
    }
    let between = places.start + random.below(places.len());
    let place = random.pick(&[places.start, places.end - 1, between]);
    let mut state = network.bytes();
    state[place] = random.pick(&[1, 2, 64, 128, 255]);
    Some(state)
}

pub fn gap(network: &Network, random: &mut Random) -> Option<Vec<u8>> {
    let slot = any_slot(network, random, |slot| length(network, slot) < stretch(network, slot).len())?;
    let stretch = stretch(network, slot);
    with_byte(network, random, stretch.start + length(network, slot)..stretch.end)
}

pub fn rest(network: &Network, random: &mut Random) -> Option<Vec<u8>> {
    with_byte(network, random, stretch(network, network.slots.len() - 1).end..STATE)
}
