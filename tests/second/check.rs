// The state check, and the network that a state which passes holds.

use super::bytes::{front_and_rest, little_endian};
use super::formula::{
    parse_slot,
    Formula::{self, *},
};
use super::state::{nodes_at, slots_at, Board, Network, Slot, BOARD, BOARDS_AT, MOST_BOARDS, MOST_NODES, MOST_SLOTS, SLOT, STATE};

// The network that a state holds, where the state passes the check.
pub fn network_of(state: &[u8]) -> Option<Network> {
    let network = read_network(state)?;
    (masks_hold(&network) && samples_hold(&network) && numbers_stand_once(&network) && slots_hold(&network)).then_some(network)
}

// The parts of a state, where its bytes are laid out as they should be: header, records, stretches, gaps, rest, whole formulas.
fn read_network(state: &[u8]) -> Option<Network> {
    if state.len() != STATE {
        return None;
    }
    let field = |i: usize| little_endian(&state[2 * i..2 * i + 2]) as usize;
    let (b, s, n) = (field(0), field(1), field(2));
    let counts_hold = (1..=MOST_BOARDS).contains(&b) && (1..=MOST_SLOTS).contains(&s) && (1..=MOST_NODES).contains(&n);
    if !counts_hold || field(3) != BOARDS_AT || field(4) != slots_at(b) || field(5) != nodes_at(b, s) {
        return None;
    }
    let (records, nodes) = state.split_at(nodes_at(b, s));
    let (board_records, slot_records) = records[BOARDS_AT..].split_at(BOARD * b);
    let (nodes, rest) = nodes.split_at(n);
    let boards = board_records.chunks(BOARD).map(read_board).collect::<Option<Vec<Board>>>()?;
    let slots = read_slots(&slot_records.chunks(SLOT).collect::<Vec<&[u8]>>(), nodes, b)?;
    let ticks = little_endian(&state[12..16]) as u32;
    is_zero(rest).then_some(Network { ticks, nodes: n, boards, slots })
}

fn is_zero(bytes: &[u8]) -> bool {
    bytes.iter().all(|&byte| byte == 0)
}

fn read_flag(byte: u8) -> Option<bool> {
    match byte {
        0 => Some(false),
        1 => Some(true),
        _ => None,
    }
}

fn read_board(record: &[u8]) -> Option<Board> {
    let (mask, sample) = (little_endian(&record[..8]), little_endian(&record[8..16]));
    Some(Board { mask, sample, sampled: read_flag(record[16])? })
}

fn read_slots(records: &[&[u8]], nodes: &[u8], boards: usize) -> Option<Vec<Slot>> {
    let start = |slot: usize| records.get(slot).map_or(nodes.len(), |record| little_endian(&record[2..4]) as usize);
    if start(0) != 0 {
        return None;
    }
    (0..records.len()).map(|i| read_slot(records[i], start(i), nodes.get(start(i)..start(i + 1))?, boards)).collect()
}

// A slot, its stretch given: its formula stands in front, zeros follow, and while it is unstepped there are none.
fn read_slot(record: &[u8], start: usize, stretch: &[u8], boards: usize) -> Option<Slot> {
    let (board, stepped) = (usize::from(record[0]), read_flag(record[1])?);
    let length = little_endian(&record[4..6]) as usize;
    let (formula, gap) = front_and_rest(stretch, length)?;
    let fills = stepped || gap.is_empty();
    if board >= boards || length == 0 || !fills || !is_zero(gap) {
        return None;
    }
    Some(Slot { board, stepped, start, formula: parse_slot(formula)? })
}

// The masks are disjoint, and their union is the lowest 1 to 64 bits.
fn masks_hold(network: &Network) -> bool {
    let holders = |i: u32| network.boards.iter().filter(|board| board.mask >> i & 1 == 1).count();
    let propositions = (0..64).take_while(|&i| holders(i) == 1).count() as u32;
    propositions >= 1 && (propositions..64).all(|i| holders(i) == 0)
}

fn samples_hold(network: &Network) -> bool {
    network.boards.iter().all(|board| board.sample & !board.mask == 0 && (board.sampled || board.sample == 0))
}

// The slots held by place holders outside next and temporal operators.
fn held_by(f: &Formula) -> Vec<usize> {
    fn collect(f: &Formula, held: &mut Vec<usize>) {
        match f {
            PlaceHolder(number) => held.push(*number),
            Next(_) | Until(..) | Eventually(_) | Always(_) => {}
            _ => f.operands().for_each(|operand| collect(operand, held)),
        }
    }
    let mut held = Vec::new();
    collect(f, &mut held);
    held
}

// Whether no place holder stands inside next or a temporal operator.
fn held_outside(f: &Formula) -> bool {
    match f {
        Next(_) | Until(..) | Eventually(_) | Always(_) => f.all(&|node| !matches!(node, PlaceHolder(_))),
        _ => f.operands().all(held_outside),
    }
}

fn numbers_stand_once(network: &Network) -> bool {
    let mut numbers: Vec<usize> = network.slots.iter().flat_map(|slot| held_by(&slot.formula)).collect();
    numbers.sort();
    numbers.windows(2).all(|pair| pair[0] != pair[1])
}

fn slots_hold(network: &Network) -> bool {
    (0..network.slots.len()).all(|i| slot_holds(network, i))
}

fn slot_holds(network: &Network, number: usize) -> bool {
    let slot = &network.slots[number];
    let board = &network.boards[slot.board];
    let union = network.union();
    let held = held_by(&slot.formula);
    let covered = slot.formula.all(&|node| !matches!(node, Proposition(i) if union >> i & 1 == 0));
    let held_above = held.iter().all(|&other| other > number && other < network.slots.len());
    if !covered || !held_outside(&slot.formula) || !held_above {
        return false;
    }
    let settled = |other: usize| network.slots[other].stepped && !network.slots[other].formula.is_constant();
    let lone_foreign = matches!(slot.formula, Proposition(i) if board.mask >> i & 1 == 0);
    if slot.stepped {
        board.sampled && held.iter().all(|&other| settled(other)) && !lone_foreign
    } else {
        is_unfolded_on(&slot.formula, board.mask)
    }
}

// Unfolded, with, outside next, only propositions of the mask.
fn is_unfolded_on(f: &Formula, mask: u64) -> bool {
    match f {
        Until(..) | Eventually(_) | Always(_) => false,
        Proposition(i) => mask >> i & 1 == 1,
        Next(_) => true,
        _ => f.operands().all(|operand| is_unfolded_on(operand, mask)),
    }
}
