// A network and the state bytes that hold it.

use super::formula::{bytes_of, Formula};
use super::refusal::{demand, Refusal};
use super::splitting::Laid;

pub const STATE: usize = 4768;
pub const MOST_BOARDS: usize = 16;
pub const MOST_SLOTS: usize = 64;
pub const MOST_NODES: usize = 4096;

// Where things are in a state with so many boards and slots.
pub const BOARDS_AT: usize = 16;
pub const BOARD: usize = 17;
pub const SLOT: usize = 6;

pub fn slots_at(boards: usize) -> usize {
    BOARDS_AT + BOARD * boards
}

pub fn nodes_at(boards: usize, slots: usize) -> usize {
    slots_at(boards) + SLOT * slots
}

#[derive(Clone, Debug, PartialEq)]
pub struct Network {
    pub ticks: u32,
    pub nodes: usize, // the total at layout
    pub boards: Vec<Board>,
    pub slots: Vec<Slot>,
}

#[derive(Clone, Debug, PartialEq)]
pub struct Board {
    pub mask: u64,
    pub sample: u64,
    pub sampled: bool,
}

#[derive(Clone, Debug, PartialEq)]
pub struct Slot {
    pub board: usize,
    pub stepped: bool,
    pub start: usize,
    pub formula: Formula,
}

impl Network {
    // A freshly laid network, one stretch after the other, nothing sampled or stepped.
    pub fn of(masks: &[u64], laid: Vec<Laid>, ticks: u32) -> Result<Network, Refusal> {
        demand(laid.len() <= MOST_SLOTS, Refusal::Slots)?;
        let nodes: u64 = laid.iter().map(|slot| slot.formula.nodes()).sum();
        demand(nodes <= MOST_NODES as u64, Refusal::Nodes)?;
        let boards = masks.iter().map(|&mask| Board { mask, sample: 0, sampled: false }).collect();
        let mut slots = Vec::new();
        let mut start = 0;
        for Laid { board, formula } in laid {
            let length = formula.nodes() as usize;
            slots.push(Slot { board, stepped: false, start, formula });
            start += length;
        }
        Ok(Network { ticks, nodes: start, boards, slots })
    }

    // The propositions that the masks cover.
    pub fn union(&self) -> u64 {
        self.boards.iter().fold(0, |union, board| union | board.mask)
    }

    pub fn bytes(&self) -> Vec<u8> {
        let (b, s) = (self.boards.len(), self.slots.len());
        let mut bytes = Vec::new();
        for number in [b, s, self.nodes, BOARDS_AT, slots_at(b), nodes_at(b, s)] {
            bytes.extend((number as u16).to_le_bytes());
        }
        bytes.extend(self.ticks.to_le_bytes());
        for board in &self.boards {
            bytes.extend(board.mask.to_le_bytes());
            bytes.extend(board.sample.to_le_bytes());
            bytes.push(board.sampled.into());
        }
        let formulas: Vec<Vec<u8>> = self.slots.iter().map(|slot| bytes_of(&slot.formula)).collect();
        for (slot, formula) in self.slots.iter().zip(&formulas) {
            bytes.extend([slot.board as u8, slot.stepped.into()]);
            bytes.extend((slot.start as u16).to_le_bytes());
            bytes.extend((formula.len() as u16).to_le_bytes());
        }
        bytes.resize(STATE, 0);
        for (slot, formula) in self.slots.iter().zip(&formulas) {
            let at = nodes_at(b, s) + slot.start;
            bytes[at..at + formula.len()].copy_from_slice(formula);
        }
        bytes
    }
}
