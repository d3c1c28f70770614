// Merging: of the slots that were laid, those with equal nodes on one board become one, those that only pass another's answer on are left
// out, and the rest are numbered anew. There may be thousands of slots before, and millions of nodes.

use super::formula::Formula::{self, *};
use super::formula::{and, not, or};
use super::splitting::Laid;
use std::collections::HashMap;

// Slot 0 is the root, before and after.
pub fn merged(laid: &[Laid]) -> Vec<Laid> {
    let mut merging = Merging { laid, places: vec![None; laid.len()], known: HashMap::new(), kept: Vec::new() };
    let root = Laid { board: laid[0].board, formula: merging.settled(&laid[0].formula) };
    numbered(root, &merging.kept)
}

// The slots kept so far. Each stands once, behind all that it holds: its place holders are places in this list.
struct Merging<'a> {
    laid: &'a [Laid],
    places: Vec<Option<usize>>,              // of what each slot that was laid has become
    known: HashMap<(usize, Formula), usize>, // the place for a board and nodes
    kept: Vec<Laid>,
}

impl Merging<'_> {
    // The place of what a slot that somebody holds becomes.
    fn place_of(&mut self, number: usize) -> usize {
        if let Some(place) = self.places[number] {
            return place;
        }
        let laid = self.laid;
        let Laid { board, formula } = &laid[number];
        let place = match self.settled(formula) {
            PlaceHolder(held) => held,
            nodes => self.place_of_equal(*board, nodes),
        };
        self.places[number] = Some(place);
        place
    }

    // A slot's nodes, when those that it holds have become what they become.
    fn settled(&mut self, formula: &Formula) -> Formula {
        renamed(formula, &mut |number| self.place_of(number))
    }

    // The place of the one slot with these nodes on this board.
    fn place_of_equal(&mut self, board: usize, nodes: Formula) -> usize {
        let place = *self.known.entry((board, nodes.clone())).or_insert(self.kept.len());
        if place == self.kept.len() {
            self.kept.push(Laid { board, formula: nodes });
        }
        place
    }
}

// The same formula with other place holders, left before right. There are none below next.
fn renamed(f: &Formula, rename: &mut dyn FnMut(usize) -> usize) -> Formula {
    match f {
        PlaceHolder(number) => PlaceHolder(rename(*number)),
        Not(g) => not(renamed(g, rename)),
        And(g, h) => {
            let left = renamed(g, rename);
            and(left, renamed(h, rename))
        }
        Or(g, h) => {
            let left = renamed(g, rename);
            or(left, renamed(h, rename))
        }
        _ => f.clone(),
    }
}

// What place holders of a slot stand for, left to right.
fn held_by(f: &Formula) -> Vec<usize> {
    let mut held = Vec::new();
    renamed(f, &mut |number| {
        held.push(number);
        number
    });
    held
}

// The root, then the kept slots by their longest chains of holders and, where these are equal, as they are first met.
fn numbered(root: Laid, kept: &[Laid]) -> Vec<Laid> {
    let held: Vec<Vec<usize>> = kept.iter().map(|slot| held_by(&slot.formula)).collect();
    let chains = chains(&held_by(&root.formula), &held);
    let mut order = Vec::new();
    meet(&held_by(&root.formula), &held, &mut vec![false; kept.len()], &mut order);
    order.sort_by_key(|&place| chains[place]); // keeps the order of those that are equal
    let mut numbers = vec![0; kept.len()];
    for (number, &place) in (1..).zip(&order) {
        numbers[place] = number;
    }
    let slots = std::iter::once(&root).chain(order.iter().map(|&place| &kept[place]));
    slots.map(|slot| Laid { board: slot.board, formula: renamed(&slot.formula, &mut |place| numbers[place]) }).collect()
}

// How many holders the longest chain from the root has for each kept slot. Who holds a slot stands behind it.
fn chains(held_by_root: &[usize], held: &[Vec<usize>]) -> Vec<usize> {
    let mut chains = vec![0; held.len()];
    held_by_root.iter().for_each(|&place| chains[place] = 1);
    for holder in (0..held.len()).rev() {
        for &place in &held[holder] {
            chains[place] = chains[place].max(chains[holder] + 1);
        }
    }
    chains
}

// Adds what is met below a slot for the first time: each slot it holds, and what is below that before the next.
fn meet(below: &[usize], held: &[Vec<usize>], met: &mut [bool], order: &mut Vec<usize>) {
    for &place in below {
        if !met[place] {
            met[place] = true;
            order.push(place);
            meet(&held[place], held, met, order);
        }
    }
}
