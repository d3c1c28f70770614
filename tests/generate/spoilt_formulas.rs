// States in which one clause of the state check about the slots' formulas and marks fails. Each function makes such a state out of
// a valid one, or none where that one has no place for it.

use crate::formulas::no_code;
use crate::model::formula::{bytes_of, Formula};
use crate::model::state::{nodes_at, slots_at, Network, Slot, SLOT};
use crate::random::Random;
use crate::spots::{spots, Spot};
use std::rc::Rc;

// A node in its slot.
#[derive(Clone, Copy)]
struct Node {
    slot: usize,
    spot: Spot,
}

// Any node that is as wanted.
fn any_node(network: &Network, random: &mut Random, wanted: impl Fn(&Slot, &Node) -> bool) -> Option<Node> {
    let of_slot = |slot: usize| spots(&bytes_of(&network.slots[slot].formula)).into_iter().map(move |spot| Node { slot, spot });
    let nodes: Vec<Node> = (0..network.slots.len()).flat_map(of_slot).filter(|node| wanted(&network.slots[node.slot], node)).collect();
    (!nodes.is_empty()).then(|| random.pick(&nodes))
}

// A leaf that is no place holder.
fn is_plain_leaf(spot: &Spot) -> bool {
    spot.is_leaf() && !spot.is_place_holder()
}

// A leaf of an unstepped slot where a place holder might stand.
fn is_room(slot: &Slot, node: &Node) -> bool {
    !slot.stepped && is_plain_leaf(&node.spot) && node.spot.is_outside()
}

// The state with other bytes for some nodes.
fn with(network: &Network, changes: &[(Node, u8)]) -> Option<Vec<u8>> {
    let mut state = network.bytes();
    let at = nodes_at(network.boards.len(), network.slots.len());
    for (node, byte) in changes {
        state[at + network.slots[node.slot].start + node.spot.place] = *byte;
    }
    Some(state)
}

fn mask_of(network: &Network, slot: &Slot) -> u64 {
    network.boards[slot.board].mask
}

// A proposition out of these.
fn any_proposition(random: &mut Random, bits: u64) -> Option<u8> {
    let propositions: Vec<u8> = (0..64).filter(|i| bits >> i & 1 == 1).map(|i| 64 + i).collect();
    (!propositions.is_empty()).then(|| random.pick(&propositions))
}

// ---- One whole formula over covered propositions

pub fn byte_without_code(network: &Network, random: &mut Random) -> Option<Vec<u8>> {
    let node = any_node(network, random, |_, _| true)?;
    with(network, &[(node, no_code(random))])
}

// The last node owes operands.
pub fn formula_too_short(network: &Network, random: &mut Random) -> Option<Vec<u8>> {
    let node = any_node(network, random, |slot, node| node.spot.place as u64 + 1 == slot.formula.nodes())?;
    with(network, &[(node, random.within(2, 8) as u8)])
}

// An operator with one operand less.
pub fn formula_too_long(network: &Network, random: &mut Random) -> Option<Vec<u8>> {
    let node = any_node(network, random, |_, node| !node.spot.is_leaf())?;
    let fewer = if matches!(node.spot.byte, 3 | 4 | 6) { random.pick(&[2, 5]) } else { random.below(2) as u8 };
    with(network, &[(node, fewer)])
}

pub fn uncovered(network: &Network, random: &mut Random) -> Option<Vec<u8>> {
    let wanted = |slot: &Slot, node: &Node| is_plain_leaf(&node.spot) && (node.spot.inside_next || slot.stepped && node.spot.place > 0);
    let node = any_node(network, random, wanted)?;
    with(network, &[(node, any_proposition(random, !network.union())?)])
}

// ---- Place holders

// Moves a place holder to a leaf of its slot below next.
pub fn place_holder_inside_next(network: &Network, random: &mut Random) -> Option<Vec<u8>> {
    let holds = |slot: &Slot| spots(&bytes_of(&slot.formula)).iter().any(Spot::is_place_holder);
    let below_next = |spot: &Spot| is_plain_leaf(spot) && spot.inside_next && !spot.inside_temporal;
    let leaf = any_node(network, random, |slot, node| holds(slot) && below_next(&node.spot))?;
    let holder = any_node(network, random, |_, node| node.slot == leaf.slot && node.spot.is_place_holder())?;
    with(network, &[(holder, 1), (leaf, holder.spot.byte)])
}

// Makes a stepped slot that holds another something else that holds it, in no more nodes than it had.
fn held_as(network: &Network, random: &mut Random, make: fn(Rc<Formula>) -> Formula) -> Option<Vec<u8>> {
    let holder = any_node(network, random, |slot, node| slot.stepped && slot.formula.nodes() > 2 && node.spot.is_place_holder())?;
    let mut network = network.clone();
    network.slots[holder.slot].formula = make(Rc::new(Formula::PlaceHolder(usize::from(holder.spot.byte) - 128)));
    Some(network.bytes())
}

pub fn place_holder_inside_until(network: &Network, random: &mut Random) -> Option<Vec<u8>> {
    if random.percent(50) {
        held_as(network, random, |held| Formula::Until(held, Rc::new(Formula::False)))
    } else {
        held_as(network, random, |held| Formula::Until(Rc::new(Formula::True), held))
    }
}

pub fn place_holder_inside_eventually(network: &Network, random: &mut Random) -> Option<Vec<u8>> {
    held_as(network, random, Formula::Eventually)
}

pub fn place_holder_inside_always(network: &Network, random: &mut Random) -> Option<Vec<u8>> {
    held_as(network, random, Formula::Always)
}

// Puts a slot's place holder at a node, and a constant where it stood before.
fn holding(network: &Network, random: &mut Random, node: Node, held: usize) -> Option<Vec<u8>> {
    let byte = 128 + held as u8;
    let old = any_node(network, random, |_, node| node.spot.byte == byte).map(|old| (old, 1));
    with(network, &old.into_iter().chain([(node, byte)]).collect::<Vec<_>>())
}

pub fn own_number(network: &Network, random: &mut Random) -> Option<Vec<u8>> {
    let node = any_node(network, random, is_room)?;
    holding(network, random, node, node.slot)
}

pub fn lower_number(network: &Network, random: &mut Random) -> Option<Vec<u8>> {
    let node = any_node(network, random, |slot, node| node.slot > 0 && is_room(slot, node))?;
    let held = random.below(node.slot);
    holding(network, random, node, held)
}

pub fn number_past_the_slots(network: &Network, random: &mut Random) -> Option<Vec<u8>> {
    let node = any_node(network, random, is_room)?;
    let slots = network.slots.len();
    let held = random.pick(&[slots, slots, slots + 1, 63]).clamp(slots, 63.max(slots));
    (held < 64).then(|| with(network, &[(node, 128 + held as u8)]))?
}

// A second place holder of a held slot, in a slot that is wanted beside the first one's.
fn twice(network: &Network, random: &mut Random, wanted: impl Fn(usize, usize) -> bool) -> Option<Vec<u8>> {
    let first = any_node(network, random, |_, node| node.spot.is_place_holder())?;
    let held = usize::from(first.spot.byte) - 128;
    let second = any_node(network, random, |slot, node| node.slot < held && wanted(first.slot, node.slot) && is_room(slot, node))?;
    with(network, &[(second, first.spot.byte)])
}

pub fn number_twice_in_a_slot(network: &Network, random: &mut Random) -> Option<Vec<u8>> {
    twice(network, random, |first, second| first == second)
}

pub fn number_twice_in_two_slots(network: &Network, random: &mut Random) -> Option<Vec<u8>> {
    twice(network, random, |first, second| first != second)
}

// ---- Unstepped slots

// An operator outside next that is one of these becomes the only temporal one there, over nothing that is held or foreign.
fn made_temporal(network: &Network, random: &mut Random, operators: &[u8], temporal: u8) -> Option<Vec<u8>> {
    let wanted = |slot: &Slot, node: &Node| !slot.stepped && !node.spot.inside_next && operators.contains(&node.spot.byte);
    let node = any_node(network, random, wanted)?;
    let slot = &network.slots[node.slot];
    let mut bytes = bytes_of(&slot.formula);
    bytes[node.spot.place] = temporal;
    let mask = mask_of(network, slot);
    let is_foreign = |spot: &Spot| mask >> (spot.byte - 64) & 1 == 0;
    let otherwise_good = |spot: &Spot| match spot.byte {
        6..=8 => spot.inside_next || spot.place == node.spot.place,
        64..=127 => spot.inside_next || !is_foreign(spot),
        _ => spot.is_outside() || !spot.is_place_holder(),
    };
    spots(&bytes).iter().all(otherwise_good).then(|| with(network, &[(node, temporal)]))?
}

pub fn until_not_unfolded(network: &Network, random: &mut Random) -> Option<Vec<u8>> {
    made_temporal(network, random, &[3, 4], 6)
}

pub fn eventually_not_unfolded(network: &Network, random: &mut Random) -> Option<Vec<u8>> {
    made_temporal(network, random, &[2, 5], 7)
}

pub fn always_not_unfolded(network: &Network, random: &mut Random) -> Option<Vec<u8>> {
    made_temporal(network, random, &[2, 5], 8)
}

pub fn foreign_outside_next(network: &Network, random: &mut Random) -> Option<Vec<u8>> {
    let node = any_node(network, random, is_room)?;
    let foreign = network.union() & !mask_of(network, &network.slots[node.slot]);
    with(network, &[(node, any_proposition(random, foreign)?)])
}

// ---- Stepped slots

// How the slots that a slot holds stand.
#[derive(PartialEq)]
enum Held {
    Unstepped,
    Constant,
    Settled,
}

fn held_by(network: &Network, slot: &Slot) -> Vec<Held> {
    let stands = |slot: &Slot| match slot {
        Slot { stepped: false, .. } => Held::Unstepped,
        Slot { formula, .. } if formula.is_constant() => Held::Constant,
        _ => Held::Settled,
    };
    let place_holders = spots(&bytes_of(&slot.formula)).into_iter().filter(Spot::is_place_holder);
    place_holders.map(|spot| stands(&network.slots[usize::from(spot.byte) - 128])).collect()
}

// Marks an unstepped slot that is as wanted as stepped.
fn marked(network: &Network, random: &mut Random, wanted: impl Fn(&Slot, bool, &[Held]) -> bool) -> Option<Vec<u8>> {
    let is_wanted = |slot: &Slot| !slot.stepped && wanted(slot, network.boards[slot.board].sampled, &held_by(network, slot));
    let slots: Vec<usize> = (0..network.slots.len()).filter(|&i| is_wanted(&network.slots[i])).collect();
    if slots.is_empty() {
        return None;
    }
    let mut state = network.bytes();
    state[slots_at(network.boards.len()) + SLOT * random.pick(&slots) + 1] = 1;
    Some(state)
}

pub fn stepped_on_unsampled_board(network: &Network, random: &mut Random) -> Option<Vec<u8>> {
    marked(network, random, |_, sampled, held| !sampled && held.iter().all(|held| *held == Held::Settled))
}

pub fn stepped_holding_unstepped(network: &Network, random: &mut Random) -> Option<Vec<u8>> {
    marked(network, random, |_, sampled, held| sampled && held.contains(&Held::Unstepped) && !held.contains(&Held::Constant))
}

pub fn stepped_holding_constant(network: &Network, random: &mut Random) -> Option<Vec<u8>> {
    marked(network, random, |_, sampled, held| sampled && held.contains(&Held::Constant) && !held.contains(&Held::Unstepped))
}

pub fn lone_foreign_proposition(network: &Network, random: &mut Random) -> Option<Vec<u8>> {
    let stepped: Vec<usize> = (0..network.slots.len()).filter(|&i| network.slots[i].stepped).collect();
    if stepped.is_empty() {
        return None;
    }
    let mut network = network.clone();
    let slot = random.pick(&stepped);
    let foreign = network.union() & !mask_of(&network, &network.slots[slot]);
    network.slots[slot].formula = Formula::Proposition(any_proposition(random, foreign)? - 64);
    Some(network.bytes())
}
