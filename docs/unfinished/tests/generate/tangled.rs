// Valid states whose next close merges: slots that are held several times, in one slot and by several, that are equal, on one board and
// on two, that only pass on, one behind the other, or that nobody holds.

use crate::formulas::{formula, TEMPORAL};
use crate::model::check::network_of;
use crate::model::formula::parse_slot;
use crate::model::state::{Board, Network, Slot};
use crate::random::Random;

const PROPOSITIONS: usize = 6;

// All boards have sampled and all slots are stepped.
pub fn stepped(random: &mut Random, large: bool) -> Network {
    passing(random, large, true)
}

// Nothing of the tick has come.
pub fn between_ticks(random: &mut Random, large: bool) -> Network {
    passing(random, large, false)
}

fn passing(random: &mut Random, large: bool, stepped: bool) -> Network {
    loop {
        let network = any_network(random, large, stepped);
        if network_of(&network.bytes()).is_some() {
            return network;
        }
    }
}

// Made from the last slot to the first, since a place holder stands for a later one.
fn any_network(random: &mut Random, large: bool, stepped: bool) -> Network {
    let count = if large { random.pick(&[40, 63, 64, 64]) } else { random.within(2, 14) };
    let boards = random.within(1, 3);
    let mut masks = vec![0u64; boards];
    for i in 0..PROPOSITIONS {
        masks[i % boards] |= 1 << i;
    }
    let nobody = random.pick(&[0, 0, 10]);
    let alike = if count > 3 && random.percent(60) { 3 } else { 0 }; // so many of the last slots, on the boards in turn
    let twin = if stepped { vec![5, 7, 64] } else { vec![5, 5, 7, 64] };
    let mut made: Vec<(usize, Vec<u8>)> = Vec::new();
    for number in (0..count).rev() {
        let board = random.below(boards);
        let held = Held { first: number + 1, count: count - number - 1, nobody };
        let slot = match random.below(100) {
            _ if number + alike >= count => (number % boards, twin.clone()),
            _ if held.count == 0 => (board, leaf(random, masks[board], stepped)),
            _ if number == 0 && alike > 0 => {
                let last = 127 + count as u8;
                (board, [vec![3, last, 3, last - 1], holder(random, &held, masks[board], stepped)].concat())
            }
            0..=79 if number == 0 => (board, root(random, &held)),
            0..=29 => (board, leaf(random, masks[board], stepped)),
            30..=54 => {
                let (other, bytes) = random.pick(&[&made[0], &made[made.len() - 1], &made[made.len() - 1]]);
                (random.pick(&[board, (other + 1) % boards, *other]), bytes.clone())
            }
            _ => (board, holder(random, &held, masks[board], stepped)),
        };
        made.push(slot);
    }
    made.reverse();
    let mut nodes = 0;
    let mut slots = Vec::new();
    for (board, bytes) in made {
        slots.push(Slot { board, stepped, start: nodes, formula: parse_slot(&bytes).expect("one whole formula") });
        nodes += bytes.len();
    }
    let sampled = |mask: u64| if stepped { mask & 5 } else { 0 };
    let boards = masks.into_iter().map(|mask| Board { mask, sample: sampled(mask), sampled: stepped }).collect();
    Network { ticks: random.pick(&[0, 1, 1000]), nodes, boards, slots }
}

// The slots that may be held: so many from the first on. So many in a hundred are not, though others around them are.
struct Held {
    first: usize,
    count: usize,
    nobody: usize,
}

impl Held {
    // Mostly one that stands near, so that chains are long.
    fn pick(&self, random: &mut Random) -> u8 {
        let near = self.count.min(if random.percent(70) { 3 } else { self.count });
        let skipped = usize::from(near > 1 && random.percent(self.nobody));
        (128 + self.first + skipped + random.below(near - skipped)) as u8
    }

    // The one behind this, where there is one.
    fn beside(&self, one: u8) -> u8 {
        (usize::from(one) + 1).min(127 + self.first + self.count) as u8
    }
}

// A few nodes of which many slots have the same.
fn leaf(random: &mut Random, mask: u64, stepped: bool) -> Vec<u8> {
    let own = 64 + if mask == 0 { 0 } else { mask.trailing_zeros() as u8 };
    let any = 64 + random.below(2) as u8;
    match random.below(8) {
        0 | 1 if stepped => vec![7, any],
        2 if stepped => vec![6, any, 65],
        3 if stepped => {
            let nodes = random.within(2, 9);
            formula(random, nodes, TEMPORAL.over(PROPOSITIONS))
        }
        0 | 1 => vec![5, 7, any],
        2 => vec![3, 1, 5, 8, any],
        4 => vec![2, own],
        5 => vec![4, own, 5, 7, any],
        6 => vec![3, own, 5, 8, any],
        _ => vec![own],
    }
}

// Something that holds several slots, two that stand side by side among them.
fn root(random: &mut Random, held: &Held) -> Vec<u8> {
    let side = held.pick(random);
    let joint = random.pick(&[3, 4]);
    [vec![joint, side, joint, held.beside(side)], vec![joint, held.pick(random), held.pick(random)]].concat()
}

// Something that holds one slot or two, or one of them twice; or only passes on.
fn holder(random: &mut Random, held: &Held, mask: u64, stepped: bool) -> Vec<u8> {
    let (one, other) = (held.pick(random), held.pick(random));
    let joint = random.pick(&[3, 4]);
    let beside = held.beside(one);
    match random.below(13) {
        0 | 1 => vec![one],
        2 => vec![2, one],
        3 | 4 => vec![joint, one, one],
        7 | 8 => vec![joint, one, beside],
        9 => vec![joint, one, 2, one],
        5 => [vec![joint, one], leaf(random, mask, stepped)].concat(),
        6 => [vec![joint], leaf(random, mask, stepped), vec![one]].concat(),
        _ => vec![joint, one, other],
    }
}

// A root that holds so many equal slots, on two boards in turn: of them two are left. They hold nothing, or all of them one more.
pub fn twins(count: usize, holding: bool) -> Network {
    let last = 128 + count as u8 + 1;
    let twin = if holding { vec![2, last] } else { vec![5, 7, 64] };
    let holders: Vec<u8> = (129..last - 1).flat_map(|holder| [3, holder]).chain([last - 1]).collect();
    let mut formulas = vec![holders];
    formulas.extend(vec![twin; count]);
    formulas.extend(holding.then(|| vec![7, 64]));
    let boards = [1, 2].map(|mask| Board { mask, sample: 0, sampled: true }).to_vec();
    let mut network = Network { ticks: 0, nodes: 0, boards, slots: Vec::new() };
    for (number, bytes) in formulas.into_iter().enumerate() {
        let formula = parse_slot(&bytes).expect("one whole formula");
        network.slots.push(Slot { board: number % 2, stepped: true, start: network.nodes, formula });
        network.nodes += bytes.len();
    }
    network
}

// Each slot holds the next one twice: as many paths from the root to the last as there are numbers of so many bits.
pub fn doubling(random: &mut Random, large: bool) -> Network {
    let count = if large { 64 } else { random.within(2, 64) };
    let stepped = random.percent(50);
    let joints = [random.pick(&[3, 4]), random.pick(&[3, 4])];
    let boards = [1, 2].map(|mask| Board { mask, sample: 0, sampled: stepped }).to_vec();
    let last = if stepped { vec![7, 65] } else { vec![2, 64] };
    let mut network = Network { ticks: 0, nodes: 0, boards, slots: Vec::new() };
    for number in 0..count {
        let next = 128 + number as u8 + 1;
        let bytes = if number + 1 < count { vec![joints[number % 2], next, next] } else { last.clone() };
        let board = if number + 1 < count { number % 2 } else { 0 };
        let formula = parse_slot(&bytes).expect("one whole formula");
        network.slots.push(Slot { board, stepped, start: network.nodes, formula });
        network.nodes += bytes.len();
    }
    network
}
