// Formulas as prefix bytes: random ones of a given size, chains, formulas whose unfolding has a given size, and damaged ones.

use crate::random::Random;

const TRUE: u8 = 1;
const NOT: u8 = 2;
const AND: u8 = 3;
const OR: u8 = 4;
const NEXT: u8 = 5;
const UNTIL: u8 = 6;
const EVENTUALLY: u8 = 7;
const ALWAYS: u8 = 8;
const PROPOSITION: u8 = 64;

// Which nodes a random formula has.
#[derive(Clone, Copy)]
pub struct Mix {
    pub propositions: usize,
    pub constants: usize, // percent of the leaves
    pub ones: &'static [u8],
    pub twos: &'static [u8],
    pub unary: usize, // percent of the inner nodes
}

// All operators.
pub const TEMPORAL: Mix =
    Mix { propositions: 64, constants: 10, ones: &[NOT, NEXT, EVENTUALLY, ALWAYS], twos: &[AND, OR, UNTIL], unary: 40 };

// Nothing that unfolding enlarges, so that 4,096 nodes are accepted.
pub const PLAIN: Mix = Mix { constants: 3, ones: &[NOT, NEXT, NEXT], twos: &[AND, OR], unary: 50, ..TEMPORAL };

impl Mix {
    pub fn over(self, propositions: usize) -> Mix {
        Mix { propositions, ..self }
    }

    pub fn with(self, constants: usize) -> Mix {
        Mix { constants, ..self }
    }

    pub fn leaf(&self, random: &mut Random) -> u8 {
        if random.percent(self.constants) {
            random.below(2) as u8
        } else {
            PROPOSITION + random.below(self.propositions) as u8
        }
    }
}

// A formula of exactly so many nodes. Half of the splits are lopsided, which makes deep formulas likely.
pub fn formula(random: &mut Random, nodes: usize, mix: Mix) -> Vec<u8> {
    let mut bytes = Vec::with_capacity(nodes);
    let mut owed = vec![nodes];
    while let Some(size) = owed.pop() {
        if size == 1 {
            bytes.push(mix.leaf(random));
        } else if size == 2 || random.percent(mix.unary) {
            bytes.push(random.pick(mix.ones));
            owed.push(size - 1);
        } else {
            let left = match random.below(4) {
                0 => 1,
                1 => size - 2,
                _ => random.within(1, size - 2),
            };
            bytes.push(random.pick(mix.twos));
            owed.push(size - 1 - left);
            owed.push(left);
        }
    }
    bytes
}

const MOST_PENDING: usize = 5;

// Something small that stays pending whatever the event.
pub fn pending(random: &mut Random) -> Vec<u8> {
    let nodes = random.within(1, MOST_PENDING - 1);
    let inner = formula(random, nodes, TEMPORAL.over(12).with(0));
    [vec![NEXT], inner].concat()
}

// Something that becomes this constant under an event with proposition 0 and without proposition 1.
pub fn known(random: &mut Random, value: bool) -> Vec<u8> {
    let (same, other) = if value { (1, 0) } else { (0, 1) };
    match random.below(5) {
        0 => vec![PROPOSITION + other],
        1 => vec![NOT, PROPOSITION + same],
        2 => vec![NOT, other],
        3 => [vec![if value { OR } else { AND }], pending(random), vec![same]].concat(),
        _ => vec![same],
    }
}

// An operand for each joint of a chain: mostly pending, often a constant that the joint drops, once in two chains one that decides it.
fn operands(random: &mut Random, joints: &[u8]) -> Vec<Vec<u8>> {
    let mut operand = |joint: u8| match random.below(100) {
        _ if random.below(2 * joints.len()) == 0 => known(random, joint == OR),
        0..=33 => known(random, joint == AND),
        _ => pending(random),
    };
    joints.iter().map(|joint| operand(*joint)).collect()
}

// The operators of a chain of so many joints: one alone, in turn, or at random.
pub fn joints(random: &mut Random, count: usize) -> Vec<u8> {
    let first = random.pick(&[AND, OR]);
    match random.below(3) {
        0 => vec![first; count],
        1 => (0..count).map(|i| if i % 2 == 0 { first } else { AND + OR - first }).collect(),
        _ => (0..count).map(|_| random.pick(&[AND, OR])).collect(),
    }
}

// x (y (z ..)): each joint has its left operand behind it.
pub fn right_chain(joints: &[u8], operands: &[Vec<u8>]) -> Vec<u8> {
    let (last, lefts) = operands.split_last().expect("a chain has one operand more than joints");
    let links = joints.iter().zip(lefts).map(|(joint, left)| [&[*joint], &left[..]].concat());
    let mut bytes: Vec<u8> = links.flatten().collect();
    bytes.extend(last);
    bytes
}

// ((x y) z) ..: the joints first, the outermost in front, then the operands.
pub fn left_chain(joints: &[u8], operands: &[Vec<u8>]) -> Vec<u8> {
    [joints, &operands.concat()].concat()
}

// A chain of at most so many nodes, with an operand for each joint.
pub fn right_leaning(random: &mut Random, joints: &[u8], most: usize) -> Vec<u8> {
    let operands = operands(random, joints);
    let count = fitting(&operands, most);
    right_chain(&joints[..count], &[&operands[..count], &[pending(random)]].concat())
}

pub fn left_leaning(random: &mut Random, joints: &[u8], most: usize) -> Vec<u8> {
    let operands = operands(random, joints);
    let count = fitting(&operands, most);
    let mut inwards = operands[..count].to_vec();
    inwards.push(pending(random));
    inwards.reverse();
    left_chain(&joints[..count], &inwards)
}

// How many joints with these operands fit beside the pending operand that ends the chain.
fn fitting(operands: &[Vec<u8>], most: usize) -> usize {
    let mut nodes = MOST_PENDING;
    let fits = |operand: &&Vec<u8>| {
        nodes += 1 + operand.len();
        nodes <= most
    };
    operands.iter().take_while(fits).count()
}

// The nodes of the unfolded formula, by one pass from the back.
pub fn unfolded_size(bytes: &[u8]) -> usize {
    let mut sizes: Vec<(usize, usize)> = Vec::new();
    for &code in bytes.iter().rev() {
        let mut operand = || sizes.pop().expect("one whole formula");
        let size = match code {
            NOT => {
                let (n, u) = operand();
                (1 + n, 1 + u)
            }
            AND | OR => {
                let ((n, u), (m, v)) = (operand(), operand());
                (1 + n + m, 1 + u + v)
            }
            NEXT => {
                let (n, _) = operand();
                (1 + n, 1 + n)
            }
            UNTIL => {
                let ((n, u), (m, v)) = (operand(), operand());
                (1 + n + m, 4 + u + v + n + m)
            }
            EVENTUALLY | ALWAYS => {
                let (n, u) = operand();
                (1 + n, 3 + u + n)
            }
            _ => (1, 1),
        };
        sizes.push(size);
    }
    sizes.last().expect("one whole formula").1
}

// Nested temporal operators whose unfolding has exactly so many nodes: wrapped as long as it stays below, then filled up with nots.
// There is nothing to fold in them, but an until may have true on its left.
pub fn unfolding_to(random: &mut Random, target: usize) -> Vec<u8> {
    let mut bytes = vec![TEMPORAL.with(0).leaf(random)];
    loop {
        let leaf = vec![TEMPORAL.with(0).leaf(random)];
        let wrapped = match random.below(6) {
            0 => [vec![ALWAYS], bytes.clone()].concat(),
            1 => [vec![EVENTUALLY], bytes.clone()].concat(),
            2 => [vec![UNTIL], bytes.clone(), leaf].concat(),
            3 if random.percent(20) => [vec![UNTIL, TRUE], bytes.clone()].concat(),
            3 => [vec![UNTIL], leaf, bytes.clone()].concat(),
            4 => [vec![random.pick(&[AND, OR])], bytes.clone(), leaf].concat(),
            _ => [vec![NOT], bytes.clone()].concat(),
        };
        let size = unfolded_size(&wrapped);
        if size > target {
            break;
        }
        bytes = wrapped;
    }
    let short = target - unfolded_size(&bytes);
    [vec![NOT; short], bytes].concat()
}

pub fn nested(code: u8, count: usize) -> Vec<u8> {
    [vec![code; count], vec![PROPOSITION]].concat()
}

// What is no code, its borders first.
pub fn no_code(random: &mut Random) -> u8 {
    match random.below(6) {
        0 => 9,
        1 => 63,
        2 => 192,
        3 => 255,
        4 => random.within(9, 63) as u8,
        _ => random.within(192, 255) as u8,
    }
}

pub fn place_holder(random: &mut Random) -> u8 {
    match random.below(4) {
        0 => 128,
        1 => 191,
        _ => random.within(128, 191) as u8,
    }
}

// Puts the byte in the place of a leaf.
fn replace_leaf(random: &mut Random, bytes: &mut [u8], byte: u8) {
    let leaves: Vec<usize> = (0..bytes.len()).filter(|&i| !(NOT..=ALWAYS).contains(&bytes[i])).collect();
    bytes[random.pick(&leaves)] = byte;
}

// Turns a formula over the lowest `propositions` into bytes that are not one, of about the same length.
pub fn damage(random: &mut Random, mut bytes: Vec<u8>, propositions: usize) -> Vec<u8> {
    let place = random.below(bytes.len());
    match random.below(8) {
        0 if bytes.len() > 1 => drop(bytes.pop()),
        0 => bytes[0] = random.pick(&[NOT, AND, UNTIL, ALWAYS]),
        1 => bytes.push(TEMPORAL.over(propositions).leaf(random)),
        2 => bytes[place] = no_code(random),
        3 => {
            let byte = no_code(random);
            replace_leaf(random, &mut bytes, byte);
        }
        4 => {
            let byte = place_holder(random);
            replace_leaf(random, &mut bytes, byte);
        }
        5 => bytes.insert(place, random.pick(&[AND, OR, UNTIL])),
        6 => bytes.extend(formula(random, 3, TEMPORAL.over(propositions))),
        _ => bytes.fill(random.pick(&[NOT, AND, OR, NEXT, UNTIL, EVENTUALLY, ALWAYS])),
    }
    bytes
}

// A proposition that a rule over the lowest `propositions` does not have: the next one, the last one or any between.
pub fn foreign_proposition(random: &mut Random, mut bytes: Vec<u8>, propositions: usize) -> Vec<u8> {
    let number = match random.below(3) {
        0 => propositions,
        1 => 63,
        _ => random.within(propositions, 63),
    };
    replace_leaf(random, &mut bytes, PROPOSITION + number as u8);
    bytes
}
