// Rule files as they should be, and files with one thing or several things wrong, for the calls that take a file.

use crate::formulas::{formula, TEMPORAL};
use crate::model::state::STATE;
use crate::random::Random;
use crate::request::Request;
use crate::rules::{doubtful, rule, Rule};

// The fields of the header in their order.
const VERSION: usize = 0;
const BOARDS: usize = 1;
const PROPOSITIONS: usize = 2;
const NODES: usize = 3;
const MASKS_AT: usize = 4;
const FORMULA_AT: usize = 5;

// What is lent beside a file: masks and formula to read, a state to load.
#[derive(Clone, Copy)]
pub struct Lent {
    masks: usize,
    formula: usize,
    pub state: usize,
}

const RIGHT: Lent = Lent { masks: 16, formula: 1024, state: STATE };

impl Lent {
    fn wrong(random: &mut Random) -> Lent {
        let state = random.pick(&[0, 1, 16, STATE - 1, STATE + 1, 8192]);
        if random.percent(50) {
            Lent { masks: random.pick(&[0, 15, 17, 32]), state, ..RIGHT }
        } else {
            Lent { formula: random.pick(&[0, 1023, 1025, 8192]), state, ..RIGHT }
        }
    }
}

pub struct Handed {
    pub file: Vec<u8>,
    pub lent: Lent,
}

impl Handed {
    pub fn read(self) -> Request {
        Request::read(self.file, self.lent.masks, self.lent.formula)
    }
}

// A rule file in its parts, which need not agree, and what is lent beside it.
struct Reading {
    fields: [u16; 6],
    total: u32,
    masks: Vec<u64>,
    formula: Vec<u8>,
    lent: Lent,
}

impl Reading {
    fn of(rule: &Rule) -> Reading {
        let mut reading = Reading {
            fields: [1, 0, rule.propositions as u16, 0, 16, 0],
            total: 0,
            masks: rule.masks.clone(),
            formula: rule.formula.clone(),
            lent: RIGHT,
        };
        reading.agree();
        reading
    }

    // Makes counts, offsets and total those of the parts.
    fn agree(&mut self) {
        self.fields[BOARDS] = self.masks.len() as u16;
        self.fields[NODES] = self.formula.len() as u16;
        self.fields[FORMULA_AT] = 16 + 8 * self.fields[BOARDS];
        self.total = self.length();
    }

    fn length(&self) -> u32 {
        (16 + 8 * self.masks.len() + self.formula.len()) as u32
    }

    fn file(&self) -> Vec<u8> {
        let mut bytes: Vec<u8> = self.fields.iter().flat_map(|field| field.to_le_bytes()).collect();
        bytes.extend(self.total.to_le_bytes());
        self.masks.iter().for_each(|mask| bytes.extend(mask.to_le_bytes()));
        bytes.extend(&self.formula);
        bytes
    }

    fn handed(&self) -> Handed {
        Handed { file: self.file(), lent: self.lent }
    }

    fn break_length(&mut self, random: &mut Random) {
        match random.below(4) {
            0 | 1 => self.lent = Lent::wrong(random),
            _ => {
                let wrong = [0, self.total - 1, self.total + 1, self.total + (1 << 16), self.total | 1 << 31];
                self.total = random.pick(&wrong);
            }
        }
    }

    fn break_version(&mut self, random: &mut Random) {
        self.fields[VERSION] = random.pick(&[0, 2, 3, 0x0100, 0x0101, 0x8001, 0xffff]);
    }

    // A count out of range: only in the header, or the parts as well, so that nothing else disagrees.
    fn break_range(&mut self, random: &mut Random) {
        let (field, most) = random.pick(&[(BOARDS, 16), (PROPOSITIONS, 64), (NODES, 1024)]);
        match random.below(6) {
            0 => self.masks.clear(),
            1 => self.masks.resize(17, 0),
            2 => self.formula.clear(),
            3 | 4 if self.formula.len() > 1000 => self.formula = formula(random, 1025, TEMPORAL.over(self.fields[PROPOSITIONS].into())),
            _ => {
                let good = self.fields[field];
                self.fields[field] = random.pick(&[0, most + 1, most + 1, good | 0x0800, good | 0x8000, 0xffff]);
                return;
            }
        }
        self.agree();
    }

    // Wrong offsets, or a total that is the file's length and yet not what the counts say.
    fn break_offset(&mut self, random: &mut Random) {
        let at = self.fields[FORMULA_AT];
        match random.below(4) {
            0 => self.fields[MASKS_AT] = random.pick(&[0, 15, 17, 16 + 0x0100, 16 + 0x8000, at]),
            1 => self.fields[FORMULA_AT] = random.pick(&[0, 16 - 8, at - 1, at + 1, at - 8, at + 8, at + 0x0100, at | 0x8000]),
            2 if self.formula.len() < 1024 => self.fields[NODES] += 1,
            _ => {
                self.formula.push(random.word() as u8);
                self.total = self.length();
            }
        }
    }
}

// The rule's file, with what is to be lent.
pub fn of(rule: &Rule) -> Handed {
    Reading::of(rule).handed()
}

fn broken(random: &mut Random, large: bool, one: fn(&mut Reading, &mut Random)) -> Handed {
    let mut reading = Reading::of(&rule(random, large));
    one(&mut reading, random);
    reading.handed()
}

pub fn length(random: &mut Random, large: bool) -> Handed {
    broken(random, large, Reading::break_length)
}

// A good file that lost its end or was given one.
pub fn cut_or_extended(random: &mut Random, _: bool) -> Handed {
    let mut file = Reading::of(&rule(random, false)).file();
    match random.below(4) {
        0 => file.truncate(file.len() - 1),
        1 => file.truncate(random.pick(&[0, 1, 12, 14, 15])),
        2 => file.truncate(16),
        _ => file.push(0),
    }
    Handed { file, lent: RIGHT }
}

pub fn version(random: &mut Random, large: bool) -> Handed {
    broken(random, large, Reading::break_version)
}

pub fn range(random: &mut Random, large: bool) -> Handed {
    broken(random, large, Reading::break_range)
}

pub fn offset(random: &mut Random, large: bool) -> Handed {
    broken(random, large, Reading::break_offset)
}

// Longer than any rule file, with a total that agrees.
pub fn oversized(random: &mut Random, large: bool) -> Handed {
    let mut reading = Reading::of(&rule(random, large));
    reading.formula.resize(if large { 1200 } else { 200 }, 64);
    reading.total = reading.length();
    if random.percent(50) {
        reading.fields[NODES] = reading.formula.len() as u16;
    }
    reading.handed()
}

// Several things wrong at once: the first in the order of the checks decides.
pub fn several(random: &mut Random, _: bool) -> Handed {
    let mut reading = Reading::of(&doubtful(random));
    let breaks = [Reading::break_offset, Reading::break_range, Reading::break_version, Reading::break_length];
    for one in breaks {
        if random.percent(35) {
            one(&mut reading, random);
        }
    }
    reading.handed()
}

// Whatever the file is, what is lent beside it is wrong.
pub fn wrongly_lent(random: &mut Random, large: bool) -> Handed {
    Handed { lent: Lent::wrong(random), ..several(random, large) }
}

pub fn flipped(random: &mut Random, _: bool) -> Handed {
    let mut file = Reading::of(&rule(random, false)).file();
    for _ in 0..random.within(1, 3) {
        let place = if random.percent(50) { random.below(16) } else { random.below(file.len()) };
        file[place] ^= 1 << random.below(8);
    }
    Handed { file, lent: RIGHT }
}
