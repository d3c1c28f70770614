// Recordings: lists of records without a hole by chance, how records are doubled, lost and made to clash, and how a list is handed to
// mend and stretch.

use crate::random::Random;

// Its counter and its event.
pub type Record = (u32, u64);

pub const HEADER: usize = 16;
pub const RECORD: usize = 12;
pub const MOST_RECORDS: usize = 681; // in a payload

const LAST: u32 = u32::MAX;
const MOST_BYTES: usize = 8192; // that are lent
const MOST_EVENTS: usize = 1024;

// The numbers of a header in their order.
pub const COUNT: usize = 0;
pub const BEGIN: usize = 1;
pub const TOTAL: usize = 2;
pub const FOURTH: usize = 3;

// The bytes of a recording, and how much is lent: bytes for the mended one and marks to mend, events to stretch.
pub struct Recorded {
    pub bytes: Vec<u8>,
    pub mended: usize,
    pub marks: usize,
    pub events: usize,
}

impl Recorded {
    pub fn of(list: &[Record]) -> Recorded {
        let bytes = bytes_of(list);
        Recorded { mended: bytes.len(), marks: list.len(), events: list.len(), bytes }
    }

    // Lends what its length and the number of records in its header ask for, as far as so much can be lent.
    pub fn lent(self) -> Recorded {
        let count = if self.bytes.len() < HEADER { 0 } else { self.number(COUNT) as usize };
        let (mended, marks, events) = (self.bytes.len(), count.min(MOST_BYTES), count.min(MOST_EVENTS));
        Recorded { mended, marks, events, ..self }
    }

    // How many whole records there are, whatever the header says.
    pub fn records(&self) -> usize {
        (self.bytes.len() - HEADER) / RECORD
    }

    pub fn number(&self, number: usize) -> u32 {
        let at = 4 * number;
        u32::from_le_bytes([self.bytes[at], self.bytes[at + 1], self.bytes[at + 2], self.bytes[at + 3]])
    }

    pub fn with(mut self, number: usize, value: u32) -> Recorded {
        self.bytes[4 * number..4 * number + 4].copy_from_slice(&value.to_le_bytes());
        self
    }

    // Cut, or extended by zeros, to this length; nothing else goes with it.
    pub fn of_length(mut self, length: usize) -> Recorded {
        self.bytes.resize(length, 0);
        self
    }
}

pub fn bytes_of(list: &[Record]) -> Vec<u8> {
    let numbers = [list.len(), HEADER, HEADER + RECORD * list.len(), 0];
    let mut bytes: Vec<u8> = numbers.iter().flat_map(|&number| (number as u32).to_le_bytes()).collect();
    for (counter, event) in list {
        bytes.extend(counter.to_le_bytes());
        bytes.extend(event.to_le_bytes());
    }
    bytes
}

// How many records a recording has.
pub fn count(random: &mut Random, large: bool) -> usize {
    if large {
        let some = random.within(100, 600);
        random.pick(&[MOST_RECORDS, MOST_RECORDS - 1, some, some])
    } else {
        let most = random.pick(&[3, 8, 20]);
        random.within(1, most)
    }
}

// A first counter: near it a byte of the counter runs over, or all of it does, now and then.
fn counter(random: &mut Random) -> u32 {
    let before = random.below(12) as u32;
    match random.below(8) {
        0 => 0,
        1 | 2 => LAST - before,
        3 => (1 << random.pick(&[8, 16, 24, 31])) - 1 - before,
        4 => random.word() as u32,
        _ => random.below(1000) as u32,
    }
}

// An event behind another one: the same, one that differs in a bit, or any.
pub fn event_behind(random: &mut Random, before: u64) -> u64 {
    match random.below(5) {
        0 | 1 => before,
        2 => before ^ 1 << random.below(64),
        _ => random.event(),
    }
}

// So many records without a hole.
pub fn whole(random: &mut Random, count: usize) -> Vec<Record> {
    let (first, mut event) = (counter(random), random.event());
    let mut list = vec![];
    for i in 0..count {
        list.push((first.wrapping_add(i as u32), event));
        event = event_behind(random, event);
    }
    list
}

// A step that is a break, though in some of its bytes alone it would be none, now and then.
pub fn broken_step(random: &mut Random) -> u32 {
    let bits = random.pick(&[8, 16, 24]);
    match random.below(8) {
        0 => 2,
        1 => LAST, // one back
        2 => 1 << bits,
        3 => (1 << bits) + 1,
        4 => random.pick(&[1 << 31, (1 << 31) + 1, LAST - 1, LAST << bits, (LAST << bits) + 1]),
        5 | 6 => random.within(2, 20) as u32,
        _ => (random.word() as u32).max(2),
    }
}

// Makes the step to the record at this place this one; the steps behind it stay what they are. There is a record before it.
pub fn step_to(list: &mut [Record], place: usize, step: u32) {
    let by = list[place - 1].0.wrapping_add(step).wrapping_sub(list[place].0);
    list[place..].iter_mut().for_each(|record| record.0 = record.0.wrapping_add(by));
}

// As many records: of a hundred so many are doubled, and before so many there is a break.
pub fn holed(random: &mut Random, count: usize, doubled: usize, broken: usize) -> Vec<Record> {
    let mut list = whole(random, count);
    for place in (0..count).rev() {
        if place > 0 && random.percent(broken) {
            step_to(&mut list, place, broken_step(random));
        }
        if random.percent(doubled) {
            list.insert(place, list[place]);
        }
    }
    list.truncate(count);
    list
}

// Of any kind that is not refused.
pub fn any(random: &mut Random, large: bool) -> Vec<Record> {
    let count = count(random, large);
    let (doubled, broken) = (random.pick(&[0, 5, 25, 60]), random.pick(&[0, 5, 25, 60]));
    holed(random, count, doubled, broken)
}

// Puts a record with the same counter and another event behind the one at this place.
pub fn clash(random: &mut Random, list: &mut Vec<Record>, place: usize) {
    let (counter, event) = list[place];
    let other = if random.percent(70) { 1 << random.below(64) } else { random.word() | 1 };
    list.insert(place + 1, (counter, event ^ other));
}
