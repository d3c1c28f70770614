// Recordings: the four numbers of a header, the records behind it, and how one record follows another.

use super::bytes::{front_and_rest, little_endian};
use super::refusal::{demand, Refusal};

const HEADER: usize = 16;
const RECORD: usize = 12;

#[derive(Clone, Copy, PartialEq)]
pub struct Record {
    pub counter: u32,
    pub event: u64,
}

impl Record {
    fn of(bytes: &[u8]) -> Record {
        Record { counter: little_endian(&bytes[..4]) as u32, event: little_endian(&bytes[4..]) }
    }

    fn bytes(&self) -> Vec<u8> {
        [&self.counter.to_le_bytes()[..], &self.event.to_le_bytes()].concat()
    }

    // How far the counter has gone from the record before to this one.
    fn step_from(&self, before: &Record) -> u64 {
        let turn = 1 << 32;
        (turn + u64::from(self.counter) - u64::from(before.counter)) % turn
    }

    // Whether ticks were lost between the two.
    pub fn breaks_from(&self, before: &Record) -> bool {
        !matches!(self.step_from(before), 0 | 1)
    }

    fn clashes_with(&self, before: &Record) -> bool {
        self.counter == before.counter && self.event != before.event
    }
}

// The numbers of the header for so many records; in 64 bits the length is whole, whatever the count.
fn header(count: u64) -> [u64; 4] {
    [count, HEADER as u64, HEADER as u64 + RECORD as u64 * count, 0]
}

// A recording as long as its header says; its other numbers are anything yet.
pub struct Recording<'a> {
    numbers: [u64; 4],
    behind: &'a [u8],
}

impl<'a> Recording<'a> {
    pub fn of(bytes: &'a [u8]) -> Result<Recording<'a>, Refusal> {
        let (header, behind) = front_and_rest(bytes, HEADER).ok_or(Refusal::Length)?;
        let numbers = [0, 4, 8, 12].map(|at| little_endian(&header[at..at + 4]));
        demand(numbers[2] == bytes.len() as u64, Refusal::Length)?;
        Ok(Recording { numbers, behind })
    }

    // How many records the header tells of.
    pub fn count(&self) -> u64 {
        self.numbers[0]
    }

    // The records, where the numbers are those of a recording and no two records clash.
    pub fn records(&self) -> Result<Vec<Record>, Refusal> {
        demand(self.numbers == header(self.count()), Refusal::Offset)?;
        let records: Vec<Record> = self.behind.chunks(RECORD).map(Record::of).collect();
        demand(!records.windows(2).any(|pair| pair[1].clashes_with(&pair[0])), Refusal::Clash)?;
        Ok(records)
    }
}

// The recording of these records.
pub fn bytes_of(records: &[Record]) -> Vec<u8> {
    let numbers = header(records.len() as u64).map(|number| u32::try_from(number).expect("a number of 32 bits"));
    let header = numbers.iter().flat_map(|number| number.to_le_bytes());
    header.chain(records.iter().flat_map(Record::bytes)).collect()
}
