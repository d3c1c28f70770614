// Runs as triage counts them, and the list of them that some bytes are.

use super::bytes::little_endian;
use super::central::Verdict;

pub const RUN: usize = 12;
pub const MOST_RUNS: usize = 65_536;
pub const RULES: u32 = 256;

#[derive(Clone, Copy)]
pub struct Run {
    pub rule: u32,
    pub verdict: u32,
    pub tick: u32,
}

impl Run {
    fn of(bytes: &[u8]) -> Run {
        let number = |at: usize| little_endian(&bytes[at..at + 4]) as u32;
        Run { rule: number(0), verdict: number(4), tick: number(8) }
    }

    pub fn is_good(&self) -> bool {
        let verdicts = [Verdict::False, Verdict::True, Verdict::Pending];
        self.rule < RULES && verdicts.iter().any(|&verdict| verdict as u32 == self.verdict)
    }
}

// The list that a whole number of runs is.
pub fn list_of(bytes: &[u8]) -> Vec<Run> {
    bytes.chunks(RUN).map(Run::of).collect()
}
