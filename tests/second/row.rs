// A row of a report: what the runs of one rule come to, its bytes, and a list of runs that has it, where there is one.

use super::bytes::little_endian;
use super::central::Verdict::{self, *};
use super::runs::Run;

pub const ROW: usize = 32;

// Numbers are held as 64 bits, so that they are added up whole.
#[derive(PartialEq)]
pub struct Row {
    pub runs: u64,
    verdicts: [u64; 3], // how many runs were false, true and pending
    earliest: u64,      // of the ticks of false, like the two below
    latest: u64,
    sum: u64,
}

impl Row {
    // The row of these runs, which are all of one rule.
    pub fn of(runs: &[Run]) -> Row {
        let came_to = |verdict: Verdict| runs.iter().filter(move |run| run.verdict == verdict as u32);
        let mut ticks: Vec<u64> = came_to(False).map(|run| run.tick.into()).collect();
        ticks.sort();
        Row {
            runs: runs.len() as u64,
            verdicts: [False, True, Pending].map(|verdict| came_to(verdict).count() as u64),
            earliest: ticks.first().copied().unwrap_or(0),
            latest: ticks.last().copied().unwrap_or(0),
            sum: ticks.iter().sum(),
        }
    }

    pub fn in_bytes(bytes: &[u8]) -> Row {
        let number = |at: usize| little_endian(&bytes[at..at + 4]);
        Row {
            runs: number(0),
            verdicts: [4, 8, 12].map(number),
            earliest: number(16),
            latest: number(20),
            sum: little_endian(&bytes[24..]),
        }
    }

    pub fn bytes(&self) -> Vec<u8> {
        let [falses, trues, pendings] = self.verdicts;
        let mut bytes = vec![];
        for number in [self.runs, falses, trues, pendings, self.earliest, self.latest] {
            bytes.extend(u32::try_from(number).expect("a number of 32 bits").to_le_bytes());
        }
        bytes.extend(self.sum.to_le_bytes());
        bytes
    }

    // Runs of this rule that have this row; nothing where none have it. Asked only where there would be 65,536 at most.
    pub fn list(&self, rule: u32) -> Option<Vec<Run>> {
        let [falses, trues, pendings] = self.verdicts;
        if self.runs != falses + trues + pendings {
            return None;
        }
        let ticks = self.ticks(falses).into_iter().map(|tick| (False, tick));
        let others = [vec![(True, 0); trues as usize], vec![(Pending, 0); pendings as usize]].concat();
        let run = |(verdict, tick): (Verdict, u64)| Run { rule, verdict: verdict as u32, tick: tick as u32 };
        let list: Vec<Run> = ticks.chain(others).map(run).collect();
        (Row::of(&list) == *self).then_some(list)
    }

    // So many ticks from the earliest to the latest, with this sum where there are such: the first is the earliest, and each further
    // one as late as the sum allows.
    fn ticks(&self, count: u64) -> Vec<u64> {
        let mut ticks = vec![self.earliest; count as usize];
        let mut left = self.sum.saturating_sub(ticks.iter().sum());
        for tick in ticks.iter_mut().skip(1) {
            let later = left.min(self.latest.saturating_sub(self.earliest));
            *tick += later;
            left -= later;
        }
        ticks
    }
}
