// Reports by their rows: counted from a list, one run after the other, or made up so that some list has them.

use crate::lists::{tick, Run};
use crate::random::Random;

// The numbers of a row in their order: the last is of 64 bits, the others are of 32.
pub type Row = [u64; 7];

pub const RUNS: usize = 0;
pub const FALSES: usize = 1;
pub const TRUES: usize = 2;
pub const PENDINGS: usize = 3;
pub const EARLIEST: usize = 4;
pub const LATEST: usize = 5;
pub const SUM: usize = 6;

pub fn no_runs() -> Vec<Row> {
    vec![[0; 7]; 256]
}

// What does not fit its bytes is cut off.
pub fn bytes_of(rows: &[Row]) -> Vec<u8> {
    let mut bytes = vec![];
    for row in rows {
        row[..SUM].iter().for_each(|&number| bytes.extend((number as u32).to_le_bytes()));
        bytes.extend(row[SUM].to_le_bytes());
    }
    bytes
}

pub fn counted(list: &[Run]) -> Vec<Row> {
    let mut rows = no_runs();
    for &[rule, verdict, tick] in list {
        let (row, tick) = (&mut rows[rule as usize], u64::from(tick));
        row[RUNS] += 1;
        row[FALSES + verdict as usize] += 1;
        if verdict == 0 {
            row[EARLIEST] = if row[FALSES] == 1 { tick } else { tick.min(row[EARLIEST]) };
            row[LATEST] = tick.max(row[LATEST]);
            row[SUM] += tick;
        }
    }
    rows
}

// The report of a list.
pub fn report(list: &[Run]) -> Vec<u8> {
    bytes_of(&counted(list))
}

// The lowest and the highest sum that a row can have, which has a false.
pub fn sums(row: &Row) -> (u64, u64) {
    let others = row[FALSES] - 1;
    (row[LATEST] + others * row[EARLIEST], row[EARLIEST] + others * row[LATEST])
}

// A row with so many runs that were false, true and pending.
pub fn row_of(random: &mut Random, verdicts: [usize; 3]) -> Row {
    let [falses, trues, pendings] = verdicts.map(|count| count as u64);
    let mut row = [falses + trues + pendings, falses, trues, pendings, 0, 0, 0];
    if falses > 0 {
        let ticks = [tick(random), tick(random)].map(u64::from);
        row[EARLIEST] = ticks[0].min(ticks[1]);
        row[LATEST] = if falses == 1 { row[EARLIEST] } else { ticks[0].max(ticks[1]) };
        let (lowest, highest) = sums(&row);
        let between = lowest + random.word() % (highest - lowest + 1);
        row[SUM] = random.pick(&[lowest, highest, between]);
    }
    row
}

// A row of so many runs.
pub fn row(random: &mut Random, runs: usize) -> Row {
    let some = random.below(runs + 1);
    let falses = random.pick(&[0, runs, some, some]);
    let trues = random.below(runs - falses + 1);
    row_of(random, [falses, trues, runs - falses - trues])
}

// So many runs, dealt out over these rules.
pub fn dealt(random: &mut Random, runs: usize, rules: &[u32]) -> Vec<Row> {
    let (mut rows, mut left) = (no_runs(), runs);
    for (&rule, to_come) in rules.iter().zip((0..rules.len()).rev()) {
        let share = if to_come == 0 { left } else { random.below(2 * left / (to_come + 1) + 1).min(left) };
        rows[rule as usize] = row(random, share);
        left -= share;
    }
    rows
}
