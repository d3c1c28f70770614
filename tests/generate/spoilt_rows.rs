// Rows of reports with numbers that do not agree, or only just: what add must tell apart. Each is made from a row that some list has.

use crate::lists::tick;
use crate::random::Random;
use crate::rows::*;

// Changes a row, which has at least three runs that were false.
pub type Spoil = fn(&mut Row, &mut Random);

pub const SPOILS: &[(&str, Spoil)] = &[
    ("add: a number off by one", off_by_one),
    ("add: sum at a bound", sum_at_bound),
    ("add: sum past a bound", sum_past_bound),
    ("add: runs and counts", counts),
    ("add: ticks without a false", ticks_without_false),
    ("add: one false", one_false),
    ("add: two falses", two_falses),
    ("add: earliest above latest", earliest_above_latest),
    ("add: a huge number", huge),
    ("add: counts past 32 bits", counts_past_32_bits),
    ("add: sum past 32 bits", sum_past_32_bits),
    ("add: a bit", bit),
];

// One more or one less; the sum may still be one that the ticks can have.
fn off_by_one(row: &mut Row, random: &mut Random) {
    let number = random.below(row.len());
    row[number] = if random.percent(50) { row[number].wrapping_add(1) } else { row[number].wrapping_sub(1) };
}

fn sum_at_bound(row: &mut Row, random: &mut Random) {
    let (lowest, highest) = sums(row);
    row[SUM] = random.pick(&[lowest, highest]);
}

fn sum_past_bound(row: &mut Row, random: &mut Random) {
    let (lowest, highest) = sums(row);
    let by = random.pick(&[1, 1, 2, 1000]);
    row[SUM] = if random.percent(50) { highest + by } else { lowest.wrapping_sub(by) };
}

// Runs that are not the three counts added up.
fn counts(row: &mut Row, random: &mut Random) {
    match random.below(3) {
        0 => row[RUNS] = 0,
        1 => row[TRUES] += row[FALSES],
        _ => row[random.pick(&[RUNS, TRUES, PENDINGS])] += random.pick(&[1, 10, 256]),
    }
}

fn ticks_without_false(row: &mut Row, random: &mut Random) {
    with_falses(row, 0);
    row[EARLIEST..].fill(0);
    let ticks = random.pick(&[1, 7, u64::from(u32::MAX)]);
    match random.below(5) {
        0 => row[EARLIEST] = ticks,
        1 => row[LATEST] = ticks,
        2 => row[SUM] = ticks << random.pick(&[0, 32]),
        3 => row[EARLIEST..SUM].fill(ticks),
        _ => row[EARLIEST..].fill(ticks),
    }
}

// As many runs, of which so many were false.
fn with_falses(row: &mut Row, falses: u64) {
    row[TRUES] += row[FALSES] - falses;
    row[FALSES] = falses;
}

// Its tick is the earliest, the latest and the sum, but for one of them now and then.
fn one_false(row: &mut Row, random: &mut Random) {
    with_falses(row, 1);
    row[EARLIEST..].fill(tick(random).into());
    if random.percent(75) {
        let number = random.within(EARLIEST, SUM);
        row[number] = random.pick(&[row[number].wrapping_add(1), row[number].wrapping_sub(1), 0, row[LATEST] + 7]);
    }
}

// Their ticks are the earliest and the latest, so there is one sum alone.
fn two_falses(row: &mut Row, random: &mut Random) {
    with_falses(row, 2);
    row[SUM] = row[EARLIEST] + row[LATEST];
    if random.percent(60) {
        row[SUM] = random.pick(&[row[SUM].wrapping_sub(1), row[SUM] + 1, 2 * row[EARLIEST], 2 * row[LATEST]]);
    }
}

// With a sum that it could have the other way round. Of one false or two it would be between the bounds.
fn earliest_above_latest(row: &mut Row, random: &mut Random) {
    let falses = random.pick(&[1, 2, row[FALSES]]);
    with_falses(row, falses);
    if row[EARLIEST] == row[LATEST] {
        let number = if row[EARLIEST] == 0 { LATEST } else { EARLIEST };
        row[number] = row[number].abs_diff(1);
    }
    row.swap(EARLIEST, LATEST);
    let (one, other) = sums(row);
    row[SUM] = random.pick(&[one, other, (one + other) / 2]);
}

fn huge(row: &mut Row, random: &mut Random) {
    let number = random.below(row.len());
    row[number] = random.pick(&[u64::MAX, u64::MAX, 1 << 31, 1 << 63 | 1 << 16]);
}

// Added up in 32 bits the counts would be the runs.
fn counts_past_32_bits(row: &mut Row, random: &mut Random) {
    let (one, other) = random.pick(&[(FALSES, TRUES), (TRUES, PENDINGS), (TRUES, PENDINGS), (PENDINGS, TRUES)]);
    if random.percent(50) {
        row[one] += 1 << 31;
        row[other] += 1 << 31;
    } else {
        row[other] += row[one] + 1;
        row[one] = u32::MAX.into();
    }
}

// Its lower half alone, or with another upper half.
fn sum_past_32_bits(row: &mut Row, random: &mut Random) {
    let upper = random.pick(&[0, 1, 1, 2, 1 << 15, 1 << 16, 1 << 31, (1 << 32) - 1]);
    row[SUM] = upper << 32 | row[SUM] % (1 << 32);
}

fn bit(row: &mut Row, random: &mut Random) {
    let number = random.below(row.len());
    row[number] ^= 1 << random.below(if number == SUM { 64 } else { 32 });
}
