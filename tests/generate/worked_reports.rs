// Named examples of report and add: the borders of each number, the places of bad runs, the limit of runs, rows of which each number is
// one off, and the orders of the checks. They stand in every stream.

use crate::lists::{bytes_of, Listed, Run, MOST_RUNS, REPORT};
use crate::rows::{self, no_runs, report, Row};
use crate::script::Script;

const EXAMPLES: &[(&str, fn(&mut Script))] = &[
    ("report: no runs", none),
    ("report: examples", examples),
    ("report: borders", borders),
    ("report: place of a bad run", places),
    ("report: as many runs as there may be", most),
    ("report: wrong lengths", lengths),
    ("add: examples", added),
    ("add: as many runs as there may be", most_together),
    ("add: a number off by one", off_by_one),
    ("add: bounds", bounds),
    ("add: rows that do not agree", rows_that_do_not_agree),
    ("add: order of the checks", order),
];

pub fn reported(script: &mut Script) {
    for (case, example) in EXAMPLES {
        script.case = case;
        example(script);
    }
    script.leave_report();
}

const LAST: u32 = u32::MAX;
const ONE_FALSE: &[Run] = &[[7, 0, 5]];
const ONE_RULE: &[Run] = &[[7, 0, 5], [7, 1, 9], [7, 0, 3], [7, 2, 1], [7, 0, 5]];
const TWO_RULES: &[Run] = &[[0, 0, 4], [255, 2, 8], [0, 1, LAST], [255, 0, LAST], [0, 0, 0]];
const LISTS: &[&[Run]] = &[&[], ONE_FALSE, ONE_RULE, TWO_RULES];

fn none(script: &mut Script) {
    script.report(Listed::of(ONE_FALSE));
    script.ask(); // a report is no state
    script.sample(0, 0);
    script.capture(&[]);
    script.report(Listed::of(&[]));
    script.report(Listed::of(ONE_FALSE));
    script.report(Listed::of(&[]).repeated(0));
    script.report(Listed::of(&[]).repeated(65_537));
    script.report(Listed::of(&[[256, 3, 0]]).repeated(0));
    script.ask();
}

fn examples(script: &mut Script) {
    for list in LISTS {
        let mut turned = list.to_vec();
        turned.reverse();
        script.report(Listed::of(list));
        script.report(Listed::of(&turned));
        script.report(Listed::of(list).repeated(2));
    }
}

fn borders(script: &mut Script) {
    for rule in [0, 1, 148, 149, 254, 255, 256, 257, 1 << 16, LAST] {
        script.report(Listed::of(&[[rule, 0, 1]]));
    }
    for verdict in [0, 1, 2, 3, 4, 256, 1 << 16, LAST] {
        script.report(Listed::of(&[[7, verdict, 1]]));
    }
    for tick in [0, 1, 255, 256, 1 << 31, LAST] {
        script.report(Listed::of(&[[7, 0, tick]]));
        script.report(Listed::of(&[[7, 1, tick], [8, 2, tick]]));
        script.report(Listed::of(&[[7, 0, tick], [7, 0, LAST], [7, 0, tick]]));
    }
    let each: Vec<Run> = (0..256).map(|rule| [rule, rule % 3, 1 << 24 | rule]).collect();
    script.report(Listed::of(&each));
}

fn places(script: &mut Script) {
    let (good, no_rule, no_verdict) = ([7, 0, 5], [256, 0, 5], [7, 3, 5]);
    for list in [
        vec![good, good, no_rule],
        vec![no_verdict, good, good],
        vec![good, no_verdict, no_rule],
        vec![good, no_rule, no_verdict, good],
        vec![good, good, [LAST; 3]],
        [vec![good; 300], vec![no_rule]].concat(),
    ] {
        script.report(Listed::of(&list));
        script.report(Listed::of(&list).repeated(3));
    }
    // a number that is a tick first, then a rule, and then no verdict, in run 2,046
    let mut numbers = vec![0u32; 2047];
    numbers[2045] = 7;
    let runs: Vec<u8> = numbers.iter().flat_map(|number| number.to_le_bytes()).collect();
    script.report(Listed { runs, repeats: 3, lent: REPORT });
}

fn most(script: &mut Script) {
    script.report(Listed::of(&[[255, 0, LAST]]).repeated(MOST_RUNS));
    script.report(Listed::of(&[[255, 0, LAST]]).repeated(MOST_RUNS + 1));
    script.report(Listed::of(&[[0, 1, 3], [7, 0, 1]]).repeated(MOST_RUNS / 2));
    script.report(Listed::of(&[[0, 1, 3], [7, 0, 1]]).repeated(MOST_RUNS / 2 + 1));
    script.report(Listed::of(&[[7, 0, 1], [7, 3, 0]]).repeated(MOST_RUNS / 2));
    script.report(Listed::of(&[[7, 3, 0]]).repeated(MOST_RUNS + 1));
    for bytes in [11, 12, 12 * MOST_RUNS - 1, 12 * MOST_RUNS + 1, 12 * MOST_RUNS + 24] {
        script.report(Listed { runs: vec![0], repeats: bytes, lent: REPORT });
    }
}

fn lengths(script: &mut Script) {
    let bytes = bytes_of(ONE_RULE);
    for length in [1, 4, 11, 13, 23, 59] {
        script.report(Listed { runs: bytes[..length].to_vec(), repeats: 1, lent: REPORT });
    }
    for lent in [0, 1, 32, 4768, REPORT - 1] {
        script.report(Listed::of(ONE_RULE).lending(lent));
        script.report(Listed::of(&[[256, 3, 0]]).lending(lent));
    }
}

// Each to each, and one night after the other.
fn added(script: &mut Script) {
    for total in LISTS {
        for night in LISTS {
            script.report(Listed::of(total));
            script.add(&report(night));
        }
    }
    script.add(&report(ONE_RULE));
    script.add(&report(ONE_FALSE));
}

// A report with this row for a rule.
fn of_rule(rule: usize, row: Row) -> Vec<u8> {
    let mut rows = no_runs();
    rows[rule] = row;
    rows::bytes_of(&rows)
}

fn lone(row: Row) -> Vec<u8> {
    of_rule(7, row)
}

fn trues(count: u64) -> Vec<u8> {
    lone([count, 0, count, 0, 0, 0, 0])
}

fn most_together(script: &mut Script) {
    script.report(Listed::of(&[[7, 0, LAST]]).repeated(MOST_RUNS));
    script.add(&trues(0));
    script.add(&trues(1));
    script.report(Listed::of(&[[7, 0, LAST]]).repeated(MOST_RUNS - 1));
    script.add(&report(&[[255, 0, LAST]]));
    script.add(&report(&[[255, 0, LAST]]));
    script.clear();
    script.add(&trues(65_536));
    script.clear();
    script.add(&trues(65_537));
    script.add(&trues(1 << 31));
    script.become_report(&trues(1 << 31));
    script.add(&trues(1 << 31)); // none, in 32 bits
    script.add(&trues(0));
}

// Of the report that is kept; the cases by chance have either.
fn off_by_one(script: &mut Script) {
    let row = [5, 3, 1, 1, 3, 5, 12];
    for number in 0..row.len() {
        for changed in [row[number] - 1, row[number] + 1] {
            let mut row = row;
            row[number] = changed;
            script.become_report(&lone(row));
            script.add(&report(ONE_FALSE));
        }
    }
}

// Three falses from tick 3 to tick 5 have sums from 11 to 13; one has its tick, and none has no ticks.
fn bounds(script: &mut Script) {
    script.clear();
    for sum in [10, 11, 13, 14, 1 << 32 | 12, 1 << 48 | 12, 1 << 63 | 12] {
        script.add(&lone([5, 3, 1, 1, 3, 5, sum]));
    }
    for ticks in [[5, 5, 5], [5, 5, 6], [5, 6, 6], [5, 6, 5], [6, 5, 5], [6, 5, 6]] {
        script.add(&lone([1, 1, 0, 0, ticks[0], ticks[1], ticks[2]]));
    }
    for ticks in [[0, 0, 1], [0, 1, 0], [1, 0, 0], [0, 0, 1 << 63]] {
        script.add(&lone([1, 0, 1, 0, ticks[0], ticks[1], ticks[2]]));
    }
    for sum in [5, 8, 7, 6] {
        script.add(&lone([2, 2, 0, 0, 3, 4, sum])); // 7 alone
    }
    script.add(&lone([1, 1, 0, 0, 0, 0, 0]));
    script.add(&lone([4, 3, 0, 1, 0, 0, 0]));
    script.add(&lone([3, u64::from(LAST), 2, 2, 0, 0, 0])); // three, in 32 bits
}

// Of either report, wherever they stand.
fn rows_that_do_not_agree(script: &mut Script) {
    for rule in [0, 1, 149, 255] {
        let bad = of_rule(rule, [2, 1, 1, 1, 5, 5, 5]);
        script.become_report(&report(ONE_RULE));
        script.add(&bad);
        script.become_report(&bad);
        script.add(&report(ONE_RULE));
    }
}

fn order(script: &mut Script) {
    let (good, bad) = (report(ONE_RULE), lone([1, 0, 0, 0, 0, 0, 0]));
    let too_many = lone([65_537, 0, 0, 0, 0, 0, 0]);
    script.become_report(&good);
    script.add(&too_many); // 3
    script.add(&bad); // 4
    for lent in [0, 4768, REPORT - 1] {
        script.add_lent(lent, &good); // 1
        script.add_lent(lent, &too_many);
        script.add(&good[..lent]);
        script.add_lent(lent, &bad[..lent]);
    }
    script.become_report(&too_many);
    script.add(&good);
    script.add_lent(REPORT - 1, &good);
    script.become_report(&bad);
    script.add(&good);
    script.add(&too_many);
    script.become_report(&good);
    script.add(&good);
}
