// Reports added to the one that is kept: those of lists, up to and past the limit of runs, with rows that do not agree, and of wrong
// lengths.

use crate::lists::{all_rules, any, count, few_rules, list, Listed, Run, MOST_RUNS, REPORT};
use crate::random::Random;
use crate::rows::{bytes_of, counted, dealt, no_runs, report, row, row_of, Row};
use crate::script::Script;
use crate::spoilt_rows::{Spoil, SPOILS};

// The reports of some nights, one after the other.
pub fn nights(script: &mut Script, random: &mut Random, large: bool) {
    script.report(Listed::of(&any(random, large)));
    for _ in 0..random.within(1, 3) {
        script.add(&report(&any(random, large)));
    }
}

// Few rules, which both reports have.
pub fn same_rules(script: &mut Script, random: &mut Random, large: bool) {
    let rules = few_rules(random);
    let night = |random: &mut Random| {
        let count = count(random, large);
        list(random, count, &rules)
    };
    script.report(Listed::of(&night(random)));
    script.add(&report(&night(random)));
}

// The same, but one of the reports has no false.
pub fn false_in_one(script: &mut Script, random: &mut Random, _: bool) {
    let rules = few_rules(random);
    let falses: Vec<Run> = (0..random.within(1, 12)).map(|_| [random.pick(&rules), 0, random.below(9) as u32]).collect();
    let others: Vec<Run> = list(random, 12, &rules).into_iter().filter(|run| run[1] != 0).collect();
    let (total, night) = if random.percent(50) { (falses, others) } else { (others, falses) };
    script.report(Listed::of(&total));
    script.add(&report(&night));
}

// No runs in one of the two, or in both.
pub fn nothing(script: &mut Script, random: &mut Random, large: bool) {
    let (total, night) = match random.below(5) {
        0 => (vec![], vec![]),
        1 | 2 => (vec![], any(random, large)),
        _ => (any(random, large), vec![]),
    };
    script.report(Listed::of(&total));
    script.add(&report(&night));
}

fn add(script: &mut Script, [total, night]: &[Vec<Row>; 2]) {
    script.become_report(&bytes_of(total));
    script.add(&bytes_of(night));
}

// Two reports with so many runs together, over few rules or over all.
fn together(random: &mut Random, runs: usize, large: bool) -> [Vec<Row>; 2] {
    let some = random.below(runs + 1);
    let first = random.pick(&[0, 1, runs / 2, runs - 1, runs, some, some]);
    [first, runs - first].map(|runs| {
        let rules = if large { all_rules() } else { few_rules(random) };
        dealt(random, runs, &rules)
    })
}

// As many as there may be, and then one more now and then.
pub fn most(script: &mut Script, random: &mut Random, large: bool) {
    let runs = MOST_RUNS - random.pick(&[0, 0, 0, 1]);
    add(script, &together(random, runs, large));
    if random.percent(50) {
        script.add(&report(&[[random.below(256) as u32, 1, 0]]));
    }
}

pub fn too_many(script: &mut Script, random: &mut Random, large: bool) {
    let runs = MOST_RUNS + random.pick(&[1, 1, 1, 2, 1000, MOST_RUNS]);
    add(script, &together(random, runs, large));
}

// A night again and again, until there are too many runs.
pub fn growing(script: &mut Script, random: &mut Random, _: bool) {
    let (rules, runs) = (few_rules(random), random.within(15_000, 40_000));
    let night = bytes_of(&dealt(random, runs, &rules));
    script.report(Listed::of(&list(random, 1, &rules)).repeated(runs));
    while script.add(&night) {}
}

// Two small reports, of which the first is kept.
fn two_small(script: &mut Script, random: &mut Random) -> [Vec<Row>; 2] {
    let [total, night] = [(); 2].map(|()| {
        let (rules, count) = (few_rules(random), random.within(0, 20));
        list(random, count, &rules)
    });
    script.report(Listed::of(&total));
    [counted(&total), counted(&night)]
}

// Runs that would be few if they were added up in 32 bits.
pub fn far_too_many(script: &mut Script, random: &mut Random, _: bool) {
    let mut reports = two_small(script, random);
    let some = random.pick(&[1 << 31, 1 << 31, (1 << 32) - 1]);
    for (runs, rule) in [(some, random.below(128)), ((1 << 32) - some, random.within(128, 255))] {
        reports[random.below(2)][rule] = [runs, 0, runs, 0, 0, 0, 0];
    }
    add(script, &reports);
}

// A row with three falses or more.
fn with_falses(random: &mut Random) -> Row {
    let verdicts = [random.pick(&[3, 4, 5, 20, 30_000]), random.below(3), random.below(3)];
    row_of(random, verdicts)
}

// One of the two is spoilt in a row, and then mended now and then.
pub fn spoilt(script: &mut Script, random: &mut Random, spoil: Spoil) {
    let mut reports = two_small(script, random);
    let (which, rule, row) = (random.below(2), few_rules(random)[0] as usize, with_falses(random));
    reports[which][rule] = row;
    spoil(&mut reports[which][rule], random);
    add(script, &reports);
    if random.percent(25) {
        reports[which][rule] = row;
        add(script, &reports);
    }
}

// 3 comes before 4.
pub fn too_many_and_spoilt(script: &mut Script, random: &mut Random, _: bool) {
    let mut reports = two_small(script, random);
    let (mut spoilt, (_, spoil)) = (with_falses(random), random.pick(SPOILS));
    spoil(&mut spoilt, random);
    reports[random.below(2)][random.below(128)] = spoilt;
    reports[random.below(2)][random.within(128, 255)] = row(random, MOST_RUNS + 1);
    add(script, &reports);
}

// Numbers without sense, in a few rows or in all.
pub fn any_numbers(script: &mut Script, random: &mut Random, large: bool) {
    let mut night = no_runs();
    for rule in if large { all_rules() } else { few_rules(random) } {
        night[rule as usize] = [(); 7].map(|()| random.pick(&[0, 0, 1, 2, 5, u64::from(u32::MAX)]));
    }
    script.add(&bytes_of(&night));
}

// What is kept is no report, but the state of a watch or what was left of one.
pub fn to_state(script: &mut Script, random: &mut Random, large: bool) {
    script.add(&report(&any(random, large)));
}

// One of the two has a wrong length, or both have, whatever they are.
pub fn lengths(script: &mut Script, random: &mut Random, large: bool) {
    let runs = random.pick(&[20, 20, MOST_RUNS + 1]);
    let [total, night] = together(random, runs, large).map(|rows| bytes_of(&rows));
    script.become_report(&total);
    for _ in 0..random.within(3, 5) {
        let [lent, given] = [(); 2].map(|()| random.pick(&[0, 1, 32, 4768, 8160, REPORT - 1, REPORT - 1]));
        let (lent, given) = random.pick(&[(lent, REPORT), (REPORT, given), (REPORT, given), (lent, given)]);
        script.add_lent(lent, &night[..given]);
    }
}
