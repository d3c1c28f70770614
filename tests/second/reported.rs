// What is claimed of report, tried on lists by chance and on the longest ones: it is what counting the runs one after the other gives, it
// does not depend on their order, all numbers of the full range fit, and of several bad runs the first is told.

use crate::lists::{any, bad, bytes_of, Run, MOST_RUNS};
use crate::model::refusal::Refusal;
use crate::model::report::{report, NotReported, REPORT};
use crate::random::Random;
use crate::replay::lent_bytes;
use crate::rows::{self, no_runs, Row};
use crate::trying::reported;

const LAST: u32 = u32::MAX;

// A report with these rows and no other runs.
fn only(rows: &[(u32, Row)]) -> Result<Vec<u8>, NotReported> {
    let mut all = no_runs();
    rows.iter().for_each(|&(rule, row)| all[rule as usize] = row);
    Ok(rows::bytes_of(&all))
}

// Every order is as likely as the others.
fn shuffled(random: &mut Random, mut list: Vec<Run>) -> Vec<Run> {
    for end in (1..list.len()).rev() {
        list.swap(end, random.below(end + 1));
    }
    list
}

#[test]
fn runs_may_be_counted_one_after_the_other() {
    let mut random = Random::new(1);
    for round in 0..3000 {
        let list = any(&mut random, round % 20 == 0);
        assert_eq!(reported(&list), Ok(rows::report(&list)), "{list:?}");
    }
}

#[test]
fn the_order_does_not_matter() {
    let mut random = Random::new(2);
    for round in 0..1000 {
        let list = any(&mut random, round % 20 == 0);
        let report = reported(&list);
        assert!(report.is_ok());
        let turned: Vec<Run> = list.iter().rev().copied().collect();
        assert_eq!(reported(&turned), report, "{list:?}");
        let mut sorted = list.clone();
        sorted.sort();
        assert_eq!(reported(&sorted), report, "{list:?}");
        for _ in 0..5 {
            assert_eq!(reported(&shuffled(&mut random, list.clone())), report, "{list:?}");
        }
    }
    let long = (0..MOST_RUNS).map(|i| [i as u32 % 256, i as u32 / 256 % 3, random.word() as u32]).collect::<Vec<Run>>();
    assert_eq!(reported(&shuffled(&mut random, long.clone())), reported(&long));
}

// Every order of each list of up to five runs out of some that differ in one thing each.
#[test]
fn every_order_of_short_lists() {
    fn orders(list: &[Run]) -> Vec<Vec<Run>> {
        if list.is_empty() {
            return vec![vec![]];
        }
        let without = |place: usize| [&list[..place], &list[place + 1..]].concat();
        (0..list.len()).flat_map(|place| orders(&without(place)).into_iter().map(move |rest| [vec![list[place]], rest].concat())).collect()
    }
    let runs = [[7, 0, 5], [7, 0, 3], [7, 1, 5], [7, 2, 0], [8, 0, 5], [7, 0, LAST], [7, 0, 0]];
    for chosen in 0..1 << runs.len() {
        let list: Vec<Run> = (0..runs.len()).filter(|i| chosen >> i & 1 == 1).map(|i| runs[i]).collect();
        if list.len() <= 5 {
            let report = reported(&list);
            assert!(orders(&list).iter().all(|order| reported(order) == report), "{list:?}");
        }
    }
}

#[test]
fn every_rule_and_verdict_has_its_place() {
    for rule in 0..256 {
        assert_eq!(reported(&[[rule, 0, 9]]), only(&[(rule, [1, 1, 0, 0, 9, 9, 9])]));
        assert_eq!(reported(&[[rule, 1, 9]]), only(&[(rule, [1, 0, 1, 0, 0, 0, 0])]));
        assert_eq!(reported(&[[rule, 2, 9]]), only(&[(rule, [1, 0, 0, 1, 0, 0, 0])]));
    }
    for rule in [256, 257, 511, 1 << 8 | 7, 1 << 16, 1 << 31, LAST] {
        assert_eq!(reported(&[[rule, 0, 9]]), Err(NotReported::BadRun(0)));
    }
    for verdict in [3, 4, 255, 256, 1 << 16, 1 << 31, LAST] {
        assert_eq!(reported(&[[7, verdict, 9]]), Err(NotReported::BadRun(0)));
    }
}

#[test]
fn the_largest_numbers_fit() {
    let most = MOST_RUNS as u64;
    let last = u64::from(LAST);
    assert_eq!(reported(&vec![[255, 0, LAST]; MOST_RUNS]), only(&[(255, [most, most, 0, 0, last, last, (1 << 48) - (1 << 16)])]));
    assert_eq!(reported(&vec![[0, 1, LAST]; MOST_RUNS]), only(&[(0, [most, 0, most, 0, 0, 0, 0])]));
    assert_eq!(reported(&vec![[0, 2, LAST]; MOST_RUNS]), only(&[(0, [most, 0, 0, most, 0, 0, 0])]));
    let mixed = [vec![[9, 0, LAST]; MOST_RUNS - 1], vec![[9, 0, 0]]].concat();
    assert_eq!(reported(&mixed), only(&[(9, [most, most, 0, 0, 0, last, last * (most - 1)])]));
    let mut random = Random::new(3);
    let long: Vec<Run> = (0..MOST_RUNS).map(|_| [random.below(256) as u32, random.below(3) as u32, random.word() as u32]).collect();
    assert_eq!(reported(&long), Ok(rows::report(&long)));
    assert_eq!(reported(&vec![[255, 0, LAST]; MOST_RUNS + 1]), Err(NotReported::Refused(Refusal::Length)));
}

#[test]
fn the_first_bad_run_is_told() {
    let mut random = Random::new(4);
    for round in 0..2000 {
        let mut list = any(&mut random, round % 20 == 0);
        list.push([0, 0, 0]);
        let mut places: Vec<usize> = (0..random.within(1, 4)).map(|_| random.below(list.len())).collect();
        places.sort();
        places.iter().for_each(|&place| list[place] = bad(&mut random));
        assert_eq!(reported(&list), Err(NotReported::BadRun(places[0] as u64)), "{list:?}");
    }
    let mut long = vec![[0, 0, 0]; MOST_RUNS];
    for place in [MOST_RUNS - 1, MOST_RUNS / 2, 256, 0] {
        long[place] = bad(&mut random);
        assert_eq!(reported(&long), Err(NotReported::BadRun(place as u64)));
    }
}

#[test]
fn one_comes_before_nineteen() {
    let (good, bad) = (bytes_of(&[[7, 0, 5]; 4]), bytes_of(&[[256, 3, 5]; 4]));
    for runs in [&good, &bad] {
        for length in (0..=runs.len()).filter(|length| length % 12 != 0) {
            let mut output = lent_bytes(REPORT as u64);
            assert_eq!(report(&runs[..length], &mut output), Err(NotReported::Refused(Refusal::Length)));
            assert_eq!(output, lent_bytes(REPORT as u64));
        }
        for lent in [0, 1, 32, 4768, REPORT - 1, REPORT + 1, 2 * REPORT] {
            let mut output = lent_bytes(lent as u64);
            assert_eq!(report(runs, &mut output), Err(NotReported::Refused(Refusal::Length)));
            assert_eq!(output, lent_bytes(lent as u64));
        }
    }
    assert_eq!(reported(&vec![[256, 3, 5]; MOST_RUNS + 1]), Err(NotReported::Refused(Refusal::Length)));
    assert_eq!(reported(&vec![[256, 3, 5]; MOST_RUNS]), Err(NotReported::BadRun(0)));
}
