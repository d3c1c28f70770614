// Named lists and reports, with the rows that each must give, and requests for them with their answers.

use crate::lists::{bytes_of, Run, MOST_RUNS};
use crate::model::refusal::Refusal;
use crate::model::report::NotReported;
use crate::replay::replay;
use crate::rows::{self, no_runs, report, Row};
use crate::trying::{added, reported, request};

const LAST: u32 = u32::MAX;
const ONE_FALSE: &[Run] = &[[7, 0, 5]];
const ONE_RULE: &[Run] = &[[7, 0, 5], [7, 1, 9], [7, 0, 3], [7, 2, 1], [7, 0, 5]];
const TWO_RULES: &[Run] = &[[0, 0, 4], [255, 2, 8], [0, 1, LAST], [255, 0, LAST], [0, 0, 0]];

fn only(rows: &[(usize, Row)]) -> Vec<u8> {
    let mut all = no_runs();
    rows.iter().for_each(|&(rule, row)| all[rule] = row);
    rows::bytes_of(&all)
}

fn trues(count: u64) -> Vec<u8> {
    only(&[(7, [count, 0, count, 0, 0, 0, 0])])
}

fn gives(list: &[Run], rows: &[(usize, Row)]) {
    assert_eq!(reported(list), Ok(only(rows)), "{list:?}");
}

#[test]
fn lists() {
    let last = LAST.into();
    gives(&[], &[]);
    gives(ONE_FALSE, &[(7, [1, 1, 0, 0, 5, 5, 5])]);
    gives(ONE_RULE, &[(7, [5, 3, 1, 1, 3, 5, 13])]);
    gives(TWO_RULES, &[(0, [3, 2, 1, 0, 0, 4, 4]), (255, [2, 1, 0, 1, last, last, last])]);
    // a false at tick 0 is told by its count alone
    gives(&[[7, 0, 0]], &[(7, [1, 1, 0, 0, 0, 0, 0])]);
    gives(&[[7, 1, 5], [7, 2, 6]], &[(7, [2, 0, 1, 1, 0, 0, 0])]);
}

#[test]
fn the_bytes_of_a_row() {
    let report = reported(&[[1, 0, 0x0102_0304], [1, 0, LAST], [1, 1, 0]]).unwrap();
    let row = [3, 0, 0, 0, 2, 0, 0, 0, 1, 0, 0, 0, 0, 0, 0, 0, 4, 3, 2, 1, 255, 255, 255, 255, 3, 3, 2, 1, 1, 0, 0, 0];
    assert_eq!(report[32..64], row);
    assert!(report[..32].iter().chain(&report[64..]).all(|&byte| byte == 0));
    assert_eq!(report.len(), 8192);
}

#[test]
fn places() {
    assert_eq!(reported(&[[7, 0, 5], [7, 0, 5], [256, 0, 5]]), Err(NotReported::BadRun(2)));
    assert_eq!(reported(&[[7, 3, 5], [7, 0, 5], [7, 0, 5]]), Err(NotReported::BadRun(0)));
    assert_eq!(reported(&[[7, 0, 5], [7, LAST, 5], [LAST, 0, 5]]), Err(NotReported::BadRun(1)));
}

#[test]
fn sums() {
    let [false_one, rule, two] = [ONE_FALSE, ONE_RULE, TWO_RULES].map(report);
    assert_eq!(added(&rule, &false_one), Ok(only(&[(7, [6, 4, 1, 1, 3, 5, 18])])));
    assert_eq!(added(&false_one, &false_one), Ok(only(&[(7, [2, 2, 0, 0, 5, 5, 10])])));
    assert_eq!(added(&two, &two).as_deref().map(|sum| &sum[..32]), Ok(&only(&[(0, [6, 4, 2, 0, 0, 4, 8])])[..32]));
    // ticks come from the one that has a false
    let none_false = only(&[(7, [2, 0, 1, 1, 0, 0, 0])]);
    assert_eq!(added(&none_false, &false_one), Ok(only(&[(7, [3, 1, 1, 1, 5, 5, 5])])));
    assert_eq!(added(&false_one, &none_false), Ok(only(&[(7, [3, 1, 1, 1, 5, 5, 5])])));
}

// Three falses from tick 3 to tick 5: the third is from 3 to 5 too.
#[test]
fn bounds() {
    for sum in 0..30 {
        let row = only(&[(7, [5, 3, 1, 1, 3, 5, sum])]);
        let wanted = if (11..=13).contains(&sum) { Ok(row.clone()) } else { Err(Refusal::Offset) };
        assert_eq!(added(&row, &only(&[])), wanted);
    }
}

// A request of report with this payload, repeated so often, and a request of add.
fn asked(payload: &[u8], repeats: usize, lent: usize) -> Vec<u8> {
    request(13, [payload.len() as u32, repeats as u32, lent as u32], payload)
}

fn asked_to_add(night: &[u8], lent: usize) -> Vec<u8> {
    request(14, [night.len() as u32, lent as u32, 0], night)
}

#[test]
fn answers() {
    let (run, bad, night) = (bytes_of(ONE_FALSE), bytes_of(&[[7, 0, 5], [7, 3, 5]]), report(ONE_FALSE));
    for (request, front) in [
        (asked(&run, 1, 8192), "0"),
        (asked(&run, MOST_RUNS, 8192), "0"),
        (asked(&run, MOST_RUNS + 1, 8192), "1"),
        (asked(&run, MOST_RUNS + 2, 8192), "1"),
        (asked(&bad, 3, 8192), "19 1"),
        (asked(&bad, 0, 8192), "0"),
        (asked(&bad, 3, 8191), "1"),
        (asked(&[], u32::MAX as usize, 8192), "0"),
        (asked(&[0], 12, 8192), "0"),
        (asked(&[0], 13, 8192), "1"),
        (asked_to_add(&night, 8192), "0"),
        (asked_to_add(&night, 8191), "1"),
        (asked_to_add(&run, 8192), "1"),
        (asked_to_add(&trues(65_536), 8192), "0"),
        (asked_to_add(&trues(65_537), 8192), "3"),
        (asked_to_add(&only(&[(7, [1, 0, 0, 0, 0, 0, 0])]), 8192), "4"),
    ] {
        let answer = replay(&request);
        assert_eq!(answer.rsplit_once(' ').map(|(front, _hash)| front), Some(front));
    }
}

// Adding nothing shows what is kept: the last report that was accepted, and what was added to it.
#[test]
fn what_is_kept() {
    let shows = |requests: &[Vec<u8>], list: &[Run]| {
        let (shown, again) = (asked_to_add(&report(&[]), 8192), asked(&bytes_of(list), 1, 8192));
        let answers = replay(&[requests.concat(), shown, again].concat());
        let hashes: Vec<&str> = answers.lines().rev().take(2).collect();
        assert_eq!(hashes[0], hashes[1], "{list:?}");
    };
    let (one, rule, two) = (bytes_of(ONE_FALSE), bytes_of(ONE_RULE), report(TWO_RULES));
    let first = asked(&one, 1, 8192);
    shows(&[], &[]);
    shows(&[first.clone()], ONE_FALSE);
    shows(&[first.clone(), asked(&rule, 1, 8192)], ONE_RULE);
    shows(&[first.clone(), asked(&rule, 1, 8191), asked(&bytes_of(&[[256, 0, 0]]), 1, 8192)], ONE_FALSE);
    shows(&[first.clone(), asked(&rule, 0, 8192)], &[]);
    shows(&[first.clone(), asked_to_add(&two, 8192)], &[ONE_FALSE, TWO_RULES].concat());
    shows(&[first.clone(), asked_to_add(&two, 8191), asked_to_add(&two[..8191], 8192), asked_to_add(&trues(65_536), 8192)], ONE_FALSE);
    shows(&[asked_to_add(&two, 8192), asked_to_add(&two, 8192)], &[TWO_RULES, TWO_RULES].concat());
}
