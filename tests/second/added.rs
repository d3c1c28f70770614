// What is claimed of add, tried on lists by chance and on all small rows: it gives the report of two lists together, it takes a row
// exactly where some list has it, which is where the numbers of the row agree, and its checks come in their order.

use std::collections::HashSet;

use crate::lists::{any, Run, MOST_RUNS};
use crate::model::refusal::Refusal;
use crate::model::report::REPORT;
use crate::random::Random;
use crate::rows::{bytes_of, dealt, no_runs, report, row_of, Row, EARLIEST, FALSES, LATEST, PENDINGS, RUNS, SUM, TRUES};
use crate::spoilt_rows::SPOILS;
use crate::trying::{added, reported};

// The report that has this row for a rule and no other runs.
fn lone(rule: usize, row: Row) -> Vec<u8> {
    let mut rows = no_runs();
    rows[rule] = row;
    bytes_of(&rows)
}

fn nothing() -> Vec<u8> {
    bytes_of(&no_runs())
}

#[test]
fn two_reports_give_that_of_both_lists() {
    let mut random = Random::new(1);
    for round in 0..1000 {
        let (first, second) = (any(&mut random, round % 20 == 0), any(&mut random, round % 30 == 0));
        let (total, night) = (reported(&first).unwrap(), reported(&second).unwrap());
        let both = reported(&[&first[..], &second].concat()).unwrap();
        assert_eq!(added(&total, &night).as_ref(), Ok(&both), "{first:?} {second:?}");
        assert_eq!(added(&night, &total).as_ref(), Ok(&both), "{first:?} {second:?}");
        assert_eq!(added(&total, &nothing()).as_ref(), Ok(&total), "{first:?}");
        assert_eq!(added(&nothing(), &total).as_ref(), Ok(&total), "{first:?}");
    }
}

// As many runs as there may be, wherever they are parted; and one more.
#[test]
fn so_do_the_reports_of_long_lists() {
    let mut random = Random::new(2);
    for rules in [1, 3, 256] {
        let mut run = || [random.below(rules) as u32, random.below(3) as u32, random.word() as u32];
        let list: Vec<Run> = (0..MOST_RUNS).map(|_| run()).collect();
        let one_more = reported(&[run()]).unwrap();
        let both = reported(&list).unwrap();
        for place in [0, 1, 20_000, MOST_RUNS - 1, MOST_RUNS] {
            let (total, night) = (reported(&list[..place]).unwrap(), reported(&list[place..]).unwrap());
            assert_eq!(added(&total, &night).as_ref(), Ok(&both));
        }
        assert_eq!(added(&both, &one_more), Err(Refusal::Range));
        assert_eq!(added(&one_more, &both), Err(Refusal::Range));
    }
}

// The sum of two rows, word by word as part 9.4 of the rules has it.
fn sum_of(one: &Row, other: &Row) -> Row {
    let mut sum = [0; 7];
    for number in [RUNS, FALSES, TRUES, PENDINGS, SUM] {
        sum[number] = one[number] + other[number];
    }
    let of_both = |number: usize, choose: fn(u64, u64) -> u64| match (one[FALSES], other[FALSES]) {
        (0, _) => other[number],
        (_, 0) => one[number],
        _ => choose(one[number], other[number]),
    };
    sum[EARLIEST] = of_both(EARLIEST, u64::min);
    sum[LATEST] = of_both(LATEST, u64::max);
    sum
}

#[test]
fn rows_are_added_each_by_itself() {
    let mut random = Random::new(3);
    for _ in 0..300 {
        let runs = random.pick(&[3, 100, 2000, 2000, MOST_RUNS / 2]);
        let [total, night] = [(); 2].map(|()| {
            let rules: Vec<u32> = (0..256).filter(|_| random.percent(10)).collect();
            dealt(&mut random, runs, &rules)
        });
        let sum: Vec<Row> = total.iter().zip(&night).map(|(one, other)| sum_of(one, other)).collect();
        assert_eq!(added(&bytes_of(&total), &bytes_of(&night)), Ok(bytes_of(&sum)));
    }
}

// Whether the numbers of a row agree, word by word as part 9.4 has it.
fn agrees(row: &Row) -> bool {
    let [runs, falses, trues, pendings, earliest, latest, sum] = row.map(u128::from);
    runs == falses + trues + pendings
        && if falses == 0 {
            [earliest, latest, sum] == [0; 3]
        } else {
            earliest <= latest && latest + (falses - 1) * earliest <= sum && sum <= earliest + (falses - 1) * latest
        }
}

// That a row is taken, in either report and added to nothing, or is refused in both.
fn is_taken(rule: usize, row: Row, taken: bool) {
    let report = lone(rule, row);
    let wanted = if taken { Ok(report.clone()) } else { Err(Refusal::Offset) };
    assert_eq!(added(&nothing(), &report), wanted, "{row:?}");
    assert_eq!(added(&report, &nothing()), wanted, "{row:?}");
}

// The earliest, the latest and the sum of every list of so many ticks, none of them above this one.
fn of_all_lists(count: usize, most: u64) -> HashSet<[u64; 3]> {
    let mut lists: Vec<Vec<u64>> = vec![vec![]];
    for _ in 0..count {
        lists = lists.iter().flat_map(|list| (0..=most).map(move |tick| [&list[..], &[tick]].concat())).collect();
    }
    let bound = |tick: Option<&u64>| tick.copied().unwrap_or(0);
    lists.iter().map(|list| [bound(list.iter().min()), bound(list.iter().max()), list.iter().sum()]).collect()
}

#[test]
fn a_row_is_taken_exactly_where_a_list_has_it() {
    let mut counts = [0; 2];
    for falses in 0..=4 {
        let possible = of_all_lists(falses as usize, 6);
        for (earliest, latest) in (0..=6).flat_map(|earliest| (0..=6).map(move |latest| (earliest, latest))) {
            for sum in 0..=25 {
                let row = [falses + 2, falses, 0, 2, earliest, latest, sum];
                let taken = possible.contains(&[earliest, latest, sum]);
                counts[usize::from(taken)] += 1;
                assert_eq!(agrees(&row), taken, "{row:?}");
                is_taken(7, row, taken);
            }
        }
    }
    assert!(counts[0] > 5000 && counts[1] > 250, "{counts:?}");
}

#[test]
fn runs_are_the_three_counts_added_up() {
    let each = |most: u64| (0..=most).flat_map(move |one| (0..=most).map(move |other| (one, other)));
    for ((runs, falses), (trues, pendings)) in each(7).flat_map(|first| each(2).map(move |second| (first, second))) {
        let ticks = if falses == 0 { [0; 3] } else { [3, 3, 3 * falses] };
        let row = [runs, falses, trues, pendings, ticks[0], ticks[1], ticks[2]];
        is_taken(255, row, runs == falses + trues + pendings);
    }
}

// Ticks and sums of the whole range, at their bounds and past them, in every row.
#[test]
fn rows_of_large_numbers() {
    let mut random = Random::new(4);
    let mut counts = [[0; 2]; 2];
    for round in 0..5000 {
        let falses = random.pick(&[3, 4, 5, 20, 500]);
        let verdicts = [falses, random.below(3), random.below(3)];
        let mut row = row_of(&mut random, verdicts);
        is_taken(round % 256, row, true);
        let (_, spoil) = random.pick(SPOILS);
        spoil(&mut row, &mut random);
        row[..SUM].iter_mut().for_each(|number| *number %= 1 << 32);
        let (taken, few) = (agrees(&row), row[RUNS] <= MOST_RUNS as u64);
        counts[usize::from(few)][usize::from(taken)] += 1;
        if few {
            is_taken(round % 256, row, taken);
        } else {
            assert_eq!(added(&lone(round % 256, row), &nothing()), Err(Refusal::Range), "{row:?}");
        }
    }
    assert!(counts[1].iter().all(|&count| count > 1000) && counts[0][0] > 50, "{counts:?}");
}

#[test]
fn the_largest_sums() {
    let (most, last) = (MOST_RUNS as u64, u64::from(u32::MAX));
    for (earliest, lowest) in [(0, last), (1, last + most - 1), (last - 1, last + (most - 1) * (last - 1)), (last, most * last)] {
        let row = |sum: u64| [most, most, 0, 0, earliest, last, sum];
        let highest = earliest + (most - 1) * last;
        is_taken(0, row(lowest), true);
        is_taken(0, row(highest), true);
        for sum in [lowest - 1, highest + 1, 0, lowest % (1 << 32), highest % (1 << 32), highest | 1 << 48, u64::MAX] {
            is_taken(0, row(sum), (lowest..=highest).contains(&sum));
        }
    }
}

// Not even a bit of one.
#[test]
fn no_false_has_no_ticks() {
    let row = [2, 0, 1, 1, 0, 0, 0];
    is_taken(7, row, true);
    for (number, bits) in [(EARLIEST, 32), (LATEST, 32), (SUM, 64)] {
        for bit in 0..bits {
            let mut row = row;
            row[number] = 1 << bit;
            is_taken(7, row, false);
        }
    }
}

// More than 65,536 runs are 3, whether they agree or not, also where they would be few in 32 bits, or in fewer.
#[test]
fn three_comes_before_four() {
    let trues = |runs: u64| [runs, 0, runs, 0, 0, 0, 0];
    let disagreeing = |runs: u64| [runs, 0, 0, 1, 7, 5, 9];
    for row in [trues, disagreeing] {
        for (one, other) in [(65_537, 0), (65_536, 1), (32_768, 32_769), (1 << 31, 1 << 31), ((1 << 32) - 1, 1), (1 << 16, 1 << 16)] {
            assert_eq!(added(&lone(7, row(one)), &lone(7, row(other))), Err(Refusal::Range));
            assert_eq!(added(&lone(255, row(other)), &lone(0, row(one))), Err(Refusal::Range));
            let mut both = no_runs();
            both[3] = row(one);
            both[200] = row(other);
            assert_eq!(added(&bytes_of(&both), &nothing()), Err(Refusal::Range));
            assert_eq!(added(&nothing(), &bytes_of(&both)), Err(Refusal::Range));
        }
        assert_eq!(added(&bytes_of(&[row(1 << 24); 256]), &nothing()), Err(Refusal::Range));
        assert_eq!(added(&bytes_of(&[row(u32::MAX.into()); 256]), &bytes_of(&[row(u32::MAX.into()); 256])), Err(Refusal::Range));
    }
    assert_eq!(added(&lone(7, disagreeing(65_535)), &lone(7, trues(1))), Err(Refusal::Offset));
    // runs are the first number of a row, not the counts added up
    assert_eq!(added(&lone(7, [1, 0, 70_000, 0, 0, 0, 0]), &nothing()), Err(Refusal::Offset));
    assert_eq!(added(&lone(7, [70_000, 0, 1, 0, 0, 0, 0]), &nothing()), Err(Refusal::Range));
}

#[test]
fn one_comes_before_both() {
    let good = report(&[[7, 0, 5]]);
    let (too_many, disagreeing) = (lone(7, [65_537, 0, 65_537, 0, 0, 0, 0]), lone(7, [1, 0, 0, 0, 0, 0, 0]));
    for length in [0, 1, 32, 4768, REPORT - 32, REPORT - 1, REPORT + 1, REPORT + 32] {
        for one in [&good, &too_many, &disagreeing] {
            for other in [&good, &too_many, &disagreeing] {
                let mut wrong = other.clone();
                wrong.resize(length, 0);
                assert_eq!(added(one, &wrong), Err(Refusal::Length));
                assert_eq!(added(&wrong, one), Err(Refusal::Length));
                assert_eq!(added(&wrong, &wrong), Err(Refusal::Length));
            }
        }
    }
}
