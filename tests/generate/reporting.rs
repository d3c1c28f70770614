// Requests for report: lists over few rules and many, with bad runs in them, of wrong lengths, and up to and past the limit of runs.

use crate::lists::*;
use crate::random::Random;

pub fn few(random: &mut Random, large: bool) -> Listed {
    let (rules, count) = (few_rules(random), count(random, large));
    Listed::of(&list(random, count, &rules))
}

pub fn many(random: &mut Random, large: bool) -> Listed {
    let count = count(random, large);
    Listed::of(&list(random, count, &all_rules()))
}

// One run.
pub fn one(random: &mut Random, _: bool) -> Listed {
    let rules = few_rules(random);
    Listed::of(&list(random, 1, &rules))
}

// No runs at all, or no time over, whatever they are.
pub fn none(random: &mut Random, _: bool) -> Listed {
    let runs = match random.below(3) {
        0 => vec![],
        1 => any(random, false),
        _ => vec![bad(random)],
    };
    let repeats = if runs.is_empty() { random.pick(&[0, 1, 2, 65_537]) } else { 0 };
    Listed::of(&runs).repeated(repeats)
}

// Each run as often as the others.
pub fn repeated(random: &mut Random, large: bool) -> Listed {
    let repeats = random.within(2, 40);
    Listed::of(&any(random, large)).repeated(repeats)
}

// A list with a run in it at least.
fn some(random: &mut Random, large: bool) -> Vec<Run> {
    let mut list = any(random, large);
    if list.is_empty() {
        list.push([0, 0, 0]);
    }
    list
}

pub fn bad_first(random: &mut Random, large: bool) -> Listed {
    let mut list = some(random, large);
    list[0] = bad(random);
    Listed::of(&list)
}

pub fn bad_last(random: &mut Random, large: bool) -> Listed {
    let mut list = some(random, large);
    let last = list.len() - 1;
    list[last] = bad(random);
    Listed::of(&list)
}

pub fn bad_between(random: &mut Random, large: bool) -> Listed {
    let mut list = some(random, large);
    let place = random.below(list.len());
    list[place] = bad(random);
    Listed::of(&list)
}

// Several of them: the first is told.
pub fn several_bad(random: &mut Random, large: bool) -> Listed {
    let mut list = some(random, large);
    for _ in 0..random.within(2, 5) {
        let place = random.below(list.len());
        list[place] = bad(random);
    }
    let repeats = random.pick(&[1, 1, 2, 10]);
    Listed::of(&list).repeated(repeats)
}

// Any numbers.
pub fn numbers(random: &mut Random, _: bool) -> Listed {
    let number = |random: &mut Random| random.pick(&[0, 1, 2, 2, 3, 255, 256, u32::MAX]);
    let list: Vec<Run> =
        (0..random.within(1, 6)).map(|_| [number(random), random.pick(&[0, 1, 2, 2, 3, u32::MAX]), number(random)]).collect();
    Listed::of(&list)
}

// Cut or extended inside a run, whether a run is bad or not: 1 comes before 19.
pub fn broken(random: &mut Random, large: bool) -> Listed {
    let list = if random.percent(30) { vec![bad(random); random.within(1, 20)] } else { some(random, large) };
    let mut listed = Listed::of(&list);
    if random.percent(50) {
        listed.runs.truncate(listed.runs.len() - random.within(1, 11));
    } else {
        listed.runs.resize((listed.runs.len() + random.within(1, 11)).min(8191), random.word() as u8);
    }
    let repeats = random.pick(&[1, 1, 1, 5, 7]);
    listed.repeated(repeats)
}

// The payload is no whole number of runs, but so many times over it is: each number of it stands in each place of a run.
pub fn shifted(random: &mut Random, large: bool) -> Listed {
    let most = random.pick(&[1, 2, 2, 2, 9]);
    let mut numbers = vec![0; if large { 3 * MOST_GIVEN + 1 } else { 3 * random.below(10) + random.within(1, 2) }];
    for _ in 0..random.within(1, 20) {
        let place = random.below(numbers.len());
        numbers[place] = random.below(most + 1) as u32;
    }
    let runs = numbers.iter().flat_map(|number: &u32| number.to_le_bytes()).collect();
    Listed { runs, repeats: 3 * random.within(1, 10), lent: REPORT }
}

// Whatever the runs are.
pub fn wrong_lent(random: &mut Random, large: bool) -> Listed {
    let list = if random.percent(40) { vec![bad(random); random.within(1, 20)] } else { any(random, large) };
    Listed::of(&list).lending(random.pick(&[0, 1, 32, 1024, 4768, 8160, REPORT - 1, REPORT - 1]))
}

// Runs that, so many times over, are so many.
fn times(random: &mut Random, runs: usize, given: &[usize]) -> Listed {
    let (given, rules) = (random.pick(given), if random.percent(50) { few_rules(random) } else { all_rules() });
    assert_eq!(runs % given, 0);
    Listed::of(&list(random, given, &rules)).repeated(runs / given)
}

pub fn most(random: &mut Random, _: bool) -> Listed {
    let runs = MOST_RUNS - random.pick(&[0, 0, 0, 512]);
    times(random, runs, &[1, 1, 2, 8, 64, 512])
}

// One run more or two, or some bytes.
pub fn too_many(random: &mut Random, _: bool) -> Listed {
    match random.below(4) {
        0 | 1 => times(random, MOST_RUNS + 1, &[1]),
        2 => times(random, MOST_RUNS + 2, &[1, 2, 6, 66, 331, 662]),
        _ => Listed { runs: vec![0], repeats: 12 * MOST_RUNS + random.within(1, 23), lent: REPORT },
    }
}

// As many as there may be, or one more: 1 comes before 19.
pub fn most_bad(random: &mut Random, _: bool) -> Listed {
    let mut listed = if random.percent(70) { most(random, true) } else { times(random, MOST_RUNS + 1, &[1]) };
    let bad = bytes_of(&[bad(random)]);
    let place = listed.runs.len() - bad.len();
    listed.runs[place..].copy_from_slice(&bad);
    listed
}
