// Lists of runs, by chance and with bad runs in them, and how they are handed to report.

use crate::random::Random;

// The number of its rule, its verdict and its tick.
pub type Run = [u32; 3];

pub const REPORT: usize = 8192;
pub const MOST_RUNS: usize = 65_536;
pub const MOST_GIVEN: usize = 682; // runs in a payload

const LAST: u32 = u32::MAX;

// The bytes of some runs, how often they are repeated, and how much is lent for their report.
pub struct Listed {
    pub runs: Vec<u8>,
    pub repeats: usize,
    pub lent: usize,
}

impl Listed {
    pub fn of(list: &[Run]) -> Listed {
        Listed { runs: bytes_of(list), repeats: 1, lent: REPORT }
    }

    pub fn repeated(self, repeats: usize) -> Listed {
        Listed { repeats, ..self }
    }

    pub fn lending(self, lent: usize) -> Listed {
        Listed { lent, ..self }
    }
}

pub fn bytes_of(list: &[Run]) -> Vec<u8> {
    list.iter().flatten().flat_map(|number| number.to_le_bytes()).collect()
}

pub fn tick(random: &mut Random) -> u32 {
    match random.below(8) {
        0 => 0,
        1 => LAST,
        2 => LAST - random.below(4) as u32,
        3 => random.word() as u32,
        4 => random.below(100_000) as u32,
        _ => random.below(10) as u32,
    }
}

// One rule to four, in their order.
pub fn few_rules(random: &mut Random) -> Vec<u32> {
    let any = |random: &mut Random| random.below(256) as u32;
    let rule = |random: &mut Random| if random.percent(40) { any(random) } else { random.pick(&[0, 1, 7, 148, 149, 254, 255]) };
    let mut rules: Vec<u32> = (0..random.within(1, 4)).map(|_| rule(random)).collect();
    rules.sort();
    rules.dedup();
    rules
}

pub fn all_rules() -> Vec<u32> {
    (0..256).collect()
}

// So many runs of these rules, of all verdicts or of some.
pub fn list(random: &mut Random, count: usize, rules: &[u32]) -> Vec<Run> {
    let verdicts = random.pick::<&[u32]>(&[&[0, 1, 2], &[0, 1, 2], &[0, 0, 0, 1, 2], &[0, 1, 1, 1, 2], &[0, 1], &[1, 2], &[0], &[1], &[2]]);
    (0..count).map(|_| [random.pick(rules), random.pick(verdicts), tick(random)]).collect()
}

// How many runs a list has.
pub fn count(random: &mut Random, large: bool) -> usize {
    if large {
        MOST_GIVEN - random.pick(&[0, 0, 1, 100])
    } else {
        let most = random.pick(&[3, 12, 100]);
        random.within(0, most)
    }
}

// Over few rules, or over all.
pub fn any(random: &mut Random, large: bool) -> Vec<Run> {
    let rules = if random.percent(60) { few_rules(random) } else { all_rules() };
    let count = count(random, large);
    list(random, count, &rules)
}

// A run whose rule number or verdict is none, or both: compared whole, high bits above a good number do not go unseen.
pub fn bad(random: &mut Random) -> Run {
    let (rule, verdict) = (random.below(256) as u32, random.below(3) as u32);
    let no_rule = random.pick(&[256, 256, 257, 1 << 16, LAST, rule | 1 << 8, rule | 1 << 16, rule | 1 << 31]);
    let no_verdict = random.pick(&[3, 3, 4, 255, LAST, verdict | 1 << 8, verdict | 1 << 16, verdict | 1 << 31]);
    match random.below(5) {
        0 | 1 => [no_rule, verdict, tick(random)],
        2 | 3 => [rule, no_verdict, tick(random)],
        _ => [no_rule, no_verdict, tick(random)],
    }
}
