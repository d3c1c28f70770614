// Inputs of the run program: a rule file and events, as they should be or with something wrong.

use crate::files::{self, Handed};
use crate::folded_rules;
use crate::patterns;
use crate::random::Random;
use crate::rules::{self, Rule};

type Case = fn(&mut Random) -> Vec<u8>;
type Pattern = fn(&mut Random, bool) -> Rule;

pub const CASES: &[(&str, Case)] = &[
    ("watch", watch),
    ("long watch", long_watch),
    ("cut short", cut_short),
    ("watch", watch),
    ("leftover bytes", leftover),
    ("total", total),
    ("folding", folding),
    ("event in no mask", event_outside),
    ("long watch", long_watch),
    ("limits", limits),
    ("broken file", broken_file),
    ("any rule", any_rule),
    ("folding at the limits", folding_limits),
    ("growing", growing),
];

// The rule file and so many events over its propositions.
fn input(random: &mut Random, rule: &Rule, events: usize) -> Vec<u8> {
    let union = rule.masks.iter().fold(0, |union, mask| union | mask);
    let mut bytes = files::of(rule).file;
    for _ in 0..events {
        bytes.extend((random.event() & union).to_le_bytes());
    }
    bytes
}

fn watched_rule(random: &mut Random) -> Rule {
    let pattern =
        random.pick::<Pattern>(&[patterns::small, patterns::small, patterns::until, patterns::chain, patterns::untils, patterns::wide]);
    pattern(random, false)
}

fn watch(random: &mut Random) -> Vec<u8> {
    let (rule, events) = (watched_rule(random), random.below(12));
    input(random, &rule, events)
}

// Rules that seldom come to a verdict.
fn long_watch(random: &mut Random) -> Vec<u8> {
    let pattern = random.pick::<Pattern>(&[patterns::responses, patterns::alternatives]);
    let large = random.percent(20);
    let (rule, events) = (pattern(random, large), random.within(5, 40));
    input(random, &rule, events)
}

fn cut_short(random: &mut Random) -> Vec<u8> {
    let rule = watched_rule(random);
    let mut file = input(random, &rule, 0);
    if random.percent(30) {
        file[random.below(12)] ^= 1; // what the header shows does not matter then
    }
    let length = random.pick(&[0, 1, 12, 15, 16, file.len() - 1, file.len() - 1]);
    file.truncate(length);
    file
}

fn leftover(random: &mut Random) -> Vec<u8> {
    let (rule, events) = (watched_rule(random), random.below(4));
    let mut bytes = input(random, &rule, events);
    bytes.extend(vec![random.word() as u8; random.within(1, 7)]);
    bytes
}

// A total that is out of range or not the file's, with bytes enough behind it.
fn total(random: &mut Random) -> Vec<u8> {
    let rule = watched_rule(random);
    let mut bytes = input(random, &rule, 2);
    let good = bytes.len() as u32 - 16;
    let total = random.pick(&[0, 15, 16, good - 1, good + 1, 1168, 1169, 1200, good | 1 << 16, good | 1 << 31, u32::MAX]);
    bytes[12..16].copy_from_slice(&total.to_le_bytes());
    bytes.resize(bytes.len() + 1200, 0);
    bytes
}

// Some event has a bit that no board has: the next one, the last one, or any above.
fn event_outside(random: &mut Random) -> Vec<u8> {
    let rule = patterns::small(random, false);
    let events = random.within(1, 4);
    let mut bytes = input(random, &rule, events);
    let bit = random.pick(&[rule.propositions, 63, 32]);
    let at = bytes.len() - 8 * random.within(1, events);
    bytes[at + bit as usize / 8] |= 1 << (bit % 8);
    bytes
}

// At load or one tick later at the limits of slots and nodes.
fn limits(random: &mut Random) -> Vec<u8> {
    let pattern = random.pick::<Pattern>(&[
        patterns::chain,
        patterns::nested_always,
        patterns::untils,
        patterns::node_limit,
        patterns::slots_and_nodes,
    ]);
    let rule = pattern(random, true);
    let rule = if random.percent(50) { patterns::later(rule) } else { rule };
    input(random, &rule, 3)
}

// Rules with constants; some are finished when they are loaded.
fn folding(random: &mut Random) -> Vec<u8> {
    let pattern = random.pick::<Pattern>(&[folded_rules::any, folded_rules::around_any, folded_rules::around_any, folded_rules::decided]);
    let (large, events) = (random.percent(20), random.below(12));
    let rule = pattern(random, large);
    input(random, &rule, events)
}

// The same where folding decides over 7 and 8, at load or, of what stands below next, one tick later.
fn folding_limits(random: &mut Random) -> Vec<u8> {
    let pattern = random.pick::<Pattern>(&[
        folded_rules::around_limit,
        folded_rules::fewer_slots,
        folded_rules::more_slots,
        folded_rules::more_nodes,
    ]);
    let large = random.percent(50);
    let rule = pattern(random, large);
    let rule = if random.percent(30) { patterns::later(rule) } else { rule };
    input(random, &rule, 3)
}

fn broken_file(random: &mut Random) -> Vec<u8> {
    let breaks: [fn(&mut Random, bool) -> Handed; 5] = [files::version, files::range, files::offset, files::several, files::flipped];
    let mut bytes = match random.below(7) {
        0 => files::of(&rules::bad_masks(random, false)).file,
        1 => files::of(&rules::bad_formula(random, false)).file,
        _ => random.pick(&breaks)(random, false).file,
    };
    bytes.extend(0u64.to_le_bytes());
    bytes
}

fn any_rule(random: &mut Random) -> Vec<u8> {
    let large = random.percent(20);
    let rule = rules::rule(random, large);
    input(random, &rule, 4)
}

// Always (a is answered by b) with a and b in turn, to its 63rd close.
fn growing(random: &mut Random) -> Vec<u8> {
    let rule = Rule { masks: vec![1, 2], propositions: 2, formula: vec![8, 4, 2, 64, 7, 65] };
    let mut bytes = files::of(&rule).file;
    for tick in 0..random.pick(&[20, 62, 63, 64u64]) {
        bytes.extend((1 + tick % 2).to_le_bytes());
    }
    bytes
}
