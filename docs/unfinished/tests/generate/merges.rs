// Rules and states at the limits of slots and nodes as these are counted when slots are merged, and some that pass them before alone.

use crate::captures;
use crate::files;
use crate::formulas::nested;
use crate::model::folding::fold;
use crate::model::formula::{parse_rule, parse_slot};
use crate::model::merging::merged;
use crate::model::splitting::{lay_again, lay_rule, Laid};
use crate::model::state::{Board, Network, Slot, MOST_NODES};
use crate::patterns::{conjunction, dealt, later};
use crate::random::Random;
use crate::rules::Rule;
use crate::script::Script;
use crate::tangled;
use crate::watches::{finish_tick, go_on};

const MOST_RULE: usize = 1024;
const NOT: u8 = 2;
const AND: u8 = 3;

// Links that are a on board 0 or something on board 1, each something else.
pub fn distinct_links(count: usize) -> Vec<Vec<u8>> {
    let part = |i: usize| [vec![NOT; i / 63], vec![65 + (i % 63) as u8]].concat();
    (0..count).map(|i| [vec![4, 64], part(i)].concat()).collect()
}

// A rule over the boards of such links.
pub fn over_all(links: &[Vec<u8>]) -> Rule {
    Rule { masks: vec![1, !1], propositions: 64, formula: conjunction(links) }
}

// An and-chain of links that all differ: each costs a slot.
pub fn distinct(count: usize) -> Rule {
    over_all(&distinct_links(count))
}

// The same with links that stand there once more, anywhere.
fn repeated(random: &mut Random, count: usize, repeats: usize) -> Vec<Vec<u8>> {
    let mut links = distinct_links(count);
    for _ in 0..repeats {
        let link = links[random.below(links.len())].clone();
        let place = random.below(links.len() + 1);
        links.insert(place, link);
    }
    links
}

// At the limit of slots or past it, with copies around.
pub fn slots(random: &mut Random, _: bool) -> Rule {
    let (count, repeats) = (random.pick(&[62, 63, 63, 64, 64, 65]), random.pick(&[0, 1, 20, 100]));
    over_all(&repeated(random, count, repeats))
}

// Over 4,096 nodes; over 64 slots as laid, and as merged or not.
pub fn slots_and_nodes(random: &mut Random, _: bool) -> Rule {
    let (count, repeats) = (random.pick(&[1, 40, 63, 64, 64, 70]), random.pick(&[0, 30, 64]));
    with_tower(random, count, repeats)
}

fn with_tower(random: &mut Random, count: usize, repeats: usize) -> Rule {
    let mut links = repeated(random, count, repeats);
    let place = random.below(links.len() + 1);
    links.insert(place, nested(8, random.within(88, 200)));
    over_all(&links)
}

// The nodes that a rule's layout has when it is merged.
fn merged_nodes(rule: &Rule) -> usize {
    let whole = fold(&parse_rule(&rule.formula).expect("a good rule"));
    nodes_of(&merged(&lay_rule(&whole, &rule.masks)))
}

fn nodes_of(laid: &[Laid]) -> usize {
    laid.iter().map(|slot| slot.formula.nodes() as usize).sum()
}

// Links with copies of them, a tower, and nots in front up to so many nodes when it is merged.
fn nodes_to(random: &mut Random, target: usize) -> Rule {
    loop {
        let (count, repeats, height) = (random.within(1, 20), random.below(80), random.within(75, 86));
        let mut links = repeated(random, count, repeats);
        let place = random.below(links.len() + 1);
        links.insert(place, nested(random.pick(&[7, 8]), height));
        let rule = over_all(&links);
        let nots = target.saturating_sub(merged_nodes(&rule));
        if nots > 0 && nots + rule.formula.len() < MOST_RULE {
            return Rule { formula: [vec![NOT; nots], rule.formula].concat(), ..rule };
        }
    }
}

// Right at the limit of nodes, or one past it.
pub fn nodes(random: &mut Random, _: bool) -> Rule {
    let target = MOST_NODES + random.below(2);
    nodes_to(random, target)
}

// Copies of a tower on board 1 beside as many a's that the whole goes to board 0: too many slots or nodes as laid, few when merged.
pub fn large_before(random: &mut Random, _: bool) -> Rule {
    let shape = random.pick(LARGE_BEFORE);
    copies_of_tower(random, shape)
}

const LARGE_BEFORE: &[(usize, usize)] = &[(20, 20), (16, 26), (12, 35), (5, 64), (2, 100), (1, 150)];

fn copies_of_tower(random: &mut Random, (height, copies): (usize, usize)) -> Rule {
    let other = random.pick(&[7, 8]);
    let score = copies * (height + 1);
    let mut links: Vec<Vec<u8>> = (0..copies).map(|_| [vec![8; height - 1], vec![other, 65]].concat()).collect();
    let own = [vec![8], vec![AND, 64].repeat(score / 2), vec![64]].concat();
    let place = if random.percent(80) { copies } else { random.below(copies) };
    links.insert(place, own); // what stands behind it is cut as a whole
    dealt(2, 2, conjunction(&links))
}

// They stand in every stream, loaded and closed: on both sides of each limit, alone and with copies, and large before merging alone.
pub fn loaded(script: &mut Script) {
    script.case = "merging: limits";
    let mut random = Random::new(6);
    let mut rules = Vec::new();
    for repeats in [0, 7, 60] {
        rules.extend([63, 64].map(|count| over_all(&repeated(&mut random, count, repeats))));
        rules.extend([0, 0, 1, 1].map(|over| nodes_to(&mut random, MOST_NODES + over)));
        rules.extend([1, 40, 63, 64, 65, 70, 75].map(|count| with_tower(&mut random, count, repeats + 20)));
    }
    rules.extend(LARGE_BEFORE.iter().map(|&shape| copies_of_tower(&mut random, shape)));
    for rule in rules {
        script.load(files::of(&rule));
        if rule.formula.len() < MOST_RULE {
            script.load(files::of(&later(rule)));
            script.capture(&[0]);
            script.ask();
        }
    }
    script.case = "merging: equal on two boards";
    for count in [2, 3, 4, 5, 8, 13, 21, 34, 62] {
        for holding in [false, true] {
            script.become_state(&tangled::twins(count, holding).bytes());
            script.close();
            script.ask();
        }
    }
}

const RULES: &[fn(&mut Random, bool) -> Rule] = &[slots, slots_and_nodes, nodes, nodes, large_before, slots];

pub fn any(random: &mut Random, large: bool) -> Rule {
    random.pick(RULES)(random, large)
}

// Below next the rule is small; the close lays it out.
pub fn close_later(script: &mut Script, random: &mut Random, large: bool) {
    let rule = later(any(random, large));
    let mut unseen = Script::new();
    unseen.load(files::of(&rule));
    finish_tick(&mut unseen, random);
    script.become_state(unseen.state());
    script.close();
    script.ask();
}

// A handed state of one large slot, at the limit of nodes when it is merged: parts of it are cut, many of them equal.
pub fn close_handed(script: &mut Script, random: &mut Random, _: bool) {
    let target = MOST_NODES + random.below(2);
    let formula = loop {
        let (count, repeats, height) = (random.within(1, 60), random.below(500), random.within(20, 70));
        let mut links = repeated(random, count, repeats);
        links.push(nested(8, height));
        let formula = conjunction(&links);
        let nots = target.saturating_sub(nodes_of(&merged(&lay_again(&one_slot(&formula), MASKS))));
        if nots > 0 && nots + formula.len() <= MOST_NODES {
            break [vec![NOT; nots], formula].concat();
        }
    };
    script.become_state(&handed(&formula).bytes());
    script.close();
    script.ask();
}

const MASKS: &[u64] = &[1, !1];

fn one_slot(formula: &[u8]) -> Vec<Laid> {
    vec![Laid { board: 0, formula: parse_slot(formula).expect("one whole formula") }]
}

fn handed(formula: &[u8]) -> Network {
    let boards = MASKS.iter().map(|&mask| Board { mask, sample: 0, sampled: true }).collect();
    let slot = Slot { board: 0, stepped: true, start: 0, formula: parse_slot(formula).expect("one whole formula") };
    Network { ticks: 1, nodes: formula.len(), boards, slots: vec![slot] }
}

// Closes a handed state, and goes on from what that leaves.
pub fn close_tangled(script: &mut Script, random: &mut Random, large: bool) {
    script.become_state(&tangled::stepped(random, large).bytes());
    script.close();
    script.ask();
    let requests = random.within(2, 8);
    go_on(script, random, requests);
}

// Goes through ticks of a handed state by single calls.
pub fn watch_tangled(script: &mut Script, random: &mut Random, large: bool) {
    script.become_state(&tangled::between_ticks(random, large).bytes());
    let requests = random.within(10, 30);
    go_on(script, random, requests);
}

pub fn capture_tangled(script: &mut Script, random: &mut Random, large: bool) {
    let network = tangled::between_ticks(random, large);
    captures::of_network(script, random, &network);
}

pub fn doubling(script: &mut Script, random: &mut Random, large: bool) {
    let network = tangled::doubling(random, large);
    script.become_state(&network.bytes());
    if network.slots[0].stepped {
        script.close();
        script.ask();
    }
    script.capture(&[0, 3]);
    script.ask();
}
