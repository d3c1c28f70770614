// The worked values of document 01 for watches, and examples for where it can be read two ways. What is answered is for the programs
// to say; here it is only asked.

use crate::files;
use crate::formulas::nested;
use crate::model::formula::{always, and, next, or, Formula};
use crate::model::state::{Board, Network, Slot, STATE};
use crate::patterns::{conjunction, copies, later, over};
use crate::rules::Rule;
use crate::script::{Script, KEPT};

pub const TWO: &[u64] = &[1, 2];

pub fn watched(script: &mut Script) {
    script.case = "worked value";
    script.ask(); // the kept state is all zero
    script.poke(STATE - 8, &[7; 16]); // and then not, up to its end and past it: what lies past it does not matter
    until(script);
    not_until(script);
    script.poke(STATE, &[0; 8]); // so that a state lent too long is wrong in nothing else
    lengths(script);
    verdicts(script);
    layouts(script);
    refused_closes(script);
    empty_mask(script);
    finished(script);
    saved(script);
    lone_foreign_proposition(script);
}

pub fn load(script: &mut Script, rule: &Rule) {
    script.load(files::of(rule));
    script.ask();
}

// Until over two boards: a tick with a alone, a tick with b alone.
fn until(script: &mut Script) {
    load(script, &over(TWO, &[6, 64, 65]));
    script.sample(1, 1);
    script.sample(1, 0);
    script.step(0);
    script.sample(0, 1);
    script.step(0);
    script.step(1);
    script.step(0);
    script.close();
    script.sample(0, 0);
    script.sample(1, 2);
    script.step(1);
    script.step(0);
    script.ask();
    script.close();
    script.ask();
    script.sample(0, 0);
}

// A held slot's answer that is needed below not.
fn not_until(script: &mut Script) {
    load(script, &over(TWO, &[2, 6, 64, 65]));
    script.sample(0, 1);
    script.sample(1, 0);
    script.step(1);
    script.step(0);
    script.close();
    script.ask();
}

// A wrong length of a state already begun, and of a second buffer.
fn lengths(script: &mut Script) {
    load(script, &over(TWO, &[6, 64, 65]));
    for lent in [0, STATE - 1, STATE + 1, KEPT] {
        script.sample_lent(lent, 0, 0);
        script.step_lent(lent, 0);
        script.close_lent(lent, STATE);
        script.close_lent(STATE, lent);
        script.ask_lent(lent);
    }
}

// Finished at load, also where a constant is all that folding leaves.
fn verdicts(script: &mut Script) {
    for formula in [vec![5, 1], vec![8, 1], vec![4, 1, 64], [vec![8; 88], vec![1]].concat(), vec![1]] {
        load(script, &over(&[1], &formula));
        script.sample(0, 0);
    }
}

// At the limits of nodes and slots; ties, cut nexts, scores of copies, and a part without one; copies that folding cuts once more.
fn layouts(script: &mut Script) {
    for rule in [
        over(&[1], &nested(8, 87)),
        over(&[1], &nested(8, 88)),
        over(&[1], &[vec![2; 6], nested(8, 87)].concat()),
        over(&[1], &[vec![2; 7], nested(8, 87)].concat()),
        over(TWO, &[vec![3], vec![2; 3], nested(8, 87), vec![65]].concat()),
        over(TWO, &[vec![3], vec![2; 4], nested(8, 87), vec![65]].concat()),
        copies(63),
        copies(64),
        over(TWO, &[6, 64, 7, 65]),
        over(TWO, &[3, 65, 3, 64, 65]),
        over(TWO, &[3, 64, 5, 65]),
        over(TWO, &[6, 1, 65]),
        over(TWO, &conjunction(&vec![vec![8, 3, 7, 65, 6, 0, 64]; 31])),
        over(TWO, &conjunction(&vec![vec![8, 3, 7, 65, 6, 0, 64]; 32])),
    ] {
        load(script, &rule);
    }
}

// A close that needs too many slots, or too many nodes; at the counter's end that comes first.
fn refused_closes(script: &mut Script) {
    for rule in [later(copies(64)), later(over(TWO, &nested(8, 88)))] {
        load(script, &rule);
        script.sample(0, 0);
        script.sample(1, 0);
        script.step(0);
        script.close();
        script.poke(12, &[255; 4]);
        script.close();
        script.ask();
    }
}

// A state of two boards, sampled or not, and these unstepped slots on board 0.
pub fn hand(script: &mut Script, sampled: bool, formulas: &[Formula]) {
    let boards = TWO.iter().map(|&mask| Board { mask, sample: 0, sampled }).collect();
    let mut network = Network { ticks: 0, nodes: 0, boards, slots: Vec::new() };
    for formula in formulas {
        network.slots.push(Slot { board: 0, stepped: false, start: network.nodes, formula: formula.clone() });
        network.nodes += formula.nodes() as usize;
    }
    script.become_state(&network.bytes());
    script.ask();
}

// A slot 5 65 on board 0 passes, its step is accepted, and every later call gets 9.
fn lone_foreign_proposition(script: &mut Script) {
    hand(script, true, &[next(Formula::Proposition(1))]);
    script.step(0);
    script.step(0);
    script.sample(0, 0);
    script.close();
    script.ask();
}

// A lone slot that is constant is finished whatever is sampled; with another slot beside it, it is not.
fn finished(script: &mut Script) {
    hand(script, true, &[Formula::True]);
    script.sample(0, 0);
    script.step(0);
    script.close();
    hand(script, true, &[Formula::True, Formula::False]);
    script.step(0);
    script.step(1);
    script.close();
    script.ask();
}

// States of watches that were begun when constants were not folded yet, 4 1 64 and 8 1: steps and closes do not fold them either.
fn saved(script: &mut Script) {
    for formula in [or(Formula::True, Formula::Proposition(0)), and(Formula::True, next(always(Formula::True)))] {
        hand(script, true, &[formula]);
        script.step(0);
        script.close();
        script.ask();
    }
}

// A board without propositions samples too.
fn empty_mask(script: &mut Script) {
    load(script, &over(&[1, 0], &[64]));
    script.sample(0, 1);
    script.step(0);
    script.close();
    script.sample(1, 1);
    script.sample(1, 0);
    script.close();
    script.ask();
}
