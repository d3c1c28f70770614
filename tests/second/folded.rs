// What is claimed of folding, tried on every formula of up to five nodes over the constants and two propositions, and on larger ones
// by chance: it keeps the meaning and leaves no constant but the left operand of until, folding or progressing what is folded leaves
// it folded, and a verdict never differs and never comes later than without folding.

use crate::formulas::{formula, Mix, TEMPORAL};
use crate::meaning::meets;
use crate::model::central::{central, OUTPUT};
use crate::model::folding::fold;
use crate::model::formula::Formula::{self, *};
use crate::model::formula::{bytes_of, parse_rule};
use crate::model::progression::{resolve, unfold};
use crate::model::refusal::Refusal;
use crate::random::Random;
use crate::trying::all_small;

const PROPOSITIONS: usize = 2;

// Each formula of up to five nodes, and larger ones by chance, with few constants and with many.
fn formulas(random: &mut Random) -> Vec<Formula> {
    let mut all = all_small(&[False, True, Proposition(0), Proposition(1)], 5);
    for _ in 0..3000 {
        let mix = Mix { constants: random.pick(&[10, 30, 60]), ..TEMPORAL.over(PROPOSITIONS) };
        let nodes = random.within(6, 40);
        all.push(parse_rule(&formula(random, nodes, mix)).unwrap());
    }
    all
}

fn events(random: &mut Random) -> Vec<u64> {
    (0..random.within(2, 7)).map(|_| random.word() % (1 << PROPOSITIONS)).collect()
}

fn progressed(f: &Formula, event: u64) -> Formula {
    resolve(&unfold(f), event)
}

#[test]
fn folding_keeps_the_meaning() {
    let mut random = Random::new(3);
    for f in formulas(&mut random) {
        for _ in 0..4 {
            let events = events(&mut random);
            let again = random.below(events.len());
            assert_eq!(meets(&f, &events, again), meets(&fold(&f), &events, again), "{f:?}");
        }
    }
}

#[test]
fn folding_twice_is_folding_once() {
    for f in formulas(&mut Random::new(4)) {
        assert_eq!(fold(&fold(&f)), fold(&f), "{f:?}");
    }
}

// Whether no operand is a constant, but for true on the left of until.
fn has_no_constant_inside(f: &Formula) -> bool {
    f.all(&|node| match node {
        Until(left, right) => **left != False && !right.is_constant(),
        _ => node.operands().all(|operand| !operand.is_constant()),
    })
}

#[test]
fn a_folded_formula_is_told_by_its_constants() {
    for f in formulas(&mut Random::new(5)) {
        assert!(has_no_constant_inside(&fold(&f)), "{f:?}");
        assert_eq!(has_no_constant_inside(&f), fold(&f) == f, "{f:?}");
    }
}

#[test]
fn without_propositions_a_constant_is_left() {
    let mut random = Random::new(6);
    let mut values = [0; 2];
    let small = all_small(&[False, True], 6).into_iter();
    let larger = (0..1000).map(|_| {
        let nodes = random.within(6, 60);
        parse_rule(&formula(&mut random, nodes, Mix { constants: 100, ..TEMPORAL })).unwrap()
    });
    for f in small.chain(larger) {
        let folded = fold(&f);
        assert!(folded.is_constant(), "{f:?}");
        values[usize::from(folded == True)] += 1;
    }
    assert!(values.iter().all(|&count| count > 1000), "{values:?}");
}

#[test]
fn progression_leaves_what_is_folded_folded() {
    let mut random = Random::new(7);
    for f in formulas(&mut random) {
        let mut whole = fold(&f);
        for event in events(&mut random) {
            whole = progressed(&whole, event);
            assert_eq!(fold(&whole), whole, "{f:?}");
        }
    }
}

// A verdict that the formula as written comes to is there after the same events, and one that was there before does not differ.
#[test]
fn a_verdict_never_comes_later_and_never_differs() {
    let mut random = Random::new(8);
    let mut earlier = 0;
    for f in formulas(&mut random) {
        let (mut written, mut folded) = (f.clone(), fold(&f));
        let mut agree = |written: &Formula, folded: &Formula| {
            assert!(!written.is_constant() || written == folded, "{f:?}");
            earlier += usize::from(folded.is_constant() && !written.is_constant());
        };
        agree(&written, &folded);
        for event in events(&mut random) {
            (written, folded) = (progressed(&written, event), progressed(&folded, event));
            agree(&written, &folded);
        }
    }
    assert!(earlier > 1000, "{earlier}");
}

#[test]
fn a_chain_of_calls_progresses_the_folded_formula() {
    let mut random = Random::new(9);
    for f in formulas(&mut random) {
        let (mut bytes, mut whole) = (bytes_of(&f), fold(&f));
        for event in events(&mut random) {
            let mut output = vec![0; OUTPUT];
            match central(&bytes, event, &mut output) {
                Ok((_, length)) => output.truncate(length as usize),
                Err(refusal) => {
                    assert_eq!(refusal, Refusal::Nodes);
                    break;
                }
            }
            whole = progressed(&whole, event);
            assert_eq!(output, bytes_of(&whole), "{f:?}");
            bytes = output;
        }
    }
}
