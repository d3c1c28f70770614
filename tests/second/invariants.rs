// What must hold of every watch, tried on small random rules: the order within a tick does not matter, no tick gets stuck, every
// state passes its check, refusals write nothing, and the load and each close give the verdict of the folded rule progressed in one
// place. Of progression, that the meaning bears its verdicts out.

use crate::formulas::{formula, TEMPORAL};
use crate::meaning::meets;
use crate::model::central::{verdict_of, Verdict};
use crate::model::folding::fold;
use crate::model::formula::{constant, parse_rule};
use crate::model::progression::{resolve, unfold};
use crate::model::refusal::Refusal;
use crate::model::watch::{ask, sample, step};
use crate::random::Random;
use crate::trying::{closed, loaded, network};

struct Rule {
    masks: Vec<u64>,
    union: u64,
    formula: Vec<u8>,
}

fn rule(random: &mut Random) -> Rule {
    let (boards, propositions) = (random.within(1, 4), random.within(1, 5));
    let mut masks = vec![0; boards];
    for i in 0..propositions {
        masks[random.below(boards)] |= 1 << i;
    }
    let nodes = random.within(1, 14);
    Rule { masks, union: (1 << propositions) - 1, formula: formula(random, nodes, TEMPORAL.over(propositions)) }
}

#[derive(Clone, Copy)]
enum Call {
    Sample(usize),
    Step(usize),
}

// One tick up to its close, its calls in some order: of those left each is tried until one is accepted.
fn tick(mut state: Vec<u8>, event: u64, random: &mut Random) -> Vec<u8> {
    let old = network(&state);
    let samples = (0..old.boards.len()).map(Call::Sample);
    let mut left: Vec<Call> = samples.chain((0..old.slots.len()).map(Call::Step)).collect();
    while !left.is_empty() {
        assert_eq!(closed(&state), Err(Refusal::NotReady));
        let first = random.below(left.len());
        left.rotate_left(first);
        let place = left.iter().position(|&call| accepted(&mut state, call, event)).expect("no tick gets stuck");
        assert!(!accepted(&mut state, left.remove(place), event));
        assert_eq!(network(&state).bytes(), state);
        assert_eq!(ask(&state).map(|standing| standing.verdict), Ok(Verdict::Pending));
    }
    state
}

// Makes a call; a refusal must leave the state as it was.
fn accepted(state: &mut Vec<u8>, call: Call, event: u64) -> bool {
    let before = state.clone();
    let result = match call {
        Call::Sample(board) => {
            let mask = network(state).boards[board].mask;
            sample(state, board as u64, event & mask)
        }
        Call::Step(slot) => step(state, slot as u64),
    };
    assert!(result.is_ok() || *state == before);
    result.is_ok()
}

#[test]
fn watches_agree_with_central_progression_in_any_order() {
    let mut random = Random::new(1);
    let mut verdicts = [0; 3];
    for _ in 0..2000 {
        let rule = rule(&mut random);
        let mut whole = fold(&parse_rule(&rule.formula).unwrap());
        let mut state = loaded(&rule.masks, &rule.formula).expect("small rules have room");
        let mut verdict = verdict_of(&whole);
        for ticks in 0..6 {
            let standing = ask(&state).expect("every state passes its check");
            assert_eq!((standing.verdict, standing.ticks), (verdict, ticks));
            if verdict != Verdict::Pending {
                break;
            }
            let event = random.word() & rule.union;
            let (one, other) = (tick(state.clone(), event, &mut random), tick(state, event, &mut random));
            assert_eq!(one, other);
            state = match closed(&one) {
                Ok(state) => state,
                Err(refusal) => {
                    assert!(matches!(refusal, Refusal::Slots | Refusal::Nodes));
                    break;
                }
            };
            whole = resolve(&unfold(&whole), event);
            verdict = verdict_of(&whole);
        }
        verdicts[verdict as usize] += 1;
    }
    assert!(verdicts.iter().all(|&count| count > 200), "{verdicts:?}");
}

#[test]
fn verdicts_hold_on_every_continuation_tried() {
    let mut random = Random::new(2);
    for _ in 0..4000 {
        let rule = rule(&mut random);
        let f = parse_rule(&rule.formula).unwrap();
        let events: Vec<u64> = (0..random.within(2, 9)).map(|_| random.word() & rule.union).collect();
        let again = random.below(events.len());
        let met = meets(&f, &events, again)[0];
        let mut whole = f;
        for &event in &events {
            whole = resolve(&unfold(&whole), event);
        }
        assert!(whole == constant(met) || !whole.is_constant());
    }
}
