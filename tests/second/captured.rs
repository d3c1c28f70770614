// What is claimed of capture, tried on small rules and on states that someone might hand over, by chance: it is what the calls made one
// at a time do, it is what the run program does, it stops for no reason but those that are listed, and events may be split over
// calls anywhere.

use crate::formulas::{formula, TEMPORAL};
use crate::handed::{between_ticks, handed};
use crate::model::capture::Captured;
use crate::model::central::Verdict;
use crate::model::refusal::Refusal;
use crate::model::state::{Network, STATE};
use crate::model::watch::{ask, close, is_finished, sample, step};
use crate::random::Random;
use crate::run::run;
use crate::trying::{captured, copies, input, loaded, network};

struct Rule {
    masks: Vec<u64>,
    formula: Vec<u8>,
}

// Some responses among them, since most formulas by chance come to a verdict within a few ticks.
fn rule(random: &mut Random) -> Rule {
    let (boards, propositions) = (random.within(1, 4), random.within(1, 5));
    let mut masks = vec![0; boards];
    for i in 0..propositions {
        masks[random.below(boards)] |= 1 << i;
    }
    let nodes = random.within(1, 14);
    let mut formula = formula(random, nodes, TEMPORAL.over(propositions));
    if random.percent(40) {
        formula = [vec![8, 4], formula, vec![7, 64 + random.below(propositions) as u8]].concat();
    }
    Rule { masks, formula }
}

// Some ticks on it needs too many slots, or too many nodes.
fn without_room(random: &mut Random) -> Rule {
    let large = if random.percent(50) { copies(64) } else { [vec![8; 88], vec![64]].concat() };
    Rule { masks: vec![1, 2], formula: [vec![5; random.within(1, 6)], large].concat() }
}

// Few of them have a bit in no mask.
fn events(random: &mut Random, union: u64) -> Vec<u64> {
    (0..random.below(9)).map(|_| if random.percent(3) { random.word() } else { random.word() & union }).collect()
}

// A state and events for it: a watch just begun, or a state that was handed over, in the middle of a tick or before it.
fn any_watch(random: &mut Random) -> (Vec<u8>, Vec<u64>) {
    let mut network = match random.below(4) {
        0 => handed(random, false),
        1 => between_ticks(random, false),
        _ => {
            let rule = if random.percent(5) { without_room(random) } else { rule(random) };
            network(&loaded(&rule.masks, &rule.formula).expect("there is room at load"))
        }
    };
    if random.percent(10) {
        network.ticks = u32::MAX - random.below(4) as u32;
    }
    let events = events(random, network.union());
    (network.bytes(), events)
}

// A tick by the calls made one at a time, in the buffer itself: the first refusal, or the closed state.
fn tick(state: &mut [u8], event: u64) -> Result<Vec<u8>, Refusal> {
    let Network { boards, slots, .. } = network(state);
    for (number, board) in (0..).zip(boards) {
        sample(state, number, event & board.mask)?;
    }
    for number in (0..slots.len() as u64).rev() {
        step(state, number)?;
    }
    let mut second = vec![0; STATE];
    close(state, &mut second)?;
    Ok(second)
}

// The state after the first of these events, as many as there are to close, and why there are no more.
fn singly(state: &[u8], events: &[u64]) -> (Captured, Vec<u8>) {
    let standing = ask(state).unwrap();
    let stop = |refusal: Option<Refusal>| (Captured { closed: 0, verdict: standing.verdict, refusal }, state.to_vec());
    match events {
        [event, ..] if standing.verdict == Verdict::Pending => {
            if event & !network(state).union() != 0 {
                return stop(Some(Refusal::Bits));
            }
            match tick(&mut state.to_vec(), *event) {
                Err(refusal) => stop(Some(refusal)),
                Ok(closed) => {
                    let (rest, left) = singly(&closed, &events[1..]);
                    (Captured { closed: 1 + rest.closed, ..rest }, left)
                }
            }
        }
        _ => stop(None),
    }
}

#[test]
fn a_capture_is_what_the_single_calls_do() {
    let mut random = Random::new(1);
    let mut verdicts = [0; 3];
    let mut refusals = [0; 16];
    for _ in 0..6000 {
        let (state, events) = any_watch(&mut random);
        if is_finished(&network(&state)) {
            assert_eq!(captured(&state, &events), Err(Refusal::Finished));
            continue;
        }
        let outcome = captured(&state, &events).expect("it passes its check and is not finished");
        assert_eq!(outcome, singly(&state, &events));
        let (Captured { closed, verdict, refusal }, left) = outcome;
        // what is left passes its check and stands as was answered; where nothing was closed it is what was given
        assert_eq!(ask(&left).map(|standing| standing.verdict), Ok(verdict));
        assert!(closed > 0 || left == state);
        assert!(refusal.is_none() || verdict == Verdict::Pending);
        assert!(refusal.is_some() || verdict != Verdict::Pending || closed == events.len() as u64);
        match refusal {
            None => verdicts[verdict as usize] += 1,
            Some(refusal) => refusals[refusal as usize] += 1,
        }
        if refusal == Some(Refusal::Already) {
            assert!(closed == 0 && network(&state).boards.iter().any(|board| board.sampled));
        }
    }
    let stops: Vec<usize> = (0..16).filter(|&number| refusals[number] > 0).collect();
    assert_eq!(stops, [7, 8, 9, 12, 13, 15]);
    assert!(stops.iter().all(|&number| refusals[number] > 20), "{refusals:?}");
    assert!(verdicts.iter().all(|&count| count > 500), "{verdicts:?}");
}

// Up to each place, and from it on: the second call goes on where the first one came to its end.
#[test]
fn events_may_be_split_anywhere() {
    let mut random = Random::new(2);
    for _ in 0..2000 {
        let (state, events) = any_watch(&mut random);
        let whole = match captured(&state, &events) {
            Ok(whole) => whole,
            Err(_) => continue,
        };
        for place in 0..=events.len() {
            let (first, between) = captured(&state, &events[..place]).unwrap();
            if (first.verdict, first.refusal) == (Verdict::Pending, None) {
                assert_eq!(first.closed, place as u64);
                let (second, left) = captured(&between, &events[place..]).unwrap();
                assert_eq!((Captured { closed: first.closed + second.closed, ..second }, left), whole);
            } else {
                assert_eq!((first, between), whole);
            }
        }
    }
}

// The run program has a line for the load, one for each close, and one for a refusal.
#[test]
fn a_capture_is_what_the_run_program_does() {
    let mut random = Random::new(3);
    for _ in 0..2000 {
        let Rule { masks, formula } = rule(&mut random);
        let state = loaded(&masks, &formula).unwrap();
        let events = events(&mut random, network(&state).union());
        let (captured, left) = match captured(&state, &events) {
            Ok(outcome) => outcome,
            Err(refusal) => {
                assert_eq!(refusal, Refusal::Finished);
                continue;
            }
        };
        let lines = run(&input(&masks, &formula, &events));
        let (refused, closes): (Vec<&str>, Vec<&str>) = lines.lines().partition(|line| line.starts_with("refused"));
        assert_eq!(closes.len() as u64, 1 + captured.closed);
        let standing = ask(&left).unwrap();
        let word = ["false", "true", "pending"][captured.verdict as usize];
        assert_eq!(closes[closes.len() - 1], format!("{} {word} {} {}", standing.ticks, standing.slots, standing.nodes));
        let wanted: Vec<String> = captured.refusal.iter().map(|&refusal| format!("refused {}", refusal as u64)).collect();
        assert_eq!(refused, wanted);
    }
}
