// Merging: examples, and what is claimed of it, tried on networks made for it and on watches: it comes to the same in whatever order slots
// are left out and made one, a merged network merges to itself, and verdicts are those of a watch without merging.

use crate::formulas::{formula as any_formula, TEMPORAL};
use crate::model::central::Verdict;
use crate::model::formula::Formula::{self, *};
use crate::model::formula::{and, bytes_of, not, or};
use crate::model::merging::merged;
use crate::model::refusal::Refusal;
use crate::model::splitting::{lay_again, lay_rule, Laid};
use crate::model::state::{Network, MOST_NODES};
use crate::model::watch::ask;
use crate::random::Random;
use crate::tangled;
use crate::trying::{captured, closed, deep, formula, handed, loaded, network, slots_of, stepped};

// What the close of these slots, all stepped, on boards 0 and 1 with a and b, leaves.
fn closes_to(slots: &[(usize, &[u8])]) -> Vec<(usize, Vec<u8>)> {
    let slots: Vec<(usize, bool, Formula)> = slots.iter().map(|&(board, bytes)| (board, true, formula(bytes))).collect();
    slots_of(&closed(&handed(&[(1, Some(0)), (2, Some(0))], &slots)).unwrap())
}

#[test]
fn nodes_are_compared_when_what_they_hold_is_one() {
    let slots = closes_to(&[(0, &[3, 129, 130]), (0, &[2, 131]), (0, &[2, 132]), (1, &[7, 65]), (1, &[7, 65])]);
    assert_eq!(slots, [(0, vec![3, 129, 129]), (0, vec![2, 130]), (1, vec![4, 65, 5, 7, 65])]);
}

#[test]
fn slots_may_be_equal_when_others_are_left_out() {
    let slots = closes_to(&[(0, &[3, 129, 130]), (0, &[2, 132]), (0, &[2, 131]), (0, &[132]), (0, &[64])]);
    assert_eq!(slots, [(0, vec![3, 129, 129]), (0, vec![2, 130]), (0, vec![64])]);
}

#[test]
fn twice_in_one_slot_is_no_passing_on() {
    let slots = closes_to(&[(0, &[2, 129]), (0, &[4, 130, 131]), (1, &[7, 65]), (1, &[7, 65])]);
    assert_eq!(slots, [(0, vec![2, 129]), (0, vec![4, 130, 130]), (1, vec![4, 65, 5, 7, 65])]);
}

#[test]
fn a_slot_that_is_left_out_is_in_no_chain() {
    let slots = closes_to(&[(0, &[3, 129, 131]), (0, &[130]), (0, &[64]), (0, &[2, 64])]);
    assert_eq!(slots, [(0, vec![3, 129, 130]), (0, vec![64]), (0, vec![2, 64])]);
}

#[test]
fn of_equally_long_chains_what_is_met_first_comes_first() {
    let slots = closes_to(&[(0, &[3, 129, 131]), (0, &[3, 130, 131]), (0, &[64]), (0, &[2, 64])]);
    assert_eq!(slots, [(0, vec![3, 129, 131]), (0, vec![3, 130, 131]), (0, vec![64]), (0, vec![2, 64])]);
}

#[test]
fn longer_chains_come_later() {
    let slots = closes_to(&[(0, &[3, 129, 131]), (0, &[2, 130]), (0, &[64]), (0, &[3, 64, 64])]);
    assert_eq!(slots, [(0, vec![3, 129, 130]), (0, vec![2, 131]), (0, vec![3, 64, 64]), (0, vec![64])]);
}

#[test]
fn the_root_stays() {
    let eventually_b = (1, vec![4, 65, 5, 7, 65]);
    assert_eq!(closes_to(&[(0, &[129]), (1, &[7, 65])]), [(0, vec![129]), eventually_b.clone()]);
    assert_eq!(closes_to(&[(0, &[129]), (1, &[130]), (0, &[131]), (1, &[7, 65])]), [(0, vec![129]), eventually_b]);
}

#[test]
fn equal_nodes_on_two_boards_stay_two() {
    let slots = closes_to(&[(0, &[3, 129, 130]), (0, &[2, 131]), (1, &[2, 131]), (1, &[65])]);
    assert_eq!(slots, [(0, vec![3, 129, 130]), (0, vec![2, 131]), (1, vec![2, 131]), (1, vec![65])]);
}

#[test]
fn a_part_inside_a_slot_is_no_slot() {
    let slots = closes_to(&[(1, &[3, 7, 65, 129]), (0, &[3, 64, 130]), (1, &[7, 65])]);
    let eventually_b = [4, 65, 5, 7, 65];
    assert_eq!(slots, [(1, [&[3], &eventually_b[..], &[129]].concat()), (0, vec![3, 64, 130]), (1, eventually_b.to_vec())]);
}

#[test]
fn a_held_slot_and_a_part_that_is_cut_may_be_equal() {
    let slots = closes_to(&[(0, &[3, 129, 3, 7, 64, 8, 65]), (1, &[8, 65])]);
    assert_eq!(slots, [(0, vec![3, 129, 3, 4, 64, 5, 7, 64, 129]), (1, vec![3, 65, 5, 8, 65])]);
    let slots = closes_to(&[(0, &[3, 129, 130]), (1, &[8, 65]), (1, &[3, 65, 5, 8, 65])]);
    assert_eq!(slots, [(0, vec![3, 129, 129]), (1, vec![3, 65, 5, 8, 65])]);
}

#[test]
fn slots_that_nobody_holds_are_gone() {
    let slots = closes_to(&[(0, &[2, 130]), (1, &[3, 7, 65, 131]), (1, &[7, 65]), (0, &[7, 64])]);
    assert_eq!(slots, [(0, vec![2, 129]), (1, vec![4, 65, 5, 7, 65])]);
}

// Equal place holders are equal operands.
#[test]
fn a_step_makes_one_of_equal_place_holders() {
    let slots = [(0, false, formula(&[3, 129, 129])), (1, false, formula(&[5, 7, 65]))];
    let after = stepped(&handed(&[(1, None), (2, None)], &slots), 0);
    assert_eq!(slots_of(&after), [(0, vec![129]), (1, vec![7, 65])]);
    assert_eq!(slots_of(&closed(&after).unwrap()), [(0, vec![129]), (1, vec![4, 65, 5, 7, 65])]);
}

// There are 2 to the power 63 ways from the root to the last slot.
#[test]
fn a_held_slot_is_laid_once() {
    let slots = |stepped: bool| -> Vec<(usize, bool, Formula)> {
        let holder = |i: usize| (i % 2, stepped, formula(&[3, 129 + i as u8, 129 + i as u8]));
        (0..63).map(holder).chain([(1, stepped, formula(if stepped { &[7, 65] } else { &[5, 7, 65] }))]).collect()
    };
    let after = closed(&handed(&[(1, Some(0)), (2, Some(0))], &slots(true))).unwrap();
    assert_eq!(ask(&after).map(|standing| (standing.slots, standing.nodes)), Ok((64, 3 * 63 + 5)));
    let fresh = handed(&[(1, None), (2, None)], &slots(false));
    let (answer, left) = captured(&fresh, &[0, 0]).unwrap();
    assert_eq!((answer.closed, network(&left).slots.len()), (2, 2));
}

// Before merging these have millions of nodes, or thousands of slots.
#[test]
fn sizes_far_past_the_limits() {
    deep(|| {
        let close = |bytes: &[u8]| closed(&handed(&[(1, Some(0)), (2, Some(0))], &[(0, true, formula(bytes))]));
        assert_eq!(close(&[vec![8; 4095], vec![64]].concat()), Err(Refusal::Nodes));
        // and of a and b in turn: each link differs from all others
        let links = [[3, 65, 3, 64].repeat(1023), vec![65]].concat();
        assert_eq!(close(&links), Err(Refusal::Slots));
        // the same below always, so that nodes have no room either
        assert_eq!(close(&[vec![3], vec![8; 100], vec![65], [3, 65, 3, 64].repeat(990), vec![65]].concat()), Err(Refusal::Slots));
        // a thousand equal parts
        let copies = [[3, 4, 64, 65].repeat(1023), vec![64]].concat();
        assert_eq!(slots_of(&close(&copies).unwrap()), [(0, [[3, 4, 64, 129].repeat(1023), vec![64]].concat()), (1, vec![65])]);
        let copies = [vec![3], [3, 4, 64, 65].repeat(900), vec![64], vec![8; 100], vec![64]].concat();
        assert_eq!(close(&copies), Err(Refusal::Nodes));
    });
}

// ---- The order of leaving out and making one

fn renamed(f: &Formula, from: usize, to: usize) -> Formula {
    match f {
        PlaceHolder(number) if *number == from => PlaceHolder(to),
        Not(g) => not(renamed(g, from, to)),
        And(g, h) => and(renamed(g, from, to), renamed(h, from, to)),
        Or(g, h) => or(renamed(g, from, to), renamed(h, from, to)),
        _ => f.clone(),
    }
}

// Leaves out a slot or makes one of two, any of those that can be, until none can. Slots that are gone stay in the list.
fn rewritten(mut laid: Vec<Laid>, random: &mut Random) -> Vec<Laid> {
    let mut alive = vec![true; laid.len()];
    loop {
        let mut ways = Vec::new();
        for i in (1..laid.len()).filter(|&i| alive[i]) {
            if let PlaceHolder(held) = laid[i].formula {
                ways.push((i, held));
            }
            ways.extend((1..laid.len()).filter(|&j| j != i && alive[j] && laid[j] == laid[i]).map(|j| (i, j)));
        }
        if ways.is_empty() {
            return laid;
        }
        let (from, to) = random.pick(&ways);
        alive[from] = false;
        laid.iter_mut().for_each(|slot| slot.formula = renamed(&slot.formula, from, to));
    }
}

fn laid_of(network: &Network) -> (Vec<Laid>, Vec<u64>) {
    let laid = network.slots.iter().map(|slot| Laid { board: slot.board, formula: slot.formula.clone() }).collect();
    (laid, network.boards.iter().map(|board| board.mask).collect())
}

#[test]
fn the_order_does_not_matter() {
    let mut random = Random::new(10);
    let mut fewer = 0;
    for round in 0..3000 {
        let (slots, masks) = laid_of(&tangled::stepped(&mut random, round % 20 == 0));
        let laid = lay_again(&slots, &masks);
        let once = merged(&laid);
        assert_eq!(merged(&rewritten(laid.clone(), &mut random)), once);
        assert_eq!(merged(&once), once);
        assert!(once.len() <= laid.len());
        fewer += usize::from(once.len() < laid.len());
        // numbers rise from holder to held
        for (number, slot) in once.iter().enumerate() {
            assert!(slot.formula.all(&|node| !matches!(node, PlaceHolder(held) if *held <= number)));
        }
    }
    assert!(fewer > 1000, "{fewer}");
}

// ---- Verdicts

// A watch that is not merged: its network as load and close left it before.
fn laid_unmerged(masks: &[u64], laid: Vec<Laid>, ticks: u32) -> Option<Vec<u8>> {
    Network::of(masks, laid, ticks).ok().map(|network| network.bytes())
}

fn closed_unmerged(state: &[u8]) -> Option<Vec<u8>> {
    let network = network(state);
    let (slots, masks) = laid_of(&network);
    laid_unmerged(&masks, lay_again(&slots, &masks), network.ticks + 1)
}

#[test]
fn verdicts_are_those_without_merging() {
    let mut random = Random::new(11);
    let mut verdicts = [0; 3];
    let mut differ = 0;
    for _ in 0..3000 {
        let (boards, propositions) = (random.within(1, 4), random.within(1, 5));
        let mut masks = vec![0; boards];
        for i in 0..propositions {
            masks[random.below(boards)] |= 1 << i;
        }
        let nodes = random.within(3, 20);
        let bytes = any_formula(&mut random, nodes, TEMPORAL.over(propositions).with(0));
        let mut plain = laid_unmerged(&masks, lay_rule(&formula(&bytes), &masks), 0);
        let mut state = loaded(&masks, &bytes);
        let mut verdict = Verdict::Pending;
        for _ in 0..10 {
            let (one, other) = match (plain, state) {
                (Some(one), Ok(other)) => (one, other),
                _ => break,
            };
            let standing = ask(&other).unwrap();
            assert_eq!(ask(&one).unwrap().verdict, standing.verdict);
            assert_eq!(ask(&one).unwrap().ticks, standing.ticks);
            differ += usize::from(ask(&one).unwrap().slots != standing.slots);
            verdict = standing.verdict;
            if verdict != Verdict::Pending {
                break;
            }
            let event = random.word() % (1 << propositions);
            plain = closed_unmerged(&stepped(&one, event));
            state = closed(&stepped(&other, event));
        }
        verdicts[verdict as usize] += 1;
    }
    assert!(verdicts.iter().all(|&count| count > 100) && differ > 500, "{verdicts:?} {differ}");
}

// A state from before slots were merged is taken as it is, and merged by its next close.
#[test]
fn a_saved_state_goes_on() {
    let copies = [[3, 4, 64, 5, 8, 65].repeat(20), vec![4, 64, 5, 8, 65]].concat();
    let before = laid_unmerged(&[1, 2], lay_rule(&formula(&copies), &[1, 2]), 7).unwrap();
    assert_eq!(ask(&before).map(|standing| (standing.slots, standing.ticks)), Ok((22, 7)));
    let after = closed(&stepped(&before, 0)).unwrap();
    assert_eq!(ask(&after).map(|standing| (standing.slots, standing.ticks)), Ok((2, 8)));
    assert!(network(&after).nodes < MOST_NODES);
    assert_eq!(bytes_of(&network(&after).slots[1].formula), [3, 65, 5, 8, 65]);
}
