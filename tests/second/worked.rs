// All worked values of document 01.

use crate::model::central::{central, Verdict};
use crate::model::folding::fold;
use crate::model::formula::{bytes_of, parse_rule};
use crate::model::progression::unfold;
use crate::model::refusal::Refusal;
use crate::model::rule_file::{read, write, Counts};
use crate::model::splitting::lay_rule;
use crate::model::state::STATE;
use crate::model::watch::{ask, close, sample, step, Standing};
use crate::replay::{lent_bytes, lent_numbers};
use crate::run::run;
use crate::trying::{chain, closed, copies, input, loaded, network, sampled, stepped};

// What central answers: verdict and formula, zeros past it checked and left out.
fn progress(formula: &[u8], event: u64) -> Result<(Verdict, Vec<u8>), Refusal> {
    let mut output = lent_bytes(4096);
    let (verdict, length) = central(formula, event, &mut output)?;
    assert!(output[length as usize..].iter().all(|&byte| byte == 0));
    output.truncate(length as usize);
    Ok((verdict, output))
}

fn gives(formula: &[u8], event: u64, wanted: &[u8]) {
    let verdict = match wanted {
        [0] => Verdict::False,
        [1] => Verdict::True,
        _ => Verdict::Pending,
    };
    assert_eq!(progress(formula, event), Ok((verdict, wanted.to_vec())));
}

#[test]
fn central_until() {
    gives(&[6, 64, 65], 1, &[6, 64, 65]);
    gives(&[6, 64, 65], 2, &[1]);
    gives(&[6, 64, 65], 0, &[0]);
}

#[test]
fn central_always_eventually() {
    gives(&[8, 7, 64], 0, &[3, 7, 64, 8, 7, 64]);
    gives(&[3, 7, 64, 8, 7, 64], 0, &[3, 7, 64, 8, 7, 64]);
    gives(&[3, 7, 64, 8, 7, 64], 1, &[8, 7, 64]);
}

#[test]
fn central_whatever_the_event() {
    for event in [0, 1, 2, u64::MAX] {
        gives(&[5, 1], event, &[1]);
        gives(&[5, 2, 2, 64], event, &[2, 2, 64]);
        gives(&[8, 1], event, &[1]);
        gives(&[4, 1, 64], event, &[1]);
        gives(&[4, 5, 64, 4, 5, 64, 5, 65], event, &[4, 64, 65]);
        gives(&nested(88, 1), event, &[1]);
    }
}

#[test]
fn central_folds() {
    gives(&[6, 1, 64], 0, &[6, 1, 64]);
    gives(&[8, 3, 64, 1], 1, &[8, 64]);
}

#[test]
fn central_tautology_stays_pending() {
    gives(&[4, 7, 64, 8, 2, 64], 0, &[4, 7, 64, 8, 2, 64]);
}

fn nested(count: usize, leaf: u8) -> Vec<u8> {
    [vec![8; count], vec![leaf]].concat()
}

#[test]
fn central_nested_always() {
    assert_eq!(unfold(&parse_rule(&nested(87, 64)).unwrap()).nodes(), 4090);
    assert!(progress(&nested(87, 64), 1).is_ok());
    assert_eq!(progress(&nested(88, 64), 1), Err(Refusal::Nodes));
}

#[test]
fn rule_file() {
    let file = b"\x01\0\x02\0\x02\0\x03\0\x10\0\x20\0\x23\0\0\0\x01\0\0\0\0\0\0\0\x02\0\0\0\0\0\0\0\x06\x40\x41";
    let (mut masks, mut formula) = (lent_numbers(16), lent_bytes(1024));
    let counts = Counts { boards: 2, propositions: 2, nodes: 3 };
    assert_eq!(read(file, &mut masks, &mut formula), Ok(counts));
    let mut written = lent_bytes(1168);
    assert_eq!(write(&masks[..2], 2, &formula[..3], &mut written), Ok(35));
    assert_eq!(written[..35], file[..]);
    assert!(written[35..].iter().all(|&byte| byte == 0));
}

fn standing(verdict: Verdict, ticks: u64, slots: u64, nodes: u64) -> Result<Standing, Refusal> {
    Ok(Standing { verdict, ticks, slots, nodes })
}

#[test]
fn rules_that_fold_to_true_are_finished_at_load() {
    for formula in [vec![5, 1], vec![8, 1], vec![4, 1, 64], nested(88, 1)] {
        let state = loaded(&[1], &formula).unwrap();
        assert_eq!(ask(&state), standing(Verdict::True, 0, 1, 1));
        assert_eq!(run(&input(&[1], &formula, &[0])), "0 true 1 1\n");
    }
}

// Of each copy 6 0 64 becomes 64, which changes the choice of what stands around it.
#[test]
fn folded_copies_need_more_slots() {
    let masks = &[1, 2];
    let (written, folded) = (chain(32, &[8, 3, 7, 65, 6, 0, 64]), chain(32, &[8, 3, 7, 65, 64]));
    let whole = parse_rule(&written).unwrap();
    assert_eq!(bytes_of(&fold(&whole)), folded);
    assert_eq!(lay_rule(&whole, masks).len(), 33);
    assert_eq!(lay_rule(&fold(&whole), masks).len(), 65);
    assert_eq!(loaded(masks, &written), Err(Refusal::Slots));
    assert_eq!(run(&input(masks, &written, &[])), "refused 7\n");
}

#[test]
fn rule_true_is_finished_at_load() {
    let mut state = loaded(&[1], &[1]).unwrap();
    let before = state.clone();
    assert_eq!(ask(&state), standing(Verdict::True, 0, 1, 1));
    assert_eq!(sample(&mut state, 0, 0), Err(Refusal::Finished));
    assert_eq!(step(&mut state, 0), Err(Refusal::Finished));
    assert_eq!(closed(&state), Err(Refusal::Finished));
    assert_eq!(state, before);
}

#[test]
fn until_is_laid_out() {
    let mut wanted = vec![2, 0, 2, 0, 9, 0, 16, 0, 50, 0, 62, 0, 0, 0, 0, 0];
    wanted.extend([1, 0, 0, 0, 0, 0, 0, 0, 0, 0, 0, 0, 0, 0, 0, 0, 0]);
    wanted.extend([2, 0, 0, 0, 0, 0, 0, 0, 0, 0, 0, 0, 0, 0, 0, 0, 0]);
    wanted.extend([0, 0, 0, 0, 8, 0]);
    wanted.extend([1, 0, 8, 0, 1, 0]);
    wanted.extend([4, 129, 3, 64, 5, 6, 64, 65, 65]);
    wanted.resize(STATE, 0);
    assert_eq!(loaded(&[1, 2], &[6, 64, 65]), Ok(wanted));
}

#[test]
fn until_refuses_what_is_not_ready_or_not_in_the_mask() {
    let state = loaded(&[1, 2], &[6, 64, 65]).unwrap();
    let mut ready = sampled(&state, 0);
    assert_eq!(step(&mut ready, 0), Err(Refusal::NotReady));
    assert_eq!(ready, sampled(&state, 0));
    let mut fresh = state.clone();
    assert_eq!(sample(&mut fresh, 1, 1), Err(Refusal::Bits));
    assert_eq!(fresh, state);
}

#[test]
fn until_is_stepped_in_its_own_stretch() {
    let state = loaded(&[1, 2], &[6, 64, 65]).unwrap();
    let after = stepped(&state, 1);
    assert_eq!(after[50..62], [0, 1, 0, 0, 3, 0, 1, 1, 8, 0, 1, 0]);
    assert_eq!(after[62..71], [6, 64, 65, 0, 0, 0, 0, 0, 0]);
    let mut second = lent_bytes(STATE as u64 + 1);
    assert_eq!(close(&after, &mut second), Err(Refusal::Length));
    assert_eq!(second, lent_bytes(STATE as u64 + 1));
}

#[test]
fn nested_always_at_load() {
    let state = loaded(&[1], &nested(87, 64)).unwrap();
    assert_eq!(ask(&state), standing(Verdict::Pending, 0, 1, 4090));
    assert_eq!(loaded(&[1], &nested(88, 64)), Err(Refusal::Nodes));
}

#[test]
fn and_chain_of_copies() {
    let state = loaded(&[1, 2], &copies(63)).unwrap();
    assert_eq!(ask(&state), standing(Verdict::Pending, 0, 64, 314));
    assert_eq!(network(&state).slots[63].board, 1);
    assert_eq!(loaded(&[1, 2], &copies(64)), Err(Refusal::Slots));
}

#[test]
fn run_program() {
    let hex = "01000200020003001000200023000000 0100000000000000 0200000000000000 064041 0100000000000000 0200000000000000";
    let digits: Vec<char> = hex.chars().filter(|c| !c.is_whitespace()).collect();
    let byte = |pair: &[char]| u8::from_str_radix(&pair.iter().collect::<String>(), 16).unwrap();
    let input: Vec<u8> = digits.chunks(2).map(byte).collect();
    assert_eq!(run(&input), "0 pending 2 9\n1 pending 2 9\n2 true 1 1\n");
}
