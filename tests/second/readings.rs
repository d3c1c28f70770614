// Examples for the places where document 01 can be read two ways. a, b, c = 64, 65, 66 on boards 0, 1, 2.

use crate::model::central::central;
use crate::model::formula::{parse_rule, Formula};
use crate::model::progression::unfold;
use crate::model::refusal::Refusal;
use crate::model::rule_file::{read, write};
use crate::model::state::STATE;
use crate::model::watch::{ask, close, load, sample, step};
use crate::replay::{lent_bytes, lent_numbers, replay};
use crate::run::run;
use crate::trying::{closed, copies, deep, file, formula, handed, input, layout, loaded, network, progressed, request, sampled, stepped};

const TWO: &[u64] = &[1, 2];

#[test]
fn or_has_members_too() {
    assert_eq!(progressed(&[4, 5, 64, 4, 5, 64, 5, 65]), [4, 64, 65]);
    assert_eq!(progressed(&[3, 3, 5, 64, 5, 65, 5, 64]), [3, 3, 64, 65, 64]);
}

#[test]
fn central_sizes_and_place_holders() {
    deep(|| {
        let mut output = lent_bytes(4096);
        assert_eq!(central(&[], 0, &mut output), Err(Refusal::Length));
        assert_eq!(central(&[vec![2; 4096], vec![64]].concat(), 0, &mut output), Err(Refusal::Length));
        assert_eq!(central(&[2, 128], 0, &mut output), Err(Refusal::Formula));
        assert_eq!(output, lent_bytes(4096));
    });
}

#[test]
fn copies_of_unfolding_count_in_the_score() {
    assert_eq!(layout(TWO, &[6, 64, 7, 65])[0].0, 1);
}

#[test]
fn a_tie_goes_to_the_lowest_board() {
    assert_eq!(layout(TWO, &[3, 65, 3, 64, 65]), [(1, vec![3, 65, 129]), (0, vec![3, 64, 130]), (1, vec![65])]);
    assert_eq!(run(&input(TWO, &[3, 65, 3, 64, 65], &[])), "0 pending 3 7\n");
}

#[test]
fn a_next_may_be_cut_whole() {
    assert_eq!(layout(TWO, &[3, 64, 5, 65]), [(0, vec![3, 64, 129]), (1, vec![5, 65])]);
    assert_eq!(run(&input(TWO, &[3, 64, 5, 65], &[])), "0 pending 2 5\n");
}

// Surviving slots keep their boards, and one that has become a lone place holder stays a slot.
#[test]
fn always_a_answered_by_b_gains_slots() {
    let events: Vec<u64> = (0..70).map(|tick| 1 + tick % 2).collect();
    let lines = run(&input(TWO, &[8, 4, 2, 64, 7, 65], &events));
    let lines: Vec<&str> = lines.lines().collect();
    assert_eq!(lines.len(), 64);
    assert!(lines[62].starts_with("62 pending "));
    assert_eq!(lines[63], "refused 7");
}

// Needs over 64 slots and over 4,096 nodes: the 64 copies and nested always, at load and one tick later.
#[test]
fn slots_come_before_nodes() {
    let both = [vec![3], vec![8; 100], copies(64)].concat();
    let both = [both, vec![64]].concat();
    assert_eq!(loaded(TWO, &both), Err(Refusal::Slots));
    let later = loaded(TWO, &[vec![5], both].concat()).unwrap();
    assert_eq!(network(&later).slots.len(), 1);
    assert_eq!(closed(&stepped(&later, 0)), Err(Refusal::Slots));
    let large = loaded(&[1], &[vec![5], vec![8; 100], vec![64]].concat()).unwrap();
    assert_eq!(closed(&stepped(&large, 0)), Err(Refusal::Nodes));
}

#[test]
fn largest_unfoldings() {
    deep(|| {
        let unfolded = |count: usize| unfold(&parse_rule(&[vec![8; count], vec![64]].concat()).unwrap());
        assert_eq!(unfolded(1023).nodes(), 526_846);
        assert_eq!(unfolded(4095).nodes(), 8_398_846);
        assert_eq!(loaded(&[1], &[vec![8; 1023], vec![64]].concat()), Err(Refusal::Nodes));
    });
}

#[test]
fn a_handed_state_may_step_into_a_lone_foreign_proposition() {
    let mut state = handed(&[(1, Some(0)), (2, Some(0))], &[(0, false, formula(&[5, 65]))]);
    assert_eq!(step(&mut state, 0), Ok(()));
    assert_eq!(ask(&state), Err(Refusal::State));
    assert_eq!(step(&mut state, 0), Err(Refusal::State));
    assert_eq!(sample(&mut state, 9, 9), Err(Refusal::State));
    assert_eq!(closed(&state), Err(Refusal::State));
}

#[test]
fn a_slot_that_nobody_holds_passes() {
    let state = handed(&[(1, None), (2, None)], &[(0, false, formula(&[64])), (1, false, formula(&[65]))]);
    assert!(ask(&state).is_ok());
}

#[test]
fn a_stepped_slot_need_not_look_resolved() {
    let state = handed(&[(1, Some(1)), (2, None)], &[(0, true, formula(&[3, 65, 4, 64, 5, 1]))]);
    assert!(ask(&state).is_ok());
}

#[test]
fn a_place_holder_stands_once_above_its_holder_and_outside_next() {
    let slots = |first: &[u8], second: &[u8]| {
        let slots = [(0, false, formula(first)), (1, false, formula(second)), (1, false, formula(&[65]))];
        ask(&handed(&[(1, None), (2, None)], &slots)).is_ok()
    };
    assert!(slots(&[3, 129, 130], &[65]));
    assert!(slots(&[3, 129, 64], &[2, 130]));
    assert!(!slots(&[3, 129, 130], &[2, 130]));
    assert!(!slots(&[3, 129, 129], &[65]));
    assert!(!slots(&[3, 128, 64], &[65]));
    assert!(!slots(&[3, 130, 64], &[2, 129]));
    assert!(!slots(&[3, 131, 64], &[65]));
    assert!(!slots(&[3, 64, 5, 129], &[65]));
    assert!(!slots(&[3, 64, 7, 129], &[65]));
}

#[test]
fn nodes_at_layout_are_not_seen_once_the_last_slot_is_stepped() {
    let state = loaded(&[1], &[8, 64]).unwrap();
    let raised = |mut state: Vec<u8>| {
        state[4] += 1;
        ask(&state).map(|standing| standing.nodes)
    };
    assert_eq!(raised(state.clone()), Err(Refusal::State));
    assert_eq!(raised(stepped(&state, 1)), Ok(6));
}

#[test]
fn a_stepped_slot_longer_than_its_stretch_fails() {
    let mut state = handed(&[(1, Some(1))], &[(0, true, formula(&[2, 2, 64])), (0, true, formula(&[64]))]);
    assert!(ask(&state).is_ok());
    state[16 + 17 + 4] = 4;
    state[16 + 17 + 12 + 2] = 2;
    assert_eq!(ask(&state), Err(Refusal::State));
}

#[test]
fn finished_whatever_is_sampled() {
    let mut state = handed(&[(1, Some(1))], &[(0, false, Formula::True)]);
    assert_eq!(step(&mut state, 0), Err(Refusal::Finished));
    assert_eq!(closed(&state), Err(Refusal::Finished));
}

#[test]
fn a_root_already_constant_gives_no_verdict_before_the_close() {
    let state = stepped(&loaded(TWO, &[6, 64, 65]).unwrap(), 2);
    assert_eq!(network(&state).slots[0].formula, Formula::True);
    assert_eq!(ask(&state).map(|standing| standing.verdict as u64), Ok(2));
    assert_eq!(sample(&mut state.clone(), 0, 0), Err(Refusal::Already));
}

#[test]
fn counts_out_of_range_are_no_lengths() {
    let mut output = lent_bytes(1168);
    assert_eq!(write(&[], 1, &[64], &mut output), Err(Refusal::Range));
    assert_eq!(write(&[1; 17], 1, &[64], &mut output), Err(Refusal::Range));
    assert_eq!(write(&[1], 1, &[], &mut output), Err(Refusal::Range));
    assert_eq!(write(&[1], 1, &[2; 1025], &mut output), Err(Refusal::Range));
    assert_eq!(write(&[1], 1 << 32 | 1, &[64], &mut output), Err(Refusal::Range));
    assert_eq!(output, lent_bytes(1168));
}

#[test]
fn a_file_longer_than_any_rule_passes_its_length() {
    let mut long = file(&[1], &[64]);
    long.resize(1200, 64);
    long[12..16].copy_from_slice(&1200u32.to_le_bytes());
    let (mut masks, mut formula) = (lent_numbers(16), lent_bytes(1024));
    assert_eq!(read(&long, &mut masks, &mut formula), Err(Refusal::Offset));
    let mut state = lent_bytes(STATE as u64);
    assert_eq!(load(&long, &mut state), Err(Refusal::Offset));
    assert_eq!(state, lent_bytes(STATE as u64));
    long[6..8].copy_from_slice(&1025u16.to_le_bytes());
    assert_eq!(load(&long, &mut state), Err(Refusal::Range));
}

#[test]
fn checks_come_in_their_order() {
    let state = loaded(TWO, &[6, 64, 65]).unwrap();
    let mut after = stepped(&state, 1);
    assert_eq!(sample(&mut after, 1, 1), Err(Refusal::Bits));
    assert_eq!(sample(&mut after, 1, 2), Err(Refusal::Already));
    assert_eq!(sample(&mut after, 2, u64::MAX), Err(Refusal::NoSuch));
    assert_eq!(sample(&mut after, 1 << 32 | 1, 2), Err(Refusal::NoSuch));
    assert_eq!(step(&mut after, 1), Err(Refusal::Already));
    assert_eq!(step(&mut after, 1 << 63), Err(Refusal::NoSuch));
    assert_eq!(after, stepped(&state, 1));
    assert_eq!(closed(&state), Err(Refusal::NotReady));
    assert_eq!(closed(&sampled(&state, 0)), Err(Refusal::NotReady));
    assert_eq!(close(&state[1..], &mut lent_bytes(1)), Err(Refusal::Length));
    assert_eq!(closed(&state[1..]), Err(Refusal::State));
}

#[test]
fn boards_with_empty_masks_sample_too() {
    let mut state = loaded(&[1, 0], &[64]).unwrap();
    assert_eq!(sample(&mut state, 0, 1), Ok(()));
    assert_eq!(step(&mut state, 0), Ok(()));
    assert_eq!(closed(&state), Err(Refusal::NotReady));
    assert_eq!(sample(&mut state, 1, 1), Err(Refusal::Bits));
    assert_eq!(sample(&mut state, 1, 0), Ok(()));
    assert!(closed(&state).is_ok());
}

#[test]
fn the_last_tick() {
    let mut state = loaded(&[1], &[8, 64]).unwrap();
    state[12..16].copy_from_slice(&(u32::MAX - 1).to_le_bytes());
    let last = closed(&stepped(&state, 1)).unwrap();
    assert_eq!(ask(&last).map(|standing| standing.ticks), Ok(u32::MAX.into()));
    assert_eq!(closed(&last), Err(Refusal::NotReady));
    assert_eq!(closed(&stepped(&last, 1)), Err(Refusal::Ticks));
    // 15 before 7
    let mut state = loaded(TWO, &[vec![5], copies(64)].concat()).unwrap();
    state[12..16].copy_from_slice(&[255; 4]);
    assert_eq!(closed(&stepped(&state, 1)), Err(Refusal::Ticks));
}

#[test]
fn the_run_program_refuses() {
    let good = input(TWO, &[6, 64, 65], &[1, 2]);
    let refused = |input: &[u8], wanted: &str| assert_eq!(run(input), wanted);
    refused(&[], "refused 1\n");
    refused(&good[..15], "refused 1\n");
    refused(&good[..34], "refused 1\n");
    refused(&good[..35], "0 pending 2 9\n");
    refused(&good[..42], "0 pending 2 9\nrefused 1\n");
    refused(&good[..50], "0 pending 2 9\n1 pending 2 9\nrefused 1\n");
    refused(&[&good[..], &[1, 2, 3]].concat(), "0 pending 2 9\n1 pending 2 9\n2 true 1 1\n");
    refused(&input(TWO, &[6, 64, 65], &[1, 4]), "0 pending 2 9\n1 pending 2 9\nrefused 12\n");
    let total = |total: u32| [&good[..12], &total.to_le_bytes(), &good[16..], &[0; 1200]].concat();
    refused(&total(15), "refused 1\n");
    refused(&total(16), "refused 4\n");
    refused(&total(1168), "refused 4\n");
    refused(&total(1169), "refused 1\n");
    // cut short, whatever the header shows
    refused(&[&[9, 9], &good[2..34]].concat(), "refused 1\n");
    refused(&[&[9, 9], &good[2..]].concat(), "refused 2\n");
    refused(&input(&[1], &[1], &[2]), "0 true 1 1\n");
}

#[test]
fn the_replay_keeps_a_state() {
    let rule = file(&[1], &[8, 64]);
    let loading = request(4, [rule.len() as u32, 0, 4768], &rule);
    let asking = request(8, [0, 4768, 0], &[]);
    let stepping = request(6, [0, 4768, 0], &[]);
    let sampling = request(5, [0, 4768, 0], &[0; 8]);
    let closing = request(7, [0, 4768, 4768], &[]);
    let answers = replay(&[&asking[..], &loading, &asking, &stepping, &sampling, &stepping, &closing, &asking].concat());
    let numbers: Vec<Vec<&str>> = answers.lines().map(|line| line.split(' ').collect()).collect();
    assert_eq!(numbers.iter().map(|fields| fields[0]).collect::<Vec<&str>>(), ["9", "0", "0", "14", "0", "0", "0", "0"]);
    assert_eq!(numbers.iter().map(Vec::len).collect::<Vec<usize>>(), [2, 2, 6, 2, 2, 2, 3, 6]);
    assert_eq!(numbers[2][1..5], ["2", "0", "1", "5"]);
    assert_eq!(numbers[7][1..5], ["0", "1", "1", "1"]);
}

#[test]
fn the_replay_knows_its_limits() {
    let answer = |call: u8, numbers: [u32; 3], payload: usize| replay(&request(call, numbers, &vec![0; payload]));
    assert_eq!(answer(9, [3, 8189, 0], 3), "0\n");
    assert_eq!(answer(9, [0, 8192, 0], 0), "0\n");
    assert!(answer(15, [8192, 8192, 8192], 8192).starts_with("1 "));
    assert!(answer(16, [8192, u32::MAX, 1024], 8192).starts_with("1 "));
    for (call, numbers, payload) in [
        (9, [4, 8189, 0], 4),
        (9, [u32::MAX, 1, 0], 0),
        (9, [3, 0, 0], 2),
        (4, [4097, 0, 4768], 4097),
        (4, [1, 0, 8193], 1),
        (5, [0, 8193, 0], 8),
        (5, [0, 4768, 0], 7),
        (6, [0, 8193, 0], 0),
        (7, [0, 8193, 1], 0),
        (7, [0, 1, 8193], 0),
        (8, [0, 8193, 0], 0),
        (10, [257, 0, 0], 2056),
        (10, [1, 8193, 0], 8),
        (10, [1, 0, 8193], 8),
        (10, [1, 0, 0], 7),
        (11, [8193, 0, 1024], 8193),
        (11, [2, 0, 8193], 2),
        (11, [2, 0, 1024], 1),
        (12, [8193, 0, 8192], 8193),
        (12, [1, 0, 8193], 1),
        (12, [1, 0, 8192], 0),
        (13, [12, 65_539, 8192], 12),
        (13, [12, u32::MAX, 8192], 12),
        (13, [1, 786_457, 8192], 1),
        (13, [8193, 0, 8192], 8193),
        (13, [12, 1, 8193], 12),
        (13, [12, 1, 8192], 11),
        (14, [8193, 8192, 0], 8193),
        (14, [8192, 8193, 0], 8192),
        (14, [8192, 8192, 0], 8191),
        (15, [8193, 16, 0], 8193),
        (15, [16, 8193, 0], 16),
        (15, [16, 16, 8193], 16),
        (15, [16, 16, 0], 15),
        (16, [8193, 0, 0], 8193),
        (16, [16, 0, 1025], 16),
        (16, [16, 0, 0], 15),
        (17, [0, 0, 0], 0),
        (0, [0, 0, 0], 0),
    ] {
        assert_eq!(answer(call, numbers, payload), "bad request\n", "{call} {numbers:?}");
    }
}
