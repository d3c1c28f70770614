// Examples of capture: each way to stop, the refusals at its start, and what the replay keeps. a, b = 64, 65 on boards 0, 1.

use crate::model::capture::{capture, Captured};
use crate::model::central::Verdict;
use crate::model::refusal::Refusal;
use crate::model::state::STATE;
use crate::model::watch::sample;
use crate::replay::{lent_bytes, replay};
use crate::trying::{captured, closed, copies, file, formula, handed, loaded, stepped};

const TWO: &[u64] = &[1, 2];

fn until() -> Vec<u8> {
    loaded(TWO, &[6, 64, 65]).unwrap()
}

// One slot on board 0 that two ticks, the first with a, turn into b alone.
fn later_foreign() -> Vec<u8> {
    handed(&[(1, None), (2, None)], &[(0, false, formula(&[3, 64, 5, 5, 65]))])
}

fn with_ticks(mut state: Vec<u8>, ticks: u32) -> Vec<u8> {
    state[12..16].copy_from_slice(&ticks.to_le_bytes());
    state
}

// The state after these events, by the calls made one at a time.
fn after(state: &[u8], events: &[u64]) -> Vec<u8> {
    events.iter().fold(state.to_vec(), |state, &event| closed(&stepped(&state, event)).unwrap())
}

// That a capture over the state stops so, with the state that the closed events lead to.
fn stops(state: &[u8], events: &[u64], closed: usize, verdict: Verdict, refusal: Option<Refusal>) {
    let wanted = Captured { closed: closed as u64, verdict, refusal };
    assert_eq!(captured(state, events), Ok((wanted, after(state, &events[..closed]))), "{events:?}");
}

#[test]
fn at_the_end_of_the_events() {
    stops(&until(), &[], 0, Verdict::Pending, None);
    stops(&until(), &[1], 1, Verdict::Pending, None);
    stops(&until(), &[1, 1, 1], 3, Verdict::Pending, None);
}

// Later events are not looked at, whatever bits they have.
#[test]
fn at_a_verdict() {
    stops(&until(), &[2], 1, Verdict::True, None);
    stops(&until(), &[1, 3, 4], 2, Verdict::True, None);
    stops(&until(), &[0, 4, 1], 1, Verdict::False, None);
    stops(&until(), &[1, 1, 0], 3, Verdict::False, None);
}

#[test]
fn at_an_event_outside_the_masks() {
    stops(&until(), &[4], 0, Verdict::Pending, Some(Refusal::Bits));
    stops(&until(), &[1, 1 << 63 | 1, 2], 1, Verdict::Pending, Some(Refusal::Bits));
    stops(&until(), &[1, 1, 6], 2, Verdict::Pending, Some(Refusal::Bits));
}

// Whichever board it is that has sampled; 12 comes before it.
#[test]
fn in_the_middle_of_a_tick() {
    for board in 0..2 {
        let mut state = until();
        sample(&mut state, board, 0).unwrap();
        stops(&state, &[1, 1], 0, Verdict::Pending, Some(Refusal::Already));
        stops(&state, &[5], 0, Verdict::Pending, Some(Refusal::Bits));
        stops(&state, &[], 0, Verdict::Pending, None);
    }
    stops(&stepped(&until(), 2), &[1], 0, Verdict::Pending, Some(Refusal::Already));
}

#[test]
fn at_a_step_that_leaves_a_lone_foreign_proposition() {
    stops(&later_foreign(), &[1], 1, Verdict::Pending, None);
    stops(&later_foreign(), &[1, 0], 1, Verdict::Pending, Some(Refusal::State));
    stops(&later_foreign(), &[1, 3, 0], 1, Verdict::Pending, Some(Refusal::State));
    stops(&later_foreign(), &[1, 4], 1, Verdict::Pending, Some(Refusal::Bits));
    stops(&later_foreign(), &[0, 0], 1, Verdict::False, None);
    // also where nobody holds the slot, and a step comes behind it
    let apart = handed(&[(1, None), (2, None)], &[(0, false, formula(&[5, 64])), (0, false, formula(&[5, 65]))]);
    stops(&apart, &[1], 0, Verdict::Pending, Some(Refusal::State));
}

#[test]
fn at_the_last_tick() {
    stops(&with_ticks(until(), u32::MAX), &[1], 0, Verdict::Pending, Some(Refusal::Ticks));
    stops(&with_ticks(until(), u32::MAX - 2), &[1, 1, 2, 2], 2, Verdict::Pending, Some(Refusal::Ticks));
    stops(&with_ticks(until(), u32::MAX - 2), &[1, 2, 2], 2, Verdict::True, None);
    stops(&with_ticks(later_foreign(), u32::MAX - 1), &[1, 0], 1, Verdict::Pending, Some(Refusal::State));
    let crowded = loaded(TWO, &[vec![5, 5], copies(64)].concat()).unwrap();
    stops(&with_ticks(crowded, u32::MAX - 1), &[0, 0], 1, Verdict::Pending, Some(Refusal::Ticks));
}

#[test]
fn where_the_network_has_no_room() {
    let response = loaded(TWO, &[8, 4, 2, 64, 7, 65]).unwrap();
    let events: Vec<u64> = (0..70).map(|tick| 1 + tick % 2).collect();
    stops(&response, &events, 62, Verdict::Pending, Some(Refusal::Slots));
    stops(&response, &events[..62], 62, Verdict::Pending, None);
    let tower = loaded(&[1], &[vec![5; 3], vec![8; 88], vec![64]].concat()).unwrap();
    stops(&tower, &[0, 1, 0, 1], 2, Verdict::Pending, Some(Refusal::Nodes));
}

#[test]
fn not_at_all() {
    let refused = |state: &[u8], length: u64, wanted: Refusal| {
        for events in [&[][..], &[1], &[4]] {
            let (mut left, mut second) = (state.to_vec(), lent_bytes(length));
            assert_eq!(capture(&mut left, &mut second, events), Err(wanted));
            assert_eq!((&left[..], second), (state, lent_bytes(length)));
        }
    };
    let length = STATE as u64;
    let finished = loaded(&[1], &[1]).unwrap();
    for wrong in [0, 1, length - 1, length + 1] {
        refused(&until(), wrong, Refusal::Length);
        refused(&until()[1..], wrong, Refusal::Length);
        refused(&finished, wrong, Refusal::Length);
    }
    refused(&[], length, Refusal::State);
    refused(&until()[1..], length, Refusal::State);
    refused(&[until(), vec![0]].concat(), length, Refusal::State);
    refused(&finished[..STATE - 1], length, Refusal::State);
    refused(&finished, length, Refusal::Finished);
    refused(&after(&until(), &[1, 2]), length, Refusal::Finished);
}

// A header with this call and these numbers, v being any, and the payload.
fn request(call: u8, numbers: [u32; 3], payload: &[u8]) -> Vec<u8> {
    let numbers: Vec<u8> = numbers.iter().flat_map(|number| number.to_le_bytes()).collect();
    [&[call, 0, 0, 0], &numbers[..], &[7; 8], payload].concat()
}

// The kept state goes on in place; the second buffer is not kept.
#[test]
fn the_replay_keeps_what_is_captured() {
    let length = STATE as u32;
    let rule = file(TWO, &[6, 64, 65]);
    let capturing = |events: &[u64], lent: u32, second: u32| {
        let payload: Vec<u8> = events.iter().flat_map(|event| event.to_le_bytes()).collect();
        request(10, [events.len() as u32, lent, second], &payload)
    };
    let stream = [
        capturing(&[], length, length),
        request(4, [rule.len() as u32, 0, length], &rule),
        capturing(&[1, 1, 4], length, length),
        capturing(&[1], length, length + 1),
        capturing(&[1], length + 1, length),
        capturing(&vec![1; 256], length, length),
        capturing(&[2, 2], length, length),
        request(8, [0, length, 0], &[]),
        capturing(&[2], length, length),
    ];
    let answers = replay(&stream.concat());
    let lines: Vec<Vec<&str>> = answers.lines().map(|line| line.split(' ').collect()).collect();
    let wanted: [&[&str]; 9] = [
        &["9"],
        &["0"],
        &["0", "2", "2", "12"],
        &["1"],
        &["9"],
        &["0", "256", "2", "0"],
        &["0", "1", "1", "0"],
        &["0", "1", "259", "1", "1"],
        &["10"],
    ];
    let hashes = [2, 1, 2, 2, 2, 2, 2, 1, 2];
    for ((line, wanted), hashes) in lines.iter().zip(wanted).zip(hashes) {
        assert_eq!((&line[..line.len() - hashes], hashes), (wanted, line.len() - wanted.len()));
    }
    assert_eq!(lines.len(), wanted.len());
    // the state of line 6 is not that of line 5, and that of the last line is the one that was asked about
    assert_ne!(lines[5][4], lines[6][4]);
    assert_eq!(lines[7][5], lines[8][1]);
}
