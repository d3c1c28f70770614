// What is claimed of stretch, tried on all short lists of few records and on lists by chance: its events are those that the kept records
// begin with, each one a tick after the one before, and behind them there is nothing or a break; it has them of the mended recording too;
// and it refuses what mend refuses.

use crate::model::refusal::Refusal;
use crate::random::Random;
use crate::recordings::{any, clash, Record, Recorded, BEGIN, COUNT, FOURTH, HEADER, MOST_RECORDS, TOTAL};
use crate::spoilt_recordings::SPOILS;
use crate::trying::{mended, short_lists, stretched};

const LAST: u32 = u32::MAX;
const TWO: &[Record] = &[(5, 7), (6, 8)];

// Without those that equal the one before.
fn kept_of(list: &[Record]) -> Vec<Record> {
    let kept = |&place: &usize| place == 0 || list[place] != list[place - 1];
    (0..list.len()).filter(kept).map(|place| list[place]).collect()
}

fn clashes(list: &[Record]) -> bool {
    list.windows(2).any(|pair| pair[0].0 == pair[1].0 && pair[0].1 != pair[1].1)
}

// Whether the list is refused.
fn holds_of(list: &[Record]) -> bool {
    let answer = stretched(&Recorded::of(list));
    let kept = kept_of(list);
    assert_eq!(stretched(&Recorded::of(&kept)), answer, "{list:?}");
    if clashes(list) {
        assert_eq!(answer, Err(Refusal::Clash), "{list:?}");
        return true;
    }
    let events = answer.expect("a recording without a clash");
    let (first, rest) = kept.split_at(events.len());
    assert_eq!(first.iter().map(|record| record.1).collect::<Vec<u64>>(), events, "{list:?}");
    assert!(first.windows(2).all(|pair| pair[1].0 == pair[0].0.wrapping_add(1)), "{list:?}");
    match (first.last(), rest.first()) {
        (Some(last), Some(next)) => assert_ne!(next.0, last.0.wrapping_add(1), "{list:?}"),
        _ => assert!(rest.is_empty(), "{list:?}"),
    }
    assert_eq!(mended(&Recorded::of(list)).map(|mending| mending.answer.first), Ok(events.len() as u64), "{list:?}");
    false
}

#[test]
fn all_short_lists() {
    let refused = short_lists(&[0, 1, 2, LAST - 1, LAST], &[7, 8], 5).iter().filter(|list| holds_of(list)).count();
    assert_eq!(refused, 10 + 190 + 2710 + 34_390);
}

#[test]
fn all_short_lists_of_far_counters() {
    for list in short_lists(&[0, 255, 256, 257, 65_536, 65_537, 1 << 31, (1 << 31) + 1, LAST], &[0], 4) {
        holds_of(&list);
    }
}

#[test]
fn lists_by_chance() {
    let mut random = Random::new(1);
    let mut refused = 0;
    for round in 0..20_000 {
        let mut list = any(&mut random, round % 50 == 0);
        if round % 4 == 0 {
            list.truncate(MOST_RECORDS - 1);
            let place = random.below(list.len());
            clash(&mut random, &mut list, place);
        }
        refused += usize::from(holds_of(&list));
    }
    assert_eq!(refused, 5000);
}

// A clash behind the first stretch refuses the recording too.
#[test]
fn the_whole_recording_is_looked_at() {
    let mut list: Vec<Record> = (0..600).map(|tick| (tick, u64::from(tick))).collect();
    list[3..].iter_mut().for_each(|record| record.0 += 7);
    assert_eq!(stretched(&Recorded::of(&list)), Ok(vec![0, 1, 2]));
    for place in [0, 2, 3, 4, 300, 599] {
        let mut list = list.clone();
        list.insert(place + 1, (list[place].0, list[place].1 ^ 1 << 63));
        assert_eq!(stretched(&Recorded::of(&list)), Err(Refusal::Clash), "{place}");
    }
}

// Stretch refuses with the same number as mend, where the length for the mended recording, which stretch is not lent, is right.
#[test]
fn spoilt_recordings_are_refused_as_by_mend() {
    let mut random = Random::new(2);
    let mut refused = 0;
    for round in 0..20_000 {
        let list = if round % 3 == 0 { vec![(5, 7), (5, 8)] } else { any(&mut random, false) };
        let (name, spoil) = SPOILS[round % SPOILS.len()];
        let spoilt = spoil(Recorded::of(&list), &mut random);
        let recorded = Recorded { mended: spoilt.bytes.len(), marks: spoilt.events, ..spoilt };
        let answer = stretched(&recorded);
        assert_eq!(answer.as_ref().err(), mended(&recorded).err().as_ref(), "{name}");
        refused += usize::from(answer.is_err());
    }
    assert!(refused > 17_000, "{refused}");
}

#[test]
fn every_length() {
    for length in 0..=100 {
        let torn = || Recorded::of(TWO).of_length(length).lent();
        let with_total = || Recorded::of(TWO).with(TOTAL, length as u32).of_length(length).lent();
        let (own, short) = (length == 40, length < HEADER);
        assert_eq!(stretched(&torn()).err(), if own { None } else { Some(Refusal::Length) }, "{length}");
        let wanted = if short { Some(Refusal::Length) } else { Some(Refusal::Offset) };
        assert_eq!(stretched(&with_total()).err(), if own { None } else { wanted }, "{length}");
        let lent_events = Recorded { events: length, ..Recorded::of(TWO) };
        assert_eq!(stretched(&lent_events).err(), if length == 2 { None } else { Some(Refusal::Length) }, "{length}");
    }
}

#[test]
fn one_comes_before_four_and_four_before_twenty() {
    let clash = || Recorded::of(&[(5, 7), (5, 8)]);
    assert_eq!(stretched(&clash()), Err(Refusal::Clash));
    for (number, wrong) in [(BEGIN, 12), (FOURTH, 1), (BEGIN, 1 << 16 | 16), (FOURTH, 1 << 31)] {
        let damaged = || clash().with(number, wrong);
        assert_eq!(stretched(&damaged()), Err(Refusal::Offset));
        for events in [0, 1, 3, 1024] {
            assert_eq!(stretched(&Recorded { events, ..damaged() }), Err(Refusal::Length));
        }
        assert_eq!(stretched(&damaged().with(TOTAL, 41)), Err(Refusal::Length));
        assert_eq!(stretched(&damaged().with(COUNT, 1)), Err(Refusal::Length));
        assert_eq!(stretched(&damaged().with(COUNT, 1).lent()), Err(Refusal::Offset));
    }
}
