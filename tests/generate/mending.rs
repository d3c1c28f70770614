// Requests for mend and stretch: recordings whole, doubled and with breaks, with steps and events that differ in little, with clashes,
// spoilt in one thing or in several, and what mending leaves of them.

use crate::captures::begin_pending;
use crate::random::Random;
use crate::recordings::*;
use crate::script::Script;
use crate::spoilt_recordings::{Spoil, SPOILS};

const LAST: u32 = u32::MAX;

// ---- What is done with a recording

fn give(script: &mut Script, recorded: &Recorded) {
    script.mend(recorded);
    script.stretch(recorded);
}

// Mends and stretches a recording, and now and then what mending leaves of it: cut to its own total, or, which is 1 where it is shorter,
// with the zeros behind it.
pub fn record(script: &mut Script, random: &mut Random, mut list: Vec<Record>) {
    list.truncate(MOST_RECORDS);
    let recorded = Recorded::of(&list);
    give(script, &recorded);
    list.dedup();
    let (mended, length) = (Recorded::of(&list), recorded.bytes.len());
    match random.below(12) {
        0..=2 => give(script, &mended),
        3 => give(script, &Recorded { mended: length, ..mended.of_length(length) }),
        _ => (),
    }
}

// A recording to be spoilt. It has a clash, now and then: 1 and 4 come before 20.
fn to_spoil(random: &mut Random) -> Recorded {
    Recorded::of(&if random.percent(30) { clash_between(random, false) } else { any(random, false) })
}

pub fn spoilt(script: &mut Script, random: &mut Random, spoil: Spoil) {
    let recorded = to_spoil(random);
    give(script, &spoil(recorded, random));
}

// Spoilt in two things or three.
pub fn several(script: &mut Script, random: &mut Random, _: bool) {
    let mut recorded = to_spoil(random);
    for _ in 0..random.within(2, 3) {
        let (_, spoil) = random.pick(SPOILS);
        if recorded.bytes.len() >= HEADER {
            recorded = spoil(recorded, random);
        }
    }
    give(script, &recorded);
}

// The events of the first stretch are for capture, and come to what they would without the holes.
pub fn captured(script: &mut Script, random: &mut Random, _: bool) {
    let count = random.within(2, 12);
    let events = begin_pending(script, random, count);
    let mut list: Vec<Record> = whole(random, count).iter().zip(&events).map(|(record, &event)| (record.0, event)).collect();
    let place = random.within(1, count - 1);
    step_to(&mut list, place, broken_step(random));
    for place in [count - 1, place, place - 1, 0] {
        list.insert(place, list[place]);
    }
    give(script, &Recorded::of(&list));
    script.capture(&events[..place]);
    script.ask();
}

// ---- Recordings that are not refused

// None, one record or two.
pub fn few(random: &mut Random, _: bool) -> Vec<Record> {
    let count = random.below(3);
    holed(random, count, 0, 30)
}

pub fn without_hole(random: &mut Random, large: bool) -> Vec<Record> {
    let count = count(random, large);
    whole(random, count)
}

pub fn doubled(random: &mut Random, large: bool) -> Vec<Record> {
    let (count, doubled) = (count(random, large), random.pick(&[10, 40, 100]));
    holed(random, count, doubled, 0)
}

pub fn lost(random: &mut Random, large: bool) -> Vec<Record> {
    let (count, lost) = (count(random, large), random.pick(&[10, 40, 100]));
    holed(random, count, 0, lost)
}

pub fn doubled_and_lost(random: &mut Random, large: bool) -> Vec<Record> {
    let count = count(random, large);
    holed(random, count, 25, 25)
}

// Some records three times or more.
pub fn tripled(random: &mut Random, large: bool) -> Vec<Record> {
    let mut list = any(random, large);
    for _ in 0..random.within(1, 3) {
        let place = random.below(list.len());
        (0..random.within(2, 4)).for_each(|_| list.insert(place, list[place]));
    }
    list
}

// A break with a double on one side of it, or on both.
pub fn doubled_at_break(random: &mut Random, large: bool) -> Vec<Record> {
    let count = count(random, large).max(2);
    let mut list = whole(random, count);
    for _ in 0..random.within(1, 2) {
        let place = random.within(1, list.len() - 1);
        step_to(&mut list, place, broken_step(random));
        let sides = random.below(3);
        if sides != 0 {
            list.insert(place, list[place]);
        }
        if sides != 1 {
            list.insert(place - 1, list[place - 1]);
        }
    }
    list
}

// The counter goes from the last to 0, or, with a break there or a double, past both.
pub fn wrapped(random: &mut Random, large: bool) -> Vec<Record> {
    let count = count(random, large).max(2);
    let place = random.within(1, count - 1);
    let mut list = whole(random, count);
    let by = 0u32.wrapping_sub(list[place].0);
    list.iter_mut().for_each(|record| record.0 = record.0.wrapping_add(by));
    match random.below(6) {
        0 => list.insert(place, list[place]),
        1 => list.insert(place, list[place - 1]),
        2 => step_to(&mut list, place, random.pick(&[2, 3, LAST])),
        _ => (),
    }
    list
}

// Steps that are breaks, and between them 0 and 1; events that stay the same, or change with the counter.
pub fn steps(random: &mut Random, large: bool) -> Vec<Record> {
    let count = count(random, large);
    let mut list = whole(random, count);
    for place in 1..count {
        let step = broken_step(random);
        step_to(&mut list, place, random.pick(&[0, 1, step, step]));
    }
    let (event, changes) = (random.event(), random.percent(50));
    list.iter_mut().for_each(|record| record.1 = if changes { event ^ u64::from(record.0) } else { event });
    list
}

// One byte of the counter is another one from record to record, and the event stays, mostly.
pub fn one_byte(random: &mut Random, large: bool) -> Vec<Record> {
    let count = count(random, large);
    let mut list = whole(random, count);
    for place in 1..count {
        let (counter, event) = list[place - 1];
        let other = random.within(1, 255) as u32;
        list[place] = (counter ^ other << random.pick(&[0, 8, 16, 24]), if random.percent(80) { event } else { random.event() });
    }
    list
}

// The same few records again and again: one is dropped only right behind itself.
pub fn returning(random: &mut Random, large: bool) -> Vec<Record> {
    let (few, count) = (whole(random, 3), count(random, large));
    (0..count).map(|_| random.pick(&few)).collect()
}

// ---- Recordings with a clash, most of them

// Few counters and two events, in any order.
pub fn any_numbers(random: &mut Random, _: bool) -> Vec<Record> {
    let count = random.within(2, 7);
    (0..count).map(|_| (random.pick(&[0, 1, 2, LAST - 1, LAST]), random.pick(&[0, 1 << 40]))).collect()
}

fn with_clash(random: &mut Random, mut list: Vec<Record>, place: fn(&mut Random, usize) -> usize) -> Vec<Record> {
    list.truncate(MOST_RECORDS - 1);
    let place = place(random, list.len());
    clash(random, &mut list, place);
    list
}

pub fn clash_first(random: &mut Random, large: bool) -> Vec<Record> {
    let list = any(random, large);
    with_clash(random, list, |_, _| 0)
}

pub fn clash_last(random: &mut Random, large: bool) -> Vec<Record> {
    let list = any(random, large);
    with_clash(random, list, |_, count| count - 1)
}

pub fn clash_between(random: &mut Random, large: bool) -> Vec<Record> {
    let list = any(random, large);
    with_clash(random, list, Random::below)
}

pub fn several_clashes(random: &mut Random, large: bool) -> Vec<Record> {
    let list = clash_between(random, large);
    with_clash(random, list, Random::below)
}

// The record that is clashed with is a double, or comes right behind a break.
pub fn clash_behind(random: &mut Random, large: bool) -> Vec<Record> {
    let mut list = doubled_at_break(random, large);
    let places: Vec<usize> = (1..list.len()).filter(|&place| list[place].0 != list[place - 1].0.wrapping_add(1)).collect();
    let place = random.pick(&places);
    clash(random, &mut list, place);
    list
}
