// Named examples of mend and stretch: recordings of few records, every bit of a counter and of an event, each number of the header one
// off, wrong lengths, and the orders of the checks. They stand in every stream.

use crate::recordings::*;
use crate::script::Script;

const EXAMPLES: &[(&str, fn(&mut Script))] = &[
    ("recording: no records", none),
    ("recording: examples", examples),
    ("recording: steps", steps),
    ("recording: bits of a counter", counters),
    ("recording: bits of an event", events),
    ("recording: clashes", clashes),
    ("recording: numbers of the header", numbers),
    ("recording: torn", torn),
    ("recording: as long in fewer bits", fewer_bits),
    ("recording: wrong lengths", lengths),
    ("recording: order of the checks", order),
    ("recording: as many records as a request has", most),
];

pub fn recorded(script: &mut Script) {
    for (case, example) in EXAMPLES {
        script.case = case;
        example(script);
    }
}

const LAST: u32 = u32::MAX;
const THREE: &[Record] = &[(5, 7), (6, 8), (7, 9)];

fn give(script: &mut Script, recorded: &Recorded) {
    script.mend(recorded);
    script.stretch(recorded);
}

fn record(script: &mut Script, list: &[Record]) {
    give(script, &Recorded::of(list));
}

// Of a header alone, also where its numbers tell of something.
fn none(script: &mut Script) {
    record(script, &[]);
    for (number, wrong) in [(COUNT, 1), (BEGIN, 0), (BEGIN, 28), (TOTAL, 0), (TOTAL, 17), (TOTAL, 28), (FOURTH, 1), (FOURTH, LAST)] {
        give(script, &Recorded::of(&[]).with(number, wrong).lent());
    }
    for length in [0, 1, 4, 12, 15] {
        give(script, &Recorded::of(&[]).with(TOTAL, length as u32).of_length(length).lent());
    }
}

fn examples(script: &mut Script) {
    for list in [
        &[(5, 7)][..],
        &[(LAST, u64::MAX)],
        THREE,
        &[(5, 7), (5, 7)],
        &[(5, 7), (5, 7), (5, 7)],
        &[(5, 7), (5, 7), (5, 7), (6, 7), (6, 7), (7, 7)],
        &[(5, 7), (6, 7), (6, 7)],
        &[(LAST, 7), (0, 7)],
        &[(LAST - 1, 7), (LAST, 8), (0, 9), (1, 10)],
        &[(LAST, 7), (LAST, 7), (0, 7), (0, 7), (1, 7)],
        &[(0, 7), (LAST, 7)],
        &[(5, 7), (4, 8), (5, 9)],
        &[(5, 7), (7, 7)],
        &[(5, 7), (7, 8), (8, 9)],
        &[(5, 7), (6, 8), (8, 9), (9, 10), (11, 12)],
        &[(5, 7), (6, 8), (6, 8), (8, 9), (8, 9), (9, 9)],
        &[(5, 7), (8, 9), (8, 9), (8, 9)],
        &[(5, 7), (6, 8), (5, 7), (6, 8)],
        &[(5, 7), (6, 8), (5, 9)],
        &[(0, 0), (0, 0), (1, 0)],
        &[(0, 0), (2, 0), (4, 0), (6, 0)],
    ] {
        record(script, list);
        let mut mended = list.to_vec();
        mended.dedup();
        if mended.len() < list.len() {
            record(script, &mended);
        }
    }
}

// Between records of one event, and between records of two.
fn steps(script: &mut Script) {
    for step in [0, 1, 2, 3, 255, 256, 257, 1 << 16, (1 << 16) + 1, 1 << 24, (1 << 24) + 1, 1 << 31, (1 << 31) + 1, LAST - 1, LAST] {
        record(script, &[(9, 7), (9u32.wrapping_add(step), 7), (10u32.wrapping_add(step), 7)]);
        record(script, &[(9, 7), (9u32.wrapping_add(step), 8)]);
    }
}

// From 0 to each and back, with one event and with two: steps to higher counters and to lower ones.
fn counters(script: &mut Script) {
    for events in [[7, 7], [7, 8]] {
        record(script, &(0..32).flat_map(|bit| [(0, events[0]), (1 << bit, events[1])]).collect::<Vec<Record>>());
        record(script, &(0..32).flat_map(|bit| [(LAST, events[0]), (LAST ^ 1 << bit, events[1])]).collect::<Vec<Record>>());
    }
}

// In one tick each is a clash, and from one tick to the next none is.
fn events(script: &mut Script) {
    for bit in 0..64 {
        let clash = Recorded::of(&[(5, 7), (6, 0), (6, 1 << bit)]);
        if bit % 2 == 0 {
            script.mend(&clash);
        } else {
            script.stretch(&clash);
        }
    }
    record(script, &(0..128).map(|tick| (tick, if tick % 2 == 0 { 0 } else { 1 << (tick / 2) })).collect::<Vec<Record>>());
}

fn clashes(script: &mut Script) {
    for list in [
        &[(5, 7), (5, 8)][..],
        &[(5, 8), (5, 7)],
        &[(5, 7), (5, 8), (6, 9)],
        &[(5, 7), (6, 8), (6, 9)],
        &[(5, 7), (5, 7), (5, 8)],
        &[(5, 7), (5, 8), (5, 8)],
        &[(5, 7), (5, 8), (5, 7)],
        &[(5, 7), (8, 7), (8, 9)],
        &[(5, 7), (8, 7), (9, 7), (11, 7), (11, 9), (12, 9)],
        &[(5, 7), (8, 7), (8, 7), (8, 9)],
        &[(LAST, 7), (0, 7), (0, 1 << 63 | 7)],
    ] {
        record(script, list);
    }
}

// One off, and with a bit above; what is lent goes with the number of records, or stays.
fn numbers(script: &mut Script) {
    let good = Recorded::of(THREE);
    for number in [COUNT, BEGIN, TOTAL, FOURTH] {
        let right = good.number(number);
        for wrong in [right.wrapping_sub(1), right + 1, right | 1 << 8, right | 1 << 16, right | 1 << 24, right | 1 << 31] {
            let damaged = Recorded::of(THREE).with(number, wrong);
            if number == COUNT {
                give(script, &damaged);
            }
            give(script, &damaged.lent());
        }
    }
}

// Cut or extended, with its total and without.
fn torn(script: &mut Script) {
    for length in [16, 17, 28, 40, 41, 51, 53, 63, 64] {
        give(script, &Recorded::of(THREE).of_length(length).lent());
        give(script, &Recorded::of(THREE).with(TOTAL, length as u32).of_length(length).lent());
    }
}

fn fewer_bits(script: &mut Script) {
    for (count, length) in [(22, 24), (64, 16), (67, 52), (5462, 24), (5464, 48), (357_913_942, 24), (1 << 30 | 3, 52)] {
        give(script, &Recorded::of(THREE).of_length(length).with(COUNT, count).with(TOTAL, length as u32).lent());
    }
}

fn lengths(script: &mut Script) {
    for mended in [0, 16, 28, 51, 53, 64, 8192] {
        script.mend(&Recorded { mended, ..Recorded::of(THREE) });
    }
    for lent in [0, 1, 2, 4, 12, 52] {
        give(script, &Recorded { marks: lent, events: lent, ..Recorded::of(THREE) });
    }
    give(script, &Recorded { mended: 0, marks: 0, events: 1024, ..Recorded::of(THREE) });
}

// 1, then 4, then 20.
fn order(script: &mut Script) {
    let clash = || Recorded::of(&[(5, 7), (5, 8)]);
    give(script, &clash());
    for number in [BEGIN, FOURTH] {
        let damaged = || clash().with(number, 17);
        give(script, &damaged()); // 4
        give(script, &Recorded { marks: 1, events: 1, ..damaged() }); // 1
        script.mend(&Recorded { mended: 39, ..damaged() });
        give(script, &damaged().with(TOTAL, 41));
        give(script, &damaged().of_length(39).lent());
    }
    give(script, &Recorded { marks: 1, events: 1, ..clash() });
    script.mend(&Recorded { mended: 41, ..clash() });
    give(script, &clash().with(COUNT, 1)); // 1
    give(script, &clash().with(COUNT, 1).lent()); // 4
    give(script, &clash().of_length(39).lent());
}

fn most(script: &mut Script) {
    let ticks = MOST_RECORDS as u32;
    let whole: Vec<Record> = (0..ticks).map(|tick| ((LAST - 300).wrapping_add(tick), u64::from(tick))).collect();
    record(script, &whole);
    let mut doubled: Vec<Record> = (1..=ticks).map(|place| (place / 2, u64::from(place / 2) << 32)).collect();
    record(script, &doubled);
    doubled[400].1 += 1;
    record(script, &doubled[..401]);
}
