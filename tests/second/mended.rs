// What is claimed of mend, tried on all short lists of few records and on lists by chance: which records are dropped, before which there is
// a break, that what is kept stays in its order, that a mended recording is mended to itself, and that its checks come in their order.

use crate::model::mend::Mended;
use crate::model::refusal::Refusal;
use crate::random::Random;
use crate::recordings::{any, bytes_of, clash, Record, Recorded, BEGIN, COUNT, FOURTH, HEADER, MOST_RECORDS, TOTAL};
use crate::spoilt_recordings::SPOILS;
use crate::trying::{mended, short_lists, Mending};

const LAST: u32 = u32::MAX;
const KEPT: u8 = 0;
const DROPPED: u8 = 1;
const AFTER_BREAK: u8 = 2;
const TWO: &[Record] = &[(5, 7), (6, 8)];

// The marks of a list, word by word as part 9.5 of the rules has them; nothing where there is a clash.
fn marks_of(list: &[Record]) -> Option<Vec<u8>> {
    let mut marks = vec![];
    for (place, &(counter, event)) in list.iter().enumerate() {
        let before = if place == 0 { None } else { Some(list[place - 1]) };
        marks.push(match before.map(|(own, other)| (counter.wrapping_sub(own), event == other)) {
            None => KEPT,
            Some((0, true)) => DROPPED,
            Some((0, false)) => return None,
            Some((1, _)) => KEPT,
            Some(_) => AFTER_BREAK,
        });
    }
    Some(marks)
}

fn mended_list(list: &[Record]) -> Result<Mending, Refusal> {
    mended(&Recorded::of(list))
}

// That mend gives this list its marks, keeps the others in their order and counts them, and mends what it has kept to the same bytes.
// Whether the list is refused.
fn holds_of(list: &[Record]) -> bool {
    let marks = match marks_of(list) {
        Some(marks) => marks,
        None => {
            assert_eq!(mended_list(list), Err(Refusal::Clash), "{list:?}");
            return true;
        }
    };
    let kept: Vec<(Record, u8)> = list.iter().copied().zip(marks.clone()).filter(|&(_, mark)| mark != DROPPED).collect();
    let (records, kept_marks): (Vec<Record>, Vec<u8>) = kept.into_iter().unzip();
    let first = kept_marks.iter().position(|&mark| mark == AFTER_BREAK).unwrap_or(records.len());
    let answer = Mended { kept: records.len() as u64, first: first as u64 };
    assert_eq!(mended_list(list), Ok(Mending { answer, recording: bytes_of(&records), marks }), "{list:?}");
    let again = Mending { answer, recording: bytes_of(&records), marks: kept_marks };
    assert_eq!(mended_list(&records), Ok(again), "{list:?}");
    false
}

#[test]
fn all_short_lists() {
    let refused = short_lists(&[0, 1, 2, LAST - 1, LAST], &[7, 8], 5).iter().filter(|list| holds_of(list)).count();
    assert_eq!(refused, 10 + 190 + 2710 + 34_390); // of 10 records, each clashes with one
}

// Some, with every step between two counters.
#[test]
fn all_short_lists_of_far_counters() {
    for list in short_lists(&[0, 255, 256, 257, 65_536, 65_537, 1 << 31, (1 << 31) + 1, LAST], &[0], 4) {
        holds_of(&list);
    }
}

#[test]
fn lists_by_chance() {
    let mut random = Random::new(1);
    let mut refused = 0;
    for round in 0..20_000 {
        let mut list = any(&mut random, round % 50 == 0);
        if round % 4 == 0 {
            list.truncate(MOST_RECORDS - 1);
            let place = random.below(list.len());
            clash(&mut random, &mut list, place);
        }
        refused += usize::from(holds_of(&list));
    }
    assert_eq!(refused, 5000);
}

// Compared whole: a bit of it is enough.
#[test]
fn every_bit_of_a_record() {
    for bit in 0..64 {
        holds_of(&[(5, 0), (5, 1 << bit)]);
        holds_of(&[(5, 1 << bit), (5, 1 << bit), (6, 0)]);
        assert_eq!(mended_list(&[(5, 0), (5, 1 << bit)]), Err(Refusal::Clash));
    }
    for bit in 0..32 {
        holds_of(&[(0, 7), (1 << bit, 7)]);
        holds_of(&[(1 << bit, 7), (0, 7)]);
        let marks = mended_list(&[(0, 7), (1 << bit, 7)]).unwrap().marks;
        assert_eq!(marks, [KEPT, if bit == 0 { KEPT } else { AFTER_BREAK }]);
    }
}

// Longer than a request can be.
#[test]
fn a_long_recording() {
    let mut random = Random::new(2);
    let mut list: Vec<Record> = vec![(LAST - 50_000, 0)];
    while list.len() < 5000 {
        let (counter, event) = list[list.len() - 1];
        let step = random.pick(&[0, 1, 1, 1, 1, 1, 1, 1, 2, 1000]);
        list.push((counter.wrapping_add(step), if step == 0 { event } else { random.event() }));
    }
    assert!(!holds_of(&list));
}

// The number that mend must answer where the lengths or the header are wrong, word by word as part 11 has it.
fn refused_before_records(recorded: &Recorded) -> Option<Refusal> {
    let length = recorded.bytes.len();
    if length < HEADER {
        return Some(Refusal::Length);
    }
    let numbers = [COUNT, BEGIN, TOTAL, FOURTH].map(|number| u128::from(recorded.number(number)));
    if numbers[TOTAL] != length as u128 || recorded.mended != length || recorded.marks as u128 != numbers[COUNT] {
        return Some(Refusal::Length);
    }
    let good = [numbers[COUNT], 16, 16 + 12 * numbers[COUNT], 0];
    (numbers != good).then_some(Refusal::Offset)
}

#[test]
fn spoilt_recordings_are_refused() {
    let mut random = Random::new(3);
    let mut counts = [0; 3];
    for round in 0..20_000 {
        let list = if round % 3 == 0 { vec![(5, 7), (5, 8)] } else { any(&mut random, false) };
        let (name, spoil) = SPOILS[round % SPOILS.len()];
        let recorded = spoil(Recorded::of(&list), &mut random);
        let wanted = refused_before_records(&recorded);
        match wanted {
            Some(refusal) => assert_eq!(mended(&recorded), Err(refusal), "{name}"),
            None => assert_eq!(mended(&recorded), mended_list(&list), "{name}"),
        }
        counts[wanted.map_or(0, |refusal| if refusal == Refusal::Length { 1 } else { 2 })] += 1;
    }
    assert!(counts[0] < 1000 && counts[1..].iter().all(|&count| count > 5000), "{counts:?}");
}

#[test]
fn every_bit_of_the_header() {
    for list in [&[][..], TWO, &[(5, 7), (5, 8)]] {
        for bit in 0..128 {
            let mut recorded = Recorded::of(list);
            recorded.bytes[bit / 8] ^= 1 << (bit % 8);
            let number = bit / 32;
            let wanted = if number == COUNT || number == TOTAL { Refusal::Length } else { Refusal::Offset };
            assert_eq!(mended(&recorded), Err(wanted), "bit {bit}");
            if number == COUNT && bit < 13 {
                assert_eq!(mended(&recorded.lent()), Err(Refusal::Offset), "bit {bit}");
            }
        }
    }
}

#[test]
fn every_length() {
    for length in 0..=100 {
        let torn = || Recorded::of(TWO).of_length(length).lent();
        let with_total = || Recorded::of(TWO).with(TOTAL, length as u32).of_length(length).lent();
        let (own, short) = (length == 40, length < HEADER);
        assert_eq!(mended(&torn()).err(), if own { None } else { Some(Refusal::Length) }, "{length}");
        let wanted = if short { Some(Refusal::Length) } else { Some(Refusal::Offset) };
        assert_eq!(mended(&with_total()).err(), if own { None } else { wanted }, "{length}");
        let lent_mended = Recorded { mended: length, ..Recorded::of(TWO) };
        assert_eq!(mended(&lent_mended).err(), if own { None } else { Some(Refusal::Length) }, "{length}");
        let lent_marks = Recorded { marks: length, ..Recorded::of(TWO) };
        assert_eq!(mended(&lent_marks).err(), if length == 2 { None } else { Some(Refusal::Length) }, "{length}");
    }
}

#[test]
fn one_comes_before_four_and_four_before_twenty() {
    let clash = || Recorded::of(&[(5, 7), (5, 8)]);
    assert_eq!(mended(&clash()), Err(Refusal::Clash));
    for (number, wrong) in [(BEGIN, 12), (FOURTH, 1), (BEGIN, 1 << 16 | 16), (FOURTH, 1 << 31)] {
        let damaged = || clash().with(number, wrong);
        assert_eq!(mended(&damaged()), Err(Refusal::Offset));
        for (mended_lent, marks_lent) in [(40, 1), (40, 3), (39, 2), (41, 2), (0, 0)] {
            let recorded = Recorded { mended: mended_lent, marks: marks_lent, ..damaged() };
            assert_eq!(mended(&recorded), Err(Refusal::Length));
        }
        assert_eq!(mended(&damaged().with(TOTAL, 41)), Err(Refusal::Length));
        assert_eq!(mended(&damaged().with(COUNT, 1)), Err(Refusal::Length));
        assert_eq!(mended(&damaged().with(COUNT, 1).lent()), Err(Refusal::Offset));
    }
}
