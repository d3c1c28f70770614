// Named recordings, with what mend and stretch must make of each, and requests for them with their answers.

use crate::model::mend::{mend, Mended};
use crate::model::refusal::Refusal;
use crate::recordings::{bytes_of, Record, Recorded, COUNT, TOTAL};
use crate::replay::{lent_bytes, lent_numbers, replay};
use crate::trying::{mended, request, stretched, Mending};

const LAST: u32 = u32::MAX;
const THREE: &[Record] = &[(5, 7), (6, 8), (7, 9)];

// That mend gives a list these marks and so drops what is marked 1, and how many records are in the first stretch.
fn gives(list: &[Record], marks: &[u8], first: usize) {
    let kept: Vec<Record> = list.iter().zip(marks).filter(|&(_, &mark)| mark != 1).map(|(&record, _)| record).collect();
    let answer = Mended { kept: kept.len() as u64, first: first as u64 };
    let mending = Mending { answer, recording: bytes_of(&kept), marks: marks.to_vec() };
    assert_eq!(mended(&Recorded::of(list)), Ok(mending), "{list:?}");
    assert_eq!(stretched(&Recorded::of(list)), Ok(kept[..first].iter().map(|record| record.1).collect()), "{list:?}");
}

fn clash(list: &[Record]) {
    assert_eq!(mended(&Recorded::of(list)), Err(Refusal::Clash), "{list:?}");
    assert_eq!(stretched(&Recorded::of(list)), Err(Refusal::Clash), "{list:?}");
}

#[test]
fn without_a_break() {
    gives(&[], &[], 0);
    gives(&[(5, 7)], &[0], 1);
    gives(THREE, &[0, 0, 0], 3);
    gives(&[(5, 7), (6, 7), (7, 7)], &[0, 0, 0], 3);
    // the counter goes from the last to 0
    gives(&[(LAST, 7), (0, 8)], &[0, 0], 2);
    gives(&[(LAST - 1, 7), (LAST, 8), (0, 9), (1, 7)], &[0, 0, 0, 0], 4);
}

#[test]
fn doubled() {
    gives(&[(5, 7), (5, 7)], &[0, 1], 1);
    gives(&[(5, 7), (5, 7), (5, 7)], &[0, 1, 1], 1);
    gives(&[(5, 7), (5, 7), (6, 8), (6, 8), (7, 8)], &[0, 1, 0, 1, 0], 3);
    gives(&[(LAST, 7), (LAST, 7), (0, 7), (0, 7)], &[0, 1, 0, 1], 2);
}

#[test]
fn with_a_break() {
    gives(&[(5, 7), (7, 7)], &[0, 2], 1);
    gives(&[(5, 7), (6, 8), (8, 9), (9, 10), (11, 12)], &[0, 0, 2, 0, 2], 2);
    // a step back
    gives(&[(5, 7), (4, 7)], &[0, 2], 1);
    gives(&[(0, 7), (LAST, 7)], &[0, 2], 1);
    // far on, and in some of the bytes not at all
    gives(&[(0, 7), (256, 7), (65_792, 7), (65_792 + (1 << 31), 7)], &[0, 2, 2, 2], 1);
    // a double before the break and one behind it
    gives(&[(5, 7), (6, 8), (6, 8), (8, 9), (8, 9), (9, 9)], &[0, 0, 1, 2, 1, 0], 2);
    // a record is dropped behind itself alone
    gives(&[(5, 7), (6, 8), (5, 7), (6, 8)], &[0, 0, 2, 0], 2);
    gives(&[(5, 7), (6, 8), (5, 9)], &[0, 0, 2], 2);
}

#[test]
fn clashes() {
    clash(&[(5, 7), (5, 8)]);
    clash(&[(5, 7), (6, 8), (6, 9)]);
    // behind a break
    clash(&[(5, 7), (8, 7), (8, 9)]);
    // with a record that is dropped
    clash(&[(5, 7), (5, 7), (5, 8)]);
    clash(&[(5, 7), (8, 7), (8, 7), (8, 9)]);
    clash(&[(5, 7), (5, 8), (5, 8)]);
    clash(&[(5, 0), (5, 1 << 63)]);
}

#[test]
fn the_bytes_of_a_recording() {
    let given = [2, 0, 0, 0, 16, 0, 0, 0, 40, 0, 0, 0, 0, 0, 0, 0, 4, 3, 2, 1, 1, 2, 3, 4, 5, 6, 7, 8, 4, 3, 2, 1, 1, 2, 3, 4, 5, 6, 7, 8];
    let left = [1, 0, 0, 0, 16, 0, 0, 0, 28, 0, 0, 0, 0, 0, 0, 0, 4, 3, 2, 1, 1, 2, 3, 4, 5, 6, 7, 8, 0, 0, 0, 0, 0, 0, 0, 0, 0, 0, 0, 0];
    assert_eq!(bytes_of(&[(0x0102_0304, 0x0807_0605_0403_0201); 2]), given);
    let (mut output, mut marks) = (lent_bytes(40), lent_bytes(2));
    assert_eq!(mend(&given, &mut output, &mut marks), Ok(Mended { kept: 1, first: 1 }));
    assert_eq!((&output[..], &marks[..]), (&left[..], &[0, 1][..]));
}

// 16 and 12 times 357,913,942 more are 24 in 32 bits. So many marks are lent here, and nobody touches them.
#[test]
fn a_number_of_records_that_is_right_in_32_bits() {
    let recording = Recorded::of(&[]).of_length(24).with(COUNT, 357_913_942).with(TOTAL, 24);
    let (mut output, mut marks) = (lent_bytes(24), vec![0; 357_913_942]);
    assert_eq!(mend(&recording.bytes, &mut output, &mut marks), Err(Refusal::Offset));
    assert_eq!(output, lent_bytes(24));
    assert_eq!(mended(&recording.lent()), Err(Refusal::Length)); // as many as a request has room for
}

// Requests of mend and of stretch.
fn asked_to_mend(recorded: &Recorded) -> Vec<u8> {
    request(15, [recorded.bytes.len(), recorded.mended, recorded.marks].map(|number| number as u32), &recorded.bytes)
}

fn asked_to_stretch(recorded: &Recorded) -> Vec<u8> {
    request(16, [recorded.bytes.len(), 0, recorded.events].map(|number| number as u32), &recorded.bytes)
}

#[test]
fn answers() {
    let holed = || Recorded::of(&[(5, 7), (6, 8), (6, 8), (9, 9)]);
    for (recorded, number, kept, first) in [
        (Recorded::of(&[]), "0", " 0", " 0"),
        (Recorded::of(THREE), "0", " 3", " 3"),
        (holed(), "0", " 3", " 2"),
        (Recorded { marks: 3, events: 3, ..holed() }, "1", "", ""),
        (holed().with(TOTAL, 65), "1", "", ""),
        (holed().with(COUNT, 3), "1", "", ""),
        (holed().with(COUNT, 3).lent(), "4", "", ""),
        (Recorded::of(&[(5, 7), (5, 8)]), "20", "", ""),
    ] {
        let answer = replay(&asked_to_mend(&recorded));
        assert_eq!(answer.rsplitn(3, ' ').last(), Some(&format!("{number}{kept}{first}")[..]));
        let answer = replay(&asked_to_stretch(&recorded));
        assert_eq!(answer.rsplitn(2, ' ').last(), Some(&format!("{number}{first}")[..]));
    }
}

// An add that is refused shows what is kept.
#[test]
fn nothing_is_kept() {
    let (poked, shown) = (request(9, [3, 8000, 0], &[1, 2, 3]), request(14, [8191, 8192, 0], &[0; 8191]));
    let calls = [asked_to_mend(&Recorded::of(THREE)), asked_to_stretch(&Recorded::of(THREE))].concat();
    let answers = replay(&[&poked[..], &shown, &calls, &shown].concat());
    let lines: Vec<&str> = answers.lines().collect();
    assert_eq!(lines.len(), 5);
    assert_eq!(lines[1], lines[4]);
}

// The numbers that events are before a call go on past 64 bits.
#[test]
fn what_is_lent() {
    assert_eq!(lent_numbers(1024)[254..257], [u64::MAX, 0x0101_0101_0101_0100, 0x0202_0202_0202_0201]);
}
