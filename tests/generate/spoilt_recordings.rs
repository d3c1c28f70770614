// Recordings that mend and stretch refuse before they look at the records: with a wrong number in the header, torn, or with wrong lengths
// lent. Each is made from a recording that is as it should be, or has a clash.

use crate::random::Random;
use crate::recordings::*;

// Changes a recording, and what is lent with it. A header is there before, and need not be afterwards.
pub type Spoil = fn(Recorded, &mut Random) -> Recorded;

pub const SPOILS: &[(&str, Spoil)] = &[
    ("recording: number of records", number_of_records),
    ("recording: offset", offset),
    ("recording: torn", torn),
    ("recording: fourth number", fourth),
    ("recording: total", total),
    ("recording: torn, with its total", torn_with_total),
    ("recording: wrong length for the mended", lent_mended),
    ("recording: records more or less", records_more_or_less),
    ("recording: as long in fewer bits", fewer_bits),
    ("recording: wrong number of marks and events", lent_numbers),
    ("recording: short", short),
    ("recording: a bit of the header", bit),
];

const LAST: u32 = u32::MAX;

// A good number with a bit above it.
fn with_high_bit(random: &mut Random, good: u32) -> u32 {
    good ^ 1 << random.pick(&[8, 16, 24, 31])
}

// What is lent goes with the number, or stays.
fn number_of_records(recorded: Recorded, random: &mut Random) -> Recorded {
    let count = recorded.records() as u32;
    let high = with_high_bit(random, count);
    let wrong = random.pick(&[0, count.wrapping_sub(1), count + 1, count + 1, 2 * count + 1, count + 600, high, LAST]);
    let recorded = recorded.with(COUNT, wrong);
    if random.percent(60) {
        recorded.lent()
    } else {
        recorded
    }
}

fn offset(recorded: Recorded, random: &mut Random) -> Recorded {
    let high = with_high_bit(random, 16);
    recorded.with(BEGIN, random.pick(&[0, 12, 15, 17, 28, high, high, high, LAST]))
}

fn total(recorded: Recorded, random: &mut Random) -> Recorded {
    let length = recorded.bytes.len() as u32;
    let high = with_high_bit(random, length);
    recorded.with(TOTAL, random.pick(&[0, 15, 16, length - 1, length + 1, length + 12, length - 12, high, high, LAST]))
}

fn fourth(recorded: Recorded, random: &mut Random) -> Recorded {
    let high = with_high_bit(random, 0);
    recorded.with(FOURTH, random.pick(&[1, 1, 2, 16, high, high, high, LAST]))
}

// Cut or extended inside a record. The mended one is lent as many bytes, mostly.
fn torn(recorded: Recorded, random: &mut Random) -> Recorded {
    let (by, length) = (random.within(1, 11), recorded.bytes.len());
    let torn = recorded.of_length(if length >= HEADER + by && random.percent(50) { length - by } else { (length + by).min(8192) });
    let mended = if random.percent(80) { torn.bytes.len() } else { length };
    Recorded { mended, ..torn }
}

// Nothing but the number of records is wrong.
fn torn_with_total(recorded: Recorded, random: &mut Random) -> Recorded {
    let torn = torn(recorded, random);
    let length = torn.bytes.len();
    Recorded { mended: length, ..torn.with(TOTAL, length as u32) }
}

// Whole records, and of the two numbers one goes with them: the total alone is 4, the number of records alone is 1.
fn records_more_or_less(recorded: Recorded, random: &mut Random) -> Recorded {
    let (by, count) = (random.within(1, 3), recorded.records());
    let other = if random.percent(50) { count.saturating_sub(by) } else { (count + by).min(MOST_RECORDS) };
    let recorded = recorded.of_length(HEADER + RECORD * other);
    let length = recorded.bytes.len() as u32;
    let with_one = if random.percent(70) { recorded.with(TOTAL, length) } else { recorded.with(COUNT, other as u32) };
    with_one.lent()
}

// The total is what the number of records gives in 8 bits, in 16 bits, or in 32, where so much cannot be lent.
fn fewer_bits(recorded: Recorded, random: &mut Random) -> Recorded {
    let (count, few) = (recorded.records(), random.below(4));
    let (told, length) = match random.below(6) {
        0 | 1 => (count + 64, HEADER + RECORD * count),
        2 | 3 => (5462 + few, 24 + RECORD * few), // 65,560 bytes, or some records more
        4 => (357_913_942 + few, 24 + RECORD * few),
        _ => (count + (1 << 30), HEADER + RECORD * count),
    };
    recorded.of_length(length).with(COUNT, told as u32).with(TOTAL, length as u32).lent()
}

// Fewer bytes than a header has.
fn short(recorded: Recorded, random: &mut Random) -> Recorded {
    let length = random.below(HEADER);
    let short = recorded.with(COUNT, random.below(2) as u32).with(TOTAL, length as u32).of_length(length);
    Recorded { marks: random.below(2), events: random.below(2), ..short.lent() }
}

fn lent_mended(recorded: Recorded, random: &mut Random) -> Recorded {
    let length = recorded.bytes.len();
    Recorded { mended: random.pick(&[0, HEADER - 1, length - 1, length - 1, length + 1, length + 4, length - 12]), ..recorded }
}

fn lent_numbers(recorded: Recorded, random: &mut Random) -> Recorded {
    let count = recorded.records();
    let wrong = random.pick(&[0, count.saturating_sub(1), count + 1, count + 1, 2 * count, 1024]);
    Recorded { marks: wrong, events: wrong, ..recorded }
}

fn bit(mut recorded: Recorded, random: &mut Random) -> Recorded {
    recorded.bytes[random.below(HEADER)] ^= 1 << random.below(8);
    if random.percent(50) {
        recorded.lent()
    } else {
        recorded
    }
}
