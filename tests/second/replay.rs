// The requests of PROTOCOL.md and their answer lines.

use crate::model::add::add;
use crate::model::bytes::{front_and_rest, little_endian};
use crate::model::capture::{capture, Captured};
use crate::model::central::central;
use crate::model::mend::{mend, Mended};
use crate::model::parse::{parse, NotParsed};
use crate::model::print::print;
use crate::model::refusal::Refusal;
use crate::model::report::{report, NotReported};
use crate::model::rule_file::{read, write};
use crate::model::stretch::stretch;
use crate::model::watch::{ask, close, load, sample, step};

const READ: u64 = 1;
const WRITE: u64 = 2;
const CENTRAL: u64 = 3;
const LOAD: u64 = 4;
const SAMPLE: u64 = 5;
const STEP: u64 = 6;
const CLOSE: u64 = 7;
const ASK: u64 = 8;
const POKE: u64 = 9;
const CAPTURE: u64 = 10;
const PARSE: u64 = 11;
const PRINT: u64 = 12;
const REPORT: u64 = 13;
const ADD: u64 = 14;
const MEND: u64 = 15;
const STRETCH: u64 = 16;

const KEPT: u64 = 8192;
const MOST_LENT: u64 = 8192;
const MOST_LISTED: u64 = 786_456; // bytes: two runs more than a list may have
const ANY: u64 = u64::MAX;

// All that the replay prints for a stream of requests.
pub fn replay(stream: &[u8]) -> String {
    let mut lines = String::new();
    let mut kept = vec![0; KEPT as usize];
    let mut left = stream;
    while !left.is_empty() {
        let (request, rest) = match Request::take(left) {
            Some(taken) => taken,
            None => return lines + "bad request\n",
        };
        lines += &request.answer(&mut kept).line();
        left = rest;
    }
    lines
}

struct Request<'a> {
    call: u64,
    a: u64,
    b: u64,
    c: u64,
    v: u64,
    payload: &'a [u8],
}

impl<'a> Request<'a> {
    // The request at the front of the stream, and what follows it; nothing where it is no good request.
    fn take(stream: &'a [u8]) -> Option<(Request<'a>, &'a [u8])> {
        let (header, rest) = front_and_rest(stream, 24)?;
        let word = |at: usize| little_endian(&header[at..at + 4]);
        let (call, a, b, c) = (word(0), word(4), word(8), word(12));
        let v = little_endian(&header[16..24]);
        let within = |most: [u64; 3]| a <= most[0] && b <= most[1] && c <= most[2];
        let (good, length) = match call {
            READ => (within([4096, 32, MOST_LENT]), a),
            WRITE => (within([32, 8192, MOST_LENT]), 8 * a + b),
            CENTRAL | PARSE | PRINT => (within([8192, ANY, MOST_LENT]), a),
            LOAD => (within([4096, ANY, MOST_LENT]), a),
            SAMPLE => (within([ANY, KEPT, ANY]), 8),
            STEP | ASK => (within([ANY, KEPT, ANY]), 0),
            CLOSE => (within([ANY, KEPT, MOST_LENT]), 0),
            POKE => (a + b <= KEPT, a),
            CAPTURE => (within([256, KEPT, MOST_LENT]), 8 * a),
            REPORT => (within([8192, ANY, MOST_LENT]) && a * b <= MOST_LISTED, a),
            ADD => (within([8192, KEPT, ANY]), a),
            MEND => (within([8192, MOST_LENT, MOST_LENT]), a),
            STRETCH => (within([8192, ANY, 1024]), a),
            _ => (false, 0),
        };
        if !good {
            return None;
        }
        let (payload, rest) = front_and_rest(rest, length as usize)?;
        Some((Request { call, a, b, c, v, payload }, rest))
    }

    fn answer(&self, kept: &mut [u8]) -> Answer {
        match self.call {
            READ => self.answer_read(),
            WRITE => self.answer_write(),
            CENTRAL => self.answer_central(),
            LOAD => self.answer_load(kept),
            SAMPLE => self.answer_sample(&mut kept[..self.b as usize]),
            STEP => self.answer_step(&mut kept[..self.b as usize]),
            CLOSE => self.answer_close(kept),
            ASK => self.answer_ask(&kept[..self.b as usize]),
            POKE => self.answer_poke(kept),
            CAPTURE => self.answer_capture(&mut kept[..self.b as usize]),
            PARSE => self.answer_parse(),
            PRINT => self.answer_print(),
            REPORT => self.answer_report(kept),
            ADD => self.answer_add(&mut kept[..self.b as usize]),
            MEND => self.answer_mend(),
            _ => self.answer_stretch(),
        }
    }

    fn answer_read(&self) -> Answer {
        let (mut masks, mut formula) = (lent_numbers(self.b), lent_bytes(self.c));
        let result = read(self.payload, &mut masks, &mut formula);
        let values = result.map(|counts| vec![counts.boards, counts.propositions, counts.nodes]);
        Answer { values, behind: vec![hash(&bytes_of_numbers(&masks)), hash(&formula)] }
    }

    fn answer_write(&self) -> Answer {
        let (masks, formula) = self.payload.split_at(8 * self.a as usize);
        let masks = numbers_of(masks);
        let mut file = lent_bytes(self.c);
        let result = write(&masks, self.v, formula, &mut file);
        Answer { values: result.map(|length| vec![length]), behind: vec![hash(&file)] }
    }

    fn answer_central(&self) -> Answer {
        let mut output = lent_bytes(self.c);
        let result = central(self.payload, self.v, &mut output);
        let values = result.map(|(verdict, length)| vec![verdict as u64, length]);
        Answer { values, behind: vec![hash(&output)] }
    }

    fn answer_load(&self, kept: &mut [u8]) -> Answer {
        let mut state = lent_bytes(self.c);
        let result = load(self.payload, &mut state);
        if result.is_ok() {
            kept[..state.len()].copy_from_slice(&state);
        }
        Answer { values: result.map(|()| vec![]), behind: vec![hash(&state)] }
    }

    fn answer_sample(&self, state: &mut [u8]) -> Answer {
        let result = sample(state, little_endian(self.payload), self.v);
        Answer { values: result.map(|()| vec![]), behind: vec![hash(state)] }
    }

    fn answer_step(&self, state: &mut [u8]) -> Answer {
        let result = step(state, self.v);
        Answer { values: result.map(|()| vec![]), behind: vec![hash(state)] }
    }

    fn answer_close(&self, kept: &mut [u8]) -> Answer {
        let state = &kept[..self.b as usize];
        let mut second = lent_bytes(self.c);
        let result = close(state, &mut second);
        let behind = vec![hash(state), hash(&second)];
        if result.is_ok() {
            kept[..second.len()].copy_from_slice(&second);
        }
        Answer { values: result.map(|()| vec![]), behind }
    }

    fn answer_ask(&self, state: &[u8]) -> Answer {
        let values = ask(state).map(|standing| vec![standing.verdict as u64, standing.ticks, standing.slots, standing.nodes]);
        Answer { values, behind: vec![hash(state)] }
    }

    fn answer_poke(&self, kept: &mut [u8]) -> Answer {
        let offset = self.b as usize;
        kept[offset..offset + self.payload.len()].copy_from_slice(self.payload);
        Answer { values: Ok(vec![]), behind: vec![] }
    }

    fn answer_capture(&self, state: &mut [u8]) -> Answer {
        let mut second = lent_bytes(self.c);
        let result = capture(state, &mut second, &numbers_of(self.payload));
        let stop = |refusal: Option<Refusal>| refusal.map_or(0, |refusal| refusal as u64);
        let values = result.map(|Captured { closed, verdict, refusal }| vec![closed, verdict as u64, stop(refusal)]);
        Answer { values, behind: vec![hash(state), hash(&second)] }
    }

    fn answer_parse(&self) -> Answer {
        let mut formula = lent_bytes(self.c);
        let (values, place) = match parse(self.payload, &mut formula) {
            Ok(nodes) => (Ok(vec![nodes]), vec![]),
            Err(NotParsed::Refused(refusal)) => (Err(refusal), vec![]),
            Err(NotParsed::NoText(place)) => (Err(Refusal::Text), vec![place.line, place.byte]),
        };
        Answer { values, behind: [place, vec![hash(&formula)]].concat() }
    }

    fn answer_print(&self) -> Answer {
        let mut text = lent_bytes(self.c);
        let result = print(self.payload, &mut text);
        Answer { values: result.map(|length| vec![length]), behind: vec![hash(&text)] }
    }

    fn answer_report(&self, kept: &mut [u8]) -> Answer {
        let mut output = lent_bytes(self.c);
        let (values, place) = match report(&self.payload.repeat(self.b as usize), &mut output) {
            Ok(()) => (Ok(vec![]), vec![]),
            Err(NotReported::Refused(refusal)) => (Err(refusal), vec![]),
            Err(NotReported::BadRun(place)) => (Err(Refusal::Run), vec![place]),
        };
        if values.is_ok() {
            kept[..output.len()].copy_from_slice(&output);
        }
        Answer { values, behind: [place, vec![hash(&output)]].concat() }
    }

    fn answer_add(&self, total: &mut [u8]) -> Answer {
        let result = add(total, self.payload);
        Answer { values: result.map(|()| vec![]), behind: vec![hash(total)] }
    }

    fn answer_mend(&self) -> Answer {
        let (mut mended, mut marks) = (lent_bytes(self.b), lent_bytes(self.c));
        let result = mend(self.payload, &mut mended, &mut marks);
        let values = result.map(|Mended { kept, first }| vec![kept, first]);
        Answer { values, behind: vec![hash(&mended), hash(&marks)] }
    }

    fn answer_stretch(&self) -> Answer {
        let mut events = lent_numbers(self.c);
        let result = stretch(self.payload, &mut events);
        Answer { values: result.map(|count| vec![count]), behind: vec![hash(&bytes_of_numbers(&events))] }
    }
}

// Lent outputs start with a pattern, so that a byte missed or written by a refusal shows in the hash.
pub fn lent_bytes(count: u64) -> Vec<u8> {
    (0..count).map(|i| (i % 251 + 1) as u8).collect()
}

pub fn lent_numbers(count: u64) -> Vec<u64> {
    (1..=count).map(|i| i.wrapping_mul(0x0101_0101_0101_0101)).collect()
}

fn numbers_of(bytes: &[u8]) -> Vec<u64> {
    bytes.chunks(8).map(little_endian).collect()
}

fn bytes_of_numbers(numbers: &[u64]) -> Vec<u8> {
    numbers.iter().flat_map(|number| number.to_le_bytes()).collect()
}

fn hash(bytes: &[u8]) -> u64 {
    bytes.iter().fold(1, |h, &byte| (h * 257 + u64::from(byte) + 1) % 4_294_967_291)
}

struct Answer {
    values: Result<Vec<u64>, Refusal>,
    behind: Vec<u64>, // the place of a text that is none, or of a bad run, and the hashes
}

impl Answer {
    fn line(&self) -> String {
        let mut fields = match &self.values {
            Ok(values) => [&[0], &values[..]].concat(),
            Err(refusal) => vec![*refusal as u64],
        };
        fields.extend(&self.behind);
        let words: Vec<String> = fields.iter().map(u64::to_string).collect();
        words.join(" ") + "\n"
    }
}
