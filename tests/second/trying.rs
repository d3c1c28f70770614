// What the tests of the second program share: what central leaves, rule files, watches moved along a tick at a time, states as someone
// might hand them over, texts read, runs counted, recordings mended, requests, all small formulas, all short recordings, and room for
// deep formulas.

use crate::lists::{bytes_of as bytes_of_runs, Run};
use crate::model::add::add;
use crate::model::capture::{capture, Captured};
use crate::model::central::{central, OUTPUT};
use crate::model::check::network_of;
use crate::model::formula::{always, and, bytes_of, eventually, next, not, or, parse_slot, until, Formula};
use crate::model::mend::{mend, Mended};
use crate::model::parse::{parse, NotParsed, Place, FORMULA};
use crate::model::refusal::Refusal;
use crate::model::report::{report, NotReported, REPORT};
use crate::model::rule_file::write;
use crate::model::state::{Board, Network, Slot, STATE};
use crate::model::stretch::stretch;
use crate::model::watch::{close, load, sample, step};
use crate::recordings::{Record, Recorded, HEADER, RECORD};
use crate::replay::{lent_bytes, lent_numbers};

// What central makes of a formula under event 0.
pub fn progressed(formula: &[u8]) -> Vec<u8> {
    let mut output = lent_bytes(OUTPUT as u64);
    let (_, length) = central(formula, 0, &mut output).unwrap();
    output[..length as usize].to_vec()
}

// The file of a rule over these boards, their masks given.
pub fn file(masks: &[u64], formula: &[u8]) -> Vec<u8> {
    let union = masks.iter().fold(0, |union, mask| union | mask);
    let mut file = lent_bytes(1168);
    let length = write(masks, u64::from(union.count_ones()), formula, &mut file).expect("a good rule");
    file.truncate(length as usize);
    file
}

// The state as load leaves it.
pub fn loaded(masks: &[u64], formula: &[u8]) -> Result<Vec<u8>, Refusal> {
    let mut state = lent_bytes(STATE as u64);
    load(&file(masks, formula), &mut state)?;
    Ok(state)
}

pub fn network(state: &[u8]) -> Network {
    network_of(state).expect("a state that passes the check")
}

// The board and the nodes of each slot as loaded.
pub fn layout(masks: &[u64], formula: &[u8]) -> Vec<(usize, Vec<u8>)> {
    let state = loaded(masks, formula).unwrap();
    network(&state).slots.iter().map(|slot| (slot.board, bytes_of(&slot.formula))).collect()
}

// Samples all boards, each its part of the event.
pub fn sampled(state: &[u8], event: u64) -> Vec<u8> {
    let mut state = state.to_vec();
    for (number, board) in (0..).zip(network(&state).boards) {
        sample(&mut state, number, event & board.mask).expect("not sampled yet");
    }
    state
}

// The same and steps all slots.
pub fn stepped(state: &[u8], event: u64) -> Vec<u8> {
    let mut state = sampled(state, event);
    for number in (0..network(&state).slots.len() as u64).rev() {
        step(&mut state, number).expect("held slots are stepped first");
    }
    state
}

pub fn closed(state: &[u8]) -> Result<Vec<u8>, Refusal> {
    let before = state.to_vec();
    let mut second = lent_bytes(STATE as u64);
    close(state, &mut second)?;
    assert_eq!(state, before);
    Ok(second)
}

// What capture answers, and the state that it leaves. A refusal must write nothing, and the second buffer must end as zeros.
pub fn captured(state: &[u8], events: &[u64]) -> Result<(Captured, Vec<u8>), Refusal> {
    let mut left = state.to_vec();
    let mut second = lent_bytes(STATE as u64);
    let result = capture(&mut left, &mut second, events);
    if result.is_ok() {
        assert!(second.iter().all(|&byte| byte == 0));
    } else {
        assert_eq!((&left[..], second), (state, lent_bytes(STATE as u64)));
    }
    result.map(|captured| (captured, left))
}

// A state with these masks, samples where there are any, and slots: board, mark and formula, each filling its stretch.
pub fn handed(boards: &[(u64, Option<u64>)], slots: &[(usize, bool, Formula)]) -> Vec<u8> {
    let boards = boards.iter().map(|&(mask, sample)| Board { mask, sample: sample.unwrap_or(0), sampled: sample.is_some() }).collect();
    let mut network = Network { ticks: 0, nodes: 0, boards, slots: vec![] };
    for (board, stepped, formula) in slots {
        network.slots.push(Slot { board: *board, stepped: *stepped, start: network.nodes, formula: formula.clone() });
        network.nodes += formula.nodes() as usize;
    }
    network.bytes()
}

// The formula that these bytes are.
pub fn formula(bytes: &[u8]) -> Formula {
    parse_slot(bytes).unwrap()
}

// The formula of a text. A refusal must write nothing, and behind the formula must be zeros.
pub fn parsed(text: &[u8]) -> Result<Vec<u8>, NotParsed> {
    let mut output = lent_bytes(FORMULA as u64);
    let result = parse(text, &mut output);
    match result {
        Ok(nodes) => assert!(output.drain(nodes as usize..).all(|byte| byte == 0)),
        Err(_) => assert_eq!(output, lent_bytes(FORMULA as u64)),
    }
    result.map(|_| output)
}

// That a text is none from this byte of this line on.
pub fn no_text(line: u64, byte: usize) -> Result<Vec<u8>, NotParsed> {
    Err(NotParsed::NoText(Place { line, byte: byte as u64 }))
}

// The report of a list. A refusal must write nothing.
pub fn reported(list: &[Run]) -> Result<Vec<u8>, NotReported> {
    let mut output = lent_bytes(REPORT as u64);
    let result = report(&bytes_of_runs(list), &mut output);
    assert!(result.is_ok() || output == lent_bytes(REPORT as u64));
    result.map(|()| output)
}

// A report with another one added to it. A refusal must write nothing.
pub fn added(total: &[u8], night: &[u8]) -> Result<Vec<u8>, Refusal> {
    let mut sum = total.to_vec();
    let result = add(&mut sum, night);
    assert!(result.is_ok() || sum == total);
    result.map(|()| sum)
}

// What mend answers, the mended recording, cut to its own length, and the marks.
#[derive(Debug, PartialEq)]
pub struct Mending {
    pub answer: Mended,
    pub recording: Vec<u8>,
    pub marks: Vec<u8>,
}

// A refusal must write nothing, and behind the mended recording must be zeros.
pub fn mended(recorded: &Recorded) -> Result<Mending, Refusal> {
    let lent = || (lent_bytes(recorded.mended as u64), lent_bytes(recorded.marks as u64));
    let (mut recording, mut marks) = lent();
    let result = mend(&recorded.bytes, &mut recording, &mut marks);
    match result {
        Ok(answer) => assert!(recording.drain(HEADER + RECORD * answer.kept as usize..).all(|byte| byte == 0)),
        Err(_) => assert_eq!((&recording, &marks), (&lent().0, &lent().1)),
    }
    result.map(|answer| Mending { answer, recording, marks })
}

// The events of the first stretch. A refusal must write nothing, and behind the events must be zeros.
pub fn stretched(recorded: &Recorded) -> Result<Vec<u64>, Refusal> {
    let mut events = lent_numbers(recorded.events as u64);
    let result = stretch(&recorded.bytes, &mut events);
    match result {
        Ok(count) => assert!(events.drain(count as usize..).all(|event| event == 0)),
        Err(_) => assert_eq!(events, lent_numbers(recorded.events as u64)),
    }
    result.map(|_| events)
}

// All lists of up to so many records with these counters and events.
pub fn short_lists(counters: &[u32], events: &[u64], most: usize) -> Vec<Vec<Record>> {
    let records: Vec<Record> = counters.iter().flat_map(|&counter| events.iter().map(move |&event| (counter, event))).collect();
    let mut sizes: Vec<Vec<Vec<Record>>> = vec![vec![vec![]]];
    for size in 0..most {
        let longer = sizes[size].iter().flat_map(|list| records.iter().map(move |&record| [&list[..], &[record]].concat()));
        sizes.push(longer.collect());
    }
    sizes.concat()
}

// A header with this call and these numbers, v being 0, and the payload.
pub fn request(call: u8, numbers: [u32; 3], payload: &[u8]) -> Vec<u8> {
    let numbers: Vec<u8> = numbers.iter().flat_map(|number| number.to_le_bytes()).collect();
    [&[call, 0, 0, 0], &numbers[..], &[0; 8], payload].concat()
}

// The rule file and the events, as the run program reads them.
pub fn input(masks: &[u64], formula: &[u8], events: &[u64]) -> Vec<u8> {
    let mut input = file(masks, formula);
    events.iter().for_each(|event| input.extend(event.to_le_bytes()));
    input
}

// An and-chain of so many copies of a formula.
pub fn chain(count: usize, link: &[u8]) -> Vec<u8> {
    [[&[3], link].concat().repeat(count - 1), link.to_vec()].concat()
}

// The same of a or b.
pub fn copies(count: usize) -> Vec<u8> {
    chain(count, &[4, 64, 65])
}

// All formulas of up to so many nodes with these leaves.
pub fn all_small(leaves: &[Formula], most: usize) -> Vec<Formula> {
    let mut sizes: Vec<Vec<Formula>> = vec![Vec::new(), leaves.to_vec()];
    for nodes in 2..=most {
        let mut all = Vec::new();
        for f in &sizes[nodes - 1] {
            all.extend([not, next, eventually, always].map(|make| make(f.clone())));
        }
        for left in 1..nodes - 1 {
            for f in &sizes[left] {
                for g in &sizes[nodes - 1 - left] {
                    all.extend([and, or, until].map(|make| make(f.clone(), g.clone())));
                }
            }
        }
        sizes.push(all);
    }
    sizes.concat()
}

// Runs a test that walks down thousands of levels.
pub fn deep(test: fn()) {
    let thread = std::thread::Builder::new().stack_size(256 << 20).spawn(test);
    thread.expect("a thread can be started").join().expect("the test holds");
}
