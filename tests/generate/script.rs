// The requests on the kept state, in the order they are made, and that state as the second program's model leaves it: a case is
// written as calls, and each says whether it is accepted. What is kept may be a report too. Mend and stretch leave it as it is; they are
// made here too, so that a recording goes to both calls, and what comes of it to others.

use crate::files::{self, Handed};
use crate::lists::Listed;
use crate::model::add::add;
use crate::model::capture::capture;
use crate::model::check::network_of;
use crate::model::report::report;
use crate::model::row::ROW;
use crate::model::state::{Network, STATE};
use crate::model::watch;
use crate::recordings::Recorded;
use crate::request::Request;
use crate::rules::Rule;
use std::collections::VecDeque;
use std::ops::Range;

pub const KEPT: usize = 8192;

// A request with its call and its case.
pub type Made = (&'static str, &'static str, Request);

pub struct Script {
    kept: Vec<u8>,
    made: VecDeque<Made>,
    pub case: &'static str,
}

impl Script {
    pub fn new() -> Script {
        Script { kept: vec![0; KEPT], made: VecDeque::new(), case: "" }
    }

    // The request that was made first of those not yet taken.
    pub fn take(&mut self) -> Option<Made> {
        self.made.pop_front()
    }

    pub fn waiting(&self) -> usize {
        self.made.len()
    }

    fn make(&mut self, call: &'static str, request: Request) {
        self.made.push_back((call, self.case, request));
    }

    pub fn state(&self) -> &[u8] {
        &self.kept[..STATE]
    }

    // The network that the kept state holds, where it passes the check.
    pub fn network(&self) -> Option<Network> {
        network_of(self.state())
    }

    pub fn load(&mut self, handed: Handed) -> bool {
        let mut state = vec![0; handed.lent.state];
        let accepted = watch::load(&handed.file, &mut state).is_ok();
        if accepted {
            self.kept[..STATE].copy_from_slice(&state);
        }
        self.make("load", Request::load(handed.file, handed.lent.state));
        accepted
    }

    pub fn sample(&mut self, board: u64, bits: u64) -> bool {
        self.sample_lent(STATE, board, bits)
    }

    pub fn sample_lent(&mut self, lent: usize, board: u64, bits: u64) -> bool {
        self.make("sample", Request::sample(lent, board, bits));
        watch::sample(&mut self.kept[..lent], board, bits).is_ok()
    }

    pub fn step(&mut self, slot: u64) -> bool {
        self.step_lent(STATE, slot)
    }

    pub fn step_lent(&mut self, lent: usize, slot: u64) -> bool {
        self.make("step", Request::step(lent, slot));
        watch::step(&mut self.kept[..lent], slot).is_ok()
    }

    pub fn close(&mut self) -> bool {
        self.close_lent(STATE, STATE)
    }

    pub fn close_lent(&mut self, lent: usize, second_lent: usize) -> bool {
        self.make("close", Request::close(lent, second_lent));
        let mut second = vec![0; second_lent];
        let accepted = watch::close(&self.kept[..lent], &mut second).is_ok();
        if accepted {
            self.kept[..STATE].copy_from_slice(&second);
        }
        accepted
    }

    pub fn ask(&mut self) -> bool {
        self.ask_lent(STATE)
    }

    pub fn ask_lent(&mut self, lent: usize) -> bool {
        self.make("ask", Request::ask(lent));
        watch::ask(&self.kept[..lent]).is_ok()
    }

    pub fn capture(&mut self, events: &[u64]) -> bool {
        self.capture_lent(STATE, STATE, events)
    }

    pub fn capture_lent(&mut self, lent: usize, second_lent: usize, events: &[u64]) -> bool {
        self.make("capture", Request::capture(lent, second_lent, events));
        capture(&mut self.kept[..lent], &mut vec![0; second_lent], events).is_ok()
    }

    pub fn report(&mut self, listed: Listed) -> bool {
        let mut output = vec![0; listed.lent];
        let accepted = report(&listed.runs.repeat(listed.repeats), &mut output).is_ok();
        if accepted {
            self.kept.copy_from_slice(&output);
        }
        self.make("report", Request::report(listed.runs, listed.repeats, listed.lent));
        accepted
    }

    pub fn add(&mut self, night: &[u8]) -> bool {
        self.add_lent(KEPT, night)
    }

    pub fn add_lent(&mut self, lent: usize, night: &[u8]) -> bool {
        self.make("add", Request::add(lent, night.to_vec()));
        add(&mut self.kept[..lent], night).is_ok()
    }

    pub fn mend(&mut self, recorded: &Recorded) {
        self.make("mend", Request::mend(recorded.bytes.clone(), recorded.mended, recorded.marks));
    }

    pub fn stretch(&mut self, recorded: &Recorded) {
        self.make("stretch", Request::stretch(recorded.bytes.clone(), recorded.events));
    }

    pub fn poke(&mut self, offset: usize, bytes: &[u8]) {
        self.make("poke", Request::poke(offset, bytes));
        self.kept[offset..offset + bytes.len()].copy_from_slice(bytes);
    }

    // Pokes this state in, from the first byte that differs to the last.
    pub fn become_state(&mut self, state: &[u8]) {
        let used = state.iter().rposition(|&byte| byte != 0).unwrap_or(0);
        if self.differing(state).len() > used + 100 {
            // a larger state was left behind: loading a small rule clears it with fewer bytes
            let small = Rule { masks: vec![1], propositions: 1, formula: vec![64] };
            self.load(files::of(&small));
        }
        let places = self.differing(state);
        if !places.is_empty() {
            self.poke(places.start, &state[places.clone()]);
        }
    }

    // Pokes this report in, each row that differs, or all of it where many do.
    pub fn become_report(&mut self, report: &[u8]) {
        let used = report.chunks(ROW).filter(|row| row.iter().any(|&byte| byte != 0)).count();
        if self.differing_rows(report).len() > used + 1 {
            self.clear(); // something larger was left behind
        }
        let rows = self.differing_rows(report);
        if rows.len() > 4 {
            self.poke(0, report);
        } else {
            rows.iter().for_each(|&at| self.poke(at, &report[at..at + ROW]));
        }
    }

    // The report of no runs is zeros.
    pub fn clear(&mut self) {
        self.report(Listed::of(&[]));
    }

    // Clears what a report has left behind the end of a state, so that one that is lent too long is wrong in nothing else.
    pub fn leave_report(&mut self) {
        if self.kept[STATE..].iter().any(|&byte| byte != 0) {
            self.clear();
        }
    }

    fn differing_rows(&self, report: &[u8]) -> Vec<usize> {
        (0..KEPT).step_by(ROW).filter(|&at| self.kept[at..at + ROW] != report[at..at + ROW]).collect()
    }

    fn differing(&self, state: &[u8]) -> Range<usize> {
        let differs = |i: &usize| self.kept[*i] != state[*i];
        let first = (0..STATE).find(differs).unwrap_or(0);
        let end = (0..STATE).rfind(differs).map_or(0, |last| last + 1);
        first..end
    }
}
