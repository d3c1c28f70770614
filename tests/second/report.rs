// The call that counts a night's runs. The runs of each rule are picked out of the whole list, rule by rule.

use super::refusal::{demand, Refusal};
use super::row::Row;
use super::runs::{list_of, Run, MOST_RUNS, RULES, RUN};

pub const REPORT: usize = 8192;

#[derive(Clone, Copy, Debug, PartialEq)]
pub enum NotReported {
    Refused(Refusal),
    BadRun(u64), // at this place of the list
}

pub fn report_of(list: &[Run]) -> Vec<u8> {
    let runs = |rule: u32| list.iter().copied().filter(|run| run.rule == rule).collect::<Vec<Run>>();
    (0..RULES).flat_map(|rule| Row::of(&runs(rule)).bytes()).collect()
}

pub fn report(runs: &[u8], report: &mut [u8]) -> Result<(), NotReported> {
    let is_list = runs.len() % RUN == 0 && runs.len() / RUN <= MOST_RUNS;
    demand(is_list && report.len() == REPORT, Refusal::Length).map_err(NotReported::Refused)?;
    let list = list_of(runs);
    if let Some(place) = list.iter().position(|run| !run.is_good()) {
        return Err(NotReported::BadRun(place as u64));
    }
    report.copy_from_slice(&report_of(&list));
    Ok(())
}
