// The call that adds a report to another one. For each of the two some list is made that has it, and what is written is the report of
// both lists together: so a report is refused exactly where no list has it.

use super::refusal::{demand, Refusal};
use super::report::{report_of, REPORT};
use super::row::{Row, ROW};
use super::runs::{Run, MOST_RUNS};

pub fn add(total: &mut [u8], night: &[u8]) -> Result<(), Refusal> {
    demand(total.len() == REPORT && night.len() == REPORT, Refusal::Length)?;
    let runs: u64 = rows(total).chain(rows(night)).map(|row| row.runs).sum();
    demand(runs <= MOST_RUNS as u64, Refusal::Range)?;
    let (first, second) = (some_list(total).ok_or(Refusal::Offset)?, some_list(night).ok_or(Refusal::Offset)?);
    total.copy_from_slice(&report_of(&[first, second].concat()));
    Ok(())
}

fn rows(report: &[u8]) -> impl Iterator<Item = Row> + '_ {
    report.chunks(ROW).map(Row::in_bytes)
}

// A list that has this report; nothing where there is none.
fn some_list(report: &[u8]) -> Option<Vec<Run>> {
    let lists: Option<Vec<Vec<Run>>> = (0..).zip(rows(report)).map(|(rule, row)| row.list(rule)).collect();
    Some(lists?.concat())
}
