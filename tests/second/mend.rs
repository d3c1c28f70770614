// The call that mends a recording. Each record has its mark first; what is kept is picked out by the marks and put behind a new header.

use super::bytes::put;
use super::recording::{bytes_of, Record, Recording};
use super::refusal::{demand, Refusal};

#[derive(Clone, Copy, PartialEq)]
enum Mark {
    Kept = 0,
    Dropped = 1,
    AfterBreak = 2,
}

// How many records were kept, and how many of them are in the first stretch.
#[derive(Clone, Copy, Debug, PartialEq)]
pub struct Mended {
    pub kept: u64,
    pub first: u64,
}

pub fn mend(recording: &[u8], mended: &mut [u8], marks: &mut [u8]) -> Result<Mended, Refusal> {
    let given = Recording::of(recording)?;
    demand(mended.len() == recording.len() && marks.len() as u64 == given.count(), Refusal::Length)?;
    let records = given.records()?;
    let found = marks_of(&records);
    let kept: Vec<(Record, Mark)> = records.into_iter().zip(found.clone()).filter(|&(_, mark)| mark != Mark::Dropped).collect();
    let first = kept.iter().take_while(|&&(_, mark)| mark != Mark::AfterBreak).count();
    put(&bytes_of(&kept.iter().map(|&(record, _)| record).collect::<Vec<Record>>()), mended);
    put(&found.iter().map(|&mark| mark as u8).collect::<Vec<u8>>(), marks);
    Ok(Mended { kept: kept.len() as u64, first: first as u64 })
}

fn marks_of(records: &[Record]) -> Vec<Mark> {
    let first = records.first().map(|_| Mark::Kept);
    first.into_iter().chain(records.windows(2).map(|pair| mark_of(&pair[0], &pair[1]))).collect()
}

fn mark_of(before: &Record, record: &Record) -> Mark {
    if record == before {
        Mark::Dropped
    } else if record.breaks_from(before) {
        Mark::AfterBreak
    } else {
        Mark::Kept
    }
}
