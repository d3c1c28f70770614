// The call that takes the events of a recording's first stretch. Without marks: the list is cut at the first break, and then each record
// goes that equals the one before it.

use super::bytes::put;
use super::recording::Recording;
use super::refusal::{demand, Refusal};

pub fn stretch(recording: &[u8], events: &mut [u64]) -> Result<u64, Refusal> {
    let given = Recording::of(recording)?;
    demand(events.len() as u64 == given.count(), Refusal::Length)?;
    let mut records = given.records()?;
    if let Some(place) = records.windows(2).position(|pair| pair[1].breaks_from(&pair[0])) {
        records.truncate(place + 1);
    }
    records.dedup();
    put(&records.iter().map(|record| record.event).collect::<Vec<u64>>(), events);
    Ok(records.len() as u64)
}
