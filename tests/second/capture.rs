// The call capture: a run of events in one call. It is no more than the calls made one at a time, on a copy of the state, so that a tick
// that is not closed leaves nothing behind.

use super::central::Verdict;
use super::check::network_of;
use super::refusal::{demand, Refusal};
use super::state::STATE;
use super::watch::{ask, begun, close, sample, step};

// Where a run of events stopped: how many were closed, how the state that is left stands, and the refusal, if it was one.
#[derive(Debug, PartialEq)]
pub struct Captured {
    pub closed: u64,
    pub verdict: Verdict,
    pub refusal: Option<Refusal>,
}

pub fn capture(state: &mut [u8], second: &mut [u8], events: &[u64]) -> Result<Captured, Refusal> {
    demand(second.len() == STATE, Refusal::Length)?;
    begun(state)?;
    let mut captured = Captured { closed: 0, verdict: Verdict::Pending, refusal: None };
    for &event in events {
        match ticked(state, event) {
            Ok(closed) => state.copy_from_slice(&closed),
            Err(refusal) => {
                captured.refusal = Some(refusal);
                break;
            }
        }
        captured.closed += 1;
        captured.verdict = ask(state)?.verdict;
        if captured.verdict != Verdict::Pending {
            break;
        }
    }
    second.fill(0);
    Ok(captured)
}

// The state one tick on: the boards sample, lowest first, the slots are stepped, highest first, and the tick is closed.
fn ticked(state: &[u8], event: u64) -> Result<Vec<u8>, Refusal> {
    let network = network_of(state).ok_or(Refusal::State)?;
    demand(event & !network.union() == 0, Refusal::Bits)?;
    let mut state = state.to_vec();
    for (number, board) in (0..).zip(&network.boards) {
        sample(&mut state, number, event & board.mask)?;
    }
    for number in (0..network.slots.len() as u64).rev() {
        step(&mut state, number)?;
    }
    let mut second = vec![0; STATE];
    close(&state, &mut second)?;
    Ok(second)
}
