// Runs of events for capture.

use crate::model::capture::capture;
use crate::model::central::Verdict;
use crate::model::state::STATE;
use crate::random::Random;

// The most that a request has.
pub const MOST: usize = 256;

// So many events over the propositions of these masks.
pub fn inside(random: &mut Random, union: u64, count: usize) -> Vec<u64> {
    (0..count).map(|_| random.event() & union).collect()
}

// Bits of which one at least is outside the mask; where the mask is full, all bits.
pub fn bits_outside(random: &mut Random, mask: u64) -> u64 {
    let outside = random.event() & !mask;
    let lowest = !mask & mask.wrapping_add(1);
    let inside = random.event() & mask;
    inside | if outside == 0 { lowest } else { outside }
}

// The same events with a bit outside the masks in the first, the last or one between.
pub fn leave_masks(random: &mut Random, union: u64, events: &mut [u64]) {
    let last = events.len() - 1;
    let between = random.below(last + 1);
    let place = random.pick(&[0, between, last]);
    events[place] = bits_outside(random, union);
}

// Events up to the one that brings this state its verdict; none where it does not come soon, or not at all.
pub fn to_verdict(random: &mut Random, state: &[u8], union: u64) -> Option<Vec<u64>> {
    let mut state = state.to_vec();
    let mut events = Vec::new();
    while events.len() < 10 {
        events.extend(inside(random, union, 1));
        let captured = capture(&mut state, &mut [0; STATE], &events[events.len() - 1..]).ok()?;
        if captured.refusal.is_some() {
            return None;
        }
        if captured.verdict != Verdict::Pending {
            return Some(events);
        }
    }
    None
}
