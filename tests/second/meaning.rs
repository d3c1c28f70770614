// What a formula means, on endless traces that come round again: those that a test can go through.

use crate::model::formula::Formula::{self, *};

// Whether the endless trace that goes through these events and then from the last back to `again` meets a formula, at each of them.
pub fn meets(f: &Formula, events: &[u64], again: usize) -> Vec<bool> {
    let after = |i: usize| if i + 1 < events.len() { i + 1 } else { again };
    let all = 0..events.len();
    match f {
        False | True => vec![*f == True; events.len()],
        Proposition(p) => events.iter().map(|event| event >> p & 1 == 1).collect(),
        Not(f) => meets(f, events, again).iter().map(|met| !met).collect(),
        And(f, g) => meets(f, events, again).iter().zip(meets(g, events, again)).map(|(l, r)| *l && r).collect(),
        Or(f, g) => meets(f, events, again).iter().zip(meets(g, events, again)).map(|(l, r)| *l || r).collect(),
        Next(f) => {
            let f = meets(f, events, again);
            all.map(|i| f[after(i)]).collect()
        }
        // from i on come the events from i to the last and those from `again` to the last
        Eventually(f) => {
            let f = meets(f, events, again);
            all.map(|i| f[i.min(again)..].contains(&true)).collect()
        }
        Always(f) => {
            let f = meets(f, events, again);
            all.map(|i| !f[i.min(again)..].contains(&false)).collect()
        }
        Until(f, g) => {
            let (f, g) = (meets(f, events, again), meets(g, events, again));
            let met = |i: usize| {
                let mut here = i;
                // as many ticks as there are events go through all that can come
                for _ in &g {
                    if g[here] || !f[here] {
                        break;
                    }
                    here = after(here);
                }
                g[here]
            };
            all.map(met).collect()
        }
        PlaceHolder(_) => unreachable!("a rule has none"),
    }
}
