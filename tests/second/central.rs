// The call for central progression: folds, unfolds and resolves.

use super::bytes::put;
use super::folding::fold;
use super::formula::{bytes_of, parse_rule, Formula};
use super::progression::{resolve, unfold};
use super::refusal::{demand, Refusal};

pub const OUTPUT: usize = 4096;
pub const MOST_NODES: u64 = 4096;

#[derive(Clone, Copy, Debug, PartialEq)]
pub enum Verdict {
    False = 0,
    True = 1,
    Pending = 2,
}

pub fn verdict_of(f: &Formula) -> Verdict {
    match f {
        Formula::False => Verdict::False,
        Formula::True => Verdict::True,
        _ => Verdict::Pending,
    }
}

pub fn central(formula: &[u8], event: u64, output: &mut [u8]) -> Result<(Verdict, u64), Refusal> {
    demand((1..=4096).contains(&formula.len()) && output.len() == OUTPUT, Refusal::Length)?;
    let f = parse_rule(formula).ok_or(Refusal::Formula)?;
    let unfolded = unfold(&fold(&f));
    demand(unfolded.nodes() <= MOST_NODES, Refusal::Nodes)?;
    let g = resolve(&unfolded, event);
    let bytes = bytes_of(&g);
    put(&bytes, output);
    Ok((verdict_of(&g), bytes.len() as u64))
}
