// The calls of a watch: load, sample, step, close, ask. A slot's or board's number is held as 64 bits and compared whole.

use super::central::{verdict_of, Verdict};
use super::check::network_of;
use super::folding::fold;
use super::formula::{
    and, constant, not, or,
    Formula::{self, *},
};
use super::progression::resolve;
use super::refusal::{demand, Refusal};
use super::rule_file::rule_of;
use super::splitting::{lay_again, lay_rule, Laid};
use super::state::{Network, STATE};

pub fn load(file: &[u8], state: &mut [u8]) -> Result<(), Refusal> {
    demand(state.len() == STATE, Refusal::Length)?;
    let rule = rule_of(file)?;
    let network = Network::of(&rule.masks, lay_rule(&fold(&rule.formula), &rule.masks), 0)?;
    state.copy_from_slice(&network.bytes());
    Ok(())
}

pub fn sample(state: &mut [u8], board: u64, bits: u64) -> Result<(), Refusal> {
    let mut network = begun(state)?;
    let number = index(board, network.boards.len())?;
    let board = &mut network.boards[number];
    demand(bits & !board.mask == 0, Refusal::Bits)?;
    demand(!board.sampled, Refusal::Already)?;
    board.sample = bits;
    board.sampled = true;
    state.copy_from_slice(&network.bytes());
    Ok(())
}

pub fn step(state: &mut [u8], slot: u64) -> Result<(), Refusal> {
    let mut network = begun(state)?;
    let number = index(slot, network.slots.len())?;
    let slot = &network.slots[number];
    let board = &network.boards[slot.board];
    demand(!slot.stepped, Refusal::Already)?;
    let held_stepped = slot.formula.all(&|node| !matches!(node, PlaceHolder(other) if !network.slots[*other].stepped));
    demand(board.sampled && held_stepped, Refusal::NotReady)?;
    let formula = resolve(&with_answers(&slot.formula, &network), board.sample);
    network.slots[number].formula = formula;
    network.slots[number].stepped = true;
    state.copy_from_slice(&network.bytes());
    Ok(())
}

pub fn close(state: &[u8], second: &mut [u8]) -> Result<(), Refusal> {
    demand(second.len() == STATE, Refusal::Length)?;
    let network = begun(state)?;
    let all_sampled = network.boards.iter().all(|board| board.sampled);
    let all_stepped = network.slots.iter().all(|slot| slot.stepped);
    demand(all_sampled && all_stepped, Refusal::NotReady)?;
    demand(network.ticks != u32::MAX, Refusal::Ticks)?;
    let masks: Vec<u64> = network.boards.iter().map(|board| board.mask).collect();
    let slots: Vec<Laid> = network.slots.iter().map(|slot| Laid { board: slot.board, formula: slot.formula.clone() }).collect();
    let closed = Network::of(&masks, lay_again(&slots, &masks), network.ticks + 1)?;
    second.copy_from_slice(&closed.bytes());
    Ok(())
}

#[derive(Debug, PartialEq)]
pub struct Standing {
    pub verdict: Verdict,
    pub ticks: u64,
    pub slots: u64,
    pub nodes: u64,
}

pub fn ask(state: &[u8]) -> Result<Standing, Refusal> {
    let network = network_of(state).ok_or(Refusal::State)?;
    let verdict = if is_finished(&network) { verdict_of(&network.slots[0].formula) } else { Verdict::Pending };
    Ok(Standing { verdict, ticks: network.ticks.into(), slots: network.slots.len() as u64, nodes: network.nodes as u64 })
}

// The network of a state that passes the check and is not finished.
pub fn begun(state: &[u8]) -> Result<Network, Refusal> {
    let network = network_of(state).ok_or(Refusal::State)?;
    demand(!is_finished(&network), Refusal::Finished)?;
    Ok(network)
}

pub fn is_finished(network: &Network) -> bool {
    matches!(&network.slots[..], [slot] if !slot.stepped && slot.formula.is_constant())
}

fn index(number: u64, count: usize) -> Result<usize, Refusal> {
    demand(number < count as u64, Refusal::NoSuch)?;
    Ok(number as usize)
}

// The unfolded formula with each held slot that is constant replaced by its value.
fn with_answers(f: &Formula, network: &Network) -> Formula {
    match f {
        PlaceHolder(number) => match network.slots[*number].formula {
            False => constant(false),
            True => constant(true),
            _ => f.clone(),
        },
        Not(g) => not(with_answers(g, network)),
        And(g, h) => and(with_answers(g, network), with_answers(h, network)),
        Or(g, h) => or(with_answers(g, network), with_answers(h, network)),
        _ => f.clone(),
    }
}
