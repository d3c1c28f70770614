// The run program: a rule file and 8-byte events in, a line for the load and for each close out.

use crate::model::bytes::{front_and_rest, little_endian};
use crate::model::central::Verdict;
use crate::model::check::network_of;
use crate::model::refusal::{demand, Refusal};
use crate::model::rule_file::FILE;
use crate::model::state::STATE;
use crate::model::watch::{ask, close, load, sample, step, Standing};

// All that the program prints for this input.
pub fn run(input: &[u8]) -> String {
    let mut lines = String::new();
    if let Err(refusal) = watch(input, &mut lines) {
        lines += &format!("refused {}\n", refusal as u64);
    }
    lines
}

fn watch(input: &[u8], lines: &mut String) -> Result<(), Refusal> {
    let (file, mut events) = file_of(input)?;
    let mut state = vec![0; STATE];
    load(file, &mut state)?;
    while report(&state, lines)? == Verdict::Pending && !events.is_empty() {
        let (event, rest) = front_and_rest(events, 8).ok_or(Refusal::Length)?;
        state = tick(state, little_endian(event))?;
        events = rest;
    }
    Ok(())
}

// The rule file at the front of the input, as long as its total says, and the bytes of the events.
fn file_of(input: &[u8]) -> Result<(&[u8], &[u8]), Refusal> {
    let header = input.get(..16).ok_or(Refusal::Length)?;
    let total = little_endian(&header[12..]) as usize;
    demand((16..=FILE).contains(&total), Refusal::Length)?;
    front_and_rest(input, total).ok_or(Refusal::Length)
}

// Adds the line for a state just loaded or closed, and answers its verdict.
fn report(state: &[u8], lines: &mut String) -> Result<Verdict, Refusal> {
    let Standing { verdict, ticks, slots, nodes } = ask(state)?;
    let word = match verdict {
        Verdict::False => "false",
        Verdict::True => "true",
        Verdict::Pending => "pending",
    };
    *lines += &format!("{ticks} {word} {slots} {nodes}\n");
    Ok(verdict)
}

// The state after a tick with this event: all boards sample, then the slots step, highest number first.
fn tick(mut state: Vec<u8>, event: u64) -> Result<Vec<u8>, Refusal> {
    let network = network_of(&state).ok_or(Refusal::State)?;
    demand(event & !network.union() == 0, Refusal::Bits)?;
    for (number, board) in (0..).zip(&network.boards) {
        sample(&mut state, number, event & board.mask)?;
    }
    for number in (0..network.slots.len() as u64).rev() {
        step(&mut state, number)?;
    }
    let mut second = vec![0; STATE];
    close(&state, &mut second)?;
    Ok(second)
}
