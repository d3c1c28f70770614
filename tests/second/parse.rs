// The call that reads a rule's text into its formula.

use super::bytes::put;
use super::grammar::{operands, Grammar};
use super::refusal::{demand, Refusal};
use super::text::readings;

pub const FORMULA: usize = 1024;
pub const MOST_NODES: usize = 1024;

// Where a text goes wrong: the byte, and the line that it is on.
#[derive(Clone, Copy, Debug, PartialEq)]
pub struct Place {
    pub line: u64,
    pub byte: u64,
}

#[derive(Clone, Copy, Debug, PartialEq)]
pub enum NotParsed {
    Refused(Refusal),
    NoText(Place),
}

// The nodes, operands before their operator, of a text that is one.
pub fn nodes_of(grammar: &Grammar, text: &[u8]) -> Result<Vec<u8>, Place> {
    let mut all = readings(grammar, text).map_err(|byte| place(text, byte))?;
    assert_eq!(all.len(), 1, "the grammar has one way to read a text");
    Ok(all.remove(0))
}

// A line feed belongs to the line that it ends.
fn place(text: &[u8], byte: usize) -> Place {
    let ended = text[..byte].iter().filter(|&&byte| byte == b'\n').count();
    Place { line: 1 + ended as u64, byte: byte as u64 }
}

// The same nodes with each operator before its operands.
pub fn operators_first(nodes: &[u8]) -> Vec<u8> {
    let mut done: Vec<Vec<u8>> = vec![];
    for &code in nodes {
        let under = done.split_off(done.len() - operands(code));
        done.push([vec![code], under.concat()].concat());
    }
    done.concat()
}

pub fn parse(text: &[u8], formula: &mut [u8]) -> Result<u64, NotParsed> {
    demand(formula.len() == FORMULA, Refusal::Length).map_err(NotParsed::Refused)?;
    let nodes = nodes_of(&Grammar::new(), text).map_err(NotParsed::NoText)?;
    demand(nodes.len() <= MOST_NODES, Refusal::Range).map_err(NotParsed::Refused)?;
    put(&operators_first(&nodes), formula);
    Ok(nodes.len() as u64)
}
