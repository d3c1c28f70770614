// The call that prints a formula with the fewest brackets: there are none around an operand but where, without them, another formula
// would be read. Whether it would is tried out by reading, for each operator below another.

use std::collections::HashMap;

use super::bytes::put;
use super::formula::{code, parse_rule, Formula};
use super::grammar::{operands, sign, word, Grammar};
use super::parse::{nodes_of, operators_first, MOST_NODES};
use super::refusal::{demand, Refusal};

pub const TEXT: usize = 8192;

const LEAF: u8 = 64;

struct Printer {
    grammar: Grammar,
    tried: HashMap<(u8, usize, u8), bool>,
}

impl Printer {
    fn text(&mut self, f: &Formula) -> Vec<u8> {
        let texts: Vec<Vec<u8>> = f.operands().enumerate().map(|(side, operand)| self.operand(code(f), side, operand)).collect();
        put_together(code(f), &texts)
    }

    // The text of what is the first or the second operand of this operator.
    fn operand(&mut self, operator: u8, side: usize, f: &Formula) -> Vec<u8> {
        let text = self.text(f);
        let grammar = &self.grammar;
        let needed = self.tried.entry((operator, side, code(f))).or_insert_with(|| needs_brackets(grammar, operator, side, code(f)));
        if *needed {
            [b"(", &text[..], b")"].concat()
        } else {
            text
        }
    }
}

fn put_together(code: u8, operands: &[Vec<u8>]) -> Vec<u8> {
    match operands {
        [] => word(code).into_bytes(),
        [f] => [&[sign(code)], &f[..]].concat(),
        _ => operands.join(&sign(code)),
    }
}

// Tried with a leaf for each other operand, and for those of the operand itself.
fn needs_brackets(grammar: &Grammar, operator: u8, side: usize, inner: u8) -> bool {
    let leaves = |code: u8| vec![word(LEAF).into_bytes(); operands(code)];
    let (mut texts, mut bytes) = (leaves(operator), vec![vec![LEAF]; operands(operator)]);
    texts[side] = put_together(inner, &leaves(inner));
    bytes[side] = [vec![inner], vec![LEAF; operands(inner)]].concat();
    let nodes = nodes_of(grammar, &put_together(operator, &texts)).expect("a text, whichever formula it is of");
    operators_first(&nodes) != [vec![operator], bytes.concat()].concat()
}

pub fn text_of(f: &Formula) -> Vec<u8> {
    Printer { grammar: Grammar::new(), tried: HashMap::new() }.text(f)
}

pub fn print(formula: &[u8], text: &mut [u8]) -> Result<u64, Refusal> {
    demand(text.len() == TEXT, Refusal::Length)?;
    demand((1..=MOST_NODES).contains(&formula.len()), Refusal::Range)?;
    let printed = text_of(&parse_rule(formula).ok_or(Refusal::Formula)?);
    put(&printed, text);
    Ok(printed.len() as u64)
}
