// Rule files: the calls that read and write them, and the rule that a file holds.

use super::bytes::{little_endian, put};
use super::formula::{bytes_of, parse_rule, Formula};
use super::refusal::{demand, Refusal};

pub const FILE: usize = 1168;
const HEADER: u64 = 16;

pub struct Rule {
    pub masks: Vec<u64>,
    pub propositions: u64,
    pub formula: Formula,
}

// Numbers are held as 64 bits, so that they are compared whole.
#[derive(Debug, PartialEq)]
pub struct Counts {
    pub boards: u64,
    pub propositions: u64,
    pub nodes: u64,
}

impl Counts {
    fn in_range(&self) -> bool {
        (1..=16).contains(&self.boards) && (1..=64).contains(&self.propositions) && (1..=1024).contains(&self.nodes)
    }
}

fn masks_hold(masks: &[u64], p: u64) -> bool {
    let ones: u64 = masks.iter().map(|mask| u64::from(mask.count_ones())).sum();
    let union = masks.iter().fold(0, |union, mask| union | mask);
    ones == p && (0..64).all(|i| (union >> i & 1 == 1) == (i < p))
}

// The formula of a rule with p propositions.
fn rule_formula(bytes: &[u8], p: u64) -> Result<Formula, Refusal> {
    let below_p = |node: &Formula| !matches!(node, Formula::Proposition(i) if u64::from(*i) >= p);
    parse_rule(bytes).filter(|f| f.all(&below_p)).ok_or(Refusal::Formula)
}

// The rule that a file holds: what read and load check of it, 1 to 6.
pub fn rule_of(file: &[u8]) -> Result<Rule, Refusal> {
    demand(file.len() >= 16, Refusal::Length)?;
    let field = |i: usize| little_endian(&file[2 * i..2 * i + 2]);
    let total = little_endian(&file[12..16]);
    demand(total == file.len() as u64, Refusal::Length)?;
    demand(field(0) == 1, Refusal::Version)?;
    let counts = Counts { boards: field(1), propositions: field(2), nodes: field(3) };
    demand(counts.in_range(), Refusal::Range)?;
    let formula_at = HEADER + 8 * counts.boards;
    demand(field(4) == HEADER && field(5) == formula_at && total == formula_at + counts.nodes, Refusal::Offset)?;
    let (front, nodes) = file.split_at(formula_at as usize);
    let masks: Vec<u64> = front[HEADER as usize..].chunks(8).map(little_endian).collect();
    demand(masks_hold(&masks, counts.propositions), Refusal::Masks)?;
    let formula = rule_formula(nodes, counts.propositions)?;
    Ok(Rule { masks, propositions: counts.propositions, formula })
}

pub fn read(file: &[u8], masks: &mut [u64], formula: &mut [u8]) -> Result<Counts, Refusal> {
    demand(masks.len() == 16 && formula.len() == 1024, Refusal::Length)?;
    let rule = rule_of(file)?;
    let nodes = bytes_of(&rule.formula);
    put(&rule.masks, masks);
    put(&nodes, formula);
    Ok(Counts { boards: rule.masks.len() as u64, propositions: rule.propositions, nodes: nodes.len() as u64 })
}

pub fn write(masks: &[u64], propositions: u64, formula: &[u8], file: &mut [u8]) -> Result<u64, Refusal> {
    demand(file.len() == FILE, Refusal::Length)?;
    let counts = Counts { boards: masks.len() as u64, propositions, nodes: formula.len() as u64 };
    demand(counts.in_range(), Refusal::Range)?;
    demand(masks_hold(masks, propositions), Refusal::Masks)?;
    rule_formula(formula, propositions)?;
    let formula_at = HEADER + 8 * counts.boards;
    let total = formula_at + counts.nodes;
    let mut bytes = Vec::new();
    for number in [1, counts.boards, counts.propositions, counts.nodes, HEADER, formula_at] {
        bytes.extend((number as u16).to_le_bytes());
    }
    bytes.extend((total as u32).to_le_bytes());
    masks.iter().for_each(|mask| bytes.extend(mask.to_le_bytes()));
    bytes.extend(formula);
    put(&bytes, file);
    Ok(total)
}
