// The rule language as trees, and its prefix bytes. Copies that unfolding makes are shared, since there may be millions of nodes.

use std::rc::Rc;
use Formula::*;

#[derive(Clone, Debug, PartialEq, Eq)]
pub enum Formula {
    False,
    True,
    Not(Rc<Formula>),
    And(Rc<Formula>, Rc<Formula>),
    Or(Rc<Formula>, Rc<Formula>),
    Next(Rc<Formula>),
    Until(Rc<Formula>, Rc<Formula>),
    Eventually(Rc<Formula>),
    Always(Rc<Formula>),
    Proposition(u8),
    PlaceHolder(usize), // of the slot with this number; a layout that is refused may count past the 64 that have codes
}

pub fn not(f: Formula) -> Formula {
    Not(Rc::new(f))
}

pub fn and(f: Formula, g: Formula) -> Formula {
    And(Rc::new(f), Rc::new(g))
}

pub fn or(f: Formula, g: Formula) -> Formula {
    Or(Rc::new(f), Rc::new(g))
}

pub fn next(f: Formula) -> Formula {
    Next(Rc::new(f))
}

pub fn until(f: Formula, g: Formula) -> Formula {
    Until(Rc::new(f), Rc::new(g))
}

pub fn eventually(f: Formula) -> Formula {
    Eventually(Rc::new(f))
}

pub fn always(f: Formula) -> Formula {
    Always(Rc::new(f))
}

pub fn constant(value: bool) -> Formula {
    if value {
        True
    } else {
        False
    }
}

impl Formula {
    pub fn operands(&self) -> impl Iterator<Item = &Formula> {
        let operands: [Option<&Formula>; 2] = match self {
            False | True | Proposition(_) | PlaceHolder(_) => [None, None],
            Not(f) | Next(f) | Eventually(f) | Always(f) => [Some(f), None],
            And(f, g) | Or(f, g) | Until(f, g) => [Some(f), Some(g)],
        };
        operands.into_iter().flatten()
    }

    // The nodes, the node itself among them.
    pub fn nodes(&self) -> u64 {
        1 + self.operands().map(Formula::nodes).sum::<u64>()
    }

    // Whether this holds of every node, those below next and temporal operators included.
    pub fn all(&self, holds: &dyn Fn(&Formula) -> bool) -> bool {
        holds(self) && self.operands().all(|f| f.all(holds))
    }

    pub fn is_constant(&self) -> bool {
        matches!(self, False | True)
    }
}

// One formula at the front of the bytes, and the bytes after it.
fn parse(bytes: &[u8]) -> Option<(Formula, &[u8])> {
    let (&code, rest) = bytes.split_first()?;
    let one = |make: fn(Rc<Formula>) -> Formula| {
        let (f, rest) = parse(rest)?;
        Some((make(Rc::new(f)), rest))
    };
    let two = |make: fn(Rc<Formula>, Rc<Formula>) -> Formula| {
        let (f, rest) = parse(rest)?;
        let (g, rest) = parse(rest)?;
        Some((make(Rc::new(f), Rc::new(g)), rest))
    };
    match code {
        0 => Some((False, rest)),
        1 => Some((True, rest)),
        2 => one(Not),
        3 => two(And),
        4 => two(Or),
        5 => one(Next),
        6 => two(Until),
        7 => one(Eventually),
        8 => one(Always),
        64..=127 => Some((Proposition(code - 64), rest)),
        128..=191 => Some((PlaceHolder(usize::from(code) - 128), rest)),
        _ => None,
    }
}

// The formula that a slot's bytes are, where they are one whole formula.
pub fn parse_slot(bytes: &[u8]) -> Option<Formula> {
    match parse(bytes) {
        Some((f, [])) => Some(f),
        _ => None,
    }
}

// The same outside a network, where no place holder may stand.
pub fn parse_rule(bytes: &[u8]) -> Option<Formula> {
    parse_slot(bytes).filter(|f| f.all(&|node| !matches!(node, PlaceHolder(_))))
}

pub fn bytes_of(f: &Formula) -> Vec<u8> {
    let mut out = Vec::new();
    encode(f, &mut out);
    out
}

fn encode(f: &Formula, out: &mut Vec<u8>) {
    out.push(code(f));
    f.operands().for_each(|operand| encode(operand, out));
}

pub fn code(f: &Formula) -> u8 {
    match f {
        False => 0,
        True => 1,
        Not(_) => 2,
        And(..) => 3,
        Or(..) => 4,
        Next(_) => 5,
        Until(..) => 6,
        Eventually(_) => 7,
        Always(_) => 8,
        Proposition(i) => 64 + i,
        PlaceHolder(number) => 128 + u8::try_from(*number).expect("a layout over 64 slots is refused and not written"),
    }
}
