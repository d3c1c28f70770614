// The grammar of a rule's text as a table: each part with every way to write it. second/text.rs reads by it.

use Part::*;
use Symbol::*;

#[derive(Clone, Copy)]
pub enum Part {
    Text,
    Or,
    OrRest,
    And,
    AndRest,
    Until,
    UntilRest,
    Prefix,
    Word,
    Space,
}

const PARTS: [Part; 10] = [Text, Or, OrRest, And, AndRest, Until, UntilRest, Prefix, Word, Space];

#[derive(Clone, Copy)]
pub enum Symbol {
    Byte(u8),
    Is(Part),
    Node(u8), // stands for no text: the node with this code has all its operands
}

type Way = Vec<Symbol>;

// The operators: their signs and codes.
const ONES: [(u8, u8); 4] = [(b'!', 2), (b'X', 5), (b'F', 7), (b'G', 8)];
const TWOS: [(u8, u8); 3] = [(b'|', 4), (b'&', 3), (b'U', 6)];

// The sign of an operator.
pub fn sign(code: u8) -> u8 {
    ONES.iter().chain(&TWOS).find(|(_, operator)| *operator == code).expect("an operator").0
}

// How many operands the node has.
pub fn operands(code: u8) -> usize {
    let among = |operators: &[(u8, u8)]| usize::from(operators.iter().any(|&(_, operator)| operator == code));
    among(&ONES) + 2 * among(&TWOS)
}

// The word of a leaf.
pub fn word(code: u8) -> String {
    match code {
        0 => "false".into(),
        1 => "true".into(),
        _ => format!("p{}", code - 64),
    }
}

fn ways(part: Part) -> Vec<Way> {
    match part {
        Text => vec![vec![Is(Space), Is(Or)]],
        Or => vec![vec![Is(And), Is(OrRest)]],
        OrRest => rest(4, Or),
        And => vec![vec![Is(Until), Is(AndRest)]],
        AndRest => rest(3, And),
        Until => vec![vec![Is(Prefix), Is(UntilRest)]],
        UntilRest => rest(6, Until),
        Prefix => {
            let mut ways: Vec<Way> = ONES.iter().map(|&(sign, code)| vec![Byte(sign), Is(Space), Is(Prefix), Node(code)]).collect();
            ways.push(vec![Byte(b'('), Is(Space), Is(Or), Byte(b')'), Is(Space)]);
            ways.push(vec![Is(Word), Is(Space)]);
            ways
        }
        Word => {
            let spelt = |code: u8| word(code).bytes().map(Byte).chain([Node(code)]).collect();
            (0..2).chain(64..128).map(spelt).collect()
        }
        Space => {
            let mut ways: Vec<Way> = b" \t\r\n".iter().map(|&byte| vec![Byte(byte), Is(Space)]).collect();
            ways.push(vec![]);
            ways
        }
    }
}

// Nothing, or the sign of an operator and its right operand.
fn rest(code: u8, right: Part) -> Vec<Way> {
    vec![vec![], vec![Byte(sign(code)), Is(Space), Is(right), Node(code)]]
}

// All ways in one list, so that two small numbers say how far one of them has come.
pub struct Grammar {
    ways: Vec<Way>,
    firsts: Vec<u16>, // where those of each part begin
}

// In a way, before its symbol of this number.
#[derive(Clone, Copy)]
pub struct Spot {
    way: u16,
    at: u16,
}

impl Grammar {
    pub fn new() -> Grammar {
        let mut grammar = Grammar { ways: vec![], firsts: vec![] };
        for part in PARTS {
            grammar.firsts.push(grammar.ways.len() as u16);
            grammar.ways.extend(ways(part));
        }
        grammar.firsts.push(grammar.ways.len() as u16);
        grammar
    }

    // The beginnings of all ways to write a part.
    pub fn beginnings(&self, part: Part) -> impl Iterator<Item = Spot> {
        (self.firsts[part as usize]..self.firsts[part as usize + 1]).map(|way| Spot { way, at: 0 })
    }

    // The symbol here, where the way has not come to its end, and the spot behind it.
    pub fn symbol(&self, spot: Spot) -> Option<(Symbol, Spot)> {
        let symbol = self.ways[spot.way as usize].get(spot.at as usize)?;
        Some((*symbol, Spot { at: spot.at + 1, ..spot }))
    }
}
