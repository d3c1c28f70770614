// Reads bytes by the grammar's table, all ways at once. After some bytes there is a reading for each way to have come so far; as every
// part of the grammar can be written somehow, each of them can be completed. So the bytes are how some accepted text begins exactly
// where a reading is left, and a byte that leaves none is the place of the refusal. What a reading still has to come back to is a
// list, and no function calls itself: brackets may be nested as deep as they like.

use super::grammar::{Grammar, Part, Spot, Symbol::*};

const NONE: u32 = u32::MAX;

#[derive(Clone, Copy)]
struct Reading {
    spot: Spot,
    after: u32, // the link of where to go on when this way has come to its end
    nodes: u32, // the link of the last node that is done
}

// Lists that share their ends: a link is a place in one of these, what stands behind it in a list comes with it.
struct Lists {
    after: Vec<(Spot, u32)>,
    nodes: Vec<(u8, u32)>,
}

fn link<T>(list: &mut Vec<(T, u32)>, value: T, before: u32) -> u32 {
    list.push((value, before));
    list.len() as u32 - 1
}

// The readings that go on with this byte; with none, those that may end here.
fn go_on(grammar: &Grammar, lists: &mut Lists, readings: Vec<Reading>, byte: Option<u8>) -> Vec<Reading> {
    let (mut open, mut left) = (readings, vec![]);
    while let Some(reading) = open.pop() {
        let (symbol, spot) = match grammar.symbol(reading.spot) {
            Some(found) => found,
            None if reading.after != NONE => {
                let (spot, after) = lists.after[reading.after as usize];
                open.push(Reading { spot, after, ..reading });
                continue;
            }
            None => {
                left.extend(byte.is_none().then_some(reading));
                continue;
            }
        };
        match symbol {
            Byte(wanted) => left.extend((byte == Some(wanted)).then_some(Reading { spot, ..reading })),
            Node(code) => open.push(Reading { spot, nodes: link(&mut lists.nodes, code, reading.nodes), ..reading }),
            Is(part) => {
                let is_last = grammar.symbol(spot).is_none();
                let after = if is_last { reading.after } else { link(&mut lists.after, spot, reading.after) };
                open.extend(grammar.beginnings(part).map(|spot| Reading { spot, after, ..reading }));
            }
        }
    }
    left
}

// The nodes of each way to read the whole text, operands before their operator; or the place where it goes wrong.
pub fn readings(grammar: &Grammar, text: &[u8]) -> Result<Vec<Vec<u8>>, usize> {
    let mut lists = Lists { after: vec![], nodes: vec![] };
    let mut left: Vec<Reading> = grammar.beginnings(Part::Text).map(|spot| Reading { spot, after: NONE, nodes: NONE }).collect();
    for (place, &byte) in text.iter().enumerate() {
        left = go_on(grammar, &mut lists, left, Some(byte));
        if left.is_empty() {
            return Err(place);
        }
    }
    left = go_on(grammar, &mut lists, left, None);
    if left.is_empty() {
        return Err(text.len());
    }
    Ok(left.iter().map(|reading| nodes(&lists, reading.nodes)).collect())
}

fn nodes(lists: &Lists, mut last: u32) -> Vec<u8> {
    let mut nodes = vec![];
    while last != NONE {
        let (code, before) = lists.nodes[last as usize];
        nodes.push(code);
        last = before;
    }
    nodes.reverse();
    nodes
}
