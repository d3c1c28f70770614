// What is claimed of print, tried on every formula of up to six nodes with every placing of brackets, and on larger ones by chance: it
// is read back, no text of the formula has fewer brackets, no other one without spaces has as few, and it has at most 4n + 1 bytes.

use crate::formulas::{formula, left_chain, TEMPORAL};
use crate::model::formula::Formula::{self, Proposition};
use crate::model::formula::{bytes_of, code, parse_rule};
use crate::model::grammar::{sign, word, Grammar};
use crate::model::parse::{nodes_of, operators_first};
use crate::model::print::{print, text_of, TEXT};
use crate::model::refusal::Refusal;
use crate::random::Random;
use crate::replay::lent_bytes;
use crate::trying::{all_small, parsed};

// The signs of a formula in their order, without brackets: what any text of it has but brackets and spaces.
fn signs(f: &Formula) -> Vec<Vec<u8>> {
    let own = |code: u8| vec![vec![sign(code)]];
    match f.operands().collect::<Vec<&Formula>>()[..] {
        [g] => [own(code(f)), signs(g)].concat(),
        [g, h] => [signs(g), own(code(f)), signs(h)].concat(),
        _ => vec![word(code(f)).into_bytes()],
    }
}

// Every way to deal out so many brackets over so many places.
fn dealt(brackets: usize, places: usize) -> Vec<Vec<usize>> {
    if places == 1 {
        return vec![vec![brackets]];
    }
    let first = |here: usize| dealt(brackets - here, places - 1).into_iter().map(move |rest| [vec![here], rest].concat());
    (0..=brackets).flat_map(first).collect()
}

// The texts of a formula with so many brackets of each kind and no spaces.
fn texts(grammar: &Grammar, f: &Formula, brackets: usize) -> Vec<Vec<u8>> {
    let (signs, placings) = (signs(f), dealt(brackets, signs(f).len()));
    let mut texts = vec![];
    for opened in &placings {
        for closed in &placings {
            let part = |i: usize| [&vec![b'('; opened[i]][..], &signs[i], &vec![b')'; closed[i]]].concat();
            let text: Vec<u8> = (0..signs.len()).flat_map(part).collect();
            if nodes_of(grammar, &text).map(|nodes| operators_first(&nodes)) == Ok(bytes_of(f)) {
                texts.push(text);
            }
        }
    }
    texts
}

#[test]
fn every_placing_of_brackets() {
    let grammar = Grammar::new();
    for f in all_small(&[Proposition(0)], 6) {
        let printed = text_of(&f);
        let brackets = printed.iter().filter(|&&byte| byte == b'(').count();
        for fewer in 0..brackets {
            assert!(texts(&grammar, &f, fewer).is_empty(), "{f:?}");
        }
        assert_eq!(texts(&grammar, &f, brackets), [printed], "{f:?}");
    }
}

// What the call prints, zeros behind it checked and left out.
fn printed(formula: &[u8]) -> Result<Vec<u8>, Refusal> {
    let mut output = lent_bytes(TEXT as u64);
    let length = print(formula, &mut output)?;
    assert!(output.drain(length as usize..).all(|byte| byte == 0));
    Ok(output)
}

fn reads_back(formula: &[u8]) -> usize {
    let text = printed(formula).unwrap();
    assert!(text.len() <= 4 * formula.len() + 1);
    assert_eq!(parsed(&text), Ok(formula.to_vec()), "{}", String::from_utf8_lossy(&text));
    text.len()
}

#[test]
fn a_print_is_read_back() {
    let mut random = Random::new(1);
    for f in all_small(&[Formula::False, Proposition(9), Proposition(63)], 4) {
        reads_back(&bytes_of(&f));
    }
    for round in 0..1500 {
        let nodes = if round % 30 == 0 { random.within(1000, 1024) } else { random.within(1, 60) };
        let constants = random.pick(&[0, 10, 100]);
        reads_back(&formula(&mut random, nodes, TEMPORAL.with(constants)));
    }
}

#[test]
fn the_longest_prints() {
    let chain = |count: usize| left_chain(&vec![6; count], &vec![vec![0]; count + 1]);
    assert_eq!(reads_back(&[0]), 5);
    assert_eq!(reads_back(&chain(1)), 11);
    assert_eq!(reads_back(&chain(511)), 4091);
    assert_eq!(reads_back(&[vec![2], chain(511)].concat()), 4094);
    // of few nodes none is longer than such a chain
    let longest = |nodes: usize| {
        let all = all_small(&[Formula::False], nodes).into_iter().filter(|f| f.nodes() == nodes as u64);
        all.map(|f| text_of(&f).len()).max().unwrap()
    };
    assert_eq!([1, 2, 3, 4, 5, 6].map(longest), [5, 6, 11, 14, 19, 22]);
}

#[test]
fn what_print_refuses() {
    for formula in [vec![9], vec![63], vec![128], vec![192], vec![3, 64], vec![64, 64], vec![2, 128]] {
        assert_eq!(printed(&formula), Err(Refusal::Formula), "{formula:?}");
        assert!(parse_rule(&formula).is_none());
    }
    assert_eq!(printed(&[]), Err(Refusal::Range));
    assert_eq!(printed(&[vec![2; 1024], vec![64]].concat()), Err(Refusal::Range));
    assert_eq!(printed(&[9; 1025]), Err(Refusal::Range));
    for lent in [0, 1, 8191, 8193] {
        let mut output = lent_bytes(lent);
        assert_eq!(print(&[], &mut output), Err(Refusal::Length));
        assert_eq!(print(&[64], &mut output), Err(Refusal::Length));
        assert_eq!(output, lent_bytes(lent));
    }
}
