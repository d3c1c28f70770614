// What is claimed of parse, tried on all short texts over some letters and on longer ones by chance: it reads what brute force reads, in
// one way and no other, and where it refuses a text no accepted text begins like this one up to that byte. It stands any number of
// brackets.

use std::collections::HashSet;

use crate::formulas::{formula, TEMPORAL};
use crate::model::grammar::Grammar;
use crate::model::parse::{nodes_of, operators_first, NotParsed, Place};
use crate::model::refusal::Refusal;
use crate::oracle::{begins_text, formulas, place};
use crate::random::Random;
use crate::texts::{damaged, typed, Hand};
use crate::trying::{no_text, parsed};

fn line(text: &[u8], byte: usize) -> u64 {
    text[..byte].split(|&byte| byte == b'\n').count() as u64
}

// Goes through all texts that begin so, up to so many bytes, each behind those that it begins with.
fn each_text(text: &mut Vec<u8>, letters: &[u8], most: usize, look: &mut impl FnMut(&[u8])) {
    look(text);
    if text.len() < most {
        for &letter in letters {
            text.push(letter);
            each_text(text, letters, most, look);
            text.pop();
        }
    }
}

#[test]
fn all_short_texts() {
    let grammar = Grammar::new();
    let mut counts = [0; 2];
    for letters in [b"p06!&U() \n", &b"p163|()"[..], b"true!&( ", b"falseU)\n", b"p0XFG|U\t\r"] {
        let mut begun = HashSet::new();
        each_text(&mut vec![], letters, 5, &mut |text| {
            let front = &text[..text.len().saturating_sub(1)];
            if text.is_empty() || begun.contains(front) && begins_text(text) {
                begun.insert(text.to_vec());
            }
            let wrong = (0..text.len()).find(|&byte| !begun.contains(&text[..=byte])).unwrap_or(text.len());
            let mut wanted = formulas(text);
            assert!(wanted.len() <= 1, "{text:?}");
            let outcome = wanted.pop().ok_or(Place { line: line(text, wrong), byte: wrong as u64 });
            counts[usize::from(outcome.is_ok())] += 1;
            assert_eq!(nodes_of(&grammar, text).map(|nodes| operators_first(&nodes)), outcome, "{text:?}");
        });
    }
    assert!(counts[0] > 250_000 && counts[1] > 500, "{counts:?}");
}

// The beginnings of all texts of up to eight bytes: what has three bytes can be completed so, if it can at all.
#[test]
fn beginnings_of_longer_texts() {
    let (grammar, letters, mut begun) = (Grammar::new(), b"p0!&()", HashSet::new());
    each_text(&mut vec![], letters, 8, &mut |text| {
        if !formulas(text).is_empty() {
            begun.extend((0..=text.len().min(3)).map(|length| text[..length].to_vec()));
        }
    });
    each_text(&mut vec![], letters, 3, &mut |text| {
        let goes_on = nodes_of(&grammar, text).map_or_else(|place| place.byte == text.len() as u64, |_| true);
        assert_eq!(goes_on, begun.contains(text), "{text:?}");
    });
}

fn any_hand(random: &mut Random) -> Hand {
    Hand { spaces: random.pick(&[0, 10, 50]), brackets: random.pick(&[0, 10, 50]) }
}

#[test]
fn what_is_typed_is_read() {
    let mut random = Random::new(1);
    for round in 0..3000 {
        let nodes = if round % 30 == 0 { random.within(1000, 1024) } else { random.within(1, 30) };
        let (formula, hand) = (formula(&mut random, nodes, TEMPORAL), any_hand(&mut random));
        let text = typed(&mut random, &formula, hand);
        assert_eq!(parsed(&text), Ok(formula), "{}", String::from_utf8_lossy(&text));
    }
}

#[test]
fn more_nodes_than_a_rule_has() {
    let mut random = Random::new(2);
    for _ in 0..60 {
        let (nodes, hand) = (random.within(1025, 1100), any_hand(&mut random));
        let formula = formula(&mut random, nodes, TEMPORAL);
        let mut text = typed(&mut random, &formula, hand);
        assert_eq!(parsed(&text), Err(NotParsed::Refused(Refusal::Range)));
        text.push(b')');
        assert_eq!(parsed(&text), no_text(line(&text, text.len() - 1), text.len() - 1));
    }
}

// One byte replaced, put in or taken out, or two taken out.
#[test]
fn a_damaged_text_is_refused_at_its_place() {
    let mut random = Random::new(3);
    let mut counts = [0; 2];
    for _ in 0..20_000 {
        let (nodes, hand) = (random.within(1, 7), any_hand(&mut random));
        let formula = formula(&mut random, nodes, TEMPORAL);
        let text = typed(&mut random, &formula, hand);
        if text.len() > 16 {
            continue;
        }
        let text = damaged(&mut random, text);
        let byte = place(&text);
        let outcome = formulas(&text).pop().map_or_else(|| no_text(line(&text, byte), byte), Ok);
        counts[usize::from(outcome.is_ok())] += 1;
        assert_eq!(parsed(&text), outcome, "{}", String::from_utf8_lossy(&text));
    }
    assert!(counts.iter().all(|&count| count > 2000), "{counts:?}");
}

#[test]
fn a_million_brackets() {
    const MILLION: usize = 1_000_000;
    let around = |opened: usize, closed: usize| [vec![b'('; opened], b"p0".to_vec(), vec![b')'; closed]].concat();
    assert_eq!(parsed(&around(MILLION, MILLION)), Ok(vec![64]));
    assert_eq!(parsed(&around(MILLION, MILLION - 1)), no_text(1, 2 * MILLION + 1));
    assert_eq!(parsed(&around(MILLION - 1, MILLION)), no_text(1, 2 * MILLION));
}
