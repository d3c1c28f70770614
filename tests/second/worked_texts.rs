// Named texts, with the formula or the place that each must give.

use crate::model::parse::{parse, NotParsed};
use crate::model::refusal::Refusal;
use crate::replay::{lent_bytes, replay};
use crate::trying::{no_text, parsed};

fn reads(text: &str, formula: &[u8]) {
    assert_eq!(parsed(text.as_bytes()), Ok(formula.to_vec()), "{text}");
}

fn refused(text: &str, line: u64, byte: usize) {
    assert_eq!(parsed(text.as_bytes()), no_text(line, byte), "{text}");
}

#[test]
fn rules_as_they_are_typed() {
    reads("G(!p0|!p1Up2)", &[8, 4, 2, 64, 6, 2, 65, 66]);
    reads("trueUXp1&Fp2", &[3, 6, 1, 5, 65, 7, 66]);
    reads(" p0\n", &[64]);
    reads("\t(\r\n false \r\n)\t", &[0]);
    reads("p0&p1|p2Up3&p4", &[4, 3, 64, 65, 3, 6, 66, 67, 68]);
    reads("p0Up1Up2", &[6, 64, 6, 65, 66]);
    reads("(p0Up1)Up2", &[6, 6, 64, 65, 66]);
    reads("!XFG!p63", &[2, 5, 7, 8, 2, 127]);
}

#[test]
fn the_place_inside_a_word() {
    refused("p64", 1, 2);
    refused("p00", 1, 2);
    refused("p07", 1, 2);
    refused("p639", 1, 3);
    refused("p 0", 1, 1);
    refused("p", 1, 1);
    refused("trux", 1, 3);
    refused("tr ue", 1, 2);
    refused("fals", 1, 4);
    refused("P0", 1, 0);
}

#[test]
fn the_place_between_words() {
    refused("p0)", 1, 2);
    refused("(p0", 1, 3);
    refused("()", 1, 1);
    refused("p0p1", 1, 2);
    refused("p0 p1", 1, 3);
    refused("p0!", 1, 2);
    refused("&p0", 1, 0);
    refused("p0&&p1", 1, 3);
}

#[test]
fn lines_are_ended_by_line_feeds() {
    refused("", 1, 0);
    refused("p0&\n", 2, 4);
    refused("p0&\r\n|", 2, 5);
    refused("p0\r&\rp1)", 1, 7);
    refused("p0\n&\n\np1\n?", 5, 9);
    refused("p0?\n", 1, 2);
}

#[test]
fn sixteen_comes_before_three_and_one_before_both() {
    let nots = |count: usize, behind: &str| "!".repeat(count) + "p0" + behind;
    assert_eq!(parsed(nots(1023, "").as_bytes()), Ok([vec![2; 1023], vec![64]].concat()));
    assert_eq!(parsed(nots(1024, "").as_bytes()), Err(NotParsed::Refused(Refusal::Range)));
    refused(&nots(1024, ")"), 1, 1026);
    for lent in [0, 1023, 1025] {
        for text in ["p0", "p?", &nots(1024, "")] {
            let mut formula = lent_bytes(lent);
            assert_eq!(parse(text.as_bytes(), &mut formula), Err(NotParsed::Refused(Refusal::Length)));
            assert_eq!(formula, lent_bytes(lent));
        }
    }
}

#[test]
fn a_place_stands_in_the_answer() {
    let request = |call: u8, payload: &[u8], lent: u16| {
        let mut bytes = vec![0; 24];
        bytes[0] = call;
        bytes[4] = payload.len() as u8;
        bytes[12..14].copy_from_slice(&lent.to_le_bytes());
        [&bytes[..], payload].concat()
    };
    assert_eq!(replay(&request(11, b"!\np0)", 0)), "1 1\n");
    assert!(replay(&request(11, b"!\np0)", 1024)).starts_with("16 2 4 "));
    assert!(replay(&request(11, b"!\np0", 1024)).starts_with("0 2 "));
    assert!(replay(&request(12, &[2, 64], 8192)).starts_with("0 3 "));
    assert!(replay(&request(12, &[2, 128], 8192)).starts_with("6 "));
}
