// Named texts and formulas for parse and print: where each kind of text goes wrong, where a text ends, and the limits. They open every
// stream.

use crate::folding::smallest;
use crate::formulas::nested;
use crate::parsing::FORMULA;
use crate::printing::TEXT;
use crate::request::Request;

const TEXTS: &[&str] = &[
    "G(!p0|!p1Up2)",
    "trueUXp1&Fp2",
    " p0\n",
    "\t(\r\n p0 \r\n)\t",
    "p0&p1|p2Up3&p4",
    "p0Up1Up2",
    "(p0Up1)Up2",
    "!XFG!p63",
    "",
    " ",
    "\n\r\n",
    "p64",
    "p639",
    "p63 9",
    "p9",
    "p10",
    "p70",
    "p99",
    "p00",
    "p07",
    "p",
    "p 0",
    "P0",
    "t",
    "tru",
    "trux",
    "tr ue",
    "truee",
    "True",
    "falsetrue",
    "fals",
    "f",
    "p0)",
    "(p0",
    "()",
    "(",
    ")",
    "p0p1",
    "p0 p1",
    "p0!",
    "p0(p1)",
    "(p0)(p1)",
    "p0&",
    "p0&\n",
    "p0&\r\n|",
    "p0\r&\rp1)",
    "p0\n&\n\np1\n?",
    "\n\n&",
    "&p0",
    "p0&&p1",
    "p0U",
    "Up0",
    "!",
    "!)",
    "(p0)) ",
    "p0\u{0}",
    "p0\u{b}",
    "\u{a0}p0",
];

// So many nots before p0, and what comes behind it.
fn nots(count: usize, behind: &str) -> Vec<u8> {
    [vec![b'!'; count], b"p0".to_vec(), behind.bytes().collect()].concat()
}

// An and-chain of so many words, and an or in front.
fn chain(words: usize) -> Vec<u8> {
    [b"p0|".to_vec(), vec!["p1"; words].join("&").into_bytes()].concat()
}

fn brackets(opened: usize, closed: usize) -> Vec<u8> {
    [vec![b'('; opened], b"p0".to_vec(), vec![b')'; closed]].concat()
}

fn texts() -> Vec<Vec<u8>> {
    let long = [
        nots(1022, ""),
        nots(1023, ""),
        nots(1024, ""),
        nots(1024, ")"),
        nots(1024, "&"),
        nots(1023, "\n\np1"),
        chain(511),
        chain(512),
        brackets(4095, 4095),
        brackets(4095, 4094),
        brackets(4094, 4095),
        brackets(8190, 0),
        vec![b'('; 8192],
        vec![b'\n'; 8192],
    ];
    TEXTS.iter().map(|text| text.bytes().collect()).chain(long).collect()
}

fn formulas() -> Vec<Vec<u8>> {
    let left = |count: usize| [vec![6; count], vec![0; count + 1]].concat();
    let codes = [2, 8, 9, 63, 64, 126, 127, 128, 191, 192, 255];
    let lone = codes.iter().map(|code| vec![*code]);
    let longest = [vec![], left(511), [vec![2], left(511)].concat(), left(512), nested(2, 1023), nested(2, 1024)];
    lone.chain(longest).chain(smallest()).collect()
}

pub fn worked() -> Vec<(&'static str, Request)> {
    let lent = [0, FORMULA - 1, FORMULA + 1].iter().flat_map(|&lent| [(b"p0", lent), (b"p?", lent)]);
    let wrongly_parsed = lent.map(|(text, lent)| ("parse", Request::parse(text.to_vec(), lent)));
    let wrongly_printed = [0, TEXT - 1].iter().map(|&lent| ("print", Request::print(vec![64], lent)));
    let parsed = texts().into_iter().map(|text| ("parse", Request::parse(text, FORMULA)));
    let printed = formulas().into_iter().map(|formula| ("print", Request::print(formula, TEXT)));
    parsed.chain(wrongly_parsed).chain(printed).chain(wrongly_printed).collect()
}
