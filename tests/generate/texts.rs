// Texts of formulas as someone might type them: with spaces and line ends between the signs, and with more brackets than are needed.

use crate::random::Random;

// Of a hundred signs so many have space behind them, and of a hundred parts so many get brackets that are not needed.
#[derive(Clone, Copy)]
pub struct Hand {
    pub spaces: usize,
    pub brackets: usize, // less than all: those with brackets around them are parts too
}

pub const BARE: Hand = Hand { spaces: 0, brackets: 0 };

// The text of a formula, which is without place holders.
pub fn typed(random: &mut Random, formula: &[u8], hand: Hand) -> Vec<u8> {
    let mut typing = Typing { random, hand, text: vec![] };
    typing.space();
    typing.part(formula, 0);
    typing.text
}

struct Typing<'a> {
    random: &'a mut Random,
    hand: Hand,
    text: Vec<u8>,
}

impl Typing<'_> {
    // Types the formula at the front, where nothing may stand that binds looser than this; what is behind it.
    fn part<'b>(&mut self, bytes: &'b [u8], least: usize) -> &'b [u8] {
        let (code, operands) = (bytes[0], &bytes[1..]);
        let (sign, binds) = match code {
            4 => ("|", 0),
            3 => ("&", 1),
            6 => ("U", 2),
            2 => ("!", 3),
            5 => ("X", 3),
            7 => ("F", 3),
            8 => ("G", 3),
            _ => ("", 3),
        };
        let mut brackets = usize::from(binds < least);
        while self.random.percent(self.hand.brackets) {
            brackets += 1;
        }
        (0..brackets).for_each(|_| self.sign("("));
        let rest = match code {
            _ if sign.is_empty() => {
                self.sign(&word(code));
                operands
            }
            3 | 4 | 6 => {
                let right = self.part(operands, binds + 1);
                self.sign(sign);
                self.part(right, binds)
            }
            _ => {
                self.sign(sign);
                self.part(operands, binds)
            }
        };
        (0..brackets).for_each(|_| self.sign(")"));
        rest
    }

    fn sign(&mut self, sign: &str) {
        self.text.extend(sign.bytes());
        self.space();
    }

    fn space(&mut self) {
        if self.random.percent(self.hand.spaces) {
            for _ in 0..self.random.within(1, 3) {
                self.text.extend(self.random.pick::<&[u8]>(&[b" ", b" ", b"\t", b"\r", b"\n", b"\r\n"]));
            }
        }
    }
}

fn word(code: u8) -> String {
    match code {
        0 => "false".into(),
        1 => "true".into(),
        _ => format!("p{}", code - 64),
    }
}

// A byte that texts have, or any.
fn letter(random: &mut Random) -> u8 {
    match random.below(8) {
        0 => random.word() as u8,
        1 => random.pick(b"p0123456789"),
        2 => random.pick(b"truefalse"),
        3 => random.pick(b" \t\r\n"),
        _ => random.pick(b"!XFGU&|()"),
    }
}

// One byte is replaced, put in or taken out, or the next one with it.
pub fn damaged(random: &mut Random, mut text: Vec<u8>) -> Vec<u8> {
    let place = random.below(text.len());
    let letter = letter(random);
    match random.below(4) {
        0 => text[place] = letter,
        1 => text.insert(place + random.below(2), letter),
        2 => drop(text.remove(place)),
        _ => drop(text.drain(place..text.len().min(place + 2))),
    }
    text
}

// Words and signs in no order, some of them no word.
pub fn any_signs(random: &mut Random, count: usize) -> Vec<u8> {
    let signs =
        ["p0", "p63", "p64", "p7", "true", "false", "tru", "p", "p00", "p 1", "!", "X", "F", "G", "U", "&", "|", "(", ")", " ", "\n"];
    (0..count).flat_map(|_| random.pick(&signs).bytes()).collect()
}

pub fn any_bytes(random: &mut Random, count: usize) -> Vec<u8> {
    (0..count).map(|_| letter(random)).collect()
}
