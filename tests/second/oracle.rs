// The grammar of texts once more, for short texts alone and by brute force: an operator is tried at each place where its sign stands.

const TWOS: [(u8, u8); 3] = [(b'|', 4), (b'&', 3), (b'U', 6)]; // from the loosest on
const ONES: [(u8, u8); 4] = [(b'!', 2), (b'X', 5), (b'F', 7), (b'G', 8)];

// Every formula that a text can be read as.
pub fn formulas(text: &[u8]) -> Vec<Vec<u8>> {
    joined(from_sign(text), &TWOS)
}

// Those whose outermost operator is one of these, or none of the three. The text begins with no space.
fn joined(text: &[u8], operators: &[(u8, u8)]) -> Vec<Vec<u8>> {
    let ((sign, code), tighter) = match operators.split_first() {
        Some((first, tighter)) => (*first, tighter),
        None => return prefixed(text),
    };
    let mut all = joined(text, tighter);
    for place in (0..text.len()).filter(|&place| text[place] == sign) {
        for left in joined(&text[..place], tighter) {
            for right in joined(from_sign(&text[place + 1..]), operators) {
                all.push([&[code], &left[..], &right].concat());
            }
        }
    }
    all
}

fn prefixed(text: &[u8]) -> Vec<Vec<u8>> {
    let text = to_sign(text);
    match text {
        [b'(', inner @ .., b')'] => joined(from_sign(inner), &TWOS),
        [first, rest @ ..] => match ONES.iter().find(|(sign, _)| sign == first) {
            Some((_, code)) => prefixed(from_sign(rest)).iter().map(|f| [&[*code], &f[..]].concat()).collect(),
            None => word(text),
        },
        [] => vec![],
    }
}

fn word(text: &[u8]) -> Vec<Vec<u8>> {
    let number = |digits: &[u8]| String::from_utf8_lossy(digits).parse::<u8>().ok();
    match text {
        b"false" => vec![vec![0]],
        b"true" => vec![vec![1]],
        [b'p', digits @ ..] => match number(digits) {
            Some(number) if number < 64 && number.to_string().as_bytes() == digits => vec![vec![64 + number]],
            _ => vec![],
        },
        _ => vec![],
    }
}

fn is_sign(byte: &u8) -> bool {
    !b" \t\r\n".contains(byte)
}

// Without the space in front.
fn from_sign(text: &[u8]) -> &[u8] {
    &text[text.iter().position(is_sign).unwrap_or(text.len())..]
}

// Without the space at the end.
fn to_sign(text: &[u8]) -> &[u8] {
    &text[..text.iter().rposition(is_sign).map_or(0, |last| last + 1)]
}

// Whether some text begins so: a word or the rest of one is put behind it, and as many brackets as it may need.
pub fn begins_text(bytes: &[u8]) -> bool {
    let opened = bytes.iter().filter(|&&byte| byte == b'(').count();
    let rests = ["true", "false", "p0"].iter().flat_map(|word| (0..=word.len()).map(move |from| &word.as_bytes()[from..]));
    let mut whole = rests.flat_map(|rest| (0..=opened).map(move |closed| [bytes, rest, &vec![b')'; closed]].concat()));
    whole.any(|text| !formulas(&text).is_empty())
}

// The first byte with which no text begins so, or the end.
pub fn place(text: &[u8]) -> usize {
    (0..text.len()).find(|&byte| !begins_text(&text[..=byte])).unwrap_or(text.len())
}
