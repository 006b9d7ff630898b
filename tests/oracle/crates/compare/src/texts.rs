//! Characters and byte strings worth trying.

use crate::rng::Rng;

const ONE_BYTE: [u32; 10] = [0x20, 0x30, 0x37, 0x2e, 0x2c, 0x41, 0x7a, 0x7e, 0x7f, 0x00];
const TWO_BYTES: [u32; 4] = [0x80, 0xe9, 0x3b1, 0x7ff];
const THREE_BYTES: [u32; 6] = [0x800, 0x20ac, 0xd7ff, 0xe000, 0xfffd, 0xffff];
const FOUR_BYTES: [u32; 3] = [0x1_0000, 0x1_f600, 0x10_ffff];
const NO_SCALARS: [u32; 6] = [0xd800, 0xdbff, 0xdc00, 0xdfff, 0x11_0000, u32::MAX];

/// Every form that metres tells apart, and some that only look like one.
const METRES: [&str; 78] = [
    "", "0", "7", "00", "007", "000", "42", "999", "1000", "0000", "7.", "7.4", "7.40", "7.400", "0.0",
    "0.01", "999.99", "12.3", "123.4", "1234.5", ".", ".5", "7..4", "1.2.3", "7,40", " 7", "7 ", "7 4", "-1",
    "+1", "1e2", "a", "7a", "7.a", "7.4a", "7é", "７", "7.０", "\u{0}7", "7:4", ",", "7,", ",5", "7,4",
    "7,400", "1000,4", "999,99", "7,,4", "7,4,0", "7,4.0", "7.4,0", " ", "   ", " 7.4 ", "  0", "0  ",
    " 7,40 ", "7 .4", "7. 4", "7 ,4", "7, 4", ", ", " , ", " .", "7, ", " ,5", "7.4 m", "\t", "\t7", "7\t",
    "\n", "7\n", "\u{a0}", "\u{a0}7", "7\u{a0}", " \t7", "7 \n", "\u{2003}",
];

/// Numbers of metres, and some with a digit too many.
const NUMBERS: [&str; 12] =
    ["0", "7", "42", "007", "999", "1000", "7.4", "7.40", "7.400", "0.01", "999.99", "1234.5"];

/// What reads as metres.
const DRAUGHTS: [&str; 12] =
    ["0", "7", "42", "007", "7.4", "7.40", "7,40", "12,3", "0.01", "999.99", " 7.4", "7 "];

/// Blanks. Code 32 alone is a space; the others are there for a desk that takes them for one.
const BLANKS: [char; 8] = [' ', ' ', ' ', ' ', ' ', '\t', '\n', '\u{a0}'];

/// Byte strings that RFC 3629 does not allow.
const ILL_FORMED: [&str; 22] = [
    "80", "bf", "c0", "c1", "c080", "c1bf", "c3", "c328", "e08080", "e09fbf", "e0a0", "eda080", "edbfbf",
    "e28228", "f0808080", "f08fbfbf", "f09f98", "f4908080", "f5808080", "f8888080", "fe", "ff",
];

/// Characters of every advance from 2 to 13 pixels that one has.
const WIDTHS: [char; 18] =
    ['\'', 'i', 'l', '|', 't', '.', '"', '^', 'a', 'e', '7', '~', 'w', 'A', 'G', 'm', 'W', '@'];

/// Characters that are as wide as `?`; some would part words for a desk that takes them for a space.
const UNPRINTED: [char; 8] = ['\t', '\n', '\u{0}', '\u{1f}', '\u{7f}', '\u{a0}', '\u{2003}', '\u{3000}'];

/// A code whose character takes this many bytes.
pub fn code_of(rng: &mut Rng, bytes: usize) -> u32 {
    match bytes {
        1 => rng.pick(&ONE_BYTE),
        2 => rng.pick(&TWO_BYTES),
        3 => rng.pick(&THREE_BYTES),
        _ => rng.pick(&FOUR_BYTES),
    }
}

/// Any code; most often a scalar value.
pub fn code(rng: &mut Rng) -> u32 {
    if rng.chance(8) {
        return rng.pick(&NO_SCALARS);
    }
    let bytes = 1 + rng.below(4);
    code_of(rng, bytes)
}

pub fn no_scalar(rng: &mut Rng) -> u32 {
    rng.pick(&NO_SCALARS)
}

/// A number or another form; at times its points are commas, or blanks and commas stand anywhere in it.
pub fn metres(rng: &mut Rng) -> String {
    let form = if rng.chance(50) { rng.pick(&NUMBERS) } else { rng.pick(&METRES) };
    let mut text = form.to_string();
    if rng.chance(40) {
        text = text.replace('.', ",");
    }
    if rng.chance(50) {
        for _ in 0..1 + rng.below(3) {
            put_in(rng, &mut text);
        }
    }
    text
}

/// A text that reads as metres.
pub fn draught(rng: &mut Rng) -> &'static str {
    rng.pick(&DRAUGHTS)
}

/// Puts a comma or some blanks of one kind at any place; at the two ends more often.
fn put_in(rng: &mut Rng, text: &mut String) {
    let mut places: Vec<usize> = text.char_indices().map(|(at, _)| at).collect();
    places.extend([0, text.len(), text.len()]);
    let at = rng.pick(&places);
    if rng.chance(20) {
        text.insert(at, ',');
    } else {
        let blank = rng.pick(&BLANKS).to_string();
        text.insert_str(at, &blank.repeat(1 + rng.below(3)));
    }
}

/// Some words, each parted from the next by one space. By an empty one two spaces meet, or one is at an end.
pub fn notice(rng: &mut Rng) -> String {
    let words = 1 + rng.below(10);
    (0..words).map(|_| word(rng)).collect::<Vec<_>>().join(" ")
}

/// The same with just so many bytes and words that are longer.
pub fn long_notice(rng: &mut Rng, bytes: usize) -> String {
    let mut text = notice(rng);
    while text.len() < bytes {
        text.push(' ');
        (0..1 + rng.below(5)).for_each(|_| text.push_str(&word(rng)));
    }
    while text.len() > bytes {
        text.pop();
    }
    let rest = bytes - text.len();
    text + &"i".repeat(rest)
}

/// What may lie between two spaces: most often characters of different widths, at times nothing.
fn word(rng: &mut Rng) -> String {
    let characters = 1 + rng.below(8);
    match rng.below(10) {
        0 | 1 => String::new(),
        2 => (0..characters).map(|_| rng.pick(&UNPRINTED)).collect(),
        3 => (0..characters).map(|_| scalar(rng)).filter(|&character| character != ' ').collect(),
        _ => (0..characters).map(|_| rng.pick(&WIDTHS)).collect(),
    }
}

/// Bytes that are no UTF-8.
pub fn ill_formed(rng: &mut Rng) -> Vec<u8> {
    let pairs = rng.pick(&ILL_FORMED).as_bytes().chunks(2);
    pairs.map(|pair| pair.iter().fold(0, |byte, &digit| byte << 4 | nibble(digit))).collect()
}

fn nibble(digit: u8) -> u8 {
    char::from(digit).to_digit(16).unwrap_or(0) as u8
}

/// Hexadecimal digits for `label`.
pub fn digits(bytes: &[u8]) -> String {
    bytes.iter().map(|byte| format!("{byte:02x}")).collect()
}

/// Hexadecimal digits for `measure`; about one in three is ill-formed.
pub fn hex(rng: &mut Rng) -> String {
    let pieces = if rng.chance(5) { rng.below(120) } else { rng.below(12) };
    let mut digits: String = (0..pieces).map(|_| scalar_hex(rng)).collect();
    if rng.chance(35) {
        digits.push_str(rng.pick(&ILL_FORMED));
        if rng.chance(50) {
            digits.push_str(&scalar_hex(rng));
        }
    }
    if digits.is_empty() { "-".to_string() } else { digits }
}

fn scalar_hex(rng: &mut Rng) -> String {
    let mut bytes = [0; 4];
    digits(scalar(rng).encode_utf8(&mut bytes).as_bytes())
}

/// Any character.
fn scalar(rng: &mut Rng) -> char {
    let code = match rng.below(3) {
        0 => rng.between(0, 0x10_ffff) as u32,
        1 => rng.between(31, 127) as u32,
        _ => code(rng),
    };
    char::from_u32(code).unwrap_or('?')
}
