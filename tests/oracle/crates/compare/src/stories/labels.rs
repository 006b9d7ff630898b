//! Labels in lines: words and spaces of every kind, widths at which a word just fits or just does not, buffers
//! of just enough places or one fewer, texts around both bounds, and the order of the refusals.

use desk::lines::lines;
use desk::ui::text::measure;

use crate::author::Author;
use crate::stories::starts;
use crate::styles::PX;
use crate::texts;

/// The most bytes that wait, the most that are broken into lines, and the most that one line of a script adds.
const MOST_WAITING: usize = 1_100;
const LONGEST_TEXT: usize = 1_024;
const LONGEST_PIECE: usize = 509;

/// A text for several widths.
pub fn notice(author: &mut Author) {
    let text = texts::notice(&mut author.rng);
    for _ in 0..2 + author.rng.below(3) {
        wait_for(author, text.as_bytes());
        break_up(author, &text);
    }
}

/// Nothing but spaces, or none: each space is 4 pixels, and so many spaces part one more empty words.
pub fn blanks(author: &mut Author) {
    let spaces = match author.rng.below(12) {
        0 => author.rng.pick(&[1_023, 1_024, 1_025]),
        1..4 => 0,
        _ => author.rng.below(9),
    };
    wait_for(author, &vec![b' '; spaces]);
    let width = author.rng.pick(&[0, 1, 3, 4, 5, 7, 8, 9, 12, 4_096, u32::MAX]);
    call_lines(author, width);
}

/// Texts around 1,024 bytes, at times with a word that is too wide; and labels around 1,100.
pub fn bounds(author: &mut Author) {
    let most = author.rng.pick(&[1_023, 1_024, 1_024, 1_025, 1_025, 1_026, 1_099, MOST_WAITING]);
    let text = texts::long_notice(&mut author.rng, most);
    wait_for(author, text.as_bytes());
    if most >= 1_099 {
        author.call("label 4141");
        author.call("label 41");
        author.call("label -");
    }
    if author.rng.chance(60) {
        let wider = author.rng.pick(&[-1, 0, 40, 200, i32::MAX]);
        call_lines(author, widest_word(&text).saturating_add_signed(wider));
    } else {
        break_up(author, &text);
    }
}

/// Bytes that are no UTF-8 at any place, in texts that are refused for something else too or for nothing else.
pub fn ill_formed(author: &mut Author) {
    let text = match author.rng.below(3) {
        0 => texts::long_notice(&mut author.rng, LONGEST_TEXT + 2),
        _ => texts::notice(&mut author.rng),
    };
    let mut bytes = text.clone().into_bytes();
    let wrong = texts::ill_formed(&mut author.rng);
    let inside = author.rng.below(bytes.len());
    let at = author.rng.pick(&[0, inside, inside, bytes.len()]);
    bytes.splice(at..at, wrong);
    bytes.truncate(MOST_WAITING);
    wait_for(author, &bytes);
    let width = author.rng.pick(&[0, 3, widest_word(&text), u32::MAX]);
    call_lines(author, width);
}

/// A label that waits while a tree is replaced, by a start that may be refused.
pub fn across_a_start(author: &mut Author) {
    let text = texts::notice(&mut author.rng);
    wait_for(author, text.as_bytes());
    starts::anew(author);
    break_up(author, &text);
}

/// A label of many pieces, empty ones too, with lines between them that are no call; then nothing waits. At
/// times it is left, and the next label comes behind it.
pub fn pieces(author: &mut Author) {
    let text = texts::notice(&mut author.rng);
    for byte in text.bytes().take(12) {
        author.call(format!("label {byte:02x}"));
        if author.rng.chance(20) {
            let line = author.rng.pick(&["label -", "lines 9", "lines 9 1101", "label 4", "state"]);
            author.call(line);
        }
    }
    if author.rng.chance(70) {
        call_lines(author, 60);
        author.call("lines 0 0");
        author.call("lines 0 2");
    }
}

/// Makes these bytes the label that waits, in one piece or several, which may part a character.
fn wait_for(author: &mut Author, bytes: &[u8]) {
    if !author.label().is_empty() {
        author.call("lines 100 3");
    }
    let mut rest = bytes;
    while !rest.is_empty() {
        let most = rest.len().min(LONGEST_PIECE);
        let part = if author.rng.chance(75) { most } else { 1 + author.rng.below(most) };
        let (piece, left) = rest.split_at(part);
        author.call(format!("label {}", texts::digits(piece)));
        rest = left;
    }
}

/// Breaks what waits for a width that is a turning point of this text.
fn break_up(author: &mut Author, text: &str) {
    let width = match author.rng.below(12) {
        0 => author.rng.pick(&[0, 1, 65_535, 65_536, u32::MAX - 1, u32::MAX]),
        1 | 2 => near(author, widest_word(text)),
        3 => near(author, pixels(text)),
        _ => neighbours(author, text),
    };
    call_lines(author, width);
}

/// The width of some neighbouring words, or one pixel more or less.
fn neighbours(author: &mut Author, text: &str) -> u32 {
    let words: Vec<_> = text.split(' ').collect();
    let first = author.rng.below(words.len());
    let last = (first + author.rng.below(5)).min(words.len() - 1);
    let width = near(author, pixels(&words[first..=last].join(" ")));
    // Most often each word fits, so that there are lines.
    if author.rng.chance(85) { width.max(widest_word(text)) } else { width }
}

fn near(author: &mut Author, width: u32) -> u32 {
    width.saturating_add_signed(author.rng.pick(&[0, 0, 1, -1]))
}

/// Breaks what waits for this width. The buffer has most often just enough places or one fewer, seldom many.
fn call_lines(author: &mut Author, width: u32) {
    // Where it is refused anyway, the buffer is a reason more or none.
    let guess = author.rng.pick(&[1, 1, 2, 60]);
    let enough = lines(author.label(), width, &mut [0; MOST_WAITING]).unwrap_or(guess);
    let room = match author.rng.below(40) {
        0 => MOST_WAITING,
        1..4 => 0,
        4..9 => enough + 1 + author.rng.below(3),
        9..18 => enough - 1,
        _ => enough,
    };
    author.call(format!("lines {width} {room}"));
}

fn widest_word(text: &str) -> u32 {
    text.split(' ').map(pixels).max().unwrap_or(0)
}

fn pixels(text: &str) -> u32 {
    u32::try_from(measure(text).to_bits() / PX).unwrap_or(u32::MAX)
}
