//! Labels in lines (wish 4 of document 02), by two methods. The lines are filled one after the other, with
//! widths that are the source's own measure of each line. The fewest lines of all choices of breaks come from a
//! table over the words, with widths that are differences of sums. Where the two disagree the oracle stops, so
//! that the run fails and nothing passes for an answer.

use renew_ui::text;

use crate::desk::ILL_FORMED;

/// The longest text that is broken into lines, in bytes.
const LONGEST_TEXT: usize = 1_024;

/// Raw units in a pixel.
const PIXEL: i64 = 65_536;

/// The refusal numbers that wish 4 adds.
const WIDE: u8 = 12;
const SHORT: u8 = 13;

/// How many lines there are, where each starts written into the lent places; or the refusal number, and the
/// places as they were.
pub fn lines(bytes: &[u8], width: u32, places: &mut [u32]) -> Result<usize, u8> {
    let text = core::str::from_utf8(bytes).map_err(|_| ILL_FORMED)?;
    if text.len() > LONGEST_TEXT {
        return Err(SHORT);
    }
    if text.split(' ').any(|word| !fits(word, width)) {
        return Err(WIDE);
    }
    let lines = filled(text, width);
    check(text, width, &lines);
    if lines.len() > places.len() {
        return Err(SHORT);
    }
    for (place, start) in places.iter_mut().zip(starts(&lines)) {
        *place = start;
    }
    Ok(lines.len())
}

/// Whether a line, or a word alone on one, is no wider than so many pixels.
fn fits(line: &str, width: u32) -> bool {
    text::measure(line).to_bits() <= i64::from(width) * PIXEL
}

/// The lines, each with as many words as fit. Words are what lies between single spaces, empty ones too.
fn filled(text: &str, width: u32) -> Vec<String> {
    let mut lines: Vec<String> = Vec::new();
    for word in text.split(' ') {
        if let Some(line) = lines.last_mut() {
            let longer = format!("{line} {word}");
            if fits(&longer, width) {
                *line = longer;
                continue;
            }
        }
        lines.push(word.to_string());
    }
    lines
}

/// The byte where each line starts: one space is replaced by each break.
fn starts(lines: &[String]) -> impl Iterator<Item = u32> {
    lines.iter().scan(0, |next, line| {
        let start = *next;
        *next += line.len() as u32 + 1;
        Some(start)
    })
}

/// Stops the oracle where the lines are not what wish 4 says of them.
fn check(text: &str, width: u32, lines: &[String]) {
    assert!(lines.iter().all(|line| fits(line, width)), "a line of `{text}` is wider than {width}");
    assert!(lines.join(" ") == text, "the lines of `{text}` for {width} are not the text");
    let fewest = fewest(text, width);
    assert!(lines.len() == fewest, "`{text}` for {width}: {} lines, the fewest are {fewest}", lines.len());
}

/// The second method: the fewest lines of any choice of breaks at spaces whose lines all fit. Each word fits.
fn fewest(text: &str, width: u32) -> usize {
    // How wide the text is up to the start and up to the end of each word.
    let mut words = vec![];
    let (mut sum, mut start) = (0, 0);
    for character in text.chars() {
        let advance = u64::from(text::advance_of(character));
        if character == ' ' {
            words.push((start, sum));
            start = sum + advance;
        }
        sum += advance;
    }
    words.push((start, sum));
    // The fewest lines of the first words: of none, of one, and so on.
    let mut fewest = vec![0];
    for (last, &(_, end)) in words.iter().enumerate() {
        let lines = |first: usize| (end - words[first].0 <= u64::from(width)).then(|| fewest[first] + 1);
        let least = (0..=last).filter_map(lines).min();
        fewest.push(least.expect("each word fits"));
    }
    fewest[words.len()]
}
